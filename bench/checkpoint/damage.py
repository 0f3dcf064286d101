#!/usr/bin/env python3
"""damage.py PROGRAM FILE ..: `quick` over a small POINT that is cut at each byte, and over one in which each byte is changed in two ways. The records
are those of the MARC files. Counts what `quick` refuses, what it resumes from none with the right OUT, what it resumes with the right OUT, and
what has a wrong OUT with status 0, each with the status of `verify` over the same two files; the first of the last kind are shown. Ends with 1 where
`verify` passes a POINT from which OUT is wrong. Measures nothing."""
import os
import subprocess
import sys
import tempfile

program = os.path.realpath(sys.argv[1])
files = [os.path.realpath(it) for it in sys.argv[2:]]
os.chdir(tempfile.mkdtemp())


def run(*words):
    done = subprocess.run([program, *words], capture_output=True)
    return done.returncode, done.stdout.decode(errors="replace").strip()


for file in files:
    run("load", "journal", f"ULIB={file}")
status, told = run("checkpoint", "journal", "point")
assert status == 0, told
run("export", "journal", "due")
due = open("due", "rb").read()
point = open("point", "rb").read()
counts, wrong, passed = {}, [], []


def judge(what, image):
    open("damaged", "wb").write(image)
    if os.path.exists("out"):
        os.remove("out")
    status, told = run("quick", "journal", "damaged", "out")
    if status != 0:
        kind = f"refused with {status}"
    elif open("out", "rb").read() != due:
        kind = "A WRONG OUT with status 0"
        wrong.append(f"{what}: {told}")
    else:
        kind = "resumed from none, OUT right" if told.startswith("resumed 0 ") else "resumed, OUT right"
    verified = run("verify", "journal", "damaged")[0]
    if verified == 0 and kind.startswith("A WRONG"):
        passed.append(what)
    row = what.split()[0], kind, verified
    counts[row] = counts.get(row, 0) + 1


for at in range(len(point)):
    judge(f"cut at {at}", point[:at])
for at in range(len(point)):
    for flip in (0x01, 0x80):
        judge(f"changed at {at} by {flip:02x}", point[:at] + bytes([point[at] ^ flip]) + point[at + 1 :])
print(f"POINT has {len(point)} bytes")
for (how, kind, verified), count in sorted(counts.items()):
    print(f"{how}: {count} {kind}, verify {verified}")
for it in wrong[:12]:
    print(it)
for it in passed:
    print(f"PASSED BY verify: {it}")
sys.exit(1 if passed else 0)
