#!/usr/bin/env python3
"""walk.py PROGRAM FILE ..: `salvage` over a small journal of these MARC files, whole, cut at each byte, and with each byte changed in three ways (and into a
closed gate and an open one). What it tells, how it ends and what its new journal has are compared with sound.py; the damaged journal has to stay as it
was, and a second `salvage` into the same journal has to tell the same. The digest of the whole journal has to find each change in front of its last
gate. Ends with 1 where one differs. Measures nothing."""
import os
import subprocess
import sys
import tempfile

from sound import sound_of, told_of

program = os.path.realpath(sys.argv[1])
files = [os.path.realpath(it) for it in sys.argv[2:]]
os.chdir(tempfile.mkdtemp())


def run(*words):
    done = subprocess.run([program, *words], capture_output=True)
    return done.returncode, done.stdout.decode(errors="replace")


def told_alone(text):
    """Without the line of the tool that tries programs."""
    return "".join(line + "\n" for line in text.splitlines() if not line.startswith("proved="))


for file in files:
    run("load", "journal", f"ULIB={file}")
journal = open("journal", "rb").read()
counts, wrong = {}, []
kept = next(line for line in run("verify", "journal")[1].splitlines() if line.startswith("sha256 ")).split()
digest, count = kept[1], kept[3]


def judge(what, image):
    open("damaged", "wb").write(image)
    if os.path.exists("new"):
        os.remove("new")
    status, told, entries = told_of(image)
    answers = [run("salvage", "damaged", "new") for _ in range(2)]
    for answer in answers:
        if (answer[0], told_alone(answer[1])) != (status, told):
            wrong.append(f"{what}: wanted {status} {told!r}, got {answer}")
    if open("damaged", "rb").read() != image:
        wrong.append(f"{what}: the damaged journal was written")
    verified, _ = run("verify", "damaged", count, digest)
    if image == journal and verified != 0:
        wrong.append(f"{what}: its own digest ends with {verified}")
    if image[: len(journal) - 1] != journal[:-1] and verified not in (6, 10):
        wrong.append(f"{what}: the digest of the whole journal ends with {verified}")
    if status == 0:
        found, damages, _ = sound_of(open("new", "rb").read())
        if (found, damages) != (entries, []):
            wrong.append(f"{what}: the new journal has {len(found)} entries, {damages}")
    kind = f"{what.split()[0]}: status {status}, {told.count('damage')} damages"
    counts[kind] = counts.get(kind, 0) + 1


judge("whole", journal)
for at in range(len(journal)):
    judge(f"cut at {at}", journal[:at])
for at, byte in enumerate(journal):
    for other in sorted({byte ^ 0x01, byte ^ 0x80, byte ^ 0xFF, ord("C"), ord("O")} - {byte}):
        judge(f"changed at {at} to {other:02x}", journal[:at] + bytes([other]) + journal[at + 1 :])
print(f"the journal has {len(journal)} bytes, {len(sound_of(journal)[0])} entries")
for kind, count in sorted(counts.items()):
    print(f"{count} {kind}")
for it in wrong[:20]:
    print("DIFFERS", it)
sys.exit(1 if wrong else 0)
