#!/usr/bin/env python3
"""What a run of the gate costs: runs `rt ci` with the given words at the top of the repository, and prints the processor
time of each crate's proof, of its tests' proofs and of its must-fail edits, the dearest first.

    python3 bench/gate/times.py [NAME ..]

The log of `rt ci` tells no times, so the processes of the prover are looked at every two seconds: which crate each checks
stands among its words, an edit is tried in a folder /tmp/rt-edit.., and a crate's tests are checked with --test. What a
process does in its last two seconds is lost. The log itself goes to /tmp/gate.log. Where the run is ended from outside, the
table says what was done until then.
"""
import os
import signal
import subprocess
import sys
import time

TICKS = os.sysconf("SC_CLK_TCK")


def processes():
    """The prover's processes: number, words, folder, processor seconds until now."""
    for number in filter(str.isdigit, os.listdir("/proc")):
        try:
            with open(f"/proc/{number}/cmdline", "rb") as file:
                words = file.read().decode(errors="replace").split("\0")
            if not words[0].endswith("/rattle"):
                continue
            folder = os.readlink(f"/proc/{number}/cwd")
            with open(f"/proc/{number}/stat") as file:
                fields = file.read().rsplit(")", 1)[1].split()
            # its own time alone: the jobs that it forks are processes of the prover too
            used = sum(map(int, fields[11:13]))
            yield number, fields[19], words, folder, used / TICKS
        except (OSError, IndexError):
            continue


def kind_of(words, folder):
    if "/rt-edit" in folder:
        return "edits"
    return "tests" if "--test" in words else "proof"


def end(_number, _frame):
    raise KeyboardInterrupt


def watch(gate, seen):
    """Notes what each process of the prover has used, until the run ends."""
    while gate.poll() is None:
        for number, began, words, folder, seconds in processes():
            if "--crate-name" in words:
                crate = words[words.index("--crate-name") + 1]
                seen[number, began] = crate, kind_of(words, folder), seconds
        time.sleep(2)


def main():
    signal.signal(signal.SIGTERM, end)
    log = open("/tmp/gate.log", "w")
    start = time.time()
    gate = subprocess.Popen(["rt", "ci", *sys.argv[1:]], stdout=log, stderr=subprocess.STDOUT)
    seen = {}
    try:
        watch(gate, seen)
    except KeyboardInterrupt:
        gate.terminate()
        gate.wait()
    rows = {}
    for crate, kind, seconds in seen.values():
        rows.setdefault(crate, {}).setdefault(kind, 0.0)
        rows[crate][kind] += seconds
    kinds = ["proof", "tests", "edits"]
    print(f"{'crate':24}" + "".join(f"{kind:>10}" for kind in kinds) + f"{'sum':>10}   processor seconds")
    for crate, row in sorted(rows.items(), key=lambda item: -sum(item[1].values())):
        cells = [row.get(kind, 0.0) for kind in kinds]
        print(f"{crate:24}" + "".join(f"{cell:10.0f}" for cell in cells) + f"{sum(cells):10.0f}")
    sums = [sum(row.get(kind, 0.0) for row in rows.values()) for kind in kinds]
    print(f"{'all':24}" + "".join(f"{cell:10.0f}" for cell in sums) + f"{sum(sums):10.0f}")
    print(f"{(time.time() - start) / 60:.0f} minutes on the clock, {os.cpu_count()} processors; the gate's status {gate.returncode}")
    return gate.returncode


if __name__ == "__main__":
    sys.exit(main())
