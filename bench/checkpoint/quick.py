#!/usr/bin/env python3
"""quick.py PROGRAM [RECORDS] [ROUNDS]: `quick` next to `export` of the same journal, in turn: made records, a checkpoint of them all, and 1,000 behind it.
So is `checkpoint` into a POINT that isn't there. Prints the processor seconds and the most memory of each call, the medians, and the size of POINT by that
of the export."""
import os
import statistics
import subprocess
import sys
import tempfile

program = os.path.realpath(sys.argv[1])
records = sys.argv[2] if len(sys.argv) > 2 else "1000000"
rounds = int(sys.argv[3]) if len(sys.argv) > 3 else 5
room = tempfile.TemporaryDirectory()
os.chdir(room.name)


def run(*words):
    child = subprocess.Popen([program, *words], stdout=subprocess.PIPE, stderr=subprocess.DEVNULL)
    told = child.stdout.read().decode().strip().split("\n")[-1]
    _, status, used = os.wait4(child.pid, 0)
    seconds, most = used.ru_utime + used.ru_stime, used.ru_maxrss // 1024
    print(f"{words[0]:10} {seconds:6.2f} s {most:5} MB  status {os.waitstatus_to_exitcode(status)}  {told[:60]}", flush=True)
    return seconds, most


run("make", "7", records, "many.mrc")
run("make", "8", "1000", "few.mrc")
run("load", "journal", "A=many.mrc")
run("checkpoint", "journal", "point")
run("load", "journal", "B=few.mrc")
runs = {"export": [], "quick": [], "checkpoint": []}
for _ in range(rounds):
    runs["export"].append(run("export", "journal", "whole"))
    runs["quick"].append(run("quick", "journal", "point", "quickly"))
    if os.path.exists("another"):
        os.remove("another")
    runs["checkpoint"].append(run("checkpoint", "journal", "another"))
same = open("whole", "rb").read() == open("quickly", "rb").read()
size = os.path.getsize("point") / os.path.getsize("whole")
medians = {name: [statistics.median(it) for it in zip(*some)] for name, some in runs.items()}
print("medians: " + ", ".join(f"{name} {seconds:.2f} s {most:.0f} MB" for name, (seconds, most) in medians.items()))
export = medians["export"][0]
print(f"of the export's time quick takes {medians['quick'][0] / export:.2f}, checkpoint {medians['checkpoint'][0] / export:.2f}")
print(f"POINT is {size:.2f} of the export; the outputs are {'the same' if same else 'NOT THE SAME'}")
os.chdir("/")
sys.exit(0 if same else 1)
