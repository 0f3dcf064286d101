#!/usr/bin/env python3
"""ten.py PROGRAM [RECORDS] [ROUNDS]: `quick` over a POINT with one checkpoint of a journal, and over one with ten of it, in turn. Prints the processor
seconds and the most memory of each, and by how much the ten take more, by the medians."""
import os
import statistics
import subprocess
import sys
import tempfile

program = os.path.realpath(sys.argv[1])
records = sys.argv[2] if len(sys.argv) > 2 else "100000"
rounds = int(sys.argv[3]) if len(sys.argv) > 3 else 1
room = tempfile.TemporaryDirectory()
os.chdir(room.name)


def run(*words):
    child = subprocess.Popen([program, *words], stdout=subprocess.PIPE, stderr=subprocess.DEVNULL)
    told = child.stdout.read().decode().strip().split("\n")[-1]
    _, status, used = os.wait4(child.pid, 0)
    seconds, most = used.ru_utime + used.ru_stime, used.ru_maxrss // 1024
    print(f"{words[0]:10} {seconds:6.2f} s {most:5} MB  status {os.waitstatus_to_exitcode(status)}  {told[:60]}", flush=True)
    return seconds, most


run("make", "7", records, "many.mrc")
run("load", "journal", "A=many.mrc")
run("checkpoint", "journal", "one")
for _ in range(10):
    run("checkpoint", "journal", "ten")
ones, tens = [], []
for _ in range(rounds):
    ones.append(run("quick", "journal", "one", "from_one"))
    tens.append(run("quick", "journal", "ten", "from_ten"))
same = open("from_one", "rb").read() == open("from_ten", "rb").read()
one, ten = ([statistics.median(it) for it in zip(*some)] for some in (ones, tens))
print(f"POINT has {os.path.getsize('one')} and {os.path.getsize('ten')} bytes")
print(f"ten take {ten[1] - one[1]:.0f} MB and {ten[0] - one[0]:.2f} s more than one's {one[0]:.2f} s; the outputs are {'the same' if same else 'NOT THE SAME'}")
os.chdir("/")
sys.exit(0 if same else 1)
