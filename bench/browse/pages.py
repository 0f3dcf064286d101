#!/usr/bin/env python3
"""pages.py PROGRAM [RECORDS] [ROUNDS] [FILES]: `browse` next to `run` and `load` of the same files, in turn, each time into a journal that isn't there.
100,000 records, five rounds and four files where nothing else is said; file after file is of `make 7`, `make 8` and so on, with as many records each.
Prints the seconds on the clock, the processor's and the most memory of each call, how many pages were got while files were loaded, and the medians;
and what browsing costs beside the time of loading: what `browse` takes more than `run` in a round, as a part of that round's `load`.
Looks whether the numbers of the pages rise, whether the last page is of all, and whether OUT and REPORT are those of the journal."""
import os
import shutil
import statistics
import subprocess
import sys
import tempfile
import time

program = os.path.realpath(sys.argv[1])
records, rounds, count = (int(word) for word in (sys.argv[2:] + ["100000", "5", "4"][len(sys.argv) - 2:])[:3])
folder = tempfile.mkdtemp(dir=os.environ.get("TMPDIR", "/dev/shm"))
os.chdir(folder)
codes = [f"L{n}" for n in range(count)]
files = [f"{code}={code}.mrc" for code in codes]
well = True


def call(*words):
    begun = time.time()
    child = subprocess.Popen([program, *words], stdout=subprocess.DEVNULL, stderr=subprocess.DEVNULL)
    _, status, used = os.wait4(child.pid, 0)
    if os.waitstatus_to_exitcode(status) not in (0, 1):
        sys.exit(f"{words[0]} ended with {os.waitstatus_to_exitcode(status)}")
    return time.time() - begun, used.ru_utime + used.ru_stime, used.ru_maxrss // 1024


def numbers(name):
    return [int(line[3:]) for line in open(name, encoding="utf-8") if line.startswith("AT ")]


def told(what, used, more=""):
    print(f"{what:7} {used[0]:6.2f} s on the clock, {used[1]:6.2f} s of processor, {used[2]:5} MB{more}", flush=True)


def median(calls, part):
    return statistics.median(one[part] for one in calls)


for seed, code in enumerate(codes, 7):
    call("make", str(seed), str(records // count), f"{code}.mrc")
loads, runs, browses, pages = [], [], [], []
for turn in range(rounds):
    for name in ("l.jnl", "r.jnl", "b.jnl"):
        if os.path.exists(name):
            os.remove(name)
    loads.append(call("load", "l.jnl", *files))
    told("load", loads[-1])
    runs.append(call("run", "r.jnl", "r.out", "r.rep", *files))
    told("run", runs[-1])
    browses.append(call("browse", "b.jnl", "b.out", "b.rep", "b.pag", *files))
    at = numbers("b.pag")
    pages.append(len(at))
    told("browse", browses[-1], f", {len(at)} pages")
    call("export", "b.jnl", "x.out")
    call("report", "b.jnl", "x.rep")
    same = all(open(a, "rb").read() == open(b, "rb").read() for a, b in (("b.out", "x.out"), ("b.rep", "x.rep")))
    well = well and same and all(a < b for a, b in zip(at, at[1:])) and at[-1] == records // count * count
for what, calls in (("load", loads), ("run", runs), ("browse", browses)):
    print(f"median of {what}: {median(calls, 0):.2f} s on the clock, {median(calls, 1):.2f} s of processor, {median(calls, 2):.0f} MB")
clock, processor = (median(browses, part) / median(runs, part) for part in (0, 1))
cost = [statistics.median((b[part] - r[part]) / l[part] for l, r, b in zip(loads, runs, browses)) for part in (0, 1)]
print(f"medians: browse takes {clock:.2f} of run's time on the clock and {processor:.2f} of the processor's, with {statistics.median(pages):.0f} pages")
print(f"beside the time of loading: {cost[0]:.2f} of it more on the clock, {cost[1]:.2f} more of the processor's")
print("all is as due" if well else "NOT ALL IS AS DUE")
shutil.rmtree(folder)
sys.exit(0 if well else 1)
