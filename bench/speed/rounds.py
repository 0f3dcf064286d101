#!/usr/bin/env python3
"""Takes commands in turn, some rounds of them, and prints a line for each but the last, beside the last one, which is the base:

    rounds.py [--rounds N] [--records N] OF NAME=COMMAND .. BASE=COMMAND

A COMMAND is one of the shell, and has to end with 0; with `PREPARE;;COMMAND` what stands before is done first and isn't timed. A line has the medians:
seconds of processor time, user and system together (with the least and the most), seconds on the clock, and the most memory in MB (1,048,576 bytes);
then the base's; then how many times the base's they are. `--records N` adds how many records a second on the clock that is. `--header` prints what
stands over such lines.
"""
import argparse
import os
import statistics
import subprocess
import sys
import tempfile
import time

HEADER = f"{'of':30} {'command':12} {'processor, s':>22} {'clock':>7} {'MB':>5}   {'beside':8} {'processor, s':>22} {'clock':>7} {'MB':>5}   times: processor, clock, memory"


def run(words):
    """The processor time, the time on the clock and the most memory of a command, and of what it starts and waits for."""
    prepare, _, command = words.rpartition(";;")
    if prepare:
        subprocess.run(prepare, shell=True, check=True)
    with tempfile.NamedTemporaryFile("r") as memory, tempfile.TemporaryFile("w+") as errors:
        begun = time.perf_counter()
        # what the system tells of memory is at least this process's own, so `time` is asked
        asked = ["/usr/bin/time", "-q", "-f", "%M", "-o", memory.name, "sh", "-c", command]
        child = subprocess.Popen(asked, stdin=subprocess.DEVNULL, stdout=subprocess.DEVNULL, stderr=errors)
        _, status, used = os.wait4(child.pid, 0)
        clock = time.perf_counter() - begun
        child.returncode = os.waitstatus_to_exitcode(status)
        if child.returncode:
            errors.seek(0)
            sys.exit(f"{errors.read()}it ended with {child.returncode}: {command}")
        return used.ru_utime + used.ru_stime, clock, int(memory.read()) / 1024


def shown(runs):
    """The medians of some runs as text, and as numbers."""
    processor, clock, memory = zip(*runs)
    medians = [statistics.median(it) for it in (processor, clock, memory)]
    spread = f"{medians[0]:.2f} ({min(processor):.2f} to {max(processor):.2f})"
    return f"{spread:>22} {medians[1]:7.2f} {medians[2]:5.0f}", medians


def main():
    parser = argparse.ArgumentParser(description=__doc__, formatter_class=argparse.RawDescriptionHelpFormatter)
    parser.add_argument("--rounds", type=int, default=5)
    parser.add_argument("--records", type=int)
    parser.add_argument("--header", action="store_true")
    parser.add_argument("of", nargs="?")
    parser.add_argument("commands", nargs="*", metavar="NAME=COMMAND")
    asked = parser.parse_args()
    if asked.header:
        print(HEADER)
        return
    commands = dict(it.split("=", 1) for it in asked.commands)
    runs = {name: [] for name in commands}
    for _ in range(asked.rounds):
        for name, words in commands.items():
            runs[name].append(run(words))
    *names, base = commands
    base_text, base_medians = shown(runs[base])
    for name in names:
        text, medians = shown(runs[name])
        times = ", ".join(f"{one / other:.2f}" if other else "-" for one, other in zip(medians, base_medians))
        more = f"; {asked.records / medians[1]:,.0f} records a second" if asked.records else ""
        print(f"{asked.of:30} {name:12} {text}   {base:8} {base_text}   {times}{more}", flush=True)


main()
