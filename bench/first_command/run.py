#!/usr/bin/env python3
"""Runs the first commands of README.md as they stand there: python3 bench/first_command/run.py [look | all]

`look` runs the one without proofs, and `all` the one that builds the program too. Run it at the top of the repository.
It ends with 1 where the lines that README.md shows don't come in their order, `..` standing for any."""

import re
import subprocess
import sys
from pathlib import Path


def blocks():
    """The indented blocks of the section `Try it`."""
    section = Path("README.md").read_text().split("## Try it\n")[1].split("\n## ")[0]
    return [re.sub(r"^ {4}", "", block, flags=re.M) for block in re.findall(r"(?:^ {4}.*\n)+", section, re.M)]


def output(command):
    """What a block prints; the kit's own lines go to standard error."""
    return subprocess.run(["bash", "-c", command], stdout=subprocess.PIPE, text=True).stdout


def come_in_order(lines, printed):
    """Whether each line is among the printed ones, behind that of the line before it."""
    rest = iter(printed.splitlines())
    return all(any(line == other for other in rest) for line in lines)


def main():
    look, build, shown = blocks()[:3]
    lines = [line for line in shown.splitlines() if line != ".."]
    counts = [line.split(": ", 1)[1] for line in lines if ": accepted" in line]
    good = all(count in output(look) for count in counts)
    print("without proofs:", "as shown" if good else "not as shown")
    if sys.argv[1:] == ["all"]:
        built = come_in_order(lines, output(build))
        print("proved:", "as shown" if built else "not as shown")
        good = good and built
    sys.exit(0 if good else 1)


main()
