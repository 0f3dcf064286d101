#!/usr/bin/env python3
"""Tries the wrong bodies that the gate doesn't: each file bench/edits/NAME/X.edit is one for the crate NAME, and the prover must refuse it.

    python3 bench/edits/try.py [--gate] [--left FILE] [--minutes N] [--folder F] [NAME ..]
    python3 bench/edits/try.py --places

Works on a copy of the crates, crate by crate, those with the fewest below them first: `rt must-fail` proves the crate once, and tries each of its edits
over what that proved. It ends with 1 where one isn't refused, or wasn't tried.

--gate       tries the gate's own edits, crates/NAME/must-fail, too
--left FILE  has a line for each edit that wasn't refused, with what was said of it, or that wasn't tried; it is written anew behind each crate
--minutes N  begins no further crate after N minutes
--folder F   keeps the copy, with what was proved in it, in F, where the next run begins with it (else it goes)
--places     tries none: it looks, in a moment, whether what each edit changes stands once in its file, as edits of code that moved don't
"""
import argparse
import functools
import glob
import os
import re
import shutil
import subprocess
import sys
import tempfile
import time

HERE = os.path.dirname(os.path.realpath(__file__))
TOP = os.path.dirname(os.path.dirname(HERE))
REFUSED = "refused, as it must be"


def edits_of(name, has_gate):
    """The paths of a crate's edits: those that stand here and, where they are asked for, the gate's."""
    folders = [os.path.join(HERE, name)] + [os.path.join(TOP, "crates", name, "must-fail")] * has_gate
    return sorted(path for folder in folders for path in glob.glob(os.path.join(folder, "*.edit")))


def crates_in_order():
    """The names of all crates, those with the fewest crates below them first."""
    with open(os.path.join(TOP, "crates.txt"), encoding="utf-8") as file:
        lines = [line.partition("#")[0].partition(":") for line in file]
    below = {name.split()[0]: rest.split() for name, colon, rest in lines if colon}

    @functools.cache
    def all_below(name):
        return {name}.union(*(all_below(it) for it in below.get(name, [])))

    return sorted(below, key=lambda name: (len(all_below(name)), name))


def copy_to(room):
    """Copies the house, without its edits; what was proved in the room before stays there."""
    os.makedirs(os.path.join(room, ".git"), exist_ok=True)
    for crate in glob.glob(os.path.join(room, "crates", "*")):
        for part in set(os.listdir(crate)) - {"out"}:
            path = os.path.join(crate, part)
            (shutil.rmtree if os.path.isdir(path) else os.remove)(path)
    left_out = shutil.ignore_patterns("out", "must-fail")
    shutil.copytree(os.path.join(TOP, "crates"), os.path.join(room, "crates"), ignore=left_out, dirs_exist_ok=True)
    for file in ("crates.txt", "HANDLES"):
        shutil.copy(os.path.join(TOP, file), room)


def tried(room, name, edits):
    """Tries the edits of a crate, and returns what was said of each, by its file's name."""
    place = os.path.join(room, "crates", name, "must-fail")
    os.makedirs(place)
    for edit in edits:
        shutil.copy(edit, place)
    said = {}
    with subprocess.Popen(["rt", "must-fail", name], cwd=room, stdout=subprocess.PIPE, text=True, errors="replace") as child:
        for line in child.stdout:
            print(line, end="", flush=True)
            told = re.match(r"rt: must-fail (\w+)/(\S+\.edit): (.*)", line)
            if told and told[1] == name:
                said[told[2]] = told[3]
    return said


def write_left(file_name, left):
    if file_name:
        with open(file_name, "w", encoding="utf-8") as file:
            file.writelines(f"{name}/{edit}: {said}\n" for (name, edit), said in left.items())


def try_all(names, asked, room):
    """Tries the edits of these crates, and returns whether one of them wasn't refused."""
    copy_to(room)
    begun = time.monotonic()
    edits = {name: edits_of(name, asked.gate) for name in names}
    left = {(name, os.path.basename(path)): "not tried" for name in names for path in edits[name]}
    count = len(left)
    write_left(asked.left, left)
    for name in names:
        if asked.minutes is not None and time.monotonic() - begun >= 60 * asked.minutes:
            break
        left.update({(name, edit): said for edit, said in tried(room, name, edits[name]).items()})
        left = {edit: said for edit, said in left.items() if not said.startswith(REFUSED)}
        write_left(asked.left, left)
        print(f"{name}: so far {count - len(left)} of {count} edits refused, in {(time.monotonic() - begun) / 60:.0f} minutes", flush=True)
    return bool(left)


def misplaced(path, crate):
    """What is wrong with the places of an edit: its file isn't there, or an old text doesn't stand in it once."""
    with open(path, encoding="utf-8") as file:
        lines = file.read().split("\n")
    text, problems = None, []
    for line in lines:
        word, _, rest = line.partition(": ")
        if word == "file":
            place = os.path.join(TOP, "crates", crate, rest)
            if not os.path.exists(place):
                return [f"{path}: there is no {rest}"]
            with open(place, encoding="utf-8") as file:
                text = file.read()
        elif word == "old":
            if text.count(rest) != 1:
                problems.append(f"{path}: stands {text.count(rest)} times: {rest.strip()}")
            old = rest
        elif word == "new" and not problems:
            # further pairs apply to what the earlier ones made
            text = text.replace(old, rest)
    return problems


def look_at_places():
    """Looks at the places of all edits, those that the gate tries among them."""
    edits = [(path, re.search(r"edits/(\w+)/", path)[1]) for path in sorted(glob.glob(os.path.join(HERE, "*", "*.edit")))]
    gates = [(path, re.search(r"crates/(\w+)/", path)[1]) for path in sorted(glob.glob(os.path.join(TOP, "crates", "*", "must-fail", "*.edit")))]
    problems = [problem for path, crate in edits + gates for problem in misplaced(path, crate)]
    print(*problems, sep="\n", end="\n" if problems else "")
    for what, found in (("here", edits), ("of the gate", gates)):
        print(f"{len(found)} edits {what}, of {len({crate for _, crate in found})} crates")
    return 1 if problems else 0


def main():
    parser = argparse.ArgumentParser(description=__doc__, formatter_class=argparse.RawDescriptionHelpFormatter)
    parser.add_argument("names", nargs="*", metavar="NAME")
    parser.add_argument("--places", action="store_true")
    parser.add_argument("--gate", action="store_true")
    parser.add_argument("--left", metavar="FILE")
    parser.add_argument("--minutes", type=float, metavar="N")
    parser.add_argument("--folder", metavar="F")
    asked = parser.parse_args()
    if asked.places:
        return look_at_places()
    every = [name for name in crates_in_order() if edits_of(name, asked.gate)]
    lacking = set(asked.names) - set(every)
    if lacking:
        sys.exit(f"there are no edits for {min(lacking)}")
    names = [name for name in every if name in asked.names or not asked.names]
    if asked.folder:
        os.makedirs(asked.folder, exist_ok=True)
        return try_all(names, asked, asked.folder)
    with tempfile.TemporaryDirectory(prefix="edits-") as room:
        return try_all(names, asked, room)


if __name__ == "__main__":
    sys.exit(main())
