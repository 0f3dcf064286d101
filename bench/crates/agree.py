#!/usr/bin/env python3
"""Checks that crates.txt, the table of docs/ARCHITECTURE.md and the folders of crates/ name the same crates, the first two in the same
groups and order; and that a crate of the table uses what crates.txt says that it uses. Ends with 1 where they differ.

    python3 bench/crates/agree.py
"""
import pathlib
import re
import sys

TOP = pathlib.Path(__file__).resolve().parents[2]


def listed():
    """The groups of crates.txt, as (head, crates) pairs, and what each crate uses."""
    groups, uses = [], {}
    for line in (TOP / "crates.txt").read_text(encoding="utf-8").split("\n")[1:]:
        if line.startswith("#"):
            groups.append((line[1:].strip().rstrip("."), []))
        elif line.strip():
            name, deps = line.split(":", 1)
            name = name.split(" ")[0]
            groups[-1][1].append(name)
            uses[name] = set(deps.split())
    return groups, uses


def tabled():
    """The same of the table of the layers; a row may have more than one crate."""
    text = (TOP / "docs" / "ARCHITECTURE.md").read_text(encoding="utf-8")
    groups, uses = [], {}
    for line in text.split("## The layers")[1].split("\n## ")[0].split("\n"):
        cells = [cell.strip() for cell in line.strip("|").split("|")]
        head = re.fullmatch(r"\*(.*)\*", cells[0])
        if head:
            groups.append((head[1], []))
        elif line.startswith("| `"):
            for name in re.findall(r"`(\w+)`", cells[0]):
                groups[-1][1].append(name)
                uses[name] = set(re.findall(r"`(\w+)`", cells[1]))
    return groups, uses


def main():
    (in_list, uses), (in_table, told) = listed(), tabled()
    problems = []
    heads = [head for head, _ in in_list], [head for head, _ in in_table]
    if [head.lower() for head in heads[0]] != [head.lower() for head in heads[1]]:
        problems.append(f"the groups of crates.txt: {heads[0]}\nthose of the table: {heads[1]}")
    for (head, names), (_, others) in zip(in_list, in_table):
        if names != others:
            problems.append(f"{head}: crates.txt has {names}\nthe table has {others}")
    folders = {folder.name for folder in (TOP / "crates").iterdir() if folder.is_dir()}
    problems += [f"{name} is in one of crates/ and crates.txt alone" for name in sorted(folders ^ set(uses))]
    problems += [f"{name} has no README.md" for name in sorted(folders) if not (TOP / "crates" / name / "README.md").exists()]
    for name in sorted(set(told) & set(uses)):
        more = told[name] - uses[name]
        if more:
            problems.append(f"{name} doesn't use {sorted(more)}, as the table says")
    print("\n".join(problems) or f"{len(uses)} crates in {len(in_list)} groups")
    return 1 if problems else 0


if __name__ == "__main__":
    sys.exit(main())
