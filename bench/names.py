#!/usr/bin/env python3
"""Checks that what pages name in backquotes is there: paths of files, and the words of names of the code and its definitions.

    python3 bench/names.py

DECISIONS.md isn't looked at, since it also names what isn't there. Ends with 1 where something isn't.
"""
import pathlib
import re
import sys

TOP = pathlib.Path(__file__).resolve().parents[1]
PAGES = ["README.md", "CONTRIBUTING.md", "docs/ARCHITECTURE.md", "docs/PROMISES.md", "docs/JOURNAL.md", "bench/definitions/front.md"]
# what stands for a name, and what a build makes
PASSED_OVER = {"NAME", "HANDLES", "out"}


def words_of_code():
    """Every word of the crates' definitions and code, and the names of their files and folders."""
    words = set()
    for crate in (TOP / "crates").iterdir():
        words.add(crate.name)
        for part in ("specs", "src", "proofs"):
            words.add(part)
            for path in (crate / part).rglob("*.*"):
                words |= {path.stem, *path.relative_to(crate).parent.parts}
                if part != "proofs":
                    words |= set(re.findall(r"\w+", path.read_text(encoding="utf-8")))
    return words


def is_path(name):
    """Whether it is a file or folder of the house, by its path from the top or below crates/."""
    return any((TOP / room / name).exists() for room in ("", "crates"))


def main():
    known, problems = words_of_code(), []
    for page in PAGES:
        for name in sorted(set(re.findall(r"`([\w.:/]+)`", (TOP / page).read_text(encoding="utf-8")))):
            parts = [part for part in re.split(r"[.:/]+", name) if part]
            if is_path(name) or PASSED_OVER & set(parts):
                continue
            unknown = [part for part in parts if part not in known | {"antt", "rt"} and not part.isdigit()]
            if unknown:
                problems.append(f"{page} names {name}: there is no {', '.join(unknown)}")
    print("\n".join(problems) or f"{len(PAGES)} pages name what is there")
    return 1 if problems else 0


if __name__ == "__main__":
    sys.exit(main())
