#!/usr/bin/env python3
"""Lists the public functions, methods, structs, enums, traits, types and constants of crates/*/src over which no sentence stands (`///`).

    python3 bench/sentences.py [CRATE ..]

A method of a public trait is public too; one of an impl of a trait has the trait's sentence. Ends with 1 where there is one.
"""
import pathlib
import re
import sys

TOP = pathlib.Path(__file__).resolve().parents[1]
ITEM = re.compile(r"^\s*pub (?:(?:const|unsafe|async) )*(?:fn|struct|enum|trait|type|const|static) (\w+)")
METHOD = re.compile(r"^    (?:fn|type|const) (\w+)")


def has_sentence(lines, at):
    """Whether a sentence stands over the item at a line, above its attributes."""
    while at > 0:
        above = lines[at - 1].strip()
        if above.startswith("///"):
            return True
        if not (above.startswith("#[") or above.endswith(")]") or above.startswith("// ")):
            return False
        at -= 1
    return False


def without_sentence(path):
    """The items of a file that have none, as (line, name) pairs."""
    lines = path.read_text(encoding="utf-8").split("\n")
    in_trait = False
    for at, line in enumerate(lines):
        if line.startswith("pub trait "):
            in_trait = True
        elif line.startswith("}"):
            in_trait = False
        match = ITEM.match(line) or (METHOD.match(line) if in_trait else None)
        if match and not has_sentence(lines, at):
            yield at + 1, match[1]


def main(words):
    found = 0
    for crate in sorted(words or (folder.name for folder in (TOP / "crates").iterdir())):
        for path in sorted((TOP / "crates" / crate / "src").rglob("*.rt")):
            for line, name in without_sentence(path):
                print(f"{path.relative_to(TOP)}:{line}: {name}")
                found += 1
    return 1 if found else 0


if __name__ == "__main__":
    sys.exit(main(sys.argv[1:]))
