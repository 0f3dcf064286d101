#!/usr/bin/env python3
"""Makes docs/DEFINITIONS.md from the sentences over the public definitions of crates/*/specs/*.antt.

    python3 bench/definitions/make.py            writes the page
    python3 bench/definitions/make.py --check    compares it, and writes nothing

A definition's sentence is the comment that ends right above it; a file's is the comment at its head, a crate's the first
paragraph of its README.md. What the sentences don't say stands in front.md beside this file: its part before the first `## `
of a crate's name begins the page, and the part under a crate's name stands at the head of that crate's list.

--check ends with 1 where the page isn't what the sentences make, where a public definition or a file has no sentence,
and where the front part names a definition that no file has.
"""
import difflib
import pathlib
import re
import sys
import textwrap

TOP = pathlib.Path(__file__).resolve().parents[2]
HERE = pathlib.Path(__file__).resolve().parent
PAGE = TOP / "docs" / "DEFINITIONS.md"
DEFINITION = re.compile(r"^\s*(?:(?:abbrev|unfoldable)\s+pub|pub\s+(?:record|data))\s+([^\s:]+)")
BLOCK = re.compile(r"^\s*(?:pub\s+)?(?:record|data)\s")


class File:
    """What a specs file says: its head, and its definitions with their sentences, in their order."""

    def __init__(self, path):
        self.name = path.stem
        self.head, self.definitions = read(path.read_text(encoding="utf-8").split("\n"))


def read(lines):
    """The head of a file, and its public definitions as (name, sentence, indented) triples."""
    head, comment, block, found = [], [], None, []
    at_head = True
    for line in lines:
        text = line.strip()
        indent = len(line) - len(line.lstrip())
        if not text:
            comment = []
            continue
        if text.startswith("--"):
            if text.startswith("----"):
                comment = []
            else:
                (head if at_head else comment).append(text[2:].strip())
            continue
        at_head = False
        if block is not None and indent <= block:
            block = None
        match = DEFINITION.match(line)
        if match and block is None:
            found.append((match[1], " ".join(comment)))
        if block is None and BLOCK.match(line):
            block = indent
        comment = []
    return " ".join(head), found


def crates():
    """The crates in the order of crates.txt, with the groups that its comments name."""
    group = None
    for line in (TOP / "crates.txt").read_text(encoding="utf-8").split("\n")[1:]:
        if line.startswith("#"):
            group = line[1:].strip()
        elif line.strip():
            yield group, re.split(r"[ :]", line)[0]


def head_of_crate(crate):
    """What a crate's page says it is: its first paragraph, up to what the crate uses."""
    parts = (TOP / "crates" / crate / "README.md").read_text(encoding="utf-8").split("\n\n")
    return re.split(r"(?<=\.) (?:It uses|What the layers? above)\b", " ".join(parts[1].split("\n")))[0]


def read_front():
    """The hand-written part: what begins the page, and what stands at the head of each crate's list."""
    parts = re.split(r"(?m)^## `(\w+)`\n", (HERE / "front.md").read_text(encoding="utf-8"))
    return parts[0].strip(), {parts[i]: parts[i + 1].strip() for i in range(1, len(parts), 2)}


def as_sentence(text):
    """A comment as it stands in the list."""
    return text if text.endswith((".", ":")) else text + "."


def wrapped(text, indent=""):
    """A text in lines of at most 140 characters."""
    return textwrap.fill(text, 140, subsequent_indent=indent, break_long_words=False, break_on_hyphens=False)


def crate_files(crate):
    """The specs files of a crate, in the order in which its Lib.antt names them; none of a crate without definitions."""
    folder = TOP / "crates" / crate / "specs"
    if not folder.exists():
        return []
    named = re.findall(r"^pub mod (\w+)", (folder / "Lib.antt").read_text(encoding="utf-8"), re.M)
    return [File(folder / f"{name}.antt") for name in named]


def public_sources(files):
    """The files whose head names a public source, with what it says of it."""
    lines = []
    for crate, file in files:
        match = re.search(r"Sources?:.*", file.head)
        if match:
            lines.append(wrapped(f"- `{crate}`, `{file.name}`: {match[0].split(':', 1)[1].strip()}", "  "))
    return "\n".join(lines)


def file_list(crate, file, problems):
    """The part of a page that one specs file makes."""
    if not file.head:
        problems.append(f"{crate}/{file.name} doesn't begin with a sentence")
    lines = [f"### `{file.name}`", "", wrapped(as_sentence(file.head)), ""]
    for name, sentence in file.definitions:
        if not sentence:
            problems.append(f"{crate}/{file.name}.{name} has no sentence")
        lines.append(wrapped(f"- `{name}`: {as_sentence(sentence)}", "  "))
    return "\n".join(lines) if file.definitions else "\n".join(lines[:3])


def make_page():
    """The page, and what is wrong with it."""
    problems = []
    begin, notes = read_front()
    named = [(group, crate, crate_files(crate)) for group, crate in crates()]
    parts, last = [begin], None
    for group, crate, files in named:
        if not files:
            continue
        if group != last:
            parts.append(f"# {group.rstrip('.')}")
            last = group
        parts.append(f"## `{crate}`\n\n{wrapped(head_of_crate(crate))}")
        if crate in notes:
            parts.append(notes.pop(crate))
        parts += [file_list(crate, file, problems) for file in files]
    problems += [f"front.md has a part for {crate}, which has no definitions" for crate in notes]
    problems += unknown_names(begin, [(crate, file) for _, crate, files in named for file in files])
    page = "\n\n".join(parts) + "\n"
    return page.replace("@sources", public_sources([(c, f) for _, c, files in named for f in files])), problems


def unknown_names(text, files):
    """The `File.Name` of a text that no file defines."""
    defined = {f"{file.name}.{name}" for _, file in files for name, _ in file.definitions}
    return [f"front.md names {name}, which no file defines" for name in re.findall(r"`([A-Z]\w*\.\w+)`", text) if name not in defined]


def main(words):
    page, problems = make_page()
    if words == ["--check"]:
        old = PAGE.read_text(encoding="utf-8")
        if old != page:
            differing = difflib.unified_diff(old.split("\n"), page.split("\n"), "docs/DEFINITIONS.md", "as it would be made", n=0, lineterm="")
            problems.append("the page isn't what the sentences make:\n" + "\n".join(list(differing)[:20]))
    elif words:
        sys.exit(__doc__)
    else:
        PAGE.write_text(page, encoding="utf-8")
    for problem in problems:
        print(problem)
    return 1 if problems else 0


if __name__ == "__main__":
    sys.exit(main(sys.argv[1:]))
