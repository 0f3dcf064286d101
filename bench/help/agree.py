#!/usr/bin/env python3
"""Checks that the words, the text of help and the man page name the same commands; and that `version`, the man page and CHANGELOG.md
name the same version.

Run it at the top of the repository. Where `man` is there it also has to find nothing to warn of in the page."""

import re
import shutil
import subprocess
import sys
from pathlib import Path


def names_of_words():
    """The verbs that are commands, without the options and the topic `statuses`."""
    source = Path("crates/command_words/src/topic.rt").read_text()
    return [name for name in re.findall(r'^ {8}"(\w+)" => Some\(Topic::', source, re.M) if name != "statuses"]


def names_of_help():
    """The first word of each line of `help`, and the names in the texts of its topics."""
    source = Path("crates/program_help/src/texts.rt").read_text()
    whole = re.search(r'pub const ALL: &str = "[^\n]*\n\n(.*?)";', source, re.S).group(1)
    # a line that begins with blanks goes on with the one before
    lines = [line.split()[0] for line in whole.splitlines() if not line.startswith(" ")]
    topics = re.findall(r'pub const [A-Z]+: &str = "union_cat (\w+)\b(?! statuses)', source)
    return lines, topics


def names_of_page():
    """The names in the page's synopsis, and the heads of its commands."""
    page = Path("docs/union_cat.1").read_text()
    synopsis = re.findall(r"^\.B union_cat (\w+)$", page, re.M)
    commands = page.split(".SH COMMANDS\n")[1].split(".SH")[0]
    return synopsis, re.findall(r"^\.TP\n\.BI? (\w+)", commands, re.M)


def versions():
    """The version that `version` tells, that of the page's head, and the newest of CHANGELOG.md."""
    texts = Path("crates/program_help/src/texts.rt").read_text()
    return {
        "version": re.search(r'THIS_VERSION: &str = "union_cat (\S+)', texts).group(1),
        "the page's head": re.search(r'^\.TH .*"union_cat (\S+)"', Path("docs/union_cat.1").read_text(), re.M).group(1),
        "CHANGELOG.md": re.search(r"^## (\d\S*)", Path("CHANGELOG.md").read_text(), re.M).group(1),
    }


def warnings_of_page():
    """What `man` has to say against the page."""
    if shutil.which("man") is None:
        return ""
    run = ["man", "--warnings", "-E", "UTF-8", "-l", "-Tutf8", "-Z", "docs/union_cat.1"]
    return subprocess.run(run, stdout=subprocess.DEVNULL, stderr=subprocess.PIPE, text=True).stderr


def main():
    words = sorted(names_of_words())
    lines, topics = names_of_help()
    synopsis, heads = names_of_page()
    found = {"help": lines, "the topics of help": topics, "the page's synopsis": synopsis, "the page's commands": heads}
    bad = [f"{name}: {sorted(names)}" for name, names in found.items() if sorted(names) != words]
    bad += [warning for warning in [warnings_of_page().strip()] if warning]
    told = versions()
    if len(set(told.values())) != 1:
        bad.append(f"versions: {told}")
    if bad:
        print(f"the words: {words}", *bad, sep="\n")
        return 1
    print(f"{len(words)} commands, named alike; version {told['version']}")
    return 0


if __name__ == "__main__":
    sys.exit(main())
