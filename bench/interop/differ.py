#!/usr/bin/env python3
"""Says how two files of ISO 2709 records differ: python3 differ.py OURS THEIRS

Records are matched by their first field, the 001. It prints one line for each that isn't the same in both."""

import sys
from collections import Counter


def records(path):
    """Each record by its first field's text, and by how often that came before."""
    with open(path, "rb") as file:
        pieces = [piece + b"\x1d" for piece in file.read().split(b"\x1d") if piece]
    named, seen = {}, Counter()
    for piece in pieces:
        name = piece[24:].split(b"\x1e")[1].decode()
        seen[name] += 1
        named[name if seen[name] == 1 else "%s, again %d" % (name, seen[name] - 1)] = piece
    return named


def text(piece):
    """The fields behind the 001."""
    return b" ".join(piece[24:-1].split(b"\x1e")[2:-1])


def main():
    ours, theirs = records(sys.argv[1]), records(sys.argv[2])
    unlike = [name for name in {**ours, **theirs} if ours.get(name) != theirs.get(name)]
    if not unlike:
        print("the same %d records, in another order" % len(ours))
        return
    print("%d of %d records differ" % (len(unlike), len({**ours, **theirs})))
    for name in unlike:
        one, other = ours.get(name), theirs.get(name)
        if one is None or other is None:
            print("    %s is only in %s: %s" % (name, "theirs" if one is None else "ours", text(one or other)))
        elif text(one) != text(other):
            print("    %s has other texts: ours %s, theirs %s" % (name, text(one), text(other)))
        else:
            print("    %s has the same texts, but another leader, directory or order" % name)


main()
