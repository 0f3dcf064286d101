#!/usr/bin/env python3
"""What a cataloguer does in the guide's chapter 'From the list to a clean catalogue', for chapter.sh.

chapter.py make              writes names.mrc, two authorities of one heading and one of another, and books.mrc, whose headings aren't linked
chapter.py sort LIST         prints the lines of LIST by `why` and count: count, state, heading, record, candidates, why
chapter.py mend LIST         reads LIST, does what the chapter says for each `why`, and writes names2.mrc and books2.mrc
chapter.py clean LIST        ends with 1 where LIST has a line behind its first"""
import csv
import sys


def record(leader, fields):
    """A record by its leader's bytes 5 to 9 and 17 to 19, and its fields, with `$` for the subfields' delimiter."""
    directory, body = b"", b""
    for tag, value in fields:
        value = value.encode().replace(b"$", b"\x1f") + b"\x1e"
        directory += b"%s%04d%05d" % (tag.encode(), len(value), len(body))
        body += value
    base = 24 + len(directory) + 1
    length = base + len(body) + 1
    return b"%05d%s22%05d%s4500" % (length, leader[:5], base, leader[5:]) + directory + b"\x1e" + body + b"\x1d"


def authority(number, heading, tag="100", status=b"n", more=()):
    return record(status + b"z  an  ", [("001", number), (tag, heading), *more])


def book(number, heading, tag="100"):
    return record(b"nam a   ", [("001", number), (tag, heading), ("245", f"10$aThe book {number}")])


def write(name, records):
    with open(name, "wb") as out:
        out.write(b"".join(records))


def lines(name):
    with open(name, encoding="utf-8-sig", newline="") as file:
        return list(csv.DictReader(file))


def number_of(key):
    return key.split(")")[1]


def make():
    write("names.mrc", [authority("n1", "1 $aTwain, Mark"), authority("n2", "1 $aTwain, Mark"), authority("n3", "2 $aSavings Bank", "110")])
    write("books.mrc", [book("b1", "1 $aTwain, Mark"), book("b2", "1 $aWoolf, Virginia"), book("b3", "1 $aWoolf, Virginia"),
                        book("b4", "1 $aWoolf, Virginia"), book("b5", "1 $aSavings Bank")])


def mend(name):
    """Merges authorities that share a heading, makes one where none has it, and puts the tag right where one of another kind has it."""
    names, books, made = [], [], set()
    for line in lines(name):
        if line["state"] == "shared":
            key, *_ = sorted([line["record"], *line["candidates"].split(" | ")])
            if line["record"] != key:
                names.append(authority(number_of(line["record"]), "1 $a" + line["heading"], status=b"x", more=[("682", f"  $0{key}")]))
        elif line["why"] == "no authority has this heading" and line["heading"] not in made:
            made.add(line["heading"])
            names.append(authority(f"n{9 + len(made)}", "1 $a" + line["heading"]))
        elif line["why"] == "only an authority of another kind has this heading: corporate":
            books.append(book(number_of(line["record"]), "2 $a" + line["heading"], "110"))
    write("names2.mrc", names)
    write("books2.mrc", books)


if sys.argv[1] == "make":
    make()
elif sys.argv[1] == "sort":
    for line in sorted(lines(sys.argv[2]), key=lambda line: (line["why"], -int(line["count"]))):
        print(" ; ".join(line[name] for name in ("count", "state", "heading", "record", "candidates", "why")))
elif sys.argv[1] == "mend":
    mend(sys.argv[2])
elif sys.argv[1] == "clean":
    sys.exit(bool(lines(sys.argv[2])))
else:
    sys.exit(__doc__)
