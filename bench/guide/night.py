#!/usr/bin/env python3
"""Makes the files of the guide's nightly load from a made workload: python3 night.py MADE

Bibliographic records go into a.mrc and b.mrc in turn, authorities into names.mrc, all without their 003. The 17th
piece of a.mrc is an authority without a heading. It also makes dos.mrc, three records with a 1A
behind each, and uri.mrc, an authority and three headings with a `$0`."""

import sys


def record(leader, fields):
    """A record by its leader's bytes 5 to 9 and 17 to 19, and its fields."""
    directory, body = b"", b""
    for tag, value in fields:
        value += b"\x1e"
        directory += b"%s%04d%05d" % (tag, len(value), len(body))
        body += value
    base = 24 + len(directory) + 1
    length = base + len(body) + 1
    return b"%05d%s22%05d%s4500" % (length, leader[:5], base, leader[5:]) + directory + b"\x1e" + body + b"\x1d"


def without_code(piece):
    """The record without its 003, and whether it is an authority."""
    values = piece[24:].split(b"\x1e")
    tags = [values[0][i:i + 3] for i in range(0, len(values[0]), 12)]
    fields = [(tag, value) for tag, value in zip(tags, values[1:]) if tag != b"003"]
    return record(piece[5:10] + piece[17:20], fields), piece[6:7] == b"z"


def heading(number, text):
    """A record of a book with one person."""
    return record(b"nam a   ", [(b"001", number), (b"100", b"1 " + text), (b"245", b"00\x1faA title")])


def write(name, pieces):
    with open(name, "wb") as out:
        out.write(b"".join(pieces))


def main():
    with open(sys.argv[1], "rb") as made:
        pieces = made.read().split(b"\x1d")[:-1]
    books, names = [], []
    for text, is_name in map(without_code, pieces):
        (names if is_name else books).append(text)
    first, second = books[0::2], books[1::2]
    first.insert(16, record(b"nz  an  ", [(b"001", b"bad1"), (b"670", b"  \x1faNo heading")]))
    write("a.mrc", first)
    write("b.mrc", second)
    write("names.mrc", names)
    write("dos.mrc", [first[0], b"\x1a", first[1], b"\r\n\x1a", first[2], b"\x1a"])
    twain, uri = b"\x1faTwain, Mark,\x1fd1835-1910", b"\x1f0http://id.loc.gov/authorities/names/n1"
    write("uri.mrc", [
        record(b"nz  an  ", [(b"001", b"n1"), (b"003", b"DLC"), (b"100", b"1 " + twain)]),
        heading(b"u1", twain + uri),
        heading(b"u2", b"\x1faTwayne, M." + uri),
        heading(b"u3", b"\x1faTwayne, M.\x1f0(DLC)n1" + uri),
    ])


main()
