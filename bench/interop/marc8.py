#!/usr/bin/env python3
"""Writes a file of records in MARC-8 with Basic and Extended Latin: python3 marc8.py OUT

One record has one text: each printing byte of Basic Latin; each byte from 0xA1 to 0xDF; each mark (0xE0 to 0xFE)
before `a`, before `E`, and before a second mark with `o`; both halves of the two double marks, as `ts`; the four
control signs; both sets named by their escapes; and a text in each of four other sets. Bytes that no sign has are
among them."""

import sys


def texts():
    yield from (bytes([b]) for b in range(0x21, 0x7F))
    yield from (bytes([b]) for b in range(0xA1, 0xE0))
    for mark in range(0xE0, 0xFF):
        yield bytes([mark]) + b"a"
        yield b"x" + bytes([mark]) + b"Ey"
        yield bytes([mark, 0xF2]) + b"o"
    yield b"\xebt\xecs"
    yield b"\xfat\xfbs"
    yield from (b"a" + bytes([b]) + b"b" for b in (0x88, 0x89, 0x8D, 0x8E))
    yield b"\x1b(B\x1b)!E\xe2e"
    yield from (b"x\x1bb1\x1bs", b"x\x1bp2\x1bs", b"x\x1bga\x1bs", b"x\x1b(NA\x1b(B")


def record(number, text):
    """A record of a book with a 001 and a 245, its leader byte 9 a blank."""
    fields = [("001", b"m%d" % number), ("245", b"00\x1fa(" + text + b")")]
    directory, body = b"", b""
    for tag, value in fields:
        value += b"\x1e"
        directory += b"%s%04d%05d" % (tag.encode(), len(value), len(body))
        body += value
    base = 24 + len(directory) + 1
    return b"%05dnam  22%05d   4500" % (base + len(body) + 1, base) + directory + b"\x1e" + body + b"\x1d"


with open(sys.argv[1], "wb") as out:
    for number, text in enumerate(texts()):
        out.write(record(number, text))
