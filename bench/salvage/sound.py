#!/usr/bin/env python3
"""sound.py JOURNAL: what is sound of a journal's bytes, written from docs/JOURNAL.md and the rules of what a catalogue takes, and from nothing of the
program. Tells it as `salvage` does. Records are small here: none is near the longest, so that no heading is too long and each has room to grow."""
import sys

LARGEST = 3_201_025
REASONS = {"header": "wrong header", "gate": "closed gate", "torn": "torn behind it", "lost": "more behind it than a crash leaves", "frame": "no whole frame", "payload": "payload not valid"}


class Bad(Exception):
    """The bytes aren't what they have to be."""


def need(true):
    if not true:
        raise Bad


class Reader:
    """Takes bytes from the front of some."""

    def __init__(self, data):
        self.data, self.at = data, 0

    def take(self, count):
        need(self.at + count <= len(self.data))
        self.at += count
        return self.data[self.at - count : self.at]

    def number(self, count):
        return int.from_bytes(self.take(count), "big")

    def code(self):
        code = self.take(self.number(1))
        need(is_code(code))
        return code


def is_graphic(data):
    return all(0x21 <= byte <= 0x7E for byte in data)


def is_printable(data):
    return all(0x20 <= byte <= 0x7E for byte in data)


def is_code(data):
    return 1 <= len(data) <= 16 and is_graphic(data) and b"(" not in data and b")" not in data


def is_text(data):
    try:
        data.decode("utf-8")
    except UnicodeDecodeError:
        return False
    return not any(mark in data for mark in b"\x1d\x1e\x1f")


def fields_of(record):
    """The fields of a record in the one form in which it is written: (tag, data) in order."""
    need(len(record) >= 26 and len(record) < 5000)
    need(record[:5] == b"%05d" % len(record))
    need(is_printable(record[5:9]) and is_printable(record[17:20]))
    need(record[9:12] == b"a22" and record[20:24] == b"4500")
    need(record[12:17].isdigit())
    base = int(record[12:17])
    need(25 <= base < len(record) and (base - 25) % 12 == 0)
    fields, start = [], 0
    for at in range(24, base - 1, 12):
        tag, size, place = record[at : at + 3], record[at + 3 : at + 7], record[at + 7 : at + 12]
        need(tag.isalnum() and tag.isascii() and size.isdigit() and place.isdigit() and int(place) == start)
        data = record[base + start : base + start + int(size)]
        need(len(data) == int(size) and data[-1:] == b"\x1e")
        fields.append((tag, data[:-1]))
        start += int(size)
    need(record[base - 1 : base] == b"\x1e" and record[base + start :] == b"\x1d")
    return fields


def check_field(tag, data):
    if tag.startswith(b"00"):
        need(is_text(data))
        return
    need(len(data) >= 2 and is_printable(data[:2]))
    first, *subfields = data[2:].split(b"\x1f")
    need(first == b"")
    for subfield in subfields:
        need(subfield and is_graphic(subfield[:1]) and is_text(subfield[1:]))


def control(fields, tag):
    return next((data for name, data in fields if name == tag), b"").replace(b" ", b"")


def code_of(record, library):
    """The code of the key of a record that a catalogue takes under a library's code."""
    fields = fields_of(record)
    for tag, data in fields:
        check_field(tag, data)
    need(record[6:7] in [bytes([letter]) for letter in b"zacdefgijkmoprt"])
    number, code = control(fields, b"001"), control(fields, b"003") or library
    need(1 <= len(number) <= 64 and is_graphic(number) and is_code(code))
    deletes = record[5:6] == b"d" or (record[6:7] == b"z" and record[5:6] in (b"s", b"x"))
    if record[6:7] == b"z" and not deletes:
        need(any(tag.startswith(b"1") for tag, _ in fields))
    return code


def entries_now(payload, before):
    """The entries of a payload of version 2 behind others: (load, file, library, piece, record)."""
    reader = Reader(payload)
    load, file, library = reader.number(8), reader.number(4), reader.code()
    count = reader.number(1)
    need(1 <= count <= 32)
    need((before[-1][0] if before else 0) <= load <= 1 + len(before))
    entries = []
    for _ in range(count):
        piece = reader.number(8)
        record = reader.take(reader.number(4))
        need(piece >= 1)
        code_of(record, library)
        entries.append((load, file, library, piece, record))
    need(reader.at == len(payload))
    return entries


def entries_old(payload, before):
    """Those of version 1."""
    reader = Reader(payload)
    count = reader.number(1)
    need(1 <= count <= 32)
    entries = []
    for _ in range(count):
        file, piece, library = reader.number(4), reader.number(8), reader.code()
        record = reader.take(reader.number(4))
        need(piece >= 1 and code_of(record, library) == library)
        entries.append((0, file, library, piece, record))
    need(reader.at == len(payload))
    return entries


READ = {1: entries_old, 2: entries_now}


def frame_at(log, gate, version, before):
    """What stands behind a gate: (whether a whole frame does, its entries or None, the next gate)."""
    size = int.from_bytes(log[gate + 1 : gate + 5], "big")
    end = gate + 5 + size
    if gate + 5 > len(log) or not 1 <= size <= LARGEST or end >= len(log):
        return False, None, None
    try:
        return True, READ[version](log[gate + 5 : end], before), end
    except Bad:
        return True, None, end


def wrong_in_header(log):
    for place, byte in enumerate(log[:16]):
        if byte not in (b"UNIONCAT JNL 01\n"[place], b"UNIONCAT JNL 02\n"[place]):
            return place
    return None


def sound_of(log):
    """(entries, [(place, reason)], the gate at which reading ends)"""
    wrong = wrong_in_header(log)
    damages = [] if wrong is None else [(wrong, "header")]
    if len(log) <= 17:
        if wrong is None and log[16:] != b"C":
            damages = [(16, "frame")]
        return [], damages, 16
    named = 1 if log[14:15] == b"1" else 2
    version = next((it for it in (2, 1) if frame_at(log, 16, it, [])[1] is not None), named)
    if wrong is None and version != named:
        damages = [(14, "header")]
    entries, gate = [], 16
    while True:
        closed = log[gate] == ord("C")
        whole, found, behind = frame_at(log, gate, version, entries)
        passes = found is not None
        if closed and passes:
            passes = frame_at(log, behind, version, entries + found)[1] is not None
        if not passes:
            break
        if closed:
            damages.append((gate, "gate"))
        entries, gate = entries + found, behind
    if closed:
        behind = len(log) - gate - 1
        if behind:
            damages.append((gate, "torn" if behind <= LARGEST + 5 else "lost"))
    else:
        damages.append((gate, "payload" if whole else "frame"))
    return entries, damages, gate


def told_of(log):
    """(the status of `salvage` into a blank journal, what it tells, the entries)"""
    entries, damages, end = sound_of(log)
    if not entries and damages and damages[0][1] != "torn":
        return 6, f"union_cat: not a journal at {damages[0][0]}\n", entries
    lines = [f"salvaged {len(entries)} entries\n"] + [f"damage at {place}: {REASONS[why]}\n" for place, why in damages]
    left = max(0, len(log) - end - 1)
    if left:
        lines.append(f"left out {left} bytes behind byte {end}\n")
    return 0, "".join(lines), entries


if __name__ == "__main__":
    status, told, _ = told_of(open(sys.argv[1], "rb").read())
    sys.stdout.write(told)
    sys.exit(status)
