#!/usr/bin/env python3
"""Cuts files of records into parts that are loaded by themselves, and joins what the parts come to. docs/SCALE.md says why that is the whole's.

    python3 bench/parts/parts.py split N PREFIX CODE=FILE ..
    python3 bench/parts/parts.py join OUT EXPORT ..
    python3 bench/parts/parts.py totals REPORT0 REPORT ..
    python3 bench/parts/parts.py trial PROGRAM FOLDER [RECORDS [N]]

`split` writes for each FILE, by its place from 0, `PREFIX.authorities.FILE.mrc` and `PREFIX.PART.FILE.mrc`, each piece as it stood, in its order, and the
bounds, one a line, into `PREFIX.parts`. A piece whose key it can't read goes to part 0, where the load refuses it and tells why.
`join` writes the authorities of the first export and then the bibliographic records of each. It ends with 11 where the authorities of another differ, and
where keys don't ascend from one export to the next. `totals` prints the whole's last line; REPORT0 is that of the journal of the authorities alone.
`trial` makes RECORDS (20,000) with the PROGRAM, loads them whole and in N (3) parts, all parts at once, and compares exports and totals.

These are a site's own tools, as any that cut so would be: no proof speaks of this script. It reads keys from 001 and 003, without their blanks, of records
whose control fields are ASCII.
"""
import os
import random
import shutil
import subprocess
import sys
import time

TERMINATOR = b"\x1d"
SAMPLE = 65536
TOTALS = ("authorities", "bibliographic", "linked", "ambiguous", "unlinked")
DIFFER = 11


def pieces(path):
    """The pieces of a file, each through its terminator; line ends between them are passed over."""
    rest = b""
    with open(path, "rb") as file:
        while chunk := file.read(1 << 20):
            rest += chunk
            *whole, rest = rest.split(TERMINATOR)
            for piece in whole:
                yield piece.lstrip(b"\r\n") + TERMINATOR
    if rest.lstrip(b"\r\n"):
        yield rest.lstrip(b"\r\n")


def control(piece, wanted):
    """The text of the first control field with that tag, without its blanks."""
    base = int(piece[12:17])
    for at in range(24, base - 1, 12):
        if piece[at:at + 3] == wanted:
            size, start = int(piece[at + 3:at + 7]), int(piece[at + 7:at + 12])
            return piece[base + start:base + start + size - 1].replace(b" ", b"")
    return b""


def key_of(piece, code):
    """The code and the number of a piece, or None where they can't be read."""
    try:
        return (control(piece, b"003") or code, control(piece, b"001"))
    except ValueError:
        return None


def is_authority(piece):
    return piece[6:7] == b"z"


def sampled(files):
    """Some keys of the files' bibliographic records, each as likely as another."""
    kept, seen, draws = [], 0, random.Random(1)
    for code, path in files:
        for piece in pieces(path):
            key = None if is_authority(piece) else key_of(piece, code)
            if key is None:
                continue
            seen += 1
            if len(kept) < SAMPLE:
                kept.append(key)
            elif (place := draws.randrange(seen)) < SAMPLE:
                kept[place] = key
    return sorted(kept)


def part_of(bounds, key):
    """The part of a key: as many as there are bounds that aren't behind it."""
    low, high = 0, len(bounds)
    while low < high:
        middle = (low + high) // 2
        if key < bounds[middle]:
            high = middle
        else:
            low = middle + 1
    return low


def split(count, prefix, words):
    files = [(code.encode(), path) for code, path in (word.split("=", 1) for word in words)]
    names = [f"{prefix}.{part}.{file}.mrc" for file in range(len(files)) for part in ["authorities", *range(count)]]
    for name in [*names, f"{prefix}.parts"]:
        if os.path.exists(name):
            sys.exit(f"{name} is there already")
    keys = sampled(files)
    bounds = [keys[len(keys) * part // count] for part in range(1, count)] if keys else []
    for file, (code, path) in enumerate(files):
        with open(f"{prefix}.authorities.{file}.mrc", "wb") as authorities:
            outs = [open(f"{prefix}.{part}.{file}.mrc", "wb") for part in range(count)]
            for piece in pieces(path):
                if is_authority(piece):
                    authorities.write(piece)
                else:
                    key = key_of(piece, code)
                    outs[0 if key is None else part_of(bounds, key)].write(piece)
            for out in outs:
                out.close()
    with open(f"{prefix}.parts", "w") as out:
        for code, number in bounds:
            out.write(f"({code.decode()}){number.decode()}\n")


def apart(path):
    """The authorities of an export as bytes, and a reader of the records behind them."""
    records = pieces(path)
    front, first = [], None
    for record in records:
        if not is_authority(record):
            first = record
            break
        front.append(record)

    def rest():
        if first is not None:
            yield first
        yield from records

    return b"".join(front), rest()


def join(out, exports):
    shared, last = None, None
    with open(out + ".new", "wb") as joined:
        for export in exports:
            front, rest = apart(export)
            if shared is None:
                shared = front
                joined.write(front)
            elif front != shared:
                os.unlink(out + ".new")
                print(f"parts differ: the authorities of {export}")
                sys.exit(DIFFER)
            for place, record in enumerate(rest):
                key = key_of(record, b"")
                if place == 0 and last is not None and key[0] and last[0] and not last < key:
                    os.unlink(out + ".new")
                    print(f"parts differ: the first key of {export} isn't behind the last one before it")
                    sys.exit(DIFFER)
                last = key
                joined.write(record)
    os.replace(out + ".new", out)


def totals_of(report):
    """The numbers of a report's last line."""
    with open(report, "rb") as file:
        file.seek(max(0, os.path.getsize(report) - 512))
        words = file.read().decode("latin-1").splitlines()[-1].split()
    if words[0] != "TOTAL":
        sys.exit(f"{report} is no report")
    return [int(word.split("=")[1]) for word in words[1:]]


def joined_totals(first, reports):
    """Of each number: that of the authorities alone, and what each part has beyond it."""
    shared = totals_of(first)
    each = [totals_of(report) for report in reports]
    if any(totals[0] != shared[0] for totals in each):
        print("parts differ: not as many authorities in each")
        sys.exit(DIFFER)
    numbers = [shared[at] + sum(totals[at] - shared[at] for totals in each) for at in range(5)]
    return "TOTAL " + " ".join(f"{name}={number}" for name, number in zip(TOTALS, numbers))


def run(*words):
    """Runs a command; a load that refuses pieces ends with 1."""
    done = subprocess.run(words, capture_output=True)
    if done.returncode > 1:
        sys.exit(f"{' '.join(words)}: {done.returncode} {done.stdout.decode()}{done.stderr.decode()}")


def load_and_write(program, journal, words):
    run(program, "load", journal, *words)
    run(program, "export", journal, journal + ".exp")
    run(program, "report", journal, journal + ".rep")


def trial(program, folder, records, count):
    program = os.path.realpath(program)
    os.makedirs(folder)
    os.chdir(folder)
    run(program, "make", "7", str(records), "all.mrc")
    begun = time.time()
    split(count, "cut", ["ULIB=all.mrc"])
    print(f"split {time.time() - begun:.1f} s")
    run(program, "load", "none.jnl", "ULIB=cut.authorities.0.mrc")
    run(program, "report", "none.jnl", "none.rep")
    shutil.copy("none.jnl", "whole.jnl")
    with open("whole.mrc", "wb") as out:
        for piece in pieces("all.mrc"):
            if not is_authority(piece):
                out.write(piece)
    begun = time.time()
    load_and_write(program, "whole.jnl", ["ULIB=whole.mrc"])
    print(f"whole {time.time() - begun:.1f} s")
    begun = time.time()
    jobs = []
    for part in range(count):
        shutil.copy("none.jnl", f"{part}.jnl")
        if not (job := os.fork()):
            load_and_write(program, f"{part}.jnl", [f"ULIB=cut.{part}.0.mrc"])
            os._exit(0)
        jobs.append(job)
    for job in jobs:
        if os.waitpid(job, 0)[1] != 0:
            sys.exit("a part failed")
    print(f"{count} parts {time.time() - begun:.1f} s")
    begun = time.time()
    join("joined.exp", [f"{part}.jnl.exp" for part in range(count)])
    print(f"join {time.time() - begun:.1f} s")
    with open("joined.exp", "rb") as one, open("whole.jnl.exp", "rb") as other:
        print("exports", "equal" if one.read() == other.read() else "DIFFER")
    line = joined_totals("none.rep", [f"{part}.jnl.rep" for part in range(count)])
    numbers = [int(word.split("=")[1]) for word in line.split()[1:]]
    print("totals", "equal" if numbers == totals_of("whole.jnl.rep") else "DIFFER", line)


def main(words):
    if len(words) >= 4 and words[0] == "split" and 1 <= int(words[1]) <= 1024:
        split(int(words[1]), words[2], words[3:])
    elif len(words) >= 3 and words[0] == "join":
        join(words[1], words[2:])
    elif len(words) >= 3 and words[0] == "totals":
        print(joined_totals(words[1], words[2:]))
    elif len(words) >= 3 and words[0] == "trial":
        trial(words[1], words[2], int(words[3]) if len(words) > 3 else 20000, int(words[4]) if len(words) > 4 else 3)
    else:
        sys.exit(__doc__)


main(sys.argv[1:])
