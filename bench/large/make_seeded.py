#!/usr/bin/env python3
"""Writes made records whose 001 carry a seed, so that the files of many seeds have no key in common:

    make_seeded.py authorities NAMES FILE
    make_seeded.py records SEED COUNT NAMES FILE

They are as those of the command `make`, whose keys are the same for every seed. The authorities `a<i>` depend on NAMES alone: of each four names the last has
none, and the names 2 n and 2 n + 1 have one see-from heading. The books `b<SEED>-<i>` depend on SEED, COUNT and NAMES; the author of each is such a heading: of
two authorities, of one, or of none. Both print how many records they wrote, and how many of their headings are linked, ambiguous and unlinked once all the
authorities are there.
"""
import random
import sys

FIELD_END, RECORD_END, SUBFIELD = "\x1e", "\x1d", "\x1f"
WRITTEN_AT_ONCE = 10_000


def written(leader, fields):
    """A record in ISO 2709, of the leader's places 05 to 08 and 17 to 19, and of pairs of tag and text, all in ASCII."""
    directory, data = "", ""
    for tag, text in fields:
        directory += f"{tag}{len(text) + 1:04}{len(data):05}"
        data += text + FIELD_END
    base = 25 + len(directory)
    return f"{base + len(data) + 1:05}{leader[:4]}a22{base:05}{leader[4:]}4500{directory}{FIELD_END}{data}{RECORD_END}"


def alias(number):
    return f"Alias{number}, X"


def authority(name):
    return written("nz  n  ", [
        ("001", f"a{name}"), ("003", "UCAT"),
        ("100", f"1 {SUBFIELD}aName{name}, V{name % 4}"), ("400", f"1 {SUBFIELD}a{alias(name // 2)}")])


def book(seed, number, author):
    return written("nam  a ", [
        ("001", f"b{seed}-{number}"), ("003", "UCAT"),
        ("100", f"1 {SUBFIELD}a{alias(author)}{SUBFIELD}eauthor"), ("245", f"00{SUBFIELD}aTitle {number}")])


def authorities(names):
    """The numbers of the names that have an authority."""
    return (name for name in range(names) if name % 4 != 3)


def state_of(author, names):
    """What a book's heading is: its author is the see-from heading of the names 2 * author and 2 * author + 1."""
    count = sum(name < names and name % 4 != 3 for name in (2 * author, 2 * author + 1))
    return ("unlinked", "linked", "ambiguous")[count]


def write(path, records):
    """Writes records as they come."""
    with open(path, "w", encoding="ascii", newline="") as file:
        batch = []
        for record in records:
            batch.append(record)
            if len(batch) == WRITTEN_AT_ONCE:
                file.write("".join(batch))
                batch.clear()
        file.write("".join(batch))


def main(words):
    if len(words) == 3 and words[0] == "authorities":
        names, counts = int(words[1]), dict.fromkeys(("linked", "ambiguous", "unlinked"), 0)
        numbers = list(authorities(names))
        write(words[2], (authority(name) for name in numbers))
        print(len(numbers), *counts.values())
    elif len(words) == 5 and words[0] == "records":
        seed, count, names = (int(word) for word in words[1:4])
        draws, counts = random.Random(f"{seed} {count} {names}"), dict.fromkeys(("linked", "ambiguous", "unlinked"), 0)

        def books():
            for number in range(count):
                author = int(draws.random() * names)
                counts[state_of(author, names)] += 1
                yield book(seed, number, author)

        write(words[4], books())
        print(count, *counts.values())
    else:
        sys.exit(__doc__)


main(sys.argv[1:])
