"""What one changed authority costs, and what many authorities under one form cost: `pass` over made files.

    changes.py PROGRAM [FOLDER [TABLE ..]]

Three tables, heading_changes, one_form and ambiguous, each figure the median of five runs of the processor time of `pass`:

- a heading change with 1,000, 10,000 and 100,000 linked records of 20 fields: the time of a file in which the authority
  comes ten times more, each time with another heading, less that of the file without these, for each change and record;
- 25,000, 50,000 and 100,000 authorities whose see-from heading is the same, and the same number with one of their own;
- 10,000 headings that 10, 100 and 1,000 authorities could govern, behind these authorities and before them, with the report.
"""
import os
import pathlib
import statistics
import subprocess
import sys
import tempfile

TURNS = 5
CHANGES = 10
RECORD_END = b"\x1d"
FIELD_END = b"\x1e"


# --- the files

def record(leader, fields):
    """A record in ISO 2709, of the leader's positions 05 to 08 and of pairs of tag and text."""
    directory, data = b"", b""
    for tag, text in fields:
        area = text.encode() + FIELD_END
        directory += tag.encode() + b"%04d%05d" % (len(area), len(data))
        data += area
    base = 24 + len(directory) + 1
    length = base + len(data) + 1
    return b"%05d" % length + leader + b"a22%05d   4500" % base + directory + FIELD_END + data + RECORD_END


def authority(number, heading, see_from=None):
    fields = [("001", f"a{number:07}"), ("100", f"1 \x1fa{heading}")]
    if see_from is not None:
        fields.append(("400", f"1 \x1fa{see_from}"))
    return record(b"nz  ", fields)


def book(number, heading, notes):
    fields = [("001", f"b{number:07}"), ("100", f"1 \x1fa{heading}"), ("245", f"00\x1faBook {number}.")]
    fields += [("500", f"  \x1faNote {note} on the book.") for note in range(notes)]
    return record(b"nam ", fields)


# --- the runs

def processor_seconds(words):
    """User and system time of one run, whose answer may be 0 alone."""
    before = os.times()
    subprocess.run(words, check=True, stdout=subprocess.DEVNULL, stderr=subprocess.DEVNULL)
    after = os.times()
    return after.children_user - before.children_user + after.children_system - before.children_system


def timed(program, folder, pieces):
    """The median time of `pass` over a file of these records."""
    file, out = folder / "file.mrc", folder / "out.mrc"
    file.write_bytes(b"".join(pieces))
    return statistics.median(processor_seconds([program, "pass", str(out), f"ULIB={file}"]) for _ in range(TURNS))


def reported(program, folder, pieces):
    """The time and the bytes of `report` over a journal of these records."""
    file, journal, out = folder / "file.mrc", folder / "journal", folder / "report.txt"
    file.write_bytes(b"".join(pieces))
    journal.unlink(missing_ok=True)
    subprocess.run([program, "load", str(journal), f"ULIB={file}"], check=True, stdout=subprocess.DEVNULL)
    seconds = statistics.median(processor_seconds([program, "report", str(journal), str(out)]) for _ in range(TURNS))
    return seconds, out.stat().st_size


# --- the tables

def heading_changes(program, folder):
    print("linked records   first load   a change   a change and record")
    for count in (1_000, 10_000, 100_000):
        first = [authority(1, "Heading")] + [book(number, "Heading", 17) for number in range(count)]
        changed = [authority(1, f"Heading {change}") for change in range(CHANGES)]
        base = timed(program, folder, first)
        more = timed(program, folder, first + changed)
        change = (more - base) / CHANGES
        print(f"{count:14,}   {base:8.3f} s   {1000 * change:5.1f} ms   {1e6 * change / count:8.2f} µs", flush=True)


def one_form(program, folder):
    print("authorities   of one see-from form   each of its own")
    for count in (25_000, 50_000, 100_000):
        same = [authority(number, f"Heading {number}", "Other heading") for number in range(count)]
        own = [authority(number, f"Heading {number}", f"Other heading {number}") for number in range(count)]
        print(f"{count:11,}   {timed(program, folder, same):18.2f} s   {timed(program, folder, own):13.2f} s", flush=True)


def ambiguous(program, folder):
    print("authorities   headings before them   behind them   report     its bytes")
    for count in (10, 100, 1_000):
        books = [book(number, "Heading", 0) for number in range(10_000)]
        meant = [authority(number, "Heading") for number in range(count)]
        before, behind = timed(program, folder, books + meant), timed(program, folder, meant + books)
        seconds, size = reported(program, folder, meant + books)
        print(f"{count:11,}   {before:18.2f} s   {behind:9.2f} s   {seconds:4.2f} s   {size:11,}", flush=True)


def main():
    program = os.path.abspath(sys.argv[1])
    with tempfile.TemporaryDirectory() as made:
        folder = pathlib.Path(sys.argv[2] if len(sys.argv) > 2 else made)
        folder.mkdir(parents=True, exist_ok=True)
        for table in (heading_changes, one_form, ambiguous):
            if table.__name__ in sys.argv[3:] or len(sys.argv) < 4:
                table(program, folder)
                print()


main()
