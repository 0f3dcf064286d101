"""Times the program's command `load` next to SQLite on the same files, and prints one table.

    load.py [PROGRAM] [--records N] [--turns N] [--memory FOLDER] [--disk FOLDER]

PROGRAM is crates/union_cat/out/union_cat where none is named. The records go into 1, 2, 4 and 64 files, in equal shares, and
both programs load each set into a new journal or database, in memory-backed files and in real ones. Each turn does each case
once, one program straight after the other, and then once more under strace, for the time within syncs. README.md says more.
"""
import argparse
import datetime
import os
import pathlib
import platform
import re
import shutil
import sqlite3
import statistics
import subprocess
import sys
import tempfile
import threading
import time

HERE = pathlib.Path(__file__).resolve()
PROGRAM = HERE.parents[2] / "crates/union_cat/out/union_cat"
FILE_COUNTS = (1, 2, 4, 64)
CODE = "ULIB"
COMMIT = 32  # records in a commit, as in the program's frames
RECORD_END = b"\x1d"
FIELD_END = b"\x1e"
SYNCS = "fsync,fdatasync,sync_file_range,msync,syncfs,sync"
SYNC_TIME = re.compile(r"(?:sync\w*\(|<\.\.\. \w*sync\w* resumed>).*<(\d+\.\d+)>$", re.M)
SQLITE = f"SQLite {sqlite3.sqlite_version}"


# --- the files

def record(number):
    """A bibliographic record that has no heading: its number in 001 and a title in 245."""
    title = f"A book without headings, the one with the number {number:06}."
    fields = ((b"001", f"b{number:06}"), (b"245", f"00\x1fa{title}"))
    directory, data = b"", b""
    for tag, text in fields:
        area = text.encode() + FIELD_END
        directory += tag + b"%04d%05d" % (len(area), len(data))
        data += area
    base = 24 + len(directory) + 1
    length = base + len(data) + 1
    return b"%05dnam a22%05d   4500" % (length, base) + directory + FIELD_END + data + RECORD_END


def write_files(folder, records, count):
    """The records in so many files, in equal shares."""
    names = []
    for index in range(count):
        share = range(records * index // count, records * (index + 1) // count)
        name = folder / f"{records}_{count}_{index}.mrc"
        name.write_bytes(b"".join(map(record, share)))
        names.append(str(name))
    return names


# --- the same work by SQLite, in a process of its own

def key_of(code, piece):
    """The code and the number of a record; 001 is its first field."""
    start = int(piece[12:17]) + int(piece[31:36])
    return f"({code}){piece[start:piece.index(FIELD_END, start)].decode()}"


def load_file(connection, lock, word):
    """Reads a file's records and commits 32 at a time; they are made ready outside the lock."""
    code, name = word.split("=", 1)
    data = pathlib.Path(name).read_bytes()
    pieces = [piece + RECORD_END for piece in data.split(RECORD_END) if piece]
    for at in range(0, len(pieces), COMMIT):
        rows = [(key_of(code, piece), piece) for piece in pieces[at:at + COMMIT]]
        with lock:
            connection.execute("begin immediate")
            connection.executemany("insert or replace into records values (?, ?)", rows)
            connection.execute("commit")


def load_by_sqlite(database, words):
    """A thread for each file, and one connection. Prints how many records the table has at the end."""
    connection = sqlite3.connect(database, isolation_level=None, check_same_thread=False)
    assert connection.execute("pragma journal_mode=wal").fetchone() == ("wal",)
    connection.execute("pragma synchronous=full")
    assert connection.execute("pragma synchronous").fetchone() == (2,)
    connection.execute("create table records (key text primary key, record blob not null)")
    lock = threading.Lock()
    threads = [threading.Thread(target=load_file, args=(connection, lock, word)) for word in words]
    for thread in threads:
        thread.start()
    for thread in threads:
        thread.join()
    print(f"accepted {connection.execute('select count(*) from records').fetchone()[0]},")
    connection.close()


# --- one run

class Run:
    """What one run took: seconds on the clock, seconds of processor time, and what it printed."""

    def __init__(self, command, want):
        start = time.perf_counter()
        process = subprocess.Popen(command, stdout=subprocess.PIPE, text=True)
        printed = process.stdout.read()
        _, status, usage = os.wait4(process.pid, 0)
        self.wall = time.perf_counter() - start
        process.returncode = os.waitstatus_to_exitcode(status)
        self.cpu = usage.ru_utime + usage.ru_stime
        got = sum(map(int, re.findall(r"accepted (\d+),", printed)))
        if process.returncode != 0 or got != want:
            sys.exit(f"{command[:4]} .. ended with status {process.returncode}, and accepted {got} of {want}:\n{printed}")


def remove(target):
    """No journal or database is there before a run, so that each makes its own."""
    for end in ("", "-wal", "-shm"):
        pathlib.Path(target + end).unlink(missing_ok=True)


def traced(command, want, log, strace):
    """A run under strace: the number of its syncs, their seconds, and their share of the clock's."""
    run = Run([*strace, "-o", log, *command], want)
    times = [float(seconds) for seconds in SYNC_TIME.findall(pathlib.Path(log).read_text())]
    return len(times), sum(times), sum(times) / run.wall


def strace_words():
    """How strace is called; nothing where it isn't there."""
    if not shutil.which("strace"):
        return None
    told = subprocess.run(["strace", "--help"], capture_output=True, text=True).stdout
    quick = ["--seccomp-bpf"] if "seccomp-bpf" in told else []
    return ["strace", "-f", *quick, "-T", "-e", f"trace={SYNCS}"]


# --- all runs

class Case:
    """One program on one set of files at one place, and what its runs took."""

    def __init__(self, place, folder, files, records, name, start, log):
        self.place, self.files, self.records, self.name = place, files, records, name
        self.target = str(folder / ("union.jnl" if name == "union_cat" else "union.db"))
        self.command = [*start, self.target]
        self.log = log
        self.runs, self.traces = [], []

    def turn(self, words, strace):
        remove(self.target)
        os.sync()  # so that no run waits for what was written before it
        if strace:
            self.traces.append(traced([*self.command, *words], self.records, self.log, strace))
        else:
            self.runs.append(Run([*self.command, *words], self.records))
        remove(self.target)

    def row(self):
        wall = spread([run.wall for run in self.runs])
        cpu = spread([run.cpu for run in self.runs])
        syncs = share = "-"
        if self.traces:
            syncs = str(statistics.median_low(trace[0] for trace in self.traces))
            share = spread([trace[1] for trace in self.traces]) + " " + spread([100 * trace[2] for trace in self.traces], 1)
        files = str(self.files) if self.records else "1 empty"
        return f"{self.place:<7} {files:>7} {self.name:<14} {wall} {cpu} {syncs:>5} {share}"


def spread(values, digits=3):
    """Median, least and greatest."""
    texts = [f"{value:.{digits}f}" for value in (statistics.median(values), min(values), max(values))]
    return f"{texts[0]:>7} {'(' + texts[1] + ' to ' + texts[2] + ')':<18}"


def pairs(options, folders):
    """The cases in pairs, with their files; an empty file first, for what a start costs."""
    starts = (("union_cat", [str(options.program), "load"]), (SQLITE, [sys.executable, "-I", "-S", str(HERE), "sqlite"]))
    found = []
    log = str(folders[0][1] / "strace.log")
    for place, folder in folders:
        for records, files in ((0, 1), *((options.records, count) for count in FILE_COUNTS)):
            words = [f"{CODE}={name}" for name in write_files(folder, records, files)]
            found.append((words, [Case(place, folder, files, records, *start, log) for start in starts]))
    return found


def measure(options, folders):
    strace = strace_words()
    found = pairs(options, folders)
    for turn in range(options.turns):
        for words, cases in found:
            for tool in (None, strace) if strace else (None,):
                for case in cases if turn % 2 == 0 else reversed(cases):
                    case.turn(words, tool)
    return [case for _, cases in found for case in cases]


def print_table(cases):
    print(f"{'place':<7} {'files':>7} {'program':<14} {'wall s (least to most)':<26} "
          f"{'user+system s':<26} {'syncs':>5} {'syncs s, traced':<26} {'% of wall, traced'}")
    for case in cases:
        print(case.row().rstrip())


def machine(options, before, start):
    """The lines under the table: what it was measured on, and beside what."""
    load = " to ".join(f"{one:.1f}" for one in (before, os.getloadavg()[0]))
    model = re.search(r"model name\s*: (.*)", pathlib.Path("/proc/cpuinfo").read_text())
    print(f"\n{options.records} records of {len(record(0))} bytes, {COMMIT} a commit; "
          f"{options.turns} turns, and as many under strace")
    print(f"{datetime.datetime.now():%Y-%m-%d %H:%M}, {time.monotonic() - start:.0f} s; load average {load}")
    print(f"{os.cpu_count()} x {model.group(1) if model else platform.processor()}, Linux {platform.release()}, "
          f"Python {platform.python_version()}")
    print(f"memory: {options.memory} ({filesystem(options.memory)}), disk: {options.disk} ({filesystem(options.disk)})")


def filesystem(folder):
    """The type of the file system under a folder."""
    told = subprocess.run(["df", "--output=fstype", folder], capture_output=True, text=True)
    return (told.stdout.split() or ["unknown"])[-1]


def main():
    if sys.argv[1:2] == ["sqlite"]:
        return load_by_sqlite(sys.argv[2], sys.argv[3:])
    parser = argparse.ArgumentParser(description=__doc__, formatter_class=argparse.RawDescriptionHelpFormatter)
    parser.add_argument("program", nargs="?", default=PROGRAM)
    parser.add_argument("--records", type=int, default=1024)
    parser.add_argument("--turns", type=int, default=5)
    parser.add_argument("--memory", default="/dev/shm")
    parser.add_argument("--disk", default="/tmp")
    options = parser.parse_args()
    before, start = os.getloadavg()[0], time.monotonic()
    with tempfile.TemporaryDirectory(dir=options.memory) as memory, tempfile.TemporaryDirectory(dir=options.disk) as disk:
        folders = [("memory", pathlib.Path(memory)), ("disk", pathlib.Path(disk))]
        print_table(measure(options, folders))
    machine(options, before, start)


if __name__ == "__main__":
    main()
