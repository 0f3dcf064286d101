#!/usr/bin/env python3
"""Refuses each request for memory of whole runs, one after another, and looks at what they leave:

    python3 bench/memory/walk.py --program PROGRAM [--jobs N] [--step N] [FOLDER]
    python3 bench/memory/walk.py [--step N] [FOLDER]

The runs are those of the command `run` over two worked files, whose export is known. With `--step N` each Nth request alone is refused.

With a built program, `refuse.c` is loaded before it, and refuses the request whose number it is told: some milliseconds a run, N at once. What was done
stands in FOLDER/done.txt, and a further call with the same program goes on behind it.

Without one, `rt try --fail-alloc` builds the program, with its checks, so that always the request with the same number is refused; the program that is
built makes some requests of its own before its command, as many as its first word says. So one build serves each request. It takes half an hour.

A run ends with 8; or as it ends with memory, and then its files are those that it leaves with memory; or, where the system's files wanted the
memory, with the fault of that file, 3, 4 or 5, which is counted apart. Its input is then as it was, each output too (with 4 one may hold what is due),
the file beside them is as it was, and no other file is there but the journal; and the same command, given again, leaves the outputs that are due.
"""
import argparse
import concurrent.futures
import hashlib
import os
import re
import shutil
import subprocess
import sys
import tempfile

HERE = os.path.dirname(os.path.realpath(__file__))
TOP = os.path.dirname(os.path.dirname(HERE))
DATA = os.path.join(TOP, "crates", "whole_runs", "data")
YESTERDAY = b"the good one of yesterday\n"
MEMORY = 8
# The faults of an input, an output and the journal, and the status of a program whose pads weren't made.
OF_FILES = (3, 4, 5)
UNPADDED = 99
# The request that `rt try` refuses, and more than any of the runs makes, pads not counted.
REFUSED = 4096
MOST = 320
# The seconds after which a run doesn't end.
LIMIT = 60

ROWS = ("late_linking", "heading_changes")
WORDS = ["run", "@j", "@out", "@report", "ULIB=@row"]
OUTPUTS = ("out", "report")


# --- what a run begins with, and what is due

def contents(room):
    files = {}
    for name in sorted(os.listdir(room)):
        with open(os.path.join(room, name), "rb") as file:
            files[name] = file.read()
    return files


def data(name):
    with open(os.path.join(DATA, name), "rb") as file:
        return file.read()


def given(row):
    """The files with which the run over a worked file begins."""
    return {"row": data(row + ".mrc"), "out": YESTERDAY, "report": YESTERDAY, "beside": YESTERDAY}


def begun(room, files):
    """A folder with these files, and the words of the command over them."""
    os.makedirs(room)
    for name, content in files.items():
        with open(os.path.join(room, name), "wb") as file:
            file.write(content)
    return [word.replace("@", room + "/") for word in WORDS]


def wrong_with(before, due, ended):
    """What is wrong with how a run ended, given how it ends with memory."""
    (status, files), (due_status, due_files) = ended, due
    if status == due_status:
        return [] if files == due_files else ["ends as with memory, and leaves other files"]
    if status != MEMORY and status not in OF_FILES:
        return [f"status {status}"]
    kept = {name: {before[name]} for name in before}
    if status == 4:
        kept.update({name: {before[name], due_files[name]} for name in OUTPUTS})
    return [f"{name} is not as it was" for name in before if files.get(name) not in kept[name]] + [
        f"{name} is there" for name in files if name not in before and name != "j"
    ]


def wrong_again(due, ended):
    """What is wrong with how it ends when it is given again."""
    if ended[0] != due[0]:
        return [f"given again it ends with {ended[0]}"]
    return [f"given again {name} is not what is due" for name in OUTPUTS if ended[1].get(name) != due[1][name]]


def judged(row, due, once, again):
    """The status of a run, and what is wrong with it; `again` is how it ends when it is given again, where it wasn't as with memory."""
    return once[0], wrong_with(given(row), due, once) + (wrong_again(due, again) if once[0] != due[0] else [])


def known_due(row, ended):
    """How the run over a worked file ends with memory, whose export is known."""
    if ended[0] or ended[1]["out"] != data(row + ".out"):
        sys.exit(f"{row}: with memory the status is {ended[0]}, or the export is not the one that is due")
    return ended


# --- a built program, in which a library refuses a request

class Preloaded:
    """A program, and the library that is loaded before it."""

    def __init__(self, program, work):
        self.program, self.work = os.path.realpath(program), work
        self.library = os.path.join(work, "refuse.so")
        subprocess.run(["gcc", "-O2", "-shared", "-fPIC", "-o", self.library, os.path.join(HERE, "refuse.c")], check=True)

    def ended(self, room, words, number):
        """How the command ends with this request refused, or with none where it is 0."""
        environment = {"LD_PRELOAD": self.library, "REFUSED": str(number), "COUNTED": room + ".count"}
        try:
            status = subprocess.run([self.program, *words], env=environment, capture_output=True, timeout=LIMIT, check=False).returncode
        except subprocess.TimeoutExpired:
            status = f"none in {LIMIT} s"
        return status, contents(room)

    def count(self, row):
        """How the run over a worked file ends, and how many requests it makes."""
        room = os.path.join(self.work, row)
        ended = self.ended(room, begun(room, given(row)), 0)
        with open(room + ".count", "rb") as file:
            return known_due(row, ended), int.from_bytes(file.read(), sys.byteorder)

    def tried(self, row, due, number):
        room = os.path.join(self.work, f"{row}.{number}")
        words = begun(room, given(row))
        once = self.ended(room, words, number)
        again = self.ended(room, words, 0) if once[0] != due[0] else None
        shutil.rmtree(room)
        return judged(row, due, once, again)


def done_before(path, head):
    """What an earlier walk has seen of the same program: the status of each request of each row, and what was wrong."""
    seen = {}
    lines = open(path, encoding="utf-8").read().splitlines() if os.path.exists(path) else []
    if lines[:1] != [head]:
        with open(path, "w", encoding="utf-8") as file:
            file.write(head + "\n")
        return seen
    for line in lines[1:]:
        row, number, status, *wrong = line.split("\t")
        seen[row, int(number)] = (int(status) if re.fullmatch(r"-?\d+", status) else status), wrong
    return seen


def walk_program(program, jobs, step, folder):
    """Yields each row with the status of each request that was refused, and with what was wrong."""
    with open(program, "rb") as file:
        head = hashlib.sha256(file.read()).hexdigest()
    path = os.path.join(folder, "done.txt")
    seen = done_before(path, head)
    with tempfile.TemporaryDirectory() as work, concurrent.futures.ThreadPoolExecutor(jobs) as pool, open(path, "a", encoding="utf-8") as done:
        preloaded = Preloaded(program, work)
        for row in ROWS:
            due, count = preloaded.count(row)
            if count < 100:
                sys.exit(f"{row}: the program asks for memory {count} times only: its requests don't come to {preloaded.library}")
            numbers = range(1, count + 1, step)
            left = [number for number in numbers if (row, number) not in seen]
            for number, (status, wrong) in zip(left, pool.map(lambda number: preloaded.tried(row, due, number), left)):
                seen[row, number] = status, wrong
                done.write("\t".join([row, str(number), str(status), *wrong]) + "\n")
                done.flush()
            yield row, {number: seen[row, number] for number in numbers}


# --- a program that `rt try` builds so that it refuses a request

PADDED = '''
/// Makes as many requests for memory as the first word says, and carries out the command of the others, twice where the second says so.
fn padded<H: Threads + Wait + Sync>(rt: &HostRuntime, threads: &H) -> io::Result<u8> {
    let mut pads = 0u32;
    let mut is_twice = false;
    let Ok(words) = env::args(rt) else {
        return Ok(99);
    };
    for (place, word) in words.enumerate() {
        if place == 1 {
            for digit in word.as_bytes() {
                pads = pads.wrapping_mul(10).wrapping_add(u32::from(digit.wrapping_sub(b'0')));
            }
        }
        is_twice = is_twice || (place == 2 && word.as_str() == "twice");
    }
    for _ in 0..pads {
        let pad: Result<Vec<u8>, _> = Vec::with_capacity(rt.alloc(), 1);
        if pad.is_err() {
            return Ok(99);
        }
    }
    if is_twice {
        let _first = command(rt, threads);
    }
    command(rt, threads)
}
'''


def padded_house(work):
    """A copy of the house, whose program makes its pads first."""
    house = os.path.join(work, "house")
    shutil.rmtree(house, ignore_errors=True)
    shutil.copytree(os.path.join(TOP, "crates"), os.path.join(house, "crates"), ignore=shutil.ignore_patterns("out", "must-fail"))
    for name in ("crates.txt", "HANDLES"):
        shutil.copy(os.path.join(TOP, name), house)
    os.mkdir(os.path.join(house, ".git"))
    path = os.path.join(house, "crates", "union_cat", "src", "main.rt")
    with open(path, encoding="utf-8") as file:
        text = file.read()
    for old, new in (("args.skip(1)", "args.skip(3)"), ("match command(&rt, &rt)", "match padded(&rt, &rt)")):
        if text.count(old) != 1:
            sys.exit(f"{path}: not once: {old}")
        text = text.replace(old, new)
    text += PADDED
    with open(path, "w", encoding="utf-8") as file:
        file.write(text)
    return os.path.join(house, "crates", "union_cat")


def carried_out(crate, work, cases):
    """The status and the files of each case: its row, its pads, and `once` or `twice`."""
    folder = os.path.join(work, "cases")
    os.mkdir(folder)
    rooms = []
    for number, (row, pads, times) in enumerate(cases):
        rooms.append(os.path.join(work, "rooms", f"{number:06}"))
        words = begun(rooms[-1], given(row))
        case = os.path.join(folder, f"{number:06}")
        open(case, "wb").close()
        with open(case + ".args", "w", encoding="utf-8") as file:
            file.write("\n".join([str(pads), times, *words]) + "\n")
    done = subprocess.run(
        ["rt", "try", "--fail-alloc", str(REFUSED), "--cases", folder], cwd=crate, capture_output=True, text=True, errors="replace", check=False
    )
    statuses = dict(re.findall(r"^case=(\d{6})\b.*?\bstatus=(\d+)", done.stderr, re.M))
    if len(statuses) != len(cases):
        print(done.stderr[-3000:])
        sys.exit(f"{len(statuses)} of {len(cases)} cases have a status")
    return [(int(statuses[f"{number:06}"]), contents(room)) for number, room in enumerate(rooms)]


def walk_unproved(step, folder):
    """As walk_program, with the program that `rt try` builds: first with memory, then with each request refused, and the same given again behind that."""
    numbers = list(range(1, MOST + 1, step))
    cases = [(row, 0, "once") for row in ROWS]
    cases += [(row, REFUSED - number, times) for row in ROWS for number in numbers for times in ("once", "twice")]
    ended = carried_out(padded_house(folder), folder, cases)
    dues, ended = ended[: len(ROWS)], iter(ended[len(ROWS) :])
    for row, due in zip(ROWS, dues):
        known_due(row, due)
        seen = {}
        for number in numbers:
            once, twice = next(ended), next(ended)
            if once[0] != UNPADDED:
                seen[number] = judged(row, due, once, twice)
        if next(reversed(seen.values()))[0]:
            sys.exit(f"{row}: the last request tried is still one of its own: raise MOST")
        yield row, seen


# --- what it tells

def told(walked):
    """Prints what was seen, and returns whether something was wrong."""
    bad = False
    for row, seen in walked:
        for number, (_, wrong) in seen.items():
            for it in wrong:
                print(f"{row}: request {number}: {it}")
                bad = True
        statuses = [status for status, _ in seen.values()]
        ends = ", ".join(f"{statuses.count(status)} with {status}" for status in sorted(set(statuses), key=str))
        print(f"{row}: of {len(statuses)} requests refused: {ends}", flush=True)
    return bad


def main():
    parser = argparse.ArgumentParser(description=__doc__, formatter_class=argparse.RawDescriptionHelpFormatter)
    parser.add_argument("--program")
    parser.add_argument("--jobs", type=int, default=1, metavar="N")
    parser.add_argument("--step", type=int, default=1, metavar="N")
    parser.add_argument("folder", nargs="?", metavar="FOLDER")
    asked = parser.parse_args()
    folder = os.path.realpath(asked.folder) if asked.folder else tempfile.mkdtemp()
    os.makedirs(folder, exist_ok=True)
    bad = told(walk_program(asked.program, asked.jobs, asked.step, folder) if asked.program else walk_unproved(asked.step, folder))
    if not asked.folder:
        shutil.rmtree(folder)
    return bad


if __name__ == "__main__":
    sys.exit(main())
