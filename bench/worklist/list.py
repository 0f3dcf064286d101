#!/usr/bin/env python3
"""list.py PROGRAM [FOLDER]: makes a journal of made records, and of a record whose title and heading are formulas and markup, and has `worklist` write its list.
Looks whether Python (`utf-8-sig`) reads the list and writes it again byte for byte, whether no cell begins as a formula does, whether there are as many
lines of each state as the report's last line counts, whether they stand by falling count, and whether a library's list has its lines of the whole. Where
`soffice` is there, it too reads the list, all columns as text, and what it writes again has the same cells. Ends with 1 where something is otherwise."""
import os
import re
import subprocess
import sys
import tempfile

from readers import by_office, is_written_again, rows

program = os.path.realpath(sys.argv[1])
folder = os.path.realpath(sys.argv[2]) if len(sys.argv) > 2 else tempfile.mkdtemp()
os.makedirs(folder, exist_ok=True)
os.chdir(folder)
wrong = 0


def look(well, what):
    global wrong
    if not well:
        print("otherwise:", what)
        wrong = 1


def call(due, *words):
    child = subprocess.run([program, *words], stdout=subprocess.DEVNULL, stderr=subprocess.DEVNULL)
    look(child.returncode in due, f"{' '.join(words)} ended with {child.returncode}")


def record(number, title, heading):
    """A record in ISO 2709, with a 100 and a 245."""
    directory, body = "", ""
    for tag, text in [("001", number), ("100", f"1 \x1fa{heading}"), ("245", f"00\x1fa{title}")]:
        directory += f"{tag}{len(text.encode()) + 1:04}{len(body.encode()):05}"
        body += text + "\x1e"
    start = 24 + len(directory) + 1
    size = start + len(body.encode()) + 1
    return f"{size:05}nam a22{start:05} a 4500{directory}\x1e{body}\x1d".encode()


call([0], "make", "7", "2000", "made.mrc")
with open("risky.mrc", "wb") as out:
    out.write(record("r1", "</td><script>alert(1)</script>", '=HYPERLINK("x")') + record("r2", "+1, \"two\"", "@sum") + record("r3", "", "'t Hooft"))
call([0, 1], "load", "j", "MADE=made.mrc", "RISK=risky.mrc")
call([0], "report", "j", "report.txt")
call([0], "worklist", "j", "list.csv", "page.html")
call([0], "worklist", "j", "risk.csv", "page2.html", "RISK")
data = open("list.csv", "rb").read()
lines = rows(data)
look(is_written_again(data), "what Python reads and writes again")
look(all(cell[:1] not in "=+-@\t\n\r" or cell == "" for line in lines for cell in line), "a cell that begins as a formula does")
names, cells = lines[0], [dict(zip(lines[0], line)) for line in lines[1:]]
totals = dict(word.split("=") for word in re.findall(r"\w+=\d+", open("report.txt").read().splitlines()[-1]))
for state in ("ambiguous", "unlinked"):
    look(sum(c["state"] == state for c in cells) == int(totals[state]), f"how many headings are {state}")
counts = [int(c["count"]) for c in cells if c["state"] in ("ambiguous", "unlinked")]
look(counts == sorted(counts, reverse=True), "the order of the lines")
risk = rows(open("risk.csv", "rb").read())
look(risk[1:] == [line for line in lines[1:] if line[names.index("library")] == "RISK" and line[0] in ("ambiguous", "unlinked")], "a library's list")
look(open("page.html", "rb").read() == open("page2.html", "rb").read(), "the page of a library's list")
by_it = by_office(os.path.join(folder, "list.csv"), folder)
look(by_it is None or by_it == lines, "what LibreOffice reads and writes again")
print(f"{len(cells)} lines, {len(data)} bytes" + (", otherwise" if wrong else ", as they should be"))
sys.exit(wrong)
