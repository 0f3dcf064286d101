#!/usr/bin/env python3
"""page.py PROGRAM [FOLDER]: makes a journal of made records, the sample, and a record whose title and heading are markup, and has `worklist` write its page.
Looks whether each element of the page is closed, whether its tags are those that a page may have, whether each table has a caption, whether its totals are
those of the report's last line, and whether the tables by library and by kind add up to them. Where `chromium` is there it shows the page, on the screen
and printed, in FOLDER/page.png and FOLDER/page.pdf, for somebody to look at. Ends with 1 where something is otherwise."""
import html.parser
import os
import shutil
import subprocess
import sys
import tempfile

from readers import by_chromium

here = os.path.dirname(os.path.abspath(__file__))
program = os.path.realpath(sys.argv[1])
folder = os.path.realpath(sys.argv[2]) if len(sys.argv) > 2 else tempfile.mkdtemp()
os.makedirs(folder, exist_ok=True)
os.chdir(folder)
TAGS = "html head meta title style body h1 table caption thead tbody tr th td svg rect".split()
wrong = 0


def look(well, what):
    global wrong
    if not well:
        print("otherwise:", what)
        wrong = 1


def call(due, *words):
    child = subprocess.run([program, *words], stdout=subprocess.PIPE, stderr=subprocess.DEVNULL)
    look(child.returncode in due, f"{' '.join(words)} ended with {child.returncode}")
    return child.stdout


def record(number, title, heading):
    """A record in ISO 2709, with a 100 and a 245."""
    fields = [("001", number), ("100", f"1 \x1fa{heading}"), ("245", f"00\x1fa{title}")]
    directory, body = "", ""
    for tag, text in fields:
        directory += f"{tag}{len(text.encode()) + 1:04}{len(body.encode()):05}"
        body += text + "\x1e"
    start = 24 + len(directory) + 1
    size = start + len(body.encode()) + 1
    return f"{size:05}nam a22{start:05} a 4500{directory}\x1e{body}\x1d".encode()


class Page(html.parser.HTMLParser):
    """The tables of a page, each with its caption and the texts of its rows."""

    def __init__(self):
        super().__init__()
        self.stack, self.tables, self.cell, self.tags = [], [], None, set()

    def handle_starttag(self, tag, attributes):
        self.tags.add(tag)
        if tag != "meta":
            self.stack.append(tag)
        if tag == "table":
            self.tables.append([None])
        if tag == "tr":
            self.tables[-1].append([])
        if tag in ("th", "td", "caption"):
            self.cell = ""

    def handle_endtag(self, tag):
        look(self.stack and self.stack.pop() == tag, f"</{tag}> closes another element")
        if tag == "caption":
            self.tables[-1][0] = self.cell
        if tag in ("th", "td"):
            self.tables[-1][-1].append(self.cell)

    def handle_data(self, data):
        if self.cell is not None:
            self.cell += data


call((0,), "make", "7", "20000", "made.mrc")
shutil.copy(f"{here}/../../crates/union_cat/data/everything.mrc", ".")
hostile = [record(f"h{n}", "</td><script>alert(1)</script>", "=HYPERLINK(\"x\")<b>&amp;'") for n in range(3)]
open("hostile.mrc", "wb").write(b"".join(hostile))
call((0, 1), "load", "union.jnl", "ALIB=made.mrc", "ULIB=everything.mrc", "HLIB=hostile.mrc")
call((0, 1), "load", "union.jnl", "BLIB=hostile.mrc")
call((0,), "worklist", "union.jnl", "list.csv", "page.html")
call((0,), "report", "union.jnl", "union.rep")
page = Page()
page.feed(open("page.html", encoding="utf-8").read())
page.close()
look(not page.stack, f"not closed: {page.stack}")
look(page.tags <= set(TAGS), f"tags: {page.tags - set(TAGS)}")
look(all(table[0] for table in page.tables), "a table without a caption")
totals, libraries, kinds = page.tables[:3]
shown = [int(row[1]) for row in totals[2:]]
last = open("union.rep", encoding="utf-8").read().splitlines()[-1]
print("the report's last line:", last)
print("the page's totals:", shown)
look([int(word.split("=")[1]) for word in last.split()[1:]] == shown, "totals aren't those of the report")
for table in (libraries, kinds):
    sums = [sum(int(row[column]) for row in table[2:]) for column in (1, 2, 3)]
    look(sums == shown[-3:], f"{table[0]}: {sums}")
shown = by_chromium(f"{folder}/page.html", f"{folder}/page.png", f"--print-to-pdf={folder}/page.pdf")
look(shown is not False, "what Chromium shows")
if shown:
    print("look at", f"{folder}/page.png", f"{folder}/page.pdf")
sys.exit(wrong)
