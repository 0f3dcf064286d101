#!/usr/bin/env python3
"""Other programs read the lists and show the pages that the gate's runs have stored: readers.py [FOLDER]

Takes each LIST and PAGE of `worklist` out of `crates/whole_runs/stdout`. Python (`utf-8-sig`) reads each list and writes it again byte for byte;
LibreOffice (Debian: libreoffice-calc) reads it, all columns as text, and what it writes again has the same cells; Chromium shows each page, on the
screen, in FOLDER/pageN.png, for somebody to look at. A program that isn't there is told. Ends with 1 where something is otherwise.
`list.py` and `page.py` do the same with lists and pages that the program makes.
"""
import csv
import io
import os
import re
import shutil
import subprocess
import sys
import tempfile

HERE = os.path.dirname(os.path.realpath(__file__))
STORED = os.path.join(HERE, "..", "..", "crates", "whole_runs", "stdout")
BOM = b"\xef\xbb\xbf"
# separated by commas, quoted, in UTF-8; then the first line, and for what is written: all cells quoted, as they are and not as they look
READ, WRITTEN = "44,34,76,1", "44,34,76,1,,0,true,true,false"


def rows(data):
    """The cells of a list, as Python reads them."""
    return list(csv.reader(io.StringIO(data.decode("utf-8-sig"), newline="")))


def is_written_again(data):
    """Whether Python writes again byte for byte what it read."""
    again = io.StringIO(newline="")
    csv.writer(again, quoting=csv.QUOTE_ALL, lineterminator="\r\n").writerows(rows(data))
    return BOM + again.getvalue().encode() == data


def by_office(path, folder):
    """The cells that LibreOffice reads, all columns as text, and writes again into a file of the folder; none where it isn't there."""
    if not shutil.which("soffice"):
        print("no soffice here")
        return None
    with open(path, "rb") as file:
        columns = len(rows(file.read())[0])
    text = "/".join(f"{column}/2" for column in range(1, columns + 1))
    words = ["soffice", f"-env:UserInstallation=file://{folder}/profile", "--headless", f"--infilter=CSV:{READ},{text}"]
    words += ["--convert-to", f"csv:Text - txt - csv (StarCalc):{WRITTEN}", "--outdir", os.path.join(folder, "office"), path]
    subprocess.run(words, stdout=subprocess.DEVNULL, stderr=subprocess.DEVNULL, timeout=600, check=True)
    with open(os.path.join(folder, "office", os.path.basename(path)), "rb") as file:
        return rows(file.read())


def by_chromium(path, picture, *ways):
    """Has Chromium show a page in a picture, and in these ways, and returns whether it did; none where it isn't there."""
    if not shutil.which("chromium"):
        print("no chromium here")
        return None
    browser = ["chromium", "--headless", "--no-sandbox", "--disable-gpu", "--hide-scrollbars", "--window-size=1200,3600"]
    for way in (f"--screenshot={picture}", *ways):
        subprocess.run([*browser, way, f"file://{path}"], stdout=subprocess.DEVNULL, stderr=subprocess.DEVNULL, timeout=600, check=True)
    return os.path.getsize(picture) > 0


def stored():
    """The lists and the pages that stand in what the gate's runs print, where a byte that isn't ASCII has two digits to the base 16."""
    with open(STORED, encoding="ascii") as file:
        text = file.read()
    lists = re.findall(r'^\w+: (\\ef\\bb\\bf(?:".*"\\0d\n)+)$', text, re.M)
    pages = re.findall(r"^\w+: (<!DOCTYPE html>.*?</html>\n?)$", text, re.M | re.S)
    bytes_of = lambda shown: re.sub(rb"\\([0-9a-f]{2})", lambda it: bytes.fromhex(it[1].decode()), shown.encode())
    return [bytes_of(it) for it in lists], [bytes_of(it) for it in pages]


def main():
    folder = os.path.realpath(sys.argv[1]) if len(sys.argv) > 1 else tempfile.mkdtemp()
    os.makedirs(folder, exist_ok=True)
    lists, pages = stored()
    wrong = 0

    def look(well, what):
        nonlocal wrong
        if well is False:
            print("otherwise:", what)
            wrong = 1

    look(lists != [] and pages != [], "there are no lists or pages")
    for number, data in enumerate(lists):
        path = os.path.join(folder, f"list{number}.csv")
        with open(path, "wb") as file:
            file.write(data)
        look(is_written_again(data), f"what Python reads of {path} and writes again")
        cells = by_office(path, folder)
        look(cells is None or cells == rows(data), f"what LibreOffice reads of {path} and writes again")
        print(f"{path}: {len(rows(data)) - 1} lines")
    for number, data in enumerate(pages):
        path = os.path.join(folder, f"page{number}.html")
        with open(path, "wb") as file:
            file.write(data)
        look(by_chromium(path, f"{folder}/page{number}.png"), f"what Chromium shows of {path}")
        print(f"{path}: {len(data)} bytes; look at {folder}/page{number}.png")
    print(f"{len(lists)} lists, {len(pages)} pages" + (", otherwise" if wrong else ", as they should be"))
    return wrong


if __name__ == "__main__":
    sys.exit(main())
