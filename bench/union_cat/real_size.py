#!/usr/bin/env python3
"""Writes made records of real size: real_size.py COUNT FILE [SEED]

Of each eight one is an authority (some 450 bytes, eleven fields) and seven are bibliographic (1,080 bytes in the mean, twenty fields, seven of them
headings), which makes 1,000 bytes. Names, titles and topics have diacritics, half of them as a letter and a mark. A third of the headings have a `$0`:
it names an authority that comes before or behind them, or is an address that is no key. The other headings go by their texts: some stand under a see-from
heading, of which some are of two authorities, and some have none. The records depend on COUNT and SEED (7) alone.
"""
import random
import sys
import unicodedata

FIELD_END, RECORD_END, SUBFIELD = "\x1e", "\x1d", "\x1f"
FAMILIES = "Dvořák Ibsen Müller Åkesson Çelik Núñez Łukasiewicz Brontë Šafařík Hélène Nguyễn O'Connor Smith Østergård Ćosić Jiménez Weiß Kovács".split()
GIVEN = "Antonín Jürgen José Zoë Béla Søren François Mária Åsa Thérèse Joan Władysław İsmet Eiríkur Anna Luís Charlotte Ngọc".split()
TOPICS = "Music Cathedrals Frères Façades Poetry Glaciers Économie Übersetzung Birds Café-theaters Railways Água Folklore Piñatas Libraries Ethics".split()
PLACES = "Praha Århus Kraków München São-Paulo Québec İzmir Reykjavík Köln Bogotá Oslo Győr".split()
WORDS = """the of a study in history letters between résumé œuvre collected works edition naïve critical essays with notes and an introduction by
translated from Español Français Česky revised enlarged illustrated volume one two three proceedings conference held at university papers presented""".split()
# An authority for each eight records; a heading names one of somewhat more, so that some have none.
SHARE, SPREAD = 8, 1.15


def written(leader, fields):
    """A record in ISO 2709, of the leader's positions 05 to 08 and of pairs of tag and text."""
    directory, data, size = "", [], 0
    for tag, text in fields:
        area = (text + FIELD_END).encode()
        directory += f"{tag}{len(area):04}{size:05}"
        data.append(area)
        size += len(area)
    base = 24 + len(directory) + 1
    return f"{base + size + 1:05}{leader}a22{base:05} i 4500{directory}{FIELD_END}".encode() + b"".join(data) + RECORD_END.encode()


def field(tag, indicators, *subfields):
    return tag, indicators + "".join(SUBFIELD + code + text for code, text in subfields)


class Maker:
    def __init__(self, count, seed):
        self.draws, self.names = random.Random(f"{seed} {count}"), max(1, count // SHARE)

    def words(self, count):
        return " ".join(self.draws.choices(WORDS, k=count))

    def spelled(self, text, number):
        """A text as the libraries write it: of odd numbers as letters and marks."""
        return unicodedata.normalize("NFD" if number % 2 else "NFC", text)

    def heading(self, number):
        """The heading with this number: its tag's end, its indicators, and its subfields."""
        kind = number % 4
        if kind in (0, 1):
            name = f"{FAMILIES[number % len(FAMILIES)]}, {GIVEN[number // 7 % len(GIVEN)]} {number // 3}"
            born = 1700 + number % 250
            return "00", "1 ", [("a", self.spelled(name + ",", number)), ("d", f"{born}-{born + 40 + number % 50}.")]
        words = TOPICS if kind == 2 else PLACES
        return f"5{kind - 2}", "  ", [("a", self.spelled(f"{words[number % len(words)]} {number}", number))]

    def see_from(self, number):
        """The see-from heading of the authority with this number; of each sixteen the first two have the same."""
        end, indicators, _ = self.heading(number)
        other = number // 16 if number % 16 in (0, 1) else number
        return end, indicators, [("a", self.spelled(f"Variant {other} of {FAMILIES[other % len(FAMILIES)]}", number))]

    def used(self, number):
        """The heading as a book has it: of each twelve one is the see-from heading."""
        return self.see_from(number) if self.draws.randrange(12) == 0 else self.heading(number)

    def linked(self, tag, end, indicators, subfields, number):
        """A heading field; a third have a `$0`, of which a tenth is an address."""
        zero = self.draws.randrange(30)
        text = f"http://id.example.org/names/{number}" if zero == 0 else f"(DLC)n{number}" if zero < 10 else None
        return field(tag + end, indicators, *subfields, *([("0", text)] if text else []))

    def of_kind(self, kinds):
        """The number of a heading of one of these kinds."""
        while True:
            number = self.draws.randrange(int(self.names * SPREAD))
            if number % 4 in kinds:
                return number

    def authority(self, number):
        end, indicators, subfields = self.heading(number)
        text = subfields[0][1]
        fields = [("001", f"n{number}"), ("003", "DLC"), ("005", "20240311083112.0"), ("008", "840101n| azannaabn          |a aaa      ")]
        fields += [field("010", "  ", ("a", f"n  {number:08}")), field("040", "  ", ("a", "DLC"), ("b", "eng"), ("c", "DLC"), ("d", "Uk"))]
        fields += [field("1" + end, indicators, *subfields), field("4" + end, indicators, *self.see_from(number)[2])]
        fields += [field("670", "  ", ("a", f"{self.words(4)}, {1950 + number % 70}:"), ("b", f"t.p. ({text.strip(',')})"))]
        fields += [field("670", "  ", ("a", f"{self.words(4)}, 2001:"), ("b", self.words(3))), field("675", "  ", ("a", self.words(2)))]
        return written("nz  ", fields)

    def book(self, number):
        draws = self.draws
        fields = [("001", f"b{number:08}"), ("005", "20240311083112.0"), ("008", "840101s1984    xr a     b    001 0 eng  ")]
        fields += [field("010", "  ", ("a", f"   {number:08}")), field("020", "  ", ("a", f"978{number:010}"), ("q", "(hardback)"))]
        fields += [field("040", "  ", ("a", "UkOx"), ("b", "eng"), ("e", "rda"), ("c", "UkOx"))]
        fields += [field("050", " 4", ("a", f"ML{number % 9000}.{number % 97}"), ("b", f".D9 {1950 + number % 70}"))]
        author = self.of_kind((0, 1))
        fields += [self.linked("1", *self.used(author), author)]
        fields += [field("245", "10", ("a", f"{self.words(5)} :"), ("b", f"{self.words(5)} /"), ("c", f"{self.words(4)}."))]
        fields += [field("264", " 1", ("a", f"{draws.choice(PLACES)} :"), ("b", f"{draws.choice(FAMILIES)} & Söhne,"), ("c", f"{1950 + number % 70}."))]
        fields += [field("300", "  ", ("a", f"xii, {100 + number % 700} pages :"), ("b", "illustrations (some colour) ;"), ("c", "24 cm"))]
        fields += [field("336", "  ", ("a", "text"), ("b", "txt"), ("2", "rdacontent")), field("504", "  ", ("a", "Includes bibliographical references and index."))]
        fields += [field("520", "  ", ("a", f"{self.words(6 + draws.randrange(16))}."))]
        for tag, kinds in (("6", (0, 1)), ("6", (2,)), ("6", (2,)), ("6", (3,))):
            one = self.of_kind(kinds)
            end, indicators, subfields = self.used(one)
            divided = [("x", "History"), ("y", "20th century.")] if draws.randrange(3) == 0 and kinds != (0, 1) else []
            fields += [self.linked(tag, end, indicators[0] + "0", subfields + divided, one)]
        for tag in ("7", "7"):
            one = self.of_kind((0, 1))
            end, indicators, subfields = self.used(one)
            fields += [self.linked(tag, end, indicators, subfields + [("e", "editor.")], one)]
        return written("nam ", fields)


def main():
    if len(sys.argv) not in (3, 4):
        sys.exit(__doc__)
    count, seed = int(sys.argv[1]), sys.argv[3] if len(sys.argv) > 3 else "7"
    maker = Maker(count, seed)
    # The authorities come in no order of their numbers, among the books.
    names = list(range(maker.names))
    maker.draws.shuffle(names)
    with open(sys.argv[2], "wb") as out:
        for number in range(count):
            out.write(maker.authority(names.pop()) if number % SHARE == SHARE - 1 and names else maker.book(number))


main()
