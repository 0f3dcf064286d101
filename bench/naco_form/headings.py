"""Writes the headings of the benchmark: `headings.py ascii COUNT` or `headings.py accents COUNT`."""
import random
import sys

ASCII = "Twain Smith Johnson O'Brien Garcia Nguyen Mueller Andersen Tolstoy Shakespeare Austen Woolf Melville".split()
ACCENTS = "Müller Łódź Dvořák Þórarinsson García Nguyễn Çelik Ångström Œuvre Søren Straße Ćosić Škvorecký Bédier".split()
GIVEN = "Mark John Jane Leo William Herman Virginia Anna Maria Peter".split()
GIVEN_ACCENTS = "José Zoë André Jürgen Élise Łukasz François Máire Ñusta Noël".split()


def heading(draw, accents):
    """A personal name, a corporate name or a title, of 10 to 45 characters."""
    family = draw.choice(ACCENTS if accents else ASCII)
    given = draw.choice(GIVEN_ACCENTS if accents else GIVEN)
    number = draw.randrange(100_000)
    return draw.choice([
        f"{family}, {given}, {1800 + number % 200}-{1850 + number % 170}.",
        f"{family} & Co. ({given}) [{number}]",
        f"Letters of {given} {family}: volume {number}",
        f"{family}, {given} {chr(65 + number % 26)}.,",
    ])


def main():
    accents = sys.argv[1] == "accents"
    draw = random.Random(7)
    for _ in range(int(sys.argv[2])):
        print(heading(draw, accents))


main()
