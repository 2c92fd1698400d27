"""The tables of manual pages, by two formatters: each row has the same words in the same cells.

A row of a list of columns stands in one line, at 78 columns, which `man` takes of a terminal of 80,
and at 80. A formatter that isn't installed is left out, and said to be.
"""
import re
import shutil

from checks.shared.running import ran

WIDTHS = 78, 80
LIST = re.compile(r"^\.Bl -column.*\n((?:.*\n)*?)\.El$", re.M)
CELL = re.compile(r" Ta ")
STYLE = re.compile(r"^(?:Sy|Ic|Em|Li|Pa) ")
BACKSPACE = re.compile(".\b")
COLOUR = re.compile("\x1b\\[[0-9;]*m")


def renderings(page, width):
    """The words by which each formatter writes a page."""
    yield ["groff", "-mandoc", "-t", "-Tutf8", f"-rLL={width}n", "-ww", str(page)]
    yield ["mandoc", "-Tutf8", f"-Owidth={width}", str(page)]


def rows_of(text):
    """The cells of each row of the tables of a page, without those that are empty."""
    for found in LIST.finditer(text):
        for line in found[1].splitlines():
            if line.startswith(".It "):
                cells = CELL.split(line.removeprefix(".It "))
                plain = (STYLE.sub("", it).strip('"') for it in cells)
                yield tuple(it for it in plain if it)


def lines_of(text):
    """The cells of each line that a formatter wrote: two blanks or more stand between two."""
    clear = BACKSPACE.sub("", COLOUR.sub("", text)).expandtabs()
    return [tuple(re.split(r" {2,}", it.strip())) for it in clear.splitlines()]


def wrong_in(rows, lines):
    """A line for each row that is none of those that were written."""
    return [f"  no line has the cells of {' | '.join(it)}\n" for it in rows if it not in lines]


def look_at_table(page, words, tally):
    """Looks at what a formatter writes of a page."""
    made = ran(words)
    wrong = [f"  {it}\n" for it in made.stderr.splitlines()]
    wrong += wrong_in(rows_of(page.read_text()), set(lines_of(made.stdout)))
    tally.take(f"{page.name} by {words[0]}, {words[-2]}", wrong)


def look_at_manuals(pages, tally):
    """Looks at the tables of manual pages."""
    for name in ("groff", "mandoc"):
        if pages and not shutil.which(name):
            print(f"skipped: there is no {name}")
    for page in pages:
        for width in WIDTHS:
            for words in renderings(page, width):
                if shutil.which(words[0]):
                    look_at_table(page, words, tally)
