"""What programs write into documents: each table stands between two marks, which name the program and the table."""
import os
import re
from itertools import takewhile
from typing import NamedTuple

from library.names import ROOT

MOVED = 0.10


class Table(NamedTuple):
    """Lines that a program writes into a document. A table of no page is printed alone."""
    page: str
    name: str
    text: str


class Picture(NamedTuple):
    """A file that a program writes."""
    page: str
    text: str


def row(cells):
    return f"| {' | '.join(cells)} |"


def table(heads, rows, numbers):
    """A table whose last columns, so many, are numbers."""
    line = "|" + "---|" * (len(heads) - numbers) + "---:|" * numbers
    return "\n".join([row(heads), line, *map(row, rows)])


def figures_of(time):
    """A time with three figures, or more."""
    return f"{time:.{2 if time < 10 else 1 if time < 100 else 0}f}"


def marks(program, name):
    return f"<!-- {program}: {name} -->\n", f"<!-- end of {name} -->"


def text_of(page):
    with open(os.path.join(ROOT, page), encoding="utf-8") as file:
        return file.read()


def parts(text, page, program, name):
    """What stands before what the program wrote, that, and what stands behind."""
    begin, end = marks(program, name)
    if text.count(begin) != 1 or text.count(end) != 1 or text.index(end) < text.index(begin):
        raise SystemExit(f"{page} has no pair of lines {begin.strip()} and {end}")
    before, rest = text.split(begin)
    inside, after = rest.split(end)
    return before + begin, inside, end + after


def written(program, table):
    """What the program wrote before."""
    return parts(text_of(table.page), table.page, program, table.name)[1].strip("\n")


def write(program, table):
    """Writes a table between its marks."""
    before, _, after = parts(text_of(table.page), table.page, program, table.name)
    with open(os.path.join(ROOT, table.page), "w", encoding="utf-8") as file:
        file.write(f"{before}{table.text}\n{after}")


def draw(picture):
    with open(os.path.join(ROOT, picture.page), "w", encoding="utf-8") as file:
        file.write(picture.text)


def cells(text):
    """Each cell of a text's tables, by the number of its table, its row, which the cells up to the first figure name, and its column."""
    found, number, heads = {}, 0, None
    for line in text.split("\n"):
        told = [cell.strip() for cell in line.strip("|").split("|")]
        if not line.startswith("|"):
            heads = None
        elif heads is None:
            number, heads = number + 1, told
        elif set(line) - set("|-: "):
            front = takewhile(lambda cell: not re.search(r"\d", cell), told[1:])
            label = " ".join([told[0], *front])
            found.update({(number, label, head): cell for head, cell in zip(heads[1:], told[1:])})
    return found


def figures(cell):
    """The numbers of a cell, but not those of a name in back quotes."""
    return [] if "`" in cell else [float(found) for found in re.findall(r"\d+(?:\.\d+)?", cell)]


def moved(before, now):
    """A line for each cell of two texts that has a figure which moved by more than a tenth, and how many cells there are in both."""
    old, new = cells(before), cells(now)
    both = [key for key in new if key in old and len(figures(new[key])) == len(figures(old[key])) > 0]
    far = [key for key in both if any(abs(a - b) > MOVED * a for a, b in zip(figures(old[key]), figures(new[key])))]
    return [f"{row}, {column}: {old[at, row, column]} -> {new[at, row, column]}" for at, row, column in far], len(both)
