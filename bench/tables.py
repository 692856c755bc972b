"""The tables of docs/PERFORMANCE.md: each has a name, in the line before it.

The scripts of this folder print their tables by `print_table`. `read_tables` finds the tables in what a script printed, and in the
page. `bench/fill` puts the ones into the place of the others.
"""
import re

MARKER = re.compile(r"Table \*\*([a-z-]+)\*\*")


class WrongTable(Exception):
    """A text has a table without a name, one whose rows don't fit its head, or two of one name."""


class Table:
    """A table in a list of lines: where its marker stands, its head, and the lines from the head to the last row."""

    def __init__(self, marker, head, first, end):
        self.marker = marker
        self.head = head
        self.first = first
        self.end = end

    def rows(self, lines):
        """The lines of its rows, without the head and the rule below it."""
        return lines[self.first + 2:self.end]


def cells_of(line):
    """The cells of a line of a table."""
    return [it.strip() for it in line.strip().strip("|").split("|")]


def row_of(cells):
    """The line of these cells."""
    return "| " + " | ".join(str(cell) for cell in cells) + " |"


def print_table(name, head, rows):
    """Prints a table under its name. Each row is printed when it comes, so that a long measurement can be watched."""
    print("Table **%s**\n" % name)
    print(row_of(head))
    print("|" + "---|" * len(head), flush=True)
    for row in rows:
        print(row_of(row), flush=True)
    print(flush=True)


def read_tables(lines):
    """The tables of a text by their names. A name is the last marker before the table, and names no other table."""
    tables, marker, at = {}, None, 0
    while at < len(lines):
        found = MARKER.match(lines[at])
        if found:
            marker = at
        if not lines[at].startswith("|"):
            at += 1
            continue
        end = at
        while end < len(lines) and lines[end].startswith("|"):
            end += 1
        if marker is None:
            raise WrongTable("the table %s has no name" % lines[at])
        name = MARKER.match(lines[marker])[1]
        if name in tables:
            raise WrongTable("there are two tables of the name %s" % name)
        head = cells_of(lines[at])
        if any(len(cells_of(line)) != len(head) for line in lines[at:end]):
            raise WrongTable("a row of the table %s has not as many cells as its head" % name)
        tables[name] = Table(marker, head, at, end)
        marker, at = None, end
    return tables
