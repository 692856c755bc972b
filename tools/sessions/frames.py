"""Frames files as the programs want them on their standard input, and says which file's line a line of that is."""
import sys
from collections import namedtuple

HEADS = (b"ix 1 report", b"ix 2 report")

# A file's name for people, its bytes, and how many lines of the input stand before its first.
Part = namedtuple("Part", "name data before")
# `data` is what goes to the program; `warnings` are pairs of a place and a text.
Framed = namedtuple("Framed", "data parts warnings")


class Wrong(Exception):
    """Files that can't be framed: the place, the text, and the status of that."""

    def __init__(self, place, text, status, quoted=None):
        super().__init__(text)
        self.place, self.text, self.status, self.quoted = place, text, status, quoted


def read(path):
    """The bytes of a file; `-` is standard input."""
    try:
        if path == "-":
            return sys.stdin.buffer.read()
        with open(path, "rb") as it:
            return it.read()
    except OSError as fault:
        raise Wrong(path, fault.strerror, 4) from fault


def named(path):
    return "standard input" if path == "-" else path


def lines_of(data):
    """The lines of bytes, each character a byte: what follows the last line feed is a line where it isn't empty."""
    lines = data.decode("latin-1").split("\n")
    return lines[:-1] if lines[-1] == "" else lines


def count(data):
    return data.count(b"\n") + (not data.endswith(b"\n") and data != b"")


def ended(name, data, warnings):
    """Bytes whose last line ends in a line feed. Where it lacks, that is said."""
    if not data or data.endswith(b"\n"):
        return data
    warnings.append((f"{name}:{count(data)}", "the last line has no line feed at its end, and is given one"))
    return data + b"\n"


def line_number(data, wanted, first=0):
    """The number of the first line that is one of these, from `first` on, or None."""
    for number, line in enumerate(data.split(b"\n")[first:], first + 1):
        if line in wanted:
            return number
    return None


def alone(paths):
    """One file as it is."""
    data = read(paths[0])
    return Framed(data, [Part(named(paths[0]), data, 0)], [])


def judged(paths):
    """A script, and a text that claims to be its report after it. A text that doesn't begin as a report is none, and is left out: the answer is `no 1`."""
    script, claimed = (read(path) for path in paths)
    names = [named(path) for path in paths]
    early = line_number(script, HEADS, 1)
    if early:
        raise Wrong(f"{names[0]}:{early}", "a line that begins a report stands in the script", 3, script.split(b"\n")[early - 1])
    warnings = []
    if claimed and not claimed.endswith(b"\n"):
        warnings.append((f"{names[1]}:{count(claimed)}", "the last line has no line feed at its end, so it isn't whole"))
    joined = ended(names[0], script, warnings)
    parts = [Part(names[0], script, 0), Part(names[1], claimed, count(joined))]
    return Framed(joined + claimed if claimed.split(b"\n")[0] in HEADS else joined, parts, warnings)


def paired(paths):
    """Two scripts with a line `twin` between them."""
    first, second = (read(path) for path in paths)
    names = [named(path) for path in paths]
    early = line_number(first, (b"twin",))
    if early:
        raise Wrong(f"{names[0]}:{early}", "a line `twin` stands in the script: each script of a pair has a file of its own", 3, b"twin")
    warnings = []
    joined = ended(names[0], first, warnings)
    return Framed(joined + b"twin\n" + second, [Part(names[0], first, 0), Part(names[1], second, count(joined) + 1)], warnings)


def place_of(framed, line):
    """The file, the number of the line in it, and its lines, of a line of the input."""
    part = [part for part in framed.parts if part.before < line or part.before == 0][-1]
    return part.name, line - part.before, lines_of(part.data) or [""]
