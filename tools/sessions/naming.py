"""Names of categories: a file of lines `3 = payroll`, and labels with these names in what is printed for people."""
import re

from drawing import labels

from . import words

NAME = re.compile(r"[^\W\d_][\w.-]*")
GREATEST = 511


class Unnamed(Exception):
    """A file of names that can't be read: the number of the line, and why."""

    def __init__(self, number, line, text):
        super().__init__(text)
        self.number, self.line, self.text = number, line, text


def read(data):
    """The names of a file's bytes, by category."""
    names, lines = {}, {}
    for number, raw in enumerate(data.split(b"\n"), 1):
        try:
            line = raw.decode("utf-8").strip()
        except UnicodeDecodeError as fault:
            raise Unnamed(number, raw.decode("latin-1"), "it is not UTF-8") from fault
        if not line or line.startswith("#"):
            continue
        category, _, name = (part.strip() for part in line.partition("="))
        if not words.is_number(category) or not name or int(category[:4]) > GREATEST:
            raise Unnamed(number, line, "expected `CATEGORY = NAME`, with a category from 0 to 511")
        if not NAME.fullmatch(name):
            raise Unnamed(number, line, "expected a name that begins with a letter and goes on with letters, digits, `_`, `.` and `-`")
        for key in (int(category), name):
            if key in lines:
                raise Unnamed(number, line, f"{key} has its line already, which is line {lines[key]}")
            lines[key] = number
        names[int(category)] = name
    return names


def spell(text, names):
    """A label's text with names in the place of the categories that have one."""
    if text in ("-", "*") or not names:
        return text
    items = []
    for item in text.split(","):
        first, _, last = item.partition("-")
        items += runs(int(first), int(last or first), names)
    return ",".join(items)


def runs(first, last, names):
    """The categories from one to another, cut at those that have a name."""
    found, begin = [], first
    for category in sorted(category for category in names if first <= category <= last) + [last + 1]:
        if begin < category:
            found.append(str(begin) if begin == category - 1 else f"{begin}-{category - 1}")
        if category <= last:
            found.append(names[category])
        begin = category + 1
    return found


def unspell(text, names, greatest):
    """The one text of a label that may have names in it, or None where it is none."""
    if text in ("-", "*"):
        return text
    numbers = {name: str(category) for category, name in names.items()}
    label = set()
    for item in (numbers.get(item, item) for item in text.split(",")):
        if not re.fullmatch("[0-9]{1,3}(-[0-9]{1,3})?", item):
            return None
        label |= labels.parse(item, greatest)
    return labels.spell(label, greatest) if label and max(label) <= greatest else None


# ---- where labels stand in what the programs print

LABEL = "[-*]|[0-9][0-9,-]*"
AT_END = re.compile(f"( @ )({LABEL})$")
# Each is a kind of line, and the numbers of its groups that are labels.
SHAPES = [
    (re.compile(rf"([0-9]+ (?:dir|file|pipe) )({LABEL})( .*)"), (2,)),
    (re.compile(rf"(p[0-9]+ )({LABEL})( (?:live|ended))"), (2,)),
    (re.compile(rf"([0-9]+ p[0-9]+ [a-z]+ [0-9]+ )({LABEL})( )({LABEL})( [-DPCTL]+ [-DPCTL]+)"), (2, 4)),
    (re.compile(rf"([0-9]+ [0-9]+ [0-9]+ (?:write|file) [0-9]+ [0-9]+ )({LABEL})( [-0-9]+)"), (2,)),
    (re.compile(rf"(fs [a-z0-9_]+ )({LABEL})( [0-9]+ [0-9]+)"), (2,)),
]
# In an entry: arguments that are labels, and replies that have some.
IN_ENTRY = [
    (re.compile(rf"( (?:setlabel|ceiling) p[0-9]+ [^ ]+ )({LABEL})( = )"), (2,)),
    (re.compile(rf"( setself p[0-9]+ )({LABEL})( = )"), (2,)),
    (re.compile(rf"( = label )({LABEL})( @ )"), (2,)),
    (re.compile(rf"( = whole p[0-9]+ )({LABEL})( [-DPCTL]+ @ )"), (2,)),
    (re.compile(rf"( = log [0-9]+ p[0-9]+ [a-z]+ [0-9]+ )({LABEL})( )({LABEL})( )"), (2, 4)),
]


def replaced(found, at, names):
    return "".join(spell(group, names) if number in at else group for number, group in enumerate(found.groups(), 1))


def line_for_people(line, names):
    """A line that a program printed, with names in its labels."""
    if " @ " in line:
        for shape, at in IN_ENTRY:
            line = shape.sub(lambda found, at=at: replaced(found, at, names), line, count=1)
        return AT_END.sub(lambda found: found[1] + spell(found[2], names), line)
    for shape, at in SHAPES:
        found = shape.fullmatch(line)
        if found:
            return replaced(found, at, names)
    return line


def for_people(text, names):
    """What a program printed, with names in its labels."""
    return "\n".join(line_for_people(line, names) for line in text.split("\n")) if names else text
