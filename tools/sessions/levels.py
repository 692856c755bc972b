"""Levels and categories of multi-level security, as SELinux spells them, as labels.

A level `s2:c3,c7` becomes a label with the categories 3 and 7 and a chain of further ones: with N levels, of the greatest N - 1 categories of the
form the first belongs to s1 and above, the second to s2 and above, and so on. So one label is at or below another exactly where the second
level dominates the first.
"""
import re
from collections import namedtuple

from drawing import labels

Level = namedtuple("Level", "sensitivity categories")

TYPED = "type enforcement has no counterpart: a label says what may be known, and neither which user or role a process has nor which type may do what"
STATEMENTS = {
    "allow": TYPED, "auditallow": TYPED, "dontaudit": TYPED, "neverallow": TYPED, "type": TYPED, "typeattribute": TYPED, "attribute": TYPED,
    "type_transition": TYPED, "type_change": TYPED, "role": TYPED, "roleattribute": TYPED, "user": TYPED, "constrain": TYPED, "domain": TYPED,
    "mlsconstrain": "the constraints are fixed here: a read raises the reader, a write raises what is written, up to ceilings",
    "mlsvalidatetrans": "the rules of relabelling are fixed here: to lower a label takes a capability and a licence",
    "range_transition": "exec changes no label here: a process keeps its label and its ceiling",
}


class Inexpressible(Exception):
    """What has no label, and why."""


class Levels:
    """So many levels beside the categories of a form, whose greatest is given."""

    def __init__(self, count, greatest):
        if not 1 <= count <= greatest + 1:
            raise Inexpressible(f"there may be 1 to {greatest + 1} levels")
        self.count, self.greatest = count, greatest
        self.first = greatest + 2 - count   # the category of s1

    def chain(self, sensitivity):
        return frozenset(range(self.first, self.first + sensitivity))

    def label(self, level):
        return self.chain(level.sensitivity) | level.categories

    def spelled(self, level):
        return labels.spell(self.label(level), self.greatest)

    def level(self, text):
        """The level that a text spells."""
        name, colon, rest = text.partition(":")
        found = re.fullmatch("s([0-9]+)", name)
        if not found:
            raise Inexpressible(f"`{name}` is no level: expected s0, s1 and so on" + translated(name))
        sensitivity = int(found[1][:9])
        if sensitivity >= self.count:
            raise Inexpressible(f"{name} is above s{self.count - 1}: there are {self.count} levels here (--levels)")
        if colon and not rest:
            raise Inexpressible(f"`{text}` lacks categories after the colon")
        return Level(sensitivity, frozenset().union(*(self.items(item) for item in rest.split(","))) if colon else frozenset())

    def items(self, item):
        """The categories of an item, as `c3`, or `c3.c7` for all from one to the other."""
        found = re.fullmatch(r"c([0-9]+)(?:\.c([0-9]+))?", item)
        if not found:
            raise Inexpressible(f"`{item}` is no category: expected c3, or c3.c7 for a run" + translated(item))
        first, last = int(found[1][:9]), int((found[2] or found[1])[:9])
        if first > last:
            raise Inexpressible(f"`{item}` runs downwards")
        if last >= self.first:
            raise Inexpressible(f"c{last} is above c{self.first - 1}: of {self.greatest + 1} categories {self.count - 1} stand for the levels")
        return frozenset(range(first, last + 1))

    def range(self, text):
        """The low and the high level of a range; a level alone is both."""
        refuse_other(text)
        low, dash, high = text.partition("-")
        lower = self.level(low)
        higher = self.level(high) if dash else lower
        if not self.label(lower) <= self.label(higher):
            raise Inexpressible(f"`{high}` doesn't dominate `{low}`, so this is no range")
        return lower, higher

    def back(self, text):
        """The text of the level that a label stands for."""
        label = labels.parse(text, self.greatest)
        chain = frozenset(category for category in label if category >= self.first)
        if chain != self.chain(len(chain)):
            missing = min(self.chain(self.count - 1) - chain)
            raise Inexpressible(f"`{text}` is of no level: it lacks category {missing}, which stands for s{missing - self.first + 1}, and has one above it")
        rest = runs(sorted(label - chain))
        return f"s{len(chain)}" + (":" + rest if rest else "")

    def names(self):
        """The categories of the levels, each with the name of its level."""
        return [(self.first + at, f"s{at + 1}") for at in range(self.count - 1)]


def runs(numbers):
    """Categories as SELinux spells them: of three and more in a row the first and the last, with a dot between."""
    found = []
    for number in numbers:
        if found and found[-1][1] == number - 1:
            found[-1][1] = number
        else:
            found.append([number, number])
    return ",".join(f"c{a}" if a == b else f"c{a},c{b}" if b == a + 1 else f"c{a}.c{b}" for a, b in found)


def translated(name):
    return "; names are translated by setrans.conf, which isn't read here" if re.fullmatch("[A-Z][A-Za-z]+", name) else ""


def refuse_other(text):
    """Refuses what isn't a level or a range, with the reason."""
    first = re.split(r"[\s(]", text.strip(), maxsplit=1)[0]
    if first in STATEMENTS:
        raise Inexpressible(f"a statement `{first}` can't be expressed: {STATEMENTS[first]}")
    parts = text.split(":")
    if len(parts) >= 3 and not re.fullmatch("s[0-9]+.*", text):
        raise Inexpressible(f"the user, role and type `{':'.join(parts[:3])}` can't be expressed: {TYPED}")
    if "*" in text or "!" in text or "~" in text:
        raise Inexpressible("sets with `*`, `!` or `~` stand in policies, and not in levels")
