"""The forms of a script's lines, what its words are, and its rules, as the tables of docs/SCRIPT.md have them."""
import functools
import os
import re
from collections import namedtuple

TOP = os.path.realpath(os.path.join(os.path.dirname(os.path.abspath(__file__)), "..", ".."))
PAGE = os.path.join(TOP, "docs", "SCRIPT.md")

# `own` are the kinds of the words after the first; `named` those of the names that may stand after `as`.
Form = namedtuple("Form", "text own named")

KINDS = {"NAME", "NUMBER", "LABEL", "PRIVS", "PATH", "PAYLOAD", "STATE", "PROC", "FD", "WHAT", "TEXT", "r|w|rw", "all|none|FD"}
HEADER = {"limit", "fs", "proc", "dir", "file", "policy"}
SERVED = {"priv", "login"}

# The least and the greatest of a NUMBER, by the first word; of `limit` by what is limited.
BOUNDS = {"fs": (1, 65536), "exit": (0, 255)}
LIMITS = {"procs": (1, 1024, 64), "opens": (1, 4096, 256), "pipes": (0, 1024, 32), "names": (16, 65536, 4096), "log": (0, 65536, 1024)}
ANY_NUMBER = (0, 4294967295)


class Unreadable(Exception):
    """docs/SCRIPT.md doesn't have the tables that it had."""


@functools.lru_cache(maxsize=None)
def page():
    with open(PAGE, encoding="utf-8") as it:
        return it.read().replace("\\|", "|")


def form_of(text):
    """A form by its text, or None where the text is no form."""
    own, _, tail = text.partition(" [as ")
    verb, *kinds = own.split(" ")
    if not re.fullmatch("[a-z]+", verb) or not kinds or not KINDS.issuperset(kinds):
        return None
    return Form(text, tuple(kinds), tuple(tail.rstrip("]").split(" ")) if tail else ())


@functools.lru_cache(maxsize=None)
def forms():
    """The form of each line by its first word. `ix` and `phase` have no further words to choose, and aren't among them."""
    part = page().partition("\n## The header\n")[2].partition("\n## The rules\n")[0]
    found = {}
    for text in re.findall("`([^`\n]+)`", part):
        form = form_of(text)
        if form:
            found.setdefault(text.split(" ")[0], form)
    if not HEADER | SERVED | {"lane"} <= set(found):
        raise Unreadable("docs/SCRIPT.md has no table of the header's lines and of the commands")
    return found


@functools.lru_cache(maxsize=None)
def kinds():
    """What a word of each kind is, by the kind."""
    return {name: text.replace("`", "") for name, text in re.findall(r"^\| ([A-Z]+) \| (.*?) \| .* \|$", page(), re.MULTILINE)}


@functools.lru_cache(maxsize=None)
def rules():
    """The number of each rule by its text, as the programs print it."""
    part = page().partition("\n## The rules\n")[2].partition("\n## ")[0]
    return {text: int(number) for number, text in re.findall(r"^\| ([0-9]+) \| ([^|]+?) \|.*\|$", part, re.MULTILINE)}


def bounds(words, at):
    """The least and the greatest number that may stand at a place of a line."""
    verb = words[0].text
    if verb == "limit":
        return LIMITS.get(words[1].text, ANY_NUMBER)[:2]
    return BOUNDS.get(verb, ANY_NUMBER)


def arity(form):
    """How many words a line of a form has without `as` and its names."""
    return 1 + len(form.own)
