"""The first fault of a policy's text, by the rules of docs/POLICY.md. The programs alone decide whether a policy is refused; this says where."""
import json
import re
from collections import namedtuple

from . import words

MOST_RULES = 256
MOST_BRACKETS = 127

# What is wrong: the rule's number from 1 and its field, where it is a rule; the columns from and to which it stands in the text, from 0.
Fault = namedtuple("Fault", "rule field first last text")


class Syntax(ValueError):
    """The text is no JSON, by the reader that the programs use."""

    def __init__(self, text, at=0):
        super().__init__(text)
        self.at = at


def checked_number(text):
    """A number that isn't too great for a float."""
    if float(text) in (float("inf"), float("-inf")):
        raise Syntax("a number is too great")
    return 0


def refused(text):
    raise Syntax(f"{text} is no value")


def checked_text(text):
    if any("\ud800" <= sign <= "\udfff" for sign in text):
        raise Syntax("an escape is half of a surrogate pair")


def pairs(found):
    """An object: of a key that stands twice the last value counts. Each text is looked at, also one that doesn't count."""
    for key, value in found:
        checked_text(key)
        check_texts(value)
    return dict(found)


def check_texts(value):
    if isinstance(value, str):
        checked_text(value)
    elif isinstance(value, list):
        for element in value:
            check_texts(element)


def check_brackets(text):
    """Refuses brackets that are too deep in one another. Those in quotes don't count."""
    deep = 0
    for found in re.finditer(r'"(?:[^"\\]|\\.)*"|[\[{]|[\]}]', text):
        sign = found[0]
        deep += {"[": 1, "{": 1, "]": -1, "}": -1}.get(sign, 0)
        if deep > MOST_BRACKETS:
            raise Syntax(f"more than {MOST_BRACKETS} brackets stand in one another", found.start())


DECODER = json.JSONDecoder(object_pairs_hook=pairs, parse_float=checked_number, parse_int=checked_number, parse_constant=refused)


def value_of(text):
    """The value of a text."""
    check_brackets(text)
    try:
        value = DECODER.decode(text)
    except json.JSONDecodeError as fault:
        raise Syntax(fault.msg[0].lower() + fault.msg[1:], fault.pos) from fault
    check_texts(value)
    return value


def spaces(text, at):
    """The place of the next character that is no space."""
    while at < len(text) and text[at] in " \t\r\n":
        at += 1
    return at


def parts(text, at):
    """The elements of the array or object that begins there, in order: key or None, and where the value begins and ends."""
    keyed = text[at] == "{"
    at = spaces(text, at + 1)
    while text[at] not in "]}":
        key = None
        if keyed:
            key, at = DECODER.raw_decode(text, at)
            at = spaces(text, spaces(text, at) + 1)
        first = at
        _, at = DECODER.raw_decode(text, at)
        yield key, first, at
        at = spaces(text, at)
        if text[at] == ",":
            at = spaces(text, at + 1)


def last_of(text, at, key):
    """Where the value of a key begins and ends in the object that begins there, or None: the last one counts."""
    found = [(first, last) for name, first, last in parts(text, at) if name == key]
    return found[-1] if found else None


def wrong_fields(rule, greatest):
    """The fields that are wrong, in the order in which they are looked at, each with what was expected."""
    if not isinstance(rule, dict) or rule.get("act") not in ("grant", "session"):
        yield "act", 'an object with an "act", which is "grant" or "session"'
        return
    user = rule.get("user")
    if not isinstance(user, str) or not (user == "*" or words.is_name(user) and rule["act"] == "session"):
        yield "user", '"*"' if rule["act"] == "grant" else '"*" or a name'
    clear = rule.get("clear")
    if not isinstance(clear, str) or words.label_of(clear, greatest) is None:
        yield "clear", f"the one text of a label whose categories go to {greatest}"
    privileges = rule.get("privs")
    if not isinstance(privileges, str) or not words.is_privileges(privileges):
        yield "privs", '"-", or some of the letters D P C T L in this order'
    if not isinstance(rule.get("allow"), bool):
        yield "allow", "true or false"
    others = set(rule) - {"act", "user", "clear", "privs", "allow"}
    if others:
        yield next(key for key in rule if key in others), "no key but act, user, clear, privs and allow"


def fault_of(text, greatest):
    """The first fault of a policy's text, or None where it is a policy."""
    try:
        value = value_of(text)
    except Syntax as fault:
        return Fault(None, None, fault.at, fault.at + 1, f"the text is no JSON: {fault}")
    except RecursionError:
        return Fault(None, None, 0, 1, "the text is no JSON: too many brackets stand in one another")
    begin = spaces(text, 0)
    if not isinstance(value, dict) or set(value) != {"rules"} or not isinstance(value["rules"], list):
        return Fault(None, None, begin, len(text.rstrip()), 'expected an object with the one key "rules", and under it an array')
    first, last = last_of(text, begin, "rules")
    if len(value["rules"]) > MOST_RULES:
        return Fault(None, None, first, last, f"there are {len(value['rules'])} rules, and {MOST_RULES} at most may be")
    spots = [(start, end) for _, start, end in parts(text, first)]
    for number, (rule, spot) in enumerate(zip(value["rules"], spots), 1):
        for field, expected in wrong_fields(rule, greatest):
            inner = last_of(text, spot[0], field) if isinstance(rule, dict) else None
            return Fault(number, field, *(inner or spot), f"rule {number}, field `{field}`: expected {expected}")
    return None
