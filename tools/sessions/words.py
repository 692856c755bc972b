"""The words of a script: how a line is cut into them, and what each kind of word may be. docs/SCRIPT.md has the rules."""
import re
from collections import namedtuple

from drawing import labels

# `at` is the column of the first character, from 0.
Word = namedtuple("Word", "text at")


def cut(line):
    """The words of a line. A word that begins with a quote goes to the quote that closes it, spaces and all."""
    if not line:
        return []
    words, start, spot = [], 0, "first"
    for at, sign in enumerate(line):
        if sign == " " and spot in ("first", "plain"):
            words.append(Word(line[start:at], start))
            start, spot = at + 1, "first"
        elif spot == "first":
            spot = "quoted" if sign == '"' else "plain"
        elif spot == "quoted":
            spot = {"\\": "escaped", '"': "plain"}.get(sign, "quoted")
        elif spot == "escaped":
            spot = "quoted"
    words.append(Word(line[start:], start))
    return words


def closing(word):
    """The place of the quote that closes a word, or None."""
    found = re.match(r'"(?:[^"\\]|\\.)*"', word, re.DOTALL)
    return found.end() - 1 if found else None


def is_open(word):
    """Whether a word begins with a quote, and no quote closes it at its end."""
    return word.startswith('"') and closing(word) != len(word) - 1


def is_name(word):
    return re.fullmatch("[a-z][a-z0-9_]{0,15}", word) is not None and word not in ("all", "none", "as")


def is_number(word):
    return re.fullmatch("0|[1-9][0-9]*", word) is not None


def label_of(word, greatest):
    """The set that a label's one text stands for, or None where the word isn't one."""
    if word not in ("-", "*") and not re.fullmatch("(?:[0-9]{1,3}(?:-[0-9]{1,3})?)(?:,[0-9]{1,3}(?:-[0-9]{1,3})?)*", word):
        return None
    label = labels.parse(word, greatest)
    if any(category > greatest for category in label) or labels.spell(label, greatest) != word:
        return None
    return label


def is_privileges(word):
    return word == "-" or bool(word) and re.fullmatch("D?P?C?T?L?", word) is not None


def is_path(word):
    """Whether a word is a path of at most 16 names."""
    if re.fullmatch("[!#-\\[\\]-~]+", word) is None:
        return False
    names = word[1:] if word.startswith("/") else word
    if not names:
        return word == "/"
    parts = names.split("/")
    return len(parts) <= 16 and all(0 < len(part) <= 28 and part not in (".", "..") for part in parts)


def payload(word):
    """How many bytes a payload has, or None where the word isn't one. Of a count of more than 20 digits these alone are taken."""
    found = re.fullmatch(r"(0|[1-9][0-9]*)\*[0-9a-fA-F]{2}", word)
    if found:
        return int(found[1][:20])
    if re.fullmatch("x(?:[0-9a-fA-F]{2})*", word):
        return len(word) // 2
    if not re.fullmatch(r'"(?:[^"\\]|\\[\\"n]|\\x[0-9a-fA-F]{2})*"', word):
        return None
    return len(re.findall(r"\\x..|\\.|[^\\]", word[1:-1]))


def spelled(data):
    """The shortest payload of these bytes; of equally short ones hexadecimal digits come first, then a count, then quotes."""
    spellings = ["x" + data.hex()]
    if data and data.count(data[0]) == len(data):
        spellings.append(f"{len(data)}*{data[0]:02x}")
    spellings.append(quoted(data))
    return min(spellings, key=len)


def quoted(data):
    """The payload in quotes."""
    text = []
    for byte in data:
        if byte in b'\\"':
            text.append("\\" + chr(byte))
        elif byte == 10:
            text.append("\\n")
        else:
            text.append(chr(byte) if 32 <= byte <= 126 else f"\\x{byte:02x}")
    return '"' + "".join(text) + '"'


def text_of(data):
    """Bytes as a text, for people: what isn't UTF-8 stands as a backslash and two hexadecimal digits."""
    return data.decode("utf-8", "backslashreplace")
