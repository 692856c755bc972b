"""Explains a fault that a program found in a script: which word breaks the rule, and what was expected there.

The program decides that there is a fault, and by which rule. Here the word is looked for, by docs/SCRIPT.md; where it isn't found, the
fault is told without it.
"""
import difflib
from collections import namedtuple

from drawing import labels

from . import forms, header, policies, words

# The column from 0, how many characters are marked there, and notes for people. Without a column nothing is marked.
Found = namedtuple("Found", "at length notes")

# No payload is counted further.
MANY = 10**9


class Line:
    """A line with a fault, and what the lines before it say."""

    def __init__(self, text, before):
        self.text, self.before = text, before
        self.words = words.cut(text)
        self.texts = [word.text for word in self.words]
        self.form = forms.forms().get(self.texts[0]) if self.words else None

    def word(self, at, *notes):
        """The word at a place, with notes; where the line ends before it, its end."""
        if at < len(self.words):
            return Found(self.words[at].at, max(1, len(self.words[at].text)), list(notes))
        return Found(len(self.text), 1, list(notes))

    def places(self):
        """Each word of the line's form with its place and its kind; names after `as` are of kind NAME."""
        own = forms.arity(self.form)
        found = list(zip(range(1, own), self.form.own))
        if len(self.words) > own:
            found += [(own + 1 + at, "NAME") for at in range(len(self.form.named))]
        return [(at, kind) for at, kind in found if at < len(self.words)]

    def expected(self):
        return f"expected `{self.form.text}`"


def near(word, known):
    """A note on the known word that is most like this one."""
    found = difflib.get_close_matches(word, known, 1)
    return [f"did you mean `{found[0]}`?"] if found else []


def described(kind):
    """What a word of a kind is, in words."""
    text = forms.kinds().get(kind)
    return f"{kind}: {text}" if text else f"one of {', '.join(kind.split('|'))}"


# ---- rules on bytes, and on how a line is cut

def long_script(line):
    return Found(None, 0, ["a script has at most 16,777,216 bytes"])


def long_line(line):
    return Found(65536, 1, [f"a line has at most 65,536 bytes, and this one has {len(line.text):,}"])


def unprintable(line):
    at = next(at for at, sign in enumerate(line.text) if not " " <= sign <= "~")
    is_return = line.text[at:] == "\r"
    return Found(at, 1, [f"byte {ord(line.text[at]):02x} is neither a space nor a visible character of ASCII"] + ["a line ends in a line feed alone"] * is_return)


def empty_word(line):
    word = next(word for word in line.words if not word.text)
    return Found(min(word.at, len(line.text) - 1), 1, ["one space stands between two words, and none before the first or after the last"])


def open_quote(line):
    at = next(at for at, word in enumerate(line.words) if words.is_open(word.text))
    word, end = line.words[at], words.closing(line.words[at].text)
    if end is None:
        return line.word(at, "no quote closes this one")
    return Found(word.at + end + 1, 1, ["after the quote that closes a word a space or the end of the line was expected"])


def no_version(line):
    return Found(0, max(1, len(line.text)), ["expected `ix 1` or `ix 2`"])


def unknown_command(line):
    word = line.texts[0]
    if word == "ix":
        return line.word(0, "`ix` begins line 1 alone")
    return line.word(0, *near(word, list(forms.forms()) + ["phase"]))


# ---- rules on where a line stands

def late_header(line):
    return line.word(0, f"expected before the first `phase`, which is line {line.before.phase}")


def outside(line):
    if line.before.phase is None:
        return line.word(0, "expected `phase` before it" if line.texts[0] == "lane" else "expected `phase` and `lane NAME` before it")
    return line.word(0, "expected `lane NAME` before it")


def wrong_count(line):
    if line.texts[0] in ("phase", "policy"):
        return line.word(1, "expected `phase` alone" if line.texts[0] == "phase" else "expected `policy TEXT`")
    own = forms.arity(line.form)
    most = own + 1 + len(line.form.named) if line.form.named and line.texts[own:own + 1] == ["as"] else own
    return line.word(min(most, len(line.words)), line.expected())


# ---- rules on a word by itself

def bad(rule, line, at, kind):
    """Whether the word at a place, which is of that kind, breaks one of the rules 11 to 19."""
    word = line.texts[at]
    is_digits = word[:1].isdigit()
    low, high = (0, 255) if "FD" in kind else forms.bounds(line.words, at)
    is_counted = kind == "NUMBER" or "FD" in kind and is_digits
    if rule == 11:
        is_kept = kind == "all|none|FD" and word in ("all", "none")
        return kind in ("NAME", "PROC") and not words.is_name(word) or "FD" in kind and not is_digits and not is_kept and not words.is_name(word)
    if rule == 12:
        return is_counted and not words.is_number(word)
    if rule == 13:
        return is_counted and words.is_number(word) and not low <= int(word[:12]) <= high
    if rule == 14:
        return kind == "LABEL" and words.label_of(word, line.before.greatest) is None
    if rule == 15:
        return kind == "PRIVS" and not words.is_privileges(word)
    if rule == 16:
        is_made = line.texts[0] in ("dir", "file")
        return kind == "PATH" and (not words.is_path(word) or is_made and (word == "/" or not word.startswith("/")))
    if rule == 17:
        choices = {"r|w|rw": ("r", "w", "rw"), "STATE": ("free", "frozen"), "WHAT": tuple(forms.LIMITS)}
        return kind in choices and word not in choices[kind]
    size = words.payload(word) if kind == "PAYLOAD" else 0
    return size is None if rule == 18 else size is not None and size > most_bytes(line)


def most_bytes(line):
    return 4096 if line.texts[0] == "write" else 1048576


def label_notes(line, word):
    """What may be wrong with a label's text."""
    greatest = line.before.greatest
    notes = [f"{described('LABEL')}, whose categories go to {greatest}"]
    try:
        label = labels.parse(word, 10**6) if len(word) < 4000 and "-" not in (word[:1], word[-1:]) else None
    except (ValueError, MemoryError):
        label = None
    if label and max(label) <= greatest:
        notes.append(f"that label is spelled `{labels.spell(label, greatest)}`")
    return notes


def word_notes(rule, line, at, kind):
    """What was expected at the place of a word that breaks one of the rules 11 to 19."""
    word = line.texts[at]
    if rule == 13:
        low, high = (0, 255) if "FD" in kind else forms.bounds(line.words, at)
        return [f"the number goes from {low:,} to {high:,}"]
    if rule == 14:
        return label_notes(line, word)
    if rule == 17:
        choices = tuple(forms.LIMITS) if kind == "WHAT" else ("free", "frozen") if kind == "STATE" else ("r", "w", "rw")
        return ["one of " + ", ".join(choices)] + near(word, choices)
    if rule == 19:
        size = words.payload(word)
        return [f"at most {most_bytes(line):,} bytes may stand here, and these are {min(size, MANY):,}" + (" or more" if size >= MANY else "")]
    if rule == 16 and line.texts[0] in ("dir", "file") and words.is_path(word):
        return ["the path is absolute, and has a name"]
    return [described("FD" if "FD" in kind else kind)]


def wrong_word(rule, line):
    for at, kind in line.places():
        if bad(rule, line, at, kind):
            return line.word(at, line.expected(), *word_notes(rule, line, at, kind))
    return None


# ---- rules on names

def given_twice(line):
    verb, before = line.texts[0], line.before
    given = {"fs": before.system_lines, "proc": before.processes, "limit": before.limited, "lane": before.phase_lanes}
    if verb == "policy":
        return line.word(0, f"line {before.policy} is the policy")
    if verb in given:
        return line.word(1, f"`{line.texts[1]}` is given on line {given[verb][line.texts[1]]}")
    if verb == "pipe":
        return line.word(4, "the two ends need two names")
    last = len(line.words) - 1
    return line.word(last, f"`{line.texts[last]}` is the process of line {before.processes[line.texts[last]]}")


def unknown_name(line):
    known = {"PROC": line.before.known_processes(), "FD": line.before.known_descriptors()}
    for at, kind in line.places():
        word, sort = line.texts[at], "FD" if "FD" in kind else kind
        if sort not in known or word[:1].isdigit() or word in known[sort] or kind == "all|none|FD" and word in ("all", "none"):
            continue
        what = "process" if sort == "PROC" else "descriptor"
        names = ", ".join(known[sort][:12]) + (", .." if len(known[sort]) > 12 else "")
        listed = f"lane {line.before.lane} knows these: {names}" if names else f"lane {line.before.lane} knows no {what} by a name"
        return line.word(at, f"no {what} has the name `{word}` here; {listed}", *near(word, known[sort]))
    return None


# ---- rules on what fits

def above_ceiling(line):
    verb, before = line.texts[0], line.before
    at = 2
    label = before.label(line.texts[at])
    if verb == "proc":
        ceiling, whose = before.label(line.texts[3]), "its ceiling"
    else:
        system = before.file_systems()[before.system_of(line.texts[1])]
        ceiling, whose = system.ceiling, f"the ceiling of the file system {system.name}"
    return line.word(at, f"{whose} is {labels.spell(ceiling, before.greatest)}, which lacks {labels.spell(label - ceiling, before.greatest)}")


def misplaced(line):
    path, before = line.texts[1], line.before
    folder = path.rpartition("/")[0]
    if path in before.objects:
        return line.word(1, f"line {before.objects[path].line} has it already")
    if path in before.roots():
        return line.word(1, "that is the root of a file system")
    if folder in before.objects:
        return line.word(1, f"{folder} is a file, by line {before.objects[folder].line}")
    return line.word(1, f"there is no directory {folder}: a line `dir {folder} LABEL STATE` was expected before this one")


def no_room(line):
    before = line.before
    if line.texts[0] == "proc":
        return line.word(0, f"there may be {before.limit('procs')} processes: `limit procs NUMBER` sets how many")
    at = before.system_of(line.texts[1])
    system = before.file_systems()[at]
    here = [thing for path, thing in before.objects.items() if before.system_of(path) == at]
    blocks = sum((thing.size + 511) // 512 for thing in here)
    if len(before.objects) + len(before.roots()) >= before.limit("names"):
        return line.word(1, f"there may be {before.limit('names')} names: `limit names NUMBER` sets how many")
    if len(here) + 1 >= system.inodes:
        return line.word(1, f"the file system {system.name} has {system.inodes} inodes, one of which is its root's")
    return line.word(len(line.words) - 1, f"the file system {system.name} has {system.blocks} blocks of 512 bytes, and {blocks} of them are used before this line")


def out_of_order(line):
    expected = "`ix`, `limit` lines, `fs` lines, and then the others"
    return line.word(0, f"expected in this order: {expected}; line {line.before.later[line.texts[0]]} is of a later group")


def too_many(line):
    verb = line.texts[0]
    what = "16 file systems" if verb == "fs" else "64 lanes" if verb == "lane" else "200,000 commands"
    return line.word(0, f"there may be {what}")


def wrong_policy(line):
    text = line.text[7:]
    fault = policies.fault_of(text, line.before.greatest)
    if fault is None:
        return line.word(0, "which rule and field is not said: by the reading of docs/POLICY.md in tools/sessions/policies.py this is a policy, "
                            "so that reading and the program disagree")
    return Found(7 + fault.first, max(1, min(fault.last, len(text)) - fault.first), [fault.text])


def lacks_policy(line):
    return line.word(0, "expected a line `policy TEXT` in the header, by which the server decides")


EXPLAINED = {1: long_script, 2: long_line, 3: unprintable, 4: empty_word, 5: open_quote, 6: no_version, 7: unknown_command, 8: late_header,
             9: outside, 10: wrong_count, 20: given_twice, 21: unknown_name, 22: above_ceiling, 23: misplaced, 24: no_room, 25: out_of_order,
             26: too_many, 27: wrong_policy, 28: lacks_policy}


def explain(lines, number, text):
    """What to say of the fault of that text at that line, or None where nothing more is known."""
    rule = forms.rules().get(text)
    if rule is None or not 1 <= number <= len(lines):
        return None
    before = header.Before()
    try:
        for at, line in enumerate(lines[:number - 1], 1):
            before.add(at, line)
        line = Line(lines[number - 1], before)
        return EXPLAINED[rule](line) if rule in EXPLAINED else wrong_word(rule, line)
    except (LookupError, ValueError, StopIteration):
        return None


def rule_of(text):
    """The number of a rule by its text, or None."""
    return forms.rules().get(text)
