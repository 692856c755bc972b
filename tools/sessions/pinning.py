"""Pins a report: makes a script whose only order of calls is the report's.

Each stretch of entries of one lane becomes a phase with that lane alone, and each entry one command, also those of a `copy`, a `priv` or a
`login`. Descriptors stand as the numbers of the report. A process of the header has its name, and a child the one that stands after `as`
on the line that made it.
"""
import re

from drawing import session

from . import words

MOST_COMMANDS = 200000
MOST_BYTES = 16777216

# An entry by its words: place, lane, line, verb, caller.
ENTRY = re.compile(r"([1-9][0-9]*) ([a-z][a-z0-9_]*) ([1-9][0-9]*) ([a-z]+) p[0-9]+ .*= .* @ ")


class CannotPin(Exception):
    """A report that is one of the script, and whose order no script has alone."""


def is_entry(line):
    return ENTRY.match(line) is not None


def entry_lines(report):
    """The lines of a report that are entries, from its second line on."""
    found = []
    for line in report.split("\n")[1:]:
        if not is_entry(line):
            break
        found.append(line)
    return found


def without_numbers(report):
    """A report in which no entry says the line of the script that it comes from."""
    return re.sub(r"^([1-9][0-9]* [a-z][a-z0-9_]*) [1-9][0-9]* (?=[a-z]+ p[0-9])", r"\1 ", report, flags=re.MULTILINE)


class Lane:
    """What a lane knows: processes by their names, and a line that could give a name to process 0."""

    def __init__(self):
        self.names, self.known = {}, {}
        self.spare = None

    def give(self, name, pid):
        old = self.names.pop(name, None)
        self.names[name] = pid
        self.known[pid] = name
        if old is not None and old != pid and self.known.get(old) == name:
            self.known[old] = next((other for other, number in self.names.items() if number == old), None)


class Pin:
    """A pinned script in the making."""

    def __init__(self, text):
        self.script = session.Script(text)
        end = next((at for at, line in enumerate(self.script.lines) if line == "phase"), len(self.script.lines))
        self.out = self.script.lines[:end]
        if self.out[-1] == "":
            self.out.pop()
        self.has_policy = any(line.startswith("policy ") for line in self.out)
        self.processes = [process.name for process in self.script.processes]
        self.taken = set(re.findall("[a-z][a-z0-9_]*", text))
        self.lanes, self.lane, self.commands = {}, None, 0

    def fresh(self, name):
        """A name that stands nowhere in the script."""
        while name in self.taken:
            name += "_"
        return name

    def name_of(self, pid, place):
        """The name by which the lane knows a process."""
        if 0 < pid <= len(self.processes):
            return self.processes[pid - 1]
        lane = self.lanes[self.lane]
        if lane.known.get(pid):
            return lane.known[pid]
        if pid == 0 and lane.spare:
            return self.spend(lane)
        raise CannotPin(f"entry {place} names process {pid}, and no command of lane {self.lane} before it can give that a name")

    def spend(self, lane):
        """Lets the lane's spare line give process 0 a name."""
        at, count, text = lane.spare
        name = self.fresh("nobody")
        self.out[at:at + count] = [f"{text} as {name}"] + [None] * (count - 1)
        self.commands -= count - 1
        lane.give(name, 0)
        return name

    def command(self, entry, given):
        """Adds the command of an entry; `given` is the name that a fork gives, or None."""
        if entry.lane != self.lane:
            self.lane = entry.lane
            self.out += ["phase", f"lane {entry.lane}"]
            self.lanes.setdefault(entry.lane, Lane())
        lane = self.lanes[entry.lane]
        said = [entry.verb, self.name_of(entry.caller, entry.place)] + self.arguments(entry)
        text = " ".join(said)
        if given:
            lane.give(given, int(entry.reply[1]) if entry.reply[0] == "number" else 0)
            text += f" as {given}"
        elif entry.verb == "fork" and entry.reply[0] == "no":
            lane.spare = len(self.out), 1, text
        elif entry.verb == "pex" and entry.reply[0] != "whole" and self.has_policy:
            lane.spare = len(self.out), 1, f"login {said[1]} {said[2]} {said[2]}"
        self.out.append(text)
        self.commands += 1

    def arguments(self, entry):
        """The words after the caller."""
        if entry.verb == "write":
            return [entry.words[0], words.spelled(bytes.fromhex(entry.words[1][1:]))]
        if entry.verb in ("grant", "ceiling"):
            return [self.name_of(int(entry.words[0][1:]), entry.place)] + entry.words[1:]
        return entry.words

    def given(self, entry, calls):
        """The name that a fork gives, where it is one of these calls of a line."""
        if entry.verb != "fork":
            return None
        name = self.script.named(entry.line)
        if calls[0] is entry:
            return name
        if entry.reply[0] == "no":
            return None
        return name if name and is_granted(calls) else self.fresh(f"p{entry.reply[1]}")

    def keep(self, calls):
        """Where a login was not granted, and its calls stand together, its own line could give process 0 a name."""
        if calls[-1].place - calls[0].place == len(calls) - 1 and not is_granted(calls):
            at, first = len(self.out) - len(calls), calls[0]
            hand = next((call.words[0] for call in calls if call.verb == "fork"), first.words[0])
            self.lanes[first.lane].spare = at, len(calls), f"login {self.name_of(first.caller, first.place)} {first.words[0]} {hand}"

    def text(self):
        if self.commands > MOST_COMMANDS:
            raise CannotPin(f"the pinned script would have {self.commands:,} commands, and {MOST_COMMANDS:,} at most may be")
        text = "\n".join(line for line in self.out if line is not None) + "\n"
        if len(text) > MOST_BYTES:
            raise CannotPin(f"the pinned script would have {len(text):,} bytes, and {MOST_BYTES:,} at most may be")
        return text


def is_granted(calls):
    """Whether the calls of a login opened a session: there is a child, and it wasn't ended."""
    verbs = [call.verb for call in calls if call.reply[0] != "no"]
    return "fork" in verbs and "exit" not in verbs


def calls_by_line(entries):
    """The entries of each lane and line of the script."""
    found = {}
    for entry in entries:
        found.setdefault((entry.lane, entry.line), []).append(entry)
    return found


def pinned(text, lines):
    """The script whose only order is that of these entries of a report of a script."""
    pin = Pin(text)
    entries = [session.entry_of(line, pin.script.greatest) for line in lines]
    calls = calls_by_line(entries)
    for entry in entries:
        own = calls[entry.lane, entry.line]
        pin.command(entry, pin.given(entry, own))
        if entry is own[-1] and pin.script.lines[entry.line - 1].startswith("login "):
            pin.keep(own)
    return pin.text()


def differing(one, other):
    """The number of the first line at which two texts differ, or None."""
    if one == other:
        return None
    ones, others = one.split("\n"), other.split("\n")
    return next(at for at, (a, b) in enumerate(zip(ones + [None], others + [None]), 1) if a != b)
