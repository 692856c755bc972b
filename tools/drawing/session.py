"""What `ixone` was given and what it printed, as records: the header of a script, the entries and the end of a report, a flow."""
from collections import namedtuple

from . import labels

# How many words stand between a call's caller and its `=`.
ARGUMENTS = {
    "create": 1, "open": 2, "read": 2, "write": 2, "cut": 2, "seek": 2, "dup": 1, "close": 1, "pipe": 0, "mkdir": 1, "link": 2,
    "unlink": 1, "rmdir": 1, "chdir": 1, "stat": 1, "list": 2, "fork": 1, "exec": 1, "exit": 1, "wait": 0, "labelof": 1, "self": 0,
    "setlabel": 2, "setself": 1, "freeze": 1, "freezeself": 0, "thaw": 1, "thawself": 0, "setpriv": 3, "droplic": 1, "grant": 2,
    "ceiling": 2, "pex": 1, "unpex": 1, "readlog": 1,
}

# `label` is the caller's behind the call, or None where it has no record; `text` is the whole line.
Entry = namedtuple("Entry", "place lane line verb caller words reply label text")
Release = namedtuple("Release", "act target was now text")
Flow = namedtuple("Flow", "place kind source via text")
Process = namedtuple("Process", "name label ceiling")
System = namedtuple("System", "name ceiling inodes")
Object = namedtuple("Object", "kind path label")


class Script:
    """The header of a script, and what its lines name."""

    def __init__(self, text):
        self.lines = text.split("\n")
        self.form = 2 if self.lines[0] == "ix 2" else 1
        self.greatest = 511 if self.form == 2 else 255
        self.systems, self.processes, self.objects = [], [], []
        self.phases, self.lanes = {}, []
        phase = 0
        for number, line in enumerate(self.lines, 1):
            words = line.split(" ")
            if words[0] == "phase":
                phase += 1
            elif words[0] == "lane":
                self.lanes += [words[1]] if words[1] not in self.lanes else []
            self.phases[number] = phase
            if phase == 0:
                self.header(words)
        if not self.systems:
            self.systems = [System("root", labels.parse("*", self.greatest), 256)]

    def header(self, words):
        label = lambda word: labels.parse(word, self.greatest)
        if words[0] == "fs":
            self.systems.append(System(words[1], label(words[2]), int(words[4])))
        elif words[0] == "proc":
            self.processes.append(Process(words[1], label(words[2]), label(words[3])))
        elif words[0] in ("dir", "file"):
            self.objects.append(Object(words[0], words[1], label(words[2])))

    def comment(self):
        """The comment that follows the first line, or nothing."""
        second = self.lines[1] if len(self.lines) > 1 else ""
        return second[1:].strip() if second.startswith("#") else ""

    def named(self, number):
        """The name that a fork or a login at a line gives to the child, or None."""
        words = self.lines[number - 1].split(" ")
        return words[-1] if words[0] in ("fork", "login") and len(words) > 2 and words[-2] == "as" else None


class Report:
    """The entries of a report, and what it tells of the end."""

    def __init__(self, text, greatest):
        self.entries, self.objects, self.processes, self.log = [], {}, {}, {}
        part = "entries"
        for line in text.split("\n")[1:]:
            words = line.split(" ")
            if line in ("objects", "processes", "log"):
                part = line
            elif not line or words[0] == "end":
                continue
            elif part == "entries":
                self.entries.append(entry_of(line, greatest))
            elif part == "objects":
                self.objects[int(words[0])] = labels.parse(words[2], greatest)
            elif part == "processes":
                self.processes[int(words[0][1:])] = labels.parse(words[1], greatest)
            elif words[2] in ("downfile", "downself"):
                was, now = (labels.parse(word, greatest) for word in words[4:6])
                self.log[int(words[0])] = Release(words[2], int(words[3]), was, now, line)
            else:
                self.log[int(words[0])] = Release(words[2], None, None, None, line)


def entry_of(line, greatest):
    words = line.split(" ")
    verb = words[3]
    equals = 5 + ARGUMENTS[verb]
    label = None if words[-1] == "none" else labels.parse(words[-1], greatest)
    caller = int(words[4][1:])
    return Entry(int(words[0]), words[1], int(words[2]), verb, caller, words[5:equals], words[equals + 1:-2], label, line)


def flows_of(text):
    """The lines of a flow but for its last, which counts them."""
    flows = []
    for line in text.split("\n"):
        words = line.split(" ")
        if len(words) < 4:
            continue
        source = None if words[3] == "gap" else int(words[4])
        via = int(words[7]) if len(words) > 7 and words[7] != "-" else None
        flows.append(Flow(int(words[0]), words[3], source, via, line))
    return flows
