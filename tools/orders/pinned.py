"""Scripts in which some calls have come in a fixed order, and after which lanes may go on by the lines of the script that are left.

Each stretch of one lane becomes a phase with that lane alone. A line whose calls came without another lane's between them stays as
it is, so that its names serve the lines after it. The calls of a `copy`, `priv` or `login` that others came between are written one
by one, as the entries say them. Where nothing is to follow `sessions.pinning` makes the script of a whole report.
"""
from .body import SEVERAL


class Unpinned(Exception):
    """No script of this form has that order alone."""


class Writer:
    """Lines of a pinned script; `origins` has for each of them the number of the script's line that it is made of, or None."""

    def __init__(self, body):
        self.body = body
        self.lines = list(body.header)
        self.origins = [None] * len(self.lines)
        self.lane = None
        self.names = {}  # by lane: what process each name stands for
        self.processes = {}
        self.divided = False  # whether some line's calls are written one by one
        for line in body.header:
            if line.startswith("proc "):
                self.processes[line.split(" ")[1]] = len(self.processes) + 1

    def add(self, line, origin=None):
        self.lines.append(line)
        self.origins.append(origin)

    def phase(self):
        self.add("phase")
        self.lane = None

    def begin(self, lane):
        """What follows is of that lane, and comes after all before."""
        if self.lane != lane:
            self.phase()
            self.add("lane " + lane)
            self.lane = lane

    def whole(self, lane, number):
        """A line of the script as it stands."""
        self.begin(lane)
        self.add(self.body.lines[number - 1], number)

    def call(self, lane, number, text):
        """One call of a line of the script."""
        self.divided = True
        self.begin(lane)
        self.add(text, number)

    def known(self, lane):
        """The process that each name stands for in a lane."""
        return {**self.processes, **self.names.get(lane, {})}

    def name_of(self, lane, process):
        """A name that stands for a process in a lane; `process` is a word of a report."""
        for name, pid in self.known(lane).items():
            if pid == int(process[1:]):
                return name
        raise Unpinned(f"no name stands for {process} in the lane {lane}")

    def bind(self, lane, name, entries):
        """Keeps which process a name stands for, by the `fork` among the entries that named it; one that has to exit is none."""
        made = [entry for entry in entries if entry.verb == "fork" and entry.reply and entry.reply[0] == "number"]
        lives = made and not any(entry.verb == "exit" for entry in entries)
        self.names.setdefault(lane, {})[name] = int(made[0].reply[1]) if lives else 0

    def learn(self, lane, number, entries):
        """Keeps what the name of a `fork` or `login` stands for."""
        for name in self.body.names(number) if self.body.verb(number) in ("fork", "login") else []:
            self.bind(lane, name, entries)

    def text(self):
        return "".join(line + "\n" for line in self.lines)

    def report(self, program):
        """What the program prints of it, with the numbers of the lines that it is made of."""
        report = program.answer("run", self.text())
        own = [int(line.split(" ", 3)[2]) for line in report.partition("\nobjects\n")[0].split("\n")[1:]]
        return renumbered(report, [self.origins[number - 1] for number in own])


def call_of(writer, lane, number, entry):
    """The command of one entry of a `copy`, `priv` or `login`."""
    words = writer.body.words(number)
    if entry.verb == "fork":
        name = (writer.body.names(number) or [f"forked_{number}"])[0]
        writer.bind(lane, name, [entry])
        return f"fork {words[1]} {entry.words[0]} as {name}"
    known = writer.known(lane)
    caller = words[1] if known.get(words[1]) == entry.caller else writer.name_of(lane, f"p{entry.caller}")
    said = [writer.name_of(lane, word) if entry.verb in ("grant", "ceiling") and at == 0 else word for at, word in enumerate(entry.words)]
    return " ".join([entry.verb, caller] + said)


def groups(entries):
    """Runs of entries of one lane and line."""
    found = []
    for entry in entries:
        if found and (found[-1][-1].lane, found[-1][-1].line) == (entry.lane, entry.line):
            found[-1].append(entry)
        else:
            found.append([entry])
    return found


def pin(body, entries, unfinished=()):
    """A writer that holds the calls of the entries in their order, and nothing after them.

    The lines that are `unfinished` may have more calls, which are left out.
    """
    writer = Writer(body)
    runs = groups(entries)
    count = {}
    for run in runs:
        count[run[0].line] = count.get(run[0].line, 0) + 1
    for run in runs:
        lane, number = run[0].lane, run[0].line
        if (count[number] > 1 or number in unfinished) and body.verb(number) in SEVERAL:
            for entry in run:
                writer.call(lane, number, call_of(writer, lane, number, entry))
        else:
            writer.whole(lane, number)
            writer.learn(lane, number, run)
    check_names(body, entries, {number for number in count if count[number] > 1 and number not in unfinished})
    return writer


def check_names(body, entries, divided):
    """A divided `login` that was not granted leaves its name for no process, which no other line can do."""
    for number in divided:
        if body.verb(number) == "login" and body.names(number):
            made = [entry for entry in entries if entry.line == number]
            forked = any(entry.verb == "fork" and entry.reply[0] == "number" for entry in made)
            if not forked or any(entry.verb == "exit" for entry in made):
                raise Unpinned(f"the login of line {number} was not granted, and another lane's calls came between its own")


def renumbered(report, numbers):
    """A report of a pinned script in which its entries have, one after the other, these numbers of lines."""
    lines = report.split("\n")
    for at, number in enumerate(numbers, 1):
        place, lane, _, rest = lines[at].split(" ", 3)
        lines[at] = f"{place} {lane} {number} {rest}"
    return "\n".join(lines)
