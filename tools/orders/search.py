"""Searches the orders of the lanes' calls for a history of which something is asked.

It tries one order of each class in which orders differ by exchanges of calls that touch nothing in common (`touched`), by source sets
and sleep sets. Each order is tried as a pinned script. Nothing is proved of the search: what it finds has to be judged by `check`.
"""
import math
import random
import re
from collections import namedtuple

from drawing import history, session

from . import pinned, servers, touched
from .body import Body
from .program import Wrong

MOST = {"copy": 2, "priv": 5, "login": 9}  # how many calls a line makes at most
PROBES = 64  # how many orders that lie far apart are tried first
HEADINGS = ("objects", "processes", "log")

# `place` counts from 0; `touch` is what the call looks at and what it changes.
Step = namedtuple("Step", "place entry lane phase touch")


class Question:
    """What is asked of a history: a line that matches, or with ` then ` two lines in that order."""

    def __init__(self, text):
        try:
            self.parts = [re.compile(part) for part in text.split(" then ")]
        except re.error as fault:
            raise Wrong(f"{text} is no regular expression: {fault}") from fault
        if len(self.parts) > 2:
            raise Wrong("`then` may stand once")

    def sees(self, line):
        """Whether the order of this line and others matters."""
        return len(self.parts) == 2 and any(part.search(line) for part in self.parts)

    def answer(self, report):
        """The lines of a report that answer, or none."""
        lines = list(placeless(report))
        first = next((at for at, (said, _) in enumerate(lines) if self.parts[0].search(said)), None)
        if first is None or len(self.parts) == 1:
            return [] if first is None else [lines[first][1]]
        second = next((line for said, line in lines[first + 1:] if self.parts[1].search(said)), None)
        return [] if second is None else [lines[first][1], second]


def placeless(report):
    """The lines of a report but for the first, entries and lines of the log without their places; and as they stand."""
    part = "entries"
    for line in report.split("\n")[1:-1]:
        part = line if line in HEADINGS else part
        placed = part == "entries" or part == "log" and line != "log" and not line.startswith("end ")
        yield (line.split(" ", 1)[1] if placed else line), line


def mixed(phase, at):
    """A phase's lines in some order: the lanes backwards, by turns, or as a sequence of numbers tells that is always the same."""
    left = {lane: list(numbers) for lane, numbers in reversed(phase.items())}
    numbers = random.Random(at)
    while any(left.values()):
        lanes = [lane for lane in left if left[lane]]
        lane = lanes[0] if at == 0 else max(lanes, key=lambda each: len(left[each])) if at == 1 else numbers.choice(lanes)
        yield lane, left[lane].pop(0)


class Node:
    """What is known of the world before one step of the order that is being tried."""

    def __init__(self, enabled, sleep):
        self.enabled, self.sleep = enabled, sleep
        self.wanted = set()

    def passes(self, step, conflict):
        """The lanes that sleep after a step is made here; from now on its lane sleeps here."""
        after = {lane: touch for lane, touch in self.sleep.items() if lane != step.lane and not conflict(touch, step.touch)}
        self.sleep[step.lane] = step.touch
        return after


class Search:
    """`conflict` says which calls may not be exchanged. `tried` has the report of each order that was tried."""

    def __init__(self, program, text, question, budget, conflict=touched.conflict):
        self.program, self.text, self.question, self.budget = program, text, question, budget
        self.body = Body(text)
        self.script = session.Script(text)
        self.policy = servers.Policy(self.body)
        self.limits = touched.Limits(self.body, self.script)
        self.conflict = conflict
        self.tried, self.unpinned, self.stopped, self.order = [], 0, False, None

    def most(self):
        """How many orders there are at most."""
        count = 1
        for phase in self.body.phases:
            calls = [sum(MOST.get(self.body.verb(number), 1) for number in numbers) for numbers in phase.values()]
            count *= math.factorial(sum(calls))
            for calls_of_lane in calls:
                count //= math.factorial(calls_of_lane)
        return count

    # An order: it begins with some entries, and goes on lane after lane.

    def calls_left(self, entries):
        """The lanes that have a call left in the phase that the entries have come to, each with the entries of a line that has begun."""
        lines = {}
        for entry in entries:
            lines.setdefault(entry.line, []).append(entry)
        for phase in self.body.phases:
            left = {}
            for lane, numbers in phase.items():
                begun = [number for number in numbers if number in lines]
                halfway = begun and servers.next_call(self.body, self.policy, lines[begun[-1]])
                if halfway or len(begun) < len(numbers):
                    left[lane] = (lines[begun[-1]] if halfway else None, numbers[len(begun):])
            if left:
                return left
        return {}

    def entries_of(self, report):
        return session.Report(report, self.script.greatest).entries

    def unfinished(self, entries):
        """The lines of several calls that the entries leave halfway."""
        lines = {}
        for entry in entries:
            lines.setdefault(entry.line, []).append(entry)
        return {number for number, made in lines.items() if servers.next_call(self.body, self.policy, made)}

    def extended(self, entries, lane):
        """The entries and all of one lane's calls in this phase after them."""
        halfway, numbers = self.calls_left(entries)[lane]
        while halfway:
            call = servers.next_call(self.body, self.policy, halfway)
            writer = pinned.pin(self.body, entries, self.unfinished(entries))
            writer.call(lane, call.line, pinned.call_of(writer, lane, call.line, call))
            entries = self.entries_of(writer.report(self.program))
            halfway = halfway + entries[-1:]
            halfway = halfway if servers.next_call(self.body, self.policy, halfway) else None
        if not numbers:
            return entries
        writer = pinned.pin(self.body, entries, self.unfinished(entries))
        for number in numbers:
            writer.whole(lane, number)
        return self.entries_of(writer.report(self.program))

    def complete(self, entries, lane):
        """The report of an order that begins with some entries and goes on with a lane."""
        left = self.calls_left(entries)
        while any(halfway for halfway, _ in left.values()):
            following = lane if lane in left else next(name for name in left if left[name][0])
            entries = self.extended(entries, following)
            left = self.calls_left(entries)
        writer = pinned.pin(self.body, entries)
        made = {entry.line for entry in entries}
        for phase in self.body.phases:
            for name in sorted(phase, key=lambda each: each != lane):
                for number in phase[name]:
                    if number not in made:
                        writer.whole(name, number)
        return writer.report(self.program), writer

    # The search.

    def steps_of(self, report_text):
        """The steps of an order, each with what it touches."""
        report = session.Report(report_text, self.script.greatest)
        tracker = touched.Tracker(self.script, self.limits)
        steps = []
        for place, entry in enumerate(report.entries):
            looks, changes = tracker.step(entry, entry.place in report.log)
            if self.question.sees(entry.text.split(" ", 1)[1]):
                changes |= {"asked"}
            steps.append(Step(place, entry, entry.lane, self.body.phase_of[entry.line], (looks, changes)))
        history.compare(tracker.world, report)
        return steps

    def find(self):
        """The report of an order that answers the question, or None. What was tried is counted."""
        nodes, steps = [], []
        try:
            found = self.try_order(nodes, steps, [], None) or self.probe()
            while found is None:
                at = next((at for at in reversed(range(len(nodes))) if nodes[at].wanted - set(nodes[at].sleep)), None)
                self.stopped = at is not None and len(self.tried) >= self.budget
                if at is None or self.stopped:
                    return None
                lane = min(nodes[at].wanted - set(nodes[at].sleep))
                found = self.branch(nodes, steps, at, lane)
            return found
        except (history.Strange, pinned.Unpinned) as fault:
            raise Wrong(f"an order can't be followed: {fault}") from fault

    def probe(self):
        """Tries some orders that lie far apart, where there are more than the budget, since the search begins at an order's end."""
        if self.most() <= self.budget:
            return None
        for at in range(min(PROBES, self.budget // 4)):
            writer = pinned.Writer(self.body)
            for phase in self.body.phases:
                for lane, number in mixed(phase, at):
                    writer.whole(lane, number)
            report = writer.report(self.program)
            self.tried.append(report)
            if self.question.answer(report):
                self.order = writer
                return report
        return None

    def branch(self, nodes, steps, at, lane):
        """Tries an order that leaves the last one at a step, with another lane."""
        begun = [step.entry for step in steps[:at]]
        del nodes[at + 1:], steps[at:]
        try:
            return self.try_order(nodes, steps, begun, lane)
        except pinned.Unpinned:
            self.unpinned += 1
            nodes[at].sleep[lane] = (frozenset(), frozenset())
            return None

    def try_order(self, nodes, steps, begun, lane):
        """Runs an order, and adds its steps to those that it begins with, as far as they are no repetition."""
        report, writer = self.complete(begun, lane)
        self.tried.append(report)
        if writer.divided and self.program.refused_line(self.text, report) is not None:
            raise Wrong("the calls of a copy, priv or login were followed wrongly: check refuses an order that was tried")
        if self.question.answer(report):
            self.order = writer
            return report
        sleep = {}
        for step in self.steps_of(report)[len(begun):]:
            if len(nodes) == step.place:
                nodes.append(Node(list(self.calls_left([each.entry for each in steps])), sleep))
            node = nodes[step.place]
            if step.lane in node.sleep:
                awake = [name for name in node.enabled if name not in node.sleep]
                node.wanted.update(awake[:1] if not node.wanted - set(node.sleep) else [])
                return None
            node.wanted.add(step.lane)
            self.races(nodes, steps, step)
            steps.append(step)
            sleep = node.passes(step, self.conflict)
        return None

    def races(self, nodes, steps, step):
        """Of each earlier step that this one might have come before, has the other order tried."""
        after = {}  # by place: whether this step can't but come after it
        for earlier in reversed(steps):
            if earlier.phase != step.phase:
                break
            tied = self.ordered(earlier, step)
            between = any(after[later.place] and self.ordered(earlier, later) for later in steps[earlier.place + 1:])
            after[earlier.place] = tied or between
            if tied and not between and earlier.lane != step.lane:
                self.turn(nodes, steps, earlier, step)

    def ordered(self, one, other):
        return one.lane == other.lane or self.conflict(one.touch, other.touch)

    def turn(self, nodes, steps, earlier, step):
        """Wants a lane at the earlier step with which an order begins that has this step first."""
        following, behind = [], [earlier]
        for later in steps[earlier.place + 1:] + [step]:
            if later is not step and any(self.ordered(one, later) for one in behind):
                behind.append(later)
            else:
                following.append(later)
        first = []
        for at, one in enumerate(following):
            if not any(self.ordered(before, one) for before in following[:at]):
                first.append(one.lane)
        if not nodes[earlier.place].wanted & set(first):
            nodes[earlier.place].wanted.add(step.lane if step.lane in first else first[0])
