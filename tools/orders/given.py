"""A given report, of `ixone` or `ixrun` or of neither: the history that it begins with, its flow, and the line at which it is refused."""
from collections import namedtuple

from drawing import session
from sessions import pinning

from . import pinned
from .body import Body
from .program import Wrong

# `report` and `flow` are texts of the history; `line` is the number of the refused line, or None, `claimed` the text of that line
# and `right` what the program prints in its place, or None where nothing can stand there; `left` counts the lines after it.
Given = namedtuple("Given", "report flow line claimed right left")


def of_script(program, script):
    """What the program itself prints of a script."""
    return Given(program.answer("run", script), program.answer("flow", script), None, None, None, 0)


def of_report(program, script, report):
    """What is to be drawn of a given report."""
    line = program.refused_line(script, report)
    if line is None:
        if report == program.answer("run", script):
            return Given(report, program.answer("flow", script), None, None, None, 0)
        return Given(report, ordered(program, script, report)[1], None, None, None, 0)
    lines = report.split("\n")
    claimed = lines[line - 1] if line <= len(lines) else ""
    begun = "\n".join(lines[:line - 1])
    whole, flow = ordered(program, script, begun)
    right = stands_there(program, script, begun, claimed, whole, line)
    return Given(whole, flow, line, claimed, right or None, max(0, report.count("\n") - line))


def entries_of(script, text):
    return session.Report(text, 511 if script.startswith("ix 2") else 255).entries


def ordered(program, script, text):
    """The report and the flow of the order in which a report's entries stand."""
    try:
        pin = pinning.pinned(script, pinning.entry_lines(text))
    except pinning.CannotPin as fault:
        raise Wrong(f"the order of the report can't be written as a script: {fault}") from fault
    numbers = [entry.line for entry in entries_of(script, text)]
    return pinned.renumbered(program.answer("run", pin), numbers), program.answer("flow", pin)


def reaches_the_end(text):
    return "\nobjects" in text


def stands_there(program, script, begun, claimed, whole, line):
    """The line that the program prints where the refused one stands, or None where nothing can stand there."""
    body, entries = Body(script), entries_of(script, begun)
    all_made = {entry.line for entry in entries} == set(body.phase_of)
    found, words = None, claimed.split(" ")
    if all_made and entries:
        found = entry_there(program, body, entries, entries[-1].lane, entries[-1].line)
    elif len(words) > 2 and words[2].isdecimal():
        found = entry_there(program, body, entries, words[1], int(words[2]))
    if found is None and (line == 1 or reaches_the_end(begun) or all_made):
        found = (whole.split("\n") + [""] * line)[line - 1]
    return found if found != claimed else None


def entry_there(program, body, entries, lane, number):
    """The entry that a line of a lane has after the entries, or None where it can have none."""
    if not may_come(body, entries, lane, number):
        return None
    try:
        writer = pinned.pin(body, [entry for entry in entries if entry.line != number])
    except pinned.Unpinned:
        return None
    writer.whole(lane, number)
    following = writer.report(program).split("\n")[len(entries) + 1]
    return following if " @ " in following else None


def may_come(body, entries, lane, number):
    """Whether a line of a lane may have the call after the entries; of a line that has begun only where its calls stand last."""
    made = [entry.line for entry in entries]
    if number in made:
        return made[-made.count(number):].count(number) == made.count(number)
    for phase in body.phases:
        left = {name: [line for line in numbers if line not in made] for name, numbers in phase.items()}
        if any(left.values()):
            return left.get(lane, [])[:1] == [number]
    return False
