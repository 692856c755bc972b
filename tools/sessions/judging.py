"""Says of a text that is no report of a script what a run has at the first line at which no report goes on."""
from drawing import session

from . import pinning

SEVERAL = {"copy", "priv", "login"}   # commands that may make several calls


def commands_of(script):
    """The command lines of each lane, in order, with their numbers."""
    found, lane = {}, None
    for number, line in enumerate(script.lines, 1):
        if line.startswith("lane "):
            lane = line[5:]
        elif script.phases[number] and line and line != "phase" and not line.startswith("#"):
            found.setdefault(lane, []).append(number)
    return found


def quoted(script, number):
    return f"line {number} of the script, `{script.lines[number - 1]}`"


def undone(script, entries):
    """The lines of commands that have no entry yet."""
    done = {entry.line for entry in entries}
    return [number for numbers in commands_of(script).values() for number in numbers if number not in done]


def order_notes(script, entries, claimed):
    """Why an entry can't come next: an earlier phase isn't done, or its lane has another line next. Else nothing."""
    left = undone(script, entries)
    lane, number = claimed.split(" ")[1], int(claimed.split(" ")[2])
    earlier = [line for line in left if script.phases[line] < script.phases.get(number, 0)]
    if earlier:
        return [f"an earlier phase isn't done: {quoted(script, min(earlier))}, has no entry before this one"]
    own = [line for line in commands_of(script).get(lane, []) if line in left]
    last = [entry.line for entry in entries if entry.lane == lane][-1:]
    is_further = last == [number] and script.lines[number - 1].split(" ")[0] in SEVERAL
    if number in own[:1] or is_further:
        return []
    return [f"next in lane {lane} is {quoted(script, own[0])}" if own else f"lane {lane} has no further line"]


def notes(text, report, number, run):
    """What a run has in the place of line `number` of a report, where the lines before it are right. `run` prints the report of a script."""
    lines = report.split("\n")
    claimed = lines[number - 1] if number <= len(lines) else ""
    right = pinning.entry_lines("\n".join(lines[:number - 1]))
    is_next = pinning.is_entry(claimed) and number == len(right) + 2
    script = session.Script(text)
    entries = [session.entry_of(line, script.greatest) for line in right]
    order = order_notes(script, entries, claimed) if is_next else []
    left = undone(script, entries)
    if not is_next and left and number == len(right) + 2:
        order = [f"{quoted(script, min(left))}, has no entry yet"]
    if order:
        return order
    try:
        made = pinning.pinned(text, right + [claimed] * is_next)
    except (pinning.CannotPin, LookupError, ValueError):
        return []
    printed = run(made).split("\n")
    if number >= len(printed):
        return [f"the report ends with line {number - 1}"]
    there = printed[number - 1]
    if is_next:
        there = " ".join(there.split(" ")[:2] + claimed.split(" ")[2:3] + there.split(" ")[3:])
    if there == claimed:
        return ["that call isn't the next one of its line"]
    return [f"a run in this order has: {there}"]
