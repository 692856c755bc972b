"""What the programs print as records, which are objects of JSON: one a line, with the same keys for all of a kind. docs/JSON.md has them."""
from drawing import history, session

from . import words

SCHEMA = 1


class World(history.World):
    """A history that is followed, with the path of each object."""

    def __init__(self, script):
        self.places = {}
        super().__init__(script)

    def enter(self, folder, name, thing):
        super().enter(folder, name, thing)
        self.places.setdefault(thing, []).append((folder, name))

    def path(self, thing):
        """A path that the object has now, or None."""
        if thing.is_root:
            return thing.name
        names = []
        while not thing.is_root:
            place = next(((folder, name) for folder, name in self.places.get(thing, ()) if folder.names.get(name) is thing), None)
            if place is None:
                return None
            thing, name = place
            names.append(name)
        return thing.name.rstrip("/") + "/" + "/".join(reversed(names))

    def thing(self, number):
        """An object as a record."""
        found = self.objects.get(number)
        return {"number": number, "kind": found.kind if found else None, "path": self.path(found) if found else None}

    def process(self, pid):
        task = self.tasks.get(pid)
        return {"pid": pid, "name": task.name if task and pid else None}


def number(word):
    return int(word.lstrip("p"))


def bytes_of(word):
    """Bytes that stand as `x` and hexadecimal digits."""
    data = bytes.fromhex(word[1:])
    return {"count": len(data), "hex": word[1:], "text": words.text_of(data)}


def audit(said):
    """A line of the audit log."""
    keys = ("place", "pid", "act", "target", "was", "now", "capabilities", "licences")
    return dict(zip(keys, [int(said[0]), number(said[1]), said[2], int(said[3])] + said[4:8]))


def reply(said):
    """A reply by its words: its kind, and the keys of that kind."""
    kind, rest = said[0], said[1:]
    more = {
        "number": lambda: {"number": int(rest[0])},
        "two": lambda: {"descriptors": [int(rest[0]), int(rest[1])]},
        "bytes": lambda: {"count": int(rest[0])},
        "stat": lambda: {"object": int(rest[0]), "object_kind": rest[1], "size": int(rest[2]), "names": int(rest[3]),
                         "frozen": rest[4] == "frozen", "capabilities": rest[5], "licences": rest[6]},
        "label": lambda: {"label": rest[0]},
        "entry": lambda: {"name": rest[0], "object": int(rest[1])},
        "whole": lambda: {"pid": number(rest[0]), "label": rest[1], "licences": rest[2]},
        "log": lambda: {"line": audit(rest)},
        "child": lambda: {"pid": number(rest[0]), "status": int(rest[1])},
        "no": lambda: {"number": int(rest[0]), "name": rest[1]},
    }
    return {"kind": kind, **more.get(kind, dict)()}


def entry_record(entry, world, touched=None):
    """An entry, and the objects that it touched with their paths; where these aren't known, `objects` is null."""
    is_on_path = entry.verb in history.ON_PATHS
    paths = entry.words[:2 if entry.verb == "link" else 1] if is_on_path else []
    held = entry.words[1] if entry.verb == "write" else entry.reply[2] if entry.reply[0] == "bytes" else None
    things = None
    if touched is not None:
        things = [{"number": thing.number, "kind": thing.kind, "path": path} for thing, path in touched]
    return {"type": "entry", "place": entry.place, "lane": entry.lane, "line": entry.line,
            "process": world.process(entry.caller),
            "call": entry.verb, "words": entry.words, "paths": paths, "objects": things, "reply": reply(entry.reply),
            "label": None if entry.label is None else entry.text.rpartition(" @ ")[2], "bytes": bytes_of(held) if held else None, "text": entry.text}


def follow(world, entry):
    """Follows an entry, and answers the objects that it touched, each with a path that it had before or has after the entry."""
    before = {}
    for name in entry.words[:2] if entry.verb in history.ON_PATHS else []:
        actor = world.tasks.get(entry.caller)
        thing = world.walk(actor, name)[3] if actor else None
        if thing is not None:
            before[thing] = world.path(thing)
    things = [thing for thing in world.step(entry).things if thing.kind != "process"]
    return [(thing, world.path(thing) or before.get(thing)) for thing in things]


def of_report(text, scripts):
    """A report: its head, entries, objects, processes, log and end."""
    script = scripts[0]
    report, world = session.Report(text, script.greatest), World(script)
    yield {"type": "report", "schema": SCHEMA, "form": script.form}
    for entry in report.entries:
        touched = follow(world, entry)
        yield entry_record(entry, world, touched)
    yield from closing(text, world)


def closing(text, world):
    """The lines of a report after its entries."""
    part = None
    for line in text.split("\n")[:-1]:
        said = line.split(" ")
        if line in ("objects", "processes", "log"):
            part = line
        elif said[0] == "end":
            yield {"type": "end", "entries": int(said[1]), "log": int(said[2])}
        elif part == "objects":
            yield {"type": "object", **world.thing(int(said[0])), "kind": said[1], "label": said[2], "frozen": said[3] == "frozen"}
        elif part == "processes":
            yield {"type": "process", **world.process(number(said[0])), "label": said[1], "live": said[2] == "live"}
        elif part == "log":
            yield {"type": "log", **audit(said)}


def of_flow(text, scripts):
    """A flow: a record for each line about bytes that were read."""
    world = World(scripts[0])
    for line in text.split("\n")[:-1]:
        said = line.split(" ")
        if said[0] == "end":
            yield {"type": "end", "reads": int(said[1]), "origins": int(said[2])}
            continue
        is_gap, is_file = said[3] == "gap", said[3] == "file"
        source = None if is_gap else int(said[4])
        yield {"type": "origin", "place": int(said[0]), "first": int(said[1]), "count": int(said[2]), "source": said[3],
               "entry": source if said[3] == "write" else None, "object": world.thing(source) if is_file else None,
               "at": None if is_gap else int(said[5]), "label": None if is_gap else said[6],
               "via": None if is_gap or said[7] == "-" else int(said[7])}


def of_check(text, _scripts):
    answer, at = text.split()
    yield {"type": "verdict", "answer": answer, "entries": int(at) if answer == "yes" else None, "line": int(at) if answer == "no" else None}


def of_twin(text, scripts):
    """Two runs: the verdict, and of each place that is shown the entries of both."""
    lines = text.split("\n")[:-1]
    answer, at = lines[0].split(" ")
    worlds = [(World(script), script.greatest) for script in scripts]
    yield {"type": "verdict", "answer": answer, "entries": int(at) if answer == "agree" else None, "place": int(at) if answer == "differ" else None}
    for one, other in zip(lines[1:-1:2], lines[2:-1:2]):
        first, second = (entry_record(session.entry_of(line[2:], greatest), world) for line, (world, greatest) in zip((one, other), worlds))
        yield {"type": "pair", "place": first["place"], "first": first, "second": second}
    yield {"type": "end", "places": int(lines[-1].split(" ")[1])}


def of_list(text, _scripts):
    """The list of an image."""
    for line in text.split("\n")[:-1]:
        said = line.split(" ")
        if said[0] == "fs":
            yield {"type": "system", "name": said[1], "ceiling": said[2], "blocks": int(said[3]), "inodes": int(said[4])}
        elif said[0] == "name":
            yield {"type": "name", "directory": int(said[1]), "name": said[2], "object": int(said[3])}
        elif said[0] == "end":
            yield {"type": "end", "objects": int(said[1]), "names": int(said[2])}
        else:
            yield {"type": "object", "number": int(said[0]), "kind": said[1], "label": said[2], "frozen": said[3] == "frozen",
                   "capabilities": said[4], "licences": said[5], "size": int(said[6])}


def of_print(text, _scripts):
    """A canonical text: a record for each line that isn't skipped."""
    for at, line in enumerate(text.split("\n"), 1):
        if line:
            is_policy = line.startswith("policy ")
            yield {"type": "line", "number": at, "words": ["policy", line[7:]] if is_policy else [word.text for word in words.cut(line)]}


def of_gen(text, _scripts):
    said = text.split()
    keys = ("commands", "entries", "refused", "read", "written", "log")
    yield {"type": "sums", **dict(zip(keys, map(int, said[1::2])))}


def of_fault(place, line, rule, text, found):
    """A fault, which is told on standard error too."""
    return {"type": "fault", "file": place, "line": line, "rule": rule, "text": text,
            "column": found.at + 1 if found and found.at is not None else None, "length": found.length if found and found.at is not None else None,
            "notes": found.notes if found else []}


def of_names(names):
    return {"type": "categories", "names": {str(category): name for category, name in sorted(names.items())}}
