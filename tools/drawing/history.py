"""Follows a report entry by entry: which object a call touched, and which labels changed.

Nothing is decided here. A report tells of each call what it was answered, and the caller's label behind it; what it doesn't tell is
worked out from the header and from the answers: what a path or a descriptor stood for, and an object's label. At the end these labels
are compared with the report's.
"""
from . import labels


class Strange(Exception):
    """The report isn't one of the script, or it isn't understood."""


class Column:
    """A process or an object that was there from one place of the history to another. Place 0 is the beginning."""

    def __init__(self, kind, name, number, label, place, ceiling):
        self.kind, self.name, self.number = kind, name, number
        self.label, self.ceiling = label, ceiling
        self.first_ceiling = ceiling
        self.labels = [(place, label)]
        self.begun, self.ended = place, None

    def becomes(self, label, place):
        self.label = label
        self.labels.append((place, label))

    def begins_below(self, top):
        """The ceiling that it began with, or None where that is the top."""
        return None if self.first_ceiling == top else self.first_ceiling

    def label_before(self, place):
        found = self.labels[0][1]
        for at, label in self.labels:
            if at >= place:
                break
            found = label
        return found

    def ident(self):
        return f"p{self.number}" if self.kind == "process" else f"#{self.number}"


class Object(Column):
    def __init__(self, kind, name, number, label, place, ceiling):
        super().__init__(kind, name, number, label, place, ceiling)
        self.names = {}   # of a directory
        self.links = 0    # how many names it has
        self.opens = 0    # how many open entries are on it
        self.is_root = False


class Opened:
    """An open entry. Its end, mode and offset are kept by whoever follows contents too."""

    def __init__(self, thing):
        self.thing, self.label, self.holders = thing, frozenset(), 0
        self.end, self.mode, self.offset = 0, "rw", 0


class Task(Column):
    """A process with what it holds."""

    def __init__(self, name, number, label, place, ceiling, home):
        super().__init__("process", name, number, label, place, ceiling)
        self.descriptors = {}
        self.home = home

    def free(self, count):
        return [at for at in range(32) if at not in self.descriptors][:count]


class Event:
    """What an entry did: `things` are the columns that it touched, the foremost first."""

    def __init__(self, entry, actor):
        self.entry, self.actor = entry, actor
        self.things, self.changes, self.made, self.gone = [], [], [], []
        self.refusal = entry.reply[2] if entry.reply[0] == "no" else None
        self.moved = 0
        self.release = None
        self.walked = []

    def touches(self, *things):
        self.things += [thing for thing in things if thing is not None and thing not in self.things]

    def columns(self):
        return [self.actor] + [thing for thing in self.things if thing is not self.actor]


class World:
    def __init__(self, script):
        self.script = script
        self.objects, self.tasks = {}, {}
        self.bases = [sum(system.inodes for system in script.systems[:at]) for at in range(len(script.systems))]
        self.first_pipe = sum(system.inodes for system in script.systems)
        self.top = labels.parse("*", script.greatest)
        self.columns = []
        for at, system in enumerate(script.systems):
            root = self.make("dir", "/" if at == 0 else f"/{system.name}", self.bases[at], frozenset(), 0)
            root.is_root = True
            if at:
                self.objects[0].names[system.name] = root
        for line in script.objects:
            self.place_object(line)
        for pid, line in enumerate(script.processes, 1):
            self.start(Task(line.name, pid, line.label, 0, line.ceiling, self.objects[0]))

    def start(self, task):
        self.tasks[task.number] = task
        self.columns.append(task)
        return task

    def make(self, kind, name, number, label, place):
        ceilings = [system.ceiling for base, system in zip(self.bases, self.script.systems) if base <= number < self.first_pipe]
        self.objects[number] = thing = Object(kind, name, number, label, place, ceilings[-1] if ceilings else self.top)
        self.columns.append(thing)
        return thing

    def place_object(self, line):
        folder, last, _ = self.walk(None, line.path)[1:4]
        base = max(base for base in self.bases if base <= folder.number)
        number = next(at for at in range(base, self.first_pipe) if at not in self.objects)
        self.enter(folder, last, self.make(line.kind, line.path, number, line.label, 0))

    def enter(self, folder, name, thing):
        folder.names[name] = thing
        thing.links += 1

    def walk(self, task, path):
        """The directories looked into, the last of them, the last name, and the object, or None where a name is missing."""
        at = self.objects[0] if path.startswith("/") else task.home
        names = [name for name in path.split("/") if name not in ("", ".")]
        seen, folder, last = [], None, None
        for name in names:
            if at is None or at.kind != "dir":
                return seen, folder, last, None
            seen.append(at)
            folder, last = at, name
            at = at.names.get(name)
        return seen, folder, last, at

    def whole(self, task, path):
        """A path as an absolute one, to name what it makes by."""
        if path.startswith("/"):
            return path
        return task.home.name.rstrip("/") + "/" + path

    def relabel(self, event, column, label):
        if label != column.label:
            event.changes.append((column, column.label, label))
            column.becomes(label, event.entry.place)

    def affect(self, event, thing, *more):
        self.relabel(event, thing, thing.label.union(event.actor.label, *more))

    def forget(self, event, thing):
        """An object goes where nothing keeps it."""
        if thing.opens == 0 and thing.links == 0 and not thing.is_root and thing.number in self.objects:
            del self.objects[thing.number]
            thing.ended = event.entry.place
            event.gone.append(thing)

    def let_go(self, event, opened):
        opened.holders -= 1
        if opened.holders == 0:
            opened.thing.opens -= 1
            self.forget(event, opened.thing)

    def hold(self, task, opened):
        at, = task.free(1)
        task.descriptors[at] = opened
        opened.holders += 1

    def open(self, task, thing):
        opened = Opened(thing)
        thing.opens += 1
        self.hold(task, opened)

    def step(self, entry):
        """The event of the next entry."""
        actor = self.tasks.get(entry.caller)
        if actor is None:
            actor = self.start(Task("nobody", entry.caller, frozenset(), 0, self.top, self.objects[0]))
            actor.ended = 0
        event = Event(entry, actor)
        self.look(event)
        if entry.label is not None:
            self.relabel(event, actor, entry.label)
        if event.refusal is None:
            getattr(self, "on_" + entry.verb)(event, actor, entry)
        return event

    def look(self, event):
        """What the call names, whether or not it was refused."""
        entry, actor = event.entry, event.actor
        verb, words = entry.verb, entry.words
        if verb in ON_PATHS:
            for path in words[:2 if verb == "link" else 1]:
                seen, _, _, thing = self.walk(actor, path)
                event.touches(thing)
                event.walked += [folder for folder in seen if not folder.label <= actor.label]
        elif verb in ON_DESCRIPTORS and int(words[0]) in actor.descriptors:
            event.touches(actor.descriptors[int(words[0])].thing)
        elif verb in ("grant", "ceiling"):
            event.touches(self.tasks.get(int(words[0][1:])))
        event.touches(*event.walked)

    # What an entry that wasn't refused did. Calls that only look do nothing more.

    def on_nothing(self, event, actor, entry):
        pass

    on_stat = on_list = on_labelof = on_self = on_exec = on_freezeself = on_thawself = on_thaw = on_nothing
    on_droplic = on_grant = on_pex = on_unpex = on_readlog = on_setself = on_nothing

    def on_create(self, event, actor, entry):
        _, folder, last, _ = self.walk(actor, entry.words[0])
        kind = "dir" if entry.verb == "mkdir" else "file"
        self.affect(event, folder)
        thing = self.make(kind, self.whole(actor, entry.words[0]), int(entry.reply[1]), frozenset(), entry.place)
        self.enter(folder, last, thing)
        event.made.append(thing)
        event.touches(thing, folder)

    on_mkdir = on_create

    def on_link(self, event, actor, entry):
        thing = self.walk(actor, entry.words[0])[3]
        _, folder, last, _ = self.walk(actor, entry.words[1])
        self.affect(event, folder)
        self.enter(folder, last, thing)
        event.touches(folder)

    def on_unlink(self, event, actor, entry):
        _, folder, last, thing = self.walk(actor, entry.words[0])
        self.affect(event, folder)
        del folder.names[last]
        event.touches(folder)
        thing.links -= 1
        self.forget(event, thing)

    on_rmdir = on_unlink

    def on_chdir(self, event, actor, entry):
        actor.home = self.walk(actor, entry.words[0])[3]

    def on_open(self, event, actor, entry):
        self.open(actor, event.things[0])

    def on_read(self, event, actor, entry):
        event.moved = int(entry.reply[1])
        opened = actor.descriptors[int(entry.words[0])]
        if opened.thing.kind == "file":
            opened.label = opened.label | actor.label

    def on_write(self, event, actor, entry):
        event.moved = int(entry.reply[1])
        opened = actor.descriptors[int(entry.words[0])]
        self.affect(event, opened.thing, opened.label)
        if opened.thing.kind == "file":
            opened.label = opened.label | actor.label

    def on_seek(self, event, actor, entry):
        opened = actor.descriptors[int(entry.words[0])]
        opened.label = opened.label | actor.label

    def on_affect(self, event, actor, entry):
        self.affect(event, event.things[0])

    on_cut = on_freeze = on_setpriv = on_affect

    def on_dup(self, event, actor, entry):
        self.hold(actor, actor.descriptors[int(entry.words[0])])

    def on_close(self, event, actor, entry):
        self.let_go(event, actor.descriptors.pop(int(entry.words[0])))

    def on_pipe(self, event, actor, entry):
        number = next(at for at in range(self.first_pipe, self.first_pipe + 1025) if at not in self.objects)
        thing = self.make("pipe", "pipe", number, frozenset(), entry.place)
        self.open(actor, thing)
        self.open(actor, thing)
        event.made.append(thing)
        event.touches(thing)

    def on_fork(self, event, actor, entry):
        pid = int(entry.reply[1])
        name = self.script.named(entry.line) or f"p{pid}"
        child = self.start(Task(name, pid, actor.label, entry.place, actor.ceiling, actor.home))
        for at, opened in actor.descriptors.items():
            if entry.words[0] == "all" or entry.words[0] == str(at):
                child.descriptors[at] = opened
                opened.holders += 1
        event.made.append(child)
        event.touches(child)

    def on_exit(self, event, actor, entry):
        for at in sorted(actor.descriptors):
            self.let_go(event, actor.descriptors.pop(at))
        actor.ended = entry.place
        event.gone.append(actor)

    def on_ceiling(self, event, actor, entry):
        event.things[0].ceiling = labels.parse(entry.words[1], self.script.greatest)

    def on_wait(self, event, actor, entry):
        event.touches(self.tasks.get(int(entry.reply[1][1:])))

    def on_setlabel(self, event, actor, entry):
        self.relabel(event, event.things[0], labels.parse(entry.words[1], self.script.greatest))


ON_PATHS = {"create", "open", "mkdir", "link", "unlink", "rmdir", "chdir", "stat", "list", "exec", "labelof", "setlabel", "freeze",
            "thaw", "setpriv"}
ON_DESCRIPTORS = {"read", "write", "cut", "seek", "dup", "close", "pex", "unpex"}


def follow(script, report):
    """The events of a report, and the columns that there ever were."""
    world = World(script)
    events = []
    for entry in report.entries:
        event = world.step(entry)
        release = report.log.get(entry.place)
        if release is not None:
            event.release = release
        events.append(event)
    compare(world, report)
    return events, world.columns


def compare(world, report):
    """Looks whether what was followed is what the report tells of the end."""
    for number, label in report.objects.items():
        if number not in world.objects or world.objects[number].label != label:
            raise Strange(f"the label of object {number} was followed to another one than the report's")
    for pid, label in report.processes.items():
        if pid not in world.tasks or world.tasks[pid].label != label:
            raise Strange(f"the label of process {pid} was followed to another one than the report's")
    if set(world.objects) != set(report.objects):
        raise Strange("other objects were followed than stand in the report")
