"""What each call of a history touches: what it looks at and what it changes.

Two calls that follow each other and touch nothing in common, or only look at it, may be exchanged: each is answered the same, and so is
all that follows. When in doubt a call touches more. Shared are: processes, objects, open entries, and what gives out numbers or has a
limit (pids, inodes, pipes, blocks, names, open entries, the log). The numbers of open entries are never answered, so opening counts as
shared only where their limit may be reached.
"""
from drawing import history
from sessions import words

CHANGED = {"setlabel", "freeze", "thaw", "setpriv", "unlink", "rmdir", "link"}  # calls that change the object of their path
PLACED = {"create", "mkdir", "unlink", "rmdir", "link"}                        # calls that change the directory of their last path
DEFAULTS = {"opens": 256, "names": 4096}
BLOCK = 512


class Limits:
    """Which limits a script may reach at all, by a bound that holds of each order."""

    def __init__(self, body, script):
        self.opens = self.over(body, "opens", 0, {"open": 1, "pipe": 2})
        roots = len(script.systems) - 1
        self.names = self.over(body, "names", roots + len(script.objects), {"create": 1, "mkdir": 1, "link": 1})
        self.blocks = self.may_fill(body)

    @staticmethod
    def over(body, what, already, costs):
        limit = next((int(line.split(" ")[2]) for line in body.header if line.startswith(f"limit {what} ")), DEFAULTS[what])
        return already + sum(costs.get(body.verb(number), 0) for number in body.phase_of) > limit

    @staticmethod
    def may_fill(body):
        """Whether some file system may run out of blocks: no file is longer than the furthest place plus all that is written."""
        furthest, written, files = 0, 0, 0
        for line in body.header:
            if line.startswith("file "):
                furthest, files = max(furthest, words.payload(line.split(" ", 6)[6])), files + 1
        for number in body.phase_of:
            said = body.words(number)
            files += said[0] == "create"
            if said[0] in ("cut", "seek"):
                furthest = max(furthest, int(said[3]))
            elif said[0] == "copy":
                written += min(int(said[4]), 4096)
            elif said[0] == "write":
                written += words.payload(body.lines[number - 1].split(" ", 3)[3])
            elif said[0] in ("priv", "login"):
                written += 64
        blocks = [int(line.split(" ")[3]) for line in body.header if line.startswith("fs ")] or [4096]
        return files * -(-(furthest + written) // BLOCK) > min(blocks)


class Tracker:
    """Follows a history, and says of each entry what it touches."""

    def __init__(self, script, limits):
        self.world = history.World(script)
        self.limits, self.parents, self.made = limits, {}, {}

    def step(self, entry, logged):
        """What the entry looks at and what it changes; `logged` where the audit log has a line of it."""
        looks, changes = set(), {("process", entry.caller)}
        actor = self.world.tasks.get(entry.caller)
        if actor is not None and actor.ended != 0:
            self.on_paths(entry, actor, looks, changes)
            self.on_descriptors(entry, actor, looks, changes)
            self.on_processes(entry, actor, looks, changes)
        if logged or entry.verb == "readlog" or entry.reply[-1] == "LogFull":
            changes.add("log")
        event = self.world.step(entry)
        changes.update(("object", thing.number) for thing in event.made + event.gone if thing.kind != "process")
        self.name_open_entries(entry)
        return frozenset(looks), frozenset(changes)

    def name_open_entries(self, entry):
        """New open entries are named by the lane and the count of its calls, which are the same in each order."""
        count = self.made[entry.lane] = self.made.get(entry.lane, 0) + 1
        if entry.verb in ("open", "pipe") and entry.reply[0] in ("number", "two"):
            for at, word in enumerate(entry.reply[1:]):
                self.world.tasks[entry.caller].descriptors[int(word)].name = (entry.lane, count, at)
        elif entry.verb == "fork" and entry.reply[0] == "number":
            self.parents[int(entry.reply[1])] = entry.caller

    def system(self, thing):
        """What shares the number of an object with others."""
        if thing.kind == "pipe":
            return "pipes"
        return "inodes", max(base for base in self.world.bases if base <= thing.number)

    def on_paths(self, entry, actor, looks, changes):
        if entry.verb not in history.ON_PATHS:
            return
        for at, path in enumerate(entry.words[:2 if entry.verb == "link" else 1]):
            seen, folder, _, thing = self.world.walk(actor, path)
            looks.update(("object", each.number) for each in seen)
            if thing is not None:
                (changes if entry.verb in CHANGED else looks).add(("object", thing.number))
            if entry.verb in PLACED and folder is not None and (entry.verb != "link" or at == 1):
                changes.update([("object", folder.number), self.system(folder)])
                changes.update(["names"] if self.limits.names else [])
        if entry.verb in ("unlink", "rmdir"):
            changes.update(["blocks"] if self.limits.blocks else [])
        if entry.verb == "rmdir":
            changes.add("homes")
        elif entry.verb == "chdir":
            looks.add("homes")
        elif entry.verb == "open" and self.limits.opens:
            changes.add("opens")

    def on_descriptors(self, entry, actor, looks, changes):
        if entry.verb == "pipe":
            changes.update(["pipes"] + (["opens"] if self.limits.opens else []))
        if entry.verb not in history.ON_DESCRIPTORS or int(entry.words[0]) not in actor.descriptors:
            return
        opened = actor.descriptors[int(entry.words[0])]
        changes.add(("open", opened.name))
        if entry.verb == "read" and opened.thing.kind == "file":
            looks.add(("object", opened.thing.number))
        else:
            changes.add(("object", opened.thing.number))
        if entry.verb in ("write", "cut") and self.limits.blocks:
            changes.add("blocks")
        if entry.verb == "close":
            self.gives_up(opened, changes)
        if entry.verb == "pex" and entry.reply[0] == "whole":
            looks.add(("process", int(entry.reply[1][1:])))

    def gives_up(self, opened, changes):
        changes.update([("open", opened.name), ("object", opened.thing.number), self.system(opened.thing)])
        changes.update(["blocks"] if self.limits.blocks else [])
        changes.update(["opens"] if self.limits.opens else [])

    def on_processes(self, entry, actor, looks, changes):
        if entry.verb in ("grant", "ceiling"):
            changes.add(("process", int(entry.words[0][1:])))
        if entry.verb in ("fork", "exit", "wait"):
            changes.add("pids")
            looks.add("homes")
        if entry.verb == "fork":
            changes.update(("open", opened.name) for opened in actor.descriptors.values())
            changes.update([("process", int(entry.reply[1]))] if entry.reply[0] == "number" else [])
        elif entry.verb == "wait" and entry.reply[0] == "child":
            changes.add(("process", int(entry.reply[1][1:])))
        elif entry.verb == "exit":
            changes.update([("process", self.parents[entry.caller])] if entry.caller in self.parents else [])
            for opened in actor.descriptors.values():
                self.gives_up(opened, changes)


def conflict(one, other):
    """Whether two calls touch something in common that one of them changes."""
    return bool(one[1] & other[1] or one[0] & other[1] or one[1] & other[0])
