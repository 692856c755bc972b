"""Follows a history with contents: at each step the state of each process, file, directory and pipe, as records for a page."""
import re

from drawing import history, labels

MOST = 400  # so many bytes of a file or a pipe are shown


def payload_bytes(word):
    """The bytes that a payload of a script stands for."""
    if word.startswith('"'):
        text = re.sub(r"\\(x[0-9A-Fa-f]{2}|.)", escaped, word[1:-1])
        return text.encode("latin-1")
    if "*" in word:
        count, _, byte = word.partition("*")
        return bytes.fromhex(byte) * int(count)
    return bytes.fromhex(word[1:])


def escaped(found):
    sign = found[1]
    return chr(int(sign[1:], 16)) if sign[0] == "x" and len(sign) == 3 else {"n": "\n"}.get(sign, sign)


def shown(data):
    """Bytes as text where each is visible, else in hexadecimal digits; long ones are cut."""
    part = bytes(data[:MOST])
    text = part.decode("latin-1")
    plain = all(32 <= byte < 127 or byte == 10 for byte in part)
    said = '"' + text.replace("\n", "\\n") + '"' if plain else "x" + part.hex()
    return said + (f" and {len(data) - MOST} bytes more" if len(data) > MOST else "")


class Contents(history.World):
    """A world that also has what files and pipes hold, offsets, marks and claims."""

    def __init__(self, script):
        self.filled = {}   # the bytes of a file; of a pipe what each end can read
        self.frozen = set()
        self.claims = {}   # of a pipe, who has claimed each end
        super().__init__(script)
        files = [line.split(" ", 6) for line in script.lines if re.match(r"(file|dir) /", line)]
        for thing, words in zip([column for column in self.columns if column.kind in ("file", "dir") and not column.is_root], files):
            self.frozen.update([thing] if words[3] == "frozen" else [])
            if words[0] == "file":
                self.filled[thing] = bytearray(payload_bytes(words[6]))

    def content(self, thing):
        return self.filled.setdefault(thing, [bytearray(), bytearray()] if thing.kind == "pipe" else bytearray())

    def on_open(self, event, actor, entry):
        super().on_open(event, actor, entry)
        actor.descriptors[int(entry.reply[1])].mode = entry.words[1]

    def on_pipe(self, event, actor, entry):
        super().on_pipe(event, actor, entry)
        for end, word in enumerate(entry.reply[1:3]):
            actor.descriptors[int(word)].end = end

    def on_read(self, event, actor, entry):
        super().on_read(event, actor, entry)
        opened = actor.descriptors[int(entry.words[0])]
        pipe = opened.thing.kind == "pipe"
        held = self.content(opened.thing)[opened.end] if pipe else self.content(opened.thing)
        at = 0 if pipe else opened.offset
        if held[at:at + event.moved].hex() != entry.reply[2][1:]:
            raise history.Strange(f"the bytes of entry {entry.place} were followed to others than the report's")
        if pipe:
            del held[:event.moved]
        else:
            opened.offset += event.moved

    def on_write(self, event, actor, entry):
        super().on_write(event, actor, entry)
        opened, data = actor.descriptors[int(entry.words[0])], bytes.fromhex(entry.words[1][1:])
        if opened.thing.kind == "pipe":
            self.content(opened.thing)[1 - opened.end].extend(data)
            return
        held = self.content(opened.thing)
        if data:
            held.extend(bytes(max(0, opened.offset - len(held))))
            held[opened.offset:opened.offset + len(data)] = data
        opened.offset += len(data)

    def on_cut(self, event, actor, entry):
        self.affect(event, event.things[0])
        held, length = self.content(event.things[0]), int(entry.words[1])
        del held[length:]
        held.extend(bytes(length - len(held)))

    def on_seek(self, event, actor, entry):
        super().on_seek(event, actor, entry)
        actor.descriptors[int(entry.words[0])].offset = int(entry.words[1])

    def on_freeze(self, event, actor, entry):
        self.affect(event, event.things[0])
        self.frozen.add(event.things[0])

    def on_thaw(self, event, actor, entry):
        self.frozen.discard(event.things[0])

    def on_freezeself(self, event, actor, entry):
        self.frozen.add(actor)

    def on_thawself(self, event, actor, entry):
        self.frozen.discard(actor)

    def on_pex(self, event, actor, entry):
        opened = actor.descriptors[int(entry.words[0])]
        claims = self.claims.setdefault(opened.thing, {})
        if entry.reply[0] == "whole" and claims.get(opened.end) is not actor:
            self.filled[opened.thing] = [bytearray(), bytearray()]
        claims[opened.end] = actor

    def on_unpex(self, event, actor, entry):
        opened = actor.descriptors[int(entry.words[0])]
        self.claims.get(opened.thing, {}).pop(opened.end, None)

    def let_go(self, event, opened):
        super().let_go(event, opened)
        claims, who = self.claims.get(opened.thing, {}), event.actor
        kept = any(held.thing is opened.thing and held.end == opened.end for held in who.descriptors.values())
        if claims.get(opened.end) is who and not kept:
            del claims[opened.end]

    def on_fork(self, event, actor, entry):
        super().on_fork(event, actor, entry)
        child = self.tasks[int(entry.reply[1])]
        self.frozen.update([child] if actor in self.frozen else [])


class Recorder:
    """The states of a history's columns, each with the place from which it holds."""

    def __init__(self, script):
        self.world, self.greatest = Contents(script), script.greatest
        self.states = {}
        self.record(0)

    def label(self, label):
        return labels.spell(label, self.greatest)

    def ident(self, column):
        return self.world.columns.index(column)

    def step(self, entry):
        event = self.world.step(entry)
        self.record(entry.place)
        return event

    def record(self, place):
        for at, column in enumerate(self.world.columns):
            if column.ended == 0:
                continue
            state = self.state(column)
            known = self.states.setdefault(at, [])
            if not known or known[-1][1] != state:
                known.append((place, state))

    def state(self, column):
        if column.kind == "process":
            return self.process(column)
        state = {"label": self.label(column.label), "there": column.ended is None}
        if column.kind == "file":
            held = self.world.content(column)
            state.update(size=len(held), holds=shown(held), mark="frozen" if column in self.world.frozen else "")
        elif column.kind == "dir":
            state.update(holds=" ".join(column.names), mark="frozen" if column in self.world.frozen else "")
        else:
            claims = self.world.claims.get(column, {})
            ends = [f"end {end}: {shown(held)}" for end, held in enumerate(self.world.content(column)) if held]
            state.update(size=sum(map(len, self.world.content(column))), holds="; ".join(ends),
                         mark=" ".join(f"end {end} claimed by {task.name}" for end, task in sorted(claims.items())))
        return state

    def process(self, task):
        descriptors = [[at, self.ident(opened.thing), f"end {opened.end}" if opened.thing.kind == "pipe" else f"{opened.mode} at {opened.offset}"]
                       for at, opened in sorted(task.descriptors.items())]
        return {"label": self.label(task.label), "there": task.ended is None, "ceiling": self.label(task.ceiling), "holds": descriptors,
                "mark": "frozen" if task in self.world.frozen else "", "home": task.home.name}
