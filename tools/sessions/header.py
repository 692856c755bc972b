"""What the lines before a line of a script say: the machine to begin with, and the names that were given. Lines with faults say nothing."""
from collections import namedtuple

from drawing import labels

from . import forms, words

System = namedtuple("System", "name ceiling blocks inodes")
Object = namedtuple("Object", "line kind size")


class Before:
    """What lines say, taken one after the other."""

    def __init__(self):
        self.greatest = 255
        self.systems, self.limits, self.limited = [], {}, {}
        self.processes, self.objects = {}, {}
        self.policy = self.phase = self.lane = None
        self.later = {}   # the first line of a later group than that of `limit` or `fs` lines
        self.phase_lanes, self.lanes, self.system_lines = {}, {}, {}
        self.descriptors, self.children = {}, {}
        self.commands = 0

    def label(self, word):
        return labels.parse(word, self.greatest)

    def file_systems(self):
        return self.systems or [System("root", self.label("*"), 4096, 256)]

    def limit(self, what):
        return self.limits.get(what, forms.LIMITS[what][2])

    def system_of(self, path):
        """The file system on which an absolute path lies, by its number."""
        name = path.split("/")[1]
        found = [at for at, system in enumerate(self.file_systems()) if at and system.name == name]
        return found[0] if found else 0

    def roots(self):
        return {"/" + system.name for system in self.file_systems()[1:]}

    def known_descriptors(self):
        return sorted(self.descriptors.get(self.lane, {}))

    def known_processes(self):
        return sorted(set(self.processes) | set(self.children.get(self.lane, {})))

    def add(self, number, line):
        """A line that has no fault."""
        if number == 1:
            self.greatest = 511 if line == "ix 2" else 255
        elif line and not line.startswith("#"):
            said = [word.text for word in words.cut(line)] if '"' in line else line.split(" ")
            getattr(self, "on_" + said[0], self.on_command)(number, said)

    def on_limit(self, number, said):
        self.limits[said[1]] = int(said[2])
        self.limited[said[1]] = number

    def on_fs(self, number, said):
        self.systems.append(System(said[1], self.label(said[2]), int(said[3]), int(said[4])))
        self.system_lines[said[1]] = number
        self.later.setdefault("limit", number)

    def goes_on(self, number):
        """A line of the last group."""
        self.later.setdefault("limit", number)
        self.later.setdefault("fs", number)

    def on_proc(self, number, said):
        self.processes[said[1]] = number
        self.goes_on(number)

    def on_dir(self, number, said):
        size = words.payload(said[6]) if said[0] == "file" else 0
        self.objects[said[1]] = Object(number, said[0], size)
        self.goes_on(number)

    on_file = on_dir

    def on_policy(self, number, said):
        self.policy = number
        self.goes_on(number)

    def on_phase(self, number, said):
        self.phase = self.phase or number
        self.lane, self.phase_lanes = None, {}

    def on_lane(self, number, said):
        self.lane = said[1]
        self.phase_lanes[self.lane] = number
        self.lanes.setdefault(self.lane, number)

    def on_command(self, number, said):
        self.commands += 1
        form = forms.forms()[said[0]]
        if len(said) > forms.arity(form):
            given = self.children if said[0] in ("fork", "login") else self.descriptors
            given.setdefault(self.lane, {}).update({name: number for name in said[forms.arity(form) + 1:]})
