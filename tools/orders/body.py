"""The body of a script: which lines each lane has in each phase."""

SEVERAL = {"copy", "priv", "login"}  # the commands that may make more than one call


class Body:
    """The lines of a script; `header` are those before the first phase, and lines are named by their numbers."""

    def __init__(self, text):
        self.lines = text.split("\n")
        if not self.lines[-1]:
            self.lines.pop()
        self.header, self.phases, self.lanes = [], [], []
        lane = None
        for number, line in enumerate(self.lines, 1):
            word = line.split(" ", 1)[0]
            if word == "phase":
                self.phases.append({})
            elif not self.phases:
                self.header.append(line)
            elif word == "lane":
                lane = self.phases[-1].setdefault(line.split(" ")[1], [])
                self.lanes += [line.split(" ")[1]] if line.split(" ")[1] not in self.lanes else []
            elif line and not line.startswith("#"):
                lane.append(number)
        self.phase_of = {number: at for at, phase in enumerate(self.phases) for numbers in phase.values() for number in numbers}

    def words(self, number):
        return self.lines[number - 1].split(" ")

    def verb(self, number):
        return self.words(number)[0]

    def names(self, number):
        """The names that stand after `as` on a line."""
        words = self.words(number)
        count = 2 if words[0] == "pipe" else 1
        return words[-count:] if len(words) > count + 1 and words[-count - 1] == "as" else []
