"""Labels as sets of categories, and how they are told apart in a picture: by colour, by hatch, and by a short text."""

# The seven of Okabe and Ito that stand out from white and from dark marks; the bottom label has a grey of its own.
COLOURS = ["#E69F00", "#56B4E9", "#009E73", "#F0E442", "#CC79A7", "#0072B2", "#D55E00"]
BOTTOM = "#D9D9D9"
HATCHES = ["", "m0 8L8 0", "m0 0L8 8", "m0 4H8", "m4 0V8", "m0 0L8 8m0 -8L0 8", "m0 4H8m-4 -4V8"]


def parse(text, greatest):
    """The set that a label's text stands for; `greatest` is the greatest category of the script's form."""
    if text == "-":
        return frozenset()
    if text == "*":
        return frozenset(range(greatest + 1))
    numbers = set()
    for item in text.split(","):
        first, _, last = item.partition("-")
        numbers.update(range(int(first), int(last or first) + 1))
    return frozenset(numbers)


def spell(label, greatest):
    """The one text of a label in the form whose greatest category is `greatest`."""
    if not label:
        return "-"
    if len(label) == greatest + 1:
        return "*"
    runs = []
    for number in sorted(label):
        if runs and runs[-1][1] == number - 1:
            runs[-1][1] = number
        else:
            runs.append([number, number])
    return ",".join(str(a) if a == b else f"{a}-{b}" for a, b in runs)


def letters(index):
    """A, B, .. Z, AA, AB and so on."""
    text = ""
    index += 1
    while index:
        index, rest = divmod(index - 1, 26)
        text = chr(65 + rest) + text
    return text


class Key:
    """The labels of a session in the order in which they came, each with its look and a text of at most four signs, or `bottom`."""

    def __init__(self, greatest):
        self.greatest = greatest
        self.order = {}
        self.codes = {}

    def add(self, label):
        if label not in self.order:
            self.order[label] = sum(1 for old in self.order if old) + 1 if label else 0
            if label and len(self.text(label)) > 4:
                self.codes[label] = letters(len(self.codes))

    def text(self, label):
        """A label in words for people: its spelling, or `bottom`."""
        return spell(label, self.greatest) if label else "bottom"

    def short(self, label):
        return self.codes.get(label) or self.text(label)

    def look(self, label):
        """The colour of a label, and its hatch."""
        index = self.order[label]
        if index == 0:
            return BOTTOM, ""
        turn, colour = divmod(index - 1, len(COLOURS))
        return COLOURS[colour], HATCHES[turn % len(HATCHES)]
