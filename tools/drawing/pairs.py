"""Two runs side by side, row by row, with what `twin` says of them."""
from collections import namedtuple

from . import svg
from .layout import MARGIN
from .picture import Picture
from .sheet import Header, document

BETWEEN = 44  # the room between the two pictures

# `parts` is the place at which the runs differ, or None where they agree; `shown` are the places that `twin` has lines of.
Verdict = namedtuple("Verdict", "parts shown text")


def verdict_of(answer):
    """What `ixone twin` printed, as a record."""
    lines = answer.split("\n")
    word, number = lines[0].split(" ")
    shown = {int(line.split(" ")[1]) for line in lines[1:] if line.startswith("1 ")}
    return Verdict(int(number) if word == "differ" else None, shown, lines[0])


class Pair:
    def __init__(self, name, label, pictures, verdict):
        self.name, self.label, self.pictures, self.verdict = name, label, pictures, verdict
        left, right = (picture.layout for picture in pictures)
        self.shift = left.width + BETWEEN - MARGIN
        self.width = self.shift + right.width
        left.heads = right.heads = max(left.heads, right.heads)

    def most(self, measure, event):
        """What the greater of the two entries of one place needs, by a measure of a picture."""
        place = event.entry.place
        return max(measure(picture, picture.by_place[place]) for picture in self.pictures if place in picture.by_place)

    def height_of(self, event):
        return self.most(Picture.height_of, event)

    def lead_of(self, event):
        return self.most(Picture.lead_of, event)

    def summary(self):
        parts = self.verdict.parts
        said = "they agree" if parts is None else "they don't begin alike" if parts == 0 else f"they part at entry {parts}"
        return f"two runs at {self.label}: {said}; low processes get the same at {len(self.verdict.shown)} places"

    def draw(self, legend):
        head = Header(self.width)
        head.name(self.name)
        head.say(self.pictures[0].script.comment(), "say", 11)
        head.say(self.summary())
        if legend:
            head.legend(*self.pictures)
            head.y -= 4
            head.items(list(self.marks()))
        head.y += 14
        parts = list(head.out)
        for at, picture in enumerate(self.pictures):
            body = picture.plot(head.y, self.height_of, self.lead_of)
            shift = f"translate({svg.number(self.shift)} 0)" if at else None
            parts.append(svg.tag("g", "\n".join(body), data_run=at + 1, transform=shift))
        parts += self.between()
        bottom = max(picture.layout.bottom for picture in self.pictures)
        return document(f"{self.name}: {self.summary()}", self.width, bottom + MARGIN, self.pictures[0].key, parts)

    def marks(self):
        """What the signs between the two pictures mean, those that come."""
        if self.verdict.shown:
            yield 8, lambda x, y: svg.words(x, y + 4, "=", "same"), "low, and the same line in both", None
        if any(sign == "≠" for sign in self.signs().values()):
            yield 8, lambda x, y: svg.words(x, y + 4, "≠", "other"), "the lines differ", None

    def signs(self):
        """Between the two entries of a place: whether their lines are the same, and low."""
        left, right = (picture.by_place for picture in self.pictures)
        found = {}
        for place in sorted(set(left) | set(right)):
            if place in self.verdict.shown:
                found[place] = "="
            elif place not in left or place not in right or left[place].entry.text != right[place].entry.text:
                found[place] = "≠"
        return found

    def between(self):
        x = self.shift + MARGIN - BETWEEN / 2 - 4
        rows = {}
        for picture in self.pictures:
            rows.update(picture.layout.row_of)
        parts = []
        for place, sign in self.signs().items():
            if place in rows:
                told = {"=": f"entry {place} is low, and the same in both"}.get(sign, f"entry {place} differs")
                text = svg.words(x, rows[place].middle + 4, sign, "same" if sign == "=" else "other", "middle")
                parts.append(svg.tag("g", svg.title(told) + text, data_sign=place))
        if self.verdict.parts in rows:
            y = rows[self.verdict.parts].top - 1
            line = svg.line(MARGIN, y, self.width - MARGIN, y, "fall")
            parts.append(svg.tag("g", svg.title(f"the runs part at entry {self.verdict.parts}") + line, data_parts=self.verdict.parts))
        return parts

