"""A whole SVG: what stands above a picture, the picture, and the line at which a given report is refused."""
from . import layout as places
from . import notes, svg
from .layout import MARGIN, shorten

SCALE = 1.2


def document(title, width, height, key, parts):
    opening = (f'<svg xmlns="http://www.w3.org/2000/svg" viewBox="0 0 {svg.number(width)} {svg.number(height)}" '
               f'width="{svg.number(width * SCALE)}" height="{svg.number(height * SCALE)}" role="img" '
               'style="max-width:100%;height:auto">')
    first = [opening, svg.title(title), f"<style>{svg.STYLE}</style>", patterns(key),
             svg.tag("rect", width=float(width), height=float(height), fill="#fff")]
    return "\n".join(part for part in first + parts if part) + "\n</svg>\n"


def patterns(key):
    made = []
    for label in key.order:
        colour, hatch = key.look(label)
        if hatch:
            inside = svg.tag("rect", width=8, height=8, fill=colour) + svg.tag("path", d=hatch, stroke="#000", stroke_width=1.6)
            made.append(svg.tag("pattern", inside, id=f"l{key.order[label]}", width=8, height=8, patternUnits="userSpaceOnUse"))
    return svg.tag("defs", "".join(made)) if made else ""


class Header:
    """What stands above the columns: a name, some lines of text, and the legend."""

    def __init__(self, width):
        self.width, self.out, self.y = width, [], 26

    def wrap(self, text, size):
        return places.wrap(text, self.width - 2 * MARGIN, size)

    def name(self, name):
        self.out.append(svg.words(MARGIN, self.y, shorten(name, int((self.width - 2 * MARGIN) / (16 * svg.SIGN))), "head"))

    def say(self, text, class_="note", size=10.5, most=5):
        for line in self.wrap(text, size)[:most]:
            self.y += 15
            self.out.append(svg.words(MARGIN, self.y, line, class_))

    def items(self, items):
        """Lays pairs of a drawing and its text out in lines."""
        x = MARGIN
        for width, draw, text, whole in items:
            whole_width = width + 5 + svg.wide(text, 10.5) + 14
            if x > MARGIN and x + whole_width - 14 > self.width - MARGIN:
                x, self.y = MARGIN, self.y + 21
            told = svg.title(whole) if whole else ""
            self.out.append(svg.tag("g", told + draw(x, self.y + 8) + svg.words(x + width + 5, self.y + 12, text, "key")))
            x += whole_width
        self.y += 21 if items else 0

    def legend(self, *pictures):
        order = pictures[0].key.order
        shown = {label for picture in pictures for label in picture.labels_shown()}
        labels = sorted(shown, key=order.get)
        marks = {}
        for picture in pictures:
            for item in mark_items(picture):
                marks.setdefault(item[2], item)
        lanes = {item[2]: item for picture in pictures for item in lane_items(picture)}
        self.y += 10
        self.items([label_item(pictures[0], label) for label in labels])
        self.y += 4
        self.items(list(marks.values()) + list(lanes.values()))
        self.y += 8


def label_item(picture, label):
    text, code = picture.key.text(label), picture.key.codes.get(label)
    short = shorten((code + " is " if code else "") + text, 34)
    swatch = lambda x, y: svg.tag("rect", x=x, y=y - 6.0, width=18, height=12, rx=2, class_="bar", fill=picture.fill(label))
    return 18, swatch, short, f"label {text}"


def lane_items(picture):
    """The names of lanes that have numbers above their tracks."""
    for index, lane in enumerate(picture.lanes if not picture.layout.named else []):
        yield 0, lambda x, y: "", f"lane {index + 1} is {lane}", None


def mark_items(picture):
    """The marks that come in a picture, each with what it means."""
    events = picture.events
    shapes = {notes.shape_of(event, old, new): picture.key.short(new) for event in events for _, old, new in event.changes}
    if any(not event.refusal for event in events):
        yield 18, lambda x, y: svg.badge(x + 9, y, "n", False)[0], "entry n, by its caller", None
    if picture.lanes:
        yield 8, lambda x, y: svg.tag("rect", x=float(x), y=y - 5.0, width=8, height=10, rx=2, class_="turn"), "in this lane", None
    if any(event.moved for event in events):
        yield 26, lambda x, y: svg.arrow(x, x + 26, y, "moved"), "bytes moved", None
    if any(len(event.columns()) > 1 for event in events):
        yield 26, lambda x, y: svg.line(x, y, x + 22, y, "looked") + picture.dot(x + 23, y), "touched", None
    if any(event.refusal for event in events):
        yield 36, lambda x, y: svg.badge(x + 9, y, "n", True)[0] + svg.cross(x + 28, y), "refused", None
    for shape, text in (("up", "label floats"), ("asked", "label set higher"), ("down", "released: label let down")):
        if shape in shapes:
            half = svg.half_tag(shapes[shape])
            yield 2 * half, lambda x, y, half=half, shape=shape: svg.label_tag(x + half, y - 8, shapes[shape], shape), text, None
    if any(picture.learners(event) for event in events):
        yield 26, lambda x, y: svg.line(x, y, x + 26, y, "fall") + picture.learns(x + 13, y), "may learn by a release", None
    if any(picture.is_licensed(event) for event in events):
        yield 10, lambda x, y: picture.logged(x + 1, y), "another line in the audit log", None
    flows = [flow for alike in picture.drawn.values() for flow in alike]
    if flows:
        yield 26, lambda x, y: svg.way([(x, y - 5), (x + 20, y - 5), (x + 20, y + 1)], "flow") + svg.head_down(x + 20, y + 5), "whose bytes were learnt", None
    if any(flow.via for flow in flows):
        yield 26, lambda x, y: svg.way([(x, y), (x + 26, y)], "flow let") + svg.passed(x + 13, y), "the same, by a release", None


def single(name, picture, legend, given=None):
    """The SVG of one session; `given` has the refused line of a given report, if there is one."""
    head = Header(picture.layout.width)
    head.name(name)
    head.say(picture.script.comment(), "say", 11)
    head.say(picture.summary())
    if legend:
        head.legend(picture)
    else:
        head.y += 14
    parts = head.out + picture.plot(head.y)
    bottom = picture.layout.bottom
    if given is not None and given.line is not None:
        told, bottom = refused(picture, given, bottom + 4)
        parts += told
    return document(f"{name}: {picture.summary()}", picture.layout.width, bottom + MARGIN, picture.key, parts)


def refused(picture, given, top):
    """The refused line of a report in a box below all that is right, and where that ends."""
    width = picture.layout.width - 2 * MARGIN
    none = "the call of that line can't come there" if " = " in given.claimed else "no such line can come there"
    right = f"what can stand there: {given.right}" if given.right else none
    left = f"{given.left} more line{'' if given.left == 1 else 's'} of the report {'is' if given.left == 1 else 'are'} not drawn"
    first = f"line {given.line} of the report is refused: no report of this script goes on like this"
    told = [(line, "note alarm") for line in cut_to(first, width - 16)]
    told += [(line, "note bold") for line in cut_to(given.claimed or "(the report has no such line)", width - 16)]
    told += [(line, "note dim") for line in cut_to(right, width - 16)]
    told += [(left, "note dim")] if given.left else []
    height = 16 * len(told) + 10
    box = svg.tag("rect", x=MARGIN, y=float(top), width=float(width), height=height, rx=3, class_="wrong")
    lines = "".join(svg.words(MARGIN + 8, top + 18 + 16 * at, line, class_) for at, (line, class_) in enumerate(told))
    return [svg.tag("g", svg.title(f"line {given.line}: {given.claimed}") + box + lines, data_refused=given.line)], top + height


def cut_to(text, width):
    """A text in at most three lines."""
    lines = places.wrap(text, width, 10.5)
    return lines if len(lines) <= 3 else lines[:2] + [shorten(lines[2] + "…", len(lines[2]))]
