"""The pieces of a picture as text. All text is of one width a sign, so that what fits is known without a browser."""
from xml.sax.saxutils import escape

INK, FAINT, GREY, ALARM, FLOW = "#1A1A1A", "#E4E4E4", "#666666", "#B3261E", "#6A1B9A"
SIGN = 0.62  # of the size of the letters: what one sign takes at most, in the fonts that are named


def wide(text, size):
    return len(text) * size * SIGN


def number(value):
    text = f"{value:.1f}"
    return text[:-2] if text.endswith(".0") else text


def points(pairs):
    return " ".join(f"{number(x)},{number(y)}" for x, y in pairs)


def tag(name, inside=None, **attributes):
    told = "".join(f' {key.rstrip("_").replace("_", "-")}="{quoted(value)}"' for key, value in attributes.items() if value is not None)
    return f"<{name}{told}/>" if inside is None else f"<{name}{told}>{inside}</{name}>"


def quoted(value):
    if isinstance(value, float):
        return number(value)
    return escape(str(value), {'"': "&quot;"})


def title(text):
    return f"<title>{escape(text)}</title>"


def words(x, y, text, class_, anchor=None):
    return tag("text", escape(text), x=float(x), y=float(y), class_=class_, text_anchor=anchor)


def line(x1, y1, x2, y2, class_):
    return tag("path", d=f"m{number(x1)} {number(y1)}L{number(x2)} {number(y2)}", class_=class_)


def way(stops, class_):
    """A broken line by way of some places."""
    return tag("path", d="m" + "L".join(f"{number(x)} {number(y)}" for x, y in stops), class_=class_)


def head_down(x, y):
    """The head of an arrow of flow, which ends at a place from above."""
    return tag("polygon", points=points([(x, y + .5), (x - 4, y - 5), (x + 4, y - 5)]), class_="flow-head")


def passed(x, y):
    """The mark at which a flow goes through a release."""
    return tag("polygon", points=points([(x, y - 5), (x + 5, y), (x, y + 5), (x - 5, y)]), class_="passed")


def arrow(x1, x2, y, class_):
    """A straight arrow along a row, on a white edge that keeps it apart from what it crosses."""
    back = -7 if x2 > x1 else 7
    shaft = line(x1, y, x2 + back, y, "edge") + line(x1, y, x2 + back, y, class_)
    return shaft + tag("polygon", points=points([(x2, y), (x2 + back, y - 4.5), (x2 + back, y + 4.5)]), class_=class_ + "-head")


def cross(x, y):
    ends = f"m{number(x - 4.5)} {number(y - 4.5)}l9 9m0 -9l-9 9"
    return tag("path", d=ends, class_="cross-edge") + tag("path", d=ends, class_="cross")


def badge(x, y, text, refused, size=10):
    """The number of an entry on the line of its caller: a round box, or an octagon where the call was refused."""
    half = max(8.5, wide(text, size) / 2 + 3)
    if refused:
        cut = 4
        corners = [(x - half, y - 8 + cut), (x - half + cut, y - 8), (x + half - cut, y - 8), (x + half, y - 8 + cut),
                   (x + half, y + 8 - cut), (x + half - cut, y + 8), (x - half + cut, y + 8), (x - half, y + 8 - cut)]
        box = tag("polygon", points=points(corners), class_="refused")
    else:
        box = tag("rect", x=x - half, y=y - 7.5, width=2 * half, height=15, rx=7.5, class_="badge")
    return box + words(x, y + 3.5, text, "number no-number" if refused else "number", "middle"), half


def half_tag(text):
    """Half the width of a label's tag."""
    return max(9.0, wide(text, 10) / 2 + 4)


def label_tag(x, y, text, shape):
    """A label where it begins to hold: a box; with a peak where a label rises, with a point below where it is let down."""
    half = half_tag(text)
    top, low = y, y + 13
    if shape in ("up", "asked"):
        corners = [(x, top - 1), (x + half, top + 5), (x + half, low + 4), (x - half, low + 4), (x - half, top + 5)]
        at = y + 13.5
    elif shape == "down":
        corners = [(x - half, top), (x + half, top), (x + half, low - 1), (x, low + 6), (x - half, low - 1)]
        at = y + 10
    else:
        corners = [(x - half, top), (x + half, top), (x + half, low), (x - half, low)]
        at = y + 10
    return tag("polygon", points=points(corners), class_="tag-" + shape) + words(x, at, text, "tag " + shape, "middle")


def icon(kind, x, y):
    """What a column is: a head for a process, a page, a folder, a pipe. Its middle is at (x, y)."""
    at = lambda text: text.format(x=number(x), y=number(y))
    shapes = {
        "process": "m{x} {y}m-7 8c0 -9 14 -9 14 0zm7 -15a4 4 0 1 1 -.1 0z",
        "file": "m{x} {y}m-5.5 -8h7l4 4v12h-11zm7 0v4h4",
        "dir": "m{x} {y}m-8 -6h6l2 3h8v9h-16z",
        "pipe": "m{x} {y}m-8 -4h16v8h-16zm0 -2v12m16 -12v12",
    }
    return tag("path", d=at(shapes[kind]), class_="icon-process" if kind == "process" else "icon")


STYLE = """
text{font-family:ui-monospace,Menlo,Consolas,"DejaVu Sans Mono","Liberation Mono",monospace;font-size:11px;fill:%(ink)s}
.head{font-size:16px;font-weight:bold}.say{fill:#444}.key{font-size:10.5px}.name{font-size:10.5px;font-weight:bold}.ident{font-size:9.5px;fill:%(grey)s}
.number{font-size:10px;font-weight:bold}.no-number{fill:#fff}.tag{font-size:10px;font-weight:bold}.up{fill:#fff}.again{fill:%(grey)s;font-size:10px}
.note{font-size:10.5px}.dim{fill:%(grey)s}.bold{font-weight:bold}.alarm{fill:%(alarm)s;font-weight:bold}
.guide{stroke:%(faint)s;stroke-width:1}.rule{stroke:#999;stroke-width:1;fill:none}.bar{stroke:#555;stroke-width:.8}
.badge{fill:#fff;stroke:%(ink)s;stroke-width:1.2}.refused{fill:%(alarm)s;stroke:#fff;stroke-width:1}
.tag-up{fill:%(ink)s;stroke:#fff;stroke-width:1}.tag-down{fill:#fff;stroke:%(alarm)s;stroke-width:2.2}.tag-plain,.tag-asked{fill:#fff;stroke:#777;stroke-width:.8}
.edge{stroke:#fff;stroke-width:5.5;fill:none}.moved{stroke:%(ink)s;stroke-width:2;fill:none}.moved-head{fill:%(ink)s}
.looked{stroke:#666;stroke-width:1.2;stroke-dasharray:2 3;fill:none}.dot{fill:#fff;stroke:#666;stroke-width:1.2}.end{stroke:#444;stroke-width:2.5}
.cross{stroke:%(alarm)s;stroke-width:2.6;fill:none}.cross-edge{stroke:#fff;stroke-width:5.5;fill:none}
.fall{stroke:%(alarm)s;stroke-width:1.4;stroke-dasharray:7 3;fill:none}.learns{fill:%(alarm)s;stroke:#fff;stroke-width:.8}.logged{fill:#fff;stroke:%(ink)s;stroke-width:1.2}
.flow{stroke:%(flow)s;stroke-width:1.8;fill:none;stroke-linejoin:round}.flow-edge{stroke:#fff;stroke-width:3.6;fill:none;stroke-linejoin:round}
.flow-head{fill:%(flow)s}.let{stroke-dasharray:5 2.5}.passed{fill:#fff;stroke:%(flow)s;stroke-width:1.8}.lane{font-size:9.5px;font-weight:bold}.track{stroke:#bbb;stroke-width:1;fill:none}.turn{fill:#555;stroke:#fff;stroke-width:1}
.wrong{fill:#FBE9E7;stroke:%(alarm)s;stroke-width:1.4}.same{font-size:11px;font-weight:bold}.other{font-size:13px;font-weight:bold;fill:%(alarm)s}
.icon{fill:#fff;stroke:%(ink)s;stroke-width:1.2;stroke-linejoin:round}.icon-process{fill:%(ink)s}
""" % {"ink": INK, "grey": GREY, "faint": FAINT, "alarm": ALARM, "flow": FLOW}
