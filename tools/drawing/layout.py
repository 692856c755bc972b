"""Where everything of a picture stands: columns from left to right, rows from above to below."""
import textwrap

from . import svg

MARGIN = 10
NARROW, BROAD = 56, 84   # how wide a column may be
TRACK = 18               # how wide the track of a lane is where lanes have numbers; else its name decides
NAMED_LANES = 6          # up to so many lanes have their names above their tracks
LEAST = 380              # the least width of a picture: a phone's
NOTE = 32                # how many signs a note has at most
NOTE_SIZE = 10.5
PLAIN, TAGGED, BAND, HEADS = 20, 40, 18, 45
LEAD = 6                 # the room above a row to which an arrow of flow comes down
REPEAT = 900             # after so many units the names of the columns are told again


class Row:
    """A row of an event (`event`), of a band of text (`band`), or of the names of columns (neither)."""

    def __init__(self, top, height, event=None, band=None, lead=0):
        self.top, self.height, self.event, self.band = top, height + lead, event, band
        self.middle = top + lead + 10


def shorten(text, most, tail=False):
    """A text of at most so many signs; of a path the end is kept."""
    if len(text) <= most:
        return text
    return "…" + text[len(text) - most + 1:] if tail else text[:most - 1] + "…"


def in_two(name, most):
    """A name in one line or two of at most so many signs; what is longer is shortened."""
    if len(name) <= most:
        return [name]
    name = shorten(name, 2 * most, True)
    cut = name.rfind("/", 1, most + 1)
    if cut < 1 or len(name) - cut > most:
        cut = (len(name) + 1) // 2
    return [name[:cut], name[cut:]]


def wrap(text, width, size):
    """A text in lines that are no wider."""
    return textwrap.wrap(text, int(width / (size * svg.SIGN))) if text else []


class Layout:
    """The places of lanes and columns. The last entry's number may need more than usual; `below` says of which ceilings are told."""

    def __init__(self, columns, lanes, last, below):
        self.columns, self.lanes = columns, lanes
        note = svg.wide("m" * NOTE, NOTE_SIZE) + 8
        self.named = len(lanes) <= NAMED_LANES
        self.track = max([TRACK] + [min(56, svg.wide(name, 9.5) + 6) for name in lanes]) if self.named else TRACK
        least = max(NARROW, svg.wide(str(last), 10) + 34)
        count = max(1, len(columns))
        self.left = MARGIN + (len(lanes) * self.track + 8 if lanes else 0)
        broad = (LEAST - self.left - MARGIN - note) / count
        self.step = max(least, min(BROAD, broad))
        self.right = self.left + count * self.step
        self.width = max(LEAST, self.right + note + MARGIN)
        self.note_at = self.right + 8
        self.at = {column: self.left + (index + 0.5) * self.step for index, column in enumerate(columns)}
        self.lane_at = {name: MARGIN + (index + 0.5) * self.track for index, name in enumerate(lanes)}
        self.name_signs = int((self.step - 10) / (NOTE_SIZE * svg.SIGN))
        self.heads = HEADS + 11 * any(len(column.name) > self.name_signs for column in columns)
        self.heads += 22 * any(below(column) is not None for column in columns)
        self.rows = []
        self.row_of = {}

    def gutter(self, index):
        """The middle of the room before a column, by its index."""
        return self.left + index * self.step

    def place(self, top, events, height_of, lead_of, band_of):
        """Gives each event its row, below `top`."""
        y = top + self.heads + 22
        self.rows.append(Row(top, self.heads))
        told, last_band = top, None
        for event in events:
            band = band_of(event)
            if y - told > REPEAT:
                self.rows.append(Row(y, self.heads))
                told = y
                y += self.heads
            if band is not None and band != last_band:
                self.rows.append(Row(y, BAND, band=band))
                y += BAND + 2
            last_band = band
            row = Row(y, height_of(event), event, lead=lead_of(event))
            self.rows.append(row)
            self.row_of[event.entry.place] = row
            y += row.height
        self.bottom = y + 6
        self.plot_top = top + self.heads

    def y_of(self, place):
        """The middle of an entry's row, or the edge of the picture on the side on which it lies."""
        if place in self.row_of:
            return self.row_of[place].middle
        first = next(iter(self.row_of), 0)
        return self.plot_top if place < first else self.bottom


def height(lines, tagged):
    """The height of a row with so many lines of notes."""
    return max(PLAIN + 13 * (lines - 1), TAGGED if tagged else PLAIN)
