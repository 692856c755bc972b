"""One session drawn: its columns, entries and flows."""
from . import layout as places
from . import notes, svg
from .labels import Key, parse
from .layout import Layout, shorten
from .routes import ABOVE, Gutters

BYTES = 64  # so many bytes of a line stand in a title at most


def key_of(histories, greatest):
    """The labels of one session or of several, each a list of events."""
    key = Key(greatest)
    for events in histories:
        for event in events:
            for column in event.columns():
                key.add(column.label_before(event.entry.place))
            for column, _, label in event.changes:
                key.add(label)
            for column in event.made:
                key.add(column.labels[0][1])
    return key


class Picture:
    """What is drawn of one history: the entries from `first` to `last`, and the flows of the readers that are asked for."""

    def __init__(self, script, history, flows, readers, bounds, key):
        self.script, (events, self.all_columns), self.key = script, history, key
        self.first, last = bounds
        self.events = [event for event in events if self.first <= event.entry.place <= last]
        self.count, self.top = len(events), parse("*", script.greatest)
        self.by_place = {event.entry.place: event for event in events}
        self.sort_flows(flows, readers)
        self.columns = self.shown()
        self.lanes = self.lanes_shown() if len(script.lanes) > 1 else []
        self.banded = max(script.phases.values(), default=0) > 1
        last_place = self.events[-1].entry.place if self.events else 0
        self.layout = Layout(self.columns, self.lanes, last_place, self.ceiling)

    def sort_flows(self, flows, readers):
        """Each line about a read that is shown is drawn, where its reader was asked for, or else told in the title of the read."""
        self.drawn, self.told = {}, {}
        shown = {event.entry.place for event in self.events}
        for flow in flows:
            if flow.place not in shown:
                continue
            if readers in ("all", self.by_place[flow.place].actor.ident()):
                self.drawn.setdefault(flow.place, []).append(flow)
            else:
                self.told.setdefault(flow.place, []).append(flow.text)

    def shown(self):
        """The columns that are touched, in the order in which they are."""
        columns = {}
        for event in self.events:
            columns.update(dict.fromkeys(event.columns()))
        return list(columns)

    def lanes_shown(self):
        """The lanes that make the entries, in the order of the script's lines."""
        made = {event.entry.lane for event in self.events}
        return [lane for lane in self.script.lanes if lane in made]

    def ceiling(self, column):
        """The ceiling that a column begins with, in words, or None where it is the top."""
        begins = column.begins_below(self.top)
        return None if begins is None else self.key.text(begins)

    # The whole.

    def height_of(self, event):
        return places.height(len(notes.lines(event, self.key)), bool(event.changes or event.made))

    def lead_of(self, event):
        return places.LEAD if event.entry.place in self.drawn else 0

    def plot(self, top, height_of=None, lead_of=None):
        """Draws everything below `top`, and answers it."""
        self.out = []
        self.layout.place(top, self.events, height_of or self.height_of, lead_of or self.lead_of, self.band)
        self.guides()
        self.tracks()
        self.bars()
        for event in self.events:
            self.out.append(self.entry(event))
        self.heads()
        self.flows()
        return self.out

    def band(self, event):
        return f"phase {self.script.phases[event.entry.line]}" if self.banded else None

    def fill(self, label):
        colour, hatch = self.key.look(label)
        return f"url(#l{self.key.order[label]})" if hatch else colour

    # What a legend says.

    def summary(self):
        reads = sum(1 for event in self.events if event.entry.verb == "read" and event.moved)
        writes = sum(1 for event in self.events if event.entry.verb == "write" and event.moved)
        floats = sum(1 for event in self.events for _, old, new in event.changes if notes.shape_of(event, old, new) == "up")
        refused = sum(1 for event in self.events if event.refusal)
        released = sum(1 for event in self.events if notes.falls(event))
        several = lambda count, what: f"{count} {what}" + ("" if count == 1 else "s")
        part = several(len(self.events), "entry").replace("entrys", "entries")
        if len(self.events) < self.count:
            part = f"entries {self.first} to {self.events[-1].entry.place if self.events else self.first} of {self.count}"
        return (f"{part}: {several(reads, 'read')} and {several(writes, 'write')} moved bytes, "
                f"{several(floats, 'float')}, {refused} refused, {several(released, 'release')}")

    def labels_shown(self):
        seen = set()
        for event in self.events:
            seen.update(column.label_before(event.entry.place) for column in event.columns())
            seen.update(new for _, _, new in event.changes)
            seen.update(column.labels[0][1] for column in event.made)
            for _, old, new in notes.falls(event):
                seen.update(notes.crossed(self.key, old, new))
        return [label for label in sorted(self.key.order, key=self.key.order.get) if label in seen]

    # Columns.

    def guides(self):
        for row in self.layout.rows:
            if row.event is not None:
                left = self.layout.lane_at.get(row.event.entry.lane, self.layout.left)
                self.out.append(svg.line(left, row.middle, self.layout.note_at - 3, row.middle, "guide"))

    def tracks(self):
        """A line for each lane, and a mark on it at each entry that is one of its."""
        for lane, x in self.layout.lane_at.items():
            self.out.append(svg.line(x, self.layout.plot_top + 2, x, self.layout.bottom, "track"))
        for row in self.layout.rows:
            x = self.layout.lane_at.get(row.event.entry.lane) if row.event is not None else None
            if x is not None:
                self.out.append(svg.tag("rect", svg.title(f"lane {row.event.entry.lane}"), x=x - 4.0, y=row.middle - 5.0, width=8, height=10,
                                        rx=2, class_="turn"))

    def heads(self):
        for row in self.layout.rows:
            if row.event is not None:
                continue
            if row.band:
                self.out.append(svg.line(places.MARGIN, row.top + 9.5, self.layout.right, row.top + 9.5, "rule"))
                told = svg.words(self.layout.note_at, row.top + 13, shorten(row.band, places.NOTE), "again")
                self.out.append(svg.tag("g", svg.title(row.band) + told))
                continue
            self.out.append(svg.tag("rect", x=0, y=float(row.top), width=float(self.layout.width), height=row.height - 2, fill="#fff"))
            for index, lane in enumerate(self.lanes):
                self.out.append(self.lane_head(index, lane, row.top))
            for column in self.columns:
                self.out.append(self.head(column, row.top))

    def lane_head(self, index, lane, top):
        x, foot = self.layout.lane_at[lane], top + self.layout.heads - 6
        signs = int(self.layout.track / (9.5 * svg.SIGN))
        name = shorten(lane, signs) if self.layout.named else str(index + 1)
        above = svg.words(x, foot - 11, "lane", "ident", "middle") if self.layout.track >= 4 * 9.5 * svg.SIGN + 2 else ""
        return svg.tag("g", svg.title(f"lane {lane}") + above + svg.words(x, foot, name, "lane", "middle"))

    def head(self, column, top):
        x = self.layout.at[column]
        kind = {"dir": "directory"}.get(column.kind, column.kind)
        told = f"{kind} {column.name}, {column.ident()}" if column.kind != "pipe" else f"pipe {column.ident()}"
        ceiling = self.ceiling(column)
        told += f", with the ceiling {ceiling}" if ceiling else ""
        parts = [svg.title(told), svg.icon(column.kind, x, top + 9)]
        y = top + 29
        for part in places.in_two(column.name, self.layout.name_signs):
            parts.append(svg.words(x, y, part, "name", "middle"))
            y += 11
        for part in [column.ident()] + (["ceiling", shorten(ceiling, self.layout.name_signs)] if ceiling else []):
            parts.append(svg.words(x, y, part, "ident", "middle"))
            y += 11
        return svg.tag("g", "".join(parts))

    def bars(self):
        for column in self.columns:
            if column.ended != 0:
                self.bar(column)

    def bar(self, column):
        first = self.first
        top = self.layout.plot_top if column.begun < first else self.layout.y_of(column.begun)
        end = self.layout.bottom if column.ended is None else self.layout.y_of(column.ended) + 10
        changes = [(place, label) for place, label in column.labels if place >= first and place > column.begun]
        parts = [(top, column.label_before(first) if column.begun < first else column.labels[0][1])]
        parts += [(self.layout.y_of(place), label) for place, label in changes if place in self.layout.row_of]
        x, half = self.layout.at[column], self.half(column)
        for index, (start, label) in enumerate(parts):
            stop = min(end, parts[index + 1][0] if index + 1 < len(parts) else end)
            if stop > start:
                told = svg.title(f"{column.name}, {column.ident()}, at {self.key.text(label)}")
                self.out.append(svg.tag("rect", told, x=x - half, y=float(start), width=2 * half, height=float(stop - start), class_="bar",
                                        fill=self.fill(label)))
        if column.begun < first:
            self.out.append(svg.label_tag(x, self.layout.plot_top + 3, self.key.short(parts[0][1]), "plain"))
        if column.ended in self.layout.row_of:
            self.out.append(svg.line(x - 9, end, x + 9, end, "end"))

    @staticmethod
    def half(column):
        return {"process": 6, "pipe": 4.5}.get(column.kind, 3.5)

    # Marks.

    @staticmethod
    def dot(x, y):
        return svg.tag("circle", cx=float(x), cy=float(y), r=3, class_="dot")

    @staticmethod
    def learns(x, y):
        return svg.tag("polygon", points=svg.points([(x - 6, y - 5), (x + 6, y - 5), (x, y + 6)]), class_="learns")

    @staticmethod
    def logged(x, y):
        return svg.tag("rect", x=float(x), y=y - 4.0, width=8, height=8, class_="logged")

    @staticmethod
    def is_licensed(event):
        return event.release is not None and not notes.falls(event)

    def title_of(self, event):
        lines = [shortened(event.entry.text)]
        if event.release is not None:
            lines.append("log: " + event.release.text)
        for _, old, new in notes.falls(event):
            lines.append("across: " + " ".join(self.key.text(label) for label in notes.crossed(self.key, old, new)))
        lines += ["from: " + text for text in self.told.get(event.entry.place, [])]
        return svg.title("\n".join(lines))

    def entry(self, event):
        row, x = self.layout.row_of[event.entry.place], self.layout.at[event.actor]
        y = row.middle
        badge, half = svg.badge(x, y, str(event.entry.place), event.refusal)
        parts = [self.title_of(event)]
        parts += [self.fall(event, y)] if notes.falls(event) else []
        parts += self.reach(event, x, y, half)
        parts.append(badge)
        if self.is_licensed(event):
            parts.append(self.logged(x - half - 11, y))
        for column, old, new in event.changes:
            parts.append(svg.label_tag(self.layout.at[column], y + 8, self.key.short(new), notes.shape_of(event, old, new)))
        for column in event.made:
            if column not in [changed for changed, _, _ in event.changes]:
                parts.append(svg.label_tag(self.layout.at[column], y + 8, self.key.short(column.labels[0][1]), "plain"))
        for index, (text, look) in enumerate(notes.lines(event, self.key)):
            parts.append(svg.words(self.layout.note_at, y + 3.5 + 13 * index, text, "note " + look))
        return svg.tag("g", "".join(parts), data_entry=event.entry.place)

    def fall(self, event, y):
        """The line of a release, and a mark at each process that may learn by it what it may not have learnt before."""
        marks = [self.learns(self.layout.at[column], y) for column in self.learners(event)]
        return svg.line(self.layout.left, y, self.layout.right, y, "fall") + "".join(marks)

    def learners(self, event):
        """The other processes whose labels a release crosses."""
        found = []
        for _, old, new in notes.falls(event):
            for column in self.columns:
                at = column.label_before(event.entry.place + 1)
                if column.kind == "process" and column is not event.actor and self.stands(column, event) and not old <= at and new <= at:
                    found.append(column)
        return found

    @staticmethod
    def stands(column, event):
        place = event.entry.place
        return column.begun <= place and (column.ended is None or column.ended > place)

    def reach(self, event, x, y, half):
        """From the caller to what it touched: an arrow where bytes moved, along their way, and else a dotted line."""
        things = [thing for thing in event.things if thing is not event.actor]
        if event.refusal and not things:
            return [svg.cross(x + half + 9, y)]
        parts = []
        for index, thing in enumerate(things):
            there = self.layout.at[thing]
            side = 1 if there > x else -1
            near, edge = x + side * half, there - side * self.half(thing)
            if event.moved and index == 0:
                parts.append(svg.arrow(edge, near, y, "moved") if event.entry.verb == "read" else svg.arrow(near, edge, y, "moved"))
            else:
                parts.append(svg.line(near, y, there, y, "looked"))
                parts.append(svg.cross(there, y) if event.refusal and index == 0 else self.dot(there, y))
        return parts

    # Flows.

    def flows(self):
        """The arrows, upon all else: they go where nothing else stands."""
        gutters = Gutters(self.layout)
        for alike in self.drawn.values():
            for index, flow in enumerate(alike):
                aside = max(-6, min(6, 4 * (index - (len(alike) - 1) / 2)))
                self.out.append(self.flow(flow, aside, gutters))

    def flow(self, flow, aside, gutters):
        event = self.by_place[flow.place]
        reader = self.layout.at[event.actor], self.layout.y_of(flow.place)
        there = self.layout.at[event.things[0]]
        passed = None
        if flow.kind == "gap":
            stops = [(there, reader[1] - ABOVE), (reader[0] + aside, reader[1] - ABOVE), (reader[0] + aside, reader[1] - 8)]
        else:
            through = (there, self.layout.y_of(flow.via)) if flow.via in self.layout.row_of else None
            stops, passed = gutters.way(self.source(flow, there), reader, aside, through)
        look = "flow let" if flow.via is not None else "flow"
        drawn = svg.title(flow.text) + svg.way(stops, "flow-edge") + svg.way(stops, look) + svg.head_down(*stops[-1])
        drawn += self.dot(*stops[0]) if flow.kind == "gap" else ""
        drawn += svg.passed(*passed) if passed else ""
        return svg.tag("g", drawn, data_flow=flow.text)

    def source(self, flow, there):
        """Where a flow begins: under its writer's entry, or under the top of the file that held it."""
        top = self.layout.plot_top + 16
        if flow.kind == "file":
            return there, top, top + 3
        writer, row = self.by_place[flow.source], self.layout.row_of.get(flow.source)
        if row is not None:
            return self.layout.at[writer.actor], row.middle + 7.5, row.top + row.height
        return self.layout.at.get(writer.actor, there), top, top + 3


def shortened(text):
    """A report's line with at most BYTES bytes of each run of them."""
    cut = lambda word: word if len(word) <= 2 * BYTES + 1 or not word.startswith("x") else word[:2 * BYTES + 1] + "…"
    return " ".join(cut(word) for word in text.split(" "))
