"""The ways of arrows of flow: along the gutters between columns and between two rows, so that no mark, tag or name lies under one."""
OFFSETS = [0, 3, -3, 1.5, -1.5, 4, -4]  # of the arrows that go down one gutter side by side
ABOVE = 13                              # from where an arrow comes along a row to its middle


class Gutters:
    """Which arrows go down which gutter."""

    def __init__(self, layout):
        self.layout = layout
        self.ends = {}  # of a gutter: how far down each of its tracks is taken

    def track(self, index, top, bottom):
        """The place of an arrow in a gutter, beside those that were there before."""
        ends = self.ends.setdefault(index, [])
        for at, end in enumerate(ends):
            if end < top:
                ends[at] = bottom
                break
        else:
            ends.append(bottom)
            at = len(ends) - 1
        return self.layout.gutter(index) + OFFSETS[at % len(OFFSETS)]

    def beside(self, x, towards):
        """The gutter next to a column, on the side of a place."""
        index = round((x - self.layout.left) / self.layout.step - 0.5)
        return index if towards < x else index + 1

    def way(self, start, reader, aside, through=None):
        """The stops from a place to a reader's entry, and where it passes a release beside the column `through`, or None.

        `start` is a column's middle, the lower edge of what stands there, and the lower edge of its row; `reader` is a column's
        middle and a row's middle.
        """
        (x, y, edge), (end, middle) = start, reader
        column = x if through is None else through[0]
        top, bottom = y + 2.5 if through is None else edge, middle - ABOVE
        if through is None and bottom - top < 5:
            return [(x + 5, y), (x + 5, bottom), (end + aside, bottom), (end + aside, middle - 8)], None
        index = self.beside(column, end)
        down = self.track(index, top, bottom)
        leave = x + (5 if down > x else -5)
        stops = [(leave, y), (leave, top), (down, top), (down, bottom), (end + aside, bottom), (end + aside, middle - 8)]
        return stops, None if through is None else (down, through[1])
