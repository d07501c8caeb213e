"""The measures of a picture's boxes and labels, for the layout, to the right or downwards."""
from lineup.layout import SPACE, Piece
from lineup.looks import strongest

FONT, SMALL, LEADING = 12, 11, 14
BOLD = 1.1  # how much wider bold is
LONGEST, LEAST, ROW = 30, 4, 24  # characters of a name, of one that is shortened to the utmost, and of a row of counts
RADIUS, PORT = 17, 10  # of a place's circle; between the ends of arrows at a box
LOOP, FRAME = 18, 4  # how high an arrow from a box to itself rises; how far the second border is from the first
NARROW, WIDE = set("iIjl.,:;'|!()[]{} ftr-"), set("mwMW@%<>=+~#^&\u2212\u2192")


def width(text, size=FONT):
    """About how wide a text is, rather too much, since the font is the viewer's."""
    return size * sum(0.36 if c in NARROW else 0.95 if c in WIDE or ord(c) > 0x2E7F else 0.72 if c.isupper() else 0.63 for c in text)


def cut(text, most=LONGEST):
    return text if len(text) <= most else text[: most - 1] + "\u2026"


def short(part):
    """A part's text with its name shortened where it is long; its count is whole."""
    return cut(part.name, max(LONGEST - len(part.tail), LEAST)) + part.tail if part.name else part.tail


def rows(parts):
    """The parts of a box, by rows: short ones share one."""
    found = []
    for part in parts:
        if found and len(joined(found[-1])) + len(short(part)) + 2 <= ROW:
            found[-1].append(part)
        else:
            found.append([part])
    return found


def joined(row):
    return ", ".join(map(short, row))


class Shape:
    """A box with its measures. `half` is half its height and `side` half its width, both without what stands around the box: the labels of its
    arrow to itself, and a place's name. `piece` is the whole, along and across the picture's way."""

    def __init__(self, box, loops, ends, down=False):
        self.box, self.loops, self.down = box, loops, down
        self.rows = rows(box.parts)
        self.frame = FRAME if box.waits and box.kind == "node" else 0
        texts = self.round() if box.kind == "place" else self.square(ends)
        labels = max([width(short(part), SMALL) for part in loops], default=0)
        if down:
            beside = 6 + texts if box.kind == "place" else 0
            high = max(2 * (self.half + self.frame), LEADING * len(loops), LEADING * (1 + len(self.rows)) if box.kind == "place" else 0)
            self.piece = Piece(high, self.side + self.frame, self.side + self.frame + max(beside, LOOP + 4 + labels if loops else 0), SPACE)
        else:
            below = LEADING * (1 + len(self.rows)) + 4 if box.kind == "place" else 0
            above = LOOP + LEADING * len(loops) if loops else 0
            self.piece = Piece(max(2 * (self.side + self.frame), texts, labels), self.half + self.frame + above, self.half + self.frame + below, SPACE)

    def round(self):
        """A circle, its name and rows below it, or beside it; answers how wide these are."""
        self.half = self.side = RADIUS
        return max([width(cut(self.box.title))] + [width(joined(row), SMALL) for row in self.rows])

    def square(self, ends):
        """A box around its name and rows, large enough for the arrows at a side."""
        bold = BOLD if any(part.mark for part in self.box.parts) else 1
        texts = max([width(cut(self.box.title)) * BOLD] + [width(joined(row), SMALL) * bold for row in self.rows])
        room = PORT * (ends + 1)
        self.side = max(16 + texts, room if self.down else 0) / 2
        self.half = max(28 + LEADING * len(self.rows), 0 if self.down else room) / 2
        return 0

    def port(self, share, side):
        """Where an arrow touches the box, along and across: `share` of the way along a side, -1 for the one where arrows come and 1 for the other."""
        deep, broad = (self.half, self.side) if self.down else (self.side, self.half)
        if self.box.kind == "place":
            across = (2 * share - 1) * RADIUS * 0.7
            return self.piece.x + side * (RADIUS**2 - across**2) ** 0.5, self.piece.y + across
        return self.piece.x + side * (deep + self.frame), self.piece.y + (2 * share - 1) * broad


def ends(arrows, column):
    """For each box how many arrows come to its fuller side."""
    left, right = [0] * len(column), [0] * len(column)
    for arrow in arrows:
        first, last = sorted((arrow.source, arrow.target), key=lambda box: column[box])
        right[first] += 1
        left[last] += 1
    return [max(both) for both in zip(left, right)]


def label_piece(arrow, down=False):
    """The room of an arrow's label: its texts stand above its line, or to the right of one that goes down."""
    if not arrow.labels:
        return Piece()
    wide = max(width(short(part), SMALL) for part in arrow.labels) * (BOLD if strongest(part.mark for part in arrow.labels) else 1)
    if down:
        return Piece(LEADING * len(arrow.labels) + 4, 4, wide + 8, 1)
    return Piece(wide + 4, LEADING * len(arrow.labels) + 3, 3, 1)
