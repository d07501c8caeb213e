"""A picture as SVG that needs nothing beside it."""
from html import escape
from textwrap import wrap

from lineup import bands, layout, legend, looks
from lineup.layout import GAP, span
from lineup.looks import FAULT, INK, MORE, strongest
from lineup.shapes import BOLD, FONT, LEADING, LONGEST, LOOP, RADIUS, SMALL, Shape, cut, ends, label_piece, short, width

MARGIN, HEAD, LARGE = 20, 8, 16
LETTER = 0.62  # of its size, about how wide a letter is
LEFT = ' text-anchor="start"'


def write(picture, down=False, wide=None, explained=False):
    """The SVG of a picture, to the right or downwards. It is folded where it would be wider than this; with a legend where it is to be explained."""
    return Drawing(picture, down, wide).text(legend.items(picture) if explained else [])


class Drawing:
    """Arrows lead along the picture's way, to the right or downwards; the layout knows only along and across, as x and y."""

    def __init__(self, picture, down=False, wide=None):
        self.picture, self.down, self.wide, self.parts = picture, down, wide, []
        loops = {}
        for arrow in picture.arrows:
            if arrow.source == arrow.target:
                loops.setdefault(arrow.source, []).extend(arrow.labels)
        self.arrows = [arrow for arrow in picture.arrows if arrow.source != arrow.target]
        column = layout.columns_of(len(picture.boxes), [(arrow.source, arrow.target) for arrow in self.arrows], picture.roots)
        sides = ends(self.arrows, column)
        self.shapes = [Shape(box, loops.get(i, []), sides[i], down) for i, box in enumerate(picture.boxes)]
        lines = [(arrow.source, arrow.target, label_piece(arrow, down)) for arrow in self.arrows]
        self.columns, self.ways = layout.arrange([shape.piece for shape in self.shapes], lines, column)
        self.bands = bands.fold(self.columns, wide - 2 * MARGIN - GAP) if wide and not down else bands.Bands(len(self.columns))

    def spot(self, along, across):
        return (across, along) if self.down else (along, across)

    # ---- the whole

    def text(self, items):
        ports = self.ports()
        tags = {}
        for arrow, way in zip(self.arrows, self.ways):
            self.arrow(arrow, way, ports, tags)
        for i, shape in enumerate(self.shapes):
            self.shape(i, shape)
        left, top, right, bottom = self.borders()
        right = max(right, left + min(self.wide or 0, 2 * MARGIN + max([width(text, SMALL) for text, _ in self.picture.caption], default=0)))
        room = max(right - left, min(self.wide or 360, 360)) - 2 * MARGIN
        titles = self.lines(self.picture.title, room, LARGE)
        top -= (LARGE + 6) * len(titles)
        for i, line in enumerate(titles):
            self.write(left + MARGIN, top + MARGIN + (LARGE + 6) * i + LARGE - 4, line, LARGE, INK, LEFT + ' font-weight="bold"', len(line))
            right = max(right, left + 2 * MARGIN + width(line, LARGE) * BOLD)
        if items:
            parts, bottom, far = legend.draw(items, left + MARGIN, bottom, room)
            self.parts += parts
            right = max(right, far + MARGIN)
        for text, mark in self.picture.caption:
            for line in self.lines(text, room if self.wide else 10**9, SMALL):
                self.write(left + MARGIN, bottom + LEADING - MARGIN / 2, line, SMALL, looks.line(mark) if mark else INK, LEFT, len(line), mark)
                right = max(right, left + 2 * MARGIN + width(line, SMALL))
                bottom += LEADING
        bottom += MARGIN / 2 if self.picture.caption else 0
        size = f'width="{right - left:.0f}" height="{bottom - top:.0f}"'
        head = f'<svg xmlns="http://www.w3.org/2000/svg" viewBox="{left:.0f} {top:.0f} {right - left:.0f} {bottom - top:.0f}" {size} font-family="sans-serif" text-anchor="middle">'
        return "\n".join([head, f'<rect class="paper" x="{left:.0f}" y="{top:.0f}" {size} fill="#fff"/>', *self.parts, "</svg>"]) + "\n"

    def lines(self, text, room, size):
        """A text in lines no wider than the room."""
        return wrap(text, max(int(room / (size * LETTER)), 20)) if text else []

    def borders(self):
        pieces = [piece for column in self.columns for piece in column]
        along = [side for column in self.columns for side in span(column)] or [0]
        edge = bands.LEAVE if len(self.bands.down) > 1 else 0
        low, high = self.spot(min(along) - GAP, min((piece.y - piece.up for piece in pieces), default=0)), self.spot(max(along) + edge, max((piece.y + piece.down for piece in pieces), default=0))
        return low[0] - MARGIN, low[1] - MARGIN, high[0] + MARGIN, high[1] + MARGIN

    # ---- arrows

    def ports(self):
        """Where each way touches its boxes: on a side its ends stand beside each other, in the order of where they lead."""
        touching = {}
        for way in self.ways:
            touching.setdefault((way.left, 1), []).append((way.pieces[0].y, way))
            touching.setdefault((way.right, -1), []).append((way.pieces[-1].y, way))
        found = {}
        for shape in self.shapes:
            for side in (-1, 1):
                ways = sorted(touching.get((shape.piece, side), []), key=lambda end: end[0])
                for i, (_, way) in enumerate(ways, 1):
                    found[way, side] = shape.port(i / (len(ways) + 1), side)
        return found

    def stretches(self, way, ports):
        """An arrow's points, band by band."""
        start, end = ports[way, 1], ports[way, -1]
        points = [(way.left.column, start), (way.left.column, (span(self.columns[way.left.column])[1], start[1]))]
        for piece in way.pieces:
            points += [(piece.column, (side, piece.y)) for side in span(self.columns[piece.column])]
        points += [(way.right.column, (span(self.columns[way.right.column])[0], end[1])), (way.right.column, end)]
        found, band = [[]], self.bands.of[way.left.column]
        for column, point in points:
            if self.bands.of[column] != band:
                x, y = found[-1][-1]
                found[-1].append((x + bands.STUB, y))
                y += self.bands.down[self.bands.of[column]] - self.bands.down[band]
                found.append([(point[0] - GAP - 2, y), (point[0] - GAP, y)])
                band = self.bands.of[column]
            found[-1].append(point)
        return found

    def arrow(self, arrow, way, ports, tags):
        mark = strongest(label.mark for label in arrow.labels)
        self.begin("arrow", mark, f'data-from="{arrow.source}" data-to="{arrow.target}"')
        stretches = self.stretches(way, ports)
        for i, points in enumerate(stretches):
            last = i == (0 if way.reverse else len(stretches) - 1)
            self.path(points[::-1] if way.reverse else points, (-1 if way.reverse else 1) if last else 0, mark)
        if len(stretches) > 1:
            self.tags(arrow, stretches, tags.setdefault(way, str(len(tags) + 1)))
        for i, label in enumerate(arrow.labels):
            if self.down:
                self.label(way.label.y + 6, way.label.x + 4 + LEADING * (i - (len(arrow.labels) - 1) / 2), label, LEFT)
            else:
                self.label(way.label.x, way.label.y - 4 - LEADING * (len(arrow.labels) - 1 - i), label)
        self.parts.append("</g>")

    def tags(self, arrow, stretches, number):
        """The number of an arrow where it leaves a band, and where it enters the next."""
        names = [self.picture.boxes[box].title for box in (arrow.source, arrow.target)]
        whole = f"<title>{escape(f'{names[0]} to {names[1]}')}</title>"
        off = 3 + width(number, 9) / 2
        spots = [(points[-1][0] + off, points[-1][1]) for points in stretches[:-1]] + [(points[0][0] - off, points[0][1]) for points in stretches[1:]]
        for x, y in spots:
            self.parts.append(f'<text class="cut" x="{x:.1f}" y="{y + 3:.1f}" font-size="9" fill="{INK}">{whole}{number}</text>')

    def path(self, points, way, mark):
        """Straight along the columns, bent between them; `way` is 1 forwards and -1 backwards, as the head points, and 0 without a head."""
        (along, across), colour = points[-1], looks.line(mark)
        points = [*points[:-1], (along - way * (HEAD - 1), across)]
        told = "M{:.1f} {:.1f}".format(*self.spot(*points[0]))
        for (a, b), (c, d) in zip(points, points[1:]):
            middle = (a + c) / 2
            straight = abs(b - d) < 0.05
            told += " L{:.1f} {:.1f}".format(*self.spot(c, d)) if straight else " C{:.1f} {:.1f} {:.1f} {:.1f} {:.1f} {:.1f}".format(*self.spot(middle, b), *self.spot(middle, d), *self.spot(c, d))
        self.line(told, mark)
        if way:
            x, y = self.spot(along, across)
            back = f"l-3.5 {-way * HEAD} h7 z" if self.down else f"l{-way * HEAD} -3.5 v7 z"
            self.parts.append(f'<path class="head" d="M{x:.1f} {y:.1f} {back}" fill="{colour}"/>')

    def begin(self, kind, mark, about):
        """A group, by whose class and numbers a page finds what it lights up."""
        self.parts.append(f'<g class="{f"{kind} {mark}".strip()}" {about}>')

    def line(self, told, mark):
        dashed = ' stroke-dasharray="6 3"' if mark == MORE else ""
        self.parts.append(f'<path class="line" d="{told}" fill="none" stroke="{looks.line(mark)}" stroke-width="{2.4 if mark else 1.2}"{dashed}/>')

    def loop(self, i, shape):
        """The arrow from a box to itself, above it or beside it, and its labels beyond that."""
        mark = strongest(label.mark for label in shape.loops)
        self.begin("arrow", mark, f'data-from="{i}" data-to="{i}"')
        x, y = self.spot(shape.piece.x, shape.piece.y)
        if self.down:
            x += shape.side + shape.frame
            self.line(f"M{x:.1f} {y - 10:.1f} C{x + LOOP:.1f} {y - 18:.1f} {x + LOOP:.1f} {y + 18:.1f} {x + 6:.1f} {y + 11:.1f}", mark)
            self.parts.append(f'<path class="head" d="M{x:.1f} {y + 9:.1f} l8 -1.5 l-2 7 z" fill="{looks.line(mark)}"/>')
        else:
            y -= shape.half + shape.frame
            self.line(f"M{x - 10:.1f} {y:.1f} C{x - 18:.1f} {y - LOOP:.1f} {x + 18:.1f} {y - LOOP:.1f} {x + 11:.1f} {y - 6:.1f}", mark)
            self.parts.append(f'<path class="head" d="M{x + 9:.1f} {y:.1f} l-1.5 -8 l7 2 z" fill="{looks.line(mark)}"/>')
        for at, label in enumerate(reversed(shape.loops)):
            if self.down:
                self.label(x + LOOP, y + 4 - LEADING * (at - (len(shape.loops) - 1) / 2), label, LEFT)
            else:
                self.label(x, y - LOOP + 1 - LEADING * at, label)
        self.parts.append("</g>")

    # ---- boxes

    def shape(self, i, shape):
        if shape.loops:
            self.loop(i, shape)
        box = shape.box
        self.begin(f"box {box.kind}{' waits' if box.waits else ''}{' choice' if box.choice else ''}", box.mark, f'data-box="{i}"')
        x, y = self.spot(shape.piece.x, shape.piece.y)
        dashed = ' stroke-dasharray="6 3"' if box.mark == MORE else ""
        look = f'fill="{looks.fill(box)}" stroke="{looks.border(box)}" stroke-width="{2.2 if box.mark or box.choice else 1.2}"{dashed}'
        if box.kind == "place":
            self.place(shape, x, y, look)
        else:
            self.square(shape, x, y, look)
        if box.kind == "node" and i in self.picture.roots:
            edge = shape.port(0.5, -1)
            self.path([(edge[0] - GAP + 4, edge[1]), edge], 1, "")
        self.parts.append("</g>")

    def place(self, shape, x, y, look):
        self.parts.append(f'<circle cx="{x:.1f}" cy="{y:.1f}" r="{RADIUS}" {look}/>')
        self.parts.append(f'<text class="tokens" x="{x:.1f}" y="{y + 4:.1f}" font-size="{FONT}" fill="{INK}">{shape.box.tokens or ""}</text>')
        if self.down:
            x, y, style = x + RADIUS + 6, y + 4 - LEADING * len(shape.rows) / 2, LEFT
        else:
            y, style = y + RADIUS + LEADING, ""
        self.write(x, y, shape.box.title, FONT, INK, style)
        self.rows(shape, x, y + LEADING, style)

    def square(self, shape, x, y, look):
        for grown in (shape.frame, 0) if shape.frame else (0,):
            wide, half = shape.side + grown, shape.half + grown
            at = f'x="{x - wide:.1f}" y="{y - half:.1f}" width="{2 * wide:.1f}" height="{2 * half:.1f}"'
            self.parts.append(f'<rect {at} rx="{8 if shape.box.kind == "node" else 2}" {look}/>')
        top = y - LEADING * len(shape.rows) / 2 + 4
        self.write(x, top, shape.box.title, FONT, INK, ' font-weight="bold"')
        self.rows(shape, x, top + LEADING)

    # ---- texts

    def rows(self, shape, x, y, style=""):
        for i, row in enumerate(shape.rows):
            texts = [f"<tspan{marked(part)}>{whole(part)}{escape(short(part))}</tspan>" if marked(part) or whole(part) else escape(short(part)) for part in row]
            self.parts.append(f'<text x="{x:.1f}" y="{y + LEADING * i:.1f}" font-size="{SMALL}" fill="{INK}"{style}>{", ".join(texts)}</text>')

    def label(self, x, y, part, style=""):
        colour = looks.line(part.mark) if part.mark else INK
        kind = f'class="{part.mark}" ' if part.mark else ""
        bold = ' font-weight="bold"' if part.mark and part.mark != FAULT else ""
        self.parts.append(f'<text {kind}x="{x:.1f}" y="{y:.1f}" font-size="{SMALL}" fill="{colour}"{style}{bold}>{whole(part)}{escape(short(part))}</text>')

    def write(self, x, y, text, size, colour, style="", most=LONGEST, mark=""):
        """A text; a long name is shortened, and whole where the pointer rests on it."""
        title = f"<title>{escape(text)}</title>" if cut(text, most) != text else ""
        kind = f'class="{mark}" ' if mark else ""
        if text:
            self.parts.append(f'<text {kind}x="{x:.1f}" y="{y:.1f}" font-size="{size}" fill="{colour}"{style}>{title}{escape(cut(text, most))}</text>')


def whole(part):
    """The tooltip of a part that is shortened."""
    return f"<title>{escape(part.text())}</title>" if short(part) != part.text() else ""


def marked(part):
    return f' class="{part.mark}" fill="{looks.line(part.mark)}" font-weight="bold"' if part.mark else ""
