"""A picture that is too wide, folded into bands, one below the other, as lines of text are: each goes on where the one above it ends."""
from lineup import layout
from lineup.layout import GAP

TAG, STUB, NUMBER = 13, 12, 20  # how far apart cut arrows are, how far they go on beyond a band, and the room for their numbers
LEAVE, ENTER, BETWEEN = STUB + NUMBER, NUMBER + GAP, 30  # what that takes at the end of a band and at its beginning; between bands


class Bands:
    """`of` is the band of each column, and `down` how far each band was moved."""

    def __init__(self, count):
        self.of, self.down = [0] * count, [0]


def fold(columns, width):
    """Moves the pieces of the columns, so that they stand in bands no wider than this, if a box with its arrows is not wider by itself. A band begins
    with a column of boxes: so every arrow that is cut has a line of its own in the column before."""
    folded = Bands(len(columns))
    if layout.span(columns[-1])[1] - layout.span(columns[0])[0] <= width:
        return folded
    target, starts = width, [0]
    for _ in range(6):
        starts = breaks(columns, target)
        loosen(columns, starts)
        layout.place(columns)
        over = max(extents(columns, starts)) - width
        if over <= 0:
            break
        target -= max(over, 4)  # what stands at a fold has become wider: fold earlier
    folded.of = [sum(start <= i for start in starts) - 1 for i in range(len(columns))]
    stack(columns, starts, folded)
    return folded


def breaks(columns, width):
    """The columns with which bands begin, each as full as it can be."""
    starts = [0]
    for i in range(2, len(columns), 2):
        last = layout.span(columns[min(i + 1, len(columns) - 1)])[1]
        if last - layout.span(columns[starts[-1]])[0] + LEAVE + ENTER > width:
            starts.append(i)
    return starts


def loosen(columns, starts):
    """Gives the arrows that a fold cuts room for their numbers."""
    for start in starts[1:]:
        for piece in columns[start - 1]:
            piece.up, piece.down = max(piece.up, TAG / 2), max(piece.down, TAG / 2)


def extents(columns, starts):
    """How wide each band is, of those that could be narrower."""
    found = [0]
    for start, end in zip(starts, [*starts[1:], len(columns)]):
        if end - start > 2:
            found.append(layout.span(columns[end - 1])[1] - layout.span(columns[start])[0] + LEAVE + ENTER)
    return found


def stack(columns, starts, folded):
    """Moves each band to the left border, below the one before it."""
    bottom, entering, moves = None, [], []
    for i, (start, end) in enumerate(zip(starts, [*starts[1:], len(columns)])):
        pieces = [piece for column in columns[start:end] for piece in column]
        entering = [piece.y for piece in columns[start - 1]] if i else []
        top = min([piece.y - piece.up for piece in pieces] + [y - TAG / 2 for y in entering])
        down = 0 if bottom is None else bottom + BETWEEN - top
        moves.append((pieces, layout.span(columns[start])[0] - (ENTER if i else 0), down))
        bottom = down + max([piece.y + piece.down for piece in pieces] + [y + TAG / 2 for y in entering])
    for pieces, left, down in moves:
        for piece in pieces:
            piece.x, piece.y = piece.x - left, piece.y + down
    folded.down = [down for *_, down in moves]
