"""Where boxes, arrows and labels stand, so that none lies over another: columns of boxes, and between them columns of the arrows' labels.

Every arrow has a place of its own in each column that it passes, a straight piece with its label if that is the column of its label, and bends only
in the gaps between columns, where there is nothing but arrows. So no arrow can run behind a box or a label."""
from collections import deque

GAP, SPACE, LANE = 30, 14, 7  # between columns, between boxes of a column, between arrows that pass a column
SWEEPS, TURNS, LARGE = 24, 120, 3_000  # of the search for few crossings and of the straightening; above so many pieces only a few are made


class Piece:
    """A box, or an arrow's part in a column: how wide it is, how far it goes up and down from its middle line."""

    def __init__(self, width=0, up=LANE / 2, down=LANE / 2, space=0):
        self.width, self.up, self.down, self.space = width, up, down, space
        self.before, self.after = [], []  # the pieces that lines lead to, in the columns on either side
        self.column, self.x, self.y = 0, 0, 0


class Way:
    """An arrow's pieces between its two boxes, from the column on the left to that on the right, and the one that has its label."""

    def __init__(self, left, right, pieces, label, reverse):
        self.left, self.right, self.pieces, self.label, self.reverse = left, right, pieces, label, reverse


def arrange(boxes, arrows, column):
    """Sets x and y of every box, a Piece. An arrow is (from, to, label as a Piece): boxes by their numbers; `column` is that of each box. Answers
    the columns, as lists of pieces from top to bottom, and the arrows' ways."""
    columns = [[] for _ in range(2 * max(column, default=0) + 1)]
    for box, at in zip(boxes, column):
        box.column = 2 * at
        columns[box.column].append(box)
    ways = []
    for a, b, label in arrows:
        reverse = column[a] > column[b]
        ways.append(laid(boxes[b] if reverse else boxes[a], boxes[a] if reverse else boxes[b], label, reverse, columns))
    order(columns)
    place(columns)
    return columns, ways


def place(columns):
    """Sets x and y of every piece, whose order is known."""
    place_down(columns)
    place_along(columns)


def columns_of(count, arrows, roots):
    """The column of each box: one after all boxes that were found before it, breadth first from the roots, and that an arrow joins to it."""
    follow = [[] for _ in range(count)]
    for a, b in arrows:
        follow[a].append(b)
    found, seen = [], set()
    for root in [*roots, *range(count)]:
        queue = deque([root] if root not in seen else [])
        seen.add(root)
        while queue:
            here = queue.popleft()
            found.append(here)
            queue.extend(dict.fromkeys(b for b in follow[here] if b not in seen))
            seen.update(follow[here])
    turn = {box: i for i, box in enumerate(found)}
    column = [0] * count
    joined = sorted({(turn[a], turn[b]) if turn[a] < turn[b] else (turn[b], turn[a]) for a, b in arrows if a != b})
    for early, late in joined:
        column[found[late]] = max(column[found[late]], column[found[early]] + 1)
    return column


def laid(left, right, label, reverse, columns):
    """An arrow's way: a piece for each column between its boxes. The label stands next to the box that the arrow leaves."""
    at = right.column - 1 if reverse else left.column + 1
    pieces = []
    before = left
    for i in range(left.column + 1, right.column):
        piece = label if i == at else Piece()
        piece.column = i
        columns[i].append(piece)
        join(before, piece)
        before = piece
        pieces.append(piece)
    join(before, right)
    return Way(left, right, pieces, label, reverse)


def join(left, right):
    left.after.append(right)
    right.before.append(left)


# ---- the order within the columns


def order(columns):
    """Sorts each column by where the lines of its pieces come from, to and fro, and keeps the order with the fewest crossings."""
    best, fewest = [list(column) for column in columns], None
    for turn in range(SWEEPS if sum(map(len, columns)) <= LARGE else 4):
        forth = turn % 2 == 0
        for i in range(1, len(columns)) if forth else range(len(columns) - 2, -1, -1):
            fixed = {piece: at for at, piece in enumerate(columns[i - 1 if forth else i + 1])}
            own = {piece: at for at, piece in enumerate(columns[i])}
            columns[i].sort(key=lambda piece: mean([fixed[other] for other in (piece.before if forth else piece.after)], own[piece]))
        crossed = crossings(columns)
        if fewest is None or crossed < fewest:
            best, fewest = [list(column) for column in columns], crossed
    columns[:] = best


def mean(values, otherwise):
    return sum(values) / len(values) if values else otherwise


def crossings(columns):
    """How many pairs of lines cross between neighbouring columns."""
    total = 0
    for left, right in zip(columns, columns[1:]):
        at = {piece: i for i, piece in enumerate(right)}
        ends = [end for piece in left for end in sorted(at[other] for other in piece.after)]
        total += inversions(ends)
    return total


def inversions(values):
    """How many pairs stand in falling order, by merging."""
    if len(values) < 2:
        return 0
    half = len(values) // 2
    left, right = values[:half], values[half:]
    total = inversions(left) + inversions(right)
    left.sort()
    right.sort()
    i = 0
    for value in right:
        while i < len(left) and left[i] <= value:
            i += 1
        total += len(left) - i
    return total


# ---- the places


def place_down(columns):
    """Sets y: each piece near the mean of those that it is joined to, in the column's order and with room between."""
    for column in columns:
        settle(column, [0] * len(column), [1] * len(column))
    for turn in range(TURNS if sum(map(len, columns)) <= LARGE else 8):
        for column in columns if turn % 2 == 0 else reversed(columns):
            wish, weight = [], []
            for piece in column:
                joined = piece.before + piece.after
                heavy = [8 if not piece.space and not other.space else 2 for other in joined]  # long arrows want to be straight
                wish.append(sum(h * other.y for h, other in zip(heavy, joined)) / sum(heavy) if joined else piece.y)
                weight.append(sum(heavy) or 1)
            settle(column, wish, weight)


def settle(column, wish, weight):
    """The places nearest to those wished for, by weight, that keep order and room: neighbours that would come too near move as one block."""
    offset, offsets = 0, []
    for i, piece in enumerate(column):
        offset += column[i - 1].down + max(column[i - 1].space, piece.space) + piece.up if i else 0
        offsets.append(offset)
    blocks = []  # (weight, where the block's zero is, how many pieces)
    for w, h, offset in zip(wish, weight, offsets):
        block = (h, w - offset, 1)
        while blocks and blocks[-1][1] >= block[1]:
            other = blocks.pop()
            both = other[0] + block[0]
            block = (both, (other[0] * other[1] + block[0] * block[1]) / both, other[2] + block[2])
        blocks.append(block)
    zeros = [zero for _, zero, size in blocks for _ in range(size)]
    for piece, zero, offset in zip(column, zeros, offsets):
        piece.y = zero + offset


def place_along(columns):
    """Sets x, the middle of each column. Gaps grow with what the lines in them have to climb."""
    x = 0
    for i, column in enumerate(columns):
        width = max((piece.width for piece in column), default=0)
        if i:
            climb = max((abs(piece.y - other.y) for piece in column for other in piece.before), default=0)
            x += GAP + min(climb / 6, 60)
        for piece in column:
            piece.x = x + width / 2
        x += width


def span(column):
    """The left and right border of a column."""
    width = max((piece.width for piece in column), default=0)
    middle = column[0].x if column else 0
    return middle - width / 2, middle + width / 2
