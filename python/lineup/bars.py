"""A bar chart of times as SVG: for each row a bar up to the best time, and on to the worst."""
from html import escape

from lineup.looks import BORDER, INK, LINE
from lineup.shapes import FONT, LEADING, SMALL, cut, width
from lineup.svg import MARGIN

BAR, ROW, LONG = 14, 26, 420  # how thick a bar is, how far rows are apart, how long the longest bar is
SURE, PERHAPS = "#2b4a6f", "#c6d8ee"


def write(rows, title, caption):
    """Rows are (label, best, worst), in seconds."""
    most = max([worst for _, _, worst in rows] + [1])
    left = MARGIN + max([width(cut(label)) for label, _, _ in rows] + [0]) + 10
    told = [f"{best:,} to {worst:,} s" if best != worst else f"{worst:,} s" for _, best, worst in rows]
    wide = max([left + LONG + 10 + max([width(text, SMALL) for text in told] + [0])] + [MARGIN + width(line, SMALL) for line in [title, *caption]]) + MARGIN
    parts, top = [text(MARGIN, MARGIN + FONT, title, FONT, ' font-weight="bold"')], MARGIN + FONT + 2 * LEADING
    for seconds in scale(most):
        x = left + LONG * seconds / most
        parts.append(f'<path d="M{x:.1f} {top - 6:.1f} V{top + ROW * len(rows):.1f}" stroke="{LINE}" stroke-width="0.5" stroke-dasharray="2 3"/>')
        parts.append(text(x, top - 10, f"{seconds:,}", SMALL, ' text-anchor="middle"'))
    for i, ((label, best, worst), times) in enumerate(zip(rows, told)):
        y = top + ROW * i + (ROW - BAR) / 2
        name = f"<title>{escape(label)}</title>" if cut(label) != label else ""
        parts.append(f'<text x="{left - 10:.1f}" y="{y + BAR - 3:.1f}" font-size="{FONT}" fill="{INK}" text-anchor="end">{name}{escape(cut(label))}</text>')
        for seconds, colour in ((worst, PERHAPS), (best, SURE)):
            parts.append(f'<rect x="{left:.1f}" y="{y:.1f}" width="{LONG * seconds / most:.1f}" height="{BAR}" fill="{colour}"/>')
        parts.append(f'<path d="M{left:.1f} {y - 3:.1f} V{y + BAR + 3:.1f}" stroke="{BORDER}" stroke-width="1.2"/>')
        parts.append(text(left + LONG * worst / most + 8, y + BAR - 3, times, SMALL))
    bottom = top + ROW * len(rows) + LEADING
    for i, line in enumerate(caption):
        parts.append(text(MARGIN, bottom + LEADING * (i + 1), line, SMALL))
    high = bottom + LEADING * len(caption) + MARGIN
    head = f'<svg xmlns="http://www.w3.org/2000/svg" viewBox="0 0 {wide:.0f} {high:.0f}" width="{wide:.0f}" height="{high:.0f}" font-family="sans-serif">'
    return "\n".join([head, f'<rect width="{wide:.0f}" height="{high:.0f}" fill="#fff"/>', *parts, "</svg>"]) + "\n"


def text(x, y, told, size, style=""):
    return f'<text x="{x:.1f}" y="{y:.1f}" font-size="{size}" fill="{INK}"{style}>{escape(told)}</text>'


def scale(most):
    """Four to eight round numbers from 0 on, none above the greatest time."""
    step = next(unit * 10**zeros for zeros in range(10) for unit in (1, 2, 5) if most <= 8 * unit * 10**zeros)
    return range(0, most + 1, step)
