"""What the signs of a picture mean, as far as it has them: a row of samples with words, below the picture."""
from html import escape

from lineup import looks
from lineup.looks import END, FAULT, INK, LESS, MORE, RUN, WAITS
from lineup.shapes import SMALL, cut, width

SAMPLE, HIGH, APART = 30, 22, 22  # how wide a sample is, how far rows are apart, and the room between words and the next sample
MANY = 4  # names of a choice set
WORDS = {FAULT: "what is refused", RUN: "fired", END: "where it ends", LESS: "only here", MORE: "only there"}


def items(picture):
    """(sample, words) of what the picture shows."""
    boxes = picture.boxes
    kinds = {box.kind for box in boxes}
    found = [("place", "place, with what it starts with")] if "place" in kinds else []
    if "transition" in kinds:
        found += [("transition", "transition"), ("source", "source, which takes nothing")]
        found += [("weight", "how many it takes or puts, if not 1")] if any(arrow.labels for arrow in picture.arrows) else []
    for letter in sorted({box.choice for box in boxes if box.choice}):
        names = [cut(box.title) for box in boxes if box.choice == letter]
        more = f" and {len(names) - MANY} more" if len(names) > MANY else ""
        found.append((f"choice {letter}", f"choice {letter}, the plant's: {', '.join(names[:MANY])}{more}"))
    if "node" in kinds:
        found += [("root", "begins here"), ("node", "node, with what the places hold")]
        found += [("waits", "waits for a source")] if any(box.waits for box in boxes) else []
    marks = {box.mark for box in boxes} | {label.mark for arrow in picture.arrows for label in arrow.labels}
    return found + [(mark, picture.words.get(mark, WORDS[mark])) for mark in looks.MARKS if mark in marks]


def draw(found, left, top, room):
    """The samples in rows; answers the SVG, where it ends below, and how far to the right."""
    parts, x, y, far = ['<g class="legend">'], left, top, left
    for sample, words in found:
        wide = SAMPLE + 6 + width(words, SMALL)
        if x > left and x + wide > left + room:
            x, y = left, y + HIGH
        parts += drawn(sample, x, y)
        parts.append(f'<text x="{x + SAMPLE + 6:.1f}" y="{y + 4:.1f}" font-size="{SMALL}" fill="{INK}" text-anchor="start">{escape(words)}</text>')
        far, x = max(far, x + wide), x + wide + APART
    return [*parts, "</g>"], y + HIGH + 8, far


def drawn(sample, x, y):
    """A small one of what is meant, in the middle of its room."""
    middle, line = x + SAMPLE / 2, f'<path class="line" d="M{x:.1f} {y:.1f} h{SAMPLE}" stroke="{{}}" stroke-width="{{}}"{{}}/>'

    def box(fill, stroke, thick, corner, grown=0):
        at = f'x="{x + 2 - grown:.1f}" y="{y - 7 - grown:.1f}" width="{SAMPLE - 4 + 2 * grown}" height="{14 + 2 * grown}" ry="{corner}"'
        return f'<rect class="sample" {at} fill="{fill}" stroke="{stroke}" stroke-width="{thick}"/>'

    if sample == "place":
        return [f'<circle class="sample" cx="{middle:.1f}" cy="{y:.1f}" r="8" fill="{looks.FILL["place"]}" stroke="{looks.BORDER}" stroke-width="1.2"/>']
    if sample in ("transition", "source"):
        return [box(looks.FILL["transition"] if sample == "transition" else WAITS, looks.BORDER, 1.2, 2)]
    if sample.startswith("choice"):
        return [box(looks.FILL["transition"], looks.choice(sample[-1]), 2.2, 2)]
    if sample == "node":
        return [box(looks.FILL["node"], looks.BORDER, 1.2, 5)]
    if sample == "waits":
        return [box(WAITS, looks.BORDER, 1.2, 6, 2), box(WAITS, looks.BORDER, 1.2, 4, -1)]
    if sample == "root":
        return [line.format(looks.LINE, 1.2, ""), f'<path d="M{x + SAMPLE:.1f} {y:.1f} l-8 -3.5 v7 z" fill="{looks.LINE}"/>']
    if sample == "weight":
        return [line.format(looks.LINE, 1.2, ""), f'<text x="{middle:.1f}" y="{y - 3:.1f}" font-size="9" fill="{INK}">2</text>']
    if sample == END:
        return [box(looks.MARKS[END][1], looks.MARKS[END][0], 2.2, 5)]
    return [line.format(looks.line(sample), 2.4, ' stroke-dasharray="6 3"' if sample == MORE else "")]
