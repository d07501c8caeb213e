"""A run, a log or another sheet, marked in the picture of a sheet."""
from lineup.looks import FAULT, LESS, MORE, RUN
from lineup.picture import Arrow, Box, Part, holds, of_sheet



def show_run(picture, net, sheet, firings, end):
    """Marks what firings pass in a sheet's picture, with the turns in which each arrow is fired, and the node where they end."""
    turns, node = {}, 0
    picture.boxes[0].mark = picture.boxes[0].mark or RUN
    for i, t in enumerate(firings, 1):
        turns.setdefault((node, sheet.arcs[node][t]), {}).setdefault(net.transitions[t], []).append(i)
        node = sheet.arcs[node][t]
        picture.boxes[node].mark = picture.boxes[node].mark or RUN
    picture.boxes[node].mark = FAULT if picture.boxes[node].mark == FAULT else end
    for arrow in picture.arrows:
        told = turns.get((arrow.source, arrow.target), {})
        arrow.labels = [label._replace(tail=turned(told[label.name]), mark=label.mark or RUN) if label.name in told else label for label in arrow.labels]


def turned(turns):
    """In which turns, or how often where they are many."""
    return f" [{', '.join(map(str, turns))}]" if len(turns) <= 3 else f" [{len(turns)} times]"


def of_both(net, one, other):
    """Two accepted sheets of one net in one picture: nodes that the same firings reach are one box; an arrow or a node of one sheet alone is marked."""
    picture, pairs = of_sheet(net, one), sorted(paired(one, other))
    shared, alone = {n for n, _ in pairs}, {(n, t) for n, m in pairs for t in one.arcs[n] if t not in other.arcs[m]}
    picture.arrows = []
    for n, arcs in enumerate(one.arcs):
        if n not in shared:
            picture.boxes[n].mark = LESS
        for mark in ("", LESS):
            join(picture, n, {t: m for t, m in arcs.items() if (n not in shared or (n, t) in alone) == bool(mark)}, net, mark)
    box = boxes_of_other(picture, net, other, pairs)
    for n, m in pairs:
        join(picture, n, {t: box[k] for t, k in other.arcs[m].items() if t not in one.arcs[n]}, net, MORE)
    for m in sorted(set(box) - {m for _, m in pairs}):
        join(picture, box[m], {t: box[k] for t, k in other.arcs[m].items()}, net, MORE)
    return picture


def boxes_of_other(picture, net, other, pairs):
    """The box of each node of the other sheet: of those that it goes with the first, or one of its own, which is added."""
    waiting, box = set(other.awaits(net)), {}
    for n, m in pairs:
        box.setdefault(m, n)
    for m, name in enumerate(other.nodes):
        if m not in box:
            box[m] = len(picture.boxes)
            parts = [holds(net, p, count) for p, count in sorted(other.counts[m].items())]
            picture.boxes.append(Box("node", name, parts, m in waiting, MORE))
    return box


def paired(one, other):
    """The pairs of nodes that the same firings reach in two sheets."""
    found, todo = {(0, 0)}, [(0, 0)]
    while todo:
        n, m = todo.pop(0)
        for t in sorted(one.arcs[n].keys() & other.arcs[m].keys()):
            there = one.arcs[n][t], other.arcs[m][t]
            if there not in found:
                found.add(there)
                todo.append(there)
    return found


def join(picture, box, arcs, net, mark):
    """Arrows from a box, those to the same box together, unless they are there already."""
    sign = {LESS: "\u2212 ", MORE: "+ "}.get(mark, "")
    together = {}
    for t, target in sorted(arcs.items()):
        together.setdefault(target, []).append(Part(sign + net.transitions[t], "", mark))
    there = {(arrow.source, arrow.target, label) for arrow in picture.arrows for label in arrow.labels}
    for target, labels in together.items():
        labels = [label for label in labels if (box, target, label) not in there]
        if labels:
            picture.arrows.append(Arrow(box, target, labels))
