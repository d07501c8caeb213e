"""What a picture of a net or a schedule shows: boxes, arrows, and what is marked. Where they stand is the layout's."""
from collections import namedtuple

from lineup.looks import FAULT, RUN

LARGE = 1000  # a number that a circle has no room for


class Part(namedtuple("Part", "name tail mark", defaults=("", ""))):
    """A text of a box or at an arrow: a name, which may be shortened, and its count or what else belongs to it, which may not."""

    def text(self):
        return self.name + self.tail


class Box:
    """`kind` is place, transition or node; `mark` tells why it stands out, and `choice` is the letter of a transition's choice set, if it has others."""

    def __init__(self, kind, title, parts=(), waits=False, mark="", tokens=0, choice=""):
        self.kind, self.title, self.parts = kind, title, list(parts)
        self.waits, self.mark, self.tokens, self.choice = waits, mark, tokens, choice


class Arrow:
    """From one box to another, by their numbers. The labels are parts."""

    def __init__(self, source, target, labels=()):
        self.source, self.target, self.labels = source, target, list(labels)


class Picture:
    """`caption` has lines below the picture, (text, mark); `words` are what the legend says of marks, by mark."""

    def __init__(self, roots, title=""):
        self.roots, self.title, self.boxes, self.arrows, self.caption, self.words = roots, title, [], [], [], {}


def of_net(net, bounds=None, marks=None, fired=None):
    """Places and transitions; below a place its capacity, and what it holds at most, where bounds are given. `fired` is how often each transition fires."""
    at_fault, fired = set((marks or {}).get("places", [])), fired or {}
    picture = Picture([len(net.places) + t for t in net.sources()])
    for p, name in enumerate(net.places):
        tokens = net.start.get(p, 0)
        parts = [Part("", f"starts with {tokens}")] if tokens >= LARGE else []
        parts += [Part("", f"can hold {net.capacity[p]}")] if p in net.capacity else []
        parts += [Part("", f"at most {bounds[p]}")] if bounds else []
        picture.boxes.append(Box("place", name, parts, mark=FAULT if p in at_fault else "", tokens=tokens if tokens < LARGE else 0))
    letters = choice_sets(net)
    for t, name in enumerate(net.transitions):
        parts = [Part("", f"choice {letters[t]}")] if t in letters else []
        parts += [Part("", f"fires {fired[t]} time{'' if fired[t] == 1 else 's'}")] if t in fired else []
        picture.boxes.append(Box("transition", name, parts, waits=not net.taken[t], mark=RUN if t in fired else "", choice=letters.get(t, "")))
        here = len(net.places) + t
        picture.arrows += [Arrow(p, here, weight(many)) for p, many in sorted(net.taken[t].items())]
        picture.arrows += [Arrow(here, p, weight(many)) for p, many in sorted(net.put[t].items())]
    return picture


def weight(many):
    return [Part("", str(many))] if many != 1 else []


def choice_sets(net):
    """For each transition that shares its choice set with others the set's letter."""
    found = {}
    for t in range(len(net.transitions)):
        whole = net.choice_set(t) if t not in net.removed else [t]
        if len(whole) > 1 and t == whole[0]:
            letter = chr(ord("A") + len(set(found.values())))
            found.update({u: letter for u in whole})
    return found


def of_sheet(net, sheet, marks=None):
    """Nodes with what their places hold; arcs between the same two nodes share an arrow."""
    marks = marks or {}
    nodes, arcs, places = (set(marks.get(kind, [])) for kind in ("nodes", "arcs", "places"))
    picture = Picture([0])
    waiting = set(sheet.awaits(net))
    for n, name in enumerate(sheet.nodes):
        held = {p: count for p, count in sheet.counts[n].items() if count or p in places}
        parts = [holds(net, p, count, FAULT if n in nodes and p in places else "") for p, count in sorted(held.items())]
        if n in nodes:
            parts += [holds(net, p, 0, FAULT) for p in sorted(places) if p not in held]
        picture.boxes.append(Box("node", name, parts, n in waiting, FAULT if n in nodes else ""))
        together = {}
        for t, m in sorted(sheet.arcs[n].items()):
            together.setdefault(m, []).append(Part(net.transitions[t], "", FAULT if (n, t) in arcs else ""))
        picture.arrows += [Arrow(n, m, labels) for m, labels in together.items()]
    return picture


def holds(net, p, count, mark=""):
    return Part(net.places[p], f" x {count}" if count != 1 else "", mark)
