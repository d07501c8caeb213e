"""Every difference of two sheets of one net: nodes matched by what they allow, and then the arrows, counts and nodes that only one of them has."""
from collections import deque, namedtuple

from lineup.trouble import place
from lineup.visible import inline

# nodes of the first and of the second sheet that belong together, and how: by the same `firings` from the first node, or, where these are None, by what they hold and offer
Match = namedtuple("Match", "one other firings")


class Differences:
    """Of two sheets, which need not be accepted. Sides are 0 and 1; an arrow is (side, match, transition), a count (match, place)."""

    def __init__(self, net, one, other):
        self.net, self.sheets = net, (one, other)
        self.matches = matches(one, other)
        self.pairs, self.beside = {match[:2] for match in self.matches}, ({}, {})
        for match in self.matches:
            for side in (0, 1):
                self.beside[side].setdefault(match[side], set()).add(match[1 - side])
        self.arrows = [(side, match, t) for match in self.matches for side in (0, 1) for t in self.only(side, match)]
        self.targets = [(match, t) for match in self.matches for t in self.elsewhere(match)]
        self.counts = [(match, p) for match in self.matches for p in range(len(net.places)) if len(set(self.held(match, p))) > 1]
        self.alone = [(side, n) for side in (0, 1) for n in range(len(self.sheets[side].nodes)) if not self.partners(side, n)]

    def only(self, side, match):
        """The transitions that only the node of one side offers."""
        mine, others = self.sheets[side].arcs[match[side]], self.sheets[1 - side].arcs[match[1 - side]]
        return [t for t in sorted(mine) if t not in others]

    def elsewhere(self, match):
        """The transitions that lead to nodes which do not belong together."""
        ends = [sheet.arcs[n] for sheet, n in zip(self.sheets, match)]
        return [t for t in sorted(ends[0]) if t in ends[1] and (ends[0][t], ends[1][t]) not in self.pairs]

    def held(self, match, p):
        return [sheet.counts[n].get(p, 0) for sheet, n in zip(self.sheets, match)]

    def partners(self, side, n):
        """The nodes of the other side that belong to one."""
        return sorted(self.beside[side].get(n, ()))

    def renamed(self):
        """The nodes of the first sheet that are called otherwise in the second, or are several there, each with those."""
        found = [(n, self.partners(0, n)) for n in range(len(self.sheets[0].nodes))]
        one, other = self.sheets
        return [(n, partners) for n, partners in found if partners and [other.nodes[m] for m in partners] != [one.nodes[n]]]

    def any(self):
        return bool(self.arrows or self.targets or self.counts or self.alone)


def matches(one, other):
    """First what the same firings lead to; then, of the nodes that are left, what holds and offers the same, and what allows the same and holds something else."""
    found = followed(one, other)
    for alike in (lambda n, m: one.counts[n] == other.counts[m] and one.arcs[n].keys() == other.arcs[m].keys(), same_firings(one, other)):
        taken = [{match[side] for match in found} for side in (0, 1)]
        left = [[n for n in range(len(sheet.nodes)) if n not in taken[side]] for side, sheet in enumerate((one, other))]
        for n in left[0]:
            m = next((m for m in left[1] if alike(n, m)), None)
            if m is not None:
                left[1].remove(m)
                found.append(Match(n, m, None))
    return found


def followed(one, other):
    """The pairs of nodes that a list of firings leads to, each with a shortest."""
    firings = {(0, 0): []}
    queue = deque(firings)
    while queue:
        n, m = here = queue.popleft()
        for t in sorted(one.arcs[n].keys() & other.arcs[m].keys()):
            there = one.arcs[n][t], other.arcs[m][t]
            if there not in firings:
                firings[there] = [*firings[here], t]
                queue.append(there)
    return [Match(*nodes, fired) for nodes, fired in firings.items()]


def same_firings(one, other):
    """Tells of a node of each whether they allow the same firings, by rounds of refinement over the nodes of both."""
    shift = len(one.nodes)
    arcs = one.arcs + [{t: m + shift for t, m in row.items()} for row in other.arcs]
    classes, many = [0] * len(arcs), 0
    while len(set(classes)) > many:
        many = len(set(classes))
        keys = [(classes[n], *sorted((t, classes[m]) for t, m in row.items())) for n, row in enumerate(arcs)]
        number = {key: i for i, key in enumerate(dict.fromkeys(keys))}
        classes = [number[key] for key in keys]
    return lambda n, m: classes[n] == classes[shift + m]


# ---- told


def told(found, sources):
    """Lines for people."""
    net, files = found.net, [inline(source.path) for source in sources]
    at = lambda side, *what: place(sources[side].path, *(sources[side].locate(*what) or ()))
    node = lambda side, n: found.sheets[side].nodes[n]
    lines = []
    for side, match, t in found.arrows:
        n, m = match[side], found.sheets[side].arcs[match[side]][t]
        lines.append(f"{at(side, ('arc', n, t), ('node', n))}node {node(side, n)}, {net.transitions[t]} -> {node(side, m)}: not at node {node(1 - side, match[1 - side])} of {files[1 - side]}")
    for match, t in found.targets:
        ends = [node(side, found.sheets[side].arcs[match[side]][t]) for side in (0, 1)]
        lines.append(f"{at(0, ('arc', match.one, t), ('node', match.one))}node {node(0, match.one)}, {net.transitions[t]} -> {ends[0]}: from node {node(1, match.other)} of {files[1]} it leads to {ends[1]}")
    for match, p in found.counts:
        holds = found.held(match, p)
        lines.append(f"{at(0, ('count', match.one, p), ('node', match.one))}node {node(0, match.one)} holds {net.places[p]} {holds[0]}, and node {node(1, match.other)} of {files[1]} holds {holds[1]}")
    for side, n in found.alone:
        arrows = ", ".join(f"{net.transitions[t]} -> {node(side, m)}" for t, m in sorted(found.sheets[side].arcs[n].items()))
        lines.append(f"{at(side, ('node', n))}node {node(side, n)} is like none of {files[1 - side]}: it holds {net.held(found.sheets[side].counts[n])}; {arrows or 'no arrow'}")
    lines += [f"node {node(0, n)} is {' and '.join(node(1, m) for m in partners)} in {files[1]}" for n, partners in found.renamed()]
    return lines or ["none: nodes, names, arrows and counts are the same"]


def data(found, sources):
    """The same for programs."""
    net, (one, other) = found.net, found.sheets
    names = lambda match: {"nodes": [one.nodes[match.one], other.nodes[match.other]]}
    where = lambda side, *what: dict(zip(("line", "column"), sources[side].locate(*what) or (None, None)))
    return {
        "matched": [{**names(match), "firings": None if match.firings is None else [net.transitions[t] for t in match.firings]} for match in found.matches],
        "arrows": [
            {"sheet": sources[side].path, **names(match), "transition": net.transitions[t], "target": found.sheets[side].nodes[found.sheets[side].arcs[match[side]][t]], **where(side, ("arc", match[side], t))}
            for side, match, t in found.arrows
        ],
        "targets": [
            {**names(match), "transition": net.transitions[t], "targets": [sheet.nodes[sheet.arcs[n][t]] for sheet, n in zip(found.sheets, match)]} for match, t in found.targets
        ],
        "counts": [{**names(match), "place": net.places[p], "counts": found.held(match, p)} for match, p in found.counts],
        "nodes": [
            {
                "sheet": sources[side].path,
                "node": found.sheets[side].nodes[n],
                "holds": {net.places[p]: count for p, count in sorted(found.sheets[side].counts[n].items())},
                "arrows": {net.transitions[t]: found.sheets[side].nodes[m] for t, m in sorted(found.sheets[side].arcs[n].items())},
                **where(side, ("node", n)),
            }
            for side, n in found.alone
        ],
    }
