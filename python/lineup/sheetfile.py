"""Sheets as text, nodes with their counts and arrows: reading and writing."""
from lineup import tokens
from lineup.sheet import Sheet
from lineup.tokens import written
from lineup.visible import quoted


def read(path, text, net):
    """The sheet of a text, over a net."""
    reader = Reader(net)
    for line in tokens.lines(path, text):
        reader.line(line)
    return reader.finished()


class Reader:
    def __init__(self, net):
        self.sheet = Sheet()
        self.places = {name: p for p, name in enumerate(net.places)}
        self.transitions = {name: t for t, name in enumerate(net.transitions)}
        self.nodes = {}
        self.arrows = []  # (node, transition, target's name, line, column), since a target may stand further down

    def line(self, line):
        if line.kind() != "name":
            line.fail(f"'NODE: places' or 'transition -> NODE' is expected, not {line.seen()}")
        if line.kind(1) == ":":
            self.node(line)
        elif line.kind(1) == "->":
            self.arrow(line)
        else:
            self.head(line)

    def head(self, line):
        word = line.tokens[0][1]
        if word == "sheet" and line.left() == 2 and line.kind(1) == "name":
            self.sheet.name = line.tokens[1][1]
        elif word in ("net", "pl", "tr"):
            line.fail("this is a line of a net, and a sheet is expected: are the net and the sheet swapped?")
        else:
            line.at = 1
            line.fail(f"':' after a node or '->' after a transition is expected, not {line.seen()}")

    def node(self, line):
        column = line.column()
        name = line.take("name", "a node")
        if name in self.nodes:
            line.fail(f"node {quoted(name)} is there already", column)
        n = self.nodes[name] = self.sheet.add(name)
        self.sheet.where["node", n] = (line.number, column)
        line.at += 1
        found = line.bag(lambda place, at: line.known(place, at, self.places, "place"), list(self.places))
        if line.kind() == "->":
            line.fail("an arrow has a line of its own, below its node")
        for p, (count, column) in found.items():
            self.sheet.counts[n][p] = count
            self.sheet.where["count", n, p] = (line.number, column)

    def arrow(self, line):
        column = line.column()
        name = line.take("name", "a transition")
        t = line.known(name, column, self.transitions, "transition")
        if not self.sheet.nodes:
            line.fail("an arrow before the first node", column)
        n = len(self.sheet.nodes) - 1
        if ("arc", n, t) in self.sheet.where:
            line.fail(f"node {quoted(self.sheet.nodes[n])} has an arrow for {quoted(name)} already", column)
        self.sheet.where["arc", n, t] = (line.number, column)
        line.at += 1
        target = line.column()
        self.arrows.append((n, t, line.take("name", "the node that the arrow leads to"), line, target))
        line.finish("the arrow")

    def finished(self):
        for n, t, name, line, column in self.arrows:
            self.sheet.arcs[n][t] = line.known(name, column, self.nodes, "node")
        return self.sheet


def write(net, sheet, head=()):
    """The sheet as text, with lines of remarks in front."""
    lines = [f"# {line}" for line in head]
    if sheet.name:
        lines.append(f"sheet {written(sheet.name)}")
    names = [written(name) for name in net.transitions]
    wide = max((len(names[t]) for arcs in sheet.arcs for t in arcs), default=0)
    nodes = [written(name) + ":" for name in sheet.nodes]
    deep = max(map(len, nodes), default=0)
    for n, name in enumerate(nodes):
        held = net.held(sheet.counts[n]) if sheet.counts[n] else ""
        lines.append(f"{name:{deep}}  {held}".rstrip())
        lines += [f"  {names[t]:{wide}} -> {written(sheet.nodes[m])}" for t, m in sorted(sheet.arcs[n].items())]
    return "\n".join(lines) + "\n"
