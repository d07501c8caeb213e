"""Logs of firings as text, a firing to a line: reading and writing."""
import re

from lineup import tokens
from lineup.tokens import written
from lineup.visible import quoted

# when a firing was, which a log may have in front of it: a time, with or without a date and a zone
TIME = r"[0-9]{1,2}:[0-9]{2}(?::[0-9]{2}(?:[.,][0-9]+)?)?"
WHEN = re.compile(rf"\s*\[?(?:[0-9]{{4}}-[0-9]{{2}}-[0-9]{{2}}(?:T|[ \t]+))?{TIME}[ \t]*(?:Z|[+-][0-9]{{2}}:?[0-9]{{2}})?\]?(?=[ \t])")


class Log:
    """The firings of a log: their transitions and the nodes that it says they reached. `where` tells the line and column of each."""

    def __init__(self, firings=(), nodes=()):
        self.name = None
        self.firings, self.nodes = list(firings), list(nodes)
        self.where = {}

    def told(self):
        """Whether the text says anything: a log without firings says so by its name, and an empty file is none."""
        return bool(self.firings or self.name is not None)


def read(path, text, net, sheet):
    """The log of a text, over a net and a sheet."""
    log = Log()
    transitions = {name: t for t, name in enumerate(net.transitions)}
    nodes = {name: n for n, name in enumerate(sheet.nodes)}
    for line in tokens.lines(path, text, WHEN):
        if line.kind() == line.kind(1) == "name" and line.tokens[0][1] == "log" and line.left() == 2:
            log.name = line.tokens[1][1]
            continue
        column = line.column()
        name = line.take("name", "'transition -> NODE'")
        if name not in transitions and re.match("[0-9]", name):
            line.fail(f"no transition {quoted(name)}: a time in front of a firing is written 08:15, 08:15:30 or 2026-05-03 08:15, with a blank after it", column)
        log.where["firing", len(log.firings)] = (line.number, column)
        log.firings.append(line.known(name, column, transitions, "transition"))
        line.take("->", "'->' after a transition")
        column = line.column()
        log.nodes.append(line.known(line.take("name", "the node that was reached"), column, nodes, "node"))
        if line.kind() == "name" and line.kind(1) == ":":
            line.fail("a time stands in front of its firing: 08:15 TRANSITION -> NODE")
        line.finish("the firing")
    return log


def write(net, sheet, log):
    """The log as text, which has to say something."""
    name = log.name or (None if log.firings else "empty")
    lines = [f"log {written(name)}"] if name else []
    names = [written(net.transitions[t]) for t in log.firings]
    wide = max(map(len, names), default=0)
    lines += [f"{name:{wide}} -> {written(sheet.nodes[n])}" for name, n in zip(names, log.nodes)]
    return "".join(f"{line}\n" for line in lines)
