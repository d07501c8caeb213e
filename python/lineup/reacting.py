"""How soon and how late a node that waits is reached, found by following the arrows, with runs that take so long; and loops that never wait."""
from collections import deque, namedtuple

from lineup.faults import Fault

LONGEST = 1_000_000  # seconds, of a duration

# the time, the transitions that are fired, and the node where the run ends
Run = namedtuple("Run", "seconds fires node")


def duration_shape(words, transitions):
    """32 of T and the length."""
    return None if words and words[0] == transitions and len(words) == 1 + 2 * transitions else Fault(32)


def duration_fault(words, transitions):
    """32: T and the length, then transition by transition."""
    if duration_shape(words, transitions):
        return duration_shape(words, transitions)
    for t, (early, late) in enumerate(zip(words[1 : 1 + transitions], words[1 + transitions :])):
        if early > late or late > LONGEST:
            return Fault(32, "entry", t)
    return None


def loop_fault(net, sheet):
    """33, over an accepted sheet."""
    waits = set(sheet.awaits(net))
    return next((Fault(33, "node", n) for n in range(len(sheet.nodes)) if loop(sheet, waits, n)), None)


def loop(sheet, waits, n):
    """A shortest list of firings from a node back to it past no node that waits, as [(node, transition)]; nothing where there is none."""
    if n in waits:
        return None
    ways, todo = {}, deque([n])
    while todo:
        m = todo.popleft()
        for t, target in sorted(sheet.arcs[m].items()):
            if target in waits or target in ways:
                continue
            ways[target] = ways.get(m, []) + [(m, t)] if m != n else [(n, t)]
            if target == n:
                return ways[n]
            todo.append(target)
    return None


class Reactions:
    """Of an accepted sheet without such loops, with durations: `best` and `worst` answer a run for a node that waits and a source there."""

    def __init__(self, net, sheet, durations):
        self.sheet, self.waits = sheet, set(sheet.awaits(net))
        self.durations = {min: durations.early, max: durations.late}
        self.known = {min: {}, max: {}}

    def best(self, n, t):
        return self.along(min, n, t)

    def worst(self, n, t):
        return self.along(max, n, t)

    def along(self, pick, n, t):
        """The run that an arrow begins."""
        ahead = self.ahead(pick, self.sheet.arcs[n][t])
        return Run(self.durations[pick][t] + ahead.seconds, [t, *ahead.fires], ahead.node)

    def ahead(self, pick, n):
        """The run from a node on, of the arrows that are equal the one by the lowest transition."""
        if n in self.waits:
            return Run(0, [], n)
        if n not in self.known[pick]:
            self.known[pick][n] = pick((self.along(pick, n, t) for t in sorted(self.sheet.arcs[n])), key=lambda run: run.seconds)
        return self.known[pick][n]

    def all(self):
        """(node, source, best, worst) in the order of the core's report."""
        return [(n, t, self.best(n, t), self.worst(n, t)) for n in sorted(self.waits) for t in sorted(self.sheet.arcs[n])]
