"""Durations of transitions as text, a transition to a line: reading and writing."""
from lineup import tokens
from lineup.tokens import written
from lineup.trouble import Trouble


class Durations:
    """For each transition its earliest and its latest duration, in seconds. `where` tells the line and column of each."""

    def __init__(self, early=(), late=()):
        self.name = None
        self.early, self.late = list(early), list(late)
        self.where = {}


def read(path, text, net):
    """The durations of a text, over a net."""
    transitions = {name: t for t, name in enumerate(net.transitions)}
    durations, found, last = Durations(), {}, None
    for line in tokens.lines(path, text):
        last = line
        if line.left() == 2 and line.kind() == line.kind(1) == "name" and line.tokens[0][1] == "times":
            durations.name = line.tokens[1][1]
            continue
        column = line.column()
        t = line.known(line.take("name", "'transition EARLIEST LATEST'"), column, transitions, "transition")
        if t in found:
            line.fail(f"transition {net.transitions[t]} has durations already, in line {durations.where['duration', t][0]}", column)
        durations.where["duration", t] = (line.number, column)
        found[t] = line.number_word("the earliest duration, in seconds,"), line.number_word("the latest duration, in seconds,")
        line.finish("the durations")
    lacking = [name for name, t in transitions.items() if t not in found]
    if lacking:
        at = (last.number, 1) if last else (1, 1)
        raise Trouble(f"no durations for {', '.join(lacking)}", path, *at)
    durations.early, durations.late = ([found[t][side] for t in range(len(net.transitions))] for side in (0, 1))
    return durations


def write(net, durations):
    """The durations as text."""
    lines = [f"times {written(durations.name)}"] if durations.name else []
    names = [written(name) for name in net.transitions]
    wide, deep = max(map(len, names)), max(len(str(seconds)) for seconds in durations.early)
    lines += [f"{name:{wide}} {early:{deep}} {late}" for name, early, late in zip(names, durations.early, durations.late)]
    return "".join(f"{line}\n" for line in lines)
