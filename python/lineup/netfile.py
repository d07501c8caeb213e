"""Nets as text, in the way of TINA's .net, with a mark of ours for what a place can hold: reading and writing."""
from lineup import tokens
from lineup.net import Net
from lineup.tokens import written
from lineup.visible import quoted

# lines of TINA's that say nothing about the net itself, and those that say what no place/transition net has
REMARKS = {"nt"}
ELSEWHERE = {"pr": "priorities ('pr')", "lb": "labels ('lb')"}


def read(path, text):
    """The net of a text."""
    reader = Reader()
    for line in tokens.lines(path, text):
        reader.line(line)
    return reader.finished()


class Reader:
    def __init__(self):
        self.net = Net()
        self.place_numbers, self.transition_numbers = {}, {}
        self.told = set()  # the places that have a line of their own

    def line(self, line):
        word = line.tokens[0][1] if line.kind() == "name" else ""
        line.at = 1
        if word == "net":
            self.net.name = line.take("name", "the net's name")
            line.finish("the net's name")
        elif word == "pl":
            self.pl(line)
        elif word == "tr":
            self.tr(line)
        elif word not in REMARKS:
            line.at = 0
            self.refuse(line, word)

    def finished(self):
        self.net.implied = [p for p, name in enumerate(self.net.places) if name not in self.told]
        return self.net

    def refuse(self, line, word):
        if word == "sheet" or line.kind(1) in (":", "->"):
            line.fail("this is a line of a sheet, and a net is expected: are the net and the sheet swapped?")
        if word in ELSEWHERE:
            line.fail(f"{ELSEWHERE[word]} are not part of a place/transition net")
        line.fail(f"'net', 'pl' or 'tr' is expected, not {line.seen()}")

    def place(self, name, line, column):
        """The number of a place, which its first mention gives it."""
        if name not in self.place_numbers:
            self.place_numbers[name] = len(self.net.places)
            self.net.places.append(name)
            self.net.where["place", self.place_numbers[name]] = (line.number, column)
        return self.place_numbers[name]

    def pl(self, line):
        column = line.column()
        name = line.take("name", "a place's name")
        if name in self.told:
            line.fail(f"place {quoted(name)} has a line already", column)
        self.told.add(name)
        p = self.place(name, line, column)
        self.net.where["place", p] = (line.number, column)
        if line.kind() == "(":
            line.at += 1
            self.net.where["start", p] = (line.number, line.column())
            count = line.number_word("the number that the place starts with")
            line.take(")", "')'")
            if count:
                self.net.start[p] = count
        if line.kind() == "<=":
            line.at += 1
            self.net.where["capacity", p] = (line.number, line.column())
            self.net.capacity[p] = line.number_word("the most that the place can hold")
        self.no_label(line)
        if line.kind() in ("name", "->"):
            line.fail("arcs stand on the lines of transitions: tr NAME places -> places")
        line.finish(f"place {quoted(name)}")

    def tr(self, line):
        column = line.column()
        name = line.take("name", "a transition's name")
        if name in self.transition_numbers:
            line.fail(f"transition {quoted(name)} has a line already", column)
        t = self.transition_numbers[name] = len(self.net.transitions)
        self.net.transitions.append(name)
        self.net.where["transition", t] = (line.number, column)
        self.no_label(line)
        if line.kind() == "[0,w[":
            line.at += 1  # any time from now on: no clock
        self.net.taken.append(self.bag(line, "taken", t))
        if line.left() or self.net.taken[t]:
            line.take("->", "'->' between what is taken and what is put")
        self.net.put.append(self.bag(line, "put", t))
        line.finish("what is put")

    def no_label(self, line):
        if line.kind() == ":":
            line.fail("labels (':') are not part of a place/transition net")

    def bag(self, line, what, t):
        found = line.bag(lambda name, column: self.place(name, line, column), self.net.places)
        for p, (_, column) in found.items():
            self.net.where[what, t, p] = (line.number, column)
        return {p: many for p, (many, _) in found.items()}


def write(net):
    """The net as text. Every place has a line, so that reading gives each its number again."""
    lines = [f"net {written(net.name)}"] if net.name else []
    for p, name in enumerate(net.places):
        start = f" ({net.start[p]})" if p in net.start else ""
        lines.append(f"pl {written(name)}" + start + (f" <= {net.capacity[p]}" if p in net.capacity else ""))
    names = [written(name) for name in net.transitions]
    takes = ["" if not taken else net.held(taken) for taken in net.taken]
    wide, deep = max(map(len, names), default=0), max(map(len, takes), default=0)
    for name, taken, put in zip(names, takes, net.put):
        lines.append(f"tr {name:{wide}}  {taken:{deep}} -> {net.held(put) if put else ''}".rstrip())
    return "\n".join(lines) + "\n"
