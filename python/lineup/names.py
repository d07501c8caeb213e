"""Names for the numbers of places, transitions and nodes, as the file `names.txt` beside word files has them."""
import re

from lineup import files
from lineup.tokens import named
from lineup.trouble import Trouble
from lineup.visible import quoted

KINDS = ("place", "transition", "node")


class Names:
    """Names by kind and number."""

    def __init__(self):
        self.found = {kind: {} for kind in KINDS}
        self.path, self.lines = None, {}

    def read(self, path):
        """Takes in a file of lines `place NUMBER NAME`, `transition NUMBER NAME` and `node NUMBER NAME`; a line with # in front is a remark."""
        self.path = path
        for at, line in enumerate(files.text(path, files.read(path)).split("\n"), 1):
            if line.strip() and not line.lstrip().startswith("#"):
                self.line(at, line)
        return self

    def line(self, at, line):
        def fail(message):
            raise Trouble(message, self.path, at, 1)

        found = re.fullmatch(r"\s*(\S+)\s+([0-9]{1,9})\s+(.*)", line)
        if not found or found[1] not in KINDS:
            fail("'place NUMBER NAME', 'transition NUMBER NAME' or 'node NUMBER NAME' is expected")
        kind, number, name = found[1], int(found[2]), named(found[3], fail)
        if number in self.found[kind]:
            fail(f"{kind} {number} has a name already")
        if name in self.found[kind].values():
            fail(f"{kind} {quoted(name)} is there already, and names have to tell {kind}s apart")
        self.found[kind][number] = name
        self.lines[kind, number] = at

    def of(self, kind, count):
        """The names of all numbers below a count; one without a name gets its kind's letter and its number."""
        for number in self.found[kind]:
            if number >= count:
                message = f"{kind} {number} has a name, and there are {count}, 0 to {count - 1}"
                raise Trouble(message, self.path, self.lines[kind, number], 1)
        taken = set(self.found[kind].values())
        return [self.found[kind].get(i) or spare(f"{kind[0]}{i}", taken) for i in range(count)]

    def one(self, kind, number):
        """The name of one, where words may speak of more than there are."""
        return self.found[kind].get(number) or f"{kind[0]}{number}"


def spare(name, taken):
    while name in taken:
        name += "'"
    return name


def text(net, sheet=None):
    """The names of a net and a sheet as a file of them."""
    lists = [("place", net.places), ("transition", net.transitions), ("node", sheet.nodes if sheet else [])]
    return "".join(f"{kind} {i} {name}\n" for kind, names in lists for i, name in enumerate(names))
