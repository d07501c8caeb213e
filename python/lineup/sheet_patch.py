"""The text of a sheet with only what changes changed: remarks, order and layout of all else stay as they are."""
import re
import unicodedata
from collections import Counter

from lineup import outputs, tokens
from lineup.tokens import written

HEAD = re.compile(r"(?:# [^\n]*\n)*?# core: answer \d[^\n]*\n(?!# core: answer)")  # what lineup itself has written in front


class Patch:
    """A sheet's text, line by line. Lines are known by their numbers, from 1, and columns as the reader counts them."""

    def __init__(self, source, net):
        self.net, self.sheet, self.path = net, source.model, source.path
        text = outputs.MARK.sub(b"", source.data).decode("utf-8")
        self.mark, text = ("\ufeff", text[1:]) if text.startswith("\ufeff") else ("", text)
        head = HEAD.match(text)
        self.skipped = head.group().count("\n") if head else 0
        self.lines = dict(enumerate(text.split("\n"), 1))
        self.dropped = set(range(1, self.skipped + 1))
        self.given = self.text()

    def text(self):
        """The text as it is now. Where something is gone, no second empty line stays."""
        kept, gone = [], False
        for number, line in self.lines.items():
            if number in self.dropped:
                gone = number > self.skipped
            elif not (gone and not line.strip() and kept and not kept[-1].strip() and number < len(self.lines)):
                kept.append(line)
                gone = False
        return self.mark + "\n".join(kept)

    # ---- counts

    def hold(self, counts):
        """Gives each node its counts."""
        for n, (given, new) in enumerate(zip(self.sheet.counts, counts)):
            if given != new:
                number = self.sheet.where["node", n][0]
                self.lines[number] = self.node_line(number, n, new)

    def node_line(self, number, n, new):
        """A node's line with other counts. What stays keeps its place, and a remark its column, if there is room."""
        line, parts = self.parts(number)
        entries, at = self.entries(line, parts)
        first = entries[0][0] if entries else " " * max(1, self.column() - at)
        kept = [(gap if i else " ", p, text if new[p] == self.sheet.counts[n][p] else self.count(p, new[p])) for i, (gap, p, text) in enumerate(entries) if p in new]
        for p in sorted(set(new) - {p for _, p, _ in kept}):
            kept.insert(next((i for i, (_, q, _) in enumerate(kept) if q > p), len(kept)), (" ", p, self.count(p, new[p])))
        told = line[: parts[1][3]] + "".join((gap if i else first) + text for i, (gap, _, text) in enumerate(kept))
        return told + self.rest(line, at, len(told))

    def entries(self, line, parts):
        """The counts of a node's line: the blanks before each, its place, its text; and where the last one ends."""
        found, at, i = [], parts[1][3], 2
        while i < len(parts):
            last = i + 2 if i + 1 < len(parts) and parts[i + 1][0] == "*" else i
            start, end = parts[i][2], parts[last][3]
            found.append((line[at:start], self.net.places.index(parts[i][1]), line[start:end]))
            at, i = end, last + 1
        return found, at

    def count(self, p, many):
        return written(self.net.places[p]) + (f"*{many}" if many != 1 else "")

    def rest(self, line, at, now):
        """What follows the counts: a remark stays where it was, or moves on with a blank before it."""
        blanks = re.match(r"[ \t]*", line[at:]).group()
        if "\t" in blanks or not line[at:].startswith(blanks + "#"):
            return line[at:]
        return " " * max(at + len(blanks) - now, min(1, len(blanks))) + line[at + len(blanks) :]

    def column(self):
        """How far the counts of most nodes are set in; where there are none, past the longest name."""
        found = Counter(min(self.sheet.where["count", n, p][1] for p in counts) - 1 for n, counts in enumerate(self.sheet.counts) if counts)
        return found.most_common(1)[0][0] if found else max(len(written(name)) for name in self.sheet.nodes) + 3

    # ---- nodes and arrows

    def drop(self, nodes):
        """Takes nodes away, with their arrows, the remarks among these, and those that stand right above the node."""
        for n in nodes:
            first = self.sheet.where["node", n][0]
            last = max([first, *(self.sheet.where["arc", n, t][0] for t in self.sheet.arcs[n])])
            self.dropped |= {number for number in range(first, last + 1) if number == first or self.is_of(number, n)}
            above = first - 1
            while above > self.skipped and self.lines[above].lstrip().startswith("#"):
                self.dropped.add(above)
                above -= 1

    def is_of(self, number, n):
        """Whether a line is an arrow of a node, or says nothing."""
        return not self.parts(number)[1] or number in {self.sheet.where["arc", n, t][0] for t in self.sheet.arcs[n]}

    def lead(self, n, t, m):
        """Leads an arrow to another node."""
        number = self.sheet.where["arc", n, t][0]
        line, parts = self.parts(number)
        _, _, start, end = parts[2]
        new = line[:start] + written(self.sheet.nodes[m])
        self.lines[number] = new + self.rest(line, end, len(new))

    def parts(self, number):
        """A line as it is now, and its tokens: kind, text, where it begins and ends."""
        line = unicodedata.normalize("NFC", self.lines[number])
        found = tokens.Cursor(self.path, number, line).tokens
        return line, [(kind, text, column - 1, tokens.TOKEN.match(line, column - 1).end()) for kind, text, column in found]
