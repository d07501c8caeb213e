"""Conditions on what places hold, as `tank1 >= 3 and not (tank2 = 0 or line < tank1)`: reading them, and what is wrong with one."""
import operator
import re

from lineup.tokens import BARE, named
from lineup.trouble import Trouble, suggestion
from lineup.visible import quoted

COMPARISONS = {">=": operator.ge, "<=": operator.le, "=": operator.eq, "<": operator.lt, ">": operator.gt, "≥": operator.ge, "≤": operator.le}
TOKEN = re.compile(rf"""(?P<blank>\s+) | \{{(?P<braced>(?:[^{{}}\\]|\\.)*)\}} | (?P<bare>{BARE}) | (?P<mark>==|!=|=>|=<|<>|&&|\|\||[-+*/%&|!]|>=|<=|[=<>()≥≤])""", re.VERBOSE)
JOINED = ("and", "or", "not")
# what other languages write, by what is written here
ELSEWHERE = {"==": "'='", "!=": "'not A = B'", "<>": "'not A = B'", "=>": "'>='", "=<": "'<='", "&&": "'and'", "&": "'and'", "||": "'or'", "|": "'or'", "!": "'not'"}
DEEPEST = 100  # parentheses and 'not' within one another


def read(text, net):
    """The condition of a text over a net, as a function of counts."""
    reader = Reader(text, net)
    found = reader.either(0)
    if reader.kind():
        reader.fail(f"'and' or 'or' is expected, not {reader.seen()}")
    return found


class Reader:
    """Tokens are (kind, text, column): `name`, `number`, a joining word or a mark."""

    def __init__(self, text, net):
        self.net, self.places = net, {name: p for p, name in enumerate(net.places)}
        self.tokens, self.at, self.end = [], 0, len(text.rstrip()) + 1
        here = 0
        while here < len(text):
            found = TOKEN.match(text, here)
            if not found:
                self.fail(f"{quoted(text[here])} has no meaning in a condition", here + 1)
            if found.lastgroup != "blank":
                self.tokens.append(self.token(found, here + 1))
            here = found.end()

    def token(self, found, column):
        text = found.group()
        if found["braced"] is not None:
            return "name", named(re.sub(r"\\(.)", r"\1", found["braced"]), lambda what: self.fail(what, column)), column
        if found["bare"]:
            word = text.lower()
            return ("number" if re.fullmatch("[0-9]+", text) else word if word in JOINED else "name"), named(text, lambda what: self.fail(what, column)), column
        if text in ELSEWHERE:
            self.fail(f"{quoted(text)} is written {ELSEWHERE[text]} here", column)
        if text in tuple("-+*/%"):
            self.fail(f"{quoted(text)}: a condition compares places and numbers, and does not reckon", column)
        return text, text, column

    def fail(self, message, column=None):
        column = column or (self.tokens[self.at][2] if self.at < len(self.tokens) else self.end)
        raise Trouble(f"the condition, column {column}: {message}", column=column)

    def kind(self):
        return self.tokens[self.at][0] if self.at < len(self.tokens) else ""

    def seen(self):
        return quoted(self.tokens[self.at][1]) if self.kind() else "its end"

    def take(self):
        self.at += 1
        return self.tokens[self.at - 1]

    def either(self, depth):
        """Parts joined by 'or', each of parts joined by 'and'."""
        parts = [self.all(depth)]
        while self.kind() == "or":
            self.take()
            parts.append(self.all(depth))
        return parts[0] if len(parts) == 1 else lambda counts: any(part(counts) for part in parts)

    def all(self, depth):
        parts = [self.one(depth)]
        while self.kind() == "and":
            self.take()
            parts.append(self.one(depth))
        return parts[0] if len(parts) == 1 else lambda counts: all(part(counts) for part in parts)

    def one(self, depth):
        """A comparison, what 'not' turns round, or what parentheses hold."""
        if depth > DEEPEST:
            self.fail(f"more than {DEEPEST} parentheses and 'not' within one another")
        if self.kind() == "not":
            self.take()
            part = self.one(depth + 1)
            return lambda counts: not part(counts)
        if self.kind() == "(":
            column = self.take()[2]
            part = self.either(depth + 1)
            if self.kind() != ")":
                self.fail(f"')' is expected for the '(' at column {column}, not {self.seen()}")
            self.take()
            return part
        return self.comparison()

    def comparison(self):
        left, shown = self.side()
        if self.kind() not in COMPARISONS:
            self.fail(f"'>=', '<=', '=', '<' or '>' is expected after {shown}, not {self.seen()}")
        compare = COMPARISONS[self.take()[1]]
        right, _ = self.side()
        if self.kind() in COMPARISONS:
            self.fail("one comparison at a time: two are joined by 'and'")
        return lambda counts: compare(left(counts), right(counts))

    def side(self):
        """A place or a number, and how it is written."""
        if self.kind() not in ("name", "number"):
            self.fail(f"a place or a number is expected, not {self.seen()}")
        kind, text, column = self.take()
        if kind == "number":
            if len(text) > 20:
                self.fail("a number of more than 20 digits", column)
            number = int(text)
            return lambda counts: number, quoted(text)
        if text not in self.places:
            self.fail(f"no place {quoted(text)}" + ("; it is a transition, and a condition is about places" if text in self.net.transitions else suggestion(text, self.places)), column)
        p = self.places[text]
        return lambda counts: counts.get(p, 0), quoted(text)
