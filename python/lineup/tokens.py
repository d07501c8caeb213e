"""A line of a net or a sheet as names, numbers and marks, each with its column, and a cursor over them."""
import re
import unicodedata

from lineup.trouble import Trouble, suggestion
from lineup.visible import HIDDEN, escape, quoted

LARGEST_WORD = 4_294_967_295
BARE = r"[\w'](?:[\w'.]|-(?!>))*"
TOKEN = re.compile(
    rf"""(?P<blank>[ \t\r]+|\#.*) | (?P<arrow>->|→) | \{{(?P<braced>(?:[^{{}}\\]|\\.)*)\}} | (?P<bare>{BARE}) | (?P<mark>[*:()]|<=|\[0,w\[)""",
    re.VERBOSE,
)
# what nets and logs of other tools have here, by what it begins with
ELSEWHERE = {
    "?": "test and inhibitor arcs ('?') are not part of a place/transition net",
    "!": "stopwatch arcs ('!') are not part of a place/transition net",
    "[": "intervals are not part of a place/transition net: this net has no clocks",
    "]": "intervals are not part of a place/transition net: this net has no clocks",
    "{": "a '{' without its '}'",
    "}": "a '}' without its '{'",
    **dict.fromkeys(("=>", "--", "⇒", "⟶"), "an arrow is written '->' or '→'"),
}


def named(name, fail):
    """A name as it is kept: composed, without blanks around it, nothing hidden in it. `fail` tells what is wrong."""
    name = unicodedata.normalize("NFC", name.strip())
    if not name:
        fail("a name is empty")
    hidden = HIDDEN.search(name)
    if hidden or "\n" in name:
        fail(f"a name holds {escape(hidden.group() if hidden else chr(10))}, a character that cannot be seen")
    return name


def written(name):
    """A name as a net or a sheet has it: in braces where it is not plain."""
    if re.fullmatch(BARE, name):
        return name
    return "{" + re.sub(r"([{}\\])", r"\\\1", name) + "}"


class Cursor:
    """The tokens of a line, (kind, text, column), taken one after the other."""

    def __init__(self, path, number, text):
        self.path, self.number, self.at = path, number, 0
        self.end = 1  # the column after the last token
        self.tokens = list(self.split(text))

    def split(self, text):
        here = 0
        while here < len(text):
            found = TOKEN.match(text, here)
            if not found:
                self.fail(ELSEWHERE.get(text[here : here + 2]) or ELSEWHERE.get(text[here], f"{quoted(text[here])} has no meaning here"), here + 1)
            kind, column, here = found.lastgroup, here + 1, found.end()
            if kind == "blank":
                continue
            self.end = here + 1
            if kind in ("braced", "bare"):
                name = re.sub(r"\\(.)", r"\1", found[kind]) if kind == "braced" else found[kind]
                yield "name", named(name, lambda what, column=column: self.fail(what, column)), column
            else:
                yield "->" if kind == "arrow" else found.group(), found.group(), column

    def fail(self, message, column=None):
        """Tells what is wrong at a column, or else at the next token."""
        raise Trouble(message, self.path, self.number, column or self.column())

    def column(self):
        return self.tokens[self.at][2] if self.at < len(self.tokens) else self.end

    def left(self):
        return len(self.tokens) - self.at

    def kind(self, ahead=0):
        """The kind of a token: `name`, one of the marks, or nothing at the end."""
        return self.tokens[self.at + ahead][0] if ahead < self.left() else ""

    def seen(self):
        """The next token for a message."""
        return quoted(self.tokens[self.at][1]) if self.left() else "the end of the line"

    def take(self, kind, expected):
        if self.kind() != kind:
            self.fail(f"{expected} is expected, not {self.seen()}")
        self.at += 1
        return self.tokens[self.at - 1][1]

    def number_word(self, expected):
        """A number that fits a word."""
        column = self.column()
        digits = self.take("name", expected)
        if not re.fullmatch("[0-9]+", digits):
            self.fail(f"{expected} is expected, not {quoted(digits)}", column)
        if len(digits.lstrip("0")) > 10 or int(digits) > LARGEST_WORD:
            self.fail(f"{quoted(digits)} is above 4,294,967,295, the greatest word", column)
        return int(digits)

    def finish(self, what):
        """Nothing may follow."""
        if self.left():
            self.fail(f"{self.seen()} after {what}")

    def bag(self, index, names):
        """Places and how many of each, up to an arrow or the end, as {number: (how many, column)}. `index` finds a place by its name and
        column, and `names` are those that are known."""
        found = {}
        while self.kind() not in ("", "->"):
            column = self.column()
            name = self.take("name", "a place")
            many = 1
            if self.kind() == "*":
                self.at += 1
                many = self.number_word("a number after '*'")
            number = index(name, column)
            if number in found:
                self.fail(f"place {quoted(names[number])} stands here twice: write {written(names[number])}*NUMBER", column)
            found[number] = (many, column)
        return found

    def known(self, name, column, names, what):
        """The number of a name that has to be there."""
        if name not in names:
            self.fail(f"no {what} {quoted(name)}" + suggestion(name, names), column)
        return names[name]


def lines(path, text, before=None):
    """A cursor for each line that is not empty. What `before` matches at the front of a line is passed over."""
    for number, line in enumerate(unicodedata.normalize("NFC", text).split("\n"), 1):
        passed = before.match(line) if before else None
        cursor = Cursor(path, number, " " * passed.end() + line[passed.end() :] if passed else line)
        if cursor.left():
            yield cursor
