"""What stops a command before or beside the core's verdict, and where in which file it lies."""
from lineup.visible import inline, quoted


class Trouble(Exception):
    """Exit status 2. The position is counted from 1."""

    def __init__(self, message, path=None, line=None, column=None):
        super().__init__(message)
        self.message, self.path, self.line, self.column = message, path, line, column

    def __str__(self):
        return place(self.path, self.line, self.column) + self.message


def place(path, line=None, column=None):
    """`file:line:column: ` as far as it is known."""
    if path is None:
        return ""
    return ":".join([inline(path)] + [str(number) for number in (line, column) if number]) + ": "


def suggestion(name, names):
    """What a nearly right name is likely to mean, as the end of a message; nothing where none is near."""
    from lineup import nearness  # needed in errors alone

    found = nearness.near(name, names)
    return f" (did you mean {' or '.join(map(quoted, found))}?)" if found else ""
