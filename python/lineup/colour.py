"""Colour on a terminal, and nowhere else: the verdict by the exit status, the core's lines, and what to do."""
import os
import re

from lineup.report import ACCEPTED, REFUSED

GREEN, RED, YELLOW, BOLD, FAINT, PLAIN = ("\x1b[%sm" % code for code in ("32", "31", "33", "1", "2", "0"))
TEXTS = {"words", "names", "draw", "help", "explain", "completion"}  # commands that print no verdict
FAINT_LINE, BOLD_LINE = re.compile(r"(?m)^(  core: .*)$"), re.compile(r"(?m)^( +to do: )(.*)$")


def wanted(stream):
    """Whether a stream is a terminal that shows colours to somebody who wants them."""
    return bool(stream.isatty() and not os.environ.get("NO_COLOR") and os.environ.get("TERM", "dumb") != "dumb")


def report(command, found):
    """Paints the lines of a report. Its first one is the verdict, unless it is a text that begins with a remark; of many sheets the last one is, which sums up."""

    def paint(text):
        lines = BOLD_LINE.sub(rf"{BOLD}\1{PLAIN}\2", FAINT_LINE.sub(rf"{FAINT}\1{PLAIN}", text)).split("\n")
        if command not in TEXTS and not lines[0].startswith(("#", "//")):
            at = -2 if found.data.get("sheets") else 0
            lines[at] = {ACCEPTED: GREEN, REFUSED: RED}.get(found.status, YELLOW) + lines[at] + PLAIN
        return "\n".join(lines)

    return paint


def trouble(text):
    """Paints who speaks."""
    return re.sub(r"\Alineup:", f"{RED}lineup:{PLAIN}", text)
