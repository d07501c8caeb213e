"""Asks the proved core. Its program `calls` plays calls from a text, and every verdict is one of its lines; some calls the library has too."""
import functools
import os
import subprocess
import tempfile

from lineup import home, library
from lineup.answers import Answer, Bounds, Checked, Compared, Composed, Fired, Mended, NetChecked, Replayed, Run, ShortForm, Times, Trimmed
from lineup.trouble import Trouble
from lineup.words import KEPT_WORDS, LIST_WORDS, LOG_WORDS, NET_WORDS, REPORT_WORDS, SHEET_WORDS, TASKS, TIMES_WORDS, held

SCRATCH = 8_192  # the words of scratch lent


class Call:
    """A call of the core: its number among the program's operations, the class of its answer, and what it is handed, by name: words, a number, or numbers as text."""

    def __init__(self, operation, answer, *parts):
        self.operation, self.answer, self.parts = operation, answer, parts

    def text(self):
        return f"{self.operation} " + " | ".join(f"{name} {told(given) if isinstance(given, list) else given}" for name, given in self.parts)

    def read(self, line):
        """The answer of a line."""
        answer = self.answer(line)
        answer.places = (self.parts[0][1] or [1])[0]
        return answer


def told(words):
    return f"{len(words)}: {' '.join(map(str, words))}"


# ---- calls


def pair(net, *sheets):
    """Of longer words only the first are handed on, which changes no answer."""
    return ("net", net[:NET_WORDS]), *(("sheet", sheet[:SHEET_WORDS]) for sheet in sheets)


def lent(*rooms):
    """The buffers that a call writes, by their lengths, and scratch."""
    return *(("out", room) for room in rooms), ("scratch", SCRATCH)


def for_places(net):
    return min(net[0], 32) if net else 0


def net_check(net):
    return Call(1, NetChecked, *pair(net))


def check(net, sheet):
    return Call(2, Checked, *pair(net, sheet), *lent())


def bounds(net, sheet):
    return Call(3, Bounds, *pair(net, sheet), *lent(for_places(net)))


def fire(net, sheet, node, transition):
    """A single firing, from the counts that the sheet gives the node."""
    walker = ("node", node), ("counts", " ".join(map(str, held(net, sheet, node)))), ("fires", transition)
    return Call(5, Fired, *pair(net, sheet), *walker, *lent())


def run(net, sheet, record):
    return Call(6, Run, *pair(net, sheet), ("record", record), *lent(for_places(net)))


def replay(net, sheet, log):
    return Call(9, Replayed, *pair(net, sheet), ("log", log[:LOG_WORDS]), *lent(for_places(net), for_places(net)))


def short(net, sheet):
    return Call(7, ShortForm, *pair(net, sheet), *lent(SHEET_WORDS - 1))


def mend(net, sheet):
    return Call(10, Mended, *pair(net, sheet), *lent(SHEET_WORDS - 1, LIST_WORDS))


def trim(net, sheet):
    return Call(12, Trimmed, *pair(net, sheet), *lent(SHEET_WORDS - 1, KEPT_WORDS))


def compose(net, *sheets):
    """How many sheets there are, and four of them, of which those past the number are empty."""
    net, *four = pair(net, *[*sheets, [], [], [], []][:TASKS])
    return Call(11, Composed, net, ("number", len(sheets)), *four, *lent(SHEET_WORDS - 1))


def compare(net, one, other):
    return Call(14, Compared, *pair(net, one, other), *lent(SHEET_WORDS - 1, SHEET_WORDS - 1))


def times(net, sheet, durations):
    return Call(13, Times, *pair(net, sheet), ("durations", durations[:TIMES_WORDS]), *lent(REPORT_WORDS))


# ---- asking


def ask(*calls):
    """The core's answers to calls: of the library, where it is built and has them all, or else of one run of the program."""
    by = by_library if library.has(calls) else by_program
    return [call.read(line) for call, line in zip(calls, by(calls))]


def by_library(calls):
    return [library.line(call) for call in calls]


def by_program(calls):
    text = "".join(f"{call.text()}\n" for call in calls) + "0\n"
    lines = played(program("calls"), text, None).splitlines()
    if lines and lines[-1] == "too long":
        raise Trouble("more words than the core's program takes in one call: net, sheets and firings may have 40,000 together")
    if len(lines) != len(calls):
        raise Trouble(f"the core gave {len(lines)} answers to {len(calls)} calls")
    return lines


@functools.lru_cache(None)
def program(name):
    """Looked for once: that takes as long as a call."""
    return home.program(name)


def files(net, sheet):
    """The answer of the program over files, for bytes that are not whole words."""
    with tempfile.TemporaryDirectory() as folder:
        for name, data in (("net.bin", net), ("sheet.bin", sheet)):
            with open(os.path.join(folder, name), "wb") as file:
                file.write(data)
        lines = played(program("checker"), "", folder).splitlines()
    if not lines:
        raise Trouble("the core gave no answer")
    return Answer(lines[0])


def played(program, text, folder):
    """What a program of the core prints for a text."""
    try:
        done = subprocess.run([program], input=text, cwd=folder, capture_output=True, text=True, timeout=120, check=False)
    except (OSError, subprocess.TimeoutExpired) as error:
        raise Trouble(f"the core's program {program} failed: {error}") from None
    if done.returncode != 0:
        raise Trouble(f"the core's program {program} ended with status {done.returncode}")
    return done.stdout
