"""The standard streams, none of which is taken for granted: one may be closed, full or broken, or be read already."""
import os
import sys

from lineup import colour
from lineup.trouble import Trouble
from lineup.visible import visible

NAMES = {"stdout": "standard output", "stderr": "standard error"}
INPUT = "-"  # the name of a file that stands for standard input
noted, strict = set(), False  # what this command has remarked on, and whether that is trouble
taken = False  # whether this command has read standard input


def prepare():
    """What is closed is held by a folder, which nobody can write to: a file that is opened later must not be taken for a stream."""
    for number in range(3):
        try:
            os.fstat(number)
        except OSError:
            os.open("/", os.O_RDONLY)  # takes the lowest number that is free
    for name in NAMES:
        if getattr(sys, name):
            getattr(sys, name).reconfigure(errors="backslashreplace", newline="\n")


def read(most):
    """Standard input up to so many bytes, and the file that it is. It can be read once, and so stand for one file alone."""
    global taken
    if taken:
        raise Trouble("standard input can be read once, and so stand for one file alone", INPUT)
    taken = True
    if not sys.stdin:
        raise Trouble("standard input cannot be read: it is closed", INPUT)
    return sys.stdin.buffer.read(most), os.fstat(sys.stdin.fileno())


def write(text, name="stdout", paint=None):
    """All that lineup prints goes out here, painted on a terminal. A pipe that nobody reads any more is the caller's to know of."""
    stream = getattr(sys, name)
    if not stream:
        raise Trouble(f"{NAMES[name]} cannot be written: it is closed")
    try:
        shown = visible(text)
        stream.write(paint(shown) if paint and colour.wanted(stream) else shown)
        stream.flush()
    except BrokenPipeError:
        drop(stream)
        raise
    except OSError as error:
        drop(stream)
        raise Trouble(f"{NAMES[name]} cannot be written: {(error.strerror or str(error)).lower()}") from None


def begin(is_strict):
    """A command begins: it has remarked on nothing yet, and read nothing."""
    global strict, taken
    strict, taken = is_strict, False
    noted.clear()


def note(remark):
    """A remark on what is read, a line of standard error, once: the verdict may be about something else than was meant, so that it has to be told."""
    if strict:
        raise remark
    if str(remark) not in noted:
        noted.add(str(remark))
        write(f"lineup: {remark}\n", "stderr", colour.trouble)


def tell(text):
    """To standard error, where that can be written; for what has nowhere else to go."""
    try:
        write(text, "stderr", colour.trouble)
    except (Trouble, BrokenPipeError):
        pass


def drop(stream):
    """What could not be written is given up, or else Python tries again when it ends and makes a status of its own of it."""
    try:
        nowhere = os.open(os.devnull, os.O_WRONLY)
        os.dup2(nowhere, stream.fileno())
        os.close(nowhere)
    except (OSError, ValueError):
        pass
