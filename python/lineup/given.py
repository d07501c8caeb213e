"""What a Python program hands to the calls: words as lists or bytes, nets and sheets of lineup's own, or the names of files; and the words that they say."""
import os
import struct
import unicodedata

from lineup import faults, inputs, words
from lineup.logfile import Log
from lineup.net import Net
from lineup.sheet import Sheet
from lineup.timesfile import Durations
from lineup.wordfile import binary, packed


# of each what may be handed over as an object, and how many words of bytes are looked at
TYPES = {"net": (Net, words.NET_WORDS), "sheet": (Sheet, words.SHEET_WORDS), "log": (Log, words.LOG_WORDS), "durations": (Durations, words.TIMES_WORDS)}


def listed(given, what):
    """Words as plain numbers."""
    try:
        data = packed(list(given))
    except struct.error:
        raise ValueError(f"the words of the {what} have to be whole numbers from 0 to 4,294,967,295") from None
    return binary(data, len(data))[0]


def source(given, what, read, said):
    """A source: of a file, which `read` reads; of an object, of which `said` tells the words; or of words."""
    if isinstance(given, (str, os.PathLike)):
        return read(os.fspath(given))
    found, (kind, most) = inputs.Source(f"the {what} given", "words"), TYPES[what]
    if isinstance(given, kind):
        found.model, found.words = given, listed(said(given), what)
    elif isinstance(given, (bytes, bytearray, memoryview)):
        found.data = bytes(given)
        found.words, found.tail = binary(found.data, most)
    elif hasattr(given, "__iter__"):
        found.words = listed(given, what)
    else:
        raise TypeError(f"the {what} has to be a file's name, a {kind.__name__} or words, not {type(given).__name__}")
    return found


def net(given):
    return source(given, "net", inputs.net, words.net_words)


def sheet(given, over):
    """Over a net that cannot be read a sheet says nothing: the net is refused first."""

    def said(sheet):
        net = named(over).model
        return words.sheet_words(net, sheet) if net else []

    return source(given, "sheet", lambda path: inputs.sheet(path, named(over)), said)


def log(given, over, sheet):
    return inputs.whole(source(given, "log", lambda path: inputs.log(path, named(over), named_sheet(sheet, over)), words.log_words)).words


def durations(given, over):
    return inputs.whole(source(given, "durations", lambda path: inputs.durations(path, named(over)), words.duration_words)).words


def record(given, over):
    """Transitions by their numbers or their names."""
    if isinstance(given, str):
        raise TypeError("a list of transitions is expected, not a text")
    return listed([transition(t, over) for t in given], "record")


def transition(given, over):
    if not isinstance(given, str):
        return given
    names, name = named(over).model.transitions if named(over).model else [], unicodedata.normalize("NFC", given)
    if name not in names:
        raise ValueError(f"no transition {given!r}: the net has {', '.join(map(repr, names)) or 'none that can be read'}")
    return names.index(name)


# ---- names for words that can be read: p0, t0, n0 and so on


def named(net):
    if not net.model and not net.tail and faults.net_readable(net.words):
        places, transitions = net.words[:2]
        net.model = words.net_of(net.words, net.names.of("place", places), net.names.of("transition", transitions))
    return net


def named_sheet(sheet, over):
    net = named(over)
    if not sheet.model and not sheet.tail and net.model and faults.sheet_readable(net.words, sheet.words):
        sheet.model = words.sheet_of(sheet.words, net.model, sheet.names.of("node", sheet.words[0]))
    return sheet
