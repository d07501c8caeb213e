"""What an argument of the command line is: a text, PNML, a word file or a folder of word files; and what it holds."""
import os
import re

from lineup import faults, files, logfile, names, netfile, reacting, sheetfile, streams, timesfile, wordfile, words
from lineup.match import mapped
from lineup.trouble import Trouble, suggestion
from lineup.visible import inline, quoted

FORMS = {".bin": "bytes", ".txt": "decimal words", ".pnml": "PNML", ".net": "text", ".sheet": "text", ".log": "text", ".times": "text"}
REMARKS = re.compile(rb"(?:\xef\xbb\xbf)?\s*(?:#[^\n]*\n\s*)*")


class Source:
    """A net, a sheet, a log or durations as they were read: the words for the core, and the same with names, where the words can be read."""

    def __init__(self, path, form):
        self.path, self.form = path, form  # form: text, PNML, decimal words, bytes
        self.words, self.model = [], None
        self.data, self.tail = b"", 0
        self.word_where, self.names = [], names.Names()

    def is_words(self):
        return self.form in ("decimal words", "bytes")

    def has_names(self):
        """Whether places and transitions are called by names of their own."""
        return self.model and (not self.is_words() or self.names.found["place"] or self.names.found["transition"])

    def locate(self, *whats):
        """The line and column of the first of these that has one."""
        found = [self.model.where[what] for what in whats if self.model and what in self.model.where]
        return found[0] if found else None

    def locate_word(self, index):
        """The line and column of a word, in a word file."""
        return self.word_where[index] if index < len(self.word_where) else None


def form_of(path, data):
    """By the file's suffix if that tells, or else by how it begins."""
    suffix = os.path.splitext(path)[1].lower()
    if suffix in FORMS:
        return FORMS[suffix]
    if b"\0" in data[:64]:
        return "bytes"
    rest = data[REMARKS.match(data).end() :]
    if rest.startswith(b"<"):
        return "PNML"
    plain = re.sub(rb"#[^\n]*", b"", rest)
    return "decimal words" if plain.strip() and not plain.strip(b"0123456789 \t\r\n") else "text"


def in_folder(folder, name):
    """A folder's binary words, or else its decimal ones. Where both are there, one may be older, so that it is told which is used."""
    found = [path for path in (os.path.join(folder, name + suffix) for suffix in (".bin", ".txt")) if os.path.exists(path)]
    if len(found) == 2:
        streams.note(Trouble(f"{inline(folder)} has both {name}.bin and {name}.txt: {name}.bin is used"))
    if found:
        return found[0]
    texts = sorted(other for other in os.listdir(folder) if other.endswith(f".{name}"))
    instead = f"; {quoted(texts[0])} is a text, and is named itself" if texts else ""
    raise Trouble(f"the folder has no {name}.bin and no {name}.txt{instead}", folder)


def is_folder(path):
    return path != streams.INPUT and os.path.isdir(path)


def has_sheet(path):
    """Whether a path is a folder with a sheet of its own."""
    return is_folder(path) and any(os.path.exists(os.path.join(path, f"sheet{suffix}")) for suffix in (".bin", ".txt"))


def opened(path, name, most):
    """A source with its bytes, and with its words if it is a word file."""
    if not path:
        raise Trouble(f"the name of the {name} is empty")
    if is_folder(path):
        path = in_folder(path, name)
    data = files.read(path)
    source = Source(path, form_of(path, data))
    source.data = data
    if source.form == "bytes":
        source.words, source.tail = wordfile.binary(data, most)
    elif source.form == "decimal words":
        source.words, source.word_where = wordfile.decimal(path, files.text(path, data))
    if source.is_words() and path != streams.INPUT:
        beside = os.path.join(os.path.dirname(path), "names.txt")
        if os.path.exists(beside):
            source.names.read(beside)
    return source


def net(path):
    """The net of a file or a folder."""
    source = opened(path, "net", words.NET_WORDS)
    if source.form == "text":
        source.model = netfile.read(source.path, files.text(source.path, source.data))
        undeclared(source)
    elif source.form == "PNML":
        from lineup import pnml

        source.model = pnml.read(source.path, source.data)
    elif not source.tail and faults.net_readable(source.words):
        places, transitions = source.words[:2]
        source.model = words.net_of(source.words, source.names.of("place", places), source.names.of("transition", transitions))
        source.model.where = word_locations(source, words.NET_HEAD, lambda key: words.net_entry(places, transitions, key))
    if source.model and not source.words:
        source.words = words.net_words(source.model)
    return source


def undeclared(source):
    """A place without a line may be a slip of the pen where others have one."""
    net = source.model
    told = [name for p, name in enumerate(net.places) if p not in net.implied]
    for p in net.implied if told else ():
        remark = f"place {quoted(net.places[p])} has no 'pl' line, though others have one, and is taken for a new place"
        streams.note(Trouble(remark + suggestion(net.places[p], told), source.path, *net.where["place", p]))


def word_locations(source, head, about):
    """Where the keys of a word file stand, by what they are about."""
    keys = source.words[head : head + source.words[head - 1]]
    return {about(key): source.word_where[head + i] for i, key in enumerate(keys) if source.word_where}


def sheet(path, net_source):
    """The sheet of a file or a folder, over a net. A folder brings its own net, onto which it is mapped by names."""
    if has_sheet(path):
        own = net(path)
        source = sheet_over(path, own)
        return source if own.path == net_source.path else mapped(source, own, net_source)
    return sheet_over(path, net_source)


def sheet_over(path, net_source):
    source = opened(path, "sheet", words.SHEET_WORDS)
    if source.form == "PNML":
        raise Trouble("PNML is for nets, and a sheet is expected: are the net and the sheet swapped?", source.path)
    over = net_source.model
    if not source.is_words() and over:
        source.model = sheetfile.read(source.path, files.text(source.path, source.data), over)
        source.words = words.sheet_words(over, source.model)
    elif source.is_words() and not source.tail and over and faults.sheet_readable(net_source.words, source.words):
        source.model = words.sheet_of(source.words, over, source.names.of("node", source.words[0]))
        sizes = net_source.words[0], net_source.words[1], source.words[0]
        source.model.where = word_locations(source, words.SHEET_HEAD, lambda key: words.sheet_entry(*sizes, key))
    return source


def whole(source):
    """A source whose bytes are whole words, for calls that the file program does not have."""
    if source.tail:
        raise Trouble(f"{len(source.data)} bytes are no whole words of four bytes: {source.tail} over", source.path)
    return source


def log(path, net_source, sheet_source):
    """The log of a file or a folder, over a net and a sheet."""
    source = whole(opened(path, "log", words.LOG_WORDS))
    if source.form == "PNML":
        raise Trouble("PNML is for nets, and a log is expected", source.path)
    if not source.is_words() and net_source.model and sheet_source.model:
        source.model = logfile.read(source.path, files.text(source.path, source.data), net_source.model, sheet_source.model)
        source.words = words.log_words(source.model) if source.model.told() else []
    elif source.is_words() and not faults.log_shape(source.words):
        many = source.words[0]
        source.model = logfile.Log(source.words[1 : 1 + many], source.words[1 + many :])
    return source


def durations(path, net_source):
    """The durations of a file or a folder, over a net."""
    source = opened(path, "times", words.TIMES_WORDS)
    if source.form == "PNML":
        raise Trouble("PNML is for nets, and durations are expected", source.path)
    if source.tail:
        raise Trouble(f"{len(source.data)} bytes are no whole words of four bytes: {source.tail} over", source.path)
    if not source.is_words() and net_source.model:
        source.model = timesfile.read(source.path, files.text(source.path, source.data), net_source.model)
        source.words = words.duration_words(source.model)
    elif source.is_words() and net_source.model and not reacting.duration_shape(source.words, len(net_source.model.transitions)):
        many = source.words[0]
        source.model = timesfile.Durations(source.words[1 : 1 + many], source.words[1 + many :])
    return source
