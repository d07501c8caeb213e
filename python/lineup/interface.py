"""The core's calls for Python programs: `import lineup`, then `lineup.check(net, sheet)` and its like.

A net is the name of a file or a folder, as on the command line, a `Net`, or its words, a list of numbers or bytes; a sheet, a log and durations likewise.
Transitions are numbers, or names where the net has names. Every call checks what it is handed anew and answers what the core answers: a class of
`lineup.answers`, true where the core accepts. Nothing is raised for a refusal. `Trouble` is raised where a file cannot be read or the core cannot be
asked, ValueError where words are no words."""
import os

from lineup import core, given, inputs, library, netfile, sheetfile
from lineup.answers import Bounds, Checked, Compared, Composed, Fired, Mended, NetChecked, Replayed, Run, ShortForm, Times, Trimmed
from lineup.names import Names
from lineup.net import Net
from lineup.sheet import Sheet
from lineup.trouble import Trouble

# ---- nets and sheets


def read_net(path) -> Net:
    """The Net of a file or a folder: text, PNML or words."""
    return readable(inputs.net(os.fspath(path)))


def read_sheet(path, net) -> Sheet:
    """The Sheet of a file or a folder, over a net."""
    return readable(given.sheet(os.fspath(path), given.net(net)))


def parse_net(text) -> Net:
    """The Net of a text, as docs/FORMAT.md has it."""
    return netfile.read("text", text)


def parse_sheet(text, net) -> Sheet:
    """The Sheet of a text, over a net."""
    return sheetfile.read("text", text, readable(given.named(given.net(net))))


def sheet_of(words, net, nodes=None) -> Sheet:
    """The Sheet of words, as `mend(net, sheet).words`, with names for its nodes: n0, n1 and so on where none are given."""
    over, source = given.net(net), inputs.Source("the sheet given", "words")
    source.words = given.listed(words, "sheet")
    model = readable(given.named_sheet(source, over))
    model.nodes = list(nodes) if nodes is not None else Names().of("node", len(model.nodes))
    return model


def text_of(net, sheet=None) -> str:
    """A net as text; or, where a sheet follows, that sheet as text."""
    over = given.named(given.net(net))
    if sheet is None:
        return netfile.write(readable(over))
    return sheetfile.write(readable(over), readable(given.named_sheet(given.sheet(sheet, over), over)))


def readable(source):
    if not source.model:
        raise Trouble("its words cannot be read: a check tells why", source.path)
    return source.model


# ---- calls


def check_net(net) -> NetChecked:
    """Whether a net is accepted by itself."""
    return asked(core.net_check, given.net(net))


def check(net, sheet) -> Checked:
    """Whether a sheet is accepted, and how many nodes, arcs and nodes that wait it has."""
    return asked(core.check, *pair(net, sheet))


def why(net, sheet) -> list[str]:
    """What `lineup check` says of a refused sheet, in lines: where it is refused, why, what to do, and the core's answer. No lines where it is accepted."""
    from lineup.pair import Pair

    over, found = pair(net, sheet)
    both = Pair(given.named(over), given.named_sheet(found, over))
    answer = both.ask(core.check)[0]
    return both.refusal(answer).lines if answer.number else []


def check_all(net, sheets) -> list[Checked]:
    """The check of each sheet, in a list. Without the library, one start of the core's program does for all of them."""
    over = given.net(net)
    found = [given.sheet(sheet, over) for sheet in sheets]
    whole = iter(core.ask(*(core.check(over.words, sheet.words) for sheet in found if not over.tail and not sheet.tail)))
    return [asked(core.check, over, sheet) if over.tail or sheet.tail else next(whole) for sheet in found]


def bounds(net, sheet) -> Bounds:
    """The most that each place ever holds."""
    return asked(core.bounds, *pair(net, sheet))


def fire(net, sheet, node, transition) -> Fired:
    """The node that a transition leads to from a node."""
    over, found = pair(net, sheet)
    node, transition = given.listed([node, given.transition(transition, over)], "firing")
    return asked(core.fire, over, found, node, transition)


def run(net, sheet, transitions) -> Run:
    """Fires transitions from the first node."""
    over, found = pair(net, sheet)
    return asked(core.run, over, found, given.record(transitions, over))


def replay(net, sheet, log) -> Replayed:
    """Follows a log from the first node. As words it is how many firings, their transitions, the nodes reached."""
    over, found = pair(net, sheet)
    return asked(core.replay, over, found, given.log(log, over, found))


def short_form(net, sheet) -> ShortForm:
    """The short form of a sheet, as words."""
    return asked(core.short, *pair(net, sheet))


def compare(net, one, other) -> Compared:
    """Whether two sheets allow the same firings: true only where they do."""
    over = given.net(net)
    return asked(core.compare, over, given.sheet(one, over), given.sheet(other, over))


def mend(net, sheet) -> Mended:
    """A sheet with the counts that its arrows ask for, as words, and what changed."""
    return asked(core.mend, *pair(net, sheet))


def trim(net, sheet) -> Trimmed:
    """A sheet without the nodes that nobody reaches, as words, and which are kept."""
    return asked(core.trim, *pair(net, sheet))


def compose(net, *sheets) -> Composed:
    """One sheet, as words, from a sheet for each source of the net, in the order of the sources."""
    over = given.net(net)
    return asked(core.compose, over, *(given.sheet(sheet, over) for sheet in sheets))


def times(net, sheet, durations) -> Times:
    """The best and the worst time until the plant waits again. Durations as words are how many transitions, the earliest of each, the latest of each."""
    over, found = pair(net, sheet)
    return asked(core.times, over, found, given.durations(durations, over))


def over_library() -> bool:
    """Whether the calls that the library has are asked of it: it is there, as `make shared` builds it. Otherwise each call starts the core's program."""
    return library.has()


def pair(net, sheet):
    over = given.net(net)
    return over, given.sheet(sheet, over)


def asked(call, *handed):
    """The core's answer to a call on sources and what else it takes. Bytes that are not whole words are the file program's to refuse."""
    sources = [source for source in handed if isinstance(source, inputs.Source)]
    if not any(source.tail for source in sources):
        return core.ask(call(*(source.words if isinstance(source, inputs.Source) else source for source in handed)))[0]
    if len(sources) > 2:
        for source in sources:
            inputs.whole(source)
    from lineup.pair import Pair

    net, sheet = [*sources, None][:2]
    return call(*([] for _ in sources), *handed[len(sources) :]).answer(Pair(net, sheet).ask()[0].whole)
