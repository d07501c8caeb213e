"""What the core answers, a class for each call: accepted or refused, where, and what was found."""
import re

from lineup.trouble import Trouble
from lineup.visible import quoted

OUT_BLANK = 9  # what an output buffer holds before a call
KINDS = ("none", "entry", "place", "node", "record")
LINE = re.compile(
    rf"answer (?P<number>\d+) (?P<kind>{'|'.join(KINDS)}) (?P<index>\d+)(?P<own>(?: (?:nodes|arcs|awaits|fired|node|length|taken|put|entry|list|same|sheet) \d+)*)"
    r"(?: counts(?: \d+)*)?(?P<outs>(?: out(?: \d+)* rest \d+)*)(?: scratch [\d ]+)?"
)
OUT = re.compile(r" out((?: \d+)*) rest (\d+)")


class Answer:
    """A line of the core: `number`, 0 where all is accepted and otherwise that of the refusal; `kind` and `position` of what is refused, as ("node", 3);
    `own`, the call's own numbers by name; `outs`, what each output buffer holds, of which `out` is the first; and `written`, the words that a call wrote
    there, by the lengths that it answers. `line` and, with the buffers, `whole` are what is quoted of it. An answer is true where the core accepts."""

    fields = ()  # what the call has found, by the names of its attributes
    places = 1  # of the net that the call was about

    def __init__(self, line):
        found = LINE.fullmatch(line)
        if not found:
            raise Trouble(f"the core's answer cannot be read: {quoted(line)}")
        self.number, self.kind, self.position = int(found["number"]), found["kind"], int(found["index"])
        own = found["own"].split()
        own = list(zip(own[::2], map(int, own[1::2])))
        self.own = dict(own)
        self.outs = [[int(word) for word in out.split()] + [OUT_BLANK] * int(rest) for out, rest in OUT.findall(found["outs"])]
        self.written = [out[:length] for out, length in zip(self.outs, (length for name, length in own if name in ("length", "list")))]
        self.whole = line.split(" scratch ")[0]
        self.line = self.whole.split(" out ")[0]

    @property
    def index(self):
        return self.position

    @property
    def out(self):
        return self.outs[0] if self.outs else []

    def fault(self):
        return self.number, self.kind, self.position

    @property
    def word(self):
        """What the refusal is called, as "wrong landing"; nothing where the core accepts."""
        return self.told("word")

    @property
    def meaning(self):
        """What the refusal means at the plant."""
        return self.told("meaning")

    @property
    def remedy(self):
        """What to do about it."""
        return self.told("remedy")

    def told(self, what):
        from lineup.refusals import REFUSALS

        return getattr(REFUSALS[self.number], what) if self.number else ""

    def __bool__(self):
        return self.number == 0

    def __str__(self):
        if not self.number:
            return "accepted"
        return f"refused, {self.number} {self.word}" + (f", at {self.kind} {self.position}" if self.kind != "none" else "")

    def __repr__(self):
        return f"{type(self).__name__}({', '.join(f'{name}={getattr(self, name)!r}' for name in ('number', 'kind', 'position', *self.fields))})"


def own(name, doc):
    """One of the call's own numbers, 0 where it refuses."""
    return property(lambda answer: answer.own.get(name, 0), doc=doc)


def written(at, doc):
    """The words that a call wrote to one of its buffers, none where it refuses."""
    return property(lambda answer: answer.written[at] if len(answer.written) > at else [], doc=doc)


class Held(Answer):
    """A buffer with a word for each place: nothing of it counts where the call refuses."""

    def by_place(self, at=0):
        return self.outs[at] if not self.number else []


class Entered(Held):
    @property
    def entry(self):
        """The sheet's entry of the last firing, from 0; None where nothing was fired."""
        return self.own["entry"] - 1 if self.own.get("entry") else None


# ---- the calls


class NetChecked(Answer):
    """A net by itself."""


class Checked(Answer):
    """A sheet and its net, checked."""

    fields = ("nodes", "arcs", "awaits")
    nodes, arcs, awaits = own("nodes", "how many nodes"), own("arcs", "how many arcs"), own("awaits", "how many nodes wait for the sources")


class Bounds(Held):
    """The most that each place ever holds."""

    fields = ("bounds",)
    bounds = property(Held.by_place, doc="a number for each place")


class Fired(Answer):
    """One transition, fired at a node."""

    fields = ("node",)
    node = property(lambda answer: None if answer.number else answer.own["node"], doc="the next node; None where the firing is refused")


class Run(Entered):
    """A list of transitions, fired from the first node."""

    fields = ("fired", "node", "entry", "counts")
    fired, node = own("fired", "how many were fired"), own("node", "the node at the end")
    counts = property(Held.by_place, doc="what each place holds at the end")


class Replayed(Entered):
    """A log, followed from the first node."""

    fields = ("taken", "put", "entry")
    taken = property(lambda answer: answer.by_place(0), doc="what the firings took, by place")
    put = property(lambda answer: answer.by_place(1), doc="what they put, by place")


class ShortForm(Answer):
    """The short form of a sheet: equal for two sheets of one net exactly where they allow the same firings."""

    fields = ("words",)
    words = written(0, "the short form, a sheet as words")


class Compared(Answer):
    """Two sheets of one net. True where both are accepted and allow the same firings."""

    fields = ("same", "sheet", "forms")
    sheet = own("sheet", "which sheet is refused, 1 or 2; 0 where neither is, or the net is")
    forms = property(lambda answer: answer.written if not answer.number else [], doc="the two short forms, as words")

    @property
    def same(self):
        """Whether both are accepted and allow the same firings."""
        return self.own.get("same") == 1

    def __bool__(self):
        return self.same

    def __str__(self):
        return super().__str__() if self.number else "same" if self.same else "different"


class Mended(Answer):
    """A sheet with the counts that its arrows ask for."""

    fields = ("words", "changes")
    words = written(0, "the mended sheet, as words")

    @property
    def changes(self):
        """The counts that are others than those given, as (node, place, count)."""
        _, *listed = self.written[1] if not self.number else [0]
        many = len(listed) // 2
        return [(*divmod(key, self.places), count) for key, count in zip(listed[:many], listed[many:])]


class Trimmed(Answer):
    """A sheet without the nodes that nobody reaches."""

    fields = ("words", "kept")
    words, kept = written(0, "the trimmed sheet, as words"), written(1, "the old numbers of its nodes")


class Composed(Answer):
    """One sheet, from a sheet for each source."""

    fields = ("words", "sheet")
    words, sheet = written(0, "the composed sheet, as words"), own("sheet", "which of the sheets is refused, from 1; 0 where none is")


class Times(Answer):
    """How long it takes from each node that waits, and each source there, to the next node that waits."""

    fields = ("times",)

    @property
    def times(self):
        """(best, worst) in seconds, by rising node that waits and rising source."""
        seconds = self.written[0] if self.written else []
        return list(zip(seconds[::2], seconds[1::2]))
