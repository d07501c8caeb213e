"""A net and a sheet, what the core answers for them, and that this agrees with what can be seen in them."""
from lineup import causes, core, explain, faults, inputs, mendable
from lineup.explain import Disagreement
from lineup.refusals import OF_NET, OF_WORDS
from lineup.report import refused
from lineup.trouble import Trouble, place
from lineup.wordfile import packed
from lineup.words import SHEET_HEAD, sheet_key


class Pair:
    def __init__(self, net, sheet, judged=faults.sheet_fault):
        self.net, self.sheet, self.judged = net, sheet, judged  # `judged` finds what is asked of the sheet

    def words(self):
        return [source.words for source in (self.net, self.sheet) if source]

    def tail(self):
        return self.net.tail or self.sheet and self.sheet.tail

    def ask(self, *calls):
        """The core's answers to calls on these words. Bytes that are not whole words are the file program's to refuse."""
        if not self.tail():
            return core.ask(*(call(*self.words()) for call in calls))
        net, sheet = (s.data if s and s.tail else packed(s.words) if s else b"" for s in (self.net, self.sheet))
        return [core.files(net, sheet)]

    def fault(self):
        """The first fault, found beside the core."""
        return explain.again(self.net, self.sheet, judged=self.judged)

    def refusal(self, answer, record=None, log=None, judged=None, times=None):
        """The report of a refusal by the core."""
        likely = causes.likely(self.net, self.sheet) if answer.number in OF_NET | OF_WORDS else []
        found = explain.explain(answer, self.net, self.sheet, record, log, judged or self.judged, times)
        return refused(found, answer, likely + mendable.advice(self, answer))

    def agree(self, checked, bounds=None):
        """Holds the numbers of an accepted sheet, and its bounds where they were asked for, to what the sheet says."""
        explain.agree(checked, self.net, self.sheet)
        net, sheet = self.net.model, self.sheet.model
        seen = {"nodes": len(sheet.nodes), "arcs": sum(map(len, sheet.arcs)), "awaits": len(sheet.awaits(net))}
        if checked.own != seen:
            raise Disagreement(f"the core answers {checked.line!r}, and the sheet shows {seen}")
        greatest = [max(counts.get(p, 0) for counts in sheet.counts) for p in range(len(net.places))]
        if bounds is not None and bounds.out != greatest:
            raise Disagreement(f"the core answers {bounds.whole!r}, and the sheet shows {greatest}")

    def last_entry(self, answer, last, report):
        """Tells the entry that the core names for the last firing, `last` its node and transition, or nothing: it has to be that arrow's in the sheet."""
        net, sheet, words = self.net.model, self.sheet.model, self.sheet.words
        seen = None
        if last:
            seen = words.index(sheet_key(len(net.places), len(net.transitions), len(sheet.nodes), ("arc", *last)), SHEET_HEAD) - SHEET_HEAD
        if answer.own["entry"] != (0 if seen is None else seen + 1):
            raise Disagreement(f"the core answers {answer.whole!r}, and the sheet has the last arrow at entry {seen}")
        report.data["entry"] = seen
        if last:
            report.say(f"  the last arrow: {place(self.sheet.path, *(self.sheet.locate(('arc', *last)) or ()))}entry {seen}")


def at_fault(answer, pairs):
    """Of pairs with one net, that whose sheet the core names as refused: the first that is at fault here, too. Of a net it names none."""
    named, seen = answer.own["sheet"], 0
    if answer.number not in OF_NET:
        seen = next((i for i, both in enumerate(pairs, 1) if both.fault()), 0)
    if named != seen:
        raise Disagreement(f"the core answers {answer.line!r}, and the explanation finds a fault in {f'sheet {seen}' if seen else 'no sheet'}")
    return pairs[max(named - 1, 0)]


def readable(net_path, sheet_path):
    """A net and, where there is one, a sheet that need not be accepted; and the report of the core's refusal where words cannot be read."""
    if sheet_path is None and inputs.has_sheet(net_path):
        sheet_path = net_path
    net = inputs.net(net_path)
    both = Pair(net, None if sheet_path is None else inputs.sheet(sheet_path, net))
    if net.model and (not both.sheet or both.sheet.model):
        return both, None
    answer = both.ask(core.check if both.sheet else core.net_check)[0]
    if not answer.number:
        raise Disagreement(f"the core answers {answer.line!r} for words that cannot be read")
    return both, both.refusal(answer)


def load(net_path, sheet_path):
    """The pair that arguments name. A folder brings net and sheet."""
    if sheet_path is None:
        if not inputs.has_sheet(net_path):
            raise Trouble("a sheet is missing: NET SHEET, or a folder with both as words, is expected", net_path)
        sheet_path = net_path
    net = inputs.net(net_path)
    return Pair(net, inputs.sheet(sheet_path, net))
