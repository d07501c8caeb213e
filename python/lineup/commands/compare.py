"""lineup compare: whether two sheets of a net allow the same firings, by the core's own comparison of them."""
from lineup import core, explain, inputs, pair
from lineup.parting import parting
from lineup.explain import Disagreement
from lineup.report import ACCEPTED, REFUSED, TROUBLE, Report
from lineup.visible import inline

SUMMARY = "have the core tell whether two sheets allow the same firings"
EXAMPLE = "lineup compare samples/jetty/jetty.net samples/jetty/may.sheet samples/jetty"


def arguments(parser):
    parser.add_argument("net", metavar="NET", help="the net of both sheets")
    parser.add_argument("one", metavar="A", help="a sheet as text or words, or a folder with its own net and names")
    parser.add_argument("other", metavar="B", help="another")


def main(args):
    return compared(of_one_net(args))


def of_one_net(args):
    """The two sheets that arguments name, each with the net."""
    net = inputs.net(args.net)
    return [pair.Pair(net, inputs.sheet(path, net)) for path in (args.one, args.other)]


def compared(pairs):
    """The report on two sheets of one net."""
    refusal, answer, found = judged(pairs)
    if refusal:
        return refusal
    report = Report(REFUSED if found else ACCEPTED, same=found is None, nodes=[form[0] for form in answer.written], words=answer.written)
    report.say(f"different: {named(pairs)} do not allow the same firings; lineup diff tells where they part" if found else same(pairs))
    return report.quote(answer)


def same(pairs):
    return f"same: {named(pairs)} allow the same firings; their short forms are equal"


def named(pairs):
    return " and ".join(inline(both.sheet.path) for both in pairs)


def judged(pairs):
    """Either the report of a sheet that is refused; or the core's comparison, and where firings part the sheets, if they do."""
    answer, at = asked(pairs)
    if answer.number:
        return not_compared(at, answer), None, None
    for both in pairs:
        explain.agree(answer, both.net, both.sheet)
    found = parting(*(both.sheet.model for both in pairs))
    one, other = answer.written
    if {answer.own["same"] == 1, one == other} != {found is None}:
        raise Disagreement(f"the core answers {answer.line!r} and {'equal' if one == other else 'unlike'} short forms, and the firings that tell the sheets apart are {found}")
    return None, answer, found


def asked(pairs):
    """The core's comparison, and the pair that it refuses, if one. Bytes that are not whole words are the file program's to refuse."""
    if any(both.tail() for both in pairs):
        answers = ((both.ask(core.check)[0], both) for both in pairs)
        return next((answer, both) for answer, both in answers if answer.number)
    answer = core.ask(core.compare(*pairs[0].words(), pairs[1].sheet.words))[0]
    return answer, pair.at_fault(answer, pairs)


def not_compared(both, answer):
    """A refused sheet allows nothing that could be compared. The status is not that of a difference."""
    report = both.refusal(answer)
    report.status = TROUBLE
    report.lines[0] += "; it cannot be compared"
    return report
