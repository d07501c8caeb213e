"""lineup run: fires a list of transitions from the first node, or tells the first that the sheet does not allow."""
import unicodedata

from lineup import core, explain, inputs, pair, shellwords
from lineup.explain import Disagreement
from lineup.report import Report, plural
from lineup.trouble import Trouble, suggestion
from lineup.visible import inline, quoted

SUMMARY = "fire a list of transitions from the first node"
EXAMPLE = "lineup run samples/jetty/jetty.net samples/jetty/may.sheet berth line-up fails rework"


def arguments(parser):
    parser.add_argument("net", metavar="NET", help="a net, or a folder with net and sheet as words, which no SHEET follows then")
    parser.add_argument("sheet", metavar="SHEET", nargs="?", help="a sheet")
    parser.add_argument("firings", metavar="TRANSITION", nargs="*", help="names of transitions, in the order in which they fire")


def main(args):
    if inputs.has_sheet(args.net):
        args.firings[:0] = [args.sheet] if args.sheet is not None else []
        args.sheet = None
    both = pair.load(args.net, args.sheet)
    record = numbers(both, args.firings)
    answer = both.ask(lambda net, sheet: core.run(net, sheet, record))[0]
    if answer.number:
        return both.refusal(answer, record)
    explain.agree(answer, both.net, both.sheet, record)
    return fired(both, record, answer)


def numbers(both, firings):
    """The transitions that arguments name."""
    known = {name: t for t, name in enumerate(both.net.model.transitions)} if both.net.model else {}
    found = []
    for i, name in enumerate(firings, 1):
        name = shellwords.read(unicodedata.normalize("NFC", name), known)
        if name not in known and known:
            raise Trouble(f"firing {i}: no transition {quoted(name)}" + suggestion(name, known), both.net.path)
        found.append(known.get(name, 0))
    return found


def fired(both, record, answer):
    net, sheet = both.net.model, both.sheet.model
    report = Report(accepted=True, fired=answer.own["fired"], steps=[])
    report.say(f"{inline(both.sheet.path)}: {plural(answer.own['fired'], 'firing')} from node {sheet.nodes[0]}, which holds {net.held(sheet.counts[0])}")
    node, counts, last = 0, sheet.counts[0], None
    for i, t in enumerate(record, 1):
        last = node, t
        node, counts = sheet.arcs[node][t], net.fired(counts, t)
        report.data["steps"].append({"fires": net.transitions[t], "node": sheet.nodes[node], "counts": named(net, counts)})
        report.say(f"  {i:{len(str(len(record)))}}  {net.transitions[t]} -> {sheet.nodes[node]}: {net.held(counts)}")
    if answer.own["node"] != node or answer.out != [counts.get(p, 0) for p in range(len(net.places))]:
        raise Disagreement(f"the core answers {answer.whole!r}, and the firings lead to node {node} with {counts}")
    report.data.update(node=sheet.nodes[node], counts=named(net, counts))
    both.last_entry(answer, last, report)
    return report.quote(answer, whole=True)


def named(net, counts):
    return {net.places[p]: count for p, count in sorted(counts.items())}
