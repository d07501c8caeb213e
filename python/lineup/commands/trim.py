"""lineup trim: drops the nodes of a sheet that no arrows reach from the first one, and hands their numbers on."""
from lineup import core, explain, pair, rewritten, words
from lineup.explain import Disagreement
from lineup.explain_schedule import at_node
from lineup.faults import words_fault
from lineup.report import Report
from lineup.sheet import Sheet
from lineup.trouble import place
from lineup.visible import inline

SUMMARY = "drop the nodes of a sheet that nobody reaches, and hand their numbers on"
EXAMPLE = "lineup trim samples/jetty/jetty.net samples/edited/edited.sheet -o trimmed.sheet"
OUTPUT = "write the sheet to FILE, and to standard output what was dropped"


def arguments(parser):
    parser.add_argument("net", metavar="NET", help="a net, or a folder with net and sheet as words")
    parser.add_argument("sheet", metavar="SHEET", nargs="?", help="a sheet; its counts may be stale and its choices torn")
    rewritten.arguments(parser)


def main(args):
    both = pair.load(args.net, args.sheet)
    answer = both.ask(core.trim)[0]
    if answer.number:
        return both.refusal(answer, judged=words_fault)
    explain.agree(answer, both.net, both.sheet, judged=words_fault)
    net, sheet = both.net.model, both.sheet.model
    trimmed, kept = held_to(net, sheet, answer)
    dropped = [n for n in range(len(sheet.nodes)) if n not in kept]
    report = Report(accepted=True, nodes=len(kept), kept=trimmed.nodes, dropped=[sheet.nodes[n] for n in dropped])
    report.data.update(zip(("words", "list"), answer.written))
    remarks = [f"{inline(both.sheet.path)}: {summary(sheet, dropped)}"]
    remarks += [f"{place(both.sheet.path, *(at_node(both.sheet, n) or ()))}node {sheet.nodes[n]} is dropped" for n in dropped]
    found = rewritten.of(both, trimmed, lambda text: text.drop(dropped), answer.written[0])
    return rewritten.told(report.quote(answer), found, remarks, args, both.sheet.path)


def held_to(net, sheet, answer):
    """The trimmed sheet under the old names, and the old numbers of its nodes: what the core wrote has to be what is reached here."""
    kept = sorted(sheet.reached([0]))
    trimmed = Sheet(sheet.name)
    trimmed.nodes, trimmed.counts = [sheet.nodes[n] for n in kept], [sheet.counts[n] for n in kept]
    trimmed.arcs = [{t: kept.index(m) for t, m in sheet.arcs[n].items()} for n in kept]
    if answer.written != [words.sheet_words(net, trimmed), kept]:
        raise Disagreement(f"the core answers {answer.whole!r}, and arrows lead from the first node to the nodes {kept}")
    return trimmed, kept


def summary(sheet, dropped):
    if not dropped:
        return "every node is reached, and none is dropped"
    return f"of {len(sheet.nodes)} nodes {len(dropped)} {'is' if len(dropped) == 1 else 'are'} not reached and dropped"
