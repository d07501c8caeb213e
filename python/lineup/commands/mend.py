"""lineup mend: works out the counts of a sheet from its arrows, by firing from the first node, and tells what changed."""
from lineup import core, explain, mending, pair, rewritten, words
from lineup.explain import Disagreement
from lineup.explain_schedule import at_node
from lineup.report import Report, plural
from lineup.sheet import Sheet
from lineup.trouble import place
from lineup.visible import inline

SUMMARY = "fill in the counts of a sheet from its arrows, and tell what changed"
EXAMPLE = "lineup mend samples/jetty/jetty.net samples/jetty/export.sheet -o mended.sheet"
OUTPUT = "write the sheet to FILE, and to standard output what changed"


def arguments(parser):
    parser.add_argument("net", metavar="NET", help="a net, or a folder with net and sheet as words")
    parser.add_argument("sheet", metavar="SHEET", nargs="?", help="a sheet whose arrows are right; its counts may be stale or left out")
    rewritten.arguments(parser)


def main(args):
    both = pair.load(args.net, args.sheet)
    answer = both.ask(core.mend)[0]
    if answer.number:
        return both.refusal(answer, judged=mending.mend_fault)
    explain.agree(answer, both.net, both.sheet, judged=mending.mend_fault)
    net, sheet = both.net.model, both.sheet.model
    mended, changes = held_to(net, sheet, answer)
    report = Report(accepted=True, nodes=len(sheet.nodes), changes=[named(net, sheet, change) for change in changes])
    report.data.update(zip(("words", "list"), answer.written))
    remarks = [f"{inline(both.sheet.path)}: {summary(sheet, changes)}", *told(both, mended, changes), *zeros(net, sheet, mended)]
    found = rewritten.of(both, mended, lambda text: text.hold(mended.counts), answer.written[0])
    return rewritten.told(report.quote(answer), found, remarks, args, both.sheet.path)


def held_to(net, sheet, answer):
    """The mended sheet, and what changed: what the core wrote has to be what firing gives here."""
    mended = Sheet(sheet.name)
    mended.nodes, mended.arcs, mended.counts = sheet.nodes, sheet.arcs, mending.worked_out(net, sheet)[0]
    changes = mending.changed(net, sheet, mended.counts)
    if answer.written != [words.sheet_words(net, mended), words.change_words(net, changes)]:
        raise Disagreement(f"the core answers {answer.whole!r}, and firing from the first node gives other counts")
    return mended, changes


def summary(sheet, changes):
    if not changes:
        return "the counts are right, and nothing changed"
    if not any(sheet.counts):
        return f"no count was given, and {plural(len(changes), 'count')} filled in"
    return f"{plural(len(changes), 'count')} changed"


def told(both, mended, changes):
    """A line for each node of which counts change; where none were given, what the node holds."""
    net, sheet = both.net.model, both.sheet.model
    lines = []
    for n in sorted({change[0] for change in changes}):
        parts = [f"{net.places[p]} {given} becomes {new}" for m, p, given, new in changes if m == n]
        what = f": {', '.join(parts)}" if any(sheet.counts) else f" holds {net.held(mended.counts[n])}"
        lines.append(f"{place(both.sheet.path, *(at_node(both.sheet, n) or ()))}node {sheet.nodes[n]}{what}")
    return lines


def zeros(net, sheet, mended):
    """Counts that were written as 0, and are right: they are no changes, but the mended sheet leaves them out."""
    found = [(n, p) for n, held in enumerate(sheet.counts) for p in sorted(held) if held[p] == 0 and p not in mended.counts[n]]
    return [f"written as 0 and left out: {', '.join(f'{net.places[p]} of node {sheet.nodes[n]}' for n, p in found)}"] if found else []


def named(net, sheet, change):
    n, p, given, new = change
    return {"node": sheet.nodes[n], "place": net.places[p], "given": given, "count": new}
