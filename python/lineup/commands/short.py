"""lineup short: the short form of a sheet, in which nodes that hold the same and allow the same firings are one, as a sheet again."""
from lineup import core, explain, names, pair, rewritten, words
from lineup.parting import merged
from lineup.explain import Disagreement
from lineup.report import Report, plural
from lineup.visible import inline

SUMMARY = "write the core's short form of a sheet as a sheet again"
EXAMPLE = "lineup short samples/four-nodes -o short.sheet"
OUTPUT = "write the sheet to FILE, and to standard output what was merged"


def arguments(parser):
    parser.add_argument("net", metavar="NET", help="a net, or a folder with net and sheet as words")
    parser.add_argument("sheet", metavar="SHEET", nargs="?", help="a sheet")
    rewritten.arguments(parser)


def main(args):
    both = pair.load(args.net, args.sheet)
    answer = both.ask(core.short)[0]
    if answer.number:
        return both.refusal(answer)
    explain.agree(answer, both.net, both.sheet)
    net, sheet = both.net.model, both.sheet.model
    form, classes = named(net, sheet, answer)
    remarks = [f"the short form of {inline(both.sheet.path)}: {plural(len(sheet.nodes), 'node')} became {len(form.nodes)}"]
    remarks += [f"{', '.join(sheet.nodes[n] for n in nodes)} became {form.nodes[c]}" for c, nodes in enumerate(classes) if len(nodes) > 1]
    remarks.append(f"no accepted sheet that allows the same firings has fewer than {plural(len(form.nodes), 'node')}")
    report = Report(accepted=True, nodes=len(form.nodes), merged=[[sheet.nodes[n] for n in nodes] for nodes in classes])
    report.data["words"] = answer.written[0]
    found = rewritten.of(both, form, lambda text: merge(text, sheet, classes), answer.written[0], renumbered=True)
    return rewritten.told(report.quote(answer), found, remarks, args, both.sheet.path, indent="")


def merge(text, sheet, classes):
    """Of each class the first node stays, and arrows to the others lead to it."""
    stays = {n: nodes[0] for nodes in classes for n in nodes}
    text.drop([n for n, kept in stays.items() if n != kept])
    for n in stays.values():
        for t, m in sheet.arcs[n].items():
            if stays[m] != m:
                text.lead(n, t, stays[m])


def named(net, sheet, answer):
    """The short form that the core wrote, each node with the name of the first that became it, and the nodes merged."""
    found = answer.written[0]
    form = words.sheet_of(found, net, names.Names().of("node", found[0]))
    classes = merged(sheet, form)
    if classes is None:
        raise Disagreement("the sheet cannot be followed along the short form that the core wrote")
    form.name, form.nodes = sheet.name, [sheet.nodes[nodes[0]] for nodes in classes]
    return form, classes
