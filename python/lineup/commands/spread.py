"""lineup spread: net and sheet as the tables in which the slow engine reads them, and its clauses one after the other."""
from lineup import core, pair, spread
from lineup.report import REFUSED, Report
from lineup.visible import inline

SUMMARY = "spread net and sheet into tables, and tick off the clauses up to the first that fails"
EXAMPLE = "lineup spread samples/jetty/jetty.net samples/jetty/may.sheet"

# in the order in which they are asked; those of one line are asked together, node by node or arrow by arrow
CLAUSES = [
    ((10,), "the first node holds the starting counts"),
    ((11, 12), "each node offers one whole choice set"),
    ((13,), "the first node is an await node"),
    ((14, 27, 15), "each arrow is enabled, has room, and lands on the resulting counts"),
    ((16,), "every node is reached from the first"),
    ((17,), "from every node some way leads to an await node"),
]


def arguments(parser):
    parser.add_argument("net", metavar="NET", help="a net, or a folder with net and sheet as words")
    parser.add_argument("sheet", metavar="SHEET", nargs="?", help="a sheet")


def main(args):
    both = pair.load(args.net, args.sheet)
    answer, *bounds = both.ask(core.check, core.bounds)
    asked = ticked(answer.number)
    if asked is None:
        return both.refusal(answer)
    if not answer.number:
        both.agree(answer, *bounds)
    net, sheet = both.net.model, both.sheet.model
    report = Report(accepted=not answer.number, **data(net, sheet))
    report.say(f"{inline(both.sheet.path)}: spread out, with {inline(both.net.path)}")
    for table in (spread.counts(net), spread.taken(net), spread.signed(net), spread.grid(net, sheet)):
        report.say(*table.lines())
    report.say("  the clauses")
    report.data["clauses"] = []
    for (numbers, text), passed in zip(CLAUSES, asked):
        report.data["clauses"].append({"numbers": list(numbers), "clause": text, "passed": passed})
        report.say(f"    [{'x' if passed else ' '}] {', '.join(map(str, numbers))}: {text}")
    if not answer.number:
        return report.quote(answer)
    refusal = both.refusal(answer)
    report.status = REFUSED
    report.data.update(refusal.data)
    return report.say(*refusal.lines)


def ticked(number):
    """Which clauses passed, by the core's number: all, or those before the one that failed and that one itself; none where words were refused."""
    if not number:
        return [True] * len(CLAUSES)
    for i, (numbers, _) in enumerate(CLAUSES):
        if number in numbers:
            return [True] * i + [False]
    return None


def data(net, sheet):
    named = lambda row: {net.places[p]: number for p, number in sorted(row.items()) if number}
    return {
        "starts": named(net.start),
        "capacities": named(net.capacity),
        "taken": {name: named(net.taken[t]) for t, name in enumerate(net.transitions)},
        "change": {name: named(row) for name, row in zip(net.transitions, spread.changes(net))},
        "grid": {
            name: {"arrows": {net.transitions[t]: sheet.nodes[m] for t, m in sorted(sheet.arcs[n].items())}, "holds": named(sheet.counts[n])}
            for n, name in enumerate(sheet.nodes)
        },
    }
