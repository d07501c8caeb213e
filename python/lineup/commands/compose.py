"""lineup compose: one sheet of a net from a sheet for each of its sources, each written as if the others were not there."""
from lineup import composing, core, explain_composing, faults, inputs, outputs, pair, sheetfile, words
from lineup.explain import Disagreement, Explanation
from lineup.report import Report, plural, refused
from lineup.visible import inline

SUMMARY = "write one sheet from a sheet for each source, of which one works at a time"
EXAMPLE = "lineup compose samples/two-jetties/jetties.net samples/two-jetties/east.sheet samples/two-jetties/west.sheet -o both.sheet"
OUTPUT = "write the sheet to FILE, and to standard output what was composed"


def arguments(parser):
    parser.add_argument("net", metavar="NET", help="the net of all sheets")
    parser.add_argument("sheets", metavar="SHEET", nargs="+", help="a sheet for each source, in any order: its first node tells which; at most four")


def main(args):
    net = inputs.net(args.net)
    return composed(net, [inputs.whole(inputs.sheet(path, net)) for path in args.sheets], args.output)


def composed(net, sheets, output=None):
    """The report on sheets of one net, in whatever order."""
    if net.tail or faults.net_fault(net.words):
        return of_net(net, sheets)
    if not composing.fits(net.model, sheets):
        return of_number(net, sheets)
    tasks = [composing.Task(net, sheet, t) for sheet, t in zip(composing.in_order(net.model, sheets), net.model.sources())]
    answer = ask(net, [task.sheet for task in tasks])
    held_to(answer, *composing.fault(net.model, tasks))
    if answer.own["sheet"]:
        return tasks[answer.own["sheet"] - 1].refusal(answer)
    if answer.number:
        found = Explanation(answer, *explain_composing.clashing(net, tasks))
        found.keys.update(explain_composing.keys(net.model, tasks))
        return refused(found, answer)
    return made(net.model, tasks, answer, output)


def ask(net, sheets):
    return core.ask(core.compose(net.words, *(sheet.words for sheet in sheets)))[0]


def held_to(answer, fault, sheet=0):
    """The core has to answer the fault found here, in the sheet of that number."""
    if answer.fault() != tuple(fault) or answer.own["sheet"] != sheet:
        found = f"{fault.number} {fault.kind} {fault.index}"
        raise Disagreement(f"the core answers {answer.line!r}, and the explanation finds {found}, sheet {sheet}")


def of_net(net, sheets):
    """A net that is refused, whatever the sheets. Bytes that are not whole words are the file program's to refuse."""
    alone = pair.Pair(net, None)
    return alone.refusal(alone.ask(core.net_check)[0] if net.tail else ask(net, sheets))


def of_number(net, sheets):
    answer = ask(net, sheets)
    held_to(answer, faults.Fault(28))
    return refused(Explanation(answer, net, *explain_composing.number_of_sheets(net, sheets)), answer)


def made(net, tasks, answer, output):
    """The composed sheet, which has to be the one found here."""
    states = composing.composed(net, tasks)[0]
    sheet = states.sheet()
    if answer.written != [words.sheet_words(net, sheet)]:
        raise Disagreement(f"the core answers {answer.whole!r}, and the states found are {states.found}")
    report = Report(accepted=True, nodes=len(sheet.nodes), tasks=[{"source": net.transitions[task.source], "sheet": task.sheet.path} for task in tasks])
    report.data.update(states=[states.names(n) for n in range(len(sheet.nodes))], words=answer.written[0], sheet=sheetfile.write(net, sheet))
    waiting = plural(len(sheet.awaits(net)), "await node")
    remarks = [f"composed: {plural(len(sheet.nodes), 'node')}, {plural(sum(map(len, sheet.arcs)), 'arc')}, {waiting}"]
    remarks += [f"for {net.transitions[task.source]}: {inline(task.sheet.path)}, {plural(len(task.sheet.model.nodes), 'node')}" for task in tasks]
    report.quote(answer)
    if output:
        outputs.write(output, outputs.marked(sheetfile.write(net, sheet)))
        report.lines = [remarks[0], *(f"  {line}" for line in remarks[1:]), *report.lines, f"written: {inline(output)}"]
    else:
        report.lines = sheetfile.write(net, sheet, [*remarks, *(line.strip() for line in report.lines)]).splitlines()
    return report
