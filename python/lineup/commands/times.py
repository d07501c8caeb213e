"""lineup times: tells how long it takes from each node that waits, and each source there, to the next node that waits, at best and at worst."""
import os

from lineup import bars, core, explain, inputs, outputs, pair
from lineup.explain import Disagreement
from lineup.reacting import Reactions
from lineup.report import Report, plural
from lineup.trouble import Trouble
from lineup.visible import inline

SUMMARY = "tell the best and the worst time until the plant waits again"
EXAMPLE = "lineup times samples/jetty-times/jetty.net samples/jetty-times/july.sheet samples/jetty-times/july.times"
OUTPUT = "draw a bar chart to FILE, an .svg, besides the table on standard output"


def arguments(parser):
    parser.add_argument("net", metavar="NET", help="a net, or a folder with net and sheet as words, which no SHEET follows then")
    parser.add_argument("sheet", metavar="SHEET", nargs="?", help="a sheet")
    parser.add_argument("durations", metavar="DURATIONS", nargs="?", help="durations: lines 'transition EARLIEST LATEST' in seconds, or words")


def main(args):
    if inputs.has_sheet(args.net) and args.durations is None:
        args.sheet, args.durations = None, args.sheet
    if args.durations is None:
        raise Trouble("durations are missing: NET SHEET DURATIONS, or a folder with net and sheet as words and DURATIONS, is expected", args.net)
    if args.output and os.path.splitext(args.output)[1].lower() != ".svg":
        raise Trouble("a bar chart is an .svg, and its suffix has to be that", args.output)
    both = pair.load(args.net, args.sheet)
    times = inputs.durations(args.durations, both.net)
    answer = both.ask(lambda net, sheet: core.times(net, sheet, times.words))[0]
    if answer.number:
        return both.refusal(answer, times=times)
    explain.agree(answer, both.net, both.sheet, times=times)
    return told(both, times, answer, args.output)


def told(both, times, answer, output):
    net, sheet = both.net.model, both.sheet.model
    found = Reactions(net, sheet, times.model).all()
    if answer.out[: answer.own["length"]] != [run.seconds for *_, best, worst in found for run in (best, worst)]:
        raise Disagreement(f"the core answers {answer.whole!r}, and following the arrows gives other times")
    report = Report(accepted=True, words=answer.out[: answer.own["length"]], reactions=[named(net, sheet, *reaction) for reaction in found])
    report.say(f"{inline(times.path)}: from {plural(len(sheet.awaits(net)), 'node')} that wait{'' if len(sheet.awaits(net)) != 1 else 's'} to the next, in seconds")
    report.say(*table([("await node", "source", "best", "worst"), *((sheet.nodes[n], net.transitions[t], str(best.seconds), str(worst.seconds)) for n, t, best, worst in found)]))
    report.say("  runs that take so long, found by lineup along the arrows:")
    for n, t, best, worst in found:
        for word, run, seconds in (("best", best, times.model.early), ("worst", worst, times.model.late)):
            fired = ", ".join(f"{net.transitions[u]} {seconds[u]}" for u in run.fires)
            report.say(f"    {sheet.nodes[n]}, {net.transitions[t]}, {word} {run.seconds}: {fired} -> {sheet.nodes[run.node]}")
    report.quote(answer)
    if output:
        draw(output, net, sheet, found, answer, times)
        report.data["written"] = output
        report.say(f"written: {inline(output)}")
    return report


def draw(path, net, sheet, found, answer, times):
    rows = [(f"{sheet.nodes[n]}, {net.transitions[t]}", best.seconds, worst.seconds) for n, t, best, worst in found]
    caption = ["dark: at best; light: at worst; seconds from the source to the next node that waits", f"core: {answer.line}"]
    outputs.write(path, bars.write(rows, times.model.name or os.path.basename(times.path), caption))


def table(rows):
    """Names to the left, numbers to the right."""
    wide = [max(len(row[i]) for row in rows) for i in range(4)]
    return [f"  {name:{wide[0]}}  {source:{wide[1]}}  {best:>{wide[2]}}  {worst:>{wide[3]}}" for name, source, best, worst in rows]


def named(net, sheet, n, t, best, worst):
    data = {"node": sheet.nodes[n], "source": net.transitions[t], "best": best.seconds, "worst": worst.seconds}
    data.update({key: {"fires": [net.transitions[u] for u in run.fires], "node": sheet.nodes[run.node]} for key, run in (("best_run", best), ("worst_run", worst))})
    return data
