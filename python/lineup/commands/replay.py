"""lineup replay: follows a log of firings from the first node, and adds up what it takes and puts at each place."""
from lineup import core, explain, inputs, pair
from lineup.explain import Disagreement
from lineup.report import Report, plural
from lineup.trouble import Trouble
from lineup.visible import inline

SUMMARY = "follow a log of firings, and add up what it takes and puts"
EXAMPLE = "lineup replay samples/jetty/jetty.net samples/jetty/may.sheet samples/jetty/may.log"


def arguments(parser):
    parser.add_argument("net", metavar="NET", help="a net, or a folder with net and sheet as words, which no SHEET follows then")
    parser.add_argument("sheet", metavar="SHEET", nargs="?", help="a sheet")
    parser.add_argument("log", metavar="LOG", nargs="?", help="a log: lines 'transition -> NODE', or words")


def main(args):
    if inputs.has_sheet(args.net) and args.log is None:
        args.sheet, args.log = None, args.sheet
    if args.log is None:
        raise Trouble("a log is missing: NET SHEET LOG, or a folder with net and sheet as words and LOG, is expected", args.net)
    both = pair.load(args.net, args.sheet)
    log = inputs.log(args.log, both.net, both.sheet)
    answer = both.ask(lambda net, sheet: core.replay(net, sheet, log.words))[0]
    if answer.number:
        return both.refusal(answer, log=log)
    explain.agree(answer, both.net, both.sheet, log=log)
    return told(both, log, answer)


def told(both, log, answer):
    net, sheet = both.net.model, both.sheet.model
    sums = [summed(log, rows, len(net.places)) for rows in (net.taken, net.put)]
    if answer.outs != sums or [answer.own["taken"], answer.own["put"]] != list(map(sum, sums)):
        raise Disagreement(f"the core answers {answer.whole!r}, and the firings take {sums[0]} and put {sums[1]}")
    end = log.model.nodes[-1] if log.model.nodes else 0
    report = Report(accepted=True, firings=len(log.model.firings), node=sheet.nodes[end])
    report.data.update(zip(("taken", "put"), (dict(zip(net.places, side)) for side in sums)), total={"taken": sum(sums[0]), "put": sum(sums[1])})
    report.say(f"{inline(log.path)}: {plural(len(log.model.firings), 'firing')} from node {sheet.nodes[0]} to node {sheet.nodes[end]}")
    wide, deep = max(map(len, net.places + ["total"])), len(str(max(map(sum, sums))))
    for p, name in enumerate(net.places):
        start, held, (taken, put) = net.start.get(p, 0), sheet.counts[end].get(p, 0), (side[p] for side in sums)
        report.say(f"  {name:{wide}} taken {taken:{deep}} put {put:{deep}}   {start} + {put} - {taken} = {held}")
    report.say(f"  {'total':{wide}} taken {sum(sums[0]):{deep}} put {sum(sums[1]):{deep}}")
    both.last_entry(answer, (([0] + log.model.nodes)[-2], log.model.firings[-1]) if log.model.firings else None, report)
    return report.quote(answer, whole=True)


def summed(log, rows, places):
    """What the firings of a log move at each place, where a transition moves what its row says."""
    return [sum(rows[t].get(p, 0) for t in log.model.firings) for p in range(places)]
