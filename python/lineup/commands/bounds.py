"""lineup bounds: the most that each place ever holds, at which nodes, and what it can hold."""
from lineup import core, pair
from lineup.report import Report
from lineup.visible import inline

SUMMARY = "tell the most that each place ever holds"
EXAMPLE = "lineup bounds samples/jetty/jetty.net samples/jetty/may.sheet"


def arguments(parser):
    parser.add_argument("net", metavar="NET", help="a net, or a folder with net and sheet as words")
    parser.add_argument("sheet", metavar="SHEET", nargs="?", help="a sheet")


def main(args):
    both = pair.load(args.net, args.sheet)
    answers = both.ask(core.check, core.bounds)
    if answers[0].number:
        return both.refusal(answers[0])
    both.agree(*answers)
    net, sheet, bounds = both.net.model, both.sheet.model, answers[1]
    report = Report(accepted=True, bounds=dict(zip(net.places, bounds.out)), attained={}, capacities=net.capacities())
    report.say(f"{inline(both.sheet.path)}: the most that each place holds")
    wide, deep = max(map(len, net.places)), max(len(str(bound)) for bound in bounds.out)
    for p, bound in enumerate(bounds.out):
        nodes = [n for n, counts in enumerate(sheet.counts) if counts.get(p, 0) == bound]
        report.data["attained"][net.places[p]] = [sheet.nodes[n] for n in nodes]
        room = f"; it can hold {net.capacity[p]}" if p in net.capacity else ""
        report.say(f"  {net.places[p]:{wide}} {bound:{deep}}  " + (f"at {sheet.listed(nodes)}" if bound else "at no node more") + room)
    return report.quote(bounds, whole=True)
