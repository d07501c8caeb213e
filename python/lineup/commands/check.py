"""lineup check: the core's verdict on a net and a sheet, told with names."""
from lineup import core, every_fault, inputs, pair
from lineup.report import Report, plural
from lineup.trouble import Trouble
from lineup.visible import inline

SUMMARY = "have the core check a sheet against its net, or a net alone, and explain a refusal"
EXAMPLE = "lineup check samples/jetty/jetty.net samples/jetty/may.sheet"


def arguments(parser):
    parser.add_argument("--all", action="store_true", help="of what is refused, tell every fault that stands by itself; the core's verdict is the first")
    parser.add_argument("net", metavar="NET", help="a net as text, PNML or words; or a folder with net and sheet as words")
    parser.add_argument("sheet", metavar="SHEET", nargs="?", help="a sheet as text or words")
    parser.add_argument("more", metavar="SHEET", nargs="*", help="more sheets: then a line for each, and a sum")


def main(args):
    if args.more:
        if args.all:
            raise Trouble("--all tells the faults of one sheet")
        from lineup import many

        return many.checked(args.net, [args.sheet, *args.more])
    if args.sheet is None and not inputs.has_sheet(args.net):
        return net_alone(inputs.net(args.net), args.all)
    both = pair.load(args.net, args.sheet)
    answers = both.ask(core.check, core.bounds)
    if answers[0].number:
        return refusal(both, answers[0], args.all)
    both.agree(*answers)
    return accepted(both, *answers)


def refusal(both, answer, every):
    """The first fault, or every one."""
    return every_fault.refusal(both, answer) if every else both.refusal(answer)


def net_alone(net, every=False):
    """The verdict on a net."""
    both = pair.Pair(net, None)
    answer = both.ask(core.net_check)[0]
    if answer.number:
        return refusal(both, answer, every)
    model = net.model
    report = Report(accepted=True, places=model.places, transitions=model.transitions, sources=[model.transitions[t] for t in model.sources()])
    report.data["capacities"] = model.capacities()
    report.say(f"{inline(net.path)}: accepted, as a net")
    report.say(f"  {plural(len(model.places), 'place')}: {', '.join(model.places)}")
    if model.capacity:
        report.say("  capacities: " + ", ".join(f"{name} <= {most}" for name, most in model.capacities().items()))
    report.say(f"  {plural(len(model.transitions), 'transition')}: {', '.join(model.transitions)}; sources: {model.listed(model.sources())}")
    return report.quote(answer)


def accepted(both, checked, bounds):
    net, sheet = both.net.model, both.sheet.model
    waiting = sheet.awaits(net)
    report = Report(accepted=True, **checked.own)
    report.data["await_nodes"] = [sheet.nodes[n] for n in waiting]
    report.data["bounds"] = dict(zip(net.places, bounds.out))
    report.say(f"{inline(both.sheet.path)}: accepted")
    numbers = f"{plural(checked.own['nodes'], 'node')}, {plural(checked.own['arcs'], 'arc')}"
    report.say(f"  {numbers}, {plural(checked.own['awaits'], 'await node')}: {sheet.listed(waiting)}")
    report.say("  bounds: " + ", ".join(f"{name} <= {bound}" for name, bound in zip(net.places, bounds.out)))
    return report.quote(checked).quote(bounds, whole=True)
