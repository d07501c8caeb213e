"""lineup diff: whether two sheets of a net allow the same firings, and if not, a shortest list that only one allows."""
from lineup import core, every_difference, shellwords
from lineup.commands import compare
from lineup.explain import Disagreement
from lineup.report import REFUSED, Report, plural
from lineup.visible import inline

SUMMARY = "tell whether two sheets allow the same firings, by the core's comparison, or where they part"
EXAMPLE = "lineup diff samples/jetty/jetty.net samples/jetty/may.sheet samples/jetty/june.sheet"


def arguments(parser):
    compare.arguments(parser)
    parser.add_argument("--all", action="store_true", help="tell every difference: nodes matched by what they allow, then arrows, counts and nodes that only one has; of refused sheets, too")


def main(args):
    pairs = compare.of_one_net(args)
    report = compared(pairs)
    return report if not args.all else every(report, pairs)


def compared(pairs):
    """The report on two sheets of one net."""
    refusal, answer, found = compare.judged(pairs)
    if refusal:
        return refusal
    if found:
        return different(pairs, *found)
    return Report(same=True).say(compare.same(pairs)).quote(answer)


def every(report, pairs):
    """The report with every difference, as far as the sheets can be read."""
    sources = [both.sheet for both in pairs]
    if not all(source.model for source in sources):
        return report
    found = every_difference.Differences(pairs[0].net.model, *(source.model for source in sources))
    if report.data.get("same") and found.any():
        raise Disagreement("the core answers that both sheets allow the same firings, and lineup finds differences")
    report.data["differences"] = every_difference.data(found, sources)
    return report.say("every difference, found by lineup along the arrows:", *(f"  {line}" for line in every_difference.told(found, sources)))


def different(pairs, firings, nodes):
    """The nodes offer different choice sets, so that each sheet allows a list which the other does not."""
    net = pairs[0].net.model
    held = pairs[0].sheet.model.counts[nodes[0]]
    report = Report(REFUSED, same=False, before=[net.transitions[t] for t in firings], holds={net.places[p]: count for p, count in sorted(held.items())}, sides=[])
    for i in (0, 1):
        mine, other = pairs[i].sheet.model, pairs[1 - i].sheet.model
        last = min(t for t in mine.arcs[nodes[i]] if t not in other.arcs[nodes[1 - i]])
        allowed, refused = confirmed(pairs[i], pairs[1 - i], [*firings, last])
        side = {"sheet": pairs[i].sheet.path, "node": mine.nodes[nodes[i]], "only_here": [net.transitions[t] for t in [*firings, last]]}
        side.update(run=shellwords.line(side["only_here"], net.transitions), lands_on=mine.nodes[mine.arcs[nodes[i]][last]], offers=[net.transitions[t] for t in sorted(mine.arcs[nodes[i]])])
        side.update(core={"here": allowed.line, "there": refused.line})
        report.data["sides"].append(side)
    return told(report, net, net.held(held))


def confirmed(mine, other, record):
    """The core's runs of a list that only the first sheet allows."""
    net = mine.net.words
    allowed, refused = core.ask(core.run(net, mine.sheet.words, record), core.run(net, other.sheet.words, record))
    if allowed.number != 0 or refused.fault() != (20, "record", len(record) - 1):
        raise Disagreement(f"the core's runs do not confirm the list {record}: {allowed.line!r}, {refused.line!r}")
    return allowed, refused


def told(report, net, held):
    sides, firings = report.data["sides"], report.data["before"]
    names = [inline(side["sheet"]) for side in sides]
    report.say(f"different: after {plural(len(firings), 'firing')} in common the sheets go on differently")
    if firings:
        report.say("  in common: " + shellwords.line(firings, net.transitions))
    report.say(f"  then the places hold: {held}")
    for name, side in zip(names, sides):
        report.say(f"  {name} stands at node {side['node']} and offers {', '.join(side['offers'])}")
    for i, side in enumerate(sides):
        report.say(f"only {names[i]} allows: {side['run']}")
        report.say(f"  core: {names[i]}: {side['core']['here']}", f"  core: {names[1 - i]}: {side['core']['there']}")
    return report
