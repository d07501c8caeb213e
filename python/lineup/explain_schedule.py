"""Refusals of a sheet that can be read, 10 to 17 and 27, and of a firing in a run, 20: by node, transition and place, with the arithmetic."""
from lineup.words import SHEET_HEAD, sheet_entry


def start_fault(p, net, source):
    sheet = source.model
    lines = []
    for q in range(len(net.places)):
        starts, holds = net.start.get(q, 0), sheet.counts[0].get(q, 0)
        if starts != holds:
            lines.append(f"node {sheet.nodes[0]}: {net.places[q]}: the net starts with {starts}, but the node says {holds}")
    return source.locate(("count", 0, p), ("node", 0)), lines, {"nodes": [0], "places": [p]}


def dead_end(n, net, source):
    sheet = source.model
    return at_node(source, n), [f"node {sheet.nodes[n]} has no arrow"], {"nodes": [n]}


def torn_choice(n, net, source):
    sheet = source.model
    offered = sorted(sheet.arcs[n])
    first = offered[0]
    whole = net.choice_set(first)
    lines = [f"node {sheet.nodes[n]} offers {net.listed(offered)}"]
    others = [t for t in offered if t in net.removed]
    if others:
        lines.append(f"{net.listed(others)}: that is for another sheet, which this one does not know of: take the arrow away")
        return at_node(source, n), lines, {"nodes": [n]}
    lacking = [t for t in whole if t not in offered]
    if lacking:
        takes = net.held(net.taken[first])
        lines.append(f"{net.listed(whole)} take the same ({takes}), so the plant decides between them: {net.listed(lacking)} has no arrow here")
    alike, rivals = net.alike(first), net.rivals(first)
    if rivals and len(set(alike).intersection(offered)) > 1:
        takes = net.held(net.taken[first])
        others = ", ".join(f"{net.transitions[t]} ({net.held(net.taken[t])})" for t in rivals)
        lines.append(f"{net.listed(alike)} take the same ({takes}), but on a place of theirs draws {others}: so the schedule decides, and each of them stands alone")
    for t in offered:
        if t not in alike:
            takes, other = net.held(net.taken[t]), net.held(net.taken[first])
            lines.append(f"{net.transitions[t]} takes {takes}, and {net.transitions[first]} takes {other}: these are not one choice")
    lines.append("for one whole choice: " + "; or ".join(arrows(net, *way) for way in ways_to_whole(net, offered, n == 0)))
    return at_node(source, n), lines, {"nodes": [n]}


def ways_to_whole(net, offered, root, most=3):
    """The arrows to add and those to take away that make one whole choice of what a node offers: for each choice that it could be, the least change first."""
    wholes = [net.sources()] if root else [net.choice_set(t) for t in offered]
    ways = [([t for t in whole if t not in offered], [t for t in offered if t not in whole]) for i, whole in enumerate(wholes) if whole not in wholes[:i]]
    return sorted(ways, key=lambda way: len(way[0]) + len(way[1]))[:most]


def arrows(net, added, dropped):
    """Arrows to add and to take away, for a sentence."""
    told = [("add", added), ("take away", dropped)]
    return " and ".join(f"{verb} the arrow{'' if len(which) == 1 else 's'} for {net.listed(which)}" for verb, which in told if which)


def busy_root(n, net, source):
    sheet = source.model
    offered, sources = net.listed(sorted(sheet.arcs[0])), net.listed(net.sources())
    return at_node(source, 0), [f"node {sheet.nodes[0]}, the first, offers {offered}, and has to offer exactly the sources: {sources}"], {"nodes": [0]}


def arc_at(entry, net, sheet, words):
    """The node, transition and target of an arc's entry."""
    _, n, t = sheet_entry(len(net.places), len(net.transitions), len(sheet.nodes), words[SHEET_HEAD + entry])
    return n, t, sheet.arcs[n][t]


def starved_arc(entry, net, source):
    sheet = source.model
    n, t, m = arc_at(entry, net, sheet, source.words)
    places = net.starved(sheet.counts[n], t)
    lines = []
    for p in places:
        takes, holds = net.taken[t][p], sheet.counts[n].get(p, 0)
        lines.append(f"{arrow(net, sheet, n, t, m)}: {net.places[p]}: {net.transitions[t]} takes {takes}, but node {sheet.nodes[n]} holds {holds}")
    return source.locate(("arc", n, t)), lines, {"arcs": [(n, t)], "nodes": [n], "places": places}


def over_capacity(entry, net, source):
    sheet = source.model
    n, t, m = arc_at(entry, net, sheet, source.words)
    places = net.overfilled(sheet.counts[n], t)
    lines = [f"{arrow(net, sheet, n, t, m)}: {net.places[p]}: {no_room(net, t, p, sheet.counts[n].get(p, 0))}" for p in places]
    return source.locate(("arc", n, t)), lines, {"arcs": [(n, t)], "nodes": [n], "places": places}


def no_room(net, t, p, holds):
    """What t puts into a place that holds so much is more than the place can hold."""
    puts, taken = net.put[t][p], net.taken[t].get(p, 0)
    sum_ = f"{holds} + {puts} = {holds + puts}, but it can hold at most {net.capacity[p]}"
    return sum_ + (f"; what {net.transitions[t]} takes there, {taken}, makes no room" if taken else "")


def wrong_landing(entry, net, source):
    sheet = source.model
    n, t, m = arc_at(entry, net, sheet, source.words)
    result = net.fired(sheet.counts[n], t)
    lines, places = [], []
    for p in range(len(net.places)):
        before, taken, put = sheet.counts[n].get(p, 0), net.taken[t].get(p, 0), net.put[t].get(p, 0)
        says = sheet.counts[m].get(p, 0)
        if before - taken + put != says:
            places.append(p)
            sum_ = f"{before} - {taken} + {put} = {before - taken + put}"
            lines.append(f"{arrow(net, sheet, n, t, m)}: {net.places[p]}: {sum_}, but node {sheet.nodes[m]} says {says}")
    should = ", ".join(f"{net.places[p]} {result.get(p, 0)} and not {sheet.counts[m].get(p, 0)}" for p in places)
    lines.append(f"by this arrow node {sheet.nodes[m]} should hold {should}")
    fitting = [other for other, counts in enumerate(sheet.counts) if counts == result]
    if fitting:
        lines.append(f"{net.held(result)} is what {'node' if len(fitting) == 1 else 'nodes'} {sheet.listed(fitting)} says")
    return source.locate(("arc", n, t)), lines, {"arcs": [(n, t)], "nodes": [m], "places": places}


def stray_node(n, net, source):
    sheet = source.model
    leading = [m for m, arcs in enumerate(sheet.arcs) if n in arcs.values() and m != n]
    lines = [f"no list of firings leads from node {sheet.nodes[0]} to node {sheet.nodes[n]}, which holds {net.held(sheet.counts[n])}"]
    if leading:
        lines.append(f"arrows to it leave only {sheet.listed(leading)}, which {'is' if len(leading) == 1 else 'are'} not reached either")
    return at_node(source, n), lines, {"nodes": [n]}


def no_way_home(n, net, source):
    sheet = source.model
    reached = sorted(sheet.reached([n]))
    lines = [f"from node {sheet.nodes[n]} arrows lead only to {sheet.listed(reached)}"]
    lines.append(f"none of these waits, that is, offers exactly the sources: {net.listed(net.sources())}")
    return at_node(source, n), lines, {"nodes": reached}


def record_fault(answer, net, source, record):
    """A firing that is not offered."""
    sheet, i = source.model, answer.index
    node = 0
    for t in record[:i]:
        node = sheet.arcs[node][t]
    name = net.transitions[record[i]] if record[i] < len(net.transitions) else f"transition {record[i]}"
    offered = net.listed(sorted(sheet.arcs[node]))
    line = f"firing {i + 1} of {len(record)}, {name}: node {sheet.nodes[node]} offers {offered}"
    return at_node(source, node), [line], {"nodes": [node]}


def at_node(source, n):
    """Where a node stands: its own line, or else the first arc or count that a word file has of it."""
    sheet = source.model
    arcs, counts = [("arc", n, t) for t in sorted(sheet.arcs[n])], [("count", n, p) for p in sorted(sheet.counts[n])]
    return source.locate(("node", n), *arcs, *counts)


def arrow(net, sheet, n, t, m):
    return f"node {sheet.nodes[n]}, {net.transitions[t]} -> {sheet.nodes[m]}"


FAULTS = {
    10: start_fault,
    11: dead_end,
    12: torn_choice,
    13: busy_root,
    14: starved_arc,
    15: wrong_landing,
    16: stray_node,
    17: no_way_home,
    27: over_capacity,
}
