"""Refusal 25, no counts fit: by the firings that lead to an arrow, and what the places hold there."""
from lineup import mending
from lineup.explain_schedule import arrow, no_room
from lineup.faults import ENTRIES, WEIGHT


def no_counts(net, source):
    """Where arrows ask for counts that cannot be, sentences that tell it, and what a picture marks."""
    sheet = source.model
    _, misfit = mending.worked_out(net, sheet)
    if misfit.what == "entries":
        many = mending.entries(sheet, misfit.counts)
        return None, [f"{sum(map(len, sheet.arcs))} arrows and the counts that they ask for make {many:,} entries, and a sheet may have {ENTRIES:,}"]
    n, t = misfit.node, misfit.transition
    m = sheet.arcs[n][t]
    lines = [told(net, sheet, misfit, p) for p in misfit.places]
    lines.append(f"node {sheet.nodes[n]} is reached {firings(net, misfit.routes[n])} and then holds {net.held(misfit.counts[n])}")
    nodes = [n]
    if misfit.what == "unequal":
        lines.append(f"node {sheet.nodes[m]} is reached {firings(net, misfit.routes[m])} and then holds {net.held(misfit.counts[m])}")
        nodes.append(m)
    return source.locate(("arc", n, t)), lines, {"arcs": [(n, t)], "nodes": nodes, "places": list(misfit.places)}


def told(net, sheet, misfit, p):
    """What is wrong at a place."""
    n, t = misfit.node, misfit.transition
    m = sheet.arcs[n][t]
    start = f"{arrow(net, sheet, n, t, m)}: {net.places[p]}: "
    holds, taken, put = misfit.counts[n].get(p, 0), net.taken[t].get(p, 0), net.put[t].get(p, 0)
    if misfit.what == "starved":
        return start + f"{net.transitions[t]} takes {taken}, and there is {holds}"
    if misfit.what == "overfull":
        return start + no_room(net, t, p, holds)
    sum_ = f"{holds} - {taken} + {put} = {holds - taken + put}"
    if misfit.what == "count":
        return start + f"{sum_}, and a count is at most {WEIGHT:,}"
    return start + f"{sum_}, and another way to node {sheet.nodes[m]} gives {misfit.counts[m].get(p, 0)}"


def firings(net, route):
    return f"by {', '.join(net.transitions[t] for t in route)}" if route else "by no firing"
