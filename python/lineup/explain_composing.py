"""Refusals of composing, 28 to 30: how many sheets, how large together, and which of them is in another's way, at which state and place."""
import math

from lineup import fault_keys
from lineup.composing import composed, entries
from lineup.explain_mending import firings
from lineup.explain_schedule import no_room
from lineup.faults import ENTRIES, NODES, WEIGHT
from lineup.report import plural
from lineup.visible import inline
from lineup.words import TASKS


def number_of_sheets(net, sheets):
    """28: where it stands, and sentences that tell it."""
    sources = net.model.sources()
    lines = []
    if len(sources) != len(sheets):
        lines.append(f"the net has {plural(len(sources), 'source')}, {net.model.listed(sources)}, and there {'is' if len(sheets) == 1 else 'are'} {plural(len(sheets), 'sheet')}")
    if max(len(sources), len(sheets)) > TASKS:
        lines.append(f"at most {TASKS} sheets can be composed")
    return net.locate(("transition", sources[0])), lines


def clashing(net, tasks):
    """29 and 30: the file where it stands, the line and column there, and sentences that tell it."""
    clash = composed(net.model, tasks)[1]
    if clash.what == "product":
        sizes = [len(task.sheet.model.nodes) for task in tasks]
        told = ", ".join(f"{inline(task.sheet.path)} has {size}" for task, size in zip(tasks, sizes))
        product = f"{' * '.join(map(str, sizes))} = {math.prod(sizes):,}"
        return net, None, [f"of nodes {told}: that makes {product} states, and a sheet may have {NODES} nodes"]
    if clash.what == "entries":
        return net, None, [f"{len(clash.states.found)} states have {entries(clash.states):,} arcs and counts, and a sheet may have {ENTRIES:,}"]
    lines = [f"{at(net.model, clash)}: {net.model.places[p]}: {wrong(net.model, clash, p)}; {changes(net.model, clash, p)}" for p in clash.places]
    lines.append(f"the state is reached {firings(net.model, clash.states.routes[clash.state])}")
    if clash.what == "count":
        return net, None, lines
    i = clash.states.firing(clash.state, clash.transition)
    sheet, n = tasks[i].sheet, clash.states.found[clash.state][i]
    return sheet, sheet.locate(("arc", n, clash.transition)), lines


def keys(net, tasks):
    """30, and 29 of a count, for programs: the arrow of the sheet that cannot fire, and the counts of the state."""
    clash = composed(net, tasks)[1]
    if clash.what not in ("dependent", "count"):
        return {}
    held = clash.states.counts[clash.state]
    if clash.what == "count":
        return fault_keys.of_places([fault_keys.count(net, p, held[p], "<=", WEIGHT) for p in clash.places])
    t, i = clash.transition, clash.states.firing(clash.state, clash.transition)
    sheet, n = tasks[i].sheet.model, clash.states.found[clash.state][i]
    counts = [fault_keys.count(net, p, held.get(p, 0), ">=", net.taken[t][p]) for p in net.starved(held, t)]
    counts += [fault_keys.count(net, p, held.get(p, 0) + net.put[t][p], "<=", net.capacity[p]) for p in net.overfilled(held, t)]
    return {**fault_keys.arrow(net, sheet, n, t, sheet.arcs[n][t]), **fault_keys.of_places(counts)}


def at(net, clash):
    """The state, and what it fires."""
    return f"state {'+'.join(clash.states.names(clash.state))}" + (f", {net.transitions[clash.transition]}" if clash.what == "dependent" else "")


def wrong(net, clash, p):
    """What is wrong at a place."""
    t, holds = clash.transition, clash.states.counts[clash.state].get(p, 0)
    if clash.what == "count":
        return f"{holds}, and a count is at most {WEIGHT:,}"
    if holds < net.taken[t].get(p, 0):
        return f"{net.transitions[t]} takes {net.taken[t][p]}, and there is {holds}"
    return no_room(net, t, p, holds)


def changes(net, clash, p):
    """How a place comes to what it holds in a state."""
    found = [(task, task.change(n, p)) for task, n in zip(clash.states.tasks, clash.states.found[clash.state])]
    told = [f"{inline(task.sheet.path)} has {'put' if change > 0 else 'taken'} {abs(change)}" for task, change in found if change]
    return f"it starts with {net.start.get(p, 0)}" + "".join(f", {part}" for part in told)
