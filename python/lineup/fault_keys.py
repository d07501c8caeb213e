"""What a refusal is about, for programs: node, transition, target, place and entry, and the counts that do not fit, each with what is needed."""
from lineup import mending, words
from lineup.explain_schedule import arc_at
from lineup.faults import WEIGHT

NONE = {"node": None, "transition": None, "target": None, "place": None, "entry": None, "counts": []}
OF_NODE, OF_ARC, OF_ENTRY = {11, 12, 13, 16, 17, 33}, {14, 15, 27}, {3, 4, 8, 9}


def of(fault, net, sheet, record=None, log=None):
    """The keys that a fault has; those of NONE that it is not about are left out."""
    if fault.number in OF_ENTRY:
        return {"entry": fault.index, **(net_entry(fault, net) if fault.number < 6 else sheet_entry(fault, net, sheet))}
    if fault.number == 26:
        return of_places([count(net.model, p, net.model.start[p], "<=", net.model.capacity[p]) for p in net.model.overfull(net.model.start)])
    if fault.number == 10:
        return {"node": sheet.model.nodes[0], **of_places(start(net.model, sheet.model))}
    if fault.number in OF_NODE:
        return {"node": sheet.model.nodes[fault.index]}
    if fault.number in OF_ARC:
        n, t, m = arc_at(fault.index, net.model, sheet.model, sheet.words)
        return {"entry": fault.index, **arrow(net.model, sheet.model, n, t, m), **of_places(ARC_COUNTS[fault.number](net.model, sheet.model, n, t, m))}
    if fault.number in (20, 24):
        return firing(fault.index, net.model, sheet.model, record if log is None else log.words[1 : 1 + log.words[0]])
    if fault.number == 25:
        return misfit(net.model, sheet.model)
    if fault.number == 32 and fault.kind == "entry":
        return {"transition": net.model.transitions[fault.index]}
    return {}


# ---- entries of words, which may speak of what is not there


def net_entry(fault, net):
    places, transitions = net.words[:2]
    about = words.net_entry(places, transitions, net.words[words.NET_HEAD + fault.index])
    if about is None:
        return {}
    name = lambda kind, i: getattr(net.model, f"{kind}s")[i] if net.model else net.names.one(kind, i)
    found = {"place": name("place", about[-1])}
    if len(about) == 3:
        found["transition"] = name("transition", about[1])
    if fault.number == 4:
        found["counts"] = [in_range(found["place"], net.words[words.NET_HEAD + net.words[2] + fault.index])]
    return found


def sheet_entry(fault, net, sheet):
    places, transitions, nodes = net.words[0], net.words[1], sheet.words[0]
    kind, n, at = words.sheet_entry(places, transitions, nodes, sheet.words[words.SHEET_HEAD + fault.index])
    if n >= nodes:
        return {}
    found = {"node": sheet.model.nodes[n] if sheet.model else sheet.names.one("node", n)}
    if kind == "arc":
        return {**found, "transition": net.model.transitions[at]}
    found["place"] = net.model.places[at]
    if fault.number == 9:
        found["counts"] = [in_range(found["place"], sheet.words[words.SHEET_HEAD + sheet.words[1] + fault.index])]
    return found


def in_range(place, number):
    return {"place": place, "is": number, **({"relation": ">=", "needed": 1} if number < 1 else {"relation": "<=", "needed": WEIGHT})}


# ---- counts


def count(net, p, is_, relation, needed):
    """A count that does not stand in a relation to what is needed."""
    return {"place": net.places[p], "is": is_, "relation": relation, "needed": needed}


def of_places(counts):
    return {"place": counts[0]["place"] if counts else None, "counts": counts}


def unequal(net, one, other):
    """Where the first counts are not the others, which are needed."""
    places = [p for p in range(len(net.places)) if one.get(p, 0) != other.get(p, 0)]
    return [count(net, p, one.get(p, 0), "=", other.get(p, 0)) for p in places]


def start(net, sheet):
    return unequal(net, sheet.counts[0], net.start)


def starved(net, sheet, n, t, m):
    return [count(net, p, sheet.counts[n].get(p, 0), ">=", net.taken[t][p]) for p in net.starved(sheet.counts[n], t)]


def overfull(net, sheet, n, t, m):
    return [count(net, p, sheet.counts[n].get(p, 0) + net.put[t][p], "<=", net.capacity[p]) for p in net.overfilled(sheet.counts[n], t)]


def landing(net, sheet, n, t, m):
    return unequal(net, sheet.counts[m], net.fired(sheet.counts[n], t))


ARC_COUNTS = {14: starved, 15: landing, 27: overfull}


# ---- arrows and firings


def arrow(net, sheet, n, t, m):
    return {"node": sheet.nodes[n], "transition": net.transitions[t], "target": sheet.nodes[m]}


def firing(i, net, sheet, record):
    """The node where a firing comes up, and the target that it leads to, if it does."""
    node = 0
    for t in record[:i]:
        node = sheet.arcs[node][t]
    t = record[i]
    found = {"node": sheet.nodes[node], "transition": net.transitions[t] if t < len(net.transitions) else None}
    return {**found, "target": sheet.nodes[sheet.arcs[node][t]]} if t in sheet.arcs[node] else found


def misfit(net, sheet):
    """25: the arrow by which no counts fit, and the counts that firing gives there."""
    found = mending.worked_out(net, sheet)[1]
    if found.what == "entries":
        return {}
    n, t = found.node, found.transition
    m, held = sheet.arcs[n][t], found.counts[n]
    after = lambda p: held.get(p, 0) - net.taken[t].get(p, 0) + net.put[t].get(p, 0)
    told = {
        "starved": lambda p: count(net, p, held.get(p, 0), ">=", net.taken[t][p]),
        "overfull": lambda p: count(net, p, held.get(p, 0) + net.put[t][p], "<=", net.capacity[p]),
        "count": lambda p: count(net, p, after(p), "<=", WEIGHT),
        "unequal": lambda p: count(net, p, found.counts[m].get(p, 0), "=", after(p)),
    }[found.what]
    return {**arrow(net, sheet, n, t, m), **of_places([told(p) for p in found.places])}
