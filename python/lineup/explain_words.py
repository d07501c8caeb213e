"""Refusals of words, 1 to 9: sizes, lengths, keys and values, with the likely cause; and of a net by 26."""
from lineup.faults import ENTRIES, LINES, NODES, WEIGHT
from lineup.words import NET_HEAD, SHEET_HEAD, net_entry, net_keys, sheet_entry


def net_fault(answer, net):
    """Where a fault of the net stands, and sentences that tell it."""
    if answer.number == 1:
        return None, ragged(net, NET_HEAD, "net", "places, transitions, entries", "weights")
    if answer.number == 2:
        return net_size(net)
    if answer.number == 26:
        return net.locate(("capacity", answer.index), ("start", answer.index)), *overfull_start(net.model)
    if answer.number == 5:
        return net.locate(("transition", 0)), no_source(net)
    i = answer.index
    if answer.number == 3:
        places, transitions = net.words[:2]
        limit = f"(2 * {transitions} + 2) * {places} = {net_keys(places, transitions)}"
        return net.locate_word(NET_HEAD + i), key_order(net, NET_HEAD, i, limit, lambda i: net_said(net, i))
    weight = net.words[NET_HEAD + net.words[NET_HEAD - 1] + i]
    where = net.locate_word(NET_HEAD + net.words[NET_HEAD - 1] + i) or net.locate(net_about(net, i))
    said = f"{net_said(net, i, weight)}, and a weight is 1 to {WEIGHT:,}" + placed(net, NET_HEAD, i)
    return where, [said, *shut(net, net_about(net, i), weight)]


def sheet_fault(answer, net, sheet):
    """The same of a sheet."""
    if answer.number == 6:
        return None, ragged(sheet, SHEET_HEAD, "sheet", "nodes, entries", "values")
    if answer.number == 7:
        return sheet_size(sheet)
    i = answer.index
    places, transitions, nodes = net.words[0], net.words[1], sheet.words[0]
    if answer.number == 8:
        limit = f"{nodes} * ({transitions} + {places}) = {nodes * (transitions + places)}"
        return sheet.locate_word(SHEET_HEAD + i), key_order(sheet, SHEET_HEAD, i, limit, lambda i: sheet_said(net, sheet, i))
    value = sheet.words[SHEET_HEAD + sheet.words[SHEET_HEAD - 1] + i]
    where = sheet.locate_word(SHEET_HEAD + sheet.words[SHEET_HEAD - 1] + i) or sheet.locate(sheet_about(net, sheet, i))
    if sheet_about(net, sheet, i)[0] == "arc":
        fits = f"the nodes are 0 to {nodes - 1}"
    else:
        fits = f"a count is 1 to {WEIGHT:,}; one of 0 is left out"
    return where, [f"{sheet_said(net, sheet, i, value)}, and {fits}" + placed(sheet, SHEET_HEAD, i)]


# ---- lengths and sizes


def ragged(source, head, what, sizes, values):
    words = source.words
    if source.tail:
        return [f"{len(source.data)} bytes are {len(words)} words of four bytes and {source.tail} over: the file is cut short, or is no word file"]
    if len(words) < head:
        return [f"there are {len(words)} words, and a {what} begins with {head}: {sizes}"]
    size, given = words[head - 1], max(len(words), len(source.data) // 4 if source.form == "bytes" else 0)
    needed = head + 2 * size
    off = f"{needed - given} too few" if given < needed else f"{given - needed} too many"
    which = "third" if head == NET_HEAD else "second"
    found = [f"K, the {which} word, says {size} entries, which makes {head} + 2 * {size} = {needed} words; there are {given}, {off}"]
    return found + [f"likely: {cause}" for cause in ragged_causes(words, head, size, values)]


def ragged_causes(words, head, size, values):
    """What may have gone wrong with a length: keys rise, so that where they end can mostly be seen."""
    rest = words[head:]
    rising = next((i for i in range(1, len(rest)) if rest[i] <= rest[i - 1]), len(rest))
    if len(rest) % 2 == 0 and rising == len(rest) // 2 != size:
        return [f"K should be {rising}: {rising} words rise as keys do, and as many follow"]
    if rising == size and len(rest) < 2 * size:
        lacking = 2 * size - len(rest)
        return [f"the {size} keys are there, and {lacking} of the {size} {values} {'is' if lacking == 1 else 'are'} missing"]
    if rising == size - 1 and len(rest) == 2 * size - 1:
        return ["a key is missing"]
    if len(rest) > 2 * size and rising == size:
        return [f"keys and {values} are there, and something follows them"]
    return ["the file is cut short"] if len(rest) < 2 * size else []


def net_size(net):
    places, transitions, size = net.words[:NET_HEAD]
    lines, where = [], None
    for count, what in ((places, "place"), (transitions, "transition")):
        if not 1 <= count <= LINES:
            lines.append(f"the net has {count} {what}s, and may have 1 to {LINES}")
            where = where or net.locate((what, LINES))
    if not lines:
        lines = [f"K says {size} entries, and {places} places with {transitions} transitions have at most {net_keys(places, transitions)}"]
    return where or net.locate_word(0), lines


def sheet_size(sheet):
    nodes, size = sheet.words[:SHEET_HEAD]
    if not 1 <= nodes <= NODES:
        return sheet.locate(("node", NODES)) or sheet.locate_word(0), [f"the sheet has {nodes} nodes, and may have 1 to {NODES}"]
    return sheet.locate_word(1), [f"the sheet has {size} arcs and counts, and may have {ENTRIES:,}"]


# ---- entries


def key_order(source, head, index, limit, said):
    key = source.words[head + index]
    if index and key <= source.words[head + index - 1]:
        before = source.words[head + index - 1]
        same = "is there twice" if key == before else f"comes after key {before} ({said(index - 1)}): keys rise"
        return [f"entry {index}: key {key} ({said(index)}) {same}" + placed(source, head, index)]
    return [f"entry {index}: key {key} is not below {limit}" + placed(source, head, index)]


def placed(source, head, index):
    """Where an entry stands in a file without lines."""
    if source.form != "bytes":
        return ""
    return f" (entry {index}: key at byte {4 * (head + index)}, value at byte {4 * (head + source.words[head - 1] + index)})"


def net_about(net, index):
    return net_entry(*net.words[:2], net.words[NET_HEAD + index])


def sheet_about(net, sheet, index):
    return sheet_entry(net.words[0], net.words[1], sheet.words[0], sheet.words[SHEET_HEAD + index])


def net_said(net, index, weight=None):
    """What an entry of the net says."""
    what = net_about(net, index)
    if what is None:
        return "nothing of this net"
    place = net.model.places[what[-1]] if net.model else net.names.one("place", what[-1])
    many = "" if weight is None else f" {weight}"
    if what[0] == "start":
        return f"{place} starts with{many}"
    if what[0] == "capacity":
        return f"{place} can hold" + ("" if weight is None else f" at most {weight}")
    transition = net.model.transitions[what[1]] if net.model else net.names.one("transition", what[1])
    return f"{transition} takes{many} from {place}" if what[0] == "taken" else f"{transition} puts{many} into {place}"


def shut(net, what, weight):
    """A capacity of 0 is meant to keep a place empty, and leaving it out would do the opposite."""
    if what[0] != "capacity" or weight != 0 or not net.model:
        return []
    place, putting = net.model.places[what[1]], [t for t, put in enumerate(net.model.put) if put.get(what[1])]
    now = f"; now {net.model.listed(putting)} {'puts' if len(putting) == 1 else 'put'} into it" if putting else ", as none does now"
    return [f"without a capacity {place} can hold any number; to keep it empty, let no transition put into it{now}"]


def sheet_said(net, sheet, index, value=None):
    """What an entry of the sheet says."""
    kind, n, at = sheet_about(net, sheet, index)
    node = sheet.model.nodes[n] if sheet.model else sheet.names.one("node", n)
    if kind == "arc":
        return f"node {node}, {net.model.transitions[at]} ->" + ("" if value is None else f" node {value}")
    return f"node {node}: {net.model.places[at]}" + ("" if value is None else f" holds {value}")


def no_source(net):
    told = [f"{name} takes {net.model.held(taken)}" for name, taken in zip(net.model.transitions, net.model.taken)]
    more = [f"and {len(told) - 8} more"] if len(told) > 8 else []
    return ["every transition takes something: " + "; ".join(told[:8] + more)]


def overfull_start(net):
    """Sentences that tell it, and what a picture marks."""
    places = net.overfull(net.start)
    return [f"{net.places[p]} starts with {net.start[p]}, and can hold at most {net.capacity[p]}" for p in places], {"places": places}
