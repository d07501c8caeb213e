"""Nets, sheets, logs and durations as the words that the core reads, and back: the formulas of the keys stand here alone."""
from lineup.net import Net
from lineup.sheet import Sheet

NET_HEAD, SHEET_HEAD = 3, 2  # words before the keys
NET_WORDS, SHEET_WORDS, LOG_WORDS = 4_228, 8_195, 8_194  # handed on of a longer file, one more than fits
LIST_WORDS = 8_193  # of a list of changes, at most
TIMES_WORDS, REPORT_WORDS = 66, 8_192  # of durations, handed on as above; of a report of times, at most
KEPT_WORDS = 128  # of a list of the nodes kept, at most
TASKS = 4  # sheets that are composed, at most


def keyed(entries):
    """Entries as words: how many, the rising keys, their values."""
    keys = sorted(entries)
    return [len(keys)] + keys + [entries[key] for key in keys]


# ---- the net: t takes from p, t puts into p, p starts with, p can hold


def net_key(places, transitions, what):
    kind, *at = what
    if kind == "taken":
        return at[0] * places + at[1]
    if kind == "put":
        return (transitions + at[0]) * places + at[1]
    return (2 * transitions + (kind == "capacity")) * places + at[0]


def net_entry(places, transitions, key):
    """What a key of the net is about, the other way round; nothing where it is about nothing."""
    row, p = divmod(key, places)
    if row < transitions:
        return ("taken", row, p)
    if row < 2 * transitions:
        return ("put", row - transitions, p)
    if row == 2 * transitions:
        return ("start", p)
    return ("capacity", p) if row == 2 * transitions + 1 else None


def net_keys(places, transitions):
    """All keys lie below this."""
    return (2 * transitions + 2) * places


def net_entries(net):
    """{key: weight} of a net."""
    weights = {("taken", t, p): weight for t, row in enumerate(net.taken) for p, weight in row.items()}
    weights.update({("put", t, p): weight for t, row in enumerate(net.put) for p, weight in row.items()})
    weights.update({("start", p): count for p, count in net.start.items()})
    weights.update({("capacity", p): most for p, most in net.capacity.items()})
    sizes = len(net.places), len(net.transitions)
    return {net_key(*sizes, what): weight for what, weight in weights.items()}


def net_words(net):
    return [len(net.places), len(net.transitions)] + keyed(net_entries(net))


def net_of(words, places, transitions):
    """The net that words say, with the names given. The words have to be in order."""
    net = Net()
    net.places, net.transitions = places, transitions
    net.taken, net.put = [{} for _ in transitions], [{} for _ in transitions]
    for key, weight in pairs(words, NET_HEAD):
        kind, *at = net_entry(len(places), len(transitions), key)
        if kind in ("start", "capacity"):
            (net.start if kind == "start" else net.capacity)[at[0]] = weight
        else:
            (net.taken if kind == "taken" else net.put)[at[0]][at[1]] = weight
    return net


# ---- the sheet: firing t at n leads to, p holds at n


def sheet_key(places, transitions, nodes, what):
    kind, n, at = what
    return n * transitions + at if kind == "arc" else nodes * transitions + n * places + at


def sheet_entry(places, transitions, nodes, key):
    """What a key of the sheet is about."""
    if key < nodes * transitions:
        return ("arc", *divmod(key, transitions))
    return ("count", *divmod(key - nodes * transitions, places))


def sheet_entries(net, sheet):
    """{key: value} of a sheet."""
    values = {("arc", n, t): m for n, row in enumerate(sheet.arcs) for t, m in row.items()}
    values.update({("count", n, p): count for n, row in enumerate(sheet.counts) for p, count in row.items()})
    sizes = len(net.places), len(net.transitions), len(sheet.nodes)
    return {sheet_key(*sizes, what): value for what, value in values.items()}


def sheet_words(net, sheet):
    return [len(sheet.nodes)] + keyed(sheet_entries(net, sheet))


def sheet_of(words, net, nodes):
    """The sheet that words say over a net, with the names given. The words have to be in order."""
    sheet = Sheet()
    for name in nodes:
        sheet.add(name)
    for key, value in pairs(words, SHEET_HEAD):
        kind, n, at = sheet_entry(len(net.places), len(net.transitions), len(nodes), key)
        (sheet.arcs if kind == "arc" else sheet.counts)[n][at] = value
    return sheet


def held(net, words, n):
    """What 32 places hold at a node by the words of a sheet, in order or not."""
    counts = [0] * 32
    if len(net) >= NET_HEAD and len(words) >= SHEET_HEAD:
        first = sheet_key(net[0], net[1], words[0], ("count", n, 0))
        for key, value in pairs(words, SHEET_HEAD):
            if 0 <= key - first < min(net[0], 32):
                counts[key - first] = value
    return counts


# ---- the log: how many firings, their transitions, the nodes that they reached


def log_words(log):
    return [len(log.firings)] + log.firings + log.nodes


# ---- durations: how many transitions, their earliest durations, their latest


def duration_words(durations):
    return [len(durations.early)] + durations.early + durations.late


# ---- the list of what mending changes: how many counts, their keys, the new counts


def change_words(net, changes):
    """The list of changes (node, place, given, new)."""
    return keyed({n * len(net.places) + p: new for n, p, _, new in changes})


def pairs(words, head):
    """Each key with its value."""
    size = words[head - 1]
    return zip(words[head : head + size], words[head + size :])
