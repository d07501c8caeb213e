"""Refusals of a log, 23, and of its firings, 20 and 24: by firing, transition and node."""
from lineup.faults import FIRINGS


def log_fault(answer, net, sheet, log):
    """Where a fault of a log stands, and sentences that tell it."""
    if answer.number == 23:
        return shape(log)
    i, many = answer.index, log.words[0]
    node = log.words[many + i] if i else 0  # where the firing before it has led, or the root
    t, named = log.words[1 + i], log.words[1 + many + i]
    name = net.transitions[t] if t < len(net.transitions) else f"transition {t}"
    firing = f"firing {i + 1} of {many}, {name}"
    if answer.number == 20:
        offered = net.listed(sorted(sheet.arcs[node]))
        return log.locate(("firing", i)) or log.locate_word(1 + i), [f"{firing}: node {sheet.nodes[node]} offers {offered}"]
    says = f"node {sheet.nodes[named]}" if named < len(sheet.nodes) else f"node number {named}, and the nodes are 0 to {len(sheet.nodes) - 1}"
    line = f"{firing}: leads from node {sheet.nodes[node]} to node {sheet.nodes[sheet.arcs[node][t]]}, and the log says {says}"
    return log.locate(("firing", i)) or log.locate_word(1 + many + i), [line]


def shape(log):
    """Another length, or more firings than there may be."""
    words = log.words
    if not words:
        if not log.is_words():
            return None, ["there is no firing, and no line 'log NAME', by which a log without firings says so"]
        return None, ["there is no word, and a log begins with the number of its firings"]
    many = words[0]
    if many > FIRINGS:
        return log.locate(("firing", FIRINGS)) or log.locate_word(0), [f"the log has {many} firings, and may have {FIRINGS:,}"]
    given, needed = max(len(words), len(log.data) // 4 if log.form == "bytes" else 0), 1 + 2 * many
    off = f"{needed - given} too few" if given < needed else f"{given - needed} too many"
    return log.locate_word(0), [f"N, the first word, says {many} firings, which makes 1 + 2 * {many} = {needed} words; there are {given}, {off}"]
