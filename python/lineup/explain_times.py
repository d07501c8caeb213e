"""Refusals of durations, 32, and of a sheet with a loop that never waits, 33: by transition, and by the firings of the loop."""
from lineup import reacting
from lineup.reacting import LONGEST


def bad_duration(answer, net, times):
    """Where durations are at fault, and sentences that tell it."""
    many, words = len(net.transitions), times.words
    if reacting.duration_shape(words, many):
        return times.locate_word(0), [shape(many, words, times)]
    t = answer.index
    early, late = words[1 + t], words[1 + many + t]
    where = times.locate(("duration", t)) or times.locate_word(1 + t)
    if late > LONGEST:
        return where, [f"{net.transitions[t]} takes up to {late} seconds, and a duration is at most {LONGEST:,}"]
    return where, [f"{net.transitions[t]} takes at least {early} seconds and at most {late}: the earliest is above the latest"]


def shape(many, words, times):
    if not words:
        return "there is no word, and durations begin with the number of transitions"
    if words[0] != many:
        return f"the first word says {words[0]} transitions, and the net has {many}"
    given = max(len(words), len(times.data) // 4 if times.form == "bytes" else 0)
    off = f"{1 + 2 * many - given} too few" if given < 1 + 2 * many else f"{given - 1 - 2 * many} too many"
    return f"{many} transitions make 1 + 2 * {many} = {1 + 2 * many} words; there are {given}, {off}"


def endless(answer, net, source):
    """The loop through a node, sentences that tell it, and what a picture marks."""
    sheet, n = source.model, answer.index
    way = reacting.loop(sheet, set(sheet.awaits(net)), n)
    fired = ", ".join(f"{net.transitions[t]} -> {sheet.nodes[sheet.arcs[m][t]]}" for m, t in way)
    lines = [f"from node {sheet.nodes[n]}: {fired}", "no node on this loop waits, so that it may go round for ever, and there is no worst time"]
    ways_out = [(m, t) for m, _ in way for t in sorted(sheet.arcs[m]) if (m, t) not in way]
    if ways_out:
        out = ", ".join(f"{net.transitions[t]} at {sheet.nodes[m]}" for m, t in ways_out)
        lines.append(f"a way out does not help: {out} may never come")
    return source.locate(("node", n)) or source.locate(("arc", *way[0])), lines, {"nodes": sorted({m for m, _ in way}), "arcs": way}
