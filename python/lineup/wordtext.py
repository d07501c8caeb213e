"""Word files as they are written: decimal, with a remark on each line that tells what its words are about."""
from lineup.words import net_entries, net_entry, sheet_entries, sheet_entry


def net_text(net):
    sizes = len(net.places), len(net.transitions)

    def remark(whats):
        kind, *at = whats[0]
        held = net.held({what[-1]: 1 for what in whats})
        if kind == "start":
            return f"starting counts of {held}"
        if kind == "capacity":
            return f"capacities of {held}"
        return f"{net.transitions[at[0]]} {'takes from' if kind == 'taken' else 'puts into'} {held}"

    entries = net_entries(net)
    groups = grouped(entries, lambda key: net_entry(*sizes, key), lambda what: what[:-1])
    return words_text(sizes, entries, groups, "places, transitions, entries", "weights", remark)


def sheet_text(net, sheet):
    sizes = len(net.places), len(net.transitions), len(sheet.nodes)

    def remark(whats):
        kind, n, _ = whats[0]
        if kind == "count":
            return f"node {sheet.nodes[n]} holds {net.held({p: sheet.counts[n][p] for _, _, p in whats})}"
        arrows = [f"{net.transitions[t]} -> {sheet.nodes[sheet.arcs[n][t]]}" for _, _, t in whats]
        return f"node {sheet.nodes[n]}: {', '.join(arrows)}"

    entries = sheet_entries(net, sheet)
    groups = grouped(entries, lambda key: sheet_entry(*sizes, key), lambda what: what[:2])
    return words_text(sizes[2:], entries, groups, "nodes, entries", "values", remark)


def grouped(entries, about, group):
    """The keys that belong together, rising, as lists of (key, what it is about)."""
    groups = []
    for key in sorted(entries):
        what = about(key)
        if not groups or group(groups[-1][-1][1]) != group(what):
            groups.append([])
        groups[-1].append((key, what))
    return groups


def words_text(sizes, entries, groups, head, values, remark):
    lines = [" ".join(map(str, [*sizes, len(entries)])) + f"   # {head}"]
    for title, word in (("keys", lambda key: key), (values, entries.get)):
        lines += ["", f"# {title}"] if groups else []
        for group in groups:
            lines.append(" ".join(str(word(key)) for key, _ in group) + f"   # {remark([what for _, what in group])}")
    return "\n".join(lines) + "\n"
