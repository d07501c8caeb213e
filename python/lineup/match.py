"""A sheet over one net laid over another that has the same places and transitions by name, in whatever order."""
import copy

from lineup import words
from lineup.sheet import Sheet
from lineup.trouble import Trouble
from lineup.visible import inline, quoted


def mapped(source, own, onto):
    """The sheet of a folder, over the folder's own net, as one over the net given."""
    if own.words == onto.words and not (own.has_names() and onto.has_names() and names_of(own.model) != names_of(onto.model)):
        return source
    if not (own.model and source.model and onto.model):
        message = f"its words cannot be laid over {inline(onto.path)}: lineup check tells what is wrong with them"
        raise Trouble(message, source.path)
    found = differences(own.model, onto.model)
    if found:
        told = "".join(f"\n  {line}" for line in found[:8]) + (f"\n  and {len(found) - 8} more" if len(found) > 8 else "")
        raise Trouble(f"its own net is not that of {inline(onto.path)}:{told}", source.path)
    result = copy.copy(source)
    result.model = renumbered(source.model, own.model, onto.model)
    result.words, result.word_where = words.sheet_words(onto.model, result.model), []
    return result


def names_of(net):
    return net.places, net.transitions


def differences(own, other):
    """What tells two nets apart, by name: a sentence each."""
    found = missing(own.places, other.places, "place") + missing(own.transitions, other.transitions, "transition")
    if found:
        return found
    for p, name in enumerate(own.places):
        here, there = own.start.get(p, 0), other.start.get(other.places.index(name), 0)
        if here != there:
            found.append(f"place {quoted(name)} starts with {here} here and {there} there")
        here, there = (net.capacity.get(net.places.index(name), "any number") for net in (own, other))
        if here != there:
            found.append(f"place {quoted(name)} can hold {here} here and {there} there")
    for t, name in enumerate(own.transitions):
        u = other.transitions.index(name)
        for verb, here, there in (("takes", own.taken[t], other.taken[u]), ("puts", own.put[t], other.put[u])):
            if by_name(own, here) != by_name(other, there):
                found.append(f"transition {quoted(name)} {verb} {own.held(here)} here and {other.held(there)} there")
    return found


def missing(here, there, what):
    return [f"{what} {quoted(name)} is only here" for name in here if name not in there] + [
        f"{what} {quoted(name)} is only there" for name in there if name not in here
    ]


def by_name(net, counts):
    return {net.places[p]: count for p, count in counts.items()}


def renumbered(sheet, own, onto):
    """The sheet with the other net's numbers for the same names."""
    place = {p: onto.places.index(name) for p, name in enumerate(own.places)}
    transition = {t: onto.transitions.index(name) for t, name in enumerate(own.transitions)}
    result = Sheet(sheet.name)
    for n, name in enumerate(sheet.nodes):
        result.add(name)
        result.arcs[n] = {transition[t]: m for t, m in sheet.arcs[n].items()}
        result.counts[n] = {place[p]: count for p, count in sheet.counts[n].items()}
    for what, where in sheet.where.items():
        if what[0] != "node":
            what = (what[0], what[1], (transition if what[0] == "arc" else place)[what[2]])
        result.where[what] = where
    return result
