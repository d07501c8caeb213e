"""Places as bars of text: what each holds now, the most that it ever holds, and its top."""
import sys

from lineup.shapes import cut

LONG = 20  # characters of a bar
PLAIN, DRAWN = "#-.", "\u2588\u2591\u00b7"  # held now; up to the most that is ever held; up to the top, and never held


def signs():
    """What bars are made of: the terminal may have no letters but the plain ones."""
    try:
        DRAWN.encode(sys.stdout.encoding)
    except (AttributeError, LookupError, TypeError, UnicodeEncodeError):
        return PLAIN
    return DRAWN


def key(drawn):
    return f"{drawn[0]} held, {drawn[1]} up to the most that is ever held, {drawn[2]} up to the top"


def rows(net, counts, bounds, drawn):
    """A line for each place, its name shortened where it is long, its numbers never."""
    names = [cut(name) for name in net.places]
    wide = max(map(len, names))
    deep = max(len(str(count)) for count in [*counts.values(), 0])
    lines = []
    for p, name in enumerate(names):
        held, top = counts.get(p, 0), net.capacity.get(p, 0)
        whole = max(top, bounds[p], 1)
        full, ever = cells(held, whole), cells(bounds[p], whole)
        shown = drawn[0] * full + drawn[1] * (ever - full) + drawn[2] * (LONG - ever)
        lines.append(f"  {name:{wide}} {shown} {held:{deep}}  at most {bounds[p]}" + (f", top {top}" if top else ""))
    return lines


def cells(count, whole):
    """How much of a bar: something for what is not 0, and all of it only for the whole."""
    return LONG if count == whole else 0 if not count else min(max(round(LONG * count / whole), 1), LONG - 1)
