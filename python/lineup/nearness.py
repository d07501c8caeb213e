"""Which names are near one that is not there: a slip of the pen away, and not merely alike."""
import re

MOST = 2  # names that are told, of those equally near


def near(name, names):
    """The names that are nearest, if they are near. Capitals are no distance; another number is no slip, since tank2 is another tank than tank1."""
    found = {}
    for other in names:
        one, two = name.casefold(), other.casefold()
        if other_number(one, two):
            continue
        slips = distance(one, two, allowed(one, two))
        if slips is not None:
            found.setdefault(slips, []).append(other)
    nearest = found[min(found)] if found else []
    return nearest if len(nearest) <= MOST else []


def allowed(one, two):
    """How many slips a name of this length may have: none where it is short, since then anything is near."""
    return min(3, max(len(one), len(two)) // 3) if min(len(one), len(two)) > 2 else 0


def other_number(one, two):
    """Whether both have numbers, and others."""
    numbers = [re.findall("[0-9]+", name) for name in (one, two)]
    return all(numbers) and numbers[0] != numbers[1]


def distance(one, two, most):
    """How many letters are missing, too many, wrong or in the place of their neighbour; nothing where they are more than `most`."""
    if abs(len(one) - len(two)) > most:
        return None
    before, row = [], list(range(len(two) + 1))
    for i, a in enumerate(one, 1):
        before, above, row = row, before, [i]
        for j, b in enumerate(two, 1):
            least = min(before[j] + 1, row[j - 1] + 1, before[j - 1] + (a != b))
            if i > 1 and j > 1 and a == two[j - 2] and b == one[i - 2]:
                least = min(least, above[j - 2] + 1)
            row.append(least)
    return row[-1] if row[-1] <= most else None
