"""A net and a sheet spread out as a person would draw them: a row for each transition or node, a column for each place."""
from lineup.visible import inline

NONE, BAR = ".", "|"  # an empty cell, and what stands between the arrows and the counts


class Table:
    """Rows of cells under a head. Names stand left, cells right."""

    def __init__(self, title, columns):
        self.title, self.columns, self.rows = title, columns, []

    def add(self, name, cells):
        self.rows.append([inline(name), *cells])

    def lines(self):
        head = ["", *map(inline, self.columns)]
        wide = [max(len(row[i]) for row in [head, *self.rows]) for i in range(len(head))]
        shown = [[f"{row[0]:<{wide[0]}}", *(f"{cell:>{width}}" for cell, width in zip(row[1:], wide[1:]))] for row in [head, *self.rows]]
        return [f"  {self.title}", *("    " + "  ".join(row).rstrip() for row in shown)]


def counts(net):
    """What the places start with, and their capacities."""
    table = Table("starting counts and capacities", ["starts", "capacity"])
    for p, name in enumerate(net.places):
        table.add(name, [told(net.start.get(p, 0)), told(net.capacity.get(p, 0))])
    return table


def taken(net):
    table = Table("what each transition takes", net.places)
    for t, name in enumerate(net.transitions):
        table.add(name, [told(net.taken[t].get(p, 0)) for p in range(len(net.places))])
    return table


def changes(net):
    """{transition: {place: put - taken}}, of what is not 0."""
    by = [{p: net.put[t].get(p, 0) - net.taken[t].get(p, 0) for p in range(len(net.places))} for t in range(len(net.transitions))]
    return [{p: change for p, change in row.items() if change} for row in by]


def signed(net):
    table = Table("what firing it changes: put - taken", net.places)
    for name, row in zip(net.transitions, changes(net)):
        table.add(name, [f"{row[p]:+}" if p in row else NONE for p in range(len(net.places))])
    return table


def grid(net, sheet):
    """For each node where its arrows lead, and what it holds."""
    table = Table("the grid: where each node's arrows lead, and what it holds", [*net.transitions, BAR, *net.places])
    for n, name in enumerate(sheet.nodes):
        arrows = [inline(sheet.nodes[sheet.arcs[n][t]]) if t in sheet.arcs[n] else NONE for t in range(len(net.transitions))]
        table.add(name, [*arrows, BAR, *(told(sheet.counts[n].get(p, 0)) for p in range(len(net.places)))])
    return table


def told(number):
    return str(number) if number else NONE
