"""A place/transition net with names: what each transition takes and puts, and what each place starts with and can hold."""
import copy


class Net:
    """Places and transitions are known by their numbers, which the order of their names gives. `taken[t]` and `put[t]` are {place: weight},
    `start` is {place: count} and `capacity` {place: the most it can hold}, of those that have one. `where` tells the line and column of
    ("place", p), ("transition", t), ("taken", t, p), ("put", t, p), ("start", p) and ("capacity", p), as far as they have one."""

    def __init__(self, name=""):
        self.name = name
        self.places, self.transitions = [], []
        self.taken, self.put, self.start, self.capacity = [], [], {}, {}
        self.where, self.removed = {}, frozenset()
        self.implied = []  # the places of a text that have no line of their own

    def only(self, source):
        """The net for a sheet of one source: the others are removed, but for their numbers. They are no sources and in no choice set."""
        net = copy.copy(self)
        net.removed = frozenset(self.sources()) - {source}
        return net

    def sources(self):
        """The transitions that take nothing."""
        return [t for t, taken in enumerate(self.taken) if not taken and t not in self.removed]

    def alike(self, t):
        """The transitions that take the same as t."""
        return [u for u, taken in enumerate(self.taken) if taken == self.taken[t] and u not in self.removed]

    def rivals(self, t):
        """The transitions that draw on a place which t draws on, and take otherwise."""
        return [u for u, taken in enumerate(self.taken) if taken != self.taken[t] and not taken.keys().isdisjoint(self.taken[t])]

    def choice_set(self, t):
        """All that take the same as t, or t alone where others draw on a place of theirs."""
        return [t] if self.rivals(t) else self.alike(t)

    def starved(self, counts, t):
        """The places that hold less than t takes."""
        return [p for p, weight in sorted(self.taken[t].items()) if counts.get(p, 0) < weight]

    def capacities(self):
        """By name, of the places that have one."""
        return {self.places[p]: most for p, most in sorted(self.capacity.items())}

    def overfull(self, counts):
        """The places that hold more than they can."""
        return [p for p, most in sorted(self.capacity.items()) if counts.get(p, 0) > most]

    def overfilled(self, counts, t):
        """The places that have no room for what t puts, beside what they hold before t takes anything."""
        return self.overfull({p: counts.get(p, 0) + weight for p, weight in self.put[t].items() if weight})

    def fired(self, counts, t):
        """What the places hold after t."""
        after = dict(counts)
        for p, weight in self.taken[t].items():
            after[p] = after.get(p, 0) - weight
        for p, weight in self.put[t].items():
            after[p] = after.get(p, 0) + weight
        return {p: count for p, count in after.items() if count}

    def held(self, counts):
        """Counts as a sheet writes them; `nothing` where all are 0."""
        from lineup.tokens import written

        parts = [written(self.places[p]) + (f"*{count}" if count != 1 else "") for p, count in sorted(counts.items())]
        return " ".join(parts) or "nothing"

    def listed(self, transitions):
        """Names of transitions for a sentence."""
        return ", ".join(self.transitions[t] for t in transitions) or "nothing"
