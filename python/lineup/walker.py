"""A walker over an accepted sheet: it follows arrows from the first node, goes back, and can be left to chance."""
import random

from lineup.faults import FIRINGS
from lineup.trouble import Trouble


class Walker:
    """`fired` are the transitions so far, and `stood` the nodes on the way, the first one and the present one among them."""

    def __init__(self, sheet, seed=None):
        self.sheet, self.fired, self.stood = sheet, [], [0]
        self.seed = random.SystemRandom().randrange(10**6) if seed is None else seed
        self.chance = random.Random(self.seed)

    def node(self):
        return self.stood[-1]

    def counts(self):
        return self.sheet.counts[self.node()]

    def offered(self):
        """The transitions that have an arrow here, and where it leads."""
        return sorted(self.sheet.arcs[self.node()].items())

    def fire(self, t):
        if len(self.fired) == FIRINGS:
            raise Trouble(f"there are {FIRINGS:,} firings, as many as a record may have")
        self.stood.append(self.sheet.arcs[self.node()][t])
        self.fired.append(t)

    def back(self, many=1):
        """Takes back firings, as far as there are any."""
        many = min(many, len(self.fired))
        del self.fired[len(self.fired) - many :], self.stood[len(self.stood) - many :]

    def at_random(self, many):
        """Fires so many, each as likely as the others that are offered. By the first numbers of a seed alone, which no version of Python changes."""
        for _ in range(many):
            offered = self.offered()
            self.fire(offered[int(self.chance.random() * len(offered))][0])
