"""Metrics of how long keys of a predicate hold: the sum of the times, or the longest of them."""
from collections import namedtuple

from compared.counted import GREATEST_NUMBER
from compared.history import Arrival, places_in
from compared.knowledge import Knowledge
from compared.metrics import Metric, number_row

# A key that holds: whether the condition is true for it, and the key that the metric shows for it.
Live = namedtuple("Live", "is_true shown")

# What stands after a step: the keys that hold, in their order, and how many found no room so far.
Told = namedtuple("Told", "live drops")


class Duration(Metric):
    """A metric that times a simple predicate. It has a table of its own by the predicate's rules, with the metric's
    bound, from the installation on."""

    field_number = 6

    def __init__(self, tree, config):
        super().__init__(tree, config)
        self.timed = Knowledge(config.predicates.predicates[self.what]["simple"], self.bound)

    def leaves_in(self, key):
        """What a key of the table has in fields that are among its own."""
        return lambda fields: tuple(key[self.timed.fields.leaves.index(leaf)] for leaf in fields.leaves)

    def tell(self, atom=None, truths=None):
        if atom is not None:
            self.timed.act(truths, atom)
        live = {}
        for key, count in self.timed.counts.items():
            if count > 0:
                leaves_of = self.leaves_in(key)
                live[key] = Live(self.condition.is_true(leaves_of), (leaves_of(self.fields), self.sliced(leaves_of)))
        self.told.append(Told(live, self.timed.drops))

    def lost(self, since):
        return self.told[-1].drops - (self.told[since].drops if since >= 0 else 0)


class Sum(Duration):
    """The time in which some key that is shown as one holds while its condition is true."""

    def active(self, place):
        """What is shown of the keys that hold with a true condition after a step, each once, in their order."""
        return list(dict.fromkeys(live.shown for live in self.told[place].live.values() if live.is_true))

    def arrivals(self, part):
        """A run is a longest stretch of a part in which a key is active. It arrives where it begins, at the part's
        start or at a step, with its length; one that goes on has no length yet."""
        steps = self.config.steps
        within = [(part.start, part.opened, self.active(part.opened - 1))]
        within += [(steps[place].at, place, self.active(place)) for place in places_in(part, steps)]
        for number, (begin, place, active) in enumerate(within):
            before = within[number - 1][2] if number > 0 else []
            for key in active:
                if key not in before:
                    ends = [at for at, _, later in within[number + 1 :] if key not in later]
                    end = ends[0] if ends else part.end
                    yield Arrival(place, key, None if end is None else end - begin)

    def row(self, part, key, contributions):
        total = min(sum(contributions), GREATEST_NUMBER)
        return number_row(part, key, total) if total > 0 else None


class Longest(Duration):
    """The longest time of one key, which counts where it ends."""

    def arrivals(self, part):
        """A key that held and holds no more arrives, with the time since it began to hold in which its condition was
        true, over all buckets."""
        steps = self.config.steps
        for place in places_in(part, steps):
            for key, live in self.told[place - 1].live.items():
                if key not in self.told[place].live:
                    yield Arrival(place, live.shown, self.held(key, place))

    def held(self, key, end):
        """The time with a true condition in which a key held up to a step, since it began to."""
        steps, total, place = self.config.steps, 0, end - 1
        while place >= 0 and key in self.told[place].live:
            if self.told[place].live[key].is_true:
                total += steps[place + 1].at - steps[place].at
            place -= 1
        return total

    def row(self, part, key, contributions):
        greatest = min(max(contributions), GREATEST_NUMBER)
        return number_row(part, key, greatest) if greatest > 0 else None
