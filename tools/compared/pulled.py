"""Metrics of snapshots: values and gauges of atoms that are pulled."""
from collections import namedtuple

from compared.atoms import fields_of
from compared.counted import SUM, aggregated, integer_at, sample_of, sample_row
from compared.history import Arrival, places_in
from compared.matching import matches
from compared.metrics import Metric, number_row

INCREASING, DECREASING, ANY_DIRECTION = 1, 2, 3
CHANGE_TO_TRUE = 3

# What stands after a step: whether the condition is true, what the metric takes from the snapshot (None where there is
# none), and whether the step is an atom for which the trigger holds.
Told = namedtuple("Told", "is_true snapshot is_trigger")

# A time in a part in which the condition is true: the places at which it begins and ends, and the snapshots there. One
# that goes on has no end.
Interval = namedtuple("Interval", "begin first end last")


class Pulled(Metric):
    """A metric that acts on snapshots alone, in the times in which its condition is true."""

    def __init__(self, tree, config):
        super().__init__(tree, config)
        self.matcher = config.matchers[self.what]["simple"]

    def taken(self, atoms):
        """What it takes from the atoms of a snapshot for which its matcher holds."""
        raise NotImplementedError

    def tell(self, atom=None, truths=None):
        atoms = self.config.books.pulls.snapshot(self.matcher["atom_id"])
        snapshot = None if atoms is None else self.taken([one for one in atoms if matches(self.matcher, one)])
        is_trigger = atom is not None and truths.holds(self.tree.get("trigger"))
        self.told.append(Told(self.condition.is_true(lambda _: ()), snapshot, is_trigger))

    def turned_true(self, part):
        """The places in a part after which the condition is true and before which it wasn't."""
        places = places_in(part, self.config.steps)
        return [place for place in places if self.told[place].is_true and not self.told[place - 1].is_true]

    def beginnings(self, part):
        """Where intervals begin: the place, the snapshot, and the first place after it. At a part's start the snapshot
        is that of the step before."""
        before = self.told[part.opened - 1]
        at_start = [(part.opened, before.snapshot, part.opened)] if before.is_true else []
        return at_start + [(place, self.told[place].snapshot, place + 1) for place in self.turned_true(part)]

    def intervals(self, part):
        """The intervals of a part. Each ends at the next step after which the condition isn't true, or else with the
        part."""
        for begin, first, after in self.beginnings(part):
            later = [place for place in places_in(part, self.config.steps) if place >= after]
            ends = [place for place in later if not self.told[place].is_true]
            if ends:
                yield Interval(begin, first, ends[0], self.told[ends[0]].snapshot)
            elif part.closed is not None:
                yield Interval(begin, first, part.closed, self.told[part.closed - 1].snapshot)


class PulledValue(Pulled):
    """By how much numbers changed over the intervals."""

    field_number = 7

    def __init__(self, tree, config):
        super().__init__(tree, config)
        self.value_field = fields_of(tree["field"])

    def taken(self, atoms):
        """The sums of the numbers by key, in the order in which the keys come."""
        sums = {}
        for atom in atoms:
            number = integer_at(atom, self.value_field)
            if number is not None:
                key = (atom.key(self.fields), ())
                sums[key] = sums.get(key, 0) + number
        return sums

    def difference(self, first, last):
        """The difference of two sums, or None where none counts. After a reset the last may count by itself."""
        direction = self.tree.get("direction", INCREASING)
        if direction == ANY_DIRECTION:
            return last - first
        change = last - first if direction == INCREASING else first - last
        if change >= 0:
            return change
        return last if self.tree.get("absolute", False) else None

    def arrivals(self, part):
        """At the end of an interval each key of its last snapshot arrives that was in the first too, or that is taken
        to have begun at 0."""
        for interval in self.intervals(part):
            if interval.first is None or interval.last is None:
                continue
            for key, last in interval.last.items():
                if key in interval.first or self.tree.get("zero_base", False):
                    difference = self.difference(interval.first.get(key, 0), last)
                    if difference is not None:
                        yield Arrival(interval.end, key, difference)

    def missed(self, part):
        return [one.end for one in self.intervals(part) if one.first is None or one.last is None]

    def row(self, part, key, contributions):
        value = aggregated(self.tree.get("aggregation", SUM), contributions)
        return None if value == 0 and self.tree.get("skip_zero", True) else number_row(part, key, value)


class PulledGauge(Pulled):
    """Samples of snapshots."""

    field_number = 8

    def taken(self, atoms):
        return [((atom.key(self.fields), ()), sample_of(self.tree, atom)) for atom in atoms]

    def moments(self, part):
        """When it samples, and the snapshot then: at each atom for which the trigger holds while the condition is true;
        where the condition turns true; or at the beginning of each interval."""
        places = places_in(part, self.config.steps)
        if "trigger" in self.tree:
            chosen = [place for place in places if self.told[place].is_trigger and self.told[place].is_true]
            return [(place, self.told[place].snapshot) for place in chosen]
        if self.tree.get("sampling") == CHANGE_TO_TRUE:
            return [(place, self.told[place].snapshot) for place in self.turned_true(part)]
        return [(place, snapshot) for place, snapshot, _ in self.beginnings(part)]

    def arrivals(self, part):
        for place, snapshot in self.moments(part):
            for key, sample in snapshot or []:
                yield Arrival(place, key, sample)

    def missed(self, part):
        return [place for place, snapshot in self.moments(part) if snapshot is None]

    def row(self, part, key, contributions):
        return sample_row(self.tree, part, key, contributions)
