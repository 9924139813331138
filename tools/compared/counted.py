"""Metrics of the atoms of the log as they come: events, counts, pushed values and pushed gauges."""
from session_text.layout import INT, LONG, REPORT

from compared.activity import Activity
from compared.atoms import fields_of
from compared.history import OVERFLOW, Arrival, Row, places_in
from compared.metrics import Metric, Shown, number_row

SUM, LEAST, GREATEST = 1, 2, 3
LEAST_NUMBER, GREATEST_NUMBER = -(2**63), 2**63 - 1
RANDOM_ONE = 1
DEFAULT_SAMPLES = 10


class Counted(Metric):
    """A metric to which an atom arrives for which its matcher holds while it is active and its condition is true, all
    after the atom has acted on states, predicates and activations."""

    def __init__(self, tree, config):
        super().__init__(tree, config)
        self.activity = Activity(tree.get("activations", []))

    def contribution(self, atom):
        """What an atom contributes, or None where it doesn't arrive."""
        raise NotImplementedError

    def tell(self, atom=None, truths=None):
        arrived = None
        if atom is not None and self.takes(atom, truths):
            contribution = self.contribution(atom)
            if contribution is not None:
                arrived = ((atom.key(self.fields), self.sliced(atom.key)), contribution)
        self.told.append(arrived)

    def takes(self, atom, truths):
        """An atom is one that the metric takes, once it has told the activations what it says of them."""
        at = self.config.steps[-1].at
        self.activity.tell(at, truths)
        return truths.holds(self.what) and self.activity.is_active(at) and self.condition.is_true(atom.key)

    def arrivals(self, part):
        for place in places_in(part, self.config.steps):
            if self.told[place] is not None:
                yield Arrival(place, *self.told[place])


class Count(Counted):
    """A count of atoms. It may ask that those of keys that find no room are counted together, too."""

    field_number = 5

    def __init__(self, tree, config):
        super().__init__(tree, config)
        self.has_overflow = tree.get("overflow", False)

    def contribution(self, atom):
        return 1

    def row(self, part, key, contributions):
        return number_row(part, key, min(len(contributions), GREATEST_NUMBER))

    def overflow_row(self, part, spilled):
        return self.row(part, OVERFLOW, spilled) if self.has_overflow and spilled else None


def aggregated(aggregation, contributions):
    """The sum, the least or the greatest: exact, and then the nearest number of 64 bits."""
    exact = {SUM: sum, LEAST: min, GREATEST: max}[aggregation](contributions)
    return max(LEAST_NUMBER, min(GREATEST_NUMBER, exact))


def integer_at(atom, fields):
    """The Int or Long that an atom has in the one field of a value; None where it has none."""
    value = atom.key(fields)[0]
    return value.content if value is not None and value.kind in (INT, LONG) else None


class PushedValue(Counted):
    """Numbers that atoms bring."""

    field_number = 7

    def __init__(self, tree, config):
        super().__init__(tree, config)
        self.value_field = fields_of(tree["field"])

    def contribution(self, atom):
        return integer_at(atom, self.value_field)

    def row(self, part, key, contributions):
        return number_row(part, key, aggregated(self.tree.get("aggregation", SUM), contributions))


def samples_kept(tree):
    """How many samples of a key a gauge keeps in a part."""
    return 1 if tree.get("sampling", RANDOM_ONE) == RANDOM_ONE else tree.get("samples", DEFAULT_SAMPLES)


def sample_of(tree, atom):
    """What a gauge keeps of an atom: all, or the fields that its filter names."""
    kept = tree.get("filter", {})
    return atom if kept.get("include_all", False) else atom.filtered(fields_of(kept.get("fields")))


def sample_row(tree, part, key, samples):
    """A row of the first samples."""
    kept = samples[: samples_kept(tree)]
    return Row(key, part.start, part.end, kept, len(kept))


class PushedGauge(Counted):
    """Samples of the atoms of the log."""

    field_number = 8

    def contribution(self, atom):
        return sample_of(self.tree, atom)

    def row(self, part, key, contributions):
        return sample_row(self.tree, part, key, contributions)


class Event(Counted):
    """Atoms with their times. It has no buckets: each is a row of its own at once, and none is dropped."""

    field_number = 4

    def contribution(self, atom):
        return atom

    def shown(self):
        steps, shown = self.config.steps, Shown()
        earlier = [place for place, step in enumerate(steps[:-1]) if step.kind == REPORT]
        for place in range(earlier[-1] if earlier else 0, len(steps)):
            if self.told[place] is not None:
                at = steps[place].at
                shown.kept.add(Row(None, at, at, self.told[place][1], 1))
        return shown
