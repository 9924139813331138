"""What a session weighs, and how long its saved form is: both read again from what is live and what it holds.

The weight goes by entries, each 128 and what it holds. The length goes by the parts of the saved form, byte by byte:
nine for a number, and for what holds others a tag, a count and these."""
from session_text.layout import BITS, BOOL, INT, LONG, RAW, REPORT, STR

from compared.alarms import MOST_LISTED
from compared.counted import Count, Event, PushedGauge, PushedValue, samples_kept
from compared.durations import Longest
from compared.history import Step, guarded, parts_of
from compared.matching import matches
from compared.pulled import PulledGauge, PulledValue

ENTRY, PART, LIVE, SESSION = 128, 256, 512, 1_024
NUMBER, DIMS, SLICES, ATOM, CHUNK = 9, 3, 2, 3, 5

# The bytes of a value, besides those of a text.
SIZES = {INT: 4, LONG: 8, BOOL: 1, BITS: 4, STR: 2, RAW: 2}


def text_weight(value):
    """The bytes of a text."""
    return len(value.content) if value.kind in (STR, RAW) else 0


def values_in(leaf):
    """The values of a leaf: none, one, or a list."""
    return () if leaf is None else (leaf,) if hasattr(leaf, "kind") else leaf


def leaves_weight(leaves):
    """16 for a leaf and for each value in it, and the bytes of texts."""
    return sum(16 + sum(16 + text_weight(value) for value in values_in(leaf)) for leaf in leaves)


def value_bytes(value):
    """The bytes of a value with its kind."""
    return 1 + SIZES[value.kind] + text_weight(value)


def leaves_bytes(leaves):
    """The bytes of a key of leaves."""
    many = [2 if isinstance(leaf, tuple) and not hasattr(leaf, "kind") else 0 for leaf in leaves]
    return DIMS + sum(many) + sum(1 + sum(map(value_bytes, values_in(leaf))) for leaf in leaves)


def key_parts(key):
    """The leaves and the slices of a metric's key. An overflow row has none."""
    return key if isinstance(key, tuple) else ((), ())


def key_weight(key):
    """What a metric's key holds: its leaves, and 16 for each slice."""
    leaves, slices = key_parts(key)
    return leaves_weight(leaves) + 16 * len(slices)


def key_bytes(key):
    """The bytes of a metric's key."""
    leaves, slices = key_parts(key)
    return leaves_bytes(leaves) + SLICES + sum(9 if group is None else 13 for _, group, _ in slices)


def atom_weight(atom):
    """16 for each entry of an atom, and the bytes of texts."""
    return sum(16 + text_weight(entry.value) for entry in atom.entries)


def atom_bytes(atom):
    """The bytes of an atom."""
    return ATOM + len(atom.payload())


class Sum:
    """Weight and length, side by side, and how much shorter it may be."""

    def __init__(self, weight=0, length=0):
        self.weight, self.length, self.slack = weight, length, 0

    def __eq__(self, other):
        return (self.weight, self.length, self.slack) == (other.weight, other.length, other.slack)

    def plus(self, other, times):
        """What comes where the difference to another one is added so many times."""
        weight = self.weight + times * (other.weight - self.weight)
        total = Sum(weight, self.length + times * (other.length - self.length))
        total.slack = self.slack + times * (other.slack - self.slack)
        return total

    def entry(self, held, length):
        """An entry, with what it holds and its bytes."""
        self.weight += ENTRY + held
        self.length += length

    def own(self, count):
        """So many numbers that are no entry."""
        self.length += NUMBER * count

    def leaves(self, leaves, numbers):
        """An entry of a key of leaves, with so many numbers."""
        self.entry(leaves_weight(leaves), leaves_bytes(leaves) + NUMBER * numbers)

    def key(self, key, numbers):
        """An entry of a metric's key, with so many numbers."""
        self.entry(key_weight(key), key_bytes(key) + NUMBER * numbers)

    def samples(self, atoms):
        """The samples of a key, each an entry."""
        for atom in atoms:
            self.entry(atom_weight(atom), atom_bytes(atom))


class Peek:
    """What the next report of a configuration would have, without a cut: nothing stays of it."""

    def __init__(self, instance):
        self.instance = instance

    def __enter__(self):
        self.instance.steps.append(Step(REPORT, self.instance.books.clock))
        for metric in self.instance.metrics:
            metric.tell()

    def __exit__(self, *_):
        self.instance.steps.pop()
        for metric in self.instance.metrics:
            metric.told.pop()


def open_part(metric):
    """The admitted keys of the open part, each with what came."""
    *_, part = parts_of(metric.config.steps, metric.base, metric.size)
    return part, guarded(metric.arrivals(part), metric.bound)[0]


def number_rows(total, metric, open_numbers, row_numbers):
    """A metric of one number a key: its open part and its kept rows. Of a sum a key whose run goes on has one more."""
    for key, came in open_part(metric)[1].items():
        total.key(key, open_numbers + (came[-1].contribution is None))
    for row in metric.shown().kept.rows:
        total.key(row.key, 2 + row_numbers)


def sample_rows(total, metric):
    """A metric of samples: its open part and its kept rows."""
    for key, came in open_part(metric)[1].items():
        total.key(key, 1)
        total.samples([one.contribution for one in came][: samples_kept(metric.tree)])
    for row in metric.shown().kept.rows:
        total.key(row.key, 3)
        total.samples(row.value)


def snapshot(total, metric, is_gauge):
    """What a pulled metric has of the last snapshot: of each atom that it means its sample, or of each key a sum."""
    atoms = metric.config.books.pulls.snapshot(metric.matcher["atom_id"])
    meant = [] if atoms is None else [one for one in atoms if matches(metric.matcher, one)]
    total.own(1 if atoms is None else 2)
    for atom in meant:
        total.entry(atom_weight(atom) + leaves_weight(atom.key(metric.fields)), 0)
    taken = metric.told[-1].snapshot
    for key in taken or ():
        key, sample = key if is_gauge else (key, None)
        total.length += key_bytes(key) + (atom_bytes(sample) if is_gauge else 2 * NUMBER)


def started(total, metric):
    """The keys with which an open interval began; it is taken to have begun before the last snapshot."""
    part, _ = open_part(metric)
    begun = metric.beginnings(part)
    if not metric.told[-1].is_true or not begun:
        total.own(1)
        return
    first, before = begun[-1][1], total.length
    total.own(3 if first is None else 4)
    for key in first or ():
        total.key(key, 2)
    total.slack += total.length - before - 2 * NUMBER


def inner_keys(total, metric, numbers):
    """The keys that a duration times, each with the key for which it counts."""
    for key in metric.timed.counts:
        leaves_of = metric.leaves_in(key)
        total.leaves(key, numbers)
        total.key((leaves_of(metric.fields), metric.sliced(leaves_of)), 2)


def metric_entries(total, metric):
    """The entries of a metric by its kind, and its numbers besides."""
    total.own(1 + (1 if isinstance(metric, Event) else 5))
    if isinstance(metric, Event):
        total.own(3)
        for row in metric.shown().kept.rows:
            total.entry(atom_weight(row.value), key_bytes(None) + 3 * NUMBER + atom_bytes(row.value))
    elif isinstance(metric, Count):
        total.own(9 + 1)
        number_rows(total, metric, 1, 2)
    elif isinstance(metric, PushedValue):
        total.own(10)
        number_rows(total, metric, 3, 1)
    elif isinstance(metric, PulledValue):
        total.own(5 + 10)
        snapshot(total, metric, False)
        started(total, metric)
        number_rows(total, metric, 3, 1)
    elif isinstance(metric, PushedGauge):
        total.own(8)
        sample_rows(total, metric)
    elif isinstance(metric, PulledGauge):
        total.own(12)
        snapshot(total, metric, True)
        sample_rows(total, metric)
    elif isinstance(metric, Longest):
        total.own(16)
        inner_keys(total, metric, 3)
        number_rows(total, metric, 1, 1)
    else:
        total.own(15)
        inner_keys(total, metric, 2)
        number_rows(total, metric, 2, 1)
    total.own(1)
    for _ in metric.tree.get("activations", []):
        total.entry(0, 2 * NUMBER)


def window_parts(alert):
    """The admitted keys of each part of an alert's window, the open one first."""
    count, parts = alert.count, []
    for part in parts_of(count.config.steps, count.base, count.size):
        admitted, _ = guarded(count.arrivals(part), count.bound)
        parts += [admitted] * min(part.times, alert.parts)
    return parts[-alert.parts :]


def alert_entries(total, alert):
    """The entries of an alert, and its numbers besides."""
    has_rung = any(True for _ in alert.alarms())
    total.own(4 + (2 if has_rung else 1) + 1 + 1 + alert.parts + 1)
    for admitted in window_parts(alert):
        for key in admitted:
            total.key(key, 1)
    for alarm in alert.untold()[:MOST_LISTED]:
        total.key(alarm.key, 2)


def instance_sum(instance):
    """A live configuration, without its bytes."""
    total, tree = Sum(LIVE, 4 * NUMBER + 2 * NUMBER + CHUNK), instance.tree
    parts = [tree.get(kind, []) for kind in ("matchers", "predicates", "states", "alerts")]
    total.weight += PART * (len(instance.metrics) + sum(map(len, parts)))
    for predicate in tree.get("predicates", []):
        total.own(7)
        for key in instance.predicates.known[predicate["id"]].counts if "simple" in predicate else ():
            total.leaves(key, 1)
    with Peek(instance):
        for metric in instance.metrics:
            metric_entries(total, metric)
        for alert in instance.alerts:
            alert_entries(total, alert)
    return total


def session_sum(session, configs):
    """A session, by the bytes of each live configuration."""
    total = Sum(SESSION, 9 * NUMBER)
    for keys in session.books.states.told.values():
        total.entry(0, 4 * NUMBER)
        for key in keys:
            total.leaves(key, 1)
    for atoms in session.books.pulls.last.values():
        total.entry(0, (2 if atoms is None else 3) * NUMBER)
        for atom in atoms or ():
            total.entry(atom_weight(atom), CHUNK + len(atom.payload()))
    for client, instance in session.live.items():
        one = instance_sum(instance)
        total.weight += one.weight + len(configs[client])
        total.length += one.length + len(configs[client])
        total.slack += one.slack
    return total
