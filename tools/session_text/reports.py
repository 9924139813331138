"""Replies as values, and reports as rows: one for each bucket of a key, each event, each sample, each alarm, and each
number that was turned away. docs/REPORT.md has the columns."""
import functools
import struct
from collections import defaultdict, namedtuple

from . import spelling
from .config import ALERT, METRIC, bucket_size, entities, records, signed, tree, varint_at
from .faults import Fault
from .layout import INSTALLED, REPLACED
from .replies import NAMES, WITH_REPORT, bodies
from .words import quoted

# A reply: its place among the replies from 0, its kind as tools/session names it, whose it is, the bytes after these,
# and the bytes of its report (a ConfigMetricsReportList of proto/stats_log.proto), or None.
Reply = namedtuple("Reply", "number kind client config body report")

COLUMNS = ("reply", "client", "config", "metric", "kind", "what", "key", "states", "from", "to", "value")

# A row of a report, by its columns. `key`, `states` and the `value` of an atom are tuples here, of which text_of and
# json_of make what is written; None stands where a column has nothing.
Row = namedtuple("Row", [name if name != "from" else "begin" for name in COLUMNS])

# A value in a key: the field as the configuration names it, the type, and the value; None for both where it is missing.
Leaf = namedtuple("Leaf", "field type value")
# A state that a row is of: the id of its atom, and the number or, with is_group, the id of the group.
Slice = namedtuple("Slice", "atom value is_group")
# A field of an atom that is shown: its number, and a number, text or bytes; bits are told in hexadecimal.
Field = namedtuple("Field", "field value is_bits")

EVENT, COUNT, DURATION, VALUE, GAUGE = range(4, 9)
KINDS = {EVENT: "event", COUNT: "count", DURATION: "duration", VALUE: "value", GAUGE: "gauge"}
OVERFLOW = 1001
TURNED_AWAY = {1001: "dropped", 1002: "not_kept", 1003: "missing"}
# What a row is of. What is neither of these was turned away.
ROW, GATHERED, ALARM = SHOWN = ("row", "overflow", "alarm")
# Alarms are of alerts, and of their metrics' keys.
ALARMS, ALARMS_NOT_KEPT = 1004, 1005
PLACE = 1001
# The field of the buckets of a key, which stand in front.
BUCKETS = 3
POSITIONS = {1: "FIRST", 2: "LAST", 3: "ANY", 4: "ALL"}

# The types of leaves by their numbers: their names, and how their payloads are read.
LEAVES = {
    2: ("str", bytes),
    3: ("int", lambda payload: signed(varint_at(payload, 0)[0], 32)),
    4: ("long", lambda payload: signed(varint_at(payload, 0)[0], 64)),
    5: ("bool", lambda payload: varint_at(payload, 0)[0] != 0),
    6: ("bits", lambda payload: struct.unpack("<I", payload)[0]),
    1002: ("raw", bytes),
}


def read_replies(content):
    """The replies that bytes are, in their order. What isn't one is a Fault; a front of one, as a failed write
    leaves it, is passed over."""
    for number, (at, body) in enumerate(bodies(content)):
        if body is None:
            return
        if len(body) < 13:
            raise Fault(f"the reply at {at}: expected 13 bytes, got {len(body)}")
        kind, client, config = struct.unpack_from("<Biq", body)
        rest = body[13:]
        yield Reply(number, NAMES[kind], client, config, rest, rest if kind in WITH_REPORT else None)


def fields_of(content):
    """The payloads of a message by the numbers of their fields."""
    found = defaultdict(list)
    for number, _, payload in records(content):
        found[number].append(payload)
    return found


def number_of(found, field, bits=64):
    """A number, or None where it isn't there."""
    return signed(varint_at(found[field][0], 0)[0], bits) if field in found else None


def leaf_names(fields):
    """The leaves of fields as a session writes them, with the position that picks their elements."""
    names = []
    for child in (fields or {}).get("child", []):
        position = POSITIONS.get(child.get("position"))
        name = str(child.get("field")) + (f"[{position}]" if position else "")
        names += [f"{name}.{inner.get('field')}" for inner in child.get("child", [])] or [name]
    return names


def metrics_of(config, client):
    """The metrics of a configuration: their ids, their kinds, and how many nanoseconds a bucket has, if they have any,
    for a client."""
    for field, metric in entities(tree(config), METRIC):
        kind = field.removesuffix("_metric")
        yield metric.get("id"), kind, None if kind == KINDS[EVENT] else bucket_size(metric, client)


def alerts_of(config):
    """The alerts of a configuration: their ids, and the ids of the metrics that they watch."""
    return [(alert.get("id"), alert.get("metric")) for _, alert in entities(tree(config), ALERT)]


def leaves_of(config):
    """The leaves of the keys of each metric of a configuration, by the metric's id, and those of each alert."""
    metrics = entities(tree(config), METRIC)
    found = {metric.get("id"): leaf_names(metric.get("dimensions_in_what")) for _, metric in metrics}
    return {**found, **{(ALERT, alert): found.get(metric, []) for alert, metric in alerts_of(config)}}


class Names:
    """What a configuration calls the leaves of the keys of its metrics. Without one they are known by their places."""

    def __init__(self, config=None, leaves=None):
        self.leaves = (leaves_of(config) if config is not None else {}) if leaves is None else leaves

    def of(self, metric):
        """The names of the leaves of a metric."""
        return tuple(self.leaves.get(metric, ()))


def leaf_of(content, names):
    """A value of a key, whose leaves have these names."""
    found = fields_of(content)
    place = number_of(found, PLACE) or 0
    name = names[place] if place < len(names) else f"#{place}"
    for number, (kind, read) in LEAVES.items():
        if number in found:
            return Leaf(name, kind, read(found[number][0]))
    return Leaf(name, None, None)


def slice_of(content):
    """A state that a row is of."""
    found = fields_of(content)
    group = number_of(found, 2)
    return Slice(number_of(found, 1), number_of(found, 3, 32) if group is None else group, group is not None)


def atom_of(content):
    """The fields of an atom that is shown."""
    return tuple(
        Field(number, signed(varint_at(payload, 0)[0], 64) if kind == 0 else payload, kind == 5)
        for _, _, inner in records(content)
        for number, kind, payload in records(inner)
    )


class Told:
    """Keys, states and atoms as columns have them: as values, or what is made of these. Many are kept, since they come
    again and again."""

    def __init__(self, made=lambda column: column):
        self.made = made
        self.key = functools.lru_cache(spelling.KEPT)(self.key_of)
        self.atoms = functools.lru_cache(spelling.KEPT)(self.atoms_of)

    def key_of(self, names, content):
        """What rows or an alarm are of, by what stands behind their numbers: what they are, the key and the states."""
        found = fields_of(content)
        if BUCKETS in found:
            raise Fault("expected a report as it is spelled, and there is another bucket")
        key = tuple(leaf_of(leaf, names) for leaf in found[4])
        return GATHERED if OVERFLOW in found else ROW, self.made(key), self.made(tuple(map(slice_of, found[6])))

    def atoms_of(self, content):
        """The atoms of a bucket, or that of an event."""
        return tuple(self.made(atom_of(atom)) for atom in spelling.messages(content))


VALUES = Told()


class Rows:
    """The rows of one report, whose keys, states and atoms are told as values or otherwise."""

    def __init__(self, reply, names, told=VALUES):
        whole = fields_of(reply.report)
        self.head = (reply.number, reply.client, reply.config)
        self.names, self.told = names, told
        self.body = fields_of(whole[2][0]) if 2 in whole else defaultdict(list)
        self.last, self.now = number_of(self.body, 3), number_of(self.body, 4)
        self.base = None

    def all(self):
        """All rows, metric by metric, then what predicates and states turned away, and then alarms."""
        for head, cells in self.parts():
            for cell in cells:
                yield Row(*head, *cell)

    def parts(self):
        """The same in parts, as those of one key: the columns that all rows of a part have, and the others of each."""
        for metric in self.body[1]:
            yield from self.metric(fields_of(metric))
        for number, kind, since in ((1001, "predicate", self.base), (1002, "state_atom", 0)):
            for drops in map(fields_of, self.body[number]):
                yield self.turned_away(number_of(drops, 1), kind, "dropped", since, number_of(drops, 2))
        if 1003 in self.body:
            yield self.turned_away(None, "state_atoms", "dropped", 0, number_of(self.body, 1003))
        yield from map(self.alarm, self.body[ALARMS])
        for unlisted in map(fields_of, self.body[ALARMS_NOT_KEPT]):
            yield self.turned_away(number_of(unlisted, 1), ALERT, "not_kept", self.last, number_of(unlisted, 2))

    def alarm(self, content):
        """An alarm, at the time when it came, with its sum."""
        (alert, at, total), end = spelling.numbers_at(spelling.ALARM, content)
        _, key, states = self.told.key(self.names.of((ALERT, alert)), content[end:])
        return (*self.head, alert, ALERT, ALARM, key, states), [(at, at, total % 2**64)]

    def turned_away(self, metric, kind, what, since, count):
        """A number that was turned away between two times."""
        return (*self.head, metric, kind, what, None, None), [(since, self.now, count)]

    def metric(self, found):
        """The rows of a metric."""
        metric, kind = number_of(found, 1), next((kind for kind in KINDS if kind in found), None)
        self.base = number_of(found, 9)
        for wrapper in found[kind] if kind else []:
            yield from self.events(metric, wrapper) if kind == EVENT else self.keyed(metric, kind, wrapper)
        for number, what in TURNED_AWAY.items():
            if number in found:
                yield self.turned_away(metric, KINDS.get(kind), what, self.last, number_of(found, number))

    def events(self, metric, wrapper):
        """The events of a metric."""
        cells = []
        for event in spelling.messages(wrapper):
            (at,), end = spelling.numbers_at(spelling.TIME, event)
            cells += [(at, at, atom) for atom in self.told.atoms(event[end:])]
        yield (*self.head, metric, KINDS[EVENT], ROW, None, None), cells

    def keyed(self, metric, kind, wrapper):
        """The rows of each key: one a bucket, and of samples one each."""
        names = self.names.of(metric)
        for data in spelling.messages(wrapper):
            is_sampled = kind == GAUGE
            cells, rest = spelling.samples_in(data, self.told.atoms) if is_sampled else spelling.buckets_in(data)
            yield (*self.head, metric, KINDS[kind], *self.told.key(names, rest)), cells


def rows_of(replies, configs=()):
    """The rows of all reports among replies, in their order. The configurations of the commands
    (session_text.configs of a session's bytes) give the fields of keys their names."""
    live, configs = {}, list(configs)
    for reply in replies:
        whose = (reply.client, reply.config)
        if reply.report is not None:
            yield from Rows(reply, live.get(whose) or Names()).all()
        if reply.kind in (NAMES[INSTALLED], NAMES[REPLACED]) and reply.number < len(configs):
            live[whose] = Names(configs[reply.number])


VALUE_WORDS = {
    "str": lambda value: f"str:{quoted(value)}",
    "raw": lambda value: f"raw:{value.hex()}",
    "bool": lambda value: f"bool:{'true' if value else 'false'}",
    "bits": lambda value: f"bits:{value:#x}",
}


def leaf_word(leaf):
    """A value of a key as a session writes it; - where it is missing."""
    if leaf.type is None:
        return f"{leaf.field}=-"
    return f"{leaf.field}=" + VALUE_WORDS.get(leaf.type, lambda value: f"{leaf.type}:{value}")(leaf.value)


def slice_word(one):
    """A state as ATOM=NUMBER, or ATOM=group:ID."""
    return f"{one.atom}={'group:' if one.is_group else ''}{one.value}"


def field_word(field):
    """A field of an atom: a number, a string, or bits in hexadecimal."""
    if isinstance(field.value, int):
        return f"{field.field}={field.value}"
    return f"{field.field}={field.value[::-1].hex() if field.is_bits else quoted(field.value)}"


WORDS = {Leaf: leaf_word, Slice: slice_word, Field: field_word}


def text_of(column):
    """A column as text: words with spaces between them, and nothing where there is nothing."""
    if isinstance(column, tuple):
        return " ".join(WORDS[type(one)](one) for one in column)
    return "" if column is None else str(column)


def plain(value):
    """A value as JSON has it: bytes as text, where a byte that isn't UTF-8 stands as a lone surrogate."""
    return value.decode("utf-8", "surrogateescape") if isinstance(value, bytes) else value


def json_item(one):
    """A value of a key, a state or a field of an atom as JSON has it."""
    if isinstance(one, Leaf):
        value = one.value.hex() if one.type == "raw" else plain(one.value)
        return {"field": one.field, "type": one.type, "value": value}
    if isinstance(one, Slice):
        return {"atom": one.atom, "group" if one.is_group else "value": one.value}
    return {"field": one.field, "value": one.value[::-1].hex() if one.is_bits else plain(one.value)}


def json_of(column):
    """A column as JSON has it."""
    return [json_item(one) for one in column] if isinstance(column, tuple) else column
