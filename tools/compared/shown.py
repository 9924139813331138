"""The bytes of what reports show."""
from session_text.layout import BITS, BOOL, INT, LONG, RAW, STR

from compared.atoms import Value
from compared.history import OVERFLOW
from compared.wire import fixed, message, number

EVENTS, GAUGES = 4, 8
# The greatest number that a field can have.
MOST_FIELD = 2**29 - 1

# The fields of a leaf by the kinds of values.
LEAF_FIELDS = {STR: 2, INT: 3, LONG: 4, BOOL: 5, BITS: 6, RAW: 1002}
PLACE = 1001


def shown_value(field, value):
    """A value as a field."""
    if value.kind in (STR, RAW):
        return message(field, value.content)
    return (fixed if value.kind == BITS else number)(field, value.content)


def shown_leaf(place, leaf):
    """A leaf of a key: each of many values with the same place, and without a value where the atom lacked the field."""
    at_place = number(PLACE, place or None)
    shown = b""
    for value in [leaf] if leaf is None or isinstance(leaf, Value) else leaf:
        field = 0 if value is None else LEAF_FIELDS[value.kind]
        content = b"" if value is None else shown_value(field, value)
        shown += message(4, content + at_place if field < PLACE else at_place + content)
    return shown


def shown_slice(shown):
    """A slice: the id of an atom, and the id of a group or else the state."""
    atom_id, group, state = shown
    return message(6, number(1, atom_id) + number(2, group) + number(3, state))


def shown_key(key):
    """A key: its leaves, and then its slices. An overflow row has none, and says that it is one."""
    if key == OVERFLOW:
        return number(1001, 1)
    leaves, slices = key
    values = [shown_leaf(place, leaf) for place, leaf in enumerate(leaves)]
    return b"".join(values + [shown_slice(shown) for shown in slices])


def shown_atom(field, atom):
    """An atom as a field: a message whose one field is its id, in which its entries are. Neighbours with fields inside
    of one element are one message."""
    content, at = b"", 0
    entries = atom.entries
    while at < len(entries):
        entry, end = entries[at], at + 1
        if entry.sub == 0:
            content += shown_value(entry.field, entry.value)
        else:
            while end < len(entries) and entries[end][:2] == entry[:2]:
                end += 1
            inner = b"".join(shown_value(one.sub, one.value) for one in entries[at:end])
            content += message(entry.field, inner)
        at = end
    return message(field, message(min(atom.atom_id, MOST_FIELD), content))


def shown_bucket(kind, row):
    """What a row has of its key: when, and the number or the samples."""
    samples = b"".join(shown_atom(3, atom) for atom in row.value) if kind == GAUGES else number(3, row.value)
    return message(3, number(1, row.start) + number(2, row.end) + samples)


def shown_rows(kind, rows):
    """Rows by their keys, in the order in which these come first; events one by one."""
    if kind == EVENTS:
        return b"".join(message(1, number(1, row.start) + shown_atom(2, row.value)) for row in rows)
    groups = {}
    for row in rows:
        groups.setdefault(row.key, []).append(shown_bucket(kind, row))
    return b"".join(message(1, b"".join(buckets) + shown_key(key)) for key, buckets in groups.items())


def shown_metric(metric):
    """A metric in a report."""
    kind, shown = metric.field_number, metric.shown()
    metric.reported.append(shown)
    content = number(1, metric.metric_id) + message(kind, shown_rows(kind, shown.kept.rows)) + number(9, metric.base)
    content += b"" if kind == EVENTS else number(10, metric.size)
    counts = (shown.dropped, shown.kept.not_kept, shown.missing)
    return content + b"".join(number(1001 + place, count or None) for place, count in enumerate(counts))


def predicate_drops(known):
    """How many keys of each predicate found no room since the installation."""
    return b"".join(
        message(1001, number(1, predicate_id) + number(2, one.drops))
        for predicate_id, one in known.items()
        if one.drops > 0
    )


def state_drops(states, book):
    """How many keys of the states' atoms found no room since the log began, and how many ids of atoms."""
    ids = dict.fromkeys(state["atom_id"] for state in states)
    drops = [(atom_id, book.drops[atom_id]) for atom_id in ids if atom_id in book.drops]
    shown = b"".join(message(1002, number(1, atom_id) + number(2, dropped)) for atom_id, dropped in drops)
    return shown + (number(1003, book.dropped_atoms or None) if ids else b"")
