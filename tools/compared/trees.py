"""Whole configurations as trees: a message is a dictionary of its fields by name, a repeated field is a list."""
from collections import namedtuple

from compared.wire import message, number

INT32, INT64, BOOL, BYTES = "int32", "int64", "bool", "bytes"

# A field: its number, what stands there (a kind of number, the numbers of an enumeration, or the name of a message),
# and whether it may come more than once.
Field = namedtuple("Field", "number type is_repeated", defaults=(False,))

POSITION, OPERATION = (1, 2, 3, 4), (1, 2, 3, 4, 5)

# The sizes of buckets in seconds, by the number of their unit.
UNITS = {1: 300, 2: 300, 3: 600, 4: 1_800, 5: 3_600, 6: 10_800, 7: 21_600, 8: 43_200, 9: 86_400, 1000: 1}

COMMON = {
    "id": Field(1, INT64),
    "what": Field(2, INT64),
}
ACTIVE = {"activations": Field(1010, "activation", True)}
MESSAGES = {
    "config": {
        "events": Field(2, "event", True),
        "counts": Field(3, "count", True),
        "values": Field(4, "value", True),
        "gauges": Field(5, "gauge", True),
        "durations": Field(6, "duration", True),
        "matchers": Field(7, "matcher", True),
        "predicates": Field(8, "predicate", True),
        "no_report": Field(13, INT64, True),
        "states": Field(21, "state", True),
        "alerts": Field(1011, "alert", True),
    },
    "matcher": {
        "id": Field(1, INT64),
        "simple": Field(2, "simple_matcher"),
        "combination": Field(3, "combination"),
    },
    "combination": {"operation": Field(1, OPERATION), "children": Field(2, INT64, True)},
    "simple_matcher": {"atom_id": Field(1, INT32), "tests": Field(2, "test", True)},
    "test": {
        "field": Field(1, INT32),
        "position": Field(2, POSITION),
        "eq_bool": Field(3, BOOL),
        "eq_string": Field(4, BYTES),
        "eq_int": Field(5, INT64),
        "lt_int": Field(6, INT64),
        "gt_int": Field(7, INT64),
        "lte_int": Field(10, INT64),
        "gte_int": Field(11, INT64),
        "tuple": Field(12, "tuple"),
        "eq_any_string": Field(13, "strings"),
        "neq_any_string": Field(14, "strings"),
    },
    "tuple": {"tests": Field(1, "test", True)},
    "strings": {"strings": Field(1, BYTES, True)},
    "predicate": {
        "id": Field(1, INT64),
        "simple": Field(2, "simple_predicate"),
        "combination": Field(3, "combination"),
    },
    "simple_predicate": {
        "start": Field(1, INT64),
        "stop": Field(2, INT64),
        "nesting": Field(3, BOOL),
        "stop_all": Field(4, INT64),
        "initial": Field(5, (0, 1)),
        "dimensions": Field(6, "fields"),
        "bound": Field(1001, INT32),
    },
    "fields": {"field": Field(1, INT32), "position": Field(2, POSITION), "children": Field(3, "fields", True)},
    "state": {"id": Field(1, INT64), "atom_id": Field(2, INT32), "map": Field(3, "state_map")},
    "state_map": {"groups": Field(1, "state_group", True)},
    "state_group": {"group": Field(1, INT64), "numbers": Field(2, INT32, True)},
    "link": {"condition": Field(1, INT64), "in_what": Field(2, "fields"), "in_condition": Field(3, "fields")},
    "state_link": {"atom_id": Field(1, INT32), "in_what": Field(2, "fields"), "in_state": Field(3, "fields")},
    "filter": {"include_all": Field(1, BOOL), "fields": Field(2, "fields")},
    "activation": {"start": Field(1, INT64), "ttl": Field(2, INT64), "cancel": Field(3, INT64)},
    "alert": {
        "id": Field(1, INT64),
        "metric": Field(2, INT64),
        "threshold": Field(3, INT64),
        "parts": Field(4, INT32),
        "refractory": Field(5, INT64),
    },
    "event": {**COMMON, **ACTIVE, "condition": Field(3, INT64), "links": Field(4, "link", True)},
    "count": {
        **COMMON,
        **ACTIVE,
        "condition": Field(3, INT64),
        "dimensions": Field(4, "fields"),
        "bucket": Field(5, tuple(UNITS)),
        "links": Field(6, "link", True),
        "slices": Field(8, INT64, True),
        "state_links": Field(9, "state_link", True),
        "bound": Field(1001, INT32),
        "overflow": Field(1002, BOOL),
    },
    "value": {
        **COMMON,
        **ACTIVE,
        "field": Field(3, "fields"),
        "condition": Field(4, INT64),
        "dimensions": Field(5, "fields"),
        "bucket": Field(6, tuple(UNITS)),
        "links": Field(7, "link", True),
        "aggregation": Field(8, (1, 2, 3)),
        "absolute": Field(11, BOOL),
        "diff": Field(12, BOOL),
        "direction": Field(13, (1, 2, 3)),
        "skip_zero": Field(14, BOOL),
        "zero_base": Field(15, BOOL),
        "slices": Field(18, INT64, True),
        "state_links": Field(19, "state_link", True),
        "bound": Field(1001, INT32),
    },
    "gauge": {
        **COMMON,
        **ACTIVE,
        "filter": Field(3, "filter"),
        "condition": Field(4, INT64),
        "dimensions": Field(5, "fields"),
        "bucket": Field(6, tuple(UNITS)),
        "links": Field(7, "link", True),
        "sampling": Field(9, (1, 3, 4)),
        "samples": Field(11, INT64),
        "trigger": Field(12, INT64),
        "bound": Field(1001, INT32),
    },
    "duration": {
        **COMMON,
        "condition": Field(3, INT64),
        "links": Field(4, "link", True),
        "aggregation": Field(5, (1, 2)),
        "dimensions": Field(6, "fields"),
        "bucket": Field(7, tuple(UNITS)),
        "slices": Field(9, INT64, True),
        "state_links": Field(10, "state_link", True),
        "bound": Field(1001, INT32),
    },
}

# Fields of which one alone stands: the last that was set.
ONEOFS = {
    "matcher": ("simple", "combination"),
    "predicate": ("simple", "combination"),
    "test": tuple(MESSAGES["test"])[2:],
}

# Enumerations of which another number isn't supported. Of the others such a number is as if it weren't there.
STRICT = {
    ("count", "bucket"),
    ("value", "bucket"),
    ("gauge", "bucket"),
    ("duration", "bucket"),
    ("value", "aggregation"),
    ("gauge", "sampling"),
}

# Fields that are taken with any wire type and aren't acted on, and those of the whole that aren't taken at all.
TAKEN = {"value": (10, 16, 17), "gauge": (10, 13, 14)}
NOT_TAKEN = {"config": (17,)}


def encoded(kind, tree):
    """The bytes of a message."""
    out = b""
    for name, value in tree.items():
        field = MESSAGES[kind][name]
        for one in value if isinstance(value, list) else [value]:
            if field.type == BYTES:
                out += message(field.number, one)
            elif field.type in MESSAGES:
                out += message(field.number, encoded(field.type, one))
            else:
                out += number(field.number, int(one))
    return out
