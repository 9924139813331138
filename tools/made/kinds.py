"""A log of all sorts of frames, and configurations with a metric of one kind each, or of every kind."""
import struct

from session_text.layout import INT, LONG

from .frames import CONFIG_ID, MILLISECOND, SEED, atom_of, install, pull, report, tick
from .hostile import fields, link

KEYED, SWITCH, STATE_ATOM, PULLED = 5, 6, 27, 10001
ROUND = 1000
# The flags of an entry that is a state, and of one that is its key.
IS_STATE, IS_KEY = 1, 2


def matcher(number, atom_id, *tests):
    """A matcher of an atom, with tests of its fields."""
    tested = " ".join(f"field_value_matcher {{ field: {place} eq_int: {value} }}" for place, value in tests)
    return f"atom_matcher {{ id: {number} simple_atom_matcher {{ atom_id: {atom_id} {tested} }} }}\n"


def predicate(number, start, stop, *rest):
    """A predicate that is started and stopped by matchers, whose starts don't nest."""
    named = f"start: {start} stop: {stop} count_nesting: false " + " ".join(rest)
    return f"predicate {{ id: {number} simple_predicate {{ {named} }} }}\n"


# Each configuration has a matcher of the keyed atom, so that the client hears it.
ANY = matcher(1, KEYED)
RUNS = ANY + matcher(3, KEYED, (2, 1)) + matcher(4, KEYED, (2, 0)) + predicate(11, 3, 4, fields("dimensions", KEYED, 1))
TURNS = matcher(5, SWITCH, (2, 1)) + matcher(6, SWITCH, (2, 0))
SWITCHED = TURNS + predicate(12, 5, 6)
SWITCHED_BY_KEY = TURNS + predicate(13, 5, 6, fields("dimensions", SWITCH, 1))
PULLS = ANY + matcher(7, PULLED)
STATE = f"state {{ id: 31 atom_id: {STATE_ATOM} }}\n"

BY_KEY = fields("dimensions_in_what", KEYED, 1)
BY_PULLED_KEY = fields("dimensions_in_what", PULLED, 1)
LINKED = link(13, fields("fields_in_what", KEYED, 1), fields("fields_in_condition", SWITCH, 1))
IN_STATE = (
    f"slice_by_state: 31 state_link {{ state_atom_id: {STATE_ATOM} "
    + fields("fields_in_what", KEYED, 1)
    + " "
    + fields("fields_in_state", STATE_ATOM, 1)
    + " }"
)
SAMPLES = "gauge_fields_filter { include_all: true } max_num_gauge_atoms_per_bucket: 3 bucket: CTS"


def metric(kind, number, what, *rest):
    """A metric of a matcher or of a predicate."""
    return f"{kind}_metric {{ id: {number} what: {what} " + " ".join(rest) + " }\n"


# Each kind: its name, what its metric names, the metric, and the instructions that a frame took in a plain engine in Rust
# with the same replies.
KINDS = [
    ("a count of all", ANY, metric("count", 101, 1, "bucket: FIVE_MINUTES"), 996),
    ("a count by key", ANY, metric("count", 102, 1, BY_KEY, "bucket: FIVE_MINUTES"), 1131),
    ("a count by key under a condition", ANY + SWITCHED,
     metric("count", 103, 1, "condition: 12", BY_KEY, "bucket: FIVE_MINUTES"), 1159),
    ("a count by key under a linked condition", ANY + SWITCHED_BY_KEY,
     metric("count", 104, 1, "condition: 13", LINKED, BY_KEY, "bucket: FIVE_MINUTES"), 1350),
    ("a count by key sliced by a state", ANY + STATE,
     metric("count", 105, 1, IN_STATE, BY_KEY, "bucket: FIVE_MINUTES"), 1411),
    ("a pushed value by key", ANY,
     metric("value", 106, 1, fields("value_field", KEYED, 4), BY_KEY, "bucket: FIVE_MINUTES"), 1193),
    ("a pulled value by key", PULLS,
     metric("value", 107, 7, fields("value_field", PULLED, 4), BY_PULLED_KEY, "bucket: CTS"), 1426),
    ("a pulled value by key under a condition", PULLS + SWITCHED,
     metric("value", 115, 7, fields("value_field", PULLED, 4), "condition: 12", BY_PULLED_KEY, "bucket: CTS"), 1381),
    ("a pushed gauge by key", ANY,
     metric("gauge", 108, 1, BY_KEY, "sampling_type: FIRST_N_SAMPLES", SAMPLES), 2301),
    ("a gauge by key, pulled at starts", PULLS,
     metric("gauge", 109, 7, BY_PULLED_KEY, "sampling_type: FIRST_N_SAMPLES", SAMPLES), 3102),
    ("a gauge by key, pulled at a trigger", PULLS + TURNS,
     metric("gauge", 116, 7, BY_PULLED_KEY, "sampling_type: FIRST_N_SAMPLES trigger_event: 5", SAMPLES), 1652),
    ("events", ANY, metric("event", 110, 1), 1536),
    ("a sum of durations by key", RUNS, metric("duration", 111, 11, BY_KEY, "bucket: FIVE_MINUTES"), 1659),
    ("a sum by key under a linked condition", RUNS + SWITCHED_BY_KEY,
     metric("duration", 112, 11, "condition: 13", LINKED, BY_KEY, "bucket: FIVE_MINUTES"), 2761),
    ("a sum by key sliced by a state", RUNS + STATE,
     metric("duration", 113, 11, IN_STATE, BY_KEY, "bucket: FIVE_MINUTES"), 3051),
    ("the longest duration by key", RUNS,
     metric("duration", 114, 11, "aggregation_type: MAX_SPARSE", BY_KEY, "bucket: FIVE_MINUTES"), 1549),
]
# The same for all of them in one configuration, of one client and of four.
PLAIN_ALL, PLAIN_ALL_OF_FOUR = 13975, 53034


def all_kinds():
    """One configuration with a metric of every kind."""
    switched = predicate(12, 5, 6) + predicate(13, 5, 6, fields("dimensions", SWITCH, 1))
    return RUNS + matcher(2, SWITCH) + TURNS + switched + matcher(7, PULLED) + STATE + "".join(metric for _, _, metric, _ in KINDS)


def entry(place, value, kind=INT, flags=0):
    """An entry with a number in a field."""
    return struct.pack("<BBBBBi" if kind == INT else "<BBBBBq", place, 0, 0, flags, kind, value)


def frames(count):
    """Atoms with a key of 50, what turns the conditions, states by key, pulls of five atoms, and ticks, from a seed."""
    state, at = SEED, 0
    for done in range(1, count + 1):
        state = (state * 6364136223846793005 + 1442695040888963407) % 2**64
        drawn = state >> 33
        at += drawn % 100 * 5 * MILLISECOND
        key, sort = drawn // 1000 % 50, drawn // 50000 % 100
        if sort < 10:
            yield tick(at)
        elif sort < 15:
            pulled = [entry(1, (key + one) % 20) + entry(4, done * 7 + one, LONG) for one in range(5)]
            yield pull(at, PULLED, pulled)
        elif sort < 25:
            yield atom_of(at, STATE_ATOM, entry(1, key, flags=IS_KEY) + entry(2, sort % 4, flags=IS_STATE))
        elif sort < 40:
            yield atom_of(at, SWITCH, entry(1, key) + entry(2, sort & 1))
        else:
            verb = entry(2, drawn >> 20 & 1)
            yield atom_of(at, KEYED, entry(1, key) + verb + entry(4, drawn % 1000, LONG))


def written(config, clients=(10,)):
    """Writes the log with clients of a configuration, who ask for a report after each thousand frames."""

    def write(out, count):
        for uid in clients:
            out.write(install(uid, CONFIG_ID, config))
        for done, frame in enumerate(frames(count), 1):
            out.write(frame)
            if done % ROUND == 0:
                for uid in clients:
                    out.write(report(uid, 0))

    return write
