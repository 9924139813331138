"""Sessions whose configurations hold as much of one thing as they may.

Each is a function of how much that is. What it weighs is linear in that, since each key, row or atom of it holds as
much as any other: so it is read of a few, and told of many."""
import struct

from session_text.layout import ATOM, INSTALL, INT, PULL, REPORT, STR, TICK

from compared.alarms import MOST_LISTED
from compared.atoms import EXCLUSIVE, PRIMARY, Atom, Entry, Value
from compared.drawn_config import FIRST_N, MAX_SPARSE, SECONDS
from compared.history import MOST_WEIGHT
from compared.pulls import MOST_IDS as MOST_PULLED
from compared.states import MOST_IDS, MOST_KEYS
from compared.trees import encoded
from compared.wire import framed

SECOND = 10**9
CLIENT, LOGGED, OTHER, PULLED = (10, 1), 5, 6, 10_001
MOST_ATOMS, MOST_SAMPLES, MOST_ACTIVATIONS, MOST_PARTS = 200, 100, 8, 10
LONG, SHORT = 4_000, 40

# The configuration of the sample.
SAMPLE = {"matchers": [{"id": 1, "simple": {"atom_id": LOGGED}}], "counts": [{"id": 100, "what": 1}]}


NUMBER = Entry(2, 0, 0, 0, Value(INT, 7))


def text(key, size):
    """An entry of a text that tells keys apart."""
    return Entry(1, 0, 0, 0, Value(STR, b"%0*d" % (size, key)))


def atom(at, key, size=LONG, atom_id=LOGGED):
    """An atom of the log with such a text, and a number."""
    return logged(ATOM, at, Atom(atom_id, [text(key, size), NUMBER]).payload())


def told(at, key, atom_id):
    """An atom that tells a state of such a key."""
    state = Entry(2, 0, 0, EXCLUSIVE, Value(INT, 1))
    return logged(ATOM, at, Atom(atom_id, [text(key, LONG)._replace(flags=PRIMARY), state]).payload())


def pull(at, count, size=LONG, atom_id=PULLED):
    """A pull of so many atoms."""
    payloads = [Atom(atom_id, [text(key, size), NUMBER]).payload() for key in range(count)]
    counted = b"".join(struct.pack("<H", len(payload)) + payload for payload in payloads)
    return logged(PULL, at, struct.pack("<IBH", atom_id, 0, count) + counted)


def logged(kind, at, body=b""):
    """A frame of the log."""
    return framed(struct.pack("<BQ", kind, at) + body)


def install(**tree):
    """An install of a configuration, with a matcher of each id of atoms."""
    ids = (LOGGED, OTHER, PULLED)
    matchers = [{"id": place, "simple": {"atom_id": one}} for place, one in enumerate(ids, 1)]
    return framed(struct.pack("<Biq", INSTALL, *CLIENT) + encoded("config", {"matchers": matchers, **tree}))


def report():
    """A report without a cut."""
    return framed(struct.pack("<BiqB", REPORT, *CLIENT, 0))


def by_text(atom_id=LOGGED, **more):
    """A metric, or what a predicate is started by, by the text of such atoms."""
    return {"dimensions": {"field": atom_id, "children": [{"field": 1}]}, "bound": MOST_KEYS, **more}


def keys(metric):
    """A metric of which so many keys come in the open part."""
    return lambda count: install(**metric) + b"".join(atom(0, key) for key in range(count))


def rows(metric):
    """A metric of which so many parts end, each with a row."""

    def session(count):
        return install(**metric) + b"".join(atom(part * SECOND, 0, SHORT) for part in range(count + 1))

    return session


def samples(count):
    """A gauge with so many keys, each with as many samples as may be."""
    whole = {"include_all": True}
    gauge = by_text(id=1, what=1, filter=whole, sampling=FIRST_N, samples=MOST_SAMPLES)
    gauge["bound"] = MOST_WEIGHT // MOST_SAMPLES
    came = [atom(0, key, SHORT) for _ in range(MOST_SAMPLES) for key in range(count)]
    return install(gauges=[gauge]) + b"".join(came)


def pulled_samples(count):
    """The same of a snapshot, at each atom that triggers it."""
    whole = {"include_all": True}
    gauge = by_text(PULLED, id=1, what=3, filter=whole, sampling=FIRST_N, samples=MOST_SAMPLES, trigger=1)
    gauge["bound"] = MOST_WEIGHT // MOST_SAMPLES
    return install(gauges=[gauge]) + pull(0, count, SHORT) + b"".join(atom(0, 0, SHORT) for _ in range(MOST_SAMPLES))


def pulled_values(count):
    """Values of a snapshot of so many atoms: the last one, the one with which the open interval began, and rows."""
    of_number = {"field": PULLED, "children": [{"field": 2}]}
    value = by_text(PULLED, id=1, what=3, field=of_number, bucket=SECONDS, skip_zero=False)
    opened = pull(0, count) + install(values=[value]) + pull(0, count)
    return opened + logged(TICK, SECOND + 1) + pull(SECOND + 2, count)


def inner_keys(**metric):
    """A duration of so many keys that are started."""

    def session(count):
        timed = {"id": 11, "simple": by_text(start=1, stop=2)}
        own = by_text(id=1, what=11, **metric)
        return install(predicates=[timed], durations=[own]) + b"".join(atom(0, key) for key in range(count))

    return session


def pulled_ids(count):
    """So many ids that were pulled, each with as many atoms as may be."""
    return b"".join(pull(0, MOST_ATOMS, SHORT, PULLED + place) for place in range(count))


def state_ids(count):
    """So many ids of states, each with a few keys."""
    return b"".join(told(0, key, LOGGED + place) for place in range(count) for key in range(3))


def state_keys(count):
    """So many keys of one state."""
    return b"".join(told(0, key, LOGGED) for key in range(count))


def watched(**alert):
    """A count of seconds with an alert."""
    count = by_text(id=1, what=1, bucket=SECONDS)
    return install(counts=[count], alerts=[{"id": 2, "metric": 1, **alert}])


def windows(count):
    """An alert of which so many keys came in each part. Reports take the rows away."""
    session = watched(threshold=2**40, parts=MOST_PARTS)
    for part in range(MOST_PARTS):
        session += b"".join(atom(part * SECOND, key, SHORT) for key in range(count)) + report()
    return session


def alarms(count):
    """So many alarms that wait for a report."""
    return watched(threshold=0, parts=1) + b"".join(atom(0, key) for key in range(count))


def activations(count):
    """A count with so many activations, which a first atom starts."""
    each = [{"start": 1, "ttl": 1_000_000} for _ in range(count)]
    return install(counts=[{"id": 1, "what": 1, "activations": each}]) + atom(0, 0)


def ticks(count):
    """The sample's configuration, and so many ticks."""
    return framed(struct.pack("<Biq", INSTALL, *CLIENT) + encoded("config", SAMPLE)) + logged(TICK, 5) * count


OF_NUMBER = {"field": LOGGED, "children": [{"field": 2}]}
EVERY_SECOND = {"id": 1, "what": 1, "bucket": SECONDS}

# What is held, how much of it there may be, and the session.
BOUNDS = [
    ("ticks of one time", 100_000, ticks),
    ("keys of a count", MOST_KEYS, keys({"counts": [by_text(id=1, what=1)]})),
    ("keys of pushed values", MOST_KEYS, keys({"values": [by_text(id=1, what=1, field=OF_NUMBER)]})),
    ("rows of a count", MOST_WEIGHT, rows({"counts": [by_text(**EVERY_SECOND)]})),
    ("events", MOST_WEIGHT, rows({"events": [{"id": 1, "what": 1}]})),
    ("keys with a hundred samples", MOST_WEIGHT // MOST_SAMPLES, samples),
    ("keys with a hundred pulled samples", MOST_WEIGHT // MOST_SAMPLES, pulled_samples),
    ("keys of pulled values", MOST_ATOMS, pulled_values),
    ("inner keys of a sum", MOST_KEYS, inner_keys()),
    ("inner keys of a longest time", MOST_KEYS, inner_keys(aggregation=MAX_SPARSE)),
    ("pulled ids with 200 atoms", MOST_PULLED, pulled_ids),
    ("ids of states", MOST_IDS, state_ids),
    ("keys of a state", MOST_KEYS, state_keys),
    ("keys in ten parts of a window", MOST_KEYS, windows),
    ("alarms", MOST_LISTED, alarms),
    ("activations", MOST_ACTIVATIONS, activations),
]
