"""Sessions whose hubs hold much, to save them: ten clients with ten configurations each, which all hold so many keys."""
import struct

from session_text.layout import REPORT

from .frames import atom, atom_of, framed, install, integers, log_frames, report, text, tick
from .hostile import KEYS, counted, fields, matchers, metric, predicate

CLIENTS, CONFIGS = range(10, 20), range(1, 11)
MINUTES = 60 * 10**9
ROUND = 1000


def counts():
    """A count by a number, which keeps as many keys as it may."""
    return matchers(5) + metric("count_metric", 100, 1, fields("dimensions_in_what", 5, 1), f"bound: {KEYS}")


def samples():
    """A sample of each number, whole."""
    whole = "gauge_fields_filter { include_all: true }"
    return matchers(5) + metric("gauge_metric", 100, 1, whole, fields("dimensions_in_what", 5, 1), f"bound: {KEYS}")


def sums():
    """A sum of as many inner keys as it may keep, of no condition."""
    by_number = predicate(11, 1, 2, fields("dimensions", 5, 1))
    return matchers(5, 6) + by_number + metric("duration_metric", 100, 11, fields("dimensions_in_what", 5, 1), f"bound: {KEYS}")


def each_number():
    """An atom of each number."""
    for key in range(KEYS):
        yield atom(key, key)


def each_number_closed():
    """The same, and then the bucket ends."""
    yield from each_number()
    yield tick(10 * MINUTES)


def each_text():
    """An atom of each text of 40 bytes."""
    for key in range(KEYS):
        yield atom_of(key, 5, text(1, b"%040d" % key))


def each_number_with_text():
    """An atom of each number, with a text."""
    for key in range(KEYS):
        yield atom_of(key, 5, integers(key) + text(2, b"x" * 40))


# What hubs hold: a name, a configuration, and the log.
HELD = [
    ("counts of numbers", counts, each_number),
    ("the same as kept rows", counts, each_number_closed),
    ("counts of texts of 40 bytes", counts, each_text),
    ("samples of atoms with a text", samples, each_number_with_text),
    ("sums of inner keys", sums, each_number),
]


def clients():
    """Each client with each of its configurations."""
    return [(uid, config_id) for uid in CLIENTS for config_id in CONFIGS]


def held(config, log):
    """The session of such a hub."""
    return b"".join(install(*client, config) for client in clients()) + b"".join(log())


def reports():
    """A report with a cut of each configuration."""
    return b"".join(framed(struct.pack("<BiqB", REPORT, *client, 1)) for client in clients())


def asked(config, count):
    """The log with a client that counts it and asks after each round: the frames that are installed, and so many."""
    yield install(CLIENTS[0], 1, config)
    for done, frame in enumerate(log_frames(count), 1):
        yield frame + (report(CLIENTS[0], 0) if done % ROUND == 0 else b"")


def log_config():
    """The configuration of that client."""
    return counted()
