"""Frames of a session as bytes: docs/SESSION.md has the form."""
import struct

from session_text.layout import ATOM, INSTALL, INT, LONG, PULL, REMOVE, REPORT, STR, TICK

CONFIG_ID = 1
SEED = 7
MILLISECOND = 10**6


def framed(body):
    """A frame: its length, and its body."""
    return struct.pack("<I", len(body)) + body


def install(uid, config_id, config):
    """An install of a configuration."""
    return framed(struct.pack("<Biq", INSTALL, uid, config_id) + config)


def remove(uid, config_id):
    """The removal of a configuration."""
    return framed(struct.pack("<Biq", REMOVE, uid, config_id))


def report(uid, cut):
    """A report, with a cut of the open bucket or without."""
    return framed(struct.pack("<BiqB", REPORT, uid, CONFIG_ID, cut))


def tick(at):
    """A tick of the log."""
    return framed(struct.pack("<BQ", TICK, at))


def integers(*values):
    """Entries of integers in the fields from 1 on."""
    return b"".join(struct.pack("<BBBBBi", place, 0, 0, 0, INT, value) for place, value in enumerate(values, 1))


def longs(*values):
    """Entries of long integers in the fields from 1 on."""
    return b"".join(struct.pack("<BBBBBq", place, 0, 0, 0, LONG, value) for place, value in enumerate(values, 1))


def atom_of(at, atom_id, entries):
    """An atom of the log with these entries."""
    return framed(struct.pack("<BQI", ATOM, at, atom_id) + entries)


def atom(at, value, atom_id=5):
    """An atom of the log with an integer in its field 1."""
    return atom_of(at, atom_id, integers(value))


def pull(at, atom_id, atoms):
    """A pull of atoms with these entries."""
    payloads = [struct.pack("<I", atom_id) + entries for entries in atoms]
    counted = b"".join(struct.pack("<H", len(one)) + one for one in payloads)
    return framed(struct.pack("<BQIBH", PULL, at, atom_id, 0, len(payloads)) + counted)


def text(place, content, index=0):
    """An entry of some text in a field, or at an index of it."""
    return struct.pack("<BBBBBH", place, index, 0, 0, STR, len(content)) + content


def log_frames(count):
    """Ticks and atoms from a seed, up to a second apart."""
    state, at = SEED, 0
    for _ in range(count):
        state = (state * 6364136223846793005 + 1442695040888963407) % 2**64
        drawn = state >> 33
        at += drawn % 1000 * MILLISECOND
        yield tick(at) if drawn % 4 == 0 else atom(at, drawn // 1000 % 50)
