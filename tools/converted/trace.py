"""tools/session from-perfetto: a session from the atoms that a Perfetto trace has of statsd (its data source
android.statsd).

What of Perfetto's format this rests on, from memory; no trace of a real device was at hand: field 1 of a trace is
its packets. Field 84 of a packet has statsd's atoms (1, repeated) and as many times in nanoseconds since the device
began (2); field 50 is packets that were packed by zlib, as a trace; field 6 is a snapshot of clocks (1, repeated), each
with its number (1) and its time (2), of which 1 is the time of day and 6 the time since the device began. An atom is a
message with one field, whose number is the atom's id."""
import itertools
import struct
import zlib

from session_text.config import is_whole, records, signed, varint_at
from session_text.faults import Fault
from session_text.files import bytes_of, content_of, judge_output
from session_text.tables import time_of_day
from session_text.told import tell

from converted.descriptors import Atoms
from converted.events import Left, times_in
from converted.lines import SPLIT, Sessions

PACKET, CLOCKS, COMPRESSED, STATSD = 1, 6, 50, 84
TIME_OF_DAY, SINCE_BEGIN = 1, 6
PULLED = (range(10_000, 100_000), range(150_000, 200_000))


def is_pulled(atom_id):
    """Whether atoms of an id are pulled, and not logged by themselves."""
    return any(atom_id in ids for ids in PULLED)


def packets(content):
    """The packets of a trace, with those that were packed."""
    if not is_whole(content):
        raise IndexError
    for number, kind, packet in records(content):
        if number != PACKET or kind != 2:
            continue
        if not is_whole(packet):
            raise IndexError
        found = list(records(packet))
        yield found
        for inner, _, packed in found:
            if inner == COMPRESSED:
                yield from packets(zlib.decompress(packed))


def atoms_in(packet):
    """The atoms of a packet: their times, and each as the record that it is."""
    for number, _, content in packet:
        if number == STATSD:
            messages = [message for inner, _, message in records(content) if inner == 1]
            for at, message in zip(times_in(content, 2), messages):
                yield from ((at, atom) for atom in records(message))


def zero_in(packet):
    """When the time since the device began was 0, in nanoseconds since 1970, if a packet tells."""
    for number, _, content in packet:
        if number == CLOCKS:
            clocks = {}
            for _, _, clock in records(content):
                found = {inner: varint_at(payload, 0)[0] for inner, kind, payload in records(clock) if kind == 0}
                clocks[found.get(1)] = signed(found.get(2, 0), 64)
            if TIME_OF_DAY in clocks and SINCE_BEGIN in clocks:
                return clocks[TIME_OF_DAY] - clocks[SINCE_BEGIN]
    return None


def read(content):
    """The atoms of a trace in the order of their times, and when its clock was 0, if that is told."""
    found, zero = [], None
    for packet in packets(content):
        found += atoms_in(packet)
        zero = zero_in(packet) if zero is None else zero
    return sorted(found, key=lambda one: one[0]), zero


def lines_of(found, atoms, left):
    """The lines of the log, as the word, the time and the rest: an atom each, or neighbours of one pulled id and one
    time as a pull."""
    for (atom_id, at), group in itertools.groupby(found, lambda one: (one[1][0], one[0])):
        words = [words for words in (left.words(atom, atoms) for _, atom in group) if words is not None]
        if not is_pulled(atom_id):
            yield from (("atom", at, f"{atom_id} {entries}") for entries in words)
        elif words:
            yield "pull", at, f"{atom_id} " + " ".join(f"atom {entries}".rstrip() for entries in words)


def from_perfetto(given):
    """Writes a session from a trace."""
    name, descriptors, target = given.files
    judge_output(name, target)
    try:
        found, zero = read(bytes_of(name, "a Perfetto trace", "; a trace in text isn't taken"))
    except (IndexError, struct.error, zlib.error):
        raise Fault(f"{name}: expected a Perfetto trace, and its bytes end inside a field") from None
    if not found:
        tell(f"{name} has no atom of statsd: its configuration wants the data source android.statsd")
    atoms, left = Atoms(content_of(descriptors), descriptors), Left()
    with Sessions(target, SPLIT).open() as sessions:
        for word, at, rest in lines_of(found, atoms, left):
            sessions.log(word, at, rest, name)
    left.tell()
    if zero is not None:
        tell(f"the session's clock was 0 at {time_of_day(zero)}")
    return 0
