"""tools/session from-events: a session from the events that Android's statsd gave out, as its reports have them.

What of Android's formats this rests on, from memory; no file of a real device was at hand: a file is a
ConfigMetricsReportList, whose field 2 is reports; field 1 of a report is its metrics; field 4 of a metric is its
events, whose field 1 is repeated. An event has its time in nanoseconds since the device began in field 1 and the
atom in field 2; or in field 4 an atom (1) with a list of times (2). An atom is a message with one field, whose
number is the atom's id."""
import struct
from collections import Counter, defaultdict

from session_text.config import is_whole, records, signed, varint_at
from session_text.faults import Fault
from session_text.files import bytes_of, content_of, judge_output
from session_text.told import tell

from converted.descriptors import ZIGZAG, Atoms
from converted.lines import SPLIT, Sessions, entry_word

MOST_PLACE = 127


def parts(content, number):
    """The payloads of the fields of a number."""
    if not is_whole(content):
        raise IndexError
    return [payload for found, kind, payload in records(content) if found == number and kind == 2]


def times_in(content, number):
    """The times of a field, packed or one by one."""
    for found, kind, payload in records(content):
        if found != number:
            continue
        at = 0
        while at < len(payload):
            value, at = varint_at(payload, at)
            yield signed(value, 64)
            if kind == 0:
                break


def events_of(metric):
    """The events of a metric: times, and atoms as bytes."""
    for wrapper in parts(metric, 4):
        for event in parts(wrapper, 1):
            for atom in parts(event, 2):
                yield from ((at, atom) for at in times_in(event, 1))
            for several in parts(event, 4):
                for atom in parts(several, 1):
                    yield from ((at, atom) for at in times_in(several, 2))


def events_in(content):
    """All events of a file in the order of their times. One that several metrics have is one; one that a metric has
    several times came so often."""
    most = Counter()
    by_metric = defaultdict(Counter)
    for number, report in enumerate(parts(content, 2)):
        for metric in parts(report, 1):
            by_metric[number, varint_in(metric, 1)].update(events_of(metric))
    for found in by_metric.values():
        most |= found
    return sorted(most.elements(), key=lambda event: event[0])


def varint_in(content, number):
    """A number of a message, or None."""
    return next(
        (varint_at(payload, 0)[0] for found, kind, payload in records(content) if found == number and kind == 0), None
    )


def value_of(field, payload, kind):
    """A value of a field as an entry has it: the type, and the value."""
    if kind == 5:
        bits = struct.unpack("<I", payload)[0]
        return field.kind, bits if field.kind == "bits" else signed(bits, 32)
    if kind == 1:
        return field.kind, signed(struct.unpack("<Q", payload)[0], 64)
    if kind != 0:
        return field.kind, payload
    value = varint_at(payload, 0)[0]
    if field.type in ZIGZAG:
        value = value >> 1 ^ -(value & 1)
    if field.kind == "bool":
        return "bool", value != 0
    return field.kind, signed(value, 32 if field.kind == "int" else 64)


def values_of(field, payload, kind):
    """The values of a record: one, or all that are packed in it."""
    if kind != 2 or field.kind in ("str", "raw"):
        yield value_of(field, payload, kind)
        return
    at, size = 0, {"bits": 4}.get(field.kind)
    while at < len(payload):
        end = at + size if size else varint_at(payload, at)[1]
        yield value_of(field, payload[at:end], 5 if size else 0)
        at = end


class Entries:
    """The entries of one atom, from its message."""

    def __init__(self, fields):
        self.fields, self.counts, self.found, self.left = fields, Counter(), {}, Counter()

    def read(self, content):
        """Reads all records."""
        if not is_whole(content):
            raise Fault("expected an atom whose bytes are whole")
        for number, kind, payload in records(content):
            field = self.fields.get(number)
            if not field or (field.kind is None and field.inner is None) or not 1 <= number <= MOST_PLACE:
                self.left[f"field {number}"] += 1
            elif field.inner is not None:
                self.message(number, field, payload)
            else:
                for kind_word, value in values_of(field, payload, kind):
                    self.put(number, self.next_index(number, field), 0, kind_word, value, self.marks(field, value))
        return self

    def next_index(self, number, field):
        """The index of the next element of a field: 0 where it isn't repeated."""
        self.counts[number] += 1
        return self.counts[number] if field.is_repeated else 0

    def message(self, number, field, payload):
        """An element that is a message: its fields are subs."""
        index = self.next_index(number, field)
        for sub, kind, inner in records(payload):
            known = field.inner.get(sub)
            if not known or known.kind is None or known.inner is not None or not 1 <= sub <= MOST_PLACE:
                self.left[f"field {number}.{sub}"] += 1
                continue
            is_first_uid = field.has_first_uid and index <= 1 and sub == 1
            for kind_word, value in values_of(known, inner, kind):
                self.put(number, index, sub, kind_word, value, ["primary"] if is_first_uid else [])

    @staticmethod
    def marks(field, value):
        """The marks of a value: a state that has the value of a reset is one."""
        is_reset = "exclusive" in field.marks and field.reset is not None and value == field.reset
        return [*field.marks, *(["reset"] if is_reset else [])]

    def put(self, number, index, sub, kind, value, marks):
        """Notes an entry. The last one of a place counts."""
        if index > MOST_PLACE:
            self.left[f"field {number}"] += 1
            return
        place = f"{number}" + (f"[{index}]" if index else "") + (f".{sub}" if sub else "")
        self.found[number, index, sub] = entry_word(place, kind, value, marks)

    def words(self):
        """The entries in their order."""
        return " ".join(self.found[place] for place in sorted(self.found))


class Left:
    """What is left out of what was read: atoms and fields that the descriptors don't have."""

    def __init__(self):
        self.atoms, self.fields = Counter(), Counter()

    def words(self, atom, atoms):
        """The entries of an atom as a session writes them; None where the descriptors don't have it."""
        atom_id, kind, content = atom
        if kind != 2 or atom_id not in atoms.ids:
            self.atoms[atom_id] += 1
            return None
        entries = Entries(atoms.of(atoms.ids[atom_id])).read(content)
        self.fields.update({f"atom {atom_id}, {what}": times for what, times in entries.left.items()})
        return entries.words()

    def tell(self):
        """Tells all that was left out."""
        for atom_id, times in sorted(self.atoms.items()):
            tell(f"{times} events of atom {atom_id} are left out: the descriptors don't have it")
        for what, times in sorted(self.fields.items()):
            tell(f"{what} is left out, {times} times: the descriptors don't have it, or it has no type here")


def write_events(events, atoms, sessions, name):
    """Writes events as atoms of the log, and tells what was left out."""
    left = Left()
    for at, message in events:
        for atom in records(message):
            words = left.words(atom, atoms)
            if words is not None:
                sessions.log("atom", at, f"{atom[0]} {words}", name)
    left.tell()


def from_events(given):
    """Writes a session from reports of events."""
    name, descriptors, target = given.files
    judge_output(name, target)
    content = bytes_of(name, "reports", "; statsd writes bytes where --proto is asked for")
    try:
        events = events_in(content)
    except (IndexError, struct.error):
        raise Fault(f"{name}: expected a ConfigMetricsReportList, and its bytes end inside a field") from None
    atoms = Atoms(content_of(descriptors), descriptors)
    with Sessions(target, SPLIT).open() as sessions:
        write_events(events, atoms, sessions, name)
    return 0
