"""A report's bytes read once more: strictly, field after field as they have to stand, into what JSON says of them.

Every field has its place in its message, its wire type, the range of its number and its shortest spelling; what is
otherwise is no report. Nothing is written again to compare.
"""
import json

# The most bytes of a report.
MOST = 1 << 24
# The greatest numbers that fields of an atom and atoms can have.
MOST_ENTRY, MOST_ATOM = 127, 2**29 - 1
VARINT, LENGTH, FOUR = 0, 2, 5
KINDS = {4: "event", 5: "count", 6: "duration", 7: "value", 8: "gauge"}
PLACE, RAW = 1001, 1002


class NoReport(Exception):
    """The bytes are no report."""


def wanted(holds):
    """What has to hold of a report's bytes."""
    if not holds:
        raise NoReport


def signed(number, bits):
    """The number of so many bits, two's complement, that these 64 bits are: as protobuf spells it, with its sign."""
    value = number - (1 << 64) if number >> 63 else number
    wanted(-(1 << bits - 1) <= value < 1 << bits - 1)
    return value


class Message:
    """The fields of a message, one after the other."""

    def __init__(self, content):
        self.content, self.at = content, 0

    def varint(self):
        """A number in its shortest spelling."""
        value, shift = 0, 0
        while True:
            wanted(self.at < len(self.content))
            byte = self.content[self.at]
            self.at += 1
            value |= (byte & 127) << shift
            if byte < 128:
                break
            shift += 7
            wanted(shift < 70)
        wanted(value < 1 << 64 and (byte > 0 or shift == 0))
        return value

    def next(self):
        """The number and the wire type of the next field, which isn't taken yet; nothing at the end."""
        if self.at == len(self.content):
            return None
        before = self.at
        tag = self.varint()
        self.at = before
        wanted(tag < 1 << 32 and tag >> 3 > 0)
        return tag >> 3, tag & 7

    def taken(self, size):
        """The next bytes, so many."""
        wanted(size <= len(self.content) - self.at)
        self.at += size
        return self.content[self.at - size : self.at]

    def body(self, wire):
        """What the next field holds, whose wire type is known."""
        self.varint()
        if wire == VARINT:
            return self.varint()
        if wire == LENGTH:
            return self.taken(self.varint())
        wanted(wire == FOUR)
        return int.from_bytes(self.taken(4), "little")

    def has(self, field, wire):
        """The next field is of this number and this wire type."""
        return self.next() == (field, wire)

    def one(self, field, wire=VARINT):
        """A field that has to be there."""
        wanted(self.has(field, wire))
        return self.body(wire)

    def above(self, field):
        """A number that is left out where it is 0."""
        if not self.has(field, VARINT):
            return 0
        number = self.one(field)
        wanted(number > 0)
        return number

    def each(self, field, read):
        """What messages say that stand one after the other."""
        found = []
        while self.has(field, LENGTH):
            found.append(whole(read, self.one(field, LENGTH)))
        return found


def whole(read, content):
    """What a message says, of which nothing is left."""
    message = Message(content)
    found = read(message)
    wanted(message.next() is None)
    return found


def part(message):
    """A field of an atom."""
    number, wire = message.next()
    wanted(number <= MOST_ENTRY and wire in (VARINT, LENGTH, FOUR))
    body = message.body(wire)
    kind = {VARINT: "num", LENGTH: "bytes", FOUR: "bits"}[wire]
    return [number, kind, body.hex() if wire == LENGTH else body]


def parts(message):
    """The fields of an atom, in any order."""
    found = []
    while message.next():
        found.append(part(message))
    return found


def atom(message):
    """An atom: one field, whose number is its id."""
    wanted(message.next() is not None)
    number, wire = message.next()
    wanted(number <= MOST_ATOM and wire == LENGTH)
    return [number, whole(parts, message.body(LENGTH))]


def value(message):
    """The kind and the value of a leaf, but for raw bytes; nothing where there is none."""
    after = message.next()
    if after == (2, LENGTH):
        return ["str", message.one(2, LENGTH).hex()]
    if after == (3, VARINT):
        return ["int", signed(message.one(3), 32)]
    if after == (4, VARINT):
        return ["long", signed(message.one(4), 64)]
    if after == (5, VARINT):
        number = message.one(5)
        wanted(number < 2)
        return ["bool", number == 1]
    if after == (6, FOUR):
        return ["bits", message.one(6, FOUR)]
    return []


def leaf(message):
    """A value of a key. Raw bytes stand after the place."""
    found = value(message)
    place = message.above(PLACE)
    wanted(place < 1 << 32)
    if not found and message.has(RAW, LENGTH):
        found = ["raw", message.one(RAW, LENGTH).hex()]
    return [place, *found]


def shown_slice(message):
    """A state, or the group that lists it."""
    atom_id = message.one(1)
    wanted(atom_id < 1 << 32)
    if message.has(2, VARINT):
        return [atom_id, "group", signed(message.one(2), 64)]
    return [atom_id, "value", signed(message.one(3), 32)]


def bucket(message):
    """A bucket with its number."""
    return [message.one(1), message.one(2), signed(message.one(3), 64)]


def samples(message):
    """A bucket with its atoms."""
    return [message.one(1), message.one(2), message.each(3, atom)]


def row(message):
    """A row of a metric with numbers."""
    found = {"buckets": message.each(3, bucket), "key": message.each(4, leaf), "slices": message.each(6, shown_slice)}
    overflow = message.above(1001)
    wanted(overflow < 2)
    return {**found, "overflow": overflow == 1}


def count_row(message):
    """A row of counts: one of what found no room has no key."""
    found = row(message)
    wanted(not found["overflow"] or not found["key"] and not found["slices"])
    return found


def other_row(message):
    """A row of another metric with numbers, none of which gathers what found no room."""
    found = row(message)
    wanted(not found["overflow"])
    return found


def gauge_row(message):
    """A row of a gauge."""
    return {"buckets": message.each(3, samples), "key": message.each(4, leaf), "slices": message.each(6, shown_slice)}


def event(message):
    """An atom, and when it was logged."""
    return [message.one(1), whole(atom, message.one(2, LENGTH))]


ROWS = {4: event, 5: count_row, 6: other_row, 7: other_row, 8: gauge_row}


def metric(message):
    """A metric."""
    found = {"id": signed(message.one(1), 64)}
    wanted(message.next() is not None)
    kind, wire = message.next()
    wanted(kind in ROWS and wire == LENGTH)
    rows = whole(lambda wrapper: wrapper.each(1, ROWS[kind]), message.one(kind, LENGTH))
    return {
        **found,
        "kind": KINDS[kind],
        "rows": rows,
        "base": message.one(9),
        "size": 0 if KINDS[kind] == "event" else message.one(10),
        "dropped": message.above(1001),
        "not_kept": message.above(1002),
        "missing": message.above(1003),
    }


def dropped(message):
    """What a full table dropped."""
    number_of = [signed(message.one(1), 64), message.one(2)]
    wanted(number_of[1] > 0)
    return number_of


def alarm(message):
    """An alarm of an alert: when, with which sum, and of which key."""
    found = {"id": signed(message.one(1), 64), "at": message.one(2), "sum": message.one(3)}
    return {**found, "key": message.each(4, leaf), "slices": message.each(6, shown_slice)}


def key(message):
    """Whose report it is."""
    return {"uid": signed(message.one(1), 32), "id": signed(message.one(2), 64)}


def config(message):
    """What a report says of a configuration."""
    return {
        "metrics": message.each(1, metric),
        "last": message.one(3),
        "now": message.one(4),
        "predicate_drops": message.each(1001, dropped),
        "state_drops": message.each(1002, dropped),
        "state_atoms_dropped": message.above(1003),
        "alarms": message.each(1004, alarm),
        "alarms_not_kept": message.each(1005, dropped),
    }


def report(message):
    """A whole report."""
    return {**whole(key, message.one(1, LENGTH)), **whole(config, message.one(2, LENGTH))}


def line(content):
    """The line of JSON that `show` writes of a report."""
    shown = whole(report, content)
    return json.dumps(shown, sort_keys=True, separators=(",", ":")).encode() + b"\n"


def shown(content):
    """What `show` writes of these bytes, its status, and its note."""
    if len(content) > MOST:
        return b"", 7, "statsd: report refused: too long\n"
    try:
        return line(content), 0, ""
    except NoReport:
        return b"", 7, "statsd: report refused: not a report\n"
