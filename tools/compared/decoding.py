"""From the bytes of a configuration to its tree: the walk over its records, read once more."""
from collections import namedtuple

from compared.trees import BOOL, BYTES, INT64, MESSAGES, NOT_TAKEN, ONEOFS, STRICT, TAKEN

VARINT, EIGHT, COUNTED, OPEN, CLOSE, FOUR = range(6)
DEEPEST, MOST_TAG, MOST_BYTES = 100, 2**32 - 1, 262_144

LONG_VARINT, CUT, NO_TYPE, NO_FIELD, ODD_CLOSE, TOO_DEEP, LONG_TAG = range(1, 8)

# A record: where its tag begins, the number of its field, its wire type, and its number or its bytes.
Record = namedtuple("Record", "at field type content")


class TooLarge(Exception):
    """So many bytes, which are too many."""


class WireFault(Exception):
    """Bytes that are no records: the cause, and where the record begins."""


class Unsupported(Exception):
    """The first record that isn't supported, by the path of field numbers that leads to it."""


class Reader:
    """Reads the records of some bytes between two places."""

    def __init__(self, content, at, end, depth):
        self.content, self.at, self.end, self.depth = content, at, end, depth

    def varint(self, begin):
        """A number, seven bits a byte, at most ten bytes. A fault is one of the record that begins there."""
        value, shift = 0, 0
        while True:
            if self.at == self.end:
                raise WireFault(CUT, begin)
            byte = self.content[self.at]
            self.at += 1
            value |= (byte & 127) << shift
            shift += 7
            if byte < 128:
                return value % 2**64
            if shift == 70:
                raise WireFault(LONG_VARINT, begin)

    def take(self, count, begin):
        """So many bytes."""
        if self.end - self.at < count:
            raise WireFault(CUT, begin)
        self.at += count
        return self.content[self.at - count : self.at]

    def tag(self):
        """The field number and the wire type of the next record."""
        begin = self.at
        tag = self.varint(begin)
        field, kind = tag >> 3, tag & 7
        for cause, is_so in ((LONG_TAG, tag > MOST_TAG), (NO_FIELD, field == 0), (NO_TYPE, kind > FOUR)):
            if is_so:
                raise WireFault(cause, begin)
        return begin, field, kind

    def record(self, closes=None):
        """The next record. The end of a group is one where it closes the group of this number."""
        begin, field, kind = self.tag()
        if kind == CLOSE and field != closes:
            raise WireFault(ODD_CLOSE, begin)
        content = None
        if kind == VARINT:
            content = self.varint(begin)
        elif kind == COUNTED:
            size = self.varint(begin)
            content = self.take(size, begin)
        elif kind in (EIGHT, FOUR):
            content = self.take(8 if kind == EIGHT else 4, begin)
        elif kind == OPEN:
            self.group(begin, field)
        return Record(begin, field, kind, content)

    def group(self, begin, field):
        """All records of a group and its end. What is inside of its bytes isn't looked into."""
        if self.depth == DEEPEST:
            raise WireFault(TOO_DEEP, begin)
        self.depth += 1
        while True:
            if self.at == self.end:
                raise WireFault(CUT, begin)
            if self.record(closes=field).type == CLOSE:
                break
        self.depth -= 1


def signed(value, bits):
    """The low bits of a number, with a sign."""
    value %= 2**bits
    return value - 2**bits if value >= 2 ** (bits - 1) else value


def number_of(kind, value):
    """A varint as a number of a kind, or of an enumeration."""
    if kind == BOOL:
        return value != 0
    return signed(value, 64 if kind == INT64 else 32)


class Walk:
    """The walk over a configuration: its tree, and the path of the first record that isn't supported."""

    def __init__(self, content):
        self.content = content
        self.refused = None

    def refuse(self, path):
        """A record that isn't supported is met."""
        self.refused = self.refused or path

    def message(self, kind, tree, reader, path):
        """Reads a message to its end, into a tree that may have fields already."""
        names = {field.number: name for name, field in MESSAGES[kind].items()}
        while reader.at < reader.end:
            record = reader.record()
            here = [*path, record.field]
            name = names.get(record.field)
            field = MESSAGES[kind].get(name)
            if field and self.is_typed(field, record.type):
                self.listed(kind, tree, name, record, reader, here)
            elif record.field in NOT_TAKEN.get(kind, ()):
                self.refuse(here)
            elif kind != "config" and record.field not in TAKEN.get(kind, ()):
                self.refuse(here)
        return tree

    @staticmethod
    def is_typed(field, wire_type):
        """A record of a field has the wire type that the field has; numbers that are repeated may be packed."""
        if field.type == BYTES or field.type in MESSAGES:
            return wire_type == COUNTED
        return wire_type == VARINT or (field.is_repeated and wire_type == COUNTED)

    def listed(self, kind, tree, name, record, reader, path):
        """Takes a record of a field that is listed."""
        field = MESSAGES[kind][name]
        values = self.values(kind, name, record, reader, path, tree)
        for other in ONEOFS.get(kind, ()):
            if values and name in ONEOFS[kind] and other != name:
                tree.pop(other, None)
        for value in values:
            if field.is_repeated:
                tree.setdefault(name, []).append(value)
            else:
                tree[name] = value

    def values(self, kind, name, record, reader, path, tree):
        """What a record brings to its field: mostly one value."""
        field = MESSAGES[kind][name]
        if field.type in MESSAGES:
            if reader.depth == DEEPEST:
                raise WireFault(TOO_DEEP, record.at)
            begun = {} if field.is_repeated else tree.get(name, {})
            inner = Reader(self.content, reader.at - len(record.content), reader.at, reader.depth + 1)
            return [self.message(field.type, begun, inner, path)]
        if field.type == BYTES:
            return [record.content]
        found = [number_of(field.type, one) for one in self.numbers(record)]
        if not isinstance(field.type, tuple) or found[0] in field.type:
            return found
        if (kind, name) in STRICT:
            self.refuse(path)
        return []

    @staticmethod
    def numbers(record):
        """The numbers of a record: one, or all that are packed in it."""
        if record.type == VARINT:
            return [record.content]
        packed, found = Reader(record.content, 0, len(record.content), 0), []
        while packed.at < packed.end:
            found.append(packed.varint(record.at))
        return found


def decoded(content):
    """The tree of a configuration, or why it has none: it is too large, has a fault of the wire, or isn't supported."""
    if len(content) > MOST_BYTES:
        raise TooLarge(len(content))
    walk = Walk(content)
    tree = walk.message("config", {}, Reader(content, 0, len(content), 0), [])
    if walk.refused:
        raise Unsupported(walk.refused)
    return tree
