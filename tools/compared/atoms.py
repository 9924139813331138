"""Atoms: what their fields hold, and the keys that their values make."""
import struct
from collections import namedtuple

from session_text.layout import BITS, BOOL, FLAGS, INT, LONG, RAW, STR

EXCLUSIVE, PRIMARY, RESET = FLAGS["exclusive"], FLAGS["primary"], FLAGS["reset"]

FIRST, LAST, ANY, ALL = range(1, 5)

# Ids of atoms that are pulled.
PULLED = (range(10_000, 100_000), range(150_000, 200_000))
MOST_ID, MOST_FIELD, MOST_BYTES = 2**31 - 1, 127, 4_096

# What a key has where the atom lacks the field.
MISSING = None

# Values of two kinds are never equal.
Value = namedtuple("Value", "kind content")

# A value at its place: a field, an index from 1 where it is repeated, and a field inside of it, or 0 for each.
Entry = namedtuple("Entry", "field index sub flags value")

# A field of a key: the elements that a position picks, and the field inside or 0.
Leaf = namedtuple("Leaf", "field position sub")

# Fields of the atoms of an id.
Fields = namedtuple("Fields", "atom_id leaves")
NO_FIELDS = Fields(None, ())


class BadAtom(Exception):
    """Bytes that are no atom, for a reason from 1 to 8."""


def is_pulled(atom_id):
    """Atoms of this id are pulled."""
    return any(atom_id in ids for ids in PULLED)


def fields_of(tree):
    """The fields that a configuration names, in their order; none where it names none."""
    if tree is None:
        return NO_FIELDS
    leaves = []
    for child in tree.get("children", []):
        inner = child.get("children") or [{"field": 0}]
        leaves += [Leaf(child["field"], child.get("position"), one["field"]) for one in inner]
    return Fields(tree["field"], tuple(leaves))


class Atom:
    """An atom: its id, and its entries in the order of their places."""

    def __init__(self, atom_id, entries):
        self.atom_id = atom_id
        self.entries = sorted(entries, key=lambda entry: entry[:3])
        self.at = {entry[:3]: entry for entry in self.entries}

    def picked(self, field, position):
        """The indexes of a field that a position picks: without one index 0, and else of those from 1 on that are
        there the least, the greatest or all."""
        if position is None:
            return [0]
        there = sorted({entry.index for entry in self.entries if entry.field == field and entry.index > 0})
        if position == FIRST:
            return there[:1]
        return there[-1:] if position == LAST else there

    def entries_at(self, leaf):
        """The entries that a leaf picks."""
        places = [(leaf.field, index, leaf.sub) for index in self.picked(leaf.field, leaf.position)]
        return [self.at[place] for place in places if place in self.at]

    def leaf(self, atom_id, leaf):
        """What it has in a field of atoms of an id: a value, for ALL the list of them, or nothing."""
        values = tuple(entry.value for entry in self.entries_at(leaf)) if self.atom_id == atom_id else ()
        if not values:
            return MISSING
        return values if leaf.position == ALL else values[0]

    def key(self, fields):
        """Its key for these fields."""
        return tuple(self.leaf(fields.atom_id, leaf) for leaf in fields.leaves)

    def filtered(self, fields):
        """The atom with the entries alone that these fields pick; with none where they are of another id."""
        leaves = fields.leaves if fields.atom_id == self.atom_id else ()
        return Atom(self.atom_id, {entry for leaf in leaves for entry in self.entries_at(leaf)})

    def told(self):
        """The flags and the number of its entry that tells a state, if it has one."""
        for entry in self.entries:
            if entry.flags & EXCLUSIVE:
                return entry.flags, entry.value.content
        return None

    def primary(self):
        """The key of the state that it tells: its primary values, as they stand in it."""
        return tuple(entry.value for entry in self.entries if entry.flags & PRIMARY)

    def payload(self):
        """Its bytes."""
        written = struct.pack("<I", self.atom_id)
        for entry in self.entries:
            kind, content = entry.value
            written += bytes([*entry[:4], kind])
            if kind in (STR, RAW):
                written += struct.pack("<H", len(content)) + content
            else:
                written += struct.pack("<" + CODES[kind], content)
        return written


# How the values are packed that have a size.
CODES = {INT: "i", LONG: "q", BOOL: "B", BITS: "I"}


def taken(payload, at, count):
    """So many bytes of a payload from a place on; an entry that ends before them is bad."""
    if len(payload) < at + count:
        raise BadAtom(3)
    return payload[at : at + count]


def read_value(payload, at, kind):
    """The value of a kind at a place, and the place after it."""
    if kind in (STR, RAW):
        size = struct.unpack("<H", taken(payload, at, 2))[0]
        return Value(kind, taken(payload, at + 2, size)), at + 2 + size
    size = struct.calcsize("<" + CODES[kind])
    content = struct.unpack("<" + CODES[kind], taken(payload, at, size))[0]
    if kind == BOOL and content > 1:
        raise BadAtom(6)
    return Value(kind, content), at + size


def judge_entry(head, before):
    """Raises what is wrong with the five bytes in front of a value, after the entries before."""
    field, index, sub, flags, kind = head
    if not 1 <= field <= MOST_FIELD or index > MOST_FIELD or sub > MOST_FIELD:
        raise BadAtom(4)
    if before and (field, index, sub) <= before[-1][:3]:
        raise BadAtom(5)
    if not INT <= kind <= BITS:
        raise BadAtom(6)
    is_told = flags & EXCLUSIVE
    is_odd = is_told and (kind != INT or index or sub or any(entry.flags & EXCLUSIVE for entry in before))
    if flags > EXCLUSIVE | PRIMARY | RESET or is_odd or (flags & RESET and not is_told):
        raise BadAtom(7)


def read_atom(payload, pulled_id=None):
    """The atom that a payload is, in a pull one of the pulled id; raises what is wrong first."""
    if len(payload) > MOST_BYTES:
        raise BadAtom(1)
    atom_id = struct.unpack("<I", payload[:4])[0] if len(payload) >= 4 else 0
    if not 1 <= atom_id <= MOST_ID:
        raise BadAtom(2)
    if pulled_id not in (None, atom_id):
        raise BadAtom(8)
    entries, at = [], 4
    while at < len(payload):
        head = taken(payload, at, 5)
        judge_entry(head, entries)
        value, at = read_value(payload, at + 5, head[4])
        entries.append(Entry(*head[:4], value))
    return Atom(atom_id, entries)
