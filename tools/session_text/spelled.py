"""The usual lines of a session, quickly: ticks, and atoms of words that were met before or are numbers. Every other
line, and every fault, is left to packing."""
import re
import struct

from .faults import Fault
from .layout import ATOM, INT, LONG, TICK
from .words import QUOTED, nanos_of

# A table of spellings has at most so many words: one that is full takes no more, so that a long session keeps it small.
MOST_WORDS = 100_000

HEAD = struct.Struct("<IBQ")
ATOM_ID = struct.Struct("<I")
PLACE = re.compile(rb"([0-9]{1,3})(?:\[([0-9]{1,3})\])?(?:\.([0-9]{1,3}))?=(int|long)")
NUMBER = re.compile(rb"-?[0-9]{1,19}")
NUMBERS = {b"int": (INT, struct.Struct("<i")), b"long": (LONG, struct.Struct("<q"))}
UNITS = {b"ns": 1, b"us": 10**3, b"ms": 10**6, b"s": 10**9, b"m": 60 * 10**9, b"h": 3600 * 10**9}
WORD = re.compile(rb'(?:[^ \t\r"#]+|' + QUOTED.encode() + rb")+")

# What a word that isn't usual raises, or a number that has no room.
UNUSUAL = (KeyError, ValueError, struct.error, Fault)


class Spellings(dict):
    """Bytes by their words. A word that is met first is spelled by a function, and kept."""

    def __init__(self, spell):
        super().__init__()
        self.spell = spell

    def __missing__(self, word):
        spelled = self.spell(word)
        if len(self) < MOST_WORDS:
            self[word] = spelled
        return spelled


def place_of(word):
    """The five bytes in front of a number, and how it is packed, from a word as 1=int or 2[1].3=long."""
    found = PLACE.fullmatch(word)
    if not found:
        raise KeyError(word)
    kind, packed = NUMBERS[found[4]]
    return bytes([*(int(found[at] or 0) for at in (1, 2, 3)), 0, kind]), packed.pack


PLACES = Spellings(place_of)


def number_entry(word):
    """The bytes of an entry that is a number without flags."""
    place, _, value = word.partition(b":")
    head, pack = PLACES[place]
    if not NUMBER.fullmatch(value):
        raise KeyError(word)
    return head + pack(int(value))


def id_bytes(word):
    """The bytes of an atom's id."""
    if not word.isdigit():
        raise KeyError(word)
    return ATOM_ID.pack(int(word))


IDS = Spellings(id_bytes)
ENTRIES = Spellings(number_entry)


def nanos(word):
    """The nanoseconds of a time."""
    if word.isdigit():
        return int(word)
    for size in (2, 1):
        unit = UNITS.get(word[-size:])
        if unit and word[:-size].isdigit():
            return int(word[:-size]) * unit
    return nanos_of(word.decode())


def frame_of(words):
    """The bytes of the frame of a line's words; None where they are none of the usual."""
    if words[0] == b"atom" and len(words) > 2:
        payload = IDS[words[2]] + b"".join([ENTRIES[word] for word in words[3:]])
        return HEAD.pack(len(payload) + 9, ATOM, nanos(words[1])) + payload
    if words[0] == b"tick" and len(words) == 2:
        return HEAD.pack(9, TICK, nanos(words[1]))
    return None


def words_of(line):
    """The words of a line with strings, which may have spaces; none where something else stands between them."""
    return [] if WORD.sub(b"", line).strip(b" \t\r") else WORD.findall(line)


def line_bytes(line):
    """The bytes of a line, or None where it isn't usual. It has no vertical tab and no form feed."""
    words = line.split()
    if not words or words[0] not in (b"atom", b"tick"):
        return None
    try:
        return frame_of(words)
    except UNUSUAL:
        pass
    try:
        return frame_of(words_of(line) or [b""]) if b'"' in line else None
    except UNUSUAL:
        return None


def learn(word, spelled):
    """Keeps how a word of an entry is spelled that isn't a number alone."""
    if len(ENTRIES) < MOST_WORDS:
        ENTRIES[word.encode("utf-8", "surrogateescape")] = spelled
