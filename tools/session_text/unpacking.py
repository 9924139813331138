"""From bytes to text: a session's frames. Any bytes have a text, and it packs to them."""
import struct

from .faults import Fault
from .layout import ATOM, BITS, BOOL, FLAGS, INSTALL, INT, LONG, PULL, RAW, REMOVE, REPORT, STR, TICK
from .packing import line_bytes
from .reading import Cursor, client_words
from .words import quoted

VALUES = {
    INT: lambda cursor: f"int:{cursor.number('i')}",
    LONG: lambda cursor: f"long:{cursor.number('q')}",
    BOOL: lambda cursor: f"bool:{'true' if cursor.number('B') else 'false'}",
    STR: lambda cursor: f"str:{quoted(cursor.counted())}",
    RAW: lambda cursor: f"raw:{cursor.counted().hex()}",
    BITS: lambda cursor: f"bits:{cursor.number('I'):#x}",
}


def entry_word(cursor):
    """An entry of an atom."""
    field, index, sub, flags, kind = cursor.take(5)
    if kind not in VALUES:
        raise Fault(f"there is no type {kind} of values")
    place = f"{field}" + (f"[{index}]" if index else "") + (f".{sub}" if sub else "")
    names = [name for name, flag in FLAGS.items() if flags & flag]
    return ",".join([f"{place}={VALUES[kind](cursor)}", *names])


def entry_words(cursor):
    """The entries of an atom, to the end of its payload."""
    words = []
    while not cursor.is_done():
        words.append(entry_word(cursor))
    return words


def pulled_words(payload, atom_id):
    """An atom of a pull."""
    cursor = Cursor(payload)
    own = cursor.number("I")
    return ["atom" if own == atom_id else f"atom:{own}", *entry_words(cursor)]


def tick_words(cursor):
    """The words of a Tick."""
    return ["tick", str(cursor.number("Q"))]


def atom_words(cursor):
    """The words of an Atom."""
    return ["atom", str(cursor.number("Q")), str(cursor.number("I")), *entry_words(cursor)]


def pull_words(cursor):
    """The words of a Pull."""
    at, atom_id, is_failed = cursor.number("Q"), cursor.number("I"), cursor.number("B")
    words = ["pull", str(at), str(atom_id)]
    if is_failed:
        return [*words, "failed"]
    for _ in range(cursor.number("H")):
        words += pulled_words(cursor.counted(), atom_id)
    return words


def install_words(cursor):
    """The words of an Install."""
    return ["install", *client_words(cursor), "hex:" + cursor.rest().hex()]


def remove_words(cursor):
    """The words of a Remove."""
    return ["remove", *client_words(cursor)]


def report_words(cursor):
    """The words of a Report."""
    return ["report", *client_words(cursor), *(["cut"] if cursor.number("B") else [])]


FRAMES = {
    TICK: tick_words,
    ATOM: atom_words,
    PULL: pull_words,
    INSTALL: install_words,
    REMOVE: remove_words,
    REPORT: report_words,
}


def frame_line(frame):
    """The line whose bytes are this frame: its words, or the word bytes where no words pack to it."""
    cursor = Cursor(frame[4:])
    try:
        line = " ".join(FRAMES[cursor.number("B")](cursor))
        if line_bytes(line, ".") == frame:
            return line
    except (Fault, KeyError):
        pass
    return "bytes " + frame.hex()


def unpack(content):
    """The lines of a session's bytes. What follows the last whole frame is one line of bytes."""
    lines, at = [], 0
    while at < len(content):
        size = struct.unpack_from("<I", content, at)[0] if len(content) - at >= 4 else 0
        if size == 0 or size > len(content) - at - 4:
            return [*lines, "bytes " + content[at:].hex()]
        lines.append(frame_line(content[at : at + 4 + size]))
        at += 4 + size
    return lines
