"""The commands of a session, and the fault at which one ends."""
import re
import struct
from collections import namedtuple

from .layout import INSTALL, REMOVE, REPORT

ENDED = re.compile(r"statsd: bad session at (\d+): (\d) (.*)$", re.MULTILINE)
NOT_SAVED = re.compile(r"statsd: save refused: (cut|too long|not saved)", re.MULTILINE)
SAVES = {
    "cut": "the bytes end inside the saved form",
    "too long": "a saved form has at most 2,147,483,648 bytes",
    "not saved": "no session has these bytes as its saved form, by this version",
}
BODIES = {
    "1": "ends before all its parts are there",
    "2": "has bytes left over",
    "3": "has a flag that is neither 0 nor 1",
    "4": "has a time of 2^63 or more",
    "5": "has more than 200 atoms",
}
ATOMS = {
    "1": "is longer than 4,096 bytes",
    "2": "has no id from 1 to 2^31 - 1",
    "3": "ends inside an entry",
    "4": "has a field that isn't from 1 to 127, or an index or a sub above 127",
    "5": "has an entry that isn't above the one before it, by field, index and sub",
    "6": "has a type that isn't known, or a Bool that is neither 0 nor 1",
    "7": "has flags that an entry can't have",
    "8": "has another id than its pull",
}


COMMANDS = (INSTALL, REMOVE, REPORT)

# Whose a command is: a client and the id of a configuration.
Whose = namedtuple("Whose", "client config")


def frames_of(session):
    """The frames of a session's bytes: the kind, whose it is if it is a command, and the bytes. What is no whole
    frame, or a command without a client, comes with neither."""
    at = 0
    while at < len(session):
        size, kind = struct.unpack_from("<IB", session, at) if len(session) - at >= 5 else (0, None)
        end = at + 4 + size
        if size == 0 or end > len(session):
            yield None, None, session[at:]
            return
        is_command = kind in COMMANDS and size >= 13
        yield kind, Whose(*struct.unpack_from("<iq", session, at + 5)) if is_command else None, session[at:end]
        at = end


def frame(kind, whose, rest=b""):
    """The bytes of a command."""
    body = struct.pack("<Biq", kind, *whose) + rest
    return struct.pack("<I", len(body)) + body


def commands(session):
    """The configuration of each command of a session, in their order: its bytes for an install, and else None."""
    found, at = [], 0
    while len(session) - at >= 5:
        size, kind = struct.unpack_from("<IB", session, at)
        body = session[at + 5 : at + 4 + size]
        at += 4 + size
        if kind in (INSTALL, REMOVE, REPORT):
            found.append(body[12:] if kind == INSTALL else None)
    return found


def fault_words(number, said):
    """A fault of a session in words. Its numbers stand in what is said of it."""
    first, second = [*re.findall(r"\d+", said), "", ""][:2]
    return {
        "1": "the bytes end inside this frame",
        "2": f"it is {first} bytes long, and a frame has at most 1,048,576",
        "3": "it has no byte",
        "4": f"there is no kind {first} of frames",
        "5": f"its body {BODIES.get(first)}",
        "6": f"an atom of it {ATOMS.get(first)}",
        "7": f"its time {second} is before {first}, that of the frame of the log before it",
        "8": "the session has more than 2^30 bytes",
    }.get(number, f"fault {number}")


def line_at(offset, sizes):
    """The number of the line whose bytes have an offset, by how many bytes each line has; None past all."""
    end = 0
    for number, size in enumerate(sizes, 1):
        end += size
        if offset < end:
            return number
    return None


def ending_lines(note, sizes):
    """Where a bad session ends, in words: the line of its text, and what is wrong there; or what is wrong with a saved
    form."""
    refused = NOT_SAVED.search(note)
    if refused:
        return [f"  {SAVES[refused[1]]}"]
    found = ENDED.search(note)
    if not found:
        return []
    line = line_at(int(found[1]), sizes)
    place = f"line {line}" if line else "at the end"
    return [f"  {place}: {fault_words(found[2], found[3])}"]
