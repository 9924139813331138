"""Saved forms with a byte changed, left out or put in, and how a run on them may end: refused, for just the cause that
it has, or as the session ends that comes after the form."""
import struct

from compared.cutting import Ran
from compared.sessions import MOST_FRAME, BadFrame, next_frame

MOST_SAVED = 2**31
REFUSED, DONE, BAD, NO_MEMORY = 8, 0, 3, 6

# Lengths as which a number is read that says how much there is.
MANY = (2**64 - 1, 2**63, 2**40, 2**32 - 1, 2**31, 2**31 - 1, 2**24)


def framed(form):
    """Bytes with their length in front, as a form is saved."""
    return struct.pack("<Q", len(form)) + form


def changed(form, at, flip):
    """A form with other bits at one place."""
    return form[:at] + bytes([form[at] ^ flip]) + form[at + 1 :]


def longer(form, byte):
    """A form with a byte more at its end, which its length counts."""
    return framed(form[8:] + bytes([byte]))


def broken(form, rest, random):
    """A form with the session that comes after it, broken in some way."""
    drawn = random.random()
    if drawn < 0.6:
        return changed(form, random.randrange(len(form)), random.randint(1, 255)) + rest
    if drawn < 0.8:
        return longer(form, random.randrange(256)) + rest
    return form[: random.randrange(len(form))]


def each_broken(form, rest):
    """A form that is cut at each byte; and one of which each byte in turn is changed, or each number says much."""
    for at in range(len(form)):
        yield form[:at]
        for flip in (1, 0x80, 0xFF):
            yield changed(form, at, flip) + rest
    for many in MANY:
        for at in range(8, len(form) - 7):
            yield form[:at] + struct.pack("<Q", many) + form[at + 8 :] + rest
        for at in range(8, len(form) - 3):
            yield form[:at] + struct.pack("<I", many % 2**32) + form[at + 4 :] + rest


def of_a_hundred(form):
    """Forms of a hundred bytes that say they are long: by their length, and by any number in them."""
    short = (form[8:] + bytes(100))[:100]
    for many in (*MANY, MOST_SAVED + 1):
        yield struct.pack("<Q", many) + short
        for at in range(len(short) - 7):
            yield framed(short[:at] + struct.pack("<Q", many) + short[at + 8 :])


def refusal(content):
    """Why bytes are refused before anything is built of them, or None."""
    if len(content) < 8:
        return "cut"
    (length,) = struct.unpack_from("<Q", content)
    if length > MOST_SAVED:
        return f"too long {length}"
    return "cut" if len(content) < 8 + length else None


def frames_after(content):
    """The frames of a session: where each begins, and its time; and the fault at which they end, or None."""
    frames, at, clock = [], 0, 0
    while at < len(content):
        try:
            frame, size = next_frame(content[at : at + 4 + MOST_FRAME])
        except BadFrame as bad:
            return frames, (at, str(bad))
        if frame.at is not None and frame.at < clock:
            return frames, (at, f"7 time backwards {clock} {frame.at}")
        clock = clock if frame.at is None else frame.at
        frames.append((at, frame.at))
        at += size
    return frames, None


def may_end_at(rest, at, told):
    """Whether a session may end at an offset with a fault: its first one, or a time before that of the cut."""
    frames, fault = frames_after(rest)
    if fault == (at, told):
        return True
    number, *words = told.split()
    logged = [one for one in frames if one[1] is not None]
    is_first = bool(logged) and logged[0][0] == at
    is_backwards = number == "7" and words[:2] == ["time", "backwards"] and len(words) == 4
    return is_first and is_backwards and int(words[3]) == logged[0][1] < int(words[2])


def has_cause(content, ran):
    """Whether a run on these bytes ended with a status that has its cause, and with its note."""
    why, rest = refusal(content), content[8 + struct.unpack("<Q", content[:8].ljust(8, b"\0"))[0] :]
    if ran.status == REFUSED:
        return ran == Ran(b"", f"statsd: save refused: {why or 'not saved'}\n".encode(), REFUSED)
    if why:
        return False
    if ran.status == NO_MEMORY:
        return ran.note == b"statsd: out of memory\n"
    if ran.status == DONE:
        return ran.note == b"" and frames_after(rest)[1] is None
    words = ran.note.decode().removeprefix("statsd: bad session at ").rstrip("\n").split(": ", 1)
    return ran.status == BAD and len(words) == 2 and words[0].isdigit() and may_end_at(rest, int(words[0]), words[1])
