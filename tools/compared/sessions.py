"""What a whole session is answered: its frames, its replies, and how it ends."""
import struct
from collections import namedtuple

from session_text.layout import (
    ATOM,
    CLIENT_FULL,
    INSTALL,
    INSTALLED,
    LINK,
    NO_CONFIG,
    PULL,
    REFUSED,
    REMOVE,
    REMOVED,
    REPLACED,
    REPORT,
    REPORTED,
    TICK,
    TOO_LARGE,
    UNSUPPORTED,
    WIRE,
)

from compared.atoms import MOST_ID, BadAtom, read_atom
from compared.balance import unbalanced
from compared.decoding import TooLarge, Unsupported, WireFault, decoded
from compared.meaning import Books, Instance
from compared.verdict import Checked, line_of
from compared.wire import replied

MOST_FRAME, MOST_ATOMS, MOST_CONFIGS = 1_048_576, 200, 10
MOST_TIME = 2**63 - 1

# How a session ends, by the program's status.
CLEAN, BAD = 0, 3

Frame = namedtuple("Frame", "kind at atom pulled_id atoms client config is_cut", defaults=(None,) * 7)


class BadFrame(Exception):
    """A frame that can't be taken, in the words that the program has for it."""


class Body:
    """The body of a frame, read from its front."""

    def __init__(self, content):
        self.content = content

    def take(self, count):
        """So many bytes."""
        if len(self.content) < count:
            raise BadFrame("5 bad body 1")
        taken, self.content = self.content[:count], self.content[count:]
        return taken

    def number(self, code):
        """A number."""
        return struct.unpack("<" + code, self.take(struct.calcsize("<" + code)))[0]

    def rest(self):
        """All that is left."""
        return self.take(len(self.content))

    def flag(self):
        """A byte that is 0 or 1."""
        flag = self.number("B")
        if flag > 1:
            raise BadFrame("5 bad body 3")
        return flag == 1

    def time(self):
        """A time."""
        time = self.number("Q")
        if time > MOST_TIME:
            raise BadFrame("5 bad body 4")
        return time

    def client(self):
        """A client, and the id of a configuration."""
        return self.number("i"), self.number("q")


def atom_of(payload, pulled_id=None):
    """The atom of a payload."""
    try:
        return read_atom(payload, pulled_id)
    except BadAtom as bad:
        raise BadFrame(f"6 bad atom {bad.args[0]}") from None


def pulled_atoms(body, pulled_id):
    """The atoms of a pull."""
    count = body.number("H")
    if count > MOST_ATOMS:
        raise BadFrame("5 bad body 5")
    return [atom_of(body.take(body.number("H")), pulled_id) for _ in range(count)]


def pull_frame(body):
    """A pull: of an id, with its atoms or failed."""
    at, pulled_id = body.time(), body.number("I")
    if not 1 <= pulled_id <= MOST_ID:
        raise BadFrame("6 bad atom 2")
    is_failed = body.flag()
    return Frame(PULL, at, pulled_id=pulled_id, atoms=None if is_failed else pulled_atoms(body, pulled_id))


READERS = {
    TICK: lambda body: Frame(TICK, body.time()),
    ATOM: lambda body: Frame(ATOM, body.time(), atom=atom_of(body.rest())),
    PULL: pull_frame,
    INSTALL: lambda body: Frame(INSTALL, client=body.client(), config=body.rest()),
    REMOVE: lambda body: Frame(REMOVE, client=body.client()),
    REPORT: lambda body: Frame(REPORT, client=body.client(), is_cut=body.flag()),
}


def read_body(content):
    """The frame that a kind and a body are."""
    if content[0] not in READERS:
        raise BadFrame(f"4 unknown kind {content[0]}")
    body = Body(content[1:])
    frame = READERS[content[0]](body)
    if body.content:
        raise BadFrame("5 bad body 2")
    return frame


def next_frame(left):
    """The frame in front of what is left of a session, and its length."""
    if len(left) < 4:
        raise BadFrame("1 cut")
    size = struct.unpack("<I", left[:4])[0]
    if size == 0:
        raise BadFrame("3 bad length")
    if size > MOST_FRAME:
        raise BadFrame(f"2 too long {size}")
    if len(left) < 4 + size:
        raise BadFrame("1 cut")
    return read_body(left[4 : 4 + size]), 4 + size


class Session:
    """The clients of a session, and its replies so far."""

    def __init__(self):
        self.books, self.live = Books(), {}

    def refusal(self, client, content):
        """The reply to an install that is refused, without its client, or None; and else the tree."""
        try:
            tree = decoded(content)
        except TooLarge as fault:
            return REFUSED, struct.pack("<BI", TOO_LARGE, *fault.args)
        except WireFault as fault:
            return REFUSED, struct.pack("<BBI", WIRE, *fault.args)
        except Unsupported as fault:
            path = fault.args[0]
            return REFUSED, struct.pack(f"<BB{len(path)}I", UNSUPPORTED, len(path), *path)
        others = [one for one in self.live if one[0] == client[0] and one != client]
        if len(others) >= MOST_CONFIGS:
            return CLIENT_FULL, struct.pack("<I", MOST_CONFIGS)
        for number, reason, value in Checked(tree).faults():
            return REFUSED, struct.pack("<BBBq", LINK, number, reason, value)
        return tree

    def install(self, frame):
        """An install. One that is refused changes nothing."""
        found = self.refusal(frame.client, frame.config)
        if isinstance(found, tuple):
            return found
        answer = (REPLACED, self.last_report(frame.client)) if frame.client in self.live else (INSTALLED, b"")
        self.live[frame.client] = Instance(found, frame.client, self.books)
        return answer

    def last_report(self, client):
        """Ends a configuration: what it hadn't told. Then nothing of it waits, and its books balance."""
        ended = self.live.pop(client)
        told = ended.report(True)
        if unbalanced(ended):
            raise AssertionError(f"the books of the metrics {unbalanced(ended)} of {client} don't balance")
        return told

    def answer(self, frame):
        """The kind and the body of the reply to a command."""
        if frame.kind == INSTALL:
            return self.install(frame)
        if frame.client not in self.live:
            return NO_CONFIG, b""
        if frame.kind == REMOVE:
            return REMOVED, self.last_report(frame.client)
        return REPORTED, self.live[frame.client].report(frame.is_cut)

    def step(self, frame):
        """A frame comes: what is answered to it."""
        if frame.client is not None:
            kind, body = self.answer(frame)
            return replied(kind, *frame.client, body)
        if frame.at < self.books.clock:
            raise BadFrame(f"7 time backwards {self.books.clock} {frame.at}")
        self.books.log(frame)
        for instance in self.live.values():
            instance.log(frame)
        return b""


def replies(content):
    """The replies to a session, the status, and the note."""
    session, at, written = Session(), 0, []
    while at < len(content):
        try:
            frame, size = next_frame(content[at : at + 4 + MOST_FRAME])
            written.append(session.step(frame))
        except BadFrame as bad:
            return b"".join(written), BAD, f"statsd: bad session at {at}: {bad}\n"
        at += size
    return b"".join(written), CLEAN, ""


def checked_line(content):
    """The line that `check` writes of a configuration."""
    try:
        return line_of(decoded(content))
    except TooLarge as fault:
        return f"refused large {fault.args[0]}\n"
    except WireFault as fault:
        cause, offset = fault.args
        return f"refused wire {cause} {offset}\n"
    except Unsupported as fault:
        return f"refused unsupported {'.'.join(map(str, fault.args[0]))}\n"
