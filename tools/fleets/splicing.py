"""A session with configurations put into it, beside whatever else happens there."""
import re
import struct

from session_text.commands import COMMANDS, frame, frames_of
from session_text.faults import Fault
from session_text.layout import ATOM, INSTALL, PULL, REPORT, TICK

HEAD = struct.Struct("<IB")
TIME = struct.Struct("<Q")
LOG = (TICK, ATOM, PULL)

# Clients that a session mostly doesn't have. 0 and 2000, whose ONE_MINUTE is another, aren't among them.
FREE = range(1_000_000, 1_001_000)


def tick(at):
    """The bytes of a tick."""
    return HEAD.pack(9, TICK) + TIME.pack(at)


def first_log(content):
    """Where the first frame of the log stands, and its time. Where there is none, where the commands end, and None."""
    at = 0
    while len(content) - at >= 13:
        size, kind = HEAD.unpack_from(content, at)
        if kind in LOG:
            return at, TIME.unpack_from(content, at + 5)[0]
        if size == 0 or kind not in COMMANDS:
            return at, None
        at += 4 + size
    return min(at, len(content)), None


def is_in(content, uid):
    """Whether a client has commands in a session. Mostly its number isn't there at all, which an expression sees soon."""
    if not re.search(re.escape(struct.pack("<i", uid)), content):
        return False
    return any(whose and whose.client == uid for _, whose, _ in frames_of(content))


def client_for(content, plan):
    """The client that installs the configurations: the one that is asked for, or one that the session doesn't have."""
    if plan.uid is None:
        return next(uid for uid in FREE if plan.is_alone or not is_in(content, uid))
    if not plan.is_alone and is_in(content, plan.uid):
        raise Fault(f"the session has commands of client {plan.uid}; --uid names another one, --alone leaves them out")
    return plan.uid


class Splice:
    """A session with the configurations of a plan, which a client installs behind a tick of the time of the first
    frame of the log."""

    def __init__(self, content, plan):
        self.content, self.view, self.plan = content, memoryview(content), plan
        self.client = client_for(content, plan)
        self.first, self.zero = first_log(content)
        self.asked = 0

    def commands(self, kind, rest):
        """A command for each configuration, by their ids from 1 on. How many there are is counted."""
        self.asked += len(rest)
        return b"".join(frame(kind, (self.client, number), one) for number, one in enumerate(rest, 1))

    def reports(self, cut):
        """A report of each configuration."""
        return self.commands(REPORT, [cut] * len(self.plan.configs))

    def beginning(self):
        """What comes before the first frame of the log."""
        return (b"" if self.zero is None else tick(self.zero)) + self.commands(INSTALL, self.plan.configs)

    def pieces(self):
        """The bytes, in pieces. A report with a cut is the end."""
        if self.plan.every is None and not self.plan.is_alone:
            yield self.view[: self.first]
            yield self.beginning()
            yield self.view[self.first :]
        else:
            yield from self.by_frames()
        yield self.reports(b"\1")

    def by_frames(self):
        """The same where each frame is looked at: the commands of others are left out, or a report without a cut comes
        at the end of each span that was passed, behind a tick of that time. What is no whole frame stays."""
        content, view, begin, at = self.content, self.view, 0, 0
        is_begun, due = False, self.span_after(self.zero)
        while len(content) - at >= 5:
            size, kind = HEAD.unpack_from(content, at)
            end = at + 4 + size
            if size == 0 or end > len(content):
                break
            if at == self.first:
                yield view[begin:at]
                yield self.beginning()
                begin, is_begun = at, True
            if kind in COMMANDS and self.plan.is_alone:
                yield view[begin:at]
                begin = end
            elif due is not None and kind in LOG and size >= 9:
                now = TIME.unpack_from(content, at + 5)[0]
                if now >= due:
                    passed = now - (now - due) % self.plan.every
                    yield view[begin:at]
                    yield tick(passed) + self.reports(b"\0")
                    begin, due = at, self.span_after(passed)
            at = end
        if not is_begun:
            yield view[begin : self.first]
            yield self.beginning()
            begin = max(begin, self.first)
        yield view[begin:]

    def span_after(self, at):
        """When the span ends that begins at a time."""
        return None if self.plan.every is None or at is None else at + self.plan.every
