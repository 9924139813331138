"""One session with the configurations of a plan: what the program answers, as rows of tables."""
import mmap
import os
import select
import struct
import subprocess
import tempfile
import time

from session_text.commands import ENDED, fault_words
from session_text.faults import Fault
from session_text.reports import ALARM, TURNED_AWAY, Names, Reply, Rows, Told, text_of
from session_text.replies import NAMES, WITH_REPORT

from .plan import Lot, Result
from .sources import MOST_HELD, Deadline, session
from .splicing import Splice
from .tables import tables_of

WELL, FAULT = 0, 7
# What is no time of a frame any more.
NO_TIME = 2**63
TURNED = frozenset(TURNED_AWAY.values())
WORDS = Told(text_of)
REPLY = struct.Struct("<QBiq")

# The program that is at work for this process, which is ended with it.
AT_WORK = []


def end_at_once(number, _frame):
    """Ends this process, and what it has at work."""
    for ran in AT_WORK:
        ran.kill()
    os._exit(128 + number)


def room_for(size):
    """A file for so many bytes, in memory where they are few."""
    if size > MOST_HELD or not hasattr(os, "memfd_create"):
        return tempfile.TemporaryFile()
    return os.fdopen(os.memfd_create("session"), "w+b")


def wait(ran, deadline):
    """Waits until a program has ended; one that takes too long is ended."""
    left = deadline.left()
    if left is None:
        ran.wait()
        return
    watched = os.pidfd_open(ran.pid)
    try:
        select.select([watched], [], [], left)
        if ran.poll() is None:
            deadline.left()
    finally:
        os.close(watched)


def all_of(file):
    """The bytes of a file that was written: as they are, or where they stand if there are many."""
    size = file.seek(0, os.SEEK_END)
    if size > MOST_HELD:
        return mmap.mmap(file.fileno(), size, access=mmap.ACCESS_READ)
    file.seek(0)
    return file.read()


def replayed(program, pieces, size, deadline):
    """What a program answers to a session in pieces: the replies, the note, the status."""
    with room_for(size) as given, room_for(size) as written, room_for(0) as noted:
        for piece in pieces:
            given.write(piece)
        given.seek(0)
        ran = subprocess.Popen([program, "replay"], stdin=given, stdout=written, stderr=noted)
        AT_WORK.append(ran)
        try:
            wait(ran, deadline)
        finally:
            if ran.poll() is None:
                ran.kill()
                ran.wait()
            AT_WORK.remove(ran)
        noted.seek(0)
        return all_of(written), noted.read().decode(errors="replace"), ran.returncode


def own_replies(written, client):
    """The replies to a client, by their places among these."""
    at, number = 0, 0
    while len(written) - at >= REPLY.size:
        size, kind, uid, config = REPLY.unpack_from(written, at)
        end = at + 8 + size
        if uid == client:
            rest = written[at + REPLY.size : end]
            yield Reply(number, NAMES[kind], uid, config, rest, rest if kind in WITH_REPORT else None)
            number += 1
        at = end


class Cells:
    """The rows of a session as tables have them, of the keys by what configurations call their leaves."""

    def __init__(self, name, leaves):
        self.name, self.names = name, [Names(leaves=one) for one in leaves]
        self.rows, self.turned_away, self.alarms = [], [], []
        self.end = None

    def add(self, reply):
        """Adds the rows of a report."""
        report = Rows(reply, self.names[reply.config - 1], WORDS)
        self.end = report.now
        for head, cells in report.parts():
            *of, what, key, states = head
            if what in TURNED:
                self.turned_away += [(self.name, *of, what, *cell) for cell in cells]
            elif what == ALARM:
                self.alarms += [(self.name, *of[:4], key, states, at, total) for at, _, total in cells]
            else:
                self.rows.append(((self.name, *of, what, key or "", states or ""), cells))


def why_not(status, note):
    """Why a session didn't end well, in words."""
    found = ENDED.search(note)
    if found:
        return f"at byte {found[1]}: {fault_words(found[2], found[3])}"
    if status == WELL:
        return "not all of the commands that were put in were answered"
    return note.strip().removeprefix("statsd: ") or f"the program stopped with status {status}"


def read_whole(cells, replies):
    """Reads all reports among replies."""
    for reply in replies:
        if reply.report is not None:
            cells.add(reply)


def answered_well(content, plan, cells, deadline):
    """The time of the first frame of the log, the status, the note, and whether all went well: then the rows are
    read. Else the status and the note are those of the session as it stands, whose bytes have their own places."""
    splice = Splice(content, plan)
    written, note, status = replayed(plan.program, splice.pieces(), len(content), deadline)
    replies = list(own_replies(written, splice.client))
    if status == WELL and len(replies) == splice.asked:
        read_whole(cells, replies)
        return splice.zero, status, note, True
    _, note, status = replayed(plan.program, [content], len(content), deadline)
    return splice.zero, status, note, False


def answered(name, plan):
    """The result of a session, whatever comes of it."""
    begin, deadline, cells = time.monotonic(), Deadline(plan.limit), Cells(name, plan.leaves)
    size, zero, status, note, fault = None, None, FAULT, "", None
    try:
        with session(name, deadline) as content:
            size = len(content)
            zero, status, note, is_well = answered_well(content, plan, cells, deadline)
            fault = None if is_well else why_not(status, note)
            status = FAULT if fault and status == WELL else status
    except (Fault, MemoryError, OSError) as error:
        status, fault = FAULT, str(error) if isinstance(error, Fault) else f"{type(error).__name__}: {error}"
        cells = Cells(name, plan.leaves)
    told = (size, zero if zero is None or zero < NO_TIME else None, cells.end, round(time.monotonic() - begin, 6))
    return Result(name, status, fault, note.strip() or None, *told, cells.rows, cells.turned_away, cells.alarms)


def answered_all(names, plan):
    """What comes of sessions, one after the other."""
    return Lot(names, tables_of((answered(name, plan) for name in names), plan.room))
