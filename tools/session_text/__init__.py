"""Sessions, configurations and replies as text: what tools/session and the scripts beside it are made of, and what
people import. With the folder tools/ on the path:

    import session_text

    session = session_text.pack(open("session.txt").read(), folder=".")     # the bytes of a session in text
    ran = session_text.replay(session)                                       # what the program answers
    for reply in session_text.read_replies(ran.written):
        print(reply.client, reply.kind, reply.report)                        # a report is a protobuf message
    for row in session_text.rows(ran.written, session):
        print(row.metric, session_text.text_of(row.key), row.value)

What can't be taken is a Fault, whose text says what was expected. docs/USING.md has examples, docs/REPORT.md the
columns of rows, docs/SESSION.md the text and the bytes.
"""
from . import commands, packing, program
from .faults import Fault
from .reports import COLUMNS, Field, Leaf, Reply, Row, Slice, json_of, read_replies, rows_of, text_of
from .unpacking import unpack

__all__ = [
    "COLUMNS",
    "Fault",
    "Field",
    "Leaf",
    "Reply",
    "Row",
    "Slice",
    "configs",
    "json_of",
    "pack",
    "read_replies",
    "replay",
    "resume",
    "rows",
    "save",
    "text_of",
    "unpack",
]


def pack(text, folder="."):
    """The bytes of a session in text. The files of its configurations are found from a folder."""
    return packing.pack(text.encode() if isinstance(text, str) else text, folder, "session")


def replay(session, built=None):
    """What a program answers to a session's bytes: `written`, `note` and `status`, which is 0 or from 3 to 6. It is the
    program that is given, the proved one, or else one without a proof, which is told on standard error."""
    return program.run(["replay"], session, program.chosen(built))


def save(session, built=None):
    """What a program saves of a session's bytes: `written` is the saved form, where `status` is 0. It means something
    to the program alone that wrote it."""
    return program.run(["save"], session, program.chosen(built))


def resume(form, session, built=None):
    """What a program answers to a further session's bytes after a saved form that it wrote: as `replay`, and 8 in
    `status` where the bytes are no saved form."""
    return program.run(["resume"], form + session, program.chosen(built))


def configs(session):
    """The configuration of each command of a session's bytes: its bytes for an install, and else None."""
    return commands.commands(session)


def rows(replies, session=b""):
    """The rows of all reports among replies. The session's bytes give the fields of keys their names; without them
    they are known by their places, as #0."""
    return rows_of(read_replies(replies), configs(session))
