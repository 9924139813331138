"""Sessions by their files, and what a program answers to them."""
import os
from collections import namedtuple

from . import commands, packing, program, replies
from .faults import Fault
from .files import called, content_of
from .told import tell

# A session that was answered: its name, its bytes, how many of these each line has (none where it came as bytes), what
# was written and noted, and the status.
Answered = namedtuple("Answered", "name session sizes written note status")


class Program:
    """The program that answers, which is looked for once, when it is needed."""

    def __init__(self, given=None):
        self.given, self.found = given, None

    def __call__(self):
        """The program."""
        if self.found is None:
            self.found = program.chosen(self.given)
        return self.found


def folder_of(name):
    """Where the configurations of a session in text are found: from where the text stands."""
    return "." if name == "-" else os.path.dirname(name)


def packed_lines(name):
    """The bytes of each line of a session in text."""
    return packing.pack_lines(content_of(name), folder_of(name), called(name))


def session_of(name):
    """The bytes of a session that is text or bytes, and how many each line has."""
    content = content_of(name)
    if b"\0" in content:
        return content, []
    lines = packing.pack_lines(content, folder_of(name), called(name))
    return b"".join(lines), list(map(len, lines))


def shown_lines(ran, lines):
    """What is shown of a run on the lines of a session: the replies, the note, and why it ended otherwise than well."""
    shown = replies.replies_lines(ran.written, commands.commands(b"".join(lines)))
    return shown + ran.note.splitlines() + commands.ending_lines(ran.note, list(map(len, lines)))


def is_replies(content):
    """Whether bytes are replies, and no session: the length of a reply has four bytes more, which are 0."""
    return len(content) >= 8 and content[4:8] == bytes(4)


def answered(name, chosen):
    """Has the session in a file answered."""
    session, sizes = session_of(name)
    ran = program.run(["replay"], session, chosen())
    return Answered(name, session, sizes, *ran)


def tell_ending(one):
    """Says why a session ended otherwise than well, and in which line."""
    for line in one.note.splitlines() + commands.ending_lines(one.note, one.sizes):
        tell(f"{called(one.name)}: {line.strip()}")


def first_not_well(statuses):
    """The first status that isn't 0."""
    return next((status for status in statuses if status), 0)
