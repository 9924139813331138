"""Sessions as they come: files and folders of them, bytes or text, packed by gzip or not, and pipes."""
import contextlib
import gzip
import mmap
import os
import pathlib
import select
import stat
import tempfile
import time

from session_text import packing
from session_text.faults import Fault

# A file of a folder is a session by its name; one that is named is one, whatever its name.
ENDINGS = (".session", "session.txt")
GZIP = ".gz"
TEXT = b"\0"

# What is larger stands in a file, and is read where it is needed.
MOST_HELD = 2**24
PART = 2**20


def is_session(name):
    """Whether a file of a folder is a session."""
    return name.removesuffix(GZIP).endswith(ENDINGS)


def sessions_in(folder):
    """The sessions of a folder and of those in it, in the order of their names."""
    for where, folders, files in os.walk(folder):
        folders.sort()
        yield from (os.path.join(where, name) for name in sorted(files) if is_session(name))


def sessions_of(names):
    """The sessions that are named, each once, and those of folders; and the folders without one."""
    found, empty = {}, []
    for name in names:
        inner = list(sessions_in(name)) if os.path.isdir(name) else [name]
        found |= dict.fromkeys(inner)
        empty += [] if inner else [name]
    return list(found), empty


class Deadline:
    """When a session has taken too long."""

    def __init__(self, limit):
        self.limit, self.end = limit, None if limit is None else time.monotonic() + limit

    def left(self):
        """The seconds that are left, or None where nothing limits them."""
        if self.end is None:
            return None
        left = self.end - time.monotonic()
        if left <= 0:
            raise Fault(f"it took longer than {self.limit:g} seconds")
        return left


def parts_of(file, deadline):
    """The bytes of something that is read to its end, which may keep its reader waiting."""
    while True:
        select.select([file], [], [], deadline.left())
        deadline.left()
        part = os.read(file.fileno(), PART)
        if not part:
            return
        yield part


def unpacked(file, deadline):
    """The bytes of a file that gzip packed."""
    with gzip.open(file) as whole:
        while part := whole.read(PART):
            deadline.left()
            yield part


@contextlib.contextmanager
def gathered(parts):
    """Bytes that come in parts: as they are, or in a file where there are many."""
    with tempfile.SpooledTemporaryFile(MOST_HELD) as room:
        for part in parts:
            room.write(part)
        size = room.tell()
        if size <= MOST_HELD:
            room.seek(0)
            yield room.read()
        else:
            room.flush()
            yield mmap.mmap(room.fileno(), size, access=mmap.ACCESS_READ)


def at_once(name, flags):
    """Opens a file; a pipe, too, into which nobody writes yet."""
    return os.open(name, flags | os.O_NONBLOCK)


@contextlib.contextmanager
def content_of(name, deadline):
    """The bytes of a file: as they are, or where they stand if there are many."""
    with open(name, "rb", buffering=0, opener=at_once) as file:
        told = os.fstat(file.fileno())
        if not stat.S_ISREG(told.st_mode):
            with gathered(parts_of(file, deadline)) as content:
                yield content
        elif name.endswith(GZIP):
            with gathered(unpacked(file, deadline)) as content:
                yield content
        elif told.st_size > MOST_HELD:
            yield mmap.mmap(file.fileno(), told.st_size, access=mmap.ACCESS_READ)
        else:
            yield file.read()


@contextlib.contextmanager
def session(name, deadline):
    """The bytes of a session, which is bytes or text. A text's configurations are found from its folder."""
    try:
        with content_of(name, deadline) as content:
            if content.find(TEXT) >= 0:
                yield content
            else:
                yield packing.pack(content[:], pathlib.Path(name).parent, name)
    except (OSError, EOFError) as error:
        raise Fault(f"expected a session that can be read: {getattr(error, 'strerror', None) or error}") from None
