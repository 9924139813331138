"""What has to come of a session that is cut after a frame, saved, and resumed: no second reading is asked for it.

The replies to a session are those to its frames before the cut, and then those of the resumed one, in whatever pieces
it comes; the resumed one ends as the whole does, at offsets that count from the cut. A front with a fault isn't saved."""
import re
import struct
import subprocess
import threading
from collections import namedtuple

from compared.variants import frames_of, in_pieces

# What a run writes, what it notes, and its status.
Ran = namedtuple("Ran", "written note status")

AT = re.compile(rb"(?<=bad session at )[0-9]+")


def ran(program, word, content, piece=1 << 20, most=None):
    """A run of a word on an input that comes in pieces, with so many KB of memory at most."""
    limited = ["sh", "-c", f'ulimit -v {most} && exec "$0" "$1"'] if most else []
    pipes = {"stdin": subprocess.PIPE, "stdout": subprocess.PIPE, "stderr": subprocess.PIPE, "bufsize": 0}
    with subprocess.Popen([*limited, program, word], **pipes) as running:
        writing = threading.Thread(target=in_pieces, args=(running.stdin, content, piece))
        writing.start()
        written, note = running.stdout.read(), running.stderr.read()
        writing.join()
    return Ran(written, note, running.returncode)


def is_form(written):
    """Whether bytes are a length, and so many bytes."""
    return len(written) >= 8 and struct.unpack_from("<Q", written)[0] == len(written) - 8


def from_cut(note, size):
    """A note whose offset counts from a cut after so many bytes."""
    return AT.sub(lambda found: b"%d" % (int(found[0]) - size), note)


def wrong_cut(program, front, rest, piece):
    """What is wrong with a session that is cut into these two, or None."""
    before, saved = ran(program, "replay", front), ran(program, "save", front)
    if before.status != 0:
        return None if saved == before._replace(written=b"") else "a front with a fault"
    if saved.status != 0 or saved.note or not is_form(saved.written):
        return "what is saved"
    whole, resumed = ran(program, "replay", front + rest), ran(program, "resume", saved.written + rest, piece)
    if before.written + resumed.written != whole.written:
        return "the replies after the cut"
    is_same_end = (resumed.status, resumed.note) == (whole.status, from_cut(whole.note, len(front)))
    return None if is_same_end else "how it ends after the cut"


def cut(session, random):
    """A session in two, which is cut after a random frame."""
    frames = frames_of(session)
    place = random.randint(0, len(frames))
    return b"".join(frames[:place]), b"".join(frames[place:])
