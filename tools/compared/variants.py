"""What has to stay the same where a session is changed: no second reading is asked for it.

The replies to a client are those of the session without the commands of the others, of the session with commands of a
stranger in it, of the session in other pieces, and, under other names of clients and configurations, of the renamed one.
"""
import contextlib
import struct
import subprocess
import threading

from session_text.layout import INSTALL, REMOVE, REPORT

COMMANDS = (INSTALL, REMOVE, REPORT)
STRANGER = 77
FRAME_HEAD, REPLY_HEAD = struct.Struct("<IBiq"), struct.Struct("<QBiq")


def split(content, length):
    """The frames of some bytes, each of which begins with its length. A rest that is no frame is the last one."""
    frames, at = [], 0
    while at < len(content):
        size = length.size + (length.unpack_from(content, at)[0] if at + length.size <= len(content) else 0)
        frames.append(content[at : at + size])
        at += size
    return frames


def frames_of(session):
    """The frames of a session."""
    return split(session, struct.Struct("<I"))


def replies_of(answered):
    """The frames of replies."""
    return split(answered, struct.Struct("<Q"))


def client_of(frame):
    """The client of a command, or None for a frame of the log."""
    return FRAME_HEAD.unpack_from(frame)[2] if len(frame) > 16 and frame[4] in COMMANDS else None


def replies_to(answered, uid):
    """The replies to one client."""
    return b"".join(one for one in replies_of(answered) if REPLY_HEAD.unpack_from(one)[2] == uid)


def struck_out(session, uid):
    """A session without the commands of the other clients."""
    return b"".join(frame for frame in frames_of(session) if client_of(frame) in (None, uid))


def with_a_stranger(session, random):
    """A session in which a stranger installs what others did, replaces and removes it, and asks for reports."""
    frames = frames_of(session)
    installs = [frame[17:] for frame in frames if client_of(frame) is not None and frame[4] == INSTALL]
    changed = []
    for frame in frames:
        while random.random() < 0.1:
            kind = random.choice(COMMANDS)
            body = random.choice(installs) if kind == INSTALL else b"\0" if kind == REPORT else b""
            changed.append(FRAME_HEAD.pack(13 + len(body), kind, STRANGER, random.choice([1, 2])) + body)
        changed.append(frame)
    return b"".join(changed)


def varint(number):
    """A number as a varint; one below 0 has ten bytes."""
    number %= 2**64
    written = []
    while number > 127:
        written.append(number & 127 | 128)
        number >>= 7
    return bytes(written + [number])


def key_of(uid, config_id):
    """What a report begins with: the client and the configuration."""
    key = b"\x08" + varint(uid) + b"\x10" + varint(config_id)
    return b"\x0a" + varint(len(key)) + key


def renamed(frames, head, is_one):
    """Frames in which clients and configurations have other names, where these are told; a report has them once more."""
    for frame in frames:
        if not is_one(frame):
            yield frame
            continue
        size, kind, *old = head.unpack_from(frame)
        new = -3 * old[0] - 1, old[1] ^ -(2**40)
        rest = frame[head.size :]
        if rest.startswith(key_of(*old)):
            rest = key_of(*new) + rest[len(key_of(*old)) :]
        yield head.pack(size + len(rest) - len(frame[head.size :]), kind, *new) + rest


def in_pieces(out, session, piece):
    """Writes a session by so many bytes, as long as somebody reads."""
    with contextlib.suppress(BrokenPipeError), out:
        for at in range(0, len(session), piece):
            out.write(session[at : at + piece])


def answered(program, session, piece=1 << 20):
    """The replies to a session that comes in pieces."""
    pipes = {"stdin": subprocess.PIPE, "stdout": subprocess.PIPE, "stderr": subprocess.DEVNULL, "bufsize": 0}
    with subprocess.Popen([program, "replay"], **pipes) as ran:
        writing = threading.Thread(target=in_pieces, args=(ran.stdin, session, piece))
        writing.start()
        told = ran.stdout.read()
        writing.join()
        return told


def wrong_of(program, session, random):
    """What doesn't stay the same, by its name."""
    whole = answered(program, session)
    uids = sorted({REPLY_HEAD.unpack_from(one)[2] for one in replies_of(whole)})
    wrong = [
        f"the replies to {uid} alone"
        for uid in uids
        if answered(program, struck_out(session, uid)) != replies_to(whole, uid)
    ]
    beside = answered(program, with_a_stranger(session, random))
    wrong += [f"the replies to {uid} beside a stranger" for uid in uids if replies_to(beside, uid) != replies_to(whole, uid)]
    if answered(program, session, random.choice([1, 3, 100, 4096])) != whole:
        wrong.append("the replies to pieces")
    named = b"".join(renamed(frames_of(session), FRAME_HEAD, lambda frame: client_of(frame) is not None))
    if answered(program, named) != b"".join(renamed(replies_of(whole), REPLY_HEAD, lambda reply: True)):
        wrong.append("the replies under other names")
    return wrong
