"""Many configurations in one session: each is installed for a client of its own."""
import struct

from session_text.layout import INSTALL, INSTALLED

from compared.sessions import Session
from compared.wire import framed, replied

CONFIG_ID = 1


def reply_to(client, content):
    """The kind and the body of the reply to the install of a configuration by a client that has none."""
    found = Session().refusal((client, CONFIG_ID), content)
    return found if isinstance(found, tuple) else (INSTALLED, b"")


def session_of(contents):
    """The session that installs them all, and the replies to it."""
    session, replies = b"", b""
    for client, content in enumerate(contents, 1):
        session += framed(struct.pack("<Biq", INSTALL, client, CONFIG_ID) + content)
        kind, body = reply_to(client, content)
        replies += replied(kind, client, CONFIG_ID, body)
    return session, replies
