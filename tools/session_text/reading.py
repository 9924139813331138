"""Bytes that are read from their front."""
import struct

from .faults import Fault

BYTE_ORDER_MARK = b"\xef\xbb\xbf"


def without_mark(content):
    """Text without the byte order mark that some editors put in front."""
    return content[len(BYTE_ORDER_MARK) :] if content.startswith(BYTE_ORDER_MARK) else content


def is_text(content):
    """Whether bytes are text alone: UTF-8, with no control but tabs and ends of lines. No frame, reply or entity is."""
    try:
        text = content.decode()
    except UnicodeDecodeError:
        return False
    return bool(text) and not any(char < " " and char not in "\t\r\n" for char in text)


class Cursor:
    """A place in bytes, which moves on as they are read. What isn't there is a Fault."""

    def __init__(self, content):
        self.content, self.at = content, 0

    def is_done(self):
        """No byte is left."""
        return self.at == len(self.content)

    def take(self, count):
        """So many bytes."""
        if count > len(self.content) - self.at:
            raise Fault(f"expected {count} bytes, got {len(self.content) - self.at}")
        self.at += count
        return self.content[self.at - count : self.at]

    def number(self, code):
        """A number by its code in struct, low byte first."""
        return struct.unpack("<" + code, self.take(struct.calcsize("<" + code)))[0]

    def counted(self):
        """Bytes with their number in front."""
        return self.take(self.number("H"))

    def rest(self):
        """All bytes that are left."""
        return self.take(len(self.content) - self.at)


def client_words(cursor):
    """A client's uid and the id of its configuration."""
    return [str(cursor.number("i")), str(cursor.number("q"))]
