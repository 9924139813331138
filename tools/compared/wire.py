"""The bytes of configurations, frames, replies and reports."""
import struct


def varint(value):
    """A number, seven bits a byte; a negative one as its 64 bits."""
    value %= 1 << 64
    written = []
    while value > 127:
        written.append(value & 127 | 128)
        value >>= 7
    return bytes(written + [value])


def number(field, value):
    """A field with a number, or nothing where there is none."""
    return b"" if value is None else varint(field << 3) + varint(value)


def message(field, content):
    """A field with a message or other bytes."""
    return varint(field << 3 | 2) + varint(len(content)) + content


def fixed(field, value):
    """A field with four bytes, low byte first."""
    return varint(field << 3 | 5) + struct.pack("<I", value)


def framed(body):
    """A frame of a session."""
    return struct.pack("<I", len(body)) + body


def replied(kind, uid, config_id, body=b""):
    """A reply."""
    content = struct.pack("<Biq", kind, uid, config_id) + body
    return struct.pack("<Q", len(content)) + content
