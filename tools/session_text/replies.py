"""Replies as text."""
import contextlib
import struct

from . import protobuf, refusals
from .faults import Fault
from .layout import (
    CLIENT_FULL,
    INSTALLED,
    LINK,
    NO_CONFIG,
    REFUSED,
    REMOVED,
    REPLACED,
    REPORTED,
    TOO_LARGE,
    UNSUPPORTED,
    WIRE,
)
from .reading import Cursor, client_words, is_text

NAMES = {
    INSTALLED: "installed",
    REFUSED: "refused",
    NO_CONFIG: "no_config",
    REPORTED: "report",
    CLIENT_FULL: "client_full",
    REPLACED: "replaced",
    REMOVED: "removed",
}

# The kinds whose body is a report: what was asked for, or the last one of a configuration that is replaced or removed.
WITH_REPORT = (REPORTED, REPLACED, REMOVED)

# How long a reply is, at least, and less than what.
LEAST, TOO_MUCH = 13, 2**40


def large(cursor, _config):
    """A configuration that is too large."""
    return f"large {cursor.number('I')}", []


def wire(cursor, _config):
    """A fault of the wire, and below it in words."""
    cause, offset = cursor.number("B"), cursor.number("I")
    return f"wire {cause} {offset}", [refusals.wire_words(cause, offset)]


def unsupported(cursor, config):
    """A record that isn't supported, and below it in words. Each has a path."""
    path = [cursor.number("I") for _ in range(cursor.number("B"))]
    return f"unsupported {'.'.join(map(str, path))}", [refusals.unsupported_words(path, config or b"")]


def link(cursor, config):
    """A fault of references, and below it in words, where the configuration is at hand."""
    number, reason, value = cursor.number("B"), cursor.number("B"), cursor.number("q")
    return f"link {number} {reason} {value}", [refusals.link_words(config or b"", number, reason, value)]


REFUSALS = {TOO_LARGE: large, WIRE: wire, UNSUPPORTED: unsupported, LINK: link}


def refusal(cursor, config):
    """Why a configuration was refused, and lines below."""
    kind = cursor.number("B")
    if kind not in REFUSALS:
        raise Fault(f"expected a class of refusals from 1 to 4, got {kind}")
    return REFUSALS[kind](cursor, config)


def reply_words(content, config):
    """What is told of one reply but for its report, with the configuration that was to be installed, if it is at
    hand: its line, the lines below, and the bytes of its report, or None."""
    cursor = Cursor(content)
    kind = cursor.number("B")
    if kind not in NAMES:
        raise Fault(f"expected a kind of replies, 1, 3 or 5 to 9, got {kind}")
    words, more, report = [NAMES[kind], *client_words(cursor)], [], None
    if kind == REFUSED:
        word, told = refusal(cursor, config)
        words.append(word)
        more = ["  " + line for line in told]
    elif kind in WITH_REPORT:
        report = cursor.rest()
    elif kind == CLIENT_FULL:
        words.append(str(cursor.number("I")))
    if not cursor.is_done():
        raise Fault("expected the end of the reply, and bytes are left")
    return [" ".join(words), *more], report


def is_front(content, at):
    """Bytes from a place on may be a reply or the front of one: its length and its kind are such as replies have."""
    if len(content) - at < 8:
        return not is_text(content[at:])
    size = struct.unpack_from("<Q", content, at)[0]
    return LEAST <= size < TOO_MUCH and (len(content) == at + 8 or content[at + 8] in NAMES)


def bodies(content):
    """Where each reply is, and its bytes after the length. A front of a reply, as a failed write leaves it, is the last
    one, with None in place of its bytes."""
    at = 0
    while at < len(content):
        if not is_front(content, at):
            raise Fault(f"expected replies, and at byte {at} is none: a reply begins with its length and its kind")
        size = struct.unpack_from("<Q", content, at)[0] if len(content) - at >= 8 else len(content)
        if size > len(content) - at - 8:
            yield at, None
            return
        yield at, content[at + 8 : at + 8 + size]
        at += 8 + size


def reports_lines(reports):
    """Each report by protoc, indented; in hexadecimal where protoc isn't here. Each stands at its place in the
    replies."""
    if not protobuf.is_here():
        return [["  (no protoc here) " + report.hex()] for _, report in reports]
    try:
        return protobuf.decoded([report for _, report in reports])
    except Fault:
        return [one_report(at, report) for at, report in reports]


def one_report(at, report):
    """One report by protoc, which may be the one that is at fault."""
    with of_reply(at):
        return protobuf.decoded([report])[0]


@contextlib.contextmanager
def of_reply(at):
    """A fault that is met here is one of the reply at a place."""
    try:
        yield
    except Fault as fault:
        raise Fault(f"the reply at {at}: {fault}") from None


def replies_lines(content, configs=()):
    """All replies, with the configurations of their commands, if they are at hand. A front of a reply is one line of
    bytes."""
    told, reports = [], []
    for number, (at, body) in enumerate(bodies(content)):
        if body is None:
            told.append((["cut " + content[at:].hex()], None))
            break
        with of_reply(at):
            lines, report = reply_words(body, configs[number] if number < len(configs) else None)
        told.append((lines, report))
        if report is not None:
            reports.append((at, report))
    shown = iter(reports_lines(reports))
    return [line for lines, report in told for line in [*lines, *(next(shown) if report is not None else [])]]
