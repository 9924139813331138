"""The numbers that messages of a report begin with, as a report spells them (docs/REPORT.md, "The spelling"). A report
has many of them, which are found by expressions."""
import re

from .config import varint_at
from .faults import Fault

# So much that was read is kept, since it comes again and again: the times of buckets, keys, atoms.
KEPT = 4096

VARINT = rb"([\x80-\xff]*[\x00-\x7f])"


def numbers(count):
    """How the fields from 1 on are spelled, of so many numbers."""
    return b"".join(re.escape(bytes([8 * field])) + VARINT for field in range(1, count + 1))


# An event begins with its time, a bucket with its begin and its end, and an alarm with three numbers.
TIME, SPAN, ALARM = (re.compile(numbers(count)) for count in (1, 2, 3))

# The message of a key begins with its buckets: how one begins, and one that has a number.
BEGIN = b"\x1a"
BUCKET = re.compile(BEGIN + rb"[\x00-\x7f]" + numbers(3))


class Numbers(dict):
    """The numbers that varints are. Many are kept."""

    def __missing__(self, varint):
        if len(self) >= KEPT:
            self.clear()
        value = 0
        for byte in reversed(varint):
            value = value << 7 | byte & 127
        self[varint] = value if value < 2**63 else value - 2**64
        return self[varint]


NUMBERS = Numbers()


def messages(content):
    """The messages of a field that is repeated, in a message that has nothing else."""
    at = 0
    while at < len(content):
        size, at = varint_at(content, at + 1)
        yield content[at : at + size]
        at += size


def numbers_at(expression, content, at=0):
    """The numbers that stand in a place, and where they end."""
    found = expression.match(content, at)
    if not found:
        raise Fault("expected a report as it is spelled, and there are other numbers")
    return [NUMBERS[varint] for varint in found.groups()], found.end()


def buckets_in(content):
    """The buckets that the message of a key begins with: the begin, the end and the number of each; and what is behind
    them."""
    buckets, end = [], 0
    while found := BUCKET.match(content, end):
        begin, to, number = found.groups()
        buckets.append((NUMBERS[begin], NUMBERS[to], NUMBERS[number]))
        end = found.end()
    return buckets, content[end:]


def samples_in(content, atoms_of):
    """The samples that the message of a key begins with: the begin, the end and the atom of each; and what is behind
    them."""
    samples, end = [], 0
    while content.startswith(BEGIN, end):
        size, begin = varint_at(content, end + 1)
        end = begin + size
        span, at = numbers_at(SPAN, content, begin)
        samples += [(*span, atom) for atom in atoms_of(content[at:end])]
    return samples, content[end:]
