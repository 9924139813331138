"""The words of a line, and the numbers, times, bytes and strings among them."""
import re

from .faults import Fault, column_of, echo, shown, within

SPACES = re.compile(r"[ \t\r]*")
QUOTED = r'"[^"\\]*(?:\\.[^"\\]*)*"'
WORD = re.compile(rf'(?:[^ \t\r"#]+|{QUOTED})+')
STRING = re.compile(QUOTED)
NUMBER = re.compile(r"(-?)(?:0x([0-9a-fA-F]{1,32})|([0-9]{1,40}))")
TIME = re.compile(r"([0-9]{1,40})(?:\.([0-9]{1,40}))?(ns|us|ms|s|m|h)?")
HEX = re.compile(r"(?:[0-9a-fA-F]{2})*")
ESCAPE = re.compile(r"\\(x[0-9a-fA-F]{2}|.)")

UNITS = {None: 1, "ns": 1, "us": 10**3, "ms": 10**6, "s": 10**9, "m": 60 * 10**9, "h": 3600 * 10**9}
ESCAPES = {"n": b"\n", "t": b"\t", "r": b"\r", '"': b'"', "\\": b"\\"}
ESCAPED = {"\n": "\\n", "\t": "\\t", "\r": "\\r", '"': '\\"', "\\": "\\\\"}


class Word(str):
    """A word of a line, with the column where it begins, from 1."""

    def __new__(cls, text, column):
        word = super().__new__(cls, text)
        word.column = column
        return word


def words_of(line):
    """The words of a line: parts between spaces. A string in double quotes is kept whole, and a # begins a comment."""
    words, at = [], SPACES.match(line).end()
    while at < len(line) and line[at] != "#":
        word, begin = WORD.match(line, at), at
        at = word.end() if word else at
        if not word or line[at : at + 1] == '"':
            raise Fault(f"expected a double quote at the end of the string {shown(line[at:])}", at + 1)
        words.append(Word(word[0], begin + 1))
        at = SPACES.match(line, at).end()
    return words


def number_of(word, low, high, what):
    """A whole number in decimal or, after 0x, in hexadecimal, from low to high."""
    found = NUMBER.fullmatch(word)
    if not found:
        raise Fault(f"{what}: expected a number, got {echo(word)}", column_of(word))
    size = int(found[2], 16) if found[2] else int(found[3])
    number = -size if found[1] else size
    if not low <= number <= high:
        raise Fault(f"{what}: expected a number from {low} to {high}, got {shown(word)}", column_of(word))
    return number


def time_of(word):
    """A time in nanoseconds: a number, or one with a unit, as 90s or 1.5h."""
    with within(word):
        return nanos_of(word)


def nanos_of(word):
    """The nanoseconds of a time."""
    found = TIME.fullmatch(word)
    if not found:
        raise Fault(f"time: expected nanoseconds, or a number with ns, us, ms, s, m or h; got {echo(word)}")
    fraction = found[2] or ""
    time, rest = divmod(int(found[1] + fraction) * UNITS[found[3]], 10 ** len(fraction))
    if rest:
        raise Fault(f"time: expected a whole number of nanoseconds, got {shown(word)}")
    if time >= 2**64:
        raise Fault(f"time: expected fewer than 2^64 nanoseconds, got {shown(word)}")
    return time


def hex_of(word, what):
    """Bytes in hexadecimal."""
    if not HEX.fullmatch(word):
        raise Fault(f"{what}: expected bytes in hexadecimal, two digits each; got {echo(word)}")
    return bytes.fromhex(word)


def escape_of(escape):
    """The bytes of an escape, from what stands after its backslash."""
    if escape in ESCAPES:
        return ESCAPES[escape]
    if len(escape) == 1:
        raise Fault(rf"string: expected \n, \t, \r, \", \\ or \xHH with two digits; got \{escape}")
    return bytes([int(escape[1:], 16)])


def string_of(word):
    """The bytes of a string in double quotes: UTF-8, with escapes."""
    if not STRING.fullmatch(word):
        raise Fault(f"string: expected text in double quotes, got {shown(word)}")
    parts = ESCAPE.split(word[1:-1])
    return b"".join(escape_of(part) if place % 2 else part.encode() for place, part in enumerate(parts))


def shown_char(char):
    """A character as it stands in a string. A byte that isn't UTF-8 came as a surrogate."""
    if char in ESCAPED:
        return ESCAPED[char]
    if char.isprintable():
        return char
    return "".join(f"\\x{byte:02x}" for byte in char.encode("utf-8", "surrogateescape"))


def quoted(content):
    """Bytes as a string in double quotes."""
    return '"' + "".join(map(shown_char, content.decode("utf-8", "surrogateescape"))) + '"'
