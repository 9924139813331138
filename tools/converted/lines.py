"""The lines of sessions that are made, and the files they go to: where time falls a new one begins."""
import contextlib
import os
import pathlib
import struct

from session_text.faults import Fault
from session_text.told import tell
from session_text.words import quoted

SPLIT, REFUSE, HOLD = "split", "refuse", "hold"
FALLS = (SPLIT, REFUSE, HOLD)


def entry_word(place, kind, value, marks=()):
    """An entry of an atom as a session writes it, from a value: a number, a truth, text or bytes."""
    word = {
        "bool": lambda: "true" if value else "false",
        "str": lambda: quoted(value),
        "raw": value.hex if isinstance(value, bytes) else None,
        "bits": lambda: f"{value:#x}",
    }.get(kind, lambda: str(value))()
    return ",".join([f"{place}={kind}:{word}", *marks])


def float_bits(value):
    """The bits of a float."""
    return struct.unpack("<I", struct.pack("<f", value))[0]


class Sessions:
    """Writes the lines of the log to a file, and those that stand before and after them. Each file is there whole,
    or not."""

    def __init__(self, target, falls, before=(), after=()):
        self.target, self.falls, self.before, self.after = target, falls, before, after
        self.files, self.out, self.last, self.held, self.count = [], None, 0, 0, 0

    def name(self):
        """The file of the session that begins."""
        path, number = pathlib.Path(self.target), len(self.files) + 1
        return str(path) if number == 1 else str(path.with_name(f"{path.stem}-{number}{path.suffix}"))

    def begin(self):
        """Begins a session."""
        name = self.name()
        self.out = open(f"{name}.part", "w", encoding="utf-8")
        self.files.append(name)
        self.write(self.before)

    def write(self, lines):
        """Writes lines."""
        self.out.writelines(line + "\n" for line in lines)

    def finish(self):
        """Ends the session that is open."""
        if self.out:
            self.write(self.after)
            self.out.close()
            os.replace(f"{self.files[-1]}.part", self.files[-1])
            self.out = None

    def time_of(self, at, where):
        """The time of a line of the log, which may not be before the one in front of it."""
        if at >= self.last or not self.out:
            return at
        if self.falls == REFUSE:
            raise Fault(
                f"{where}: the time {at} is before {self.last}, that of the line before; falls = split begins a"
                " new session"
            )
        if self.falls == HOLD:
            self.held += 1
            return self.last
        self.finish()
        self.begin()
        tell(f"{where}: the time falls from {self.last} to {at}: {self.files[-1]} begins there")
        return at

    def log(self, word, at, rest, where):
        """Writes a line of the log."""
        if not self.out:
            self.begin()
        at = self.time_of(at, where)
        self.last, self.count = at, self.count + 1
        self.write([f"{word} {at} {rest}".rstrip()])

    def close(self):
        """Ends all, and tells what was written."""
        if not self.files:
            self.begin()
        self.finish()
        tell(f"{self.count} lines of the log in {', '.join(self.files)}")
        if self.held:
            tell(f"{self.held} of them came with an earlier time than the line before, and got its time")

    @contextlib.contextmanager
    def open(self):
        """What is written in here is there whole, or not at all where there is a fault."""
        try:
            yield self
            self.close()
        except OSError as error:
            raise Fault(f"expected an output that can be written: {error}") from None
        finally:
            if self.out:
                self.out.close()
                pathlib.Path(f"{self.files[-1]}.part").unlink(missing_ok=True)
