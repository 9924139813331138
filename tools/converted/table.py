"""tools/session from-csv: sessions from a table with a schema."""
import contextlib
import csv
import gzip
import io
import itertools
import re
import sys

from session_text.faults import Fault, echo
from session_text.files import called, content_of, judge_output
from session_text.tables import time_of_day, wall_nanos
from session_text.told import tell

from converted.lines import SPLIT, Sessions, entry_word, float_bits
from converted.schema import DATE, UNITS, WALL, schema_in

GZIP = b"\x1f\x8b"
NUMBER = re.compile(r"[+-]?[0-9]{1,40}")
DECIMAL = re.compile(r"([0-9]{1,40})(?:\.([0-9]{1,40}))?")
RANGES = {"int": 2**31, "long": 2**63}
TRUTHS = {"true": True, "1": True, "false": False, "0": False}


def number_in(cell, low, high):
    """A whole number in a cell."""
    if not NUMBER.fullmatch(cell) or not low <= int(cell) < high:
        raise Fault(f"expected a whole number from {low} to {high - 1}, got {echo(cell)}")
    return int(cell)


def bool_in(cell):
    """A truth in a cell."""
    if cell.lower() not in TRUTHS:
        raise Fault(f"expected true, false, 1 or 0; got {echo(cell)}")
    return TRUTHS[cell.lower()]


def bytes_in(cell):
    """Bytes in hexadecimal in a cell."""
    try:
        return bytes.fromhex(cell)
    except ValueError:
        raise Fault(f"expected bytes in hexadecimal, got {echo(cell)}") from None


def float_in(cell):
    """The bits of the float in a cell."""
    try:
        return float_bits(float(cell))
    except (ValueError, OverflowError):
        raise Fault(f"expected a number, got {echo(cell)}") from None


# How a cell is read, and the type of its entry.
CELLS = {
    "int": ("int", lambda cell: number_in(cell, -RANGES["int"], RANGES["int"])),
    "long": ("long", lambda cell: number_in(cell, -RANGES["long"], RANGES["long"])),
    "bool": ("bool", bool_in),
    "str": ("str", lambda cell: cell.encode("utf-8", "surrogateescape")),
    "raw": ("raw", bytes_in),
    "bits": ("bits", lambda cell: number_in(cell, 0, 2**32)),
    "float": ("bits", float_in),
}


def elapsed_in(cell, unit):
    """The nanoseconds of a number of a unit, which may have a fraction."""
    found = DECIMAL.fullmatch(cell)
    if not found:
        raise Fault(f"expected a time, a number of {unit}; got {echo(cell)}")
    fraction = found[2] or ""
    return int(found[1] + fraction) * UNITS[unit] // 10 ** len(fraction)


class Rows:
    """The rows of a table by a schema, as the lines of a log."""

    def __init__(self, schema, header, name):
        self.schema, self.name = schema, name
        self.places = {column: place for place, column in enumerate(header)}
        self.time = self.place(schema.time)
        self.atom = None if schema.atom is None else self.place(schema.atom)
        self.fields = {
            one: [(self.place(field.column), field) for field in kind.fields] for one, kind in schema.kinds.items()
        }
        self.zero, self.before = schema.zero, None

    def place(self, column):
        """The place of a column."""
        if column not in self.places:
            raise Fault(
                f"{self.name}:1: expected a column {column!r}, and there are {', '.join(map(repr, self.places))}"
            )
        return self.places[column]

    def at(self, cell):
        """The time of a row, on the session's clock."""
        found = wall_nanos(cell) if self.schema.unit == DATE else elapsed_in(cell, self.schema.unit)
        if self.schema.clock != WALL:
            return found
        is_set_back = self.before is not None and found < self.before and self.schema.falls == SPLIT
        if self.zero is None or is_set_back:
            self.zero = found
            tell(f"the session's clock was 0 at {time_of_day(found)}")
        self.before = found
        if found < self.zero:
            raise Fault(f"the time {echo(cell)} is before {time_of_day(self.zero)}, when the clock was 0")
        return found - self.zero

    def kind(self, row):
        """What a row is."""
        if self.atom is None:
            return next(iter(self.schema.kinds.values()))
        cell = row[self.atom]
        found = self.schema.kinds.get(int(cell) if NUMBER.fullmatch(cell) else None)
        if not found:
            raise Fault(f"column {self.schema.atom}: expected an id with a section in the schema, got {echo(cell)}")
        return found

    def entries(self, row, kind):
        """The entries of a row. An empty cell is a field that isn't there."""
        for place, field in self.fields[kind.atom_id]:
            cell = row[place]
            if cell:
                type_word, read = CELLS[field.type]
                try:
                    yield entry_word(field.place, type_word, read(cell), field.marks)
                except Fault as fault:
                    raise Fault(f"column {field.column}: {fault}") from None

    def line(self, number, row):
        """What a row says: where it stands, what it is, its time and its entries."""
        where = f"{self.name}:{number}"
        try:
            if len(row) < len(self.places):
                raise Fault(f"expected {len(self.places)} columns, got {len(row)}")
            kind = self.kind(row)
            return where, kind, self.at(row[self.time]), " ".join(self.entries(row, kind))
        except Fault as fault:
            raise Fault(f"{where}: {fault}") from None


@contextlib.contextmanager
def opened(name):
    """A table as text, which may be packed by gzip. It isn't read at once."""
    try:
        with open(0 if name == "-" else name, "rb") as file:
            packed = gzip.open(file) if file.peek(2)[:2] == GZIP else file
            yield io.TextIOWrapper(packed, encoding="utf-8-sig", errors="surrogateescape", newline="")
    except (OSError, EOFError) as error:
        said = getattr(error, "strerror", None) or error
        raise Fault(f"expected an input {called(name)} that can be read: {said}") from None


def write_log(rows, lines, sessions):
    """Writes the log: an atom each, or neighbours of one pulled id and one time as a pull."""
    said = (rows.line(number, row) for number, row in lines if row)
    for (word, atom_id, at), group in itertools.groupby(said, lambda one: (one[1].word, one[1].atom_id, one[2])):
        if word == "pull":
            atoms = list(group)
            rest = " ".join(f"atom {entries}".rstrip() for *_, entries in atoms)
            sessions.log("pull", at, f"{atom_id} {rest}", atoms[0][0])
            continue
        for where, _, _, entries in group:
            sessions.log("atom", at, f"{atom_id} {entries}", where)


def from_csv(given):
    """Writes sessions from a table."""
    name, schema_name, target = given.files
    judge_output(name, target)
    try:
        schema = schema_in(content_of(schema_name).decode("utf-8", "replace"))
    except Fault as fault:
        raise Fault(f"{schema_name}: {fault}") from None
    csv.field_size_limit(sys.maxsize)
    before, after = schema.install
    with opened(name) as text, Sessions(target, schema.falls, before, after).open() as sessions:
        reader = csv.reader(text, delimiter=schema.separator)
        try:
            header = next(reader, [])
            write_log(Rows(schema, header, called(name)), ((reader.line_num, row) for row in reader), sessions)
        except csv.Error as error:
            raise Fault(f"{called(name)}:{reader.line_num}: {error}") from None
    return 0
