"""Rows of reports as a table: tab-separated, comma-separated, or an object of JSON a line. docs/REPORT.md has the
columns."""
import csv
import datetime
import io
import json
import re

from .faults import Fault, echo
from .reports import COLUMNS, json_of, text_of

SECOND = 10**9
TIMES = ("from_time", "to_time")
EPOCH = datetime.datetime(1970, 1, 1, tzinfo=datetime.timezone.utc)
FRACTION = re.compile(r"(\d\d:\d\d:\d\d)[.,](\d{1,9})")
LATEST = 253_402_300_800 * SECOND  # the end of the year 9999


def wall_nanos(word):
    """The nanoseconds since 1970 of a time of day: seconds since then, or a date and time as 2026-11-30T08:00:00Z,
    in UTC where it names no zone."""
    if re.fullmatch(r"\d+", word):
        return int(word) * SECOND
    fraction = FRACTION.search(word)
    whole = FRACTION.sub(r"\1", word).replace("Z", "+00:00")
    try:
        moment = datetime.datetime.fromisoformat(whole)
    except ValueError:
        raise Fault(f"wall: expected seconds since 1970, or a time as 2026-11-30T08:00:00Z; got {echo(word)}") from None
    if moment.tzinfo is None:
        moment = moment.replace(tzinfo=datetime.timezone.utc)
    seconds = (moment - EPOCH) // datetime.timedelta(seconds=1)
    return seconds * SECOND + (int(fraction[2].ljust(9, "0")) if fraction else 0)


def time_of_day(nanos):
    """A time of day in UTC with nanoseconds; nothing where there is no time, or it is past the year 9999."""
    if nanos is None or not 0 <= nanos < LATEST:
        return None
    seconds, rest = divmod(nanos, SECOND)
    return (EPOCH + datetime.timedelta(seconds=seconds)).strftime("%Y-%m-%dT%H:%M:%S") + f".{rest:09}Z"


class Table:
    """How rows are written: as `tsv`, `csv` or `json`, with the times of day where it is said when the clock was 0,
    and with the name of the session in front where there are several."""

    def __init__(self, how="tsv", zero=None, has_sessions=False):
        self.how, self.zero, self.has_sessions = how, zero, has_sessions
        self.join = csv_line if how == "csv" else "\t".join

    def names(self):
        """The names of the columns."""
        return (("session",) if self.has_sessions else ()) + COLUMNS + (() if self.zero is None else TIMES)

    def head(self):
        """The line of names; none of JSON, which has them in each line."""
        return [] if self.how == "json" else [self.join(self.names())]

    def cells(self, row, session):
        """The columns of a row."""
        times = []
        if self.zero is not None:
            times = [None if time is None else time_of_day(self.zero + time) for time in (row.begin, row.to)]
        return (*([session] if self.has_sessions else []), *row, *times)

    def lines(self, rows, session=None):
        """The lines of rows of a session. A byte of text that isn't UTF-8 is told by an escape."""
        for row in rows:
            cells = self.cells(row, session)
            if self.how == "json":
                yield json.dumps(dict(zip(self.names(), map(json_of, cells))), ensure_ascii=True)
            else:
                yield self.join([text_of(cell) for cell in cells])


def csv_line(cells):
    """A line of comma-separated values, without its end."""
    out = io.StringIO()
    csv.writer(out, lineterminator="").writerow(cells)
    return out.getvalue()
