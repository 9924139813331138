"""The steps of an installed configuration, the parts of its time, and which of its rows a report has."""
from collections import namedtuple

from session_text.layout import PULL, REPORT

# A frame of the log since the installation, or a report of the configuration: its kind, the clock then, and whether
# it cuts. The first step is the installation.
Step = namedtuple("Step", "kind at is_cut", defaults=(False,))

# A stretch of time: its start and end, the places of the steps by which it was opened and closed (the steps within it
# are those from the first place up to the second), and how often it comes again, each time a bucket later. What is
# still open has no end.
Part = namedtuple("Part", "start end opened closed times")

# What comes to a metric: at the place of a step, of a key, with what it contributes.
Arrival = namedtuple("Arrival", "place key contribution")

# A row of a part: its weight is how much of the room of kept rows it takes. An overflow row has no key, and this in the
# place of one.
Row = namedtuple("Row", "key start end value weight")
OVERFLOW = "overflow"

MOST_WEIGHT = 16_384


def parts_of(steps, base, size):
    """The parts of a metric's time. A full bucket ends right before the first frame of the log that is later, or that
    has its end and isn't a pull. A report that cuts ends a part too, and the next part has the same full end."""
    start, full_end, opened = base, base + size, 1
    for place, step in enumerate(steps):
        if place > 0 and step.kind == REPORT and step.is_cut:
            yield Part(start, step.at, opened, place, 1)
            start, opened = step.at, place
        latest = step.at - 1 if step.kind == PULL else step.at
        if place == 0 or step.kind == REPORT or latest < full_end:
            continue
        yield Part(start, full_end, opened, place, 1)
        more = (latest - full_end) // size
        if more > 0:
            yield Part(full_end, full_end + size, place, place, more)
        start, opened = full_end + more * size, place
        full_end = start + size
    yield Part(start, None, opened, None, 1)


def places_in(part, steps):
    """The places of the steps within a part."""
    return range(part.opened, len(steps) if part.closed is None else part.closed)


def guarded(arrivals, bound):
    """The arrivals of the first keys, as many as the bound, by key in order of their first; and the other arrivals."""
    admitted, dropped = {}, []
    for arrival in arrivals:
        if arrival.key in admitted or len(admitted) < bound:
            admitted.setdefault(arrival.key, []).append(arrival)
        else:
            dropped.append(arrival)
    return admitted, dropped


class Kept:
    """The rows that are kept between two reports: the first that together have room. After one that has none no row
    is kept, and the others are counted: each with how often it came."""

    def __init__(self):
        self.rows, self.weight, self.unkept, self.is_full = [], 0, [], False

    @property
    def not_kept(self):
        """How many rows weren't kept."""
        return sum(times for _, times in self.unkept)

    def add(self, row):
        """A row comes."""
        self.is_full = self.is_full or self.weight + row.weight > MOST_WEIGHT
        if self.is_full:
            self.unkept.append((row, 1))
        else:
            self.rows.append(row)
            self.weight += row.weight

    def close(self, part, rows):
        """A part closes with these rows, and again as often as it comes."""
        for time in range(part.times if rows else 0):
            if self.is_full:
                self.unkept += [(row, part.times - time) for row in rows]
                return
            later = time * (part.end - part.start)
            for row in rows:
                self.add(row._replace(start=row.start + later, end=row.end + later))
