"""Two tables of runs compared, as tools/session compare does it with two configurations over sessions."""
import contextlib
import sqlite3
from collections import Counter, defaultdict

from session_text.compare import COLUMNS, DIFFERENT, NEW, OLD, SAME, Comparison, Place, cells_of, line_of
from session_text.faults import Fault
from session_text.files import text, write
from session_text.reports import SHOWN

# So many sessions are named that one looks at first.
FIRST = 10
# So many configurations a run has where its own two are compared.
BOTH = 2

# The tables that are compared, with what a place and a value are there.
COMPARED = {
    "rows": 'metric, kind, what, key, states, "from", "to", value',
    "turned_away": 'metric, kind, what, \'\', \'\', "from", "to", value',
    "alarms": "alert, 'alert', 'alarm', key, states, at, at, sum",
}
# Where the lines of each session stand, which are neighbours; and those of one session.
MADE = "CREATE TEMP TABLE {0}_places (session TEXT PRIMARY KEY, first INTEGER, last INTEGER) WITHOUT ROWID"
FOUND = "INSERT INTO {0}_places SELECT session, min(rowid), max(rowid) FROM {0} GROUP BY session"
OF_SESSION = """
SELECT {1} FROM {0}_places JOIN {0} USING (session)
WHERE session = ? AND config = ? AND {0}.rowid BETWEEN first AND last
"""


@contextlib.contextmanager
def opened(name):
    """The tables of a run, to read."""
    try:
        tables = sqlite3.connect(f"file:{name}?mode=ro", uri=True)
    except sqlite3.Error as error:
        raise Fault(f"{name}: expected tables of tools/fleet run: {error}") from None
    try:
        tables.execute("SELECT 1 FROM sessions, configs LIMIT 1")
        for table in COMPARED:
            tables.execute(MADE.format(table))
            tables.execute(FOUND.format(table))
        yield tables
    except sqlite3.Error as error:
        raise Fault(f"{name}: expected tables of tools/fleet run, a file of SQLite: {error}") from None
    finally:
        tables.close()


class Half:
    """One side of a comparison: tables, and which of their configurations."""

    def __init__(self, tables, number):
        self.tables, self.number = tables, number
        found = tables.execute("SELECT content FROM configs WHERE config = ?", (number,)).fetchone()
        if not found:
            raise Fault(f"expected a run with a configuration {number}, as --also gives it")
        self.config = found[0]
        self.well = {name: fault is None for name, fault in tables.execute("SELECT session, fault FROM sessions")}

    def found(self, name):
        """The rows of a session, its numbers that were turned away and its alarms, by what they are of."""
        found = defaultdict(list)
        for table, columns in COMPARED.items():
            for *place, value in self.tables.execute(OF_SESSION.format(table, columns), (name, self.number)):
                found[Place(*place)].append(value)
        return found


class FleetComparison(Comparison):
    """A comparison of two runs. What differs is counted by session; each difference is written where that is asked."""

    def __init__(self, old, new, how):
        super().__init__(old, new)
        self.how, self.by_session, self.turning = how, Counter(), {OLD: Counter(), NEW: Counter()}

    def note(self, one):
        """Notes a difference."""
        self.by_session[one.session] += 1
        if self.how:
            write(text([line_of(cells_of(one), self.how)]))

    def add_found(self, name, old, new):
        """Notes what differs in a session, and where numbers were turned away."""
        super().add_found(name, old, new)
        for word, found in ((OLD, old), (NEW, new)):
            places = {place[:3] for place in found if place.what not in SHOWN}
            self.turning[word].update(places)

    def began_lines(self):
        """The metrics of which numbers were turned away in the new run alone, or no more."""
        for word, here, there in (("began", NEW, OLD), ("ended", OLD, NEW)):
            for one, count in sorted(self.turning[here].items(), key=str):
                if not self.turning[there][one]:
                    metric, kind, what = one
                    yield f"{what} {word}: {kind} {metric}, in {sessions(count)}"

    def first_lines(self):
        """The sessions in which most differs."""
        if self.by_session:
            yield "to look at first:"
        for name, count in sorted(self.by_session.items(), key=lambda one: (-one[1], one[0]))[:FIRST]:
            yield f"  {name}: {count} differ"


def sessions(count):
    """How many sessions."""
    return "1 session" if count == 1 else f"{count} sessions"


def unequal_lines(old, new):
    """The sessions that aren't compared: those that one run has alone, or that didn't end well in one."""
    for half, other, word in ((old, new, OLD), (new, old, NEW)):
        alone = [name for name in half.well if name not in other.well]
        if alone:
            yield f"{sessions(len(alone))} in the {word} run alone, as {alone[0]}"
        worse = [name for name, is_well in half.well.items() if not is_well and other.well.get(name)]
        if worse:
            yield f"{sessions(len(worse))} ended well in the other run and not in the {word} one, as {worse[0]}"


def compared(given):
    """Compares two runs, or the two configurations of one. The status is 1 where something differs."""
    with opened(given.old) as old_tables, opened(given.new or given.old) as new_tables:
        old, new = Half(old_tables, 1), Half(new_tables, 1 if given.new else BOTH)
        names = sorted(name for name, is_well in old.well.items() if is_well and new.well.get(name))
        if not names:
            raise Fault("expected sessions that ended well in both runs, and there are none")
        comparison = FleetComparison(old.config, new.config, given.how)
        if given.how:
            write(text([line_of(COLUMNS, given.how)]))
        for name in names:
            comparison.add_found(name, old.found(name), new.found(name))
        unequal = list(unequal_lines(old, new))
        if not given.how:
            told = [*comparison.summary(len(names)), *comparison.began_lines(), *unequal, *comparison.first_lines()]
            write(text(told))
    return DIFFERENT if comparison.by_session or unequal else SAME
