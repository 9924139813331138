"""What is drawn: the rows of one session's reports, or those of a fleet's tables, metric by metric."""
import contextlib
import sqlite3
from collections import defaultdict, namedtuple

from session_text.answering import Program, answered, is_replies, tell_ending
from session_text.commands import commands, frames_of
from session_text.config import ALERT
from session_text.faults import Fault
from session_text.files import content_of
from session_text.reports import ALARM, GATHERED, KINDS, TURNED_AWAY, alerts_of, metrics_of, read_replies, rows_of, text_of

SQLITE = b"SQLite format 3\0"
# The most rows of a metric that are read of a fleet: more of them show nothing more.
MOST_ROWS = 100_000

# A bucket of a key, an event or a sample: times in nanoseconds, a number or text, and whether the bucket was cut.
Part = namedtuple("Part", "key begin end value is_cut")
# What was turned away between two times.
Turned = namedtuple("Turned", "what begin end count")
# An alarm on a metric: of which key, and when.
Mark = namedtuple("Mark", "key at")

COUNT = KINDS[5]


class Drawn:
    """A metric with what is drawn of it, the alarms on it among that; or an alert, whose parts are its alarms."""

    def __init__(self, title, kind):
        self.title, self.kind = title, kind
        self.parts, self.turned, self.marks, self.table = [], [], [], []


class Page:
    """All that is drawn of a file: its title, the metrics and alerts, and lines that stand below; what a time is of; and
    the columns of the tables, those of alarms apart."""

    def __init__(self, title, time, columns, alarm_columns):
        self.title, self.time, self.notes, self.drawn = title, time, [], {}
        self.columns, self.alarm_columns = columns, alarm_columns

    def of(self, whose, title, kind):
        """A metric, or what else turns something away."""
        if whose not in self.drawn:
            self.drawn[whose] = Drawn(title, kind)
        return self.drawn[whose]

    def all(self):
        """The metrics and alerts that have something to show, in their order, and then what turned something away."""
        return [one for one in self.drawn.values() if one.parts or one.turned or one.marks]


def label(key, states):
    """What a key is called, with its states."""
    return f"{key} {states}".strip() or "all"


def installs(session):
    """The configurations that a session installs, by whose they are; of several of one id the last."""
    configs = commands(session)
    whose = [one for kind, one, _ in frames_of(session) if one is not None]
    return {one: config for one, config in zip(whose, configs) if config is not None}


def session_page(name, program):
    """The page of a session, or of replies."""
    content = content_of(name)
    if is_replies(content):
        written, session = content, b""
    else:
        one = answered(name, Program(program))
        tell_ending(one)
        written, session = one.written, one.session
    page = Page(name, "the session's clock", ("key", "from", "to", "value"), ("key", "at", "sum"))
    has_several = len({(reply.client, reply.config) for reply in read_replies(written) if reply.report}) > 1
    known, watched = {}, {}
    for whose, config in installs(session).items():
        with contextlib.suppress(KeyError, IndexError):
            known[whose] = {metric: size for metric, _, size in metrics_of(config, whose.client)}
            watched[whose] = dict(alerts_of(config))

    def drawn_of(row, kind, metric):
        owner = f", client {row.client}, configuration {row.config}" if has_several else ""
        return page.of((row.client, row.config, kind, metric), title_of(kind, metric) + owner, kind)

    for row in rows_of(read_replies(written), commands(session)):
        whose = (row.client, row.config)
        size = None if row.kind == ALERT else known.get(whose, {}).get(row.metric)
        add(drawn_of(row, row.kind, row.metric), row, size)
        if row.what == ALARM and row.metric in watched.get(whose, {}):
            counted = drawn_of(row, COUNT, watched[whose][row.metric])
            counted.marks.append(Mark(label(text_of(row.key), text_of(row.states)), row.begin))
    return page


def title_of(kind, metric):
    """How a metric is called, or what else turns something away."""
    return f"{kind.replace('_', ' ')} {'' if metric is None else metric}".strip()


def add(drawn, row, size):
    """Adds a row of a session, whose buckets have a size, if it is known."""
    if row.what in TURNED_AWAY.values():
        drawn.turned.append(Turned(row.what, row.begin, row.to, row.value))
        return
    value = row.value if isinstance(row.value, int) else text_of(row.value)
    name = GATHERED if row.what == GATHERED else label(text_of(row.key), text_of(row.states))
    is_cut = size is not None and row.to - row.begin < size
    drawn.parts.append(Part(name, row.begin, row.to, value, is_cut))
    drawn.table.append((name, row.begin, value) if row.what == ALARM else (name, row.begin, row.to, value))


# The rows of all sessions by buckets since each began, with how many rows these are, and how many of them were cut.
# A number is added up; events and samples stand by what they show.
FLEET_ROWS = """
WITH shown AS (
    SELECT config, metric, rows.kind, what, key, states, value, bucket, typeof(value) = 'integer' AS is_number,
        rows."from" - sessions."from" AS since, rows."to" - rows."from" AS length
    FROM rows JOIN sessions USING (session) LEFT JOIN metrics USING (config, metric)
)
SELECT config, metric, kind, what, key, states, ifnull(since / bucket * bucket, since) AS begin, bucket,
    CASE WHEN is_number THEN sum(value) ELSE value END, count(*), ifnull(sum(length < bucket), 0)
FROM shown GROUP BY config, metric, kind, what, key, states, begin, CASE WHEN is_number THEN '' ELSE value END
ORDER BY config, metric, begin
"""
FLEET_TURNED = """
SELECT config, metric, kind, what, min(turned_away."from" - ifnull(sessions."from", 0)),
    max(turned_away."to" - ifnull(sessions."from", 0)), sum(value)
FROM turned_away JOIN sessions USING (session) GROUP BY config, metric, kind, what
"""

# The alarms of all sessions by when they came since each began, and how many came at once with one sum.
FLEET_ALARMS = """
SELECT config, alert, metric, key, states, at - ifnull(sessions."from", 0) AS since, sum, count(*)
FROM alarms JOIN sessions USING (session) LEFT JOIN alerts USING (config, alert)
GROUP BY config, alert, metric, key, states, since, sum ORDER BY config, alert, since
"""


def fleet_page(name):
    """The page of a fleet's tables: of each metric its rows, added up over the sessions by the time since each session
    began."""
    columns = ("key", "from", "to", "sum", "rows", "of which cut")
    page = Page(name, "since each session began", columns, ("key", "at", "sum", "alarms"))
    with contextlib.closing(sqlite3.connect(f"file:{name}?mode=ro", uri=True)) as tables:
        try:
            fill(page, tables)
        except sqlite3.Error as error:
            raise Fault(f"{name}: expected tables of tools/fleet run: {error}") from None
    return page


def fill(page, tables):
    """Reads a fleet's tables."""
    count, faults = tables.execute("SELECT count(*), count(fault) FROM sessions").fetchone()
    page.notes.append(f"{count} sessions, of which {faults} didn't end well")
    has_several = tables.execute("SELECT count(*) FROM configs").fetchone()[0] > 1
    counts = defaultdict(int)

    def drawn_of(config, kind, metric):
        owner = f", configuration {config}" if has_several else ""
        return page.of((config, kind, metric), title_of(kind, metric) + owner, kind)

    for config, metric, kind, what, key, states, begin, size, value, rows, cut in tables.execute(FLEET_ROWS):
        drawn = drawn_of(config, kind, metric)
        counts[drawn] += 1
        if counts[drawn] > MOST_ROWS:
            continue
        name = GATHERED if what == GATHERED else label(key, states)
        end = begin + (size or 0)
        drawn.parts.append(Part(name, begin, end, value, cut == rows))
        drawn.table.append((name, begin, end, value, rows, cut))
    for config, alert, metric, key, states, at, total, number in tables.execute(FLEET_ALARMS):
        drawn, name = drawn_of(config, ALERT, alert), label(key, states)
        counts[drawn] += 1
        if counts[drawn] <= MOST_ROWS:
            drawn.parts.append(Part(name, at, at, total, False))
            drawn.table.append((name, at, total, number))
            drawn_of(config, COUNT, metric).marks.append(Mark(name, at))
    for drawn, number in counts.items():
        if number > MOST_ROWS:
            page.notes.append(f"{drawn.title} has {number} rows, of which {MOST_ROWS} are drawn")
    for config, metric, kind, *turned in tables.execute(FLEET_TURNED):
        drawn_of(config, kind, metric).turned.append(Turned(*turned))


def is_fleet(name):
    """Whether a file has tables."""
    try:
        with open(name, "rb") as file:
            return file.read(len(SQLITE)) == SQLITE
    except OSError:
        return False


def page_of(name, program):
    """What is drawn of a file."""
    return fleet_page(name) if is_fleet(name) else session_page(name, program)
