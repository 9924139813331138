"""tools/session compare: two configurations over sessions, by the rows of their reports."""
from collections import Counter, defaultdict, namedtuple

from . import packing, program
from .answering import Answered, Program, session_of, tell_ending
from .commands import Whose, frame, frames_of
from .config import ALERT, METRIC, entities, tree
from .faults import Fault
from .files import called, text, write
from .layout import INSTALL, REFUSED, REPORT
from .refusals import found_lines
from .replies import NAMES
from .reports import ALARM, KINDS, SHOWN, read_replies, rows_of, text_of
from .tables import csv_line

SAME, DIFFERENT = 0, 1
OLD, NEW = "old", "new"
COLUMNS = ("session", "metric", "kind", "what", "key", "states", "from", "to", "old", "new", "difference")

# Whose configuration is exchanged where a session installs none.
NOBODY = Whose(1, 1)

# What a row is of: rows of one place in both reports are compared.
Place = namedtuple("Place", "metric kind what key states begin to")

# A difference: of which session, what it is of, and what stood there, as text. Several events or samples stand there
# with how often they came.
Difference = namedtuple("Difference", "session place old new")


def exchanged(session, config):
    """A session in which one configuration stands in the place of the first that it installs, or at the beginning
    where it installs none. Its log stays, and the reports of that configuration; a report with a cut comes at the
    end. Commands of others are left out, and so is what would end or replace it; what is no command stays, be it a
    frame or not."""
    whose = next((whose for kind, whose, _ in frames_of(session) if kind == INSTALL and whose), None)
    install = frame(INSTALL, whose or NOBODY, config)
    parts, is_installed = [] if whose else [install], whose is None
    for kind, asker, content in frames_of(session):
        if asker is None or (kind == REPORT and asker == whose and is_installed):
            parts.append(content)
        elif kind == INSTALL and not is_installed:
            parts.append(install)
            is_installed = True
    return b"".join([*parts, frame(REPORT, whose or NOBODY, b"\1")])


def rows_by_place(name, session, config, chosen):
    """The rows of a configuration over a session, by what they are of."""
    content = exchanged(session, config)
    ran = program.run(["replay"], content, chosen())
    replies = list(read_replies(ran.written))
    if ran.status:
        tell_ending(Answered(name, content, [], *ran))
        raise Fault(f"{called(name)}: expected a session that ends well, and it ends with {ran.status}")
    if replies[0].kind == NAMES[REFUSED]:
        raise Fault(f"{called(name)}: expected a configuration that is installed, and it is refused")
    found = defaultdict(list)
    for row in rows_of(replies, [config, *[None] * len(replies)]):
        place = Place(row.metric, row.kind, row.what, text_of(row.key), text_of(row.states), row.begin, row.to)
        found[place].append(row.value)
    return found


def value_of(values):
    """What stands at a place: a number, or atoms with how often each came; nothing where there is no row."""
    if len(values) == 1 and isinstance(values[0], int):
        return str(values[0])
    counts = sorted(Counter(text_of(value) for value in values).items())
    return "; ".join(word if times == 1 else f"{times} times {word}" for word, times in counts)


def difference(one):
    """By how much a number differs; nothing where both aren't numbers. A row that isn't there is 0."""
    numbers = [value or "0" for value in (one.old, one.new)]
    if not all(number.lstrip("-").isdigit() for number in numbers):
        return ""
    return str(int(numbers[1]) - int(numbers[0]))


def cells_of(one):
    """A difference by its columns."""
    return [text_of(cell) for cell in (one.session, *one.place, one.old, one.new, difference(one))]


def line_of(cells, how):
    """A line of a table."""
    return csv_line(cells) if how == "csv" else "\t".join(cells)


class Side:
    """What one of the two configurations gave: its metrics, and how many rows each had, and their sum; and its alerts
    with how many alarms of each were listed."""

    def __init__(self, config):
        content = tree(config)
        kinds = {metric.get("id"): field.removesuffix("_metric") for field, metric in entities(content, METRIC)}
        self.kinds = {
            metric: kind for metric, kind in kinds.items() if metric not in content.get("no_report_metric", [])
        }
        self.alerts = [alert.get("id") for _, alert in entities(content, ALERT)]
        self.config, self.rows, self.sums, self.turned = config, Counter(), Counter(), Counter()
        self.alarms = Counter()

    def add(self, found):
        """Adds what a session gave."""
        for place, values in found.items():
            if place.what not in SHOWN:
                self.turned[place.metric, place.kind, place.what] += sum(values)
                continue
            if place.what == ALARM:
                self.alarms[place.metric] += len(values)
                continue
            self.rows[place.metric] += len(values)
            self.sums[place.metric] += sum(value for value in values if isinstance(value, int))


class Comparison:
    """Two configurations over sessions."""

    def __init__(self, old, new):
        self.sides, self.differences, self.same = {OLD: Side(old), NEW: Side(new)}, [], 0
        self.differ = Counter()

    def add(self, name, session, chosen):
        """Answers a session with both, and notes what differs."""
        self.add_found(name, *(rows_by_place(name, session, side.config, chosen) for side in self.sides.values()))

    def add_found(self, name, old, new):
        """Notes what differs between the rows of a session, by what they are of."""
        for side, found in zip(self.sides.values(), (old, new)):
            side.add(found)
        for place in [*old, *(place for place in new if place not in old)]:
            values = value_of(old.get(place, [])), value_of(new.get(place, []))
            if values[0] == values[1]:
                self.same += 1
            else:
                self.differ[place.metric, place.kind] += 1
                self.note(Difference(name, place, *values))

    def note(self, one):
        """Notes a difference."""
        self.differences.append(one)

    def metric_line(self, metric):
        """What is told of a metric in the summary."""
        old, new = self.sides.values()
        kind = old.kinds.get(metric) or new.kinds.get(metric)
        if metric not in new.kinds or metric not in old.kinds:
            side, word = (old, OLD) if metric in old.kinds else (new, NEW)
            return f"metric {metric} ({kind}): in the {word} configuration alone, with {side.rows[metric]} rows"
        differ = self.differ[metric, kind]
        rows = f"{old.rows[metric]} rows and {new.rows[metric]}"
        sums = (
            f", their sum {old.sums[metric]} and {new.sums[metric]}" if kind in ("count", "value", "duration") else ""
        )
        return f"metric {metric} ({kind}): {differ} differ; {rows}{sums}"

    def alert_lines(self):
        """What is told of each alert."""
        old, new = self.sides.values()
        for alert in dict.fromkeys([*old.alerts, *new.alerts]):
            if alert in old.alerts and alert in new.alerts:
                yield f"alert {alert}: {old.alarms[alert]} alarms and {new.alarms[alert]}"
            else:
                side, word = (old, OLD) if alert in old.alerts else (new, NEW)
                yield f"alert {alert}: in the {word} configuration alone, with {side.alarms[alert]} alarms"

    def turned_lines(self):
        """What was turned away otherwise."""
        old, new = self.sides.values()
        for one in dict.fromkeys([*old.turned, *new.turned]):
            if old.turned[one] != new.turned[one]:
                metric, kind, what = one
                whose = f"{kind.replace('_', ' ')} {metric}" if kind not in KINDS.values() else f"metric {metric}"
                yield f"{whose}: {what} {old.turned[one]} and {new.turned[one]}"

    def rowless_lines(self):
        """The metrics that never had a row."""
        for word, side in self.sides.items():
            rowless = [str(metric) for metric in side.kinds if not side.rows[metric]]
            if rowless:
                yield f"never a row in the {word} configuration: metric {', '.join(rowless)}"

    def summary(self, count):
        """What is told first."""
        old, new = self.sides.values()
        sessions = "1 session" if count == 1 else f"{count} sessions"
        yield f"{sessions}: {self.same} rows the same, {sum(self.differ.values())} differ"
        yield from map(self.metric_line, dict.fromkeys([*old.kinds, *new.kinds]))
        yield from self.alert_lines()
        yield from self.turned_lines()
        yield from self.rowless_lines()

    def table(self, how):
        """What differs, line by line."""
        yield line_of(COLUMNS, how)
        for one in self.differences:
            yield line_of(cells_of(one), how)


def config_of(name, chosen):
    """A configuration in a file. One that is refused is told of with why."""
    config = packing.config_file(name, ".")
    ran = program.run(["check"], config, chosen())
    if ran.status:
        line = ran.written.decode(errors="replace").strip()
        why = [words.strip() for words in found_lines(line, config)]
        raise Fault(f"{name}: expected a configuration without a fault: {'; '.join([line, *why])}")
    return config


def compare(given):
    """Compares two configurations over sessions. The status is 1 where something differs."""
    old, new, *names = given.files
    chosen = Program(given.program)
    comparison = Comparison(config_of(old, chosen), config_of(new, chosen))
    for name in names:
        comparison.add(name, session_of(name)[0], chosen)
    if not given.how:
        write(text(comparison.summary(len(names))))
    if given.how or comparison.differences:
        write(text(comparison.table(given.how)))
    return DIFFERENT if comparison.differences else SAME
