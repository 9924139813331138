"""What is told of a watched session: lines for people."""
from collections import Counter

from compared.counted import Counted
from compared.durations import Duration, Longest
from compared.history import parts_of
from compared.kinds import is_of_pulled
from compared.knowledge import FALSE, UNKNOWN
from session_text.config import ALERT
from session_text.layout import ATOM, PULL, REPORT, TICK
from session_text.reports import ALARM, SHOWN

from reasons.snapshots import snapshot_lines
from reasons.words import key_word, leaf_name, listed, span, times

KINDS = {4: "event", 5: "count", 6: "duration", 7: "value", 8: "gauge"}
HEAD = "The program's replies decide. What follows is a second reading of the rules (tools/compared), which tells why."
MOST_CHANGES = 6


def session_lines(session):
    """What the log had."""
    counts = ", ".join(
        times(session.frames[kind], what) for kind, what in ((ATOM, "atom"), (PULL, "pull"), (TICK, "tick"))
    )
    spent = f", from {span(session.first)} to {span(session.books.clock)}" if session.first is not None else ""
    yield f"session: {counts}{spent}"
    for what, found in (("atoms by id", session.atoms), ("pulls by id", session.pulled)):
        if found:
            yield f"{what}: {listed((f'{one}: {count}' for one, count in sorted(found.items())), 40)}"
    for client in session.refused:
        yield f"client {client[0]}, configuration {client[1]}: an install was refused; tools/session run says why"


def matcher_lines(watcher):
    """How often each matcher held, and why one of an id that came never did."""
    for note in watcher.matcher_notes:
        if not note.simple:
            yield f"matcher {note.matcher['id']}: held {times(note.held)} of {note.came} atoms"
            continue
        atom_id = note.simple["atom_id"]
        if is_of_pulled(note.matcher):
            logged = f"{times(note.came, 'atom')} of it logged, of which it held for {note.held}"
            yield f"matcher {note.matcher['id']}: of atom {atom_id}, which is pulled; {logged}"
            continue
        yield f"matcher {note.matcher['id']}: held {times(note.held)} of {note.came} atoms of id {atom_id}"
        if not note.held:
            yield from ("  " + line for line in note.tests.lines())


def predicate_lines(watcher):
    """Since when each predicate was what, for any key."""
    for note in watcher.predicate_notes:
        changes = [f"{truth} from {span(at)}" for at, truth in note.changes]
        if len(changes) > MOST_CHANGES:
            between = f".. {len(changes) - MOST_CHANGES} changes .."
            changes = [*changes[: MOST_CHANGES // 2], between, *changes[-MOST_CHANGES // 2 :]]
        known = watcher.predicates.known.get(note.predicate_id)
        any_key = " for any key" if known and known.fields.leaves else ""
        yield f"predicate {note.predicate_id}{any_key}: {', '.join(changes)}"
        if known and known.drops:
            yield f"  {times(known.drops, 'event')} found no room for a key"


def state_lines(watcher, session):
    """States of which no atom is marked, or none came."""
    for state in watcher.tree.get("states", []):
        atom_id = state["atom_id"]
        came, marked = session.atoms[atom_id], session.marked[atom_id]
        if not came:
            yield f"state {state['id']}: no atom of id {atom_id} came, so it is -1"
        elif not marked:
            yield (
                f"state {state['id']}: {times(came, 'atom')} of id {atom_id} came, and none has an entry that is marked"
                " exclusive, so none tells a state: it is -1"
            )
        else:
            yield f"state {state['id']}: {marked} of {times(came, 'atom')} of id {atom_id} told it"


def absent_lines(watcher, session):
    """The ids that a configuration names, and that didn't come since it was installed."""
    for note in watcher.matcher_notes:
        atom_id = note.simple.get("atom_id") if note.simple else None
        if atom_id is None or watcher.atoms[atom_id] or session.pulled[atom_id]:
            continue
        before = session.atoms[atom_id]
        why = (
            f"{times(before, 'atom')} came, all before it was installed or after it was ended"
            if before
            else "none came"
        )
        yield f"atom {atom_id}, which matcher {note.matcher['id']} names: {why}"


def contents(leaves, key):
    """What a key has in its leaves, without the kinds of the values."""
    return {leaf: getattr(value, "content", value) for leaf, value in zip(leaves, key)}


def differs_by_kind(leaves, key, known, others):
    """A key differs from one of others, which has more leaves, in the kinds of its values alone."""
    asked = contents(leaves, key)
    return any(asked.items() <= contents(known, other).items() for other in others)


class Told:
    """What is told of one metric: what came to it, what the reports show of it, and why it has no row."""

    def __init__(self, note, watcher, rows):
        self.note, self.metric, self.watcher = note, note.metric, watcher
        mine = [row for row in rows if row.metric == self.metric.metric_id and row.kind in KINDS.values()]
        self.shown = sum(row.what in SHOWN for row in mine)
        self.turned = Counter()
        for row in mine:
            if row.what not in SHOWN:
                self.turned[row.what] += row.value
        self.parts = list(parts_of(watcher.steps, watcher.base, self.metric.size))

    def lines(self):
        """All that is told."""
        turned = "".join(f", {count} {what.replace('_', ' ')}" for what, count in self.turned.items())
        name = f"metric {self.metric.metric_id} ({KINDS[self.metric.field_number]})"
        why = "" if self.shown else "".join(f": {why}" for why in [next(self.reasons(), None)] if why)
        yield f"{name}: {times(self.shown, 'row') if self.shown else 'no row'} in reports{turned}{why}"
        if isinstance(self.metric, Counted):
            yield from self.counted_lines()
        elif isinstance(self.metric, Duration):
            yield from self.duration_lines()
        else:
            yield from ("  " + line for line in snapshot_lines(self.note, self.watcher, self.parts))
        yield from self.waiting_lines()

    def reasons(self):
        """Why it has no row; the first one counts most."""
        if self.metric.metric_id in self.watcher.tree.get("no_report", []):
            yield "no_report_metric names it, so that it is kept and never shown"
        if not self.watcher.replies:
            yield "no report was asked for"
        if isinstance(self.metric, Counted):
            yield from self.counted_reasons()
        elif isinstance(self.metric, Duration):
            if not self.note.starts:
                yield "no key of what it times went on"
            elif not self.note.on_true:
                yield "its condition was never true while a key was on, or no time went by"
            elif isinstance(self.metric, Longest) and self.note.before:
                yield "what it times is still on"

    def counted_reasons(self):
        """Why nothing arrived at a metric of logged atoms, or why it isn't shown yet."""
        note = self.note
        if not note.matched:
            yield "its matcher never held"
        elif not note.arrived and note.stopped:
            yield "its condition stopped all atoms" if not note.without_value else "nothing arrived"
        elif not note.arrived:
            yield "no atom had the number in its value_field" if note.without_value else "it wasn't active"
        elif not self.turned:
            yield "what arrived waits for the end of its bucket, or for a report"

    def counted_lines(self):
        """What came to a metric of logged atoms."""
        note = self.note
        stopped = f"{note.stopped[FALSE]} were stopped by a false condition, {note.stopped[UNKNOWN]} by an unknown one"
        condition = f" {stopped}," if self.metric.condition.condition is not None else ""
        arrived = f"{note.arrived} arrived, of {times(len(note.keys), 'key')}"
        yield f"  its matcher {self.metric.what} held {times(note.matched)}:{condition} {arrived}"
        if note.without_value:
            fields = self.metric.value_field
            field = f"{listed(map(leaf_name, fields.leaves))} of atom {fields.atom_id}"
            yield f"  {times(note.without_value, 'atom')} had no integer in field {field}"
        if note.inactive:
            yield f"  {times(note.inactive, 'atom')} came under a true condition while it wasn't active"
        yield from self.example_lines()
        yield from self.key_lines()

    def example_lines(self):
        """What the links of a condition that stopped an atom asked for."""
        if not self.note.example:
            return
        at, predicate, leaves, key, known, on = self.note.example
        asked = key_word(leaves, key)
        found = listed((f"({key_word(known, one)})" for one in on), 3) or "none"
        kinds = "; values of two kinds are never equal" if differs_by_kind(leaves, key, known, on) else ""
        question = f"predicate {predicate} was asked for {asked}; keys that were on: {found}{kinds}"
        yield f"  the first one stopped, at {span(at)}: {question}"

    def key_lines(self):
        """Keys of other atoms, and states that were never told."""
        note = self.note
        if note.blank and note.blank == note.arrived:
            yield (
                f"  no atom that arrived has a field of its dimensions, which are of atom {self.metric.fields.atom_id}:"
                " the key is missing values alone"
            )
        if note.states_missing:
            missing = f"{note.states_missing} of {note.arrived} arrived under the state -1"
            yield f"  {missing}: none was told, or no group lists it"

    def duration_lines(self):
        """What came to a duration."""
        note = self.note
        yield (
            f"  predicate {self.metric.what}, which it times: {times(note.starts, 'key')} went on;"
            f" one was on for {span(note.on)}, and under a true condition for {span(note.on_true)}"
        )
        if note.before and isinstance(self.metric, Longest):
            yield f"  {times(len(note.before), 'key')} still on: the longest shows a key where it goes off"

    def waiting_lines(self):
        """What the next report would show."""
        last = self.watcher.steps[-1]
        if self.metric.field_number == 4 or self.watcher.ended is not None:
            return
        part = self.parts[-1]
        waits = sum(1 for _ in self.metric.arrivals(part))
        if waits and not (last.kind == REPORT and last.is_cut):
            end = part.start + self.metric.size - (part.start - self.watcher.base) % self.metric.size
            yield (
                f"  {times(waits, 'arrival')} in the bucket that is open since {span(part.start)}: a frame at"
                f" {span(end)} or later closes it, and so does a report with a cut"
            )
        asked = [place for place, step in enumerate(self.watcher.steps) if step.kind == REPORT]
        since = asked[-1] if asked else -1
        if any(
            one.closed is not None and one.closed > since and any(True for _ in self.metric.arrivals(one))
            for one in self.parts[:-1]
        ):
            yield "  buckets were closed since the last report: the next one shows them"


def alert_lines(alert, rows):
    """What is told of an alert: its alarms in reports, its greatest sum, and what its refractory time kept quiet."""
    mine = [row for row in rows if row.kind == ALERT and row.metric == alert.alert_id]
    shown = sum(1 if row.what == ALARM else row.value for row in mine)
    sums = list(alert.sums())
    above = [one for one in sums if one.sum > alert.threshold]
    name = f"alert {alert.alert_id} (of metric {alert.count.metric_id})"
    if not sums:
        yield f"{name}: no alarm in reports: nothing that arrived at its metric found room"
        return
    greatest = max(sums, key=lambda one: one.sum)
    why = "" if shown or above else f": no sum was above {alert.threshold}"
    yield f"{name}: {times(shown, 'alarm') if shown else 'no alarm'} in reports{why}"
    key = key_word(alert.count.fields.leaves, greatest.key[0])
    quiet = len(above) - sum(1 for _ in alert.alarms())
    told = f"; {times(quiet, 'sum')} above {alert.threshold} came within the refractory time" if quiet else ""
    yield f"  its greatest sum was {greatest.sum}, of {key} at {span(greatest.at)}{told}"


def watcher_lines(watcher, session, rows):
    """What is told of one installed configuration."""
    uid, config_id = watcher.uid, watcher.config_id
    end = f"ended at {span(watcher.ended)}" if watcher.ended is not None else "to the end"
    yield f"client {uid}, configuration {config_id}: installed at {span(watcher.base)}, {end}"
    mine = [row for row in rows if row.reply in set(watcher.replies)]
    for lines in (
        absent_lines(watcher, session),
        matcher_lines(watcher),
        predicate_lines(watcher),
        state_lines(watcher, session),
        *(Told(note, watcher, mine).lines() for note in watcher.notes),
        *(alert_lines(alert, mine) for alert in watcher.alerts),
    ):
        yield from ("  " + line for line in lines)


def lines_of(session, rows):
    """All that is told of a watched session, with the rows of the program's reports."""
    yield HEAD
    yield from session_lines(session)
    for watcher in session.installed:
        yield from watcher_lines(watcher, session, rows)
    if not session.installed:
        yield "no configuration was installed"
