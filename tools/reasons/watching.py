"""A session whose configurations are watched: what atoms came, which matchers held, what predicates knew, and what
came to each metric. Reports are steps here, and nothing more: the program has made them."""
from collections import Counter, defaultdict

from compared.counted import Counted
from compared.durations import Duration
from compared.history import Step
from compared.knowledge import TRUE
from compared.matching import Truths
from compared.meaning import Instance
from compared.pulled import Pulled
from compared.sessions import MOST_FRAME, BadFrame, Session, next_frame
from session_text.layout import ATOM, INSTALL, PULL, REMOVE, REPORT

from reasons.tested import Tests

MISSING_STATE = -1


class MatcherNote:
    """How often a matcher held, and if it is a simple one, which of its tests failed."""

    def __init__(self, matcher):
        self.matcher, self.held, self.came = matcher, 0, 0
        self.simple = matcher.get("simple")
        self.tests = Tests(self.simple) if self.simple else None

    def see(self, atom, truths):
        """An atom comes."""
        if self.simple and self.simple.get("atom_id") != atom.atom_id:
            return
        self.came += 1
        if truths.holds(self.matcher["id"]):
            self.held += 1
        elif self.tests:
            self.tests.see(atom)


class PredicateNote:
    """Since when a predicate was what, for any key."""

    def __init__(self, predicate_id, predicates):
        self.predicate_id, self.predicates, self.changes = predicate_id, predicates, []

    def see(self, at):
        """A step was made."""
        truth = self.predicates.truth(self.predicate_id, {})
        if not self.changes or self.changes[-1][1] != truth:
            self.changes.append((at, truth))


class CountedNote:
    """What came to a metric of logged atoms: how often its matcher held, what its condition stopped, and what
    arrived."""

    def __init__(self, metric):
        self.metric, self.matched, self.arrived, self.without_value, self.inactive = metric, 0, 0, 0, 0
        self.stopped, self.example = Counter(), None
        self.keys, self.blank, self.states_missing, self.last = set(), 0, 0, None

    def see(self, step, atom, truths):
        """A step was made, which the metric was told of."""
        if atom is None or not truths.holds(self.metric.what):
            return
        self.matched += 1
        arrived = self.metric.told[-1]
        if arrived is not None:
            self.note_arrival(step, arrived[0])
            return
        truth = self.metric.condition.truth(atom.key)
        if truth == TRUE and self.metric.contribution(atom) is None:
            self.without_value += 1
        elif truth == TRUE:
            self.inactive += 1
        else:
            self.stopped[truth] += 1
            self.example = self.example or self.asked(step, atom)

    def note_arrival(self, step, key):
        """An atom arrived with a key and states."""
        leaves, states = key
        self.arrived, self.last = self.arrived + 1, step.at
        self.keys.add(key)
        self.blank += bool(leaves) and all(leaf is None for leaf in leaves)
        self.states_missing += any(value == MISSING_STATE and group is None for _, group, value in states)

    def asked(self, step, atom):
        """What the links of the condition asked for: the time, the predicate, the key, and the keys that were on."""
        for predicate, fields, places in self.metric.condition.links:
            known = self.metric.condition.predicates.known[predicate]
            on = [key for key, count in known.counts.items() if count > 0]
            leaves = [known.fields.leaves[place] for place in places]
            return step.at, predicate, leaves, atom.key(fields), known.fields.leaves, on
        return None


class DurationNote:
    """For how long some key of what a duration times was on, and for how long one was on under a true condition."""

    def __init__(self, metric):
        self.metric, self.on, self.on_true, self.starts, self.before, self.at = metric, 0, 0, 0, {}, None

    def see(self, step, _atom, _truths):
        """A step was made: the time since the one before counts by what was on then."""
        if self.before and self.at is not None:
            self.on += step.at - self.at
            self.on_true += (step.at - self.at) * any(live.is_true for live in self.before.values())
        live = self.metric.told[-1].live
        self.starts += sum(key not in self.before for key in live)
        self.before, self.at = live, step.at


class PulledNote:
    """When the snapshot was pulled that stands after each step; None where there is none."""

    def __init__(self, metric, pulled_at):
        self.metric, self.pulled_at = metric, pulled_at
        self.atom_id = metric.matcher["atom_id"]
        self.times = []

    def see(self, _step, _atom, _truths):
        """A step was made."""
        self.times.append(self.pulled_at.get(self.atom_id))


def note_of(metric, pulled_at):
    """What is noted of a metric, by its kind."""
    if isinstance(metric, Counted):
        return CountedNote(metric)
    if isinstance(metric, Duration):
        return DurationNote(metric)
    return PulledNote(metric, pulled_at)


class Watcher(Instance):
    """An installed configuration that is watched, with the replies that report it."""

    notes = None

    def __init__(self, tree, client, session):
        super().__init__(tree, client, session.books)
        self.matcher_notes = [MatcherNote(matcher) for matcher in tree.get("matchers", [])]
        self.predicate_notes = [PredicateNote(one["id"], self.predicates) for one in tree.get("predicates", [])]
        self.notes = [note_of(metric, session.pulled_at) for metric in self.metrics]
        self.atoms, self.replies, self.ended, self.pulls = Counter(), [], None, defaultdict(list)
        self.see(self.steps[-1], None)

    def step(self, step, atom=None):
        super().step(step, atom)
        if self.notes is not None:
            self.see(step, atom)

    def see(self, step, atom):
        """Notes a step that was made."""
        truths = None if atom is None else Truths(self.matchers, atom)
        if atom is not None:
            self.atoms[atom.atom_id] += 1
            for note in self.matcher_notes:
                note.see(atom, truths)
        if atom is not None or step.kind == INSTALL:
            for note in self.predicate_notes:
                note.see(step.at)
        for note in self.notes:
            note.see(step, atom, truths)

    def log(self, frame):
        if frame.kind == PULL:
            self.pulls[frame.pulled_id].append((len(self.steps), frame.at, frame.atoms))
        super().log(frame)

    def reported(self, number, is_cut):
        """A report was asked for, or this was ended by a command: the reply of this number tells it."""
        self.step(Step(REPORT, self.books.clock, is_cut))
        self.replies.append(number)


class WatchedSession(Session):
    """The clients of a session, all that was installed, and what the log had."""

    def __init__(self):
        super().__init__()
        self.installed, self.refused, self.commands = [], [], 0
        self.frames, self.atoms, self.marked, self.pulled = Counter(), Counter(), Counter(), Counter()
        self.pulled_at, self.first = {}, None

    def step(self, frame):
        if frame.client is not None:
            self.command(frame)
            self.commands += 1
            return
        if frame.at < self.books.clock:
            raise BadFrame(f"7 time backwards {self.books.clock} {frame.at}")
        self.note(frame)
        super().step(frame)

    def note(self, frame):
        """Notes a frame of the log."""
        self.first = frame.at if self.first is None else self.first
        self.frames[frame.kind] += 1
        if frame.kind == ATOM:
            self.atoms[frame.atom.atom_id] += 1
            self.marked[frame.atom.atom_id] += frame.atom.told() is not None
        elif frame.kind == PULL:
            self.pulled[frame.pulled_id] += 1
            self.pulled_at[frame.pulled_id] = None if frame.atoms is None else frame.at

    def command(self, frame):
        """A command comes, whose reply has the number of the commands before it."""
        ended = self.live.get(frame.client)
        if frame.kind == INSTALL:
            found = self.refusal(frame.client, frame.config)
            if isinstance(found, tuple):
                self.refused.append(frame.client)
                return
            self.end(ended)
            self.live[frame.client] = Watcher(found, frame.client, self)
            self.installed.append(self.live[frame.client])
        elif ended and frame.kind == REMOVE:
            self.end(ended)
            del self.live[frame.client]
        elif ended:
            ended.reported(self.commands, frame.is_cut)

    def end(self, ended):
        """What was installed is ended by a command, which has its last report."""
        if ended:
            ended.reported(self.commands, True)
            ended.ended = self.books.clock


def watched(content):
    """A session that was watched to its end, or to its first fault."""
    session, at = WatchedSession(), 0
    while at < len(content):
        try:
            frame, size = next_frame(content[at : at + 4 + MOST_FRAME])
            session.step(frame)
        except BadFrame:
            break
        at += size
    return session
