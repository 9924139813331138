"""What one installed configuration means: its reports are read again from all its steps, each time from the first."""
import sys

from session_text.layout import ATOM, INSTALL, PULL, REPORT

from compared.alarms import Alert, shown_alarms
from compared.counted import Count, Event, PushedGauge, PushedValue
from compared.durations import Longest, Sum
from compared.history import Step
from compared.kinds import is_of_pulled
from compared.knowledge import Predicates
from compared.matching import Truths
from compared.pulled import PulledGauge, PulledValue
from compared.pulls import Pulls
from compared.shown import predicate_drops, shown_metric, state_drops
from compared.states import States
from compared.wire import message, number

MAX_SPARSE = 2

# Chains of matchers or predicates may be as long as there may be matchers.
sys.setrecursionlimit(10_000)


class Books:
    """What the log told since its first frame, whoever listens: the clock, the states and the snapshots."""

    def __init__(self):
        self.clock, self.states, self.pulls = 0, States(), Pulls()

    def log(self, frame):
        """A frame of the log comes."""
        self.clock = frame.at
        if frame.kind == ATOM:
            self.states.atom(frame.atom)
        elif frame.kind == PULL:
            self.pulls.pull(frame.pulled_id, frame.atoms)


class Instance:
    """An installed configuration of a client. It is told of the frames of the log after the books."""

    def __init__(self, tree, client, books):
        self.tree, self.books = tree, books
        self.uid, self.config_id = client
        self.base = self.last = books.clock
        self.matchers = {matcher["id"]: matcher for matcher in tree.get("matchers", [])}
        self.states_by_id = {state["id"]: state for state in tree.get("states", [])}
        self.predicates = Predicates(tree.get("predicates", []))
        self.steps = []
        self.metrics = list(self.drawn_up())
        counts = {metric.metric_id: metric for metric in self.metrics}
        self.alerts = [Alert(alert, counts) for alert in tree.get("alerts", [])]
        self.step(Step(INSTALL, self.base))

    def drawn_up(self):
        """The metrics in their order: events, counts, values, gauges and durations."""
        tree = self.tree
        yield from (Event(metric, self) for metric in tree.get("events", []))
        yield from (Count(metric, self) for metric in tree.get("counts", []))
        for metric in tree.get("values", []):
            yield (PulledValue if self.is_pulled(metric) else PushedValue)(metric, self)
        for metric in tree.get("gauges", []):
            yield (PulledGauge if self.is_pulled(metric) else PushedGauge)(metric, self)
        for metric in tree.get("durations", []):
            yield (Longest if metric.get("aggregation") == MAX_SPARSE else Sum)(metric, self)

    def is_pulled(self, metric):
        """A metric of values or samples is pulled where its matcher is a simple one of atoms that are pulled."""
        return is_of_pulled(self.matchers[metric["what"]])

    def step(self, step, atom=None):
        """A step comes. An atom acts on the predicates first, and on the tables of durations, before metrics ask."""
        self.steps.append(step)
        truths = None if atom is None else Truths(self.matchers, atom)
        if atom is not None:
            self.predicates.act(truths, atom)
        for metric in self.metrics:
            metric.tell(atom, truths)

    def log(self, frame):
        """A frame of the log comes, which the books have taken."""
        self.step(Step(frame.kind, frame.at), frame.atom)

    def report(self, is_cut):
        """The bytes of a report."""
        now = self.books.clock
        self.step(Step(REPORT, now, is_cut))
        hidden = self.tree.get("no_report", [])
        shown = b"".join(message(1, shown_metric(one)) for one in self.metrics if one.metric_id not in hidden)
        shown += number(3, self.last) + number(4, now)
        shown += predicate_drops(self.predicates.known) + state_drops(self.states_by_id.values(), self.books.states)
        shown += shown_alarms(self.alerts)
        self.last = now
        return message(1, number(1, self.uid) + number(2, self.config_id)) + message(2, shown)
