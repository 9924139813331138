"""What is the same for metrics of all kinds: what they are told at each step, and what a report has of them."""
from session_text.layout import REPORT

from compared.atoms import fields_of
from compared.history import Kept, Row, guarded, parts_of
from compared.knowledge import DEFAULT_BOUND, Condition
from compared.states import shown_state
from compared.trees import UNITS

SECOND = 10**9

# Clients for which a minute is a minute, and what it is for others.
MINUTE, MINUTE_CLIENTS = 1, (0, 2000)
HOUR = 5


def bucket_size(metric, uid):
    """How long the buckets of a metric are."""
    unit = metric.get("bucket", HOUR)
    return (60 if unit == MINUTE and uid in MINUTE_CLIENTS else UNITS[unit]) * SECOND


class Shown:
    """What a report has of a metric: the rows that were kept, and how many found no room or no snapshot."""

    def __init__(self):
        self.kept, self.dropped, self.missing = Kept(), 0, 0


class Metric:
    """A metric. At each step, the first of which is its installation, it is told what it has to know; what a report
    has of it is read from all that it was told since then."""

    field_number = None

    def __init__(self, tree, config):
        self.tree, self.config = tree, config
        self.metric_id, self.what = tree["id"], tree["what"]
        self.base, self.size = config.base, bucket_size(tree, config.uid)
        self.bound = tree.get("bound", DEFAULT_BOUND)
        self.fields = fields_of(tree.get("dimensions"))
        self.condition = Condition(tree, config.predicates)
        self.slices = [config.states_by_id[one] for one in tree.get("slices", [])]
        self.state_links = {link["atom_id"]: fields_of(link["in_what"]) for link in tree.get("state_links", [])}
        self.told = []
        self.reported = []

    def sliced(self, leaves_of):
        """The states of an atom or a key that has these leaves, in the order in which the metric names them; without
        a link that of the empty key."""
        shown = []
        for state in self.slices:
            fields = self.state_links.get(state["atom_id"])
            key = () if fields is None else leaves_of(fields)
            shown.append(shown_state(state, self.config.books.states.state(state["atom_id"], key)))
        return tuple(shown)

    def tell(self, atom=None, truths=None):
        """A step comes. What was told of it is what stands after it."""
        raise NotImplementedError

    def arrivals(self, part):
        """What comes within a part, in order."""
        raise NotImplementedError

    def missed(self, _part):
        """The places within a part at which a snapshot was wanted and there is none."""
        return []

    def lost(self, _since):
        """How many keys that found no room elsewhere count among its drops, of the steps after a place."""
        return 0

    def row(self, part, key, contributions):
        """The row of a key in a part, or None where it is left out."""
        raise NotImplementedError

    def overflow_row(self, _part, _spilled):
        """The row of what found no room in a part, or None where there is none."""
        return None

    def shown(self):
        """What the report at the last step has: what came since the report before, and what was closed since then."""
        steps, shown = self.config.steps, Shown()
        earlier = [place for place, step in enumerate(steps[:-1]) if step.kind == REPORT]
        since = earlier[-1] if earlier else -1
        for part in parts_of(steps, self.base, self.size):
            if part.closed is not None and part.closed <= since:
                continue
            admitted, spilled = guarded(self.arrivals(part), self.bound)
            shown.dropped += part.times * sum(arrival.place > since for arrival in spilled)
            shown.missing += part.times * sum(place > since for place in self.missed(part))
            if part.closed is not None:
                rows = [self.row(part, key, [one.contribution for one in came]) for key, came in admitted.items()]
                rows.append(self.overflow_row(part, spilled))
                shown.kept.close(part, [row for row in rows if row is not None])
        shown.dropped += self.lost(since)
        return shown


def number_row(part, key, value):
    """A row of a number."""
    return Row(key, part.start, part.end, value, 1)
