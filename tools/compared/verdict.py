"""What `check` finds of a configuration, by a second reading of the rules: the first fault of its references."""
from compared.atoms import PULLED
from compared.trees import ONEOFS

MATCHER, PREDICATE, STATE, METRIC, ALERT = range(1, 6)

LIMITS = {MATCHER: 800, PREDICATE: 300, STATE: 16, METRIC: 100}
MOST_KEYS, DEFAULT_BOUND = 3_000, 800
MOST_SAMPLES, DEFAULT_SAMPLES, MOST_ROWS = 100, 10, 16_384
MOST_ATOM_ID, MOST_FIELD = 2**31 - 1, 127
MOST_ACTIVATIONS, MOST_SECONDS = 8, 1_000_000
MOST_ALERTS, MOST_PARTS, MOST_THRESHOLD = 10, 10, 2**62

NOT = 3
FIRST, LAST, ANY, ALL = range(1, 5)
RANDOM_ONE, CHANGE_TO_TRUE, FIRST_N = 1, 3, 4
MAX_SPARSE = 2

EVENT, COUNT, VALUE, GAUGE, DURATION = "event", "count", "value", "gauge", "duration"
TESTS = ONEOFS["test"]


def within(value, most):
    """A number is there, and from 1 to the most."""
    return value is not None and 1 <= value <= most


def leaves(fields):
    """The leaves of fields: a field, its position, and the field inside or 0."""
    found = []
    for child in (fields or {}).get("children", []):
        inner = child.get("children", [])
        place = child.get("field"), child.get("position")
        found += [(*place, one.get("field")) for one in inner] or [(*place, 0)]
    return found


def is_well_formed(fields):
    """Fields are as they have to be; absent ones are."""
    if fields is None:
        return True
    children = fields.get("children", [])
    inner = [one for child in children for one in child.get("children", [])]
    return (
        within(fields.get("field"), MOST_ATOM_ID)
        and "position" not in fields
        and all(within(one.get("field"), MOST_FIELD) for one in children + inner)
        and all(child.get("position") != ANY for child in children)
        and not any("position" in one or one.get("children") for one in inner)
        and len(set(leaves(fields))) == len(leaves(fields))
    )


def are_linked(one, other):
    """The sides of a link have as many leaves, at least one."""
    return len(leaves(one)) == len(leaves(other)) > 0


def are_among(fields, others):
    """Each leaf of fields is a leaf of others, of the same atom."""
    found = leaves(fields)
    is_same = fields is not None and others is not None and fields.get("field") == others.get("field")
    return not found or (is_same and set(found) <= set(leaves(others)))


def is_test(test, in_tuple):
    """A test of a field is as it has to be."""
    if not within(test.get("field"), MOST_FIELD) or not any(name in test for name in TESTS):
        return False
    if in_tuple:
        return "position" not in test and "tuple" not in test
    return all(is_test(inner, True) for inner in test.get("tuple", {}).get("tests", []))


class Checked:
    """A configuration that is checked."""

    def __init__(self, tree):
        self.tree = tree
        kinds = (EVENT, COUNT, VALUE, GAUGE, DURATION)
        metrics = [(kind, metric) for kind in kinds for metric in tree.get(kind + "s", [])]
        self.kinds = {
            MATCHER: [("matcher", it) for it in tree.get("matchers", [])],
            PREDICATE: [("predicate", it) for it in tree.get("predicates", [])],
            STATE: [("state", it) for it in tree.get("states", [])],
            METRIC: metrics,
            ALERT: [("alert", it) for it in tree.get("alerts", [])],
        }
        self.by_id = {kind: {} for kind in self.kinds}
        for kind, _, entity in self.entities():
            self.by_id[kind].setdefault(entity.get("id"), entity)

    def entities(self):
        """All entities in the order in which they are judged: the kind, what it is called, and the entity."""
        return [(kind, name, entity) for kind, listed in self.kinds.items() for name, entity in listed]

    def named(self, kind, wanted):
        """The entity of this id."""
        return self.by_id[kind].get(wanted)

    def limits(self):
        """1: numbers past their limits."""
        for kind, most in LIMITS.items():
            if len(self.kinds[kind]) > most:
                yield kind, len(self.kinds[kind])
        for _, predicate in self.kinds[PREDICATE]:
            bound = predicate.get("simple", {}).get("bound", 1)
            if not within(bound, MOST_KEYS):
                yield 5, bound
        for name, metric in self.kinds[METRIC]:
            bound = metric.get("bound", DEFAULT_BOUND)
            if not within(bound, MOST_KEYS):
                yield 6, bound
            if name == GAUGE:
                samples = metric.get("samples", DEFAULT_SAMPLES)
                if not within(samples, MOST_SAMPLES):
                    yield 7, samples
                rows = bound * (1 if metric.get("sampling", RANDOM_ONE) == RANDOM_ONE else samples)
                if rows > MOST_ROWS:
                    yield 8, rows
            yield from self.activation_limits(metric.get("activations", []))
        yield from self.alert_limits()

    @staticmethod
    def activation_limits(activations):
        """1: numbers of a metric's activations."""
        if len(activations) > MOST_ACTIVATIONS:
            yield 9, len(activations)
        for activation in activations:
            if not within(activation.get("ttl", 1), MOST_SECONDS):
                yield 10, activation["ttl"]

    def alert_limits(self):
        """1: numbers of alerts, after all others."""
        alerts = [alert for _, alert in self.kinds[ALERT]]
        if len(alerts) > MOST_ALERTS:
            yield 11, len(alerts)
        for alert in alerts:
            if not within(alert.get("parts", 1), MOST_PARTS):
                yield 12, alert["parts"]
            for limit, name, most in ((13, "threshold", MOST_THRESHOLD), (14, "refractory", MOST_SECONDS)):
                if not 0 <= alert.get(name, 0) <= most:
                    yield limit, alert[name]

    def without_id(self):
        """2: entities without an id."""
        for kind, listed in self.kinds.items():
            for place, (_, entity) in enumerate(listed):
                if "id" not in entity:
                    yield kind, place

    def twice(self):
        """3: ids that stood earlier in their kind."""
        for kind, listed in self.kinds.items():
            ids = [entity.get("id") for _, entity in listed]
            for place, one in enumerate(ids):
                if one in ids[:place]:
                    yield kind, one

    def unknown(self, kind, references):
        """4, 5, 6: ids that lead to nothing of a kind."""
        for naming, name, entity in self.entities():
            for wanted in references(name, entity):
                if wanted is not None and self.named(kind, wanted) is None:
                    yield naming, wanted

    def cycles(self, kind):
        """7, 8: entities that are below themselves."""
        for _, entity in self.kinds[kind]:
            if entity["id"] in self.below(kind, entity):
                yield 0, entity["id"]

    def below(self, kind, entity):
        """The ids of all that an entity reaches by its children."""
        found, left = set(), list(entity.get("combination", {}).get("children", []))
        while left:
            one = left.pop()
            if one not in found:
                found.add(one)
                left += self.named(kind, one).get("combination", {}).get("children", [])
        return found

    def types(self):
        """9: entities that aren't what they should be."""
        judges = {
            "matcher": self.matcher,
            "predicate": self.predicate,
            "state": self.state,
            "alert": self.alert,
        }
        for _, name, entity in self.entities():
            reasons = list(judges[name](entity) if name in judges else self.metric(name, entity))
            if reasons:
                yield min(reasons), entity["id"]
        ids = [metric["id"] for _, metric in self.kinds[METRIC]]
        for wanted in self.tree.get("no_report", []):
            if wanted not in ids:
                yield 19, wanted

    def alert(self, entity):
        """Reasons of an alert."""
        if not {"metric", "threshold", "parts"} <= entity.keys():
            yield 22
        kinds = [name for name, metric in self.kinds[METRIC] if metric["id"] == entity.get("metric")]
        if kinds and kinds != [COUNT]:
            yield 23

    def unwatched(self):
        """10: alerts on metrics that aren't there."""
        for _, alert in self.kinds[ALERT]:
            if self.named(METRIC, alert["metric"]) is None:
                yield ALERT, alert["metric"]

    @staticmethod
    def body(entity):
        """Reasons of a matcher or a predicate by its body."""
        if "simple" not in entity and "combination" not in entity:
            yield 1
        if "combination" in entity:
            operation, children = entity["combination"].get("operation"), entity["combination"].get("children", [])
            if operation is None or not children or (operation == NOT and len(children) != 1):
                yield 2

    def matcher(self, entity):
        """Reasons of a matcher."""
        yield from self.body(entity)
        if "simple" in entity:
            if not within(entity["simple"].get("atom_id"), MOST_ATOM_ID):
                yield 3
            if not all(is_test(test, False) for test in entity["simple"].get("tests", [])):
                yield 4

    def predicate(self, entity):
        """Reasons of a predicate."""
        yield from self.body(entity)
        if not is_well_formed(entity.get("simple", {}).get("dimensions")):
            yield 5

    @staticmethod
    def state(entity):
        """Reasons of a state."""
        if not within(entity.get("atom_id"), MOST_ATOM_ID):
            yield 3

    def conditions(self, metric):
        """The ids of the predicates that a metric's condition is or reaches."""
        condition = metric.get("condition")
        return set() if condition is None else {condition} | self.below(PREDICATE, self.named(PREDICATE, condition))

    def is_pulled(self, name, metric):
        """A metric of values or samples that are pulled."""
        what = self.named(MATCHER, metric.get("what")) if name in (VALUE, GAUGE) else None
        atom_id = (what or {}).get("simple", {}).get("atom_id")
        return atom_id is not None and any(atom_id in ids for ids in PULLED)

    def metric(self, name, metric):
        """Reasons of a metric."""
        links, state_links = metric.get("links", []), metric.get("state_links", [])
        sides = [link.get(side) for link in links for side in ("in_what", "in_condition")]
        sides += [link.get(side) for link in state_links for side in ("in_what", "in_state")]
        named = [metric.get("dimensions"), metric.get("field"), metric.get("filter", {}).get("fields")]
        if not all(is_well_formed(fields) for fields in named + sides):
            yield 5
            return
        yield from self.links(metric, links)
        if "what" not in metric:
            yield 9
        if name == DURATION:
            yield from self.duration(metric, links + state_links)
        yield from self.slices(name, metric, state_links)
        yield from self.own(name, metric, links)

    def links(self, metric, links):
        """Reasons by the links to conditions."""
        conditions, seen = self.conditions(metric), set()
        for link in links:
            if not are_linked(link.get("in_what"), link.get("in_condition")):
                yield 6
            condition = link.get("condition")
            simple = (self.named(PREDICATE, condition) or {}).get("simple")
            if simple is None or condition not in conditions or condition in seen:
                yield 7
            elif not are_among(link.get("in_condition"), simple.get("dimensions")):
                yield 8
            seen.add(condition)

    def duration(self, metric, links):
        """Reasons of a duration by what it times."""
        timed = self.named(PREDICATE, metric.get("what"))
        if timed is None:
            return
        if "combination" in timed:
            yield 10
        dimensions = timed.get("simple", {}).get("dimensions")
        for fields in [metric.get("dimensions")] + [link.get("in_what") for link in links]:
            if not are_among(fields, dimensions):
                yield 11

    def slices(self, name, metric, state_links):
        """Reasons by states."""
        slices = metric.get("slices", [])
        atoms = [self.named(STATE, one).get("atom_id") for one in slices]
        linked = [link.get("atom_id") for link in state_links]
        for place, link in enumerate(state_links):
            in_state = link.get("in_state")
            found = [(field, inner) for field, _, inner in leaves(in_state)]
            if (
                link.get("atom_id") not in atoms
                or link.get("atom_id") in linked[:place]
                or not are_linked(link.get("in_what"), in_state)
                or in_state.get("field") != link.get("atom_id")
                or any(after <= before for before, after in zip(found, found[1:]))
            ):
                yield 12
        is_sparse = name == DURATION and metric.get("aggregation") == MAX_SPARSE
        if slices and (is_sparse or self.is_pulled(name, metric)) or len(set(atoms)) < len(atoms):
            yield 13

    def own(self, name, metric, links):
        """Reasons of metrics of values and of samples."""
        is_pulled = self.is_pulled(name, metric)
        if name == VALUE:
            found = leaves(metric.get("field"))
            if len(found) != 1 or found[0][1] == ALL:
                yield 14
            if "diff" in metric and metric["diff"] != is_pulled:
                yield 15
        if is_pulled and links:
            yield 16
        if name == GAUGE:
            kept = metric.get("filter", {})
            if not kept.get("include_all", False) and not leaves(kept.get("fields")):
                yield 17
            sampling, has_trigger = metric.get("sampling", RANDOM_ONE), "trigger" in metric
            if (not is_pulled and (sampling == CHANGE_TO_TRUE or has_trigger)) or (has_trigger and sampling != FIRST_N):
                yield 18
        activations = metric.get("activations", [])
        if any(not {"start", "ttl"} <= one.keys() for one in activations):
            yield 20
        if is_pulled and activations:
            yield 21

    def faults(self):
        """All faults: the number, the reason and the value, in the order in which they are judged."""
        rules = (
            (1, self.limits),
            (2, self.without_id),
            (3, self.twice),
            (4, lambda: self.unknown(MATCHER, matchers_of)),
            (5, lambda: self.unknown(PREDICATE, predicates_of)),
            (6, lambda: self.unknown(STATE, states_of)),
            (7, lambda: self.cycles(MATCHER)),
            (8, lambda: self.cycles(PREDICATE)),
            (9, self.types),
            (10, self.unwatched),
        )
        return ((number, reason, value) for number, rule in rules for reason, value in rule())


def matchers_of(name, entity):
    """The ids of matchers that an entity names."""
    if name == "matcher":
        return entity.get("combination", {}).get("children", [])
    if name == "predicate":
        return [entity.get("simple", {}).get(event) for event in ("start", "stop", "stop_all")]
    own = [] if name == DURATION else [entity.get("what"), entity.get("trigger")]
    return own + [one.get(signal) for one in entity.get("activations", []) for signal in ("start", "cancel")]


def predicates_of(name, entity):
    """The ids of predicates that an entity names."""
    if name == "predicate":
        return entity.get("combination", {}).get("children", [])
    timed = [entity.get("what")] if name == DURATION else []
    return timed + [entity.get("condition")] + [link.get("condition") for link in entity.get("links", [])]


def states_of(_name, entity):
    """The ids of states that an entity names."""
    return entity.get("slices", [])


def line_of(tree):
    """The line that `check` writes."""
    checked = Checked(tree)
    for number, reason, value in checked.faults():
        return f"refused link {number} {reason} {value}\n"
    return "ok " + " ".join(str(len(checked.kinds[kind])) for kind in LIMITS) + "\n"
