"""Random configurations for `check`: first without a fault, and then changed at a few places."""
from copy import deepcopy

from compared.verdict import (
    ALL,
    CHANGE_TO_TRUE,
    FIRST,
    FIRST_N,
    LAST,
    MAX_SPARSE,
    MOST_KEYS,
    MOST_PARTS,
    MOST_SECONDS,
    MOST_THRESHOLD,
    NOT,
    RANDOM_ONE,
    TESTS,
    leaves,
)

PULLED_IDS = (10_001, 150_000)
ATOM_IDS = (5, 6, 7) + PULLED_IDS
IDS = range(1, 6)

# What a changed number becomes, by the name of its field, and else one of NUMBERS.
DOMAINS = {
    "position": range(1, 5),
    "operation": range(1, 6),
    "sampling": (RANDOM_ONE, CHANGE_TO_TRUE, FIRST_N),
    "aggregation": (1, MAX_SPARSE),
    "eq_bool": (False, True),
    "include_all": (False, True),
    "diff": (False, True),
    "overflow": (False, True),
    "ttl": (-1, 0, 1, MOST_SECONDS, MOST_SECONDS + 1),
    "parts": (-1, 0, 1, MOST_PARTS, MOST_PARTS + 1),
    "threshold": (-1, 0, MOST_THRESHOLD, MOST_THRESHOLD + 1),
    "refractory": (-1, 0, MOST_SECONDS, MOST_SECONDS + 1),
}
SMALL = (-1, 0, 1, 2, 3, 4, 5, 6, 20, 21, 100, 101, 127, 128, 800, 3_000, 3_001)
NUMBERS = SMALL + (9_999, 10_000, 99_999, 100_000, 149_999, 150_000, 199_999, 200_000, 2**31 - 1)

ONEOFS = (("simple", "combination"), TESTS)

# How many entities are one too many.
CROWDS = {"matchers": 801, "predicates": 301, "states": 17, "counts": 101, "alerts": 11}


def without_none(**fields):
    """A message of the fields that are there."""
    return {name: value for name, value in fields.items() if value is not None}


def some(random, chance, value):
    """A value, or none."""
    return value if random.random() < chance else None


class Drawn:
    """A configuration that is drawn. What is drawn later names what stands already."""

    def __init__(self, random):
        self.random = random
        self.tree = {}
        for name, draw, least in (
            ("matchers", self.matcher, 1),
            ("predicates", self.predicate, 0),
            ("states", self.state, 0),
        ):
            self.tree[name] = []
            for entity_id in range(1, random.randint(least, 4) + 1):
                self.tree[name].append({"id": entity_id, **draw(self.tree[name])})
        self.metrics = 0
        for name, draw in (
            ("events", self.event),
            ("counts", self.count),
            ("values", self.value),
            ("gauges", self.gauge),
            ("durations", self.duration),
        ):
            least = 1 if name == "counts" else 0
            number = random.randint(least, 2) if name != "durations" or self.timed() else 0
            self.tree[name] = [self.metric(draw) for _ in range(number)]
        self.tree["no_report"] = [one for one in range(1, self.metrics + 1) if random.random() < 0.2]
        counts = [one["id"] for one in self.tree["counts"]]
        number = random.choice([0, 1, 1, 2, 2, 3])
        self.tree["alerts"] = [{"id": one, **self.alert(counts)} for one in range(1, number + 1)]

    def named(self, name):
        """The id of some entity of a list, if there is any."""
        listed = self.tree[name]
        return self.random.choice(listed)["id"] if listed else None

    def combination(self, before):
        """An operation on some of what stands before."""
        operation = self.random.randint(1, 5)
        number = 1 if operation == NOT else self.random.randint(1, 3)
        return {"operation": operation, "children": [self.random.choice(before)["id"] for _ in range(number)]}

    def test(self, is_inner):
        """A test of a field."""
        test = {"field": self.random.randint(1, 127)}
        drawn = self.random.random()
        if not is_inner and drawn < 0.3:
            return {**test, "tuple": {"tests": [self.test(True) for _ in range(self.random.randint(0, 2))]}}
        if not is_inner and drawn < 0.5:
            test["position"] = self.random.randint(1, 4)
        name, value = self.random.choice([("eq_bool", True), ("eq_int", -3), ("lt_int", 4), ("eq_any_string", {})])
        return {**test, name: value}

    def matcher(self, before):
        """The body of a matcher."""
        if before and self.random.random() < 0.3:
            return {"combination": self.combination(before)}
        tests = [self.test(False) for _ in range(self.random.randint(0, 2))]
        return {"simple": {"atom_id": self.random.choice(ATOM_IDS), "tests": tests}}

    def fields(self, number=None, atom_id=None, positions=(None, None, FIRST, LAST, ALL)):
        """Fields with so many leaves, in their order."""
        number = self.random.randint(1, 3) if number is None else number
        children = []
        for field in sorted(self.random.sample(range(1, 6), number)):
            inner = some(self.random, 0.2, [{"field": self.random.randint(1, 127)}])
            position = self.random.choice(positions)
            children.append(without_none(field=field, position=position, children=inner))
        return {"field": self.random.choice(ATOM_IDS) if atom_id is None else atom_id, "children": children}

    def predicate(self, before):
        """The body of a predicate."""
        if before and self.random.random() < 0.4:
            return {"combination": self.combination(before)}
        simple = without_none(
            start=some(self.random, 0.5, self.named("matchers")),
            stop=some(self.random, 0.5, self.named("matchers")),
            stop_all=some(self.random, 0.3, self.named("matchers")),
            dimensions=some(self.random, 0.7, self.fields()),
            bound=some(self.random, 0.4, self.random.choice([1, MOST_KEYS])),
        )
        return {"simple": simple}

    def state(self, before):
        """What a state has beside its id: an atom of its own."""
        return {"atom_id": 20 + len(before)}

    def metric(self, draw):
        """A metric with the next id."""
        self.metrics += 1
        return {"id": self.metrics, **draw()}

    def reached(self, predicate_id):
        """The simple predicates that a condition is or reaches."""
        predicate = next(one for one in self.tree["predicates"] if one["id"] == predicate_id)
        if "simple" in predicate:
            return [predicate]
        return [one for child in predicate["combination"]["children"] for one in self.reached(child)]

    def part(self, fields):
        """Some leaves of these fields, or all."""
        children = fields["children"]
        return {**fields, "children": self.random.sample(children, self.random.randint(1, len(children)))}

    def links(self, condition, among):
        """Links to some of the predicates that have dimensions."""
        links = []
        predicates = {one["id"]: one for one in ([] if condition is None else self.reached(condition))}
        for predicate in predicates.values():
            dimensions = predicate["simple"].get("dimensions")
            if dimensions is not None and self.random.random() < 0.6:
                in_condition = self.part(dimensions)
                number = len(leaves(in_condition))
                in_what = self.fields(number) if among is None else {**among, "children": among["children"][:number]}
                links.append({"condition": predicate["id"], "in_what": in_what, "in_condition": in_condition})
        return links

    def event(self):
        """A metric of the atoms themselves."""
        return self.with_activations(self.common())

    def common(self, what="matchers", among=None):
        """What metrics of all kinds have."""
        condition = some(self.random, 0.6, self.named("predicates"))
        found = without_none(what=self.named(what), condition=condition)
        return {**found, "links": self.links(condition, among)}

    def keyed(self, among=None):
        """What metrics by keys have."""
        dimensions = self.fields() if among is None else self.part(among)
        bound = some(self.random, 0.4, self.random.choice([1, 160, MOST_KEYS]))
        return without_none(dimensions=some(self.random, 0.5, dimensions), bound=bound)

    def sliced(self, what="matchers", among=None):
        """What metrics that may have states have."""
        slices = [state["id"] for state in self.tree["states"] if self.random.random() < 0.4]
        state_links = []
        for state in self.tree["states"]:
            if state["id"] in slices and self.random.random() < 0.5 and among is None:
                in_state = self.fields(atom_id=state["atom_id"])
                in_what = self.fields(len(leaves(in_state)))
                state_links.append({"atom_id": state["atom_id"], "in_what": in_what, "in_state": in_state})
        return {**self.common(what, among), **self.keyed(among), "slices": slices, "state_links": state_links}

    def count(self):
        """A count, which may ask for an overflow row."""
        own = without_none(overflow=some(self.random, 0.4, self.random.random() < 0.8))
        return self.with_activations({**self.sliced(), **own})

    def alert(self, counts):
        """What an alert on one of these counts has beside its id."""
        return {
            "metric": self.random.choice(counts),
            "threshold": self.random.choice([0, 3, MOST_THRESHOLD]),
            "parts": self.random.randint(1, MOST_PARTS),
            **without_none(refractory=some(self.random, 0.5, self.random.choice([0, MOST_SECONDS]))),
        }

    def with_activations(self, metric, may_have=True):
        """A metric that mostly has some activations, if it may have some; now and then one that may not."""
        if not may_have and self.random.random() > 0.05:
            return metric
        number = self.random.choice([0, 1, 1, 2, 3, 8])
        return {**metric, "activations": [self.activation() for _ in range(number)]}

    def activation(self):
        """What makes a metric active."""
        return without_none(
            start=self.named("matchers"),
            ttl=self.random.choice([1, 20, MOST_SECONDS]),
            cancel=some(self.random, 0.4, self.named("matchers")),
        )

    def is_pulled(self, metric):
        """A metric of a simple matcher of pulled atoms."""
        what = next(one for one in self.tree["matchers"] if one["id"] == metric["what"])
        return what.get("simple", {}).get("atom_id", 0) in PULLED_IDS

    def value(self):
        """A metric of values. Of pulled ones it has no states and no links."""
        metric = {**self.sliced(), "field": self.fields(1, positions=(None, FIRST, LAST))}
        if self.is_pulled(metric):
            metric = {**metric, "slices": [], "state_links": [], "links": []}
        is_pulled = self.is_pulled(metric)
        own = without_none(diff=some(self.random, 0.3, is_pulled))
        return self.with_activations({**metric, **own}, not is_pulled)

    def gauge(self):
        """A metric of samples. Of pulled ones it has no links, and may have a trigger."""
        metric = {**self.common(), **self.keyed()}
        sampling = self.random.choice([None, RANDOM_ONE, FIRST_N])
        trigger = None
        if self.is_pulled(metric):
            metric["links"] = []
            sampling = self.random.choice([sampling, CHANGE_TO_TRUE])
            trigger = some(self.random, 0.4, self.named("matchers")) if sampling == FIRST_N else None
        if metric.get("bound") == MOST_KEYS and sampling not in (None, RANDOM_ONE):
            del metric["bound"]
        samples = some(self.random, 0.4, self.random.choice([1, 20]))
        kept = without_none(include_all=some(self.random, 0.5, True), fields=self.fields())
        own = without_none(filter=kept, sampling=sampling, samples=samples, trigger=trigger)
        return self.with_activations({**metric, **own}, not self.is_pulled(metric))

    def timed(self):
        """The predicates that a duration may time."""
        return [one for one in self.tree["predicates"] if "simple" in one]

    def duration(self):
        """A metric of durations, of a predicate."""
        predicate = self.random.choice(self.timed())
        among = predicate["simple"].get("dimensions", {"field": 5, "children": []})
        metric = self.sliced("predicates", among) if among["children"] else self.common("predicates", among)
        aggregation = MAX_SPARSE if not metric.get("slices") and self.random.random() < 0.4 else None
        return {**metric, "what": predicate["id"], **without_none(aggregation=aggregation)}


def places(tree):
    """Each place of a tree: what holds it, and its name or its place there."""
    names = list(tree) if isinstance(tree, dict) else range(len(tree))
    for name in names:
        yield tree, name
        if isinstance(tree[name], (dict, list)):
            yield from places(tree[name])


def change_list(random, listed):
    """Repeats one of a list, or takes it out."""
    if listed and random.random() < 0.5:
        listed.insert(random.randrange(len(listed) + 1), deepcopy(random.choice(listed)))
    elif listed:
        listed.pop(random.randrange(len(listed)))


def copy_field(random, source, message):
    """Puts a field of another message of the kind. A member of a oneof takes the place of the others."""
    if not source:
        return
    name, value = random.choice(list(source.items()))
    put = deepcopy(value)
    for oneof in ONEOFS:
        for other in oneof if name in oneof else ():
            message.pop(other, None)
    message[name] = put


def change(random, tree):
    """Changes a tree at one place."""
    holder, name = random.choice(list(places(tree)))
    value = holder[name]
    drawn = random.random()
    if isinstance(value, list):
        change_list(random, value)
    elif isinstance(value, dict) and isinstance(holder, list) and drawn < 0.7:
        copy_field(random, random.choice(holder), value)
    elif isinstance(value, dict) or drawn < 0.3:
        del holder[name]
    else:
        holder[name] = random.choice(DOMAINS.get(name, NUMBERS if drawn < 0.6 else IDS))


def draw_tree(random):
    """A configuration that may have faults."""
    tree = Drawn(random).tree
    for _ in range(random.choice([0, 1, 1, 2, 3, 5])):
        change(random, tree)
    if random.random() < 0.01:
        name, most = random.choice([(name, most) for name, most in CROWDS.items() if name in tree])
        number = random.choice([most - 1, most])
        tree[name] = (tree[name] * number)[:number] or [{}] * number
    return tree
