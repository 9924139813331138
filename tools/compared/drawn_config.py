"""Random configurations that are taken, as trees, with metrics of the kinds that are asked for."""
import functools

from compared.atoms import ALL, ANY, FIRST, LAST
from compared.kinds import COUNTS, DURATIONS, EVENTS, GAUGES, LISTED, PULLED, VALUES, is_of_pulled
from compared.matching import AND, NOR, NOT

# Ids of atoms of the log, some more often than others.
ATOM_IDS = (1, 1, 1, 1, 2, 2, 3)
PULLED_IDS = (10_001, 10_001, 10_001, 150_000)
# Ids of which a configuration that sleeps hears a few.
MANY_IDS = range(1, 9)
MANY_PULLED = (10_001, 10_002, 10_003, 150_000)
FIELDS = (1, 2, 3)
# A field that is repeated, and a field inside of its elements.
REPEATED, INNER = 4, 1
NUMBERS = range(3)
STATES = range(-1, 4)

# Ids are places from these on.
MATCHER_ID, PREDICATE_ID, METRIC_ID, STATE_ID, ALERT_ID = 1, 101, 201, 301, 401

SECONDS, MINUTES = 1000, 1
RANDOM_ONE, CHANGE_TO_TRUE, FIRST_N = 1, 3, 4
MAX_SPARSE = 2


def without_none(**fields):
    """A message of the fields that are there."""
    return {name: value for name, value in fields.items() if value is not None}


class DrawnConfig:
    """A configuration that is drawn, and is taken. What is drawn later names what stands already."""

    # Of what ids its matchers, predicates and metrics are, and its states.
    atom_ids, pulled_ids = ATOM_IDS, PULLED_IDS
    state_ids = (*ATOM_IDS, 2, 3, PULLED_IDS[0])

    def __init__(self, random, kinds):
        self.random = random
        self.matchers, self.predicates, self.states = [], [], []
        for place in range(random.randint(2, 6)):
            self.matchers.append({"id": MATCHER_ID + place, **self.matcher()})
        for place in range(random.randint(0, 5)):
            self.predicates.append({"id": PREDICATE_ID + place, **self.predicate()})
        for place in range(random.choice([0, 1, 1, 2, 2, 3, 4])):
            self.states.append({"id": STATE_ID + place, **self.state()})
        self.tree = {listed: [] for listed in LISTED}
        for place in range(random.randint(1, 4) if len(kinds) == 1 else random.randint(2, 7)):
            kind = random.choice([*kinds, *(kind for kind in kinds if kind == DURATIONS)])
            if kind == DURATIONS and not self.timed():
                self.predicates.append({"id": PREDICATE_ID + len(self.predicates), "simple": self.simple_predicate()})
            listed, draw = DRAW[kind]
            self.tree[listed].append({"id": METRIC_ID + place, **draw(self)})
        ids = [metric["id"] for listed in LISTED for metric in self.tree[listed]]
        self.tree["no_report"] = [one for one in ids if random.random() < 0.1]
        watched = [metric["id"] for metric in self.tree[COUNTS]]
        number = random.choice([0, 1, 1, 2, 3]) if watched else 0
        self.tree["alerts"] = [{"id": ALERT_ID + place, **self.alert(watched)} for place in range(number)]
        self.tree.update(matchers=self.matchers, predicates=self.predicates, states=self.states)

    def some(self, chance, draw):
        """Something that is drawn, or none."""
        return draw() if self.random.random() < chance else None

    def one_of(self, listed):
        """The id of one of a list."""
        return self.random.choice(listed)["id"]

    def combination(self, before):
        """An operation on some of what stands before."""
        operation = self.random.randint(AND, NOR)
        number = 1 if operation == NOT else self.random.randint(1, 3)
        return {"combination": {"operation": operation, "children": [self.one_of(before) for _ in range(number)]}}

    def asked(self):
        """What a test asks of a value."""
        number = self.random.choice(NUMBERS)
        strings = {"strings": self.random.sample([b"a", b"b", b""], self.random.randint(0, 2))}
        others = [{"lt_int": number}, {"gte_int": number}, {"eq_bool": number > 0}, {"eq_string": b"a"}]
        others += [{"gt_int": number}, {"lte_int": number}, {"eq_any_string": strings}, {"neq_any_string": strings}]
        return {"eq_int": number} if self.random.random() < 0.7 else self.random.choice(others)

    def test(self):
        """A test of a field, mostly of a plain one."""
        if self.random.random() < 0.85:
            return {"field": self.random.choice(FIELDS), **self.asked()}
        test = without_none(field=REPEATED, position=self.random.choice([None, FIRST, LAST, ANY, ALL]))
        inner = [{"field": INNER, **self.asked()} for _ in range(self.random.randint(0, 2))]
        return {**test, **self.random.choice([self.asked(), {"tuple": {"tests": inner}}])}

    def matcher(self):
        """The body of a matcher."""
        if len(self.matchers) > 1 and self.random.random() < 0.3:
            return self.combination(self.matchers)
        atom_id = self.random.choice(self.atom_ids if self.random.random() < 0.75 else self.pulled_ids)
        tests = [self.test() for _ in range(self.random.choice([0, 0, 0, 0, 1, 1, 2]))]
        return {"simple": {"atom_id": atom_id, "tests": tests}}

    def children(self, number):
        """So many fields of an atom, of which one may be repeated."""
        children = [{"field": field} for field in self.random.sample(FIELDS, number)]
        if self.random.random() < 0.2:
            inner = self.some(0.4, lambda: [{"field": INNER}])
            position = self.random.choice([FIRST, LAST, ALL])
            children[self.random.randrange(number)] = without_none(field=REPEATED, position=position, children=inner)
        return children

    def fields(self, number=None, atom_id=None):
        """Fields of an atom."""
        number = self.random.choice([1, 1, 2]) if number is None else number
        atom_id = self.random.choice(self.atom_ids) if atom_id is None else atom_id
        return {"field": atom_id, "children": self.children(number)}

    def part(self, fields):
        """Some of these fields, in any order."""
        number = self.random.randint(1, len(fields["children"]))
        return {**fields, "children": self.random.sample(fields["children"], number)}

    def new_matcher(self, atom_id, field, number):
        """The id of a new matcher of atoms that have a number in a field."""
        tests = [{"field": field, "eq_int": number}]
        matcher_id = MATCHER_ID + len(self.matchers)
        self.matchers.append({"id": matcher_id, "simple": {"atom_id": atom_id, "tests": tests}})
        return matcher_id

    def fields_beside(self, atom_id, field):
        """Fields of atoms of an id, mostly without this one."""
        fields = self.fields(atom_id=atom_id)
        others = [child for child in fields["children"] if child["field"] != field] or [{"field": field + 1}]
        return {**fields, "children": others} if self.random.random() < 0.9 else fields

    def switch(self):
        """What atoms of one id start by one number of a field and stop by another, for keys of theirs."""
        atom_id, field = self.random.choice(self.atom_ids), FIELDS[0]
        return without_none(
            start=self.new_matcher(atom_id, field, 1),
            stop=self.new_matcher(atom_id, field, 0),
            stop_all=self.some(0.4, lambda: self.new_matcher(atom_id, field, 2)),
            nesting=self.some(0.3, lambda: False),
            initial=self.some(0.2, lambda: 0),
            dimensions=self.some(0.75, lambda: self.fields_beside(atom_id, field)),
            bound=self.random.choice([None, None, 2, 3]),
        )

    def simple_predicate(self):
        """What matchers start and stop, for each key of its own."""
        if self.random.random() < 0.7:
            return self.switch()
        return without_none(
            start=self.some(0.7, lambda: self.one_of(self.matchers)),
            stop=self.some(0.7, lambda: self.one_of(self.matchers)),
            stop_all=self.some(0.2, lambda: self.one_of(self.matchers)),
            nesting=self.some(0.4, lambda: self.random.random() < 0.3),
            initial=self.some(0.5, lambda: self.random.choice([0, 0, 1])),
            dimensions=self.some(0.7, self.fields),
            bound=self.random.choice([None, 1, 2, 3]),
        )

    def predicate(self):
        """The body of a predicate."""
        if self.predicates and self.random.random() < 0.3:
            return self.combination(self.predicates)
        return {"simple": self.simple_predicate()}

    def state(self):
        """A state of atoms of some id, which may be that of a pull, with groups of its numbers or without."""
        groups = self.some(0.5, lambda: [self.group() for _ in range(self.random.randint(0, 3))])
        atom_id = self.random.choice(self.state_ids)
        return without_none(atom_id=atom_id, map=None if groups is None else {"groups": groups})

    def group(self):
        """A group of a state's numbers, with an id or without."""
        numbers = self.random.sample(STATES, self.random.randint(0, 3))
        return without_none(group=self.random.choice([None, 0, 1, 2, -7]), numbers=numbers)

    def reached(self, predicate_id):
        """The simple predicates that a condition is or reaches, each once, by their ids."""
        predicate = self.predicates[predicate_id - PREDICATE_ID]
        if "simple" in predicate:
            return {predicate_id: predicate["simple"]}
        found = {}
        for child in predicate["combination"]["children"]:
            found.update(self.reached(child))
        return found

    def counted_fields(self, number, atom_id, among):
        """So many fields of what a metric is of: of its own atom mostly, or among those of the key that it times."""
        if among is not None:
            return {**among, "children": self.random.sample(among["children"], number)}
        return self.fields(number, atom_id if self.random.random() < 0.7 else None)

    def links(self, condition, atom_id, among):
        """Links to some of the predicates that have keys."""
        links = []
        for predicate_id, simple in [] if condition is None else sorted(self.reached(condition).items()):
            if "dimensions" in simple and self.random.random() < 0.7:
                in_condition = self.part(simple["dimensions"])
                number = len(in_condition["children"])
                if among is None or number <= len(among["children"]):
                    in_what = self.counted_fields(number, atom_id, among)
                    links.append({"condition": predicate_id, "in_what": in_what, "in_condition": in_condition})
        self.random.shuffle(links)
        return links

    def common(self, atom_id, among=None, is_linked=True):
        """The condition of a metric, and its links."""
        condition = self.some(0.5, lambda: self.one_of(self.predicates)) if self.predicates else None
        links = self.links(condition, atom_id, among) if is_linked else []
        return without_none(condition=condition, links=links)

    def keyed(self, atom_id, among=None):
        """The key, the bucket and the bound of a metric."""
        if among is None:
            dimensions = self.some(0.7, lambda: self.fields(atom_id=atom_id if self.random.random() < 0.7 else None))
        else:
            dimensions = self.some(0.85, lambda: self.part(among)) if among["children"] else None
        bucket = self.random.choice([SECONDS, SECONDS, SECONDS, MINUTES, None])
        return without_none(dimensions=dimensions, bucket=bucket, bound=self.random.choice([None, None, 1, 2, 3]))

    def sliced(self, atom_id, among=None):
        """States of different atoms in any order, and links of some."""
        slices, state_links = {}, []
        for state in self.random.sample(self.states, len(self.states)):
            if self.random.random() < 0.6:
                slices.setdefault(state["atom_id"], state["id"])
        for state_atom in slices:
            number = self.random.choice([1, 1, 2, 2, 3])
            if self.random.random() < 0.6 and (among is None or number <= len(among["children"])):
                children = [{"field": field} for field in sorted(self.random.sample(FIELDS, number))]
                in_what = self.counted_fields(number, atom_id, among)
                in_state = {"field": state_atom, "children": children}
                state_links.append({"atom_id": state_atom, "in_what": in_what, "in_state": in_state})
        self.random.shuffle(state_links)
        return {"slices": list(slices.values()), "state_links": state_links}

    def counted(self, matchers):
        """One of these matchers for a metric, and the id of the atoms that it mostly is of."""
        matcher = self.random.choice(matchers)
        atom_id = matcher.get("simple", {}).get("atom_id")
        return matcher["id"], self.random.choice(self.atom_ids) if atom_id is None else atom_id

    def counted_as(self, pulled):
        """The same among the matchers by which a value or a gauge is pulled, or isn't."""
        matchers = [one for one in self.matchers if is_of_pulled(one) == pulled]
        if not matchers:
            atom_id = self.random.choice(self.pulled_ids if pulled else self.atom_ids)
            matchers = [{"id": MATCHER_ID + len(self.matchers), "simple": {"atom_id": atom_id}}]
            self.matchers += matchers
        return self.counted(matchers)

    def activation(self):
        """What makes a metric active: mostly a new matcher of a number starts it, and another one cancels it."""
        atom_id, field = self.random.choice(self.atom_ids), FIELDS[0]
        is_new = self.random.random() < 0.6
        start = self.new_matcher(atom_id, field, 1) if is_new else self.one_of(self.matchers)
        cancel = self.some(0.4, lambda: self.new_matcher(atom_id, field, 0) if is_new else self.one_of(self.matchers))
        return without_none(start=start, ttl=self.random.choice([1, 1, 2, 5, 60, 1_000_000]), cancel=cancel)

    def active(self):
        """The activations of a metric: mostly none."""
        number = self.random.choice([0, 0, 0, 1, 1, 2, 3])
        return {"activations": [self.activation() for _ in range(number)]} if number else {}

    def event(self):
        """A metric of events."""
        what, atom_id = self.counted(self.matchers)
        return {"what": what, **self.common(atom_id), **self.active()}

    def count(self):
        """A count, which may ask for an overflow row."""
        what, atom_id = self.counted(self.matchers)
        own = without_none(overflow=self.some(0.6, lambda: self.random.random() < 0.85))
        own.update(self.active())
        return {"what": what, **self.common(atom_id), **self.keyed(atom_id), **self.sliced(atom_id), **own}

    def alert(self, watched):
        """What an alert on one of these counts has beside its id."""
        return without_none(
            metric=self.random.choice(watched),
            threshold=self.random.choice([0, 0, 1, 1, 2, 3, 5]),
            parts=self.random.choice([1, 1, 2, 2, 3, 10]),
            refractory=self.random.choice([None, None, 0, 1, 1, 2, 60]),
        )

    def value(self, pulled=False):
        """A metric of values, pushed or pulled."""
        what, atom_id = self.counted_as(pulled)
        children = [{"field": FIELDS[0]}] if self.random.random() < 0.5 else self.children(1)
        if children[0].get("position") == ALL:
            children[0]["position"] = FIRST
        field = {"field": atom_id if self.random.random() < 0.95 else self.atom_ids[0], "children": children}
        own = without_none(
            field=field,
            aggregation=self.random.choice([None, None, 1, 2, 3]),
            absolute=self.some(0.4, lambda: self.random.random() < 0.8),
            diff=self.some(0.2, lambda: pulled),
            direction=self.random.choice([None, 1, 2, 3, 3]),
            skip_zero=self.some(0.5, lambda: self.random.random() < 0.3),
            zero_base=self.some(0.5, lambda: self.random.random() < 0.8),
        )
        slices = {} if pulled else {**self.sliced(atom_id), **self.active()}
        return {"what": what, **self.common(atom_id, is_linked=not pulled), **self.keyed(atom_id), **slices, **own}

    def gauge(self, pulled=False):
        """A metric of samples, pushed or pulled."""
        what, atom_id = self.counted_as(pulled)
        sampling = self.random.choice([None, RANDOM_ONE, FIRST_N, FIRST_N] + [CHANGE_TO_TRUE, FIRST_N] * pulled)
        trigger = self.some(0.5, lambda: self.one_of(self.matchers)) if pulled and sampling == FIRST_N else None
        samples = self.random.choice([None, 1, 2, 3, 20])
        fields = self.fields(atom_id=atom_id if self.random.random() < 0.95 else None)
        kept = self.random.choice([{"include_all": True}, {"fields": fields}, {"include_all": True, "fields": fields}])
        own = without_none(filter=kept, sampling=sampling, samples=samples, trigger=trigger)
        own.update({} if pulled else self.active())
        return {"what": what, **self.common(atom_id, is_linked=not pulled), **self.keyed(atom_id), **own}

    def timed(self):
        """The predicates that a duration may time."""
        return [one for one in self.predicates if "simple" in one]

    def duration(self):
        """A metric of durations."""
        predicate = self.random.choice(self.timed())
        among = predicate["simple"].get("dimensions", {"field": self.atom_ids[0], "children": []})
        is_sparse = self.random.random() < 0.5
        own = without_none(what=predicate["id"], aggregation=MAX_SPARSE if is_sparse else self.random.choice([None, 1]))
        own.update({"bucket": MINUTES} if is_sparse and self.random.random() < 0.5 else {})
        own.update({"bound": self.random.choice([1, 1, 2])} if self.random.random() < 0.6 else {})
        slices = {} if is_sparse else self.sliced(None, among)
        return {**self.common(None, among), **self.keyed(None, among), **slices, **own}


# Where the metrics of each kind are listed, and how one is drawn.
DRAW = {
    EVENTS: (EVENTS, DrawnConfig.event),
    COUNTS: (COUNTS, DrawnConfig.count),
    VALUES: (VALUES, DrawnConfig.value),
    PULLED[VALUES]: (VALUES, functools.partial(DrawnConfig.value, pulled=True)),
    GAUGES: (GAUGES, DrawnConfig.gauge),
    PULLED[GAUGES]: (GAUGES, functools.partial(DrawnConfig.gauge, pulled=True)),
    DURATIONS: (DURATIONS, DrawnConfig.duration),
}


class Sleeper(DrawnConfig):
    """A configuration that sleeps mostly: its matchers and predicates are of few ids, its states of any. One with a NOT
    on top hears all."""

    state_ids = MANY_IDS

    def __init__(self, random, kinds):
        self.atom_ids = random.sample(MANY_IDS, random.choice([1, 1, 2]))
        self.pulled_ids = [random.choice(MANY_PULLED)]
        super().__init__(random, kinds)
