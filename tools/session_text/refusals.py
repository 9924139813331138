"""Why a configuration is refused, in words, with the part that is at fault. docs/CONFIGURATION.md has the numbers."""
from . import android, causes, passed
from .config import ALERT, MATCHER, METRIC, PREDICATE, STATE, entities, tree
from .schema import path_words

LIMIT, NO_ID, TWICE, NO_MATCHER, NO_PREDICATE, NO_STATE = range(1, 7)
MATCHER_CYCLE, PREDICATE_CYCLE, NOT_RIGHT, NO_METRIC = range(7, 11)
KINDS = {1: MATCHER, 2: PREDICATE, 3: STATE, 4: METRIC, 5: ALERT}
# How many entities of a kind there may be, by the reason that there are more.
MOST = {1: (MATCHER, 800), 2: (PREDICATE, 300), 3: (STATE, 16), 4: (METRIC, 100), 11: (ALERT, 10)}
MOST_ACTIVATIONS = 8
# The numbers of alerts and what they may be, by the reason that one isn't that.
ALERT_NUMBERS = {
    12: ("parts", "from 1 to 10"),
    13: ("threshold", "from 0 to 2^62"),
    14: ("refractory_seconds", "from 0 to 1,000,000"),
}
NOT = 3

CAUSES = {
    1: "a number of more than ten bytes",
    2: "a record or a group that isn't there whole",
    3: "a record of wire type 6 or 7",
    4: "a field of number 0",
    5: "the end of a group that isn't open",
    6: "messages or groups inside each other, more than 100 deep",
    7: "a tag above 2^32 - 1",
}

REASONS = {
    1: "has neither of its two parts",
    2: "has a combination without an operation or a child, or a NOT with other than one child",
    3: "has an atom's id that isn't from 1 to 2^31 - 1",
    4: "has a test of a field without a value, with a field that isn't from 1 to 127, or with what a tuple can't have",
    5: "has fields that aren't well formed",
    6: "has a link whose sides differ in number of fields, or have none",
    7: "has a link to what isn't a simple predicate of its condition, or two links to one",
    8: "has a link with a field that isn't among the dimensions of its predicate",
    9: "has no what",
    10: "times a combination; a duration times a simple predicate",
    11: "names a field that isn't among the dimensions of the predicate that it times",
    12: "has a state link to no state that it is sliced by, two of one atom, or one whose fields don't fit",
    13: "can't be sliced by a state, or is sliced by two states of one atom",
    14: "has no value_field with one field, or one with ALL",
    15: "has use_diff false on pulled values, or true on pushed ones",
    16: "is pulled and has links",
    17: "is a gauge that neither includes all fields nor names one",
    18: "has a sampling_type or a trigger that such a gauge can't have",
    19: "is named by no_report_metric and isn't there",
    20: "has an activation without start or ttl_seconds",
    21: "is pulled and has activations",
    22: "has no metric, no threshold or no parts",
    23: "is on a metric that isn't a count",
}


def named(entity):
    """The id of an entity, as it is told."""
    return entity.get("id", "without an id")


def children(entity):
    """The ids that a combination names."""
    combination = entity.get("combination", {})
    return combination.get("matcher", combination.get("predicate", []))


def matchers_of(field, entity):
    """The ids of matchers that an entity names, each with where."""
    if field == "atom_matcher":
        return [("matcher", one) for one in children(entity)]
    if field == "predicate":
        simple = entity.get("simple_predicate", {})
        return [(event, simple[event]) for event in ("start", "stop", "stop_all") if event in simple]
    places = [] if field == "duration_metric" else ["what", "trigger_event"]
    found = [(place, entity[place]) for place in places if place in entity]
    signals = [(signal, one) for one in entity.get("activation", []) for signal in ("start", "cancel")]
    return found + [(f"activation.{signal}", one[signal]) for signal, one in signals if signal in one]


def predicates_of(field, entity):
    """The ids of predicates that an entity names, each with where."""
    if field == "predicate":
        return [("predicate", one) for one in children(entity)]
    places = (["what"] if field == "duration_metric" else []) + ["condition"]
    found = [(place, entity[place]) for place in places if place in entity]
    return found + [("links", link["condition"]) for link in entity.get("links", []) if "condition" in link]


def states_of(_field, entity):
    """The ids of states that an entity names, each with where."""
    return [("slice_by_state", one) for one in entity.get("slice_by_state", [])]


def metrics_of(_field, entity):
    """The id of the metric that an alert names, with where."""
    return [("metric", entity["metric"])] if "metric" in entity else []


NAMES = {
    NO_MATCHER: (MATCHER, matchers_of),
    NO_PREDICATE: (PREDICATE, predicates_of),
    NO_STATE: (STATE, states_of),
    NO_METRIC: (METRIC, metrics_of),
}


def unknown_words(config, number, kind, value):
    """Which entity names what isn't there."""
    missing, references = NAMES[number]
    for field, entity in entities(config, kind):
        for place, one in references(field, entity):
            if one == value:
                return f"{kind} {named(entity)}: {place}: no {missing} {value}"
    return f"a {kind} names {missing} {value}, which isn't there"


def cycle_of(config, kind, begin):
    """The shortest way from an entity back to itself."""
    below = {entity.get("id"): children(entity) for _, entity in entities(config, kind)}
    ways, seen = [[begin]], set()
    while ways:
        way = ways.pop(0)
        for one in below.get(way[-1], []):
            if one == begin:
                return way
            if one not in seen:
                seen.add(one)
                ways.append([*way, one])
    return [begin]


def cycle_words(config, kind, begin):
    """Which entities are below themselves."""
    way = [str(one) for one in cycle_of(config, kind, begin)]
    if len(way) == 1:
        return f"{kind} {begin} names itself"
    return f"{kind}s {', '.join(way[:-1])} and {way[-1]} form a cycle"


def limit_words(config, reason, value):
    """Which number is past its limit."""
    if reason in MOST:
        kind, most = MOST[reason]
        return f"{value} {kind}s, and there may be {most}"
    if reason in ALERT_NUMBERS:
        return alert_words(config, reason, value)
    for _, one in entities(config, PREDICATE):
        if reason == 5 and one.get("simple_predicate", {}).get("bound") == value:
            return f"predicate {named(one)}: bound {value}, and it may be from 1 to 3,000"
    for field, one in entities(config, METRIC):
        if reason == 6 and one.get("bound") == value:
            return f"metric {named(one)}: bound {value}, and it may be from 1 to 3,000"
        if field == "gauge_metric" and reason == 7 and one.get("max_num_gauge_atoms_per_bucket") == value:
            return f"metric {named(one)}: max_num_gauge_atoms_per_bucket {value}, and it may be from 1 to 100"
        if field == "gauge_metric" and reason == 8 and rows_of(one) == value:
            return f"metric {named(one)}: its bound times the samples of a key is {value}, and may be 16,384"
        activations = one.get("activation", [])
        if reason == 9 and len(activations) == value:
            return f"metric {named(one)}: {value} activations, and there may be {MOST_ACTIVATIONS}"
        if reason == 10 and any(activation.get("ttl_seconds") == value for activation in activations):
            return f"metric {named(one)}: activation.ttl_seconds {value}, and it may be from 1 to 1,000,000"
    return f"the number {value} is past its limit"


def alert_words(config, reason, value):
    """Which number of an alert is past its limit."""
    name, may_be = ALERT_NUMBERS[reason]
    for _, one in entities(config, ALERT):
        if one.get(name) == value:
            return f"alert {named(one)}: {name} {value}, and it may be {may_be}"
    return f"the number {value} is past its limit"


def rows_of(gauge):
    """The bound of a gauge times the samples of a key."""
    samples = 1 if gauge.get("sampling_type", 1) == 1 else gauge.get("max_num_gauge_atoms_per_bucket", 10)
    return gauge.get("bound", 800) * samples


def is_bare(entity):
    """A matcher or a predicate has neither of its parts."""
    return not {"simple_atom_matcher", "simple_predicate", "combination"} & set(entity)


def has_bad_combination(entity):
    """A combination lacks what it needs."""
    combination, named_ones = entity.get("combination"), children(entity)
    if combination is None:
        return False
    is_odd_not = combination.get("operation") == NOT and len(named_ones) != 1
    return "operation" not in combination or not named_ones or is_odd_not


def has_bad_atom(entity):
    """The id of an atom is out of range."""
    return not 1 <= entity.get("simple_atom_matcher", entity).get("atom_id", 0) < 2**31


# The kinds of entities of which a reason can be, and what shows which it is, where there are two kinds.
AT_FAULT = {
    1: ([MATCHER, PREDICATE], is_bare),
    2: ([MATCHER, PREDICATE], has_bad_combination),
    3: ([MATCHER, STATE], has_bad_atom),
    4: ([MATCHER], None),
    5: ([PREDICATE, METRIC], None),
    22: ([ALERT], None),
    23: ([ALERT], None),
}


def kinds_at_fault(config, reason, value):
    """The kinds of the entities of this id that can have a reason."""
    kinds, shows = AT_FAULT.get(reason, ([METRIC], None))
    found = [(kind, one) for kind in kinds for _, one in entities(config, kind) if one.get("id") == value]
    return [kind for kind, one in found if shows is None or shows(one)][: None if shows is None else 1]


def wrong_words(config, reason, value):
    """Which entity isn't what it should be."""
    why = REASONS.get(reason, f"has the fault {reason}")
    if reason == 19:
        return f"metric {value} {why}"
    kinds = kinds_at_fault(config, reason, value) or ["the entity"]
    return f"{' or '.join(f'{kind} {value}' for kind in kinds)} {why}{causes.cause(config, reason, value)}"


def link_words(content, number, reason, value):
    """A fault of references in words."""
    config = tree(content)
    if number == LIMIT:
        return limit_words(config, reason, value)
    if number == NO_ID:
        return f"the {KINDS[reason]} at place {value} (from 0) has no id"
    if number == TWICE:
        return f"two {KINDS[reason]}s have the id {value}"
    if number in NAMES:
        return unknown_words(config, number, KINDS[reason], value)
    if number in (MATCHER_CYCLE, PREDICATE_CYCLE):
        return cycle_words(config, MATCHER if number == MATCHER_CYCLE else PREDICATE, value)
    return wrong_words(config, reason, value)


def wire_words(cause, offset):
    """A fault of the wire in words."""
    return f"at byte {offset}: {CAUSES.get(cause, f'cause {cause}')}"


def unsupported_words(path, content=b""):
    """A record that isn't supported in words, with the entity that has it, where the configuration is at hand."""
    words = path_words(path)
    if path == [17]:
        return f"metric_activation (17) isn't supported{passed.own_words('metric_activation')}"
    place = f" of {'.'.join(words[:-1])}" if words[:-1] else ""
    if words[-1].isdigit():
        return (
            f"field {words[-1]}{place} isn't supported{android.refused_words(path)}{causes.owner_words(content, path)}"
        )
    return (
        f"{words[-1]}{place} has another wire type than it may have, or a number that it may not have"
        f"{causes.owner_words(content, path)}"
    )


def found_lines(line, content):
    """What the program's line on a checked configuration says, in words, below that line."""
    kind, *rest = line.split()
    if kind == "ok":
        return []
    what, *numbers = rest
    if what == "wire":
        return ["  " + wire_words(*map(int, numbers))]
    if what == "unsupported":
        return ["  " + unsupported_words([int(number) for number in numbers[0].split(".")], content)]
    if what == "link":
        return ["  " + link_words(content, *map(int, numbers))]
    return []
