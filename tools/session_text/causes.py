"""Which part of an entity has a fault, where a reason alone names several: the field that isn't well formed, the
state that can't slice. docs/CONFIGURATION.md has the reasons."""
from compared.decoding import Unsupported, WireFault, decoded
from compared.wire import message

from .config import entities, records, tree
from .schema import TOP, message_of, messages

MATCHER, PREDICATE, STATE, METRIC = "matcher", "predicate", "state", "metric"
FIRST, LAST, ANY, ALL = range(1, 5)
POSITIONS = {FIRST: "FIRST", LAST: "LAST", ANY: "ANY", ALL: "ALL"}
MAX_SPARSE, CHANGE_TO_TRUE, FIRST_N = 2, 3, 4
PULLED = (range(10_000, 100_000), range(150_000, 200_000))


def of_id(config, kind, wanted):
    """The entity of this id, with the name of its field; nothing where there is none."""
    return next(((field, one) for field, one in entities(config, kind) if one.get("id") == wanted), (None, {}))


def pulled_id(config, field, metric):
    """The pulled id whose atoms a metric of values or samples takes, or None."""
    if field not in ("value_metric", "gauge_metric"):
        return None
    _, what = of_id(config, MATCHER, metric.get("what"))
    atom_id = what.get("simple_atom_matcher", {}).get("atom_id", 0)
    return atom_id if any(atom_id in ids for ids in PULLED) else None


def leaves(fields):
    """The leaves of fields: a field, its position and the field inside, or 0."""
    return [
        (child.get("field"), child.get("position"), inner.get("field"))
        for child in fields.get("child", [])
        for inner in child.get("child") or [{"field": 0}]
    ]


def ill_formed(fields):
    """Why fields aren't well formed, or None."""
    if not 1 <= fields.get("field", 0) < 2**31:
        return "its field, which is an atom's id, isn't from 1 to 2^31 - 1"
    if "position" in fields:
        return "a position beside the atom's id"
    for child in fields.get("child", []):
        for one, is_inside in [(child, False), *((inner, True) for inner in child.get("child", []))]:
            place, position = one.get("field", 0), one.get("position")
            if not 1 <= place <= 127:
                return f"the field {place}, and it may be from 1 to 127"
            if position is not None and (is_inside or position == ANY):
                where = "which a field inside a message can't have" if is_inside else "which a test alone can have"
                return f"field {place} has the position {POSITIONS.get(position, position)}, {where}"
            if is_inside and one.get("child"):
                return f"field {place} has fields inside, and stands inside a field itself"
    found = leaves(fields)
    twice = [leaf for place, leaf in enumerate(found) if leaf in found[:place]]
    return f"field {twice[0][0]} stands there twice" if twice else None


def fields_in(entity):
    """The fields of a predicate or a metric, each with where they stand."""
    yield "dimensions", entity.get("simple_predicate", {}).get("dimensions")
    yield "dimensions_in_what", entity.get("dimensions_in_what")
    yield "value_field", entity.get("value_field")
    yield "gauge_fields_filter", entity.get("gauge_fields_filter", {}).get("fields")
    for name, sides in (("links", ("what", "condition")), ("state_link", ("what", "state"))):
        for link in entity.get(name, []):
            yield from ((f"{name}: fields_in_{side}", link.get(f"fields_in_{side}")) for side in sides)


def bad_fields(config, value):
    """5: fields that aren't well formed."""
    for kind in (PREDICATE, METRIC):
        for place, fields in fields_in(of_id(config, kind, value)[1]):
            why = ill_formed(fields) if fields is not None else None
            if why:
                return f"{place}: {why}"
    return None


def bad_link(config, value):
    """7: a link whose condition stands twice, or isn't a simple predicate. One that isn't of the metric's condition is
    told by the others."""
    seen = []
    for link in of_id(config, METRIC, value)[1].get("links", []):
        condition = link.get("condition")
        if condition in seen:
            return f"two links name {condition}"
        if "simple_predicate" not in of_id(config, PREDICATE, condition)[1]:
            return (
                f"the link's condition {condition} is a combination" if condition is not None else "without condition"
            )
        seen.append(condition)
    return None


def bad_slice(config, value):
    """13: what can't be sliced, or two states of one atom."""
    field, metric = of_id(config, METRIC, value)
    if metric.get("slice_by_state") and pulled_id(config, field, metric):
        return f"atom {pulled_id(config, field, metric)} is pulled, and pulled values have no states"
    if metric.get("slice_by_state") and field == "duration_metric" and metric.get("aggregation_type") == MAX_SPARSE:
        return "a longest duration (MAX_SPARSE) has no states"
    atoms = {}
    for state in metric.get("slice_by_state", []):
        atom_id = of_id(config, STATE, state)[1].get("atom_id")
        if atom_id in atoms:
            return f"states {atoms[atom_id]} and {state} are both of atom {atom_id}"
        atoms[atom_id] = state
    return None


def bad_value_field(config, value):
    """14: a value_field that isn't one field."""
    fields = of_id(config, METRIC, value)[1].get("value_field")
    if fields is None:
        return "it has no value_field"
    found = leaves(fields)
    if len(found) != 1:
        return f"its value_field names {len(found)} fields, and a value is of one; more are a metric each"
    return "its value_field has the position ALL"


def bad_diff(config, value):
    """15: use_diff that doesn't fit."""
    field, metric = of_id(config, METRIC, value)
    atom_id = pulled_id(config, field, metric)
    return f"atom {atom_id} is pulled" if atom_id else "its atoms are logged, and not pulled"


def bad_sampling(config, value):
    """18: a sampling_type or a trigger that doesn't fit."""
    field, metric = of_id(config, METRIC, value)
    if "trigger_event" in metric and metric.get("sampling_type", 1) != FIRST_N:
        return "a trigger_event wants FIRST_N_SAMPLES"
    if not pulled_id(config, field, metric):
        what = "a trigger_event" if "trigger_event" in metric else "CONDITION_CHANGE_TO_TRUE"
        return f"its atoms are logged, and {what} is for pulled ones"
    return None


CAUSES = {5: bad_fields, 7: bad_link, 13: bad_slice, 14: bad_value_field, 15: bad_diff, 18: bad_sampling}


def cause(config, reason, value):
    """What is wrong of the entity with this id, after a colon; nothing where the reason says it all."""
    found = CAUSES[reason](config, value) if reason in CAUSES else None
    return f": {found}" if found else ""


def is_refused(number, content, path):
    """An entity alone is refused for a record at this path."""
    try:
        decoded(message(number, content))
    except Unsupported as fault:
        return list(fault.args[0]) == path
    except WireFault:
        pass
    return False


def owner_words(content, path):
    """The id of the entity in which the record at a path isn't supported, in brackets; nothing where it isn't found."""
    field = messages()[TOP].get(path[0])
    inner = field and message_of(TOP, field.type)
    found = tree(content) if inner and field.is_repeated and len(path) > 1 else {}
    for place, payload in enumerate(payloads(content, path[0]) if found else []):
        if is_refused(path[0], payload, path):
            owner = found[field.name][place].get("id", "without an id")
            return f" ({'metric' if field.name.endswith('_metric') else field.name.removeprefix('atom_')} {owner})"
    return ""


def payloads(content, number):
    """The payloads of the records of a number."""
    return [payload for found, wire_type, payload in records(content) if found == number and wire_type == 2]
