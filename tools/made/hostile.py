"""Sessions that are made to cost: each shape is a configuration in protobuf text and so many frames of a log.

A shape writes the frames of its log up to a count; the client installs the configuration first, and asks for a report
with a cut at the end.
"""
import struct

from session_text.layout import INT

from .frames import CONFIG_ID, MILLISECOND, atom, atom_of, install, integers, pull, remove, report, text, tick

CLIENT = 10
KEYS = 3000
PULLED = 10010


def matchers(*atom_ids):
    """A matcher of each of these atoms, with ids from 1 on."""
    return "".join(
        f"atom_matcher {{ id: {place} simple_atom_matcher {{ atom_id: {atom_id} }} }}\n"
        for place, atom_id in enumerate(atom_ids, 1)
    )


def fields(name, atom_id, *places):
    """Some fields of an atom, as a field matcher of this name."""
    children = " ".join(f"child {{ field: {place} }}" for place in places)
    return f"{name} {{ field: {atom_id} {children} }}"


def predicate(number, start, stop, *rest):
    """A predicate that is started and stopped by matchers, and keeps as many keys as it may."""
    return (
        f"predicate {{ id: {number} simple_predicate {{ start: {start} stop: {stop} bound: {KEYS} "
        + " ".join(rest)
        + " } }\n"
    )


def combination(number, *children):
    """A predicate that is true where one of these is."""
    named = " ".join(f"predicate: {child}" for child in children)
    return f"predicate {{ id: {number} combination {{ operation: OR {named} }} }}\n"


def link(condition, in_what, in_condition):
    """A link by these fields."""
    return f"links {{ condition: {condition} {in_what} {in_condition} }}"


def metric(kind, number, what, *rest):
    """A metric of minutes."""
    return f"{kind} {{ id: {number} what: {what} " + " ".join(rest) + (
        " }\n" if kind == "event_metric" else " bucket: ONE_MINUTE }\n"
    )


def links_times_predicates():
    """280 predicates by the value of atom 6, each with a link, asked at each atom 5."""
    places = range(11, 291)
    links = [link(place, fields("fields_in_what", 5, 1), fields("fields_in_condition", 6, 1)) for place in places]
    config = matchers(5, 6, 7) + "".join(predicate(place, 2, 3, fields("dimensions", 6, 1)) for place in places)
    return config + combination(1000, *places) + metric("count_metric", 100, 1, "condition: 1000", *links)


def values_of_five(out, count):
    """Atoms 5 of fifty values."""
    for done in range(count):
        out.write(atom(done * MILLISECOND, done % 50))


def binds_on_part_of_a_key():
    """A predicate by two fields of atom 6, of which a link binds the second, asked at each atom 5."""
    asked = link(11, fields("fields_in_what", 5, 1), fields("fields_in_condition", 6, 2))
    return (
        matchers(5, 6, 7)
        + predicate(11, 2, 3, fields("dimensions", 6, 1, 2))
        + metric("count_metric", 100, 1, "condition: 11", asked)
    )


def full_then_asked(out, count):
    """3,000 keys are started, none of which a value of atom 5 finds; so every key is looked at."""
    for key in range(KEYS):
        out.write(atom_of(0, 6, integers(key, key + 100)))
    values_of_five(out, count)


def stops_of_all():
    """A predicate by the value of atom 6, with a stop of all keys."""
    return (
        matchers(5, 6, 7)
        + predicate(11, 2, 3, "stop_all: 1", fields("dimensions", 6, 1))
        + metric("duration_metric", 100, 11, fields("dimensions_in_what", 6, 1), f"bound: {KEYS}")
    )


def starts_and_a_stop_of_all(out, count):
    """3,000 starts and a stop of all, in turn."""
    for done in range(count):
        place = done % (KEYS + 1)
        out.write(atom(done * MILLISECOND, place, 6) if place < KEYS else atom(done * MILLISECOND, 0))


def inner_keys():
    """A sum of 3,000 inner keys while the screen (atom 5) is on."""
    return (
        matchers(5, 6, 7, 8)
        + predicate(11, 2, 3, fields("dimensions", 6, 1))
        + predicate(12, 1, 4)
        + metric("duration_metric", 100, 11, "condition: 12", fields("dimensions_in_what", 6, 1), f"bound: {KEYS}")
    )


def all_keys_turn(out, count):
    """3,000 keys are started; then the condition of all turns at each atom."""
    for key in range(KEYS):
        out.write(atom(0, key, 6))
    for done in range(count):
        out.write(atom(done * MILLISECOND, 0, 5 + done % 2 * 3))


def from_the_front(out, count):
    """3,000 keys are started; then the first is stopped and started again, as the last."""
    for key in range(KEYS):
        out.write(atom(0, key, 6))
    for done in range(count):
        out.write(atom(done * MILLISECOND, done // 2 % KEYS, 7 - done % 2))


def snapshots():
    """Samples of whole pulled atoms."""
    whole = "gauge_fields_filter { include_all: true }"
    return matchers(PULLED) + metric("gauge_metric", 100, 1, whole, fields("dimensions_in_what", PULLED, 1))


def long_pulls(out, count):
    """Pulls of 200 atoms, each as long as may be."""
    long = [integers(key) + text(2, b"x" * 4075) for key in range(200)]
    for done in range(count):
        out.write(pull(done * MILLISECOND, PULLED, long))


def a_hundred_pulled():
    """A hundred metrics of one pulled atom."""
    value = fields("value_field", PULLED, 2)
    by_key = fields("dimensions_in_what", PULLED, 1)
    return matchers(PULLED) + "".join(metric("value_metric", 100 + place, 1, value, by_key) for place in range(100))


def short_pulls(out, count):
    """Pulls of a hundred atoms."""
    for done in range(count):
        out.write(pull(done * MILLISECOND, PULLED, [integers(key, done + key) for key in range(100)]))


def deep_matchers():
    """A chain of 800 matchers, each of which names the one before it twice."""
    chain = "".join(
        f"atom_matcher {{ id: {place} combination {{ operation: AND matcher: {place - 1} matcher: {place - 1} }} }}\n"
        for place in range(2, 801)
    )
    return matchers(5) + chain + metric("count_metric", 100, 800)


def deep_predicates():
    """A chain of 298 predicates, each of which names the one before it twice, asked at each atom 5."""
    chain = "".join(combination(place, place - 1, place - 1) for place in range(12, 310))
    return matchers(5, 6, 7) + predicate(11, 2, 3) + chain + metric("count_metric", 100, 1, "condition: 309")


def long_keys():
    """A count by all of a field's elements."""
    leaves = "dimensions_in_what { field: 5 child { field: 1 position: ALL } }"
    return matchers(5) + metric("count_metric", 100, 1, leaves, f"bound: {KEYS}")


def keys_of_many_leaves(out, count):
    """Atoms with 127 texts each, of which the last differs."""
    front = b"".join(text(1, b"x" * 20, index) for index in range(1, 127))
    for done in range(count):
        out.write(atom_of(done * MILLISECOND, 5, front + text(1, b"%020d" % (done % 4000), 127)))


def a_hundred_open():
    """A hundred sums of one predicate."""
    return matchers(5, 6) + predicate(11, 1, 2) + "".join(metric("duration_metric", 100 + place, 11) for place in range(100))


def silence(out, count):
    """The predicate is on, and nothing comes between ticks that are 2^62 nanoseconds apart in all."""
    out.write(atom(0, 0))
    for done in range(count):
        out.write(tick((done + 1) * (2**62 // count)))


def replaced():
    """800 matchers and 100 metrics, which are installed again and again."""
    each = range(1, 101)
    return matchers(*range(1, 801)) + "".join(metric("count_metric", 1000 + place, place) for place in each)


def colliding():
    """A count by two texts."""
    return matchers(5) + metric("count_metric", 100, 1, fields("dimensions_in_what", 5, 1, 2), f"bound: {KEYS}")


def grouped(number, atom_id, values):
    """A state of an atom, whose values so many stand in groups of a thousand."""
    groups = "".join(
        f"group {{ group_id: {first} " + " ".join(f"value: {value}" for value in range(first, first + 1000)) + " }\n"
        for first in range(0, values, 1000)
    )
    return f"state {{ id: {number} atom_id: {atom_id} map {{ {groups} }} }}\n"


def sums_by_a_long_map():
    """Three sums of 3,000 keys, sliced by a state with 60,000 values in groups."""
    summed = "".join(
        metric("duration_metric", 100 + place, 11, "slice_by_state: 31", fields("dimensions_in_what", 6, 1), f"bound: {KEYS}")
        for place in range(3)
    )
    return matchers(5, 6, 7) + predicate(11, 2, 3, fields("dimensions", 6, 1)) + grouped(31, 27, 60_000) + summed


def state_of(at, value):
    """An atom of a state that has no key."""
    return atom_of(at, 27, struct.pack("<BBBBBi", 1, 0, 0, 1, INT, value))


def all_keys_then_states(out, count):
    """3,000 keys are started; then the state is another value of the last group at each atom."""
    for key in range(KEYS):
        out.write(atom(0, key, 6))
    for done in range(count):
        out.write(state_of(done * MILLISECOND, 59_000 + done % 1000))


def linked_keys():
    """A sum of 3,000 inner keys, each under its own key of a condition."""
    asked = link(12, fields("fields_in_what", 6, 1), fields("fields_in_condition", 8, 1))
    return (
        matchers(5, 6, 7, 8, 9)
        + predicate(11, 2, 3, fields("dimensions", 6, 1))
        + predicate(12, 4, 5, fields("dimensions", 8, 1))
        + metric("duration_metric", 100, 11, "condition: 12", asked, fields("dimensions_in_what", 6, 1), f"bound: {KEYS}")
    )


def both_filled_then_turned(out, count):
    """3,000 inner keys and as many of the condition are started; then one of the condition turns at each atom."""
    for key in range(KEYS):
        out.write(atom(0, key, 6))
        out.write(atom(0, key, 8))
    for done in range(count):
        out.write(atom(done * MILLISECOND, done // 2 % KEYS, 9 - done % 2))


def thirty_sums_by_a_state():
    """Thirty sums of 3,000 keys, sliced by a state of each key."""
    in_state = (
        "slice_by_state: 31 state_link { state_atom_id: 27 "
        + fields("fields_in_what", 6, 1) + " " + fields("fields_in_state", 27, 1) + " }"
    )
    summed = "".join(
        metric("duration_metric", 100 + place, 11, in_state, fields("dimensions_in_what", 6, 1), f"bound: {KEYS}")
        for place in range(30)
    )
    state = "state { id: 31 atom_id: 27 }\n"
    return matchers(5, 6, 7) + predicate(11, 2, 3, fields("dimensions", 6, 1)) + state + summed


def all_keys_then_keyed_states(out, count):
    """3,000 keys are started; then the state of one of them is another at each atom."""
    for key in range(KEYS):
        out.write(atom(0, key, 6))
    for done in range(count):
        keyed = struct.pack("<BBBBBi", 1, 0, 0, 2, INT, done % KEYS) + struct.pack("<BBBBBi", 2, 0, 0, 1, INT, done)
        out.write(atom_of(done * MILLISECOND, 27, keyed))


def counted_by_many():
    """A count by 127 fields of each of 127 fields, so that a key has 16,129 leaves."""
    inner = " ".join(f"child {{ field: {place} }}" for place in range(1, 128))
    leaves = " ".join(f"child {{ field: {place} {inner} }}" for place in range(1, 128))
    return matchers(5) + metric("count_metric", 100, 1, f"dimensions_in_what {{ field: 5 {leaves} }}", f"bound: {KEYS}")


def keys_with_one_leaf(out, count):
    """Atoms of as many keys, of whose leaves the last is there."""
    for done in range(count):
        out.write(atom_of(done, 5, text(127, b"%d" % done, 127)))


def a_hundred_samplers():
    """A hundred gauges of one pulled atom, sampled at a trigger."""
    whole = "gauge_fields_filter { include_all: true } sampling_type: FIRST_N_SAMPLES trigger_event: 2"
    by_key = fields("dimensions_in_what", PULLED, 1)
    return matchers(PULLED, 5) + "".join(metric("gauge_metric", 100 + place, 1, whole, by_key) for place in range(100))


def triggers(out, count):
    """Pulls of 200 atoms, and the trigger after each."""
    for done in range(count // 2):
        out.write(pull(done * MILLISECOND, PULLED, [integers(key, done + key) for key in range(200)]))
        out.write(atom(done * MILLISECOND, 0))


def cycle_after_references():
    """A chain of combinations with 100,000 references in all, at whose end two name one another: it is refused."""
    many = " ".join("matcher: 1" for _ in range(1000))
    chain = "".join(
        f"atom_matcher {{ id: {place} combination {{ operation: AND matcher: {place - 1} {many} }} }}\n"
        for place in range(2, 102)
    )
    cycle = (
        "atom_matcher { id: 200 combination { operation: AND matcher: 201 } }\n"
        "atom_matcher { id: 201 combination { operation: AND matcher: 200 } }\n"
    )
    return matchers(5) + chain + cycle + metric("count_metric", 100, 101)


# The hasher of keys begins so, joins a word by an exclusive or, multiplies by this, and joins the halves of what comes out.
FIRST_HASH = 0x243F6A8885A308D3
MULTIPLIER = 0x9E3779B97F4A7C15


def with_word(state, word):
    """The state of the hasher of tables after one word more: it has no secret, so anybody can compute it."""
    product = (state ^ word) * MULTIPLIER
    return product % 2**64 ^ product >> 64


def colliding_texts(count):
    """Pairs of texts of eight bytes, a word each. They have one hash as the two leaves of a key: after the first text the
    second leads to the same state."""
    state, target = with_word(FIRST_HASH, 2), 0x5EED
    return [
        (struct.pack("<Q", word), struct.pack("<Q", with_word(state, word) ^ target))
        for word in range(0x4141414141414141, 0x4141414141414141 + count)
    ]


def keys_that_collide(out, count):
    """Atoms of 4,096 keys that have one hash."""
    entries = [text(1, one) + text(2, other) for one, other in colliding_texts(4096)]
    for done in range(count):
        out.write(atom_of(done, 5, entries[done % len(entries)]))


def many_installs(config):
    """The same configuration is installed, replaced and removed."""

    def write(out, count):
        for done in range(count):
            out.write(remove(CLIENT, CONFIG_ID) if done % 3 == 2 else install(CLIENT, CONFIG_ID, config))

    return write


def with_reports(out, count):
    """Atoms of fifty values, and a report without a cut after each."""
    for done in range(count // 2):
        out.write(atom(done * 10 * MILLISECOND, done % 50))
        out.write(report(CLIENT, 0))


def counted():
    """A count by value."""
    return matchers(5) + metric("count_metric", 100, 1, fields("dimensions_in_what", 5, 1))


# Each shape: its name, its configuration, what comes, and how many frames so that it is well above each limit.
SHAPES = [
    ("280 predicates with a link each", links_times_predicates, values_of_five, 20_000),
    ("a link that binds a part of 3,000 keys", binds_on_part_of_a_key, full_then_asked, 20_000),
    ("3,000 starts and a stop of all", stops_of_all, starts_and_a_stop_of_all, 200_000),
    ("3,000 inner keys whose condition turns", inner_keys, all_keys_turn, 2_000),
    ("3,000 keys, the first removed", inner_keys, from_the_front, 100_000),
    ("pulls of 200 atoms of 4,096 bytes", snapshots, long_pulls, 100),
    ("100 pulled metrics at a pull", a_hundred_pulled, short_pulls, 500),
    ("a chain of 800 matchers", deep_matchers, values_of_five, 20_000),
    ("a chain of 298 predicates", deep_predicates, values_of_five, 20_000),
    ("keys of 127 texts", long_keys, keys_of_many_leaves, 20_000),
    ("keys that collide", colliding, keys_that_collide, 20_000),
    ("silence with 100 open sums", a_hundred_open, silence, 20_000),
    ("a report after each atom", counted, with_reports, 40_000),
    ("a map of 60,000 values, of 9,000 keys", sums_by_a_long_map, all_keys_then_states, 20),
    ("3,000 keys linked to 3,000 that turn", linked_keys, both_filled_then_turned, 1_000),
    ("30 sums of 3,000 keys by a state", thirty_sums_by_a_state, all_keys_then_keyed_states, 20),
    ("a report of keys with one leaf of 16,129", counted_by_many, keys_with_one_leaf, 250),
    ("100 pulled gauges at a trigger", a_hundred_samplers, triggers, 200),
]

INSTALLS = [
    ("800 matchers installed again", replaced, 200),
    ("a cycle after 100,000 references", cycle_after_references, 50),
]


def written(config, log):
    """Writes a shape's session up to a count of frames."""

    def write(out, count):
        out.write(install(CLIENT, CONFIG_ID, config))
        log(out, count)
        out.write(report(CLIENT, 1))

    return write
