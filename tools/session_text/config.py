"""Configurations from their bytes: just enough to tell people which part a fault is of. The bytes are ones that the
program read without a fault of the wire."""
from .schema import TOP, message_of, messages

MATCHER, PREDICATE, STATE, METRIC, ALERT = "matcher", "predicate", "state", "metric", "alert"
ENTITIES = {
    MATCHER: ["atom_matcher"],
    PREDICATE: ["predicate"],
    STATE: ["state"],
    METRIC: ["event_metric", "count_metric", "value_metric", "gauge_metric", "duration_metric"],
    ALERT: ["alert"],
}
# What a member of a oneof takes the place of.
ONE_OF = {
    "simple_atom_matcher": ["combination"],
    "simple_predicate": ["combination"],
    "combination": ["simple_atom_matcher", "simple_predicate"],
}


def varint_at(content, at):
    """A number, and where it ends. Most have one byte."""
    value, shift = content[at], 7
    at += 1
    if value < 128:
        return value, at
    value &= 127
    while True:
        byte = content[at]
        value |= (byte & 127) << shift
        at, shift = at + 1, shift + 7
        if byte < 128:
            return value & (2**64 - 1), at


def group_end(content, at):
    """Where a group ends that began before this place."""
    depth = 1
    while depth:
        tag, at = varint_at(content, at)
        kind = tag & 7
        depth += (kind == 3) - (kind == 4)
        at = payload_end(content, at, kind)
    return at


def payload_end(content, at, kind):
    """Where the payload of a record ends that isn't a group."""
    if kind == 0:
        return varint_at(content, at)[1]
    if kind == 2:
        size, at = varint_at(content, at)
        return at + size
    return at + {1: 8, 5: 4}.get(kind, 0)


def records(content):
    """The records of a message: their numbers, wire types and payloads."""
    at, size = 0, len(content)
    while at < size:
        tag, at = varint_at(content, at)
        kind, begin = tag & 7, at
        if kind == 2:
            length, begin = varint_at(content, at)
            end = begin + length
        elif kind == 0:
            end = at
            while content[end] > 127:
                end += 1
            end += 1
        else:
            end = group_end(content, at) if kind == 3 else payload_end(content, at, kind)
        yield tag >> 3, kind, content[begin:end]
        at = end


def is_whole(content):
    """Whether bytes are records to their end. What is inside of them isn't looked into."""
    at = 0
    try:
        while at < len(content):
            tag, at = varint_at(content, at)
            at = group_end(content, at) if tag & 7 == 3 else payload_end(content, at, tag & 7)
    except IndexError:
        return False
    return at == len(content)


def signed(value, bits):
    """A number of so many bits in two's complement."""
    value &= 2**bits - 1
    return value - 2**bits if value >> (bits - 1) else value


def number_in(payload, kind):
    """The number that a varint is."""
    return signed(varint_at(payload, 0)[0], 32 if kind == "int32" else 64)


def numbers_in(payload, kind, wire_type):
    """The numbers of a repeated field, packed or one."""
    if wire_type == 0:
        return [number_in(payload, kind)]
    found, at = [], 0
    while at < len(payload):
        end = varint_at(payload, at)[1]
        found.append(number_in(payload[at:end], kind))
        at = end
    return found


def tree(content, message=TOP):
    """A message as a dictionary of its fields by name: lists where they are repeated, numbers, bytes, and messages. The
    payloads of a message that comes several times are read as one."""
    found, payloads = {}, {}
    for number, wire_type, payload in records(content):
        field = messages()[message].get(number)
        inner = field and message_of(message, field.type)
        if not field:
            continue
        for other in ONE_OF.get(field.name, []):
            found.pop(other, None)
            payloads.pop(other, None)
        if inner and field.is_repeated:
            found.setdefault(field.name, []).append(tree(payload, inner))
        elif inner:
            payloads[field.name] = payloads.get(field.name, b"") + payload
            found[field.name] = tree(payloads[field.name], inner)
        elif field.type in ("bytes", "string"):
            found[field.name] = payload
        elif field.is_repeated:
            found.setdefault(field.name, []).extend(numbers_in(payload, field.type, wire_type))
        elif wire_type == 0:
            found[field.name] = number_in(payload, field.type)
    return found


def entities(config, kind):
    """The entities of a kind, each with the name of its field, in the order in which they are judged."""
    return [(name, entity) for name in ENTITIES[kind] for entity in config.get(name, [])]


# How many seconds a bucket has, by the numbers of TimeUnit; a minute is one for some clients alone.
BUCKETS = {1: 300, 2: 300, 3: 600, 4: 1800, 5: 3600, 6: 10_800, 7: 21_600, 8: 43_200, 9: 86_400, 1000: 1}
MINUTE, HOUR = 1, 5
CLIENTS_OF_MINUTES = (0, 2000)


def bucket_size(metric, client):
    """How many nanoseconds the buckets of a metric have, for a client."""
    unit = metric.get("bucket", HOUR)
    return (60 if unit == MINUTE and client in CLIENTS_OF_MINUTES else BUCKETS[unit]) * 10**9
