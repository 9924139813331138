"""What a configuration has that isn't acted on: fields of the whole that are passed over, fields without effect, and
numbers that no enumeration has. The bytes are ones that the program read without a fault of the wire."""
from collections import Counter

from compared.trees import MESSAGES

from . import android
from .config import records, tree, varint_at
from .schema import TOP, enums, message_of, messages

# Fields of this profile that say the same as one that is passed over or refused, where the rules read them.
OWN = {"alert": ("config", 1011), "metric_activation": ("count", 1010)}
OWN_WORDS = {
    "alert": "the field 1011 of this profile says it of a count",
    "metric_activation": "the field 1010 of metrics of this profile says the same of each",
}


def own_words(name):
    """The field of this profile that says the same, where it is read."""
    if name not in OWN:
        return ""
    message, number = OWN[name]
    is_read = any(field.number == number for field in MESSAGES[message].values())
    return f"; {OWN_WORDS[name]}" if is_read else ""


def has_type(field, message, wire_type):
    """A record has the wire type that its field may have."""
    if field.type in ("bytes", "string") or message_of(message, field.type):
        return wire_type == 2
    return wire_type == 0 or (field.is_repeated and wire_type == 2)


def owner_of(field, content, message):
    """How an entity is called: metric 5, matcher 3; what it stands in where it is none."""
    if message != TOP:
        return None
    kind = "metric" if field.name.endswith("_metric") else field.name.removeprefix("atom_")
    return f"{kind} {tree(content, message_of(TOP, field.type)).get('id', 'without an id')}"


def top_line(number, wire_type, field):
    """What is told of a record of the whole that is passed over."""
    if field:
        return f"{field.name} ({number}) with the wire type {wire_type} is passed over: it isn't the field's"
    known = android.named(TOP, number)
    if known:
        return f"{known.name} ({number}) is passed over: {known.means}{own_words(known.name)}"
    return f"field {number} of the configuration is passed over: it isn't known"


def found_in(content, message=TOP, owner=None):
    """The lines on a message and what is in it, in order, each as often as it holds."""
    for number, wire_type, payload in records(content):
        field = messages()[message].get(number)
        if message == TOP and not (field and has_type(field, message, wire_type)):
            yield top_line(number, wire_type, field)
            continue
        if not field:
            known = android.named(message, number)
            if known and known.fate == android.NO_EFFECT:
                yield f"{owner}: {known.name} ({number}) is without effect: {known.means}"
            continue
        inner = message_of(message, field.type)
        if inner:
            yield from found_in(payload, inner, owner or owner_of(field, payload, message))
        elif wire_type == 0:
            yield from odd_number(field, message, varint_at(payload, 0)[0] & (2**32 - 1), owner)


def odd_number(field, message, value, owner):
    """The line on a number that its enumeration doesn't have."""
    labels = enums().get(f"{message}.{field.type}", enums().get(field.type))
    if labels is not None and value not in labels:
        yield f"{owner}: {field.name} {value} isn't read: no number of {field.type} is {value}"


def passed_over(content):
    """A line for each thing that isn't acted on, with how often it stands there."""
    for line, times in Counter(found_in(content)).items():
        what, colon, means = line.partition(": ")
        yield line if times == 1 else f"{what}, {times} times{colon}{means}"
