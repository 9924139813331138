"""The fields of configurations by their numbers, from proto/statsd_config.proto."""
import functools
import re
from collections import namedtuple

from .protobuf import PROTO

# A field: what it is called, the type that stands there, and whether it is repeated.
Field = namedtuple("Field", "name type is_repeated")

TOP = "StatsdConfig"
TOKEN = re.compile(
    r"(?P<open>message|enum|oneof)\s+(?P<opened>\w+)\s*\{|(?P<close>\})"
    r"|(?P<how>optional\s+|repeated\s+|)(?P<type>\w+)\s+(?P<name>\w+)\s*=\s*(?P<number>\d+)"
    r"|(?P<label>\w+)\s*=\s*(?P<value>\d+)"
)


def tokens():
    """The tokens of the schema that stand in messages and enumerations: each with the kind of what it stands in, and
    the name of that, which has the names of the messages around it in front, with points between them."""
    text = re.sub(r"//.*", "", (PROTO / "statsd_config.proto").read_text(encoding="utf-8"))
    inside = []
    for token in TOKEN.finditer(text):
        if token["open"]:
            inside.append((token["open"], token["opened"]))
        elif token["close"]:
            inside.pop()
        elif inside:
            yield inside[-1][0], ".".join(name for kind, name in inside if kind != "oneof"), token


@functools.lru_cache(maxsize=None)
def messages():
    """The fields of each message by their numbers."""
    found = {}
    for kind, message, token in tokens():
        if kind != "enum" and token["name"]:
            field = Field(token["name"], token["type"], token["how"].startswith("repeated"))
            found.setdefault(message, {})[int(token["number"])] = field
    return found


@functools.lru_cache(maxsize=None)
def enums():
    """The names of each enumeration by their numbers."""
    found = {}
    for kind, enum, token in tokens():
        if kind == "enum" and token["label"]:
            found.setdefault(enum, {})[int(token["value"])] = token["label"]
    return found


def message_of(within, name):
    """The message that a type of a field names, from within a message; None where it is another type."""
    for known in (f"{within}.{name}", name):
        if known in messages():
            return known
    return None


def path_words(numbers):
    """The names of the fields of a path of numbers, with the number of one that isn't listed."""
    message, words = TOP, []
    for number in numbers:
        field = messages().get(message, {}).get(number)
        words.append(field.name if field else str(number))
        message = message_of(message, field.type) if field else None
    return words
