"""Which test of a matcher an atom fails, and what stood there instead."""
from collections import Counter

from compared.matching import holds

POSITIONS = {1: "FIRST", 2: "LAST", 3: "ANY", 4: "ALL"}
ASKED = (
    "eq_bool",
    "eq_string",
    "eq_int",
    "lt_int",
    "gt_int",
    "lte_int",
    "gte_int",
    "eq_any_string",
    "neq_any_string",
    "tuple",
)
KINDS = {1: "int", 2: "long", 3: "bool", 4: "str", 5: "raw", 6: "bits"}


def text(content):
    """Bytes of text in double quotes, cut where they are long."""
    word = content.decode("utf-8", "backslashreplace")
    return f'"{word[:40]}{".." if len(word) > 40 else ""}"'


def value_word(value):
    """A value, with its kind."""
    word = text(value.content) if isinstance(value.content, bytes) else value.content
    return f"{KINDS[value.kind]}:{word}"


def test_word(test):
    """A test as a configuration has it."""
    position = f" {POSITIONS[test['position']]}" if "position" in test else ""
    asked = next((name for name in ASKED if name in test), "nothing")
    value = test.get(asked)
    if isinstance(value, bytes):
        value = text(value)
    elif isinstance(value, dict):
        value = "{" + ", ".join(map(text, value.get("strings", []))) + "}" if "strings" in value else "{..}"
    elif isinstance(value, bool):
        value = str(value).lower()
    return f"field {test['field']}{position} {'matches_tuple' if asked == 'tuple' else asked} {value}"


def found_word(test, atom):
    """What an atom has in the field of a test."""
    entries = [entry for entry in atom.entries if entry.field == test["field"]]
    if not entries:
        return "isn't there"
    entry = entries[0]
    place = (f"[{entry.index}]" if entry.index else "") + (f".{entry.sub}" if entry.sub else "")
    return f"{'at ' + place + ' ' if place else ''}was {value_word(entry.value)}"


class Tests:
    """The tests of a simple matcher, over the atoms of its id."""

    def __init__(self, simple):
        self.tests = simple.get("tests", [])
        self.failed = [Counter() for _ in self.tests]

    def see(self, atom):
        """An atom of its id comes."""
        for test, failed in zip(self.tests, self.failed):
            if not holds(test, atom):
                failed[found_word(test, atom)] += 1

    def lines(self):
        """The tests that failed: how often, and the two commonest values that stood there."""
        for test, failed in zip(self.tests, self.failed):
            if failed:
                common = ", ".join(f"{word} ({times})" for word, times in failed.most_common(2))
                often = "once" if failed.total() == 1 else f"{failed.total()} times"
                yield f"{test_word(test)} failed {often}: it {common}"
