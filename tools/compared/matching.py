"""For which atoms matchers hold."""
from session_text.layout import BOOL, INT, LONG, STR

from compared.atoms import ALL

AND, OR, NOT, NAND, NOR = range(1, 6)


def combined(operation, truths):
    """An operation on two values."""
    if operation == NOT:
        return not truths[0]
    if operation in (AND, NAND):
        return all(truths) == (operation == AND)
    return any(truths) == (operation == OR)


# What each test of a number asks, and each test of a string.
NUMBERS = {
    "eq_int": lambda value, asked: value == asked,
    "lt_int": lambda value, asked: value < asked,
    "gt_int": lambda value, asked: value > asked,
    "lte_int": lambda value, asked: value <= asked,
    "gte_int": lambda value, asked: value >= asked,
}
STRINGS = {
    "eq_string": lambda value, asked: value == asked,
    "eq_any_string": lambda value, asked: value in asked.get("strings", []),
    "neq_any_string": lambda value, asked: value not in asked.get("strings", []),
}


def passes(test, value):
    """A value passes what a test asks of it: a truth of a Bool or of a number, a number of an Int or a Long, a string
    of a Str."""
    if "eq_bool" in test:
        return value.kind in (BOOL, INT, LONG) and (value.content != 0) == test["eq_bool"]
    for name, compare in NUMBERS.items():
        if name in test:
            return value.kind in (INT, LONG) and compare(value.content, test[name])
    for name, compare in STRINGS.items():
        if name in test:
            return value.kind == STR and compare(value.content, test[name])
    return False


def holds_at(test, atom, index):
    """A test holds at an index of its field: the entry there is there and passes; for a tuple each entry inside that
    is asked for."""
    field = test["field"]
    asked = [(inner["field"], inner) for inner in test["tuple"].get("tests", [])] if "tuple" in test else [(0, test)]
    entries = [(atom.at.get((field, index, sub)), one) for sub, one in asked]
    return all(entry is not None and passes(one, entry.value) for entry, one in entries)


def holds(test, atom):
    """A test holds at some index that its position picks; with ALL at each, of which there has to be one."""
    position = test.get("position")
    found = [holds_at(test, atom, index) for index in atom.picked(test["field"], position)]
    return bool(found) and all(found) if position == ALL else any(found)


def matches(simple, atom):
    """A simple matcher holds for the atoms of its id for which every test of a field holds."""
    return simple["atom_id"] == atom.atom_id and all(holds(test, atom) for test in simple.get("tests", []))


class Truths:
    """The truths of the matchers of a configuration for an atom, each found when it is asked for first."""

    def __init__(self, matchers, atom):
        self.matchers, self.atom = matchers, atom
        self.found = {}

    def holds(self, matcher_id):
        """The matcher of this id holds; none does where there is no id."""
        if matcher_id is not None and matcher_id not in self.found:
            matcher = self.matchers[matcher_id]
            if "simple" in matcher:
                truth = matches(matcher["simple"], self.atom)
            else:
                children = [self.holds(child) for child in matcher["combination"]["children"]]
                truth = combined(matcher["combination"]["operation"], children)
            self.found[matcher_id] = truth
        return self.found.get(matcher_id, False)
