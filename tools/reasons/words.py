"""Times, keys and numbers as they are told."""
from reasons.tested import POSITIONS, value_word
from session_text.summary import time_word


def times(count, what="time"):
    """A number of things, as 1 time or 3 times."""
    return f"{count} {what}" if count == 1 else f"{count} {what}s"


def span(nanos):
    """How long something took."""
    return time_word(nanos)


def leaf_name(leaf):
    """A leaf as a session writes it."""
    position = f"[{POSITIONS[leaf.position]}]" if leaf.position else ""
    return f"{leaf.field}{position}" + (f".{leaf.sub}" if leaf.sub else "")


def leaf_word(leaf, value):
    """A leaf with its value; - where it is missing."""
    if value is None:
        return f"{leaf_name(leaf)}=-"
    values = value if isinstance(value, tuple) and not hasattr(value, "kind") else [value]
    return " ".join(f"{leaf_name(leaf)}={value_word(one)}" for one in values)


def key_word(leaves, key):
    """A key, with the names of its leaves."""
    return " ".join(leaf_word(leaf, value) for leaf, value in zip(leaves, key)) or "the empty key"


def listed(words, most=6):
    """Words with commas between them, the first of them where there are many."""
    words = list(map(str, words))
    return ", ".join(words[:most]) + (f" and {len(words) - most} more" if len(words) > most else "")
