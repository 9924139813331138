"""What is wrong with the text, the bytes or the machine that a script was given."""
import contextlib

MOST_SHOWN = 80


class Fault(Exception):
    """Text or bytes that can't be taken, and what was expected in their place; the column, where it is known."""

    def __init__(self, said, column=None):
        super().__init__(said)
        self.column = column


def shown(text):
    """Text as it is told: at most so many characters of it."""
    return text if len(text) <= MOST_SHOWN else text[:MOST_SHOWN] + " .."


def echo(word):
    """A word as it is told, in quotes."""
    return shown(repr(str(word)))


def column_of(word):
    """The column where a word begins, if it is a word of a line."""
    return getattr(word, "column", None)


@contextlib.contextmanager
def within(word):
    """A fault that is met here is one of this word."""
    try:
        yield
    except Fault as fault:
        raise Fault(str(fault), fault.column or column_of(word)) from None
