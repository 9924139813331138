"""How a script ends by a signal: what it has at work is ended with it."""
import contextlib
import signal
import sys
import threading

# An interrupt, a request to end, and a terminal that goes away.
ENDING = (signal.SIGINT, signal.SIGTERM, signal.SIGHUP)


def end(number, _frame):
    """Ends the script with the status that the signal has in a shell."""
    sys.exit(128 + number)


def ready():
    """Sets how a script ends: by an interrupt that is told, by other signals with their status, and without a word
    where nobody reads what it writes."""
    signal.signal(signal.SIGPIPE, signal.SIG_DFL)
    signal.signal(signal.SIGINT, signal.default_int_handler)
    signal.signal(signal.SIGTERM, end)
    signal.signal(signal.SIGHUP, end)


def is_alone():
    """Whether signals may be set here: they may in the main thread."""
    return threading.current_thread() is threading.main_thread()


@contextlib.contextmanager
def held():
    """A signal that comes here is one at the end of this. Other threads than the main one get none."""
    if not is_alone():
        yield
        return
    came = []
    before = {one: signal.signal(one, lambda number, _: came.append(number)) for one in ENDING}
    try:
        yield
    finally:
        for one, how in before.items():
            signal.signal(one, how)
    if came:
        signal.raise_signal(came[0])


@contextlib.contextmanager
def pipes_may_break():
    """A program that ends before it took all its input ends nothing here: what it answered is read to its end."""
    if not is_alone():
        yield
        return
    before = signal.signal(signal.SIGPIPE, signal.SIG_IGN)
    try:
        yield
    finally:
        signal.signal(signal.SIGPIPE, before)
