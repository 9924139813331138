"""How far a run is: a bar on a terminal, by the library tqdm, and else a line twice a minute."""
import sys
import time

from session_text.told import STEP, tell


def bar(count, done):
    """A bar of tqdm, or None where it isn't at hand or nobody watches."""
    if sys.stderr is None or not sys.stderr.isatty():
        return None
    try:
        import tqdm
    except ImportError:
        return None
    return tqdm.tqdm(total=count, initial=done, unit=" sessions", file=sys.stderr)


class Progress:
    """How many sessions of all are done."""

    def __init__(self, count, done):
        self.count, self.done, self.bar = count, done, bar(count, done)
        self.begin = self.last = time.monotonic()

    def __enter__(self):
        return self

    def __exit__(self, *_):
        if self.bar:
            self.bar.close()

    def add(self, number):
        """So many more are done."""
        self.done += number
        if self.bar:
            self.bar.update(number)
        elif time.monotonic() - self.last >= STEP:
            self.last = time.monotonic()
            tell(f"{self.done} of {self.count} sessions, {self.last - self.begin:.0f} s")
