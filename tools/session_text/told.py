"""What is told beside what is asked for, on standard error."""
import os
import sys
import threading
import time

CALLED = os.path.abspath(sys.argv[0] or "session")
IS_TOOL = os.path.dirname(CALLED) == os.path.dirname(os.path.dirname(os.path.abspath(__file__)))
# What speaks: a script of this folder, or a program of people who import this.
NAME = ("tools/" if IS_TOOL else "") + os.path.basename(CALLED)
# Where nobody watches, long work is told of at these steps.
STEP = 30


def tell(line):
    """Says something, where somebody can hear it."""
    if sys.stderr is not None:
        print(f"{NAME}: {line}", file=sys.stderr, flush=True)


class Seconds:
    """Shows how many seconds something takes: on a terminal from the third on, and else twice a minute."""

    def __init__(self, what):
        self.what, self.is_done, self.begin = what, threading.Event(), time.monotonic()
        self.thread = threading.Thread(target=self.show, daemon=True)

    def __enter__(self):
        self.thread.start()
        return self

    def __exit__(self, *_):
        self.is_done.set()
        self.thread.join()

    def show(self):
        """Shows the seconds until all is done."""
        is_watched, is_shown = sys.stderr is not None and sys.stderr.isatty(), False
        while not self.is_done.wait(1):
            seconds = round(time.monotonic() - self.begin)
            if is_watched and seconds >= 3:
                print(f"\r{NAME}: {self.what}: {seconds} s ", end="", file=sys.stderr, flush=True)
                is_shown = True
            elif not is_watched and seconds % STEP == 0:
                tell(f"{self.what}: {seconds} s")
        if is_shown:
            print("\r\x1b[K", end="", file=sys.stderr, flush=True)
