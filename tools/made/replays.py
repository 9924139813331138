"""What replays of long sessions cost."""
import contextlib
import os
import re
import subprocess
import tempfile


class Cost:
    """The processor seconds of a replay, and the most memory that it had, in KB."""

    def __init__(self, seconds, memory):
        self.seconds = seconds
        self.memory = memory


def cost_of(program, word, file, most, out=subprocess.DEVNULL):
    """The cost of one run of a word on a file, or None where it didn't end with the status 0 in so many seconds."""
    with open(file, "rb") as given:
        running = subprocess.Popen(["timeout", str(most), program, word], stdin=given, stdout=out)
        _, status, used = os.wait4(running.pid, 0)
    running.returncode = os.waitstatus_to_exitcode(status)
    return Cost(used.ru_utime + used.ru_stime, used.ru_maxrss) if running.returncode == 0 else None


@contextlib.contextmanager
def written(write, count):
    """A file with a session that is written with this count."""
    with tempfile.TemporaryDirectory() as folder:
        session = os.path.join(folder, "session")
        with open(session, "wb", buffering=1 << 20) as out:
            write(out, count)
        yield session


def instructions_of(program, word, file):
    """The instructions of a run of a word on a file by callgrind, or None where it didn't end with the status 0."""
    words = ["valgrind", "--tool=callgrind", "--callgrind-out-file=/dev/null", program, word]
    with open(file, "rb") as given:
        ran = subprocess.run(words, stdin=given, stdout=subprocess.DEVNULL, stderr=subprocess.PIPE, check=False)
    collected = re.search(rb"Collected : ([0-9]+)", ran.stderr)
    return int(collected[1]) if ran.returncode == 0 and collected else None


def instructions(program, write, count):
    """The instructions of a replay of such a session by callgrind, or None where it didn't end with the status 0."""
    with written(write, count) as session:
        return instructions_of(program, "replay", session)


def least_cost(program, runs, write, count, most=3600):
    """The least cost of some replays of such a session, or None where one didn't end well."""
    with written(write, count) as session:
        return least_of([cost_of(program, "replay", session, most) for _ in range(runs)])


def least_of(costs):
    """The least of some costs, or None where one is."""
    if None in costs:
        return None
    return Cost(min(one.seconds for one in costs), min(one.memory for one in costs))
