"""Many sessions side by side: on the processors of this machine, or on a cluster that Dask runs."""
import concurrent.futures
import contextlib
import functools
import gc
import hashlib
import importlib.util
import io
import itertools
import multiprocessing
import pathlib
import signal
import sys
import tarfile
from concurrent.futures.process import BrokenProcessPool

from session_text.faults import Fault

from .answering import FAULT, answered_all, end_at_once
from .plan import Lot, Result
from .tables import tables_of

# So many sessions go to a process at once at most, and so many such lots wait for each processor.
LOT = 32
AHEAD = 3
# A session whose process died is tried so often in all.
TRIES = 3

TOP = pathlib.Path(__file__).resolve().parents[2]
# How a scheduler tells that the workers died which had something at work.
GIVEN_UP = "KilledWorker"
# What a worker of a cluster is sent: a module, and an archive that it unpacks.
CARRIED = TOP / "tools" / "fleets" / "statsd_carried.py"
PARTS = ("tools/fleets", "tools/session_text", "tools/compared", "proto")


def lots_of(names, size):
    """The sessions in lots."""
    names = iter(names)
    while lot := list(itertools.islice(names, size)):
        yield lot


def lot_size(count, workers):
    """How many sessions a lot has, which is less where there are few."""
    return max(1, min(LOT, count // (4 * workers)))


def begin_worker():
    """How a process begins: an interrupt of the terminal comes to the one that has it at work, which then ends it; and
    nothing is looked for that can be let go of, since rows let go by themselves."""
    gc.disable()
    signal.signal(signal.SIGINT, signal.SIG_IGN)
    signal.signal(signal.SIGTERM, end_at_once)


def dead(names, plan):
    """What comes of sessions whose process died again and again."""
    fault = f"its process died, {TRIES} times"
    results = (Result(name, FAULT, fault, None, None, None, None, None, [], [], []) for name in names)
    return Lot(names, tables_of(results, plan.room))


def windowed(submit, lots, most):
    """Has lots done, so many at once at most, so that no more of them wait. Gives their futures as they end."""
    waiting = set()
    for lot in itertools.chain(lots, [None]):
        if lot is not None:
            waiting.add(submit(lot))
        while waiting and (lot is None or len(waiting) >= most):
            done, waiting = concurrent.futures.wait(waiting, return_when=concurrent.futures.FIRST_COMPLETED)
            yield from done


class Pool:
    """Processes of this machine, which take lots. Where one died, others take its place, and the lots that were there
    have no result."""

    def __init__(self, plan, workers):
        self.plan, self.workers, self.pool = plan, workers, None
        self.renew()

    def renew(self):
        """Begins with new processes."""
        if self.pool:
            self.pool.shutdown(wait=False)
        self.pool = concurrent.futures.ProcessPoolExecutor(self.workers, initializer=begin_worker)

    def submit(self, lot):
        """Has a lot done."""
        try:
            return self.pool.submit(answered_all, lot, self.plan)
        except BrokenProcessPool:
            self.renew()
            return self.pool.submit(answered_all, lot, self.plan)

    def done(self, lots, most):
        """What comes of lots."""
        for future in windowed(self.submit, lots, most):
            with contextlib.suppress(BrokenProcessPool):
                yield future.result()

    def __enter__(self):
        return self

    def __exit__(self, kind, *_):
        self.pool.shutdown(wait=kind is None, cancel_futures=True)
        for process in multiprocessing.active_children() if kind else ():
            process.terminate()


class Round:
    """Sessions in lots of a size by so many processes, for each of which so many lots wait."""

    def __init__(self, plan, size, workers, ahead):
        self.plan, self.size, self.workers, self.ahead = plan, size, workers, ahead

    def __call__(self, names):
        with Pool(self.plan, self.workers) as pool:
            yield from pool.done(lots_of(names, self.size), self.workers * self.ahead)


def tried(names, plan, rounds):
    """What comes of all sessions by some rounds, in lots. A round does what those before have nothing of, since a
    process died."""
    left = dict.fromkeys(names)
    for one_round in rounds:
        if left:
            for lot in one_round(list(left)):
                for name in lot.sessions:
                    del left[name]
                yield lot
    if left:
        yield dead(list(left), plan)


def on_processors(names, plan, workers):
    """What comes of all sessions by processes of this machine: in lots; where a process died each session of these by
    itself; and last one after the other, so that none is told for another one."""
    size = lot_size(len(names), workers)
    rounds = (Round(plan, size, workers, AHEAD), Round(plan, 1, workers, 1), Round(plan, 1, 1, 1))
    yield from tried(names, plan, rounds)


def library():
    """The library of a cluster."""
    try:
        import distributed
    except ImportError:
        raise Fault("expected the library distributed (Debian: python3-distributed) for --scheduler") from None
    return distributed


def archive(built):
    """The scripts and the program as an archive, for the workers of a cluster."""
    packed = io.BytesIO()
    with tarfile.open(fileobj=packed, mode="w:gz") as files:
        files.add(built, "bin/statsd")
        for part in PARTS:
            for file in sorted((TOP / part).rglob("*")):
                if file.suffix in (".py", ".proto"):
                    files.add(file, str(file.relative_to(TOP)))
    return packed.getvalue()


def carried():
    """The module that workers are sent, by the name that it has there."""
    if CARRIED.stem not in sys.modules:
        spec = importlib.util.spec_from_file_location(CARRIED.stem, CARRIED)
        module = sys.modules[CARRIED.stem] = importlib.util.module_from_spec(spec)
        spec.loader.exec_module(module)
    return sys.modules[CARRIED.stem]


def submitted(client, told, lot):
    """Has a lot done by a worker of a cluster."""
    return client.submit(carried().answered, lot, *told, pure=False)


def by_cluster(lots, submit, running, most):
    """What comes of lots by the workers of a cluster. Of a lot that is given up there nothing does."""
    waiting = 0
    for lot in itertools.chain(lots, [None]):
        if lot is not None:
            running.add(submit(lot))
            waiting += 1
        while waiting and (lot is None or waiting >= most):
            future = next(running)
            waiting -= 1
            if future.status == "finished":
                yield Lot(*future.result())
            elif future.status == "error" and type(future.exception()).__name__ != GIVEN_UP:
                raise Fault(f"a worker of the cluster failed: {future.exception()!r}")


def on_cluster(names, plan, address):
    """What comes of all sessions by the workers of a Dask scheduler, to which the program goes once. What a worker had
    at work that died is done by another."""
    distributed = library()
    try:
        client = distributed.Client(address, timeout=10, set_as_default=False)
    except (OSError, ValueError) as error:
        raise Fault(f"expected a scheduler at {address}: {error}") from None
    with client:
        client.wait_for_workers(1)
        workers = sum(client.nthreads().values())
        client.upload_file(str(CARRIED))
        content = archive(plan.program)
        sent = client.scatter(content, broadcast=True)
        told = (tuple(plan._replace(program=None, room=None)), sent, hashlib.sha256(content).hexdigest())
        running = distributed.as_completed(loop=client.loop)

        submit = functools.partial(submitted, client, told)

        def one_round(size):
            """Sessions in lots of a size."""
            return lambda left: by_cluster(lots_of(left, size), submit, running, AHEAD * workers)

        yield from tried(names, plan, [one_round(lot_size(len(names), workers)), *[one_round(1)] * (TRIES - 1)])
