"""The tables of a run: a file of SQLite, which CSV and lines of JSON are made of."""
import contextlib
import csv
import functools
import itertools
import json
import os
import pathlib
import sqlite3
import tempfile

from session_text.faults import Fault
from session_text.reports import COLUMNS, alerts_of, metrics_of
from session_text.signals import held

PLAIN = tuple(name for name in COLUMNS if name not in ("key", "states"))
SESSION_COLUMNS = ("session", "status", "fault", "note", "bytes", "from", "to", "seconds")
TABLES = {
    "rows": ("session", *COLUMNS),
    "turned_away": ("session", *PLAIN),
    "alarms": ("session", "reply", "client", "config", "alert", "key", "states", "at", "sum"),
    "sessions": SESSION_COLUMNS,
}

# The columns that each row of a part has of its own, and how many rows of one are added at once.
OWN = ("from", "to", "value")
AT_ONCE = 16

TYPES = {"session": "TEXT NOT NULL", "seconds": "REAL", "value": ""}
TYPES |= dict.fromkeys(("kind", "what", "key", "states", "fault", "note"), "TEXT")

SQLITE, CSV, JSON = ".sqlite", ".csv", ".jsonl"
ENDINGS = {".sqlite": SQLITE, ".db": SQLITE, ".csv": CSV, ".jsonl": JSON, ".json": JSON}


def columns_of(table):
    """The columns of a table as SQL writes them: from and to are words of SQL, and stand in quotes."""
    return ", ".join(f'"{name}"' for name in TABLES[table])


def schema_of_sessions():
    """The tables with what came of sessions, as SQL makes them."""
    for table, names in TABLES.items():
        told = ", ".join(f'"{name}" {TYPES.get(name, "INTEGER")}'.strip() for name in names)
        yield f"CREATE TABLE {table} ({told})"


def schema():
    """All tables as SQL makes them."""
    yield from schema_of_sessions()
    yield "CREATE UNIQUE INDEX sessions_by_name ON sessions (session)"
    yield "CREATE TABLE configs (config INTEGER PRIMARY KEY, file TEXT, content BLOB)"
    yield "CREATE TABLE metrics (config INTEGER, metric INTEGER, kind TEXT, bucket INTEGER)"
    yield "CREATE TABLE alerts (config INTEGER, alert INTEGER, metric INTEGER)"
    yield "CREATE TABLE about (name TEXT PRIMARY KEY, value TEXT)"


@contextlib.contextmanager
def told(name):
    """A fault of a table is one of its file."""
    try:
        yield
    except sqlite3.Error as error:
        raise Fault(f"{name}: expected tables that can be read and written: {error}") from None


def tables_of(results, room):
    """The tables of results, as the bytes of a file of SQLite, which a store takes as a whole. It stands in a folder
    meanwhile."""
    with tempfile.NamedTemporaryFile(dir=room, suffix=SQLITE) as file, told(file.name):
        with contextlib.closing(sqlite3.connect(file.name, isolation_level=None)) as tables:
            tables.execute("PRAGMA journal_mode = OFF")
            tables.execute("PRAGMA synchronous = OFF")
            tables.execute("BEGIN")
            for line in schema_of_sessions():
                tables.execute(line)
            for one in results:
                for shared, cells in one.rows:
                    add_part(tables, shared, cells)
                tables.executemany(insert("turned_away"), one.turned_away)
                tables.executemany(insert("alarms"), one.alarms)
                tables.execute(insert("sessions"), one[: len(SESSION_COLUMNS)])
            tables.execute("COMMIT")
        return file.read()


class Store:
    """The tables of a run while it goes on. Each lot of sessions is there whole or not."""

    def __init__(self, name, about, configs, client, goes_on):
        self.name, self.target, self.how = name, pathlib.Path(name), how_of(name)
        self.file = self.target if self.how == SQLITE else self.target.with_name(self.target.name + ".part.sqlite")
        self.about = about
        is_there = self.file.exists() or self.target.exists()
        if is_there and not goes_on:
            raise Fault(f"{name} is there already: --resume goes on with it, and --out names another file")
        if goes_on and not self.file.exists():
            raise Fault(f"{name}: expected a run that was stopped, and there is none to go on with")
        with told(name):
            self.tables = sqlite3.connect(self.file, timeout=1, isolation_level=None)
            self.tables.execute("PRAGMA locking_mode = EXCLUSIVE")
            self.tables.execute("BEGIN EXCLUSIVE")
            if goes_on:
                self.judge_same()
            else:
                self.make(configs, client)
            self.tables.execute("COMMIT")

    def make(self, configs, client):
        """Makes the tables."""
        for line in schema():
            self.tables.execute(line)
        self.tables.executemany("INSERT INTO about VALUES (?, ?)", self.about.items())
        for number, (file, content) in enumerate(configs, 1):
            self.tables.execute("INSERT INTO configs VALUES (?, ?, ?)", (number, file, content))
            told_of = [(number, *one) for one in metrics_of(content, client)]
            self.tables.executemany("INSERT INTO metrics VALUES (?, ?, ?, ?)", told_of)
            watching = [(number, *one) for one in alerts_of(content)]
            self.tables.executemany("INSERT INTO alerts VALUES (?, ?, ?)", watching)

    def judge_same(self):
        """A run goes on as it began, or not at all."""
        found = dict(self.tables.execute("SELECT name, value FROM about"))
        for name, value in self.about.items():
            if found.get(name) != value:
                raise Fault(f"{self.name}: expected a run with the same {name}: {found.get(name)}, and not {value}")

    def names(self):
        """The sessions that are done."""
        return {name for name, in self.tables.execute("SELECT session FROM sessions")}

    @contextlib.contextmanager
    def attached(self, content, name):
        """Tables of sessions beside these, by a name."""
        with tempfile.NamedTemporaryFile(suffix=SQLITE) as file:
            file.write(content)
            file.flush()
            self.tables.execute(f"ATTACH ? AS {name}", (file.name,))
            try:
                yield name
            finally:
                self.tables.execute(f"DETACH {name}")

    def add(self, lots):
        """Adds lots of sessions, all or none. A signal that comes meanwhile is one at the end of this."""
        with told(self.name), held(), contextlib.ExitStack() as beside:
            names = [
                beside.enter_context(self.attached(lot.tables, f"lot{number}")) for number, lot in enumerate(lots)
            ]
            self.tables.execute("BEGIN")
            try:
                for name, table in itertools.product(names, TABLES):
                    self.tables.execute(f"INSERT INTO main.{table} SELECT * FROM {name}.{table}")
                self.tables.execute("COMMIT")
            except BaseException:
                self.tables.execute("ROLLBACK")
                raise

    def counts(self):
        """How many sessions there are, how many of them didn't end well, how many rows, numbers turned away and alarms."""
        ask = "SELECT (SELECT count(*) FROM sessions), (SELECT count(fault) FROM sessions),"
        ask += " (SELECT count(*) FROM rows), (SELECT count(*) FROM turned_away), (SELECT count(*) FROM alarms)"
        return self.tables.execute(ask).fetchone()

    def finish(self):
        """Ends the run: where other files were asked for, they are written in the order of the sessions' names."""
        if self.how != SQLITE:
            with told(self.name):
                for table in TABLES:
                    self.tables.execute(f"CREATE INDEX IF NOT EXISTS {table}_by_session ON {table} (session)")
                    self.write(table)
            self.close()
            self.file.unlink()

    def write(self, table):
        """Writes a table as a file, the rows with the name that was asked for and the others beside it."""
        stem = "" if table == "rows" else f".{table}"
        target = self.target.with_name(f"{self.target.stem}{stem}{self.target.suffix}")
        names = TABLES[table]
        found = self.tables.execute(f"SELECT {columns_of(table)} FROM {table} ORDER BY session, rowid")
        beside = target.with_name(f"{target.name}.part")
        with open(beside, "w", encoding="utf-8", errors="surrogateescape", newline="") as out:
            if self.how == CSV:
                writer = csv.writer(out, lineterminator="\n")
                writer.writerow(names)
                writer.writerows(found)
            else:
                out.writelines(json.dumps(dict(zip(names, one))) + "\n" for one in found)
        os.replace(beside, target)

    def close(self):
        """Lets go of the file."""
        self.tables.close()


def insert(table):
    """How a line of a table is added."""
    return f"INSERT INTO {table} VALUES ({', '.join('?' * len(TABLES[table]))})"


@functools.lru_cache(maxsize=None)
def insert_rows(count):
    """How so many rows of a part are added: what they share is given once, and then what each has of its own."""
    shared, own = ", ".join("?" * (len(TABLES["rows"]) - len(OWN))), ", ".join("?" * len(OWN))
    return f"INSERT INTO rows SELECT {shared}, * FROM (VALUES {', '.join([f'({own})'] * count)})"


def add_part(tables, shared, cells):
    """Adds the rows of a part. Several at once cost a third less than one by one."""
    for first in range(0, len(cells), AT_ONCE):
        some = cells[first : first + AT_ONCE]
        tables.execute(insert_rows(len(some)), (*shared, *itertools.chain.from_iterable(some)))


def how_of(name):
    """How a file is written, by its ending."""
    ending = pathlib.Path(name).suffix
    if ending not in ENDINGS:
        raise Fault(f"{name}: expected an ending of {', '.join(ENDINGS)}")
    return ENDINGS[ending]
