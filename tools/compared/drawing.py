"""Random sessions, with the replies that they must have."""
import struct

from session_text.layout import ATOM, BITS, BOOL, INSTALL, INT, LONG, PULL, RAW, REMOVE, REPORT, STR, TICK

from compared.alarms import MOST_LISTED
from compared.atoms import EXCLUSIVE, PRIMARY, RESET, Atom, Entry, Value
from compared.balance import unbalanced
from compared.drawn_config import (
    ATOM_IDS,
    FIELDS,
    FIRST_N,
    INNER,
    MANY_IDS,
    MANY_PULLED,
    NUMBERS,
    PULLED_IDS,
    REPEATED,
    SECONDS,
    STATES,
    DrawnConfig,
    Sleeper,
)
from compared.faulty import draw_tree
from compared.history import MOST_WEIGHT
from compared.kinds import KINDS, LISTED
from compared.pulls import MOST_IDS as MOST_PULLED
from compared.sessions import CLEAN, Session, checked_line, next_frame, replies
from compared.states import MOST_IDS, MOST_KEYS
from compared.trees import MESSAGES, encoded
from compared.wire import framed, message, number

SECOND, MILLISECOND = 10**9, 10**6

OTHER_VALUES = (
    Value(LONG, 1),
    Value(LONG, -(2**63)),
    Value(LONG, 2**63 - 1),
    Value(BOOL, 1),
    Value(STR, b"a"),
    Value(STR, b""),
    Value(RAW, b"\0\xff"),
    Value(BITS, 0x7FC00000),
)


def plain(field, number, flags=0):
    """An entry of a plain field with an Int."""
    return Entry(field, 0, 0, flags, Value(INT, number))


def draw_value(random):
    """A value, mostly a small Int."""
    return Value(INT, random.choice(NUMBERS)) if random.random() < 0.92 else random.choice(OTHER_VALUES)


def draw_flags(random, entries):
    """Plain entries with flags: mostly one of them tells a state, and others may be its key."""
    if not entries or random.random() < 0.4:
        return entries
    told = random.randrange(len(entries))
    number = random.choice(STATES if random.random() < 0.2 else NUMBERS)
    flags = EXCLUSIVE | random.choice([0] * 8 + [PRIMARY, RESET])
    others = [one._replace(flags=PRIMARY) if random.random() < 0.4 else one for one in entries]
    return [*others[:told], plain(entries[told].field, number, flags), *others[told + 1 :]]


def draw_atom(random, atom_id):
    """An atom of an id."""
    entries = [Entry(field, 0, 0, 0, draw_value(random)) for field in FIELDS if random.random() < 0.85]
    entries = draw_flags(random, entries)
    for index in random.sample(range(1, 5), random.choice([0, 0, 1, 2])):
        subs = random.choice([[0], [0], [INNER], [0, INNER, INNER + 1]])
        entries += [Entry(REPEATED, index, sub, 0, draw_value(random)) for sub in subs]
    return Atom(atom_id, entries)


def pull_body(atom_id, atoms):
    """The body of a pull of these atoms."""
    payloads = [atom.payload() for atom in atoms]
    counted = b"".join(struct.pack("<H", len(payload)) + payload for payload in payloads)
    return struct.pack("<IBH", atom_id, 0, len(payloads)) + counted


class Drawn:
    """A session so far, and its replies."""

    # Of what ids its frames are, and which clients have which configurations.
    atom_ids, pulled_ids = ATOM_IDS, PULLED_IDS
    clients, configs = (10, 10, 20, 30), DrawnConfig

    def __init__(self, random):
        self.random = random
        self.now = 0
        self.answers = Session()
        self.session, self.replies = [], []

    def frame(self, body):
        """A frame comes, and is answered."""
        content = framed(body)
        frame, _ = next_frame(content)
        self.session.append(content)
        self.replies.append(self.answers.step(frame))

    def command(self, kind, client, body=b""):
        """A command of a client."""
        self.frame(struct.pack("<Biq", kind, *client) + body)

    def config(self):
        """A configuration that is taken mostly; now and then one that may have faults."""
        drawn = self.random.random()
        if drawn < 0.03:
            return draw_tree(self.random)
        return self.configs(self.random, KINDS).tree

    def begin(self):
        """The log begins, mostly with an install."""
        for _ in range(self.random.choice([0, 0, 3])):
            self.log()
        self.install((10, 1))

    def install(self, client):
        """An install of some configuration."""
        self.command(INSTALL, client, encoded("config", self.config()))

    def report(self, client, is_cut):
        """A report, of what is there or isn't."""
        self.command(REPORT, client, bytes([is_cut]))

    def pass_time(self):
        """Time passes, or doesn't; now and then just up to a whole second, where buckets end."""
        drawn = self.random.random()
        if drawn < 0.15:
            self.now = (self.now // SECOND + self.random.randint(1, 2)) * SECOND
        elif drawn < 0.17:
            self.now += self.random.randint(1, 400) * SECOND
        elif drawn < 0.75:
            self.now += self.random.randint(0, 700) * MILLISECOND

    def log(self):
        """A frame of the log: a tick, a pull, or an atom."""
        self.pass_time()
        drawn = self.random.random()
        if drawn < 0.12:
            self.logged(TICK, b"")
        elif drawn < 0.3:
            self.logged(PULL, self.pulled())
        else:
            self.logged(ATOM, self.atom())

    def atom(self):
        """The payload of an atom, mostly of an id that isn't pulled."""
        ids = self.atom_ids if self.random.random() < 0.95 else self.pulled_ids
        return draw_atom(self.random, self.random.choice(ids)).payload()

    def logged(self, kind, body):
        """A frame of the log, now."""
        self.frame(struct.pack("<BQ", kind, self.now) + body)

    def pulled(self):
        """The body of a pull that failed, or of one with some atoms."""
        atom_id = self.random.choice([*self.pulled_ids, *self.pulled_ids, self.atom_ids[0]])
        if self.random.random() < 0.12:
            return struct.pack("<IB", atom_id, 1)
        count = self.random.choice([0, 1, 1, 2, 3, 5])
        return pull_body(atom_id, [draw_atom(self.random, atom_id) for _ in range(count)])

    def jump(self):
        """Time passes for about as many seconds as a report has rows, or for many more."""
        self.now += self.random.choice([4_000, 9_000, 17_000, 2**31]) * SECOND
        self.logged(TICK, b"")

    def many_ids(self):
        """State atoms of about as many ids as are kept."""
        for atom_id in range(100, 100 + MOST_IDS + self.random.randint(-3, 3)):
            self.logged(ATOM, Atom(atom_id, [plain(1, 1, EXCLUSIVE)]).payload())

    def many_pulls(self):
        """Failed pulls of about as many ids as are kept."""
        for atom_id in range(20_000, 20_000 + MOST_PULLED + self.random.randint(-3, 1)):
            self.logged(PULL, struct.pack("<IB", atom_id, 1))

    def many_samples(self):
        """A gauge with samples of a few keys in each second, over as many seconds as a report has about room for."""
        client, count = (20, 2), self.random.randint(2, 6)
        gauge = {"id": 1, "what": 1, "dimensions": {"field": PULLED_IDS[0], "children": [{"field": FIELDS[0]}]}}
        gauge.update(filter={"include_all": True}, bucket=SECONDS, sampling=FIRST_N, samples=self.random.randint(1, 4))
        matcher = {"id": 1, "simple": {"atom_id": PULLED_IDS[0]}}
        self.command(INSTALL, client, encoded("config", {"gauges": [gauge], "matchers": [matcher]}))
        atoms = [draw_atom(self.random, PULLED_IDS[0]) for _ in range(count)]
        self.logged(PULL, pull_body(PULLED_IDS[0], atoms))
        self.now += (MOST_WEIGHT // count + self.random.randint(-3, 3_000)) * SECOND
        self.logged(TICK, b"")
        self.report(client, self.random.random() < 0.5)

    def many_atoms(self):
        """Events and samples of some atoms in each second, over as many seconds as a report has about room for."""
        client, count = (20, 2), self.random.randint(90, 100)
        matcher = {"id": 1, "simple": {"atom_id": ATOM_IDS[0]}}
        gauge = {"id": 1, "what": 1, "filter": {"include_all": True}, "bucket": SECONDS, "sampling": FIRST_N}
        gauge.update(samples=self.random.randint(95, 100), bound=self.random.choice([1, 2, 163]))
        tree = {"gauges": [gauge], "events": [{"id": 2, "what": 1}], "matchers": [matcher]}
        self.command(INSTALL, client, encoded("config", tree))
        for _ in range(MOST_WEIGHT // count + self.random.randint(-1, 2)):
            self.now += SECOND
            for _ in range(count):
                self.logged(ATOM, Atom(ATOM_IDS[0], [plain(FIELDS[0], 1)]).payload())
        self.now += SECOND
        self.logged(TICK, b"")
        self.report(client, self.random.random() < 0.5)

    def many_alarms(self):
        """Atoms each of which sets off an alarm, about as many as a report lists, over several reports."""
        client = self.client()
        matcher = {"id": 1, "simple": {"atom_id": ATOM_IDS[0]}}
        dimensions = {"field": ATOM_IDS[0], "children": [{"field": FIELDS[0]}]}
        count = {"id": 1, "what": 1, "dimensions": dimensions, "bucket": SECONDS}
        count.update(bound=self.random.choice([1, 2, 3]))
        watching = {"metric": 1, "parts": self.random.choice([1, 3])}
        alerts = [{"id": 2, "threshold": 0, **watching}, {"id": 1, "threshold": 90, **watching}]
        tree = {"matchers": [matcher], "counts": [count], "alerts": alerts, "no_report": self.random.choice([[], [1]])}
        self.command(INSTALL, client, encoded("config", tree))
        for _ in range(self.random.choice([1, 2, 3])):
            for _ in range(MOST_LISTED + self.random.randint(-3, 5)):
                self.now += self.random.choice([0, 0, 0, SECOND // 100])
                self.logged(ATOM, Atom(ATOM_IDS[0], [plain(FIELDS[0], self.random.choice(NUMBERS))]).payload())
            self.report(client, self.random.random() < 0.5)

    def many_keys(self):
        """State atoms of one id with about as many keys as are kept, and a reset among the last of them."""
        atom_id = self.random.choice(ATOM_IDS)
        keys = MOST_KEYS + self.random.randint(-5, 5)
        reset = keys - self.random.randint(1, 20)
        for key in range(keys):
            told = EXCLUSIVE | RESET if key == reset else EXCLUSIVE
            self.logged(ATOM, Atom(atom_id, [plain(1, key, PRIMARY), plain(2, 1, told)]).payload())

    def client(self):
        """A client, and the id of a configuration."""
        return self.random.choice(self.clients), self.random.choice([1, 1, 2])

    def step(self):
        """A command, or a frame of the log."""
        client = self.client()
        drawn = self.random.random()
        if drawn < 0.02:
            self.install(client)
        elif drawn < 0.025:
            self.command(REMOVE, client)
        elif drawn < 0.12:
            self.report(client, self.random.random() < 0.5)
        elif drawn < 0.1202:
            self.many_alarms()
        elif drawn < 0.1205:
            self.many_ids()
        elif drawn < 0.1207:
            self.many_pulls()
        elif drawn < 0.12085:
            self.many_keys()
        elif drawn < 0.1211:
            self.many_samples()
        elif drawn < 0.1212:
            self.many_atoms()
        else:
            self.log()


class Sleeping(Drawn):
    """A session of many clients whose configurations hear few ids, over silences, and with frames where buckets end."""

    atom_ids, pulled_ids = MANY_IDS, MANY_PULLED
    clients, configs = range(10, 70, 10), Sleeper

    def begin(self):
        """Some clients install what sleeps."""
        for client in self.random.sample(self.clients, self.random.randint(3, 6)):
            self.install((client, 1))

    def client(self):
        """Mostly one that is live."""
        live = list(self.answers.live)
        return self.random.choice(live) if live and self.random.random() < 0.6 else super().client()

    def install(self, client):
        """An install, mostly where a second ends, so that buckets end with others."""
        if self.random.random() < 0.7:
            self.end_second(1)
        super().install(client)

    def end_second(self, seconds):
        """So many seconds end. At the very end of the last one some frames come, mostly a pull among others."""
        self.now = (self.now // SECOND + seconds) * SECOND
        for _ in range(self.random.choice([1, 1, 2, 2, 3])):
            kind = self.random.choice([TICK, PULL, PULL, PULL, ATOM])
            self.logged(kind, self.pulled() if kind == PULL else self.atom() if kind == ATOM else b"")
            if self.random.random() < 0.15:
                self.report(self.client(), self.random.random() < 0.3)

    def step(self):
        """A command, a frame of the log, a silence, or what comes where a second ends."""
        drawn = self.random.random()
        if drawn < 0.06:
            self.install(self.client())
        elif drawn < 0.08:
            self.command(REMOVE, self.client())
        elif drawn < 0.2:
            self.report(self.client(), self.random.random() < 0.4)
        elif drawn < 0.45:
            self.end_second(self.random.choice([1, 1, 1, 2, 5, 60]))
        elif drawn < 0.46:
            self.end_second(self.random.choice([400, 2_000, 4_000]))
        else:
            self.log()


def mangled(random, content):
    """Bytes of which a few are changed, put in or left out, or of which the end is missing."""
    changed = bytearray(content)
    for _ in range(random.choice([1, 1, 2, 5])):
        at = random.randrange(len(changed) + 1)
        changed[at : at + random.choice([0, 1, 1, 1])] = random.choice([b"", random.randbytes(1), b"\0", b"\xff"])
    return bytes(changed[: random.randrange(len(changed) + 1)] if random.random() < 0.1 else changed)


def draw_mangled(random):
    """A session of which one in ten is mangled, what it is answered, and its status."""
    content, answered, status = draw(random)
    if random.random() < 0.1:
        content = mangled(random, content)
        answered, status, _ = replies(content)
    return content, answered, status


# Fields of this project's own: an activation of a metric, and an alert.
ACTIVATION, ALERT = 1010, 1011


def with_own(random, content):
    """The bytes of a configuration with one more metric, which asks for an overflow row or has an activation, whatever its
    kind; or with one more alert, which may be none."""
    drawn = random.choice([0, 1, 2])
    if drawn == 0:
        return content + message(ALERT, random.choice([b"", number(1, 1), b"\xff"]))
    own = number(MESSAGES["count"]["overflow"].number, random.choice([0, 1, 2]))
    if drawn == 1:
        own = random.choice([message(ACTIVATION, number(1, 1) + number(2, 1)), number(ACTIVATION, 1)])
    field = MESSAGES["config"][random.choice(LISTED)].number
    return content + message(field, number(1, 2**40) + own)


def draw_check(random):
    """The bytes of a configuration, some of which are mangled, the line that `check` writes of it, and the status."""
    content = encoded("config", draw_tree(random))
    drawn = random.random()
    if drawn < 0.2:
        content = mangled(random, content)
    elif drawn < 0.25:
        content = with_own(random, content)
    line = checked_line(content)
    return content, line.encode(), 0 if line.startswith("ok ") else 1


def draw(random, kind=None):
    """A session, its replies and its status: some clients, and a last report of all that is live; of one of the two
    kinds, or of the one that is asked for."""
    kind = kind or (Sleeping if random.random() < 0.3 else Drawn)
    drawn = kind(random)
    drawn.begin()
    for _ in range(random.randint(20, 120)):
        drawn.step()
    if random.random() < 0.08:
        drawn.jump()
    for client, instance in drawn.answers.live.items():
        drawn.report(client, True)
        if unbalanced(instance):
            raise AssertionError(f"the books of the metrics {unbalanced(instance)} of {client} don't balance")
    return b"".join(drawn.session), b"".join(drawn.replies), CLEAN
