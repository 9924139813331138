"""Sessions as devices record them, drawn from a seed: a screen that goes on and off with the day, a plug and a battery,
wakelocks by uid, apps that start, crashes that come in bursts, times of uids that are pulled, and a clock that jumps
where a device was asleep. Android has atoms of these ids and much like these fields; what is drawn is nobody's."""
import math
import random
import struct

from session_text.layout import ATOM, FLAGS, INT, LONG, PULL, STR

from .frames import framed, tick

SECOND = 10**9
HOUR = 3600 * SECOND
DAY = 24 * HOUR

SCREEN, BATTERY, PLUG, LOCK, START, CRASH, CPU_TIME = 29, 30, 31, 10, 48, 78, 10010
ON, OFF = 2, 1
ACQUIRE, RELEASE = 1, 0
FIRST_UID = 10_000
TAGS = (b"sync", b"alarm", b"location", b"media", b"job")
REASONS = (b"java", b"native", b"anr")


def entry(field, kind, packed, flags=0):
    """An entry of an atom: a field with a value that is packed."""
    return bytes([field, 0, 0, flags, kind]) + packed


def number(field, value, flags=0):
    """An entry that is an Int."""
    return entry(field, INT, struct.pack("<i", value), flags)


def long(field, value):
    """An entry that is a Long."""
    return entry(field, LONG, struct.pack("<q", value))


def words(field, content):
    """An entry that is text."""
    return entry(field, STR, struct.pack("<H", len(content)) + content)


def atom(at, atom_id, entries):
    """An atom of the log."""
    return framed(struct.pack("<BQI", ATOM, at, atom_id) + entries)


def pull(at, atoms):
    """A pull of the times of uids."""
    payloads = [struct.pack("<I", CPU_TIME) + entries for entries in atoms]
    told = b"".join(struct.pack("<H", len(one)) + one for one in payloads)
    return framed(struct.pack("<BQIBH", PULL, at, CPU_TIME, 0, len(payloads)) + told)


class Device:
    """A device, which logs one thing after another. Devices differ in how many apps they have and how busy they are."""

    def __init__(self, seed, place):
        self.draw = random.Random(f"{seed} {place}")
        self.at = self.draw.randrange(5, 90) * SECOND
        self.wakes_at = self.draw.randrange(DAY)
        self.busy = self.draw.lognormvariate(0, 0.4)
        self.uids = [FIRST_UID + self.draw.randrange(400) for _ in range(self.draw.randrange(8, 30))]
        self.is_on, self.is_plugged, self.level = False, False, self.draw.randrange(30, 100)
        self.held, self.times = {}, dict.fromkeys(self.uids[:12], 0)
        self.crashes_left, self.crashing = 0, self.uids[0]
        self.pulled_at = self.at

    def is_awake(self):
        """Whether its owner is."""
        return (self.at - self.wakes_at) % DAY < 16 * HOUR

    def wait(self):
        """Lets time go by: less with the screen on and in a burst of crashes, more at night; seldom the clock jumps."""
        mean = 4 if self.is_on or self.crashes_left else 60 if self.is_awake() else 400
        gap = self.draw.expovariate(1 / (mean * SECOND)) / self.busy
        if self.draw.random() < 0.0005:
            gap += self.draw.randrange(1, 12) * HOUR
        self.at += int(gap)
        for uid in self.draw.sample(list(self.times), 2):
            self.times[uid] += int(gap / 10**6 * (0.3 if self.is_on else 0.02))

    def uid(self):
        """An app, of which the first are used most."""
        return self.uids[min(int(self.draw.expovariate(0.25)), len(self.uids) - 1)]

    def screen(self):
        """The screen goes on or off."""
        self.is_on = not self.is_on
        return atom(self.at, SCREEN, number(1, ON if self.is_on else OFF, FLAGS["exclusive"]))

    def plug(self):
        """The plug is put in or out."""
        self.is_plugged = not self.is_plugged
        return atom(self.at, PLUG, number(1, int(self.is_plugged), FLAGS["exclusive"]))

    def battery(self):
        """The battery has another level."""
        self.level = max(1, min(100, self.level + (1 if self.is_plugged else -1)))
        return atom(self.at, BATTERY, number(1, self.level))

    def lock(self):
        """A wakelock is taken, or one that is held is let go."""
        if self.held and self.draw.random() < 0.5:
            uid, tag = self.draw.choice(list(self.held))
            del self.held[uid, tag]
            state = RELEASE
        else:
            uid, tag = self.uid(), self.draw.choice(TAGS)
            self.held[uid, tag] = True
            state = ACQUIRE
        return atom(self.at, LOCK, number(1, uid) + number(2, 1) + words(3, tag) + number(4, state))

    def start(self):
        """An app starts."""
        return atom(self.at, START, number(1, self.uid()) + number(2, self.draw.randrange(80, 2000)))

    def crash(self):
        """An app crashes, and often again and again."""
        if not self.crashes_left:
            self.crashing = self.uid()
            self.crashes_left = self.draw.choice((1, 1, 1, 3, 12))
        self.crashes_left -= 1
        return atom(self.at, CRASH, number(1, self.crashing) + words(2, self.draw.choice(REASONS)))

    def pull(self):
        """The times of uids are pulled."""
        self.pulled_at = self.at
        return pull(self.at, [number(1, uid) + long(2, spent) for uid, spent in sorted(self.times.items())])

    def next(self):
        """What is logged next."""
        self.wait()
        if self.crashes_left:
            return self.crash()
        if self.at - self.pulled_at > HOUR / 2:
            return self.pull()
        weights = {
            self.screen: 8 if self.is_on else 6 if self.is_awake() else 1,
            self.lock: 30,
            self.start: 14 if self.is_on else 1,
            self.battery: 8,
            self.plug: 0.6,
            self.crash: 0.15,
            self.tick: 3,
        }
        return self.draw.choices(list(weights), list(weights.values()))[0]()

    def tick(self):
        """Nothing but that time went by."""
        return tick(self.at)

    def frames(self, count):
        """So many frames, the first of which tell what is so when the log begins."""
        yield self.screen()
        for _ in range(count - 1):
            yield self.next()


def session(seed, place, count):
    """The bytes of the session of one device: so many frames, give or take a half."""
    device = Device(seed, place)
    return b"".join(device.frames(max(1, math.ceil(count * (0.5 + device.draw.random())))))
