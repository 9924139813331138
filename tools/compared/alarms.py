"""The alarms of an alert on a count: which arrivals come too often of their key in the last parts of its time."""
from collections import Counter, namedtuple

from session_text.layout import REPORT

from compared.history import guarded, parts_of
from compared.metrics import SECOND
from compared.shown import shown_key
from compared.wire import message, number

# How many alarms between two reports are listed.
MOST_LISTED = 100

# An arrival: the place of its step, its time, how often its key came in the window with it, and the key. One that comes
# too often is an alarm.
Summed = namedtuple("Summed", "place at sum key")


def counted(count):
    """The arrivals of a count part by part, those of each that found room, in order; and nothing of a part without."""
    for part in parts_of(count.config.steps, count.base, count.size):
        admitted, _ = guarded(count.arrivals(part), count.bound)
        yield sorted((one for came in admitted.values() for one in came), key=lambda one: one.place)
        # The parts that come again had no arrivals, and as many as any window has tell as much as all.
        yield from [[]] * min(part.times - 1, 10)


class Alert:
    """An alert. Whatever it watches, what it tells is read from all that came since the installation."""

    def __init__(self, tree, counts):
        self.alert_id, self.count = tree["id"], counts[tree["metric"]]
        self.threshold, self.parts = tree["threshold"], tree["parts"]
        self.refractory = tree.get("refractory", 0) * SECOND

    def sums(self):
        """All arrivals since the installation that found room, with their sums."""
        window = []
        for arrivals in counted(self.count):
            window = [*window, Counter()][-self.parts :]
            for arrival in arrivals:
                window[-1][arrival.key] += 1
                came, at = sum(part[arrival.key] for part in window), self.count.config.steps[arrival.place].at
                yield Summed(arrival.place, at, came, arrival.key)

    def alarms(self):
        """All alarms since the installation."""
        last = None
        for one in self.sums():
            if one.sum > self.threshold and (last is None or one.at >= last + self.refractory):
                last = one.at
                yield one

    def untold(self):
        """Those since the report before the one at the last step."""
        steps = self.count.config.steps
        since = max((place for place, step in enumerate(steps[:-1]) if step.kind == REPORT), default=-1)
        return [alarm for alarm in self.alarms() if alarm.place > since]


def shown_alarms(alerts):
    """The alarms of alerts in a report, and how many aren't listed."""
    listed = unlisted = b""
    for alert in alerts:
        untold = alert.untold()
        for alarm in untold[:MOST_LISTED]:
            told = number(1, alert.alert_id) + number(2, alarm.at) + number(3, alarm.sum)
            listed += message(1004, told + shown_key(alarm.key))
        if len(untold) > MOST_LISTED:
            unlisted += message(1005, number(1, alert.alert_id) + number(2, len(untold) - MOST_LISTED))
    return listed + unlisted
