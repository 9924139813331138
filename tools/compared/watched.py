"""Sessions in which activations, the windows of alerts, and alarms that wait for a report hold much."""
from session_text.layout import INSTALL

from compared.drawing import Drawn
from compared.drawn_config import FIELDS, NUMBERS, SECONDS, DrawnConfig
from compared.kinds import COUNTS
from compared.trees import encoded


class Watcher(DrawnConfig):
    """A configuration whose counts are mostly active, and have alerts that ring soon."""

    def activation(self):
        """What makes a metric active: an atom of any number, for long."""
        start = self.new_matcher(self.random.choice(self.atom_ids), FIELDS[0], self.random.choice(NUMBERS))
        return {"start": start, "ttl": self.random.choice([60, 1_000_000])}

    def active(self):
        """The activations of a metric: one at least."""
        return {"activations": [self.activation() for _ in range(self.random.choice([1, 2, 3, 8]))]}

    def count(self):
        """A count of any atoms of an id, in seconds or hours."""
        matcher_id = self.new_matcher(self.random.choice(self.atom_ids), FIELDS[0], 1)
        self.matchers[-1]["simple"]["tests"] = []
        bucket = {"bucket": self.random.choice([SECONDS, 5])}
        return {**super().count(), "what": matcher_id, "condition": None, "links": [], **bucket, **self.active()}

    def alert(self, watched):
        """An alert that rings at once, over parts that tell much."""
        parts = self.random.choice([1, 3, 10])
        return {"metric": self.random.choice(watched), "threshold": self.random.choice([0, 1]), "parts": parts}


class Watching(Drawn):
    """A session whose first client installs such a configuration, and seldom asks for a report."""

    configs = Watcher

    def begin(self):
        """The log begins, with an install."""
        tree = Watcher(self.random, [COUNTS]).tree
        for listed in [tree, *tree[COUNTS]]:
            for name in [name for name, value in listed.items() if value is None]:
                del listed[name]
        self.command(INSTALL, (20, 3), encoded("config", tree))
        for _ in range(self.random.randint(10, 40)):
            self.log()
