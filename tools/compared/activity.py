"""When a metric is active: what atoms said of its activations."""

SECOND = 10**9


class Activity:
    """The activations of a metric, each with what the last atom said that started or cancelled it."""

    def __init__(self, activations):
        self.last_said = [(activation, None) for activation in activations]

    def tell(self, at, truths):
        """An atom comes: it starts what it doesn't cancel."""
        for place, (activation, _) in enumerate(self.last_said):
            if truths.holds(activation.get("cancel")):
                self.last_said[place] = (activation, None)
            elif truths.holds(activation["start"]):
                self.last_said[place] = (activation, at)

    def is_active(self, at):
        """One was started less than its time ago, or there is none."""
        lasting = [
            started is not None and at - started < activation["ttl"] * SECOND for activation, started in self.last_said
        ]
        return not lasting or any(lasting)
