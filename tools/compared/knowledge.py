"""What predicates know, and what metrics ask of them."""
from compared.atoms import fields_of
from compared.matching import combined

FALSE, UNKNOWN, TRUE = "false", "unknown", "true"

DEFAULT_BOUND = 800


class Knowledge:
    """What a simple predicate knows: whether keys hold by how often they were started. It begins when its configuration
    is installed, and takes at most so many keys."""

    def __init__(self, predicate, bound):
        self.predicate = predicate
        self.fields = fields_of(predicate.get("dimensions"))
        self.bound = bound
        self.default = UNKNOWN if predicate.get("initial") == 0 else FALSE
        self.is_nesting = predicate.get("nesting", True)
        self.counts = {}
        self.drops = 0

    def append(self, key, count):
        """Adds a key, if it finds room."""
        if len(self.counts) < self.bound:
            self.counts[key] = count
        else:
            self.drops += 1

    def stop(self, key):
        """A stop of a key. One that isn't there is known to be stopped, where nothing was known of it before."""
        if key not in self.counts:
            if self.default == UNKNOWN:
                self.append(key, 0)
            return
        self.counts[key] = max(0, self.counts[key] - 1) if self.is_nesting else 0
        if self.counts[key] == 0 and self.default == FALSE:
            del self.counts[key]

    def start(self, key):
        """A start of a key."""
        if key not in self.counts:
            self.append(key, 1)
        else:
            self.counts[key] = self.counts[key] + 1 if self.is_nesting else 1

    def act(self, truths, atom):
        """The first of a stop of all, a stop and a start whose matcher holds."""
        held = [truths.holds(self.predicate.get(event)) for event in ("stop_all", "stop", "start")]
        key = atom.key(self.fields)
        if held[0]:
            self.default, self.counts = FALSE, {}
        elif held[1]:
            self.stop(key)
        elif held[2]:
            self.start(key)

    def asked(self, wanted):
        """The truth for keys that have these leaves at these places."""
        agreeing = [
            count for key, count in self.counts.items() if all(key[place] == leaf for place, leaf in wanted.items())
        ]
        if len(wanted) == len(self.fields.leaves) and agreeing:
            return TRUE if agreeing[0] > 0 else FALSE
        return TRUE if any(count > 0 for count in agreeing) else self.default


class Predicates:
    """The predicates of a configuration."""

    def __init__(self, predicates):
        self.predicates = {predicate["id"]: predicate for predicate in predicates}
        self.known = {
            one["id"]: Knowledge(one["simple"], one["simple"].get("bound", DEFAULT_BOUND))
            for one in predicates
            if "simple" in one
        }

    def act(self, truths, atom):
        """An atom acts on each of them."""
        for known in self.known.values():
            known.act(truths, atom)

    def truth(self, predicate_id, wanted, found=None):
        """The truth of a predicate, by which leaves are wanted of each simple one. What is unknown below a combination
        makes it unknown. What was found is asked once."""
        found = {} if found is None else found
        if predicate_id not in found:
            if predicate_id in self.known:
                found[predicate_id] = self.known[predicate_id].asked(wanted.get(predicate_id, {}))
            else:
                combination = self.predicates[predicate_id]["combination"]
                truths = [self.truth(child, wanted, found) for child in combination["children"]]
                holds = combined(combination["operation"], [truth == TRUE for truth in truths])
                found[predicate_id] = UNKNOWN if UNKNOWN in truths else TRUE if holds else FALSE
        return found[predicate_id]


class Condition:
    """The condition of a metric, with its links."""

    def __init__(self, metric, predicates):
        self.condition = metric.get("condition")
        self.predicates = predicates
        self.links = []
        for link in metric.get("links", []):
            known = predicates.known[link["condition"]]
            places = [known.fields.leaves.index(leaf) for leaf in fields_of(link["in_condition"]).leaves]
            self.links.append((link["condition"], fields_of(link["in_what"]), places))

    def truth(self, leaves_of):
        """Its truth for an atom or a key that has these leaves in the fields of links; without a condition it is
        true."""
        if self.condition is None:
            return TRUE
        wanted = {predicate: dict(zip(places, leaves_of(fields))) for predicate, fields, places in self.links}
        return self.predicates.truth(self.condition, wanted)

    def is_true(self, leaves_of):
        """It is true for an atom or a key that has these leaves."""
        return self.truth(leaves_of) == TRUE
