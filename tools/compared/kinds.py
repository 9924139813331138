"""The kinds of metrics. Values and gauges are of two kinds each: those of logged atoms, and those of atoms that are
pulled."""
from compared.atoms import is_pulled

# As a configuration lists them.
EVENTS, COUNTS, VALUES, GAUGES, DURATIONS = LISTED = ("events", "counts", "values", "gauges", "durations")

# Those of a configuration whose atoms are pulled.
PULLED = {VALUES: "pulled values", GAUGES: "pulled gauges"}

KINDS = (EVENTS, COUNTS, VALUES, PULLED[VALUES], GAUGES, PULLED[GAUGES], DURATIONS)


def is_of_pulled(matcher):
    """A matcher is a simple one of atoms that are pulled."""
    return is_pulled(matcher.get("simple", {}).get("atom_id", 0))
