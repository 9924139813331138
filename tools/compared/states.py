"""What atoms told of states, from the first frame of a session on: the rules read once more, the plain way."""
from compared.atoms import RESET

MOST_IDS, MOST_KEYS = 256, 3000

# The state of what was never told, and after a reset.
NOT_TOLD = -1


class States:
    """The states by the ids of atoms and by keys, whoever asks for them."""

    def __init__(self):
        self.told = {}
        self.drops = {}
        self.dropped_atoms = 0

    def atom(self, atom):
        """An atom comes, which may tell a state."""
        if atom.told() is None:
            return
        flags, number = atom.told()
        if atom.atom_id not in self.told and len(self.told) == MOST_IDS:
            self.dropped_atoms += 1
            return
        keys = self.told.setdefault(atom.atom_id, {})
        if flags & RESET:
            self.told[atom.atom_id] = {key: NOT_TOLD for key in keys}
        elif atom.primary() in keys or len(keys) < MOST_KEYS:
            keys[atom.primary()] = number
        else:
            self.drops[atom.atom_id] = self.drops.get(atom.atom_id, 0) + 1

    def state(self, atom_id, key):
        """The state of a key."""
        return self.told.get(atom_id, {}).get(key, NOT_TOLD)


def shown_state(state, told):
    """A state as a metric is sliced by it: the first group that lists it, or the state itself."""
    if "map" not in state:
        return state["atom_id"], None, told
    for group in state["map"].get("groups", []):
        if told in group.get("numbers", []):
            return state["atom_id"], group.get("group", 0), None
    return state["atom_id"], None, NOT_TOLD
