"""What was pulled last, from the first frame of a session on."""
from compared.atoms import is_pulled

MOST_IDS = 256


class Pulls:
    """The atoms of the last pull of each id that is kept. The first ids that are pulled are kept, a failed one too."""

    def __init__(self):
        self.last = {}

    def pull(self, atom_id, atoms):
        """A pull comes, with its atoms, or None where it failed."""
        if is_pulled(atom_id) and (atom_id in self.last or len(self.last) < MOST_IDS):
            self.last[atom_id] = atoms

    def snapshot(self, atom_id):
        """The atoms of the last pull of an id; None where it failed, where none came, or where the id isn't kept."""
        return self.last.get(atom_id)
