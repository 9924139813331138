"""The numbers of frames, values and flags. docs/SESSION.md has them as tables."""

TICK, ATOM, PULL, INSTALL, REMOVE, REPORT = 1, 2, 3, 16, 17, 18

INT, LONG, BOOL, STR, RAW, BITS = 1, 2, 3, 4, 5, 6
TYPES = {"int": INT, "long": LONG, "bool": BOOL, "str": STR, "raw": RAW, "bits": BITS}

FLAGS = {"exclusive": 1, "primary": 2, "reset": 4}

INSTALLED, REFUSED, NO_CONFIG, REPORTED, CLIENT_FULL, REPLACED, REMOVED = 1, 3, 5, 6, 7, 8, 9
TOO_LARGE, WIRE, UNSUPPORTED, LINK = 1, 2, 3, 4
