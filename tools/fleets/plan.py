"""What is done with each session of a run, as processes and other machines are told it."""
from collections import namedtuple

# The configurations as bytes, and of each what it calls the leaves of the keys of its metrics; the client that installs
# them, or None for one that a session doesn't have; the nanoseconds between reports, or None; whether the commands of
# others are left out; the seconds that a session may take, or None; the program; and a folder for files of a while.
Plan = namedtuple("Plan", "configs leaves uid every is_alone limit program room")

# What came of a session: its name, the status, what was wrong with it in words (None where it ended well), the
# program's note, how many bytes it has, the times of its first frame of the log and of its end, the seconds that it
# took, and its rows, numbers that were turned away and alarms, as tables have them. Rows come in parts, as those of one
# key: the columns that all rows of a part have, and the others of each.
Result = namedtuple("Result", "session status fault note bytes begin to seconds rows turned_away alarms")

# What came of some sessions: their names, and their tables as the bytes of a file of SQLite.
Lot = namedtuple("Lot", "sessions tables")
