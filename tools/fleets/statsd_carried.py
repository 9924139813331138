"""What a worker of a cluster begins with: the scripts and the program come as an archive, which each process of a
worker unpacks once. Nothing else of the repository is named here, since only this file is sent as a module."""
import io
import os
import sys
import tarfile
import tempfile
import threading

# The archive that was unpacked here, by its checksum, and its folder, which goes with the process.
UNPACKED = {}
ONE_AT_A_TIME = threading.Lock()
PREFIX = "statsd-fleet-"
PACKAGES = ("fleets", "session_text", "compared")


def forget():
    """Forgets the scripts of another archive, as a run of before has sent it."""
    sys.path[:] = [place for place in sys.path if PREFIX not in place]
    for name in [name for name in sys.modules if name.partition(".")[0] in PACKAGES]:
        del sys.modules[name]
    UNPACKED.clear()


def folder_of(archive, checksum):
    """The folder of an archive's files."""
    with ONE_AT_A_TIME:
        if checksum not in UNPACKED:
            forget()
            room = tempfile.TemporaryDirectory(prefix=PREFIX)
            with tarfile.open(fileobj=io.BytesIO(archive)) as files:
                files.extractall(room.name)
            UNPACKED[checksum] = room
            sys.path.insert(0, os.path.join(room.name, "tools"))
        return UNPACKED[checksum].name


def answered(names, plan, archive, checksum):
    """What comes of sessions, as a plain tuple. The plan comes as one, too, without a program and a folder."""
    folder = folder_of(archive, checksum)
    from fleets.answering import answered_all
    from fleets.plan import Plan

    whole = Plan(*plan)._replace(program=os.path.join(folder, "bin", "statsd"), room=folder)
    return tuple(answered_all(names, whole))
