"""The program: the proved one, if it is built, or else one without a proof, which is built once and kept."""
import contextlib
import fcntl
import hashlib
import json
import os
import pathlib
import shutil
import subprocess
import tempfile
import time
from collections import namedtuple

from .faults import Fault
from .signals import held, pipes_may_break
from .told import Seconds, tell

TOP = pathlib.Path(__file__).resolve().parents[2]
CRATE = TOP / "crates" / "statsd"
PROGRAM = CRATE / "out" / "statsd"

# The program of an archive, and what is said of it there.
PACKAGED = TOP / "bin" / "statsd"
ABOUT = PACKAGED.with_name("statsd.json")

# The program without a proof, and the checksum of the sources that it was made from.
KEPT = TOP / "out" / "unproved" / "statsd"
MADE_FROM = KEPT.with_name("statsd.sources")

# A session of so many ticks keeps a program at work for a second or two while it is copied.
TICKS = 20_000
TICK = bytes.fromhex("09000000" "01" "0000000000000000")

# The greatest status of a program that ended by itself.
MOST_STATUS = 8

# What a run wrote, what it noted on standard error, and its status.
Run = namedtuple("Run", "written note status")


def crates_of(name):
    """The repository's crates that a crate stands on, and itself."""
    lines = (TOP / "crates.txt").read_text(encoding="utf-8").splitlines()
    rows = dict(line.split(":", 1) for line in lines if ":" in line and not line.startswith("#"))
    found, left = set(), [name]
    while left:
        crate = left.pop()
        if crate in rows and crate not in found:
            found.add(crate)
            left += rows[crate].split()
    return found


def sources(*parts):
    """The files of these folders of the program's crates, in a fixed order."""
    folders = [TOP / "crates" / crate / part for crate in sorted(crates_of("statsd")) for part in parts]
    files = [file for folder in folders for file in sorted(folder.rglob("*")) if file.is_file()]
    return [TOP / "crates.txt", *files]


def checksum():
    """The checksum of all that a program without a proof is made from: the code, and which crates stand on which."""
    made = hashlib.sha256()
    for file in sources("src"):
        content = file.read_bytes()
        made.update(f"{file.relative_to(TOP)} {len(content)}\n".encode() + content)
    return made.hexdigest()


def want_of_proof():
    """Why the proved program isn't taken, or None."""
    if not PROGRAM.is_file():
        return "no proved program is built (.ci/run builds it)"
    made = PROGRAM.stat().st_mtime
    newer = [file for file in sources("src", "specs", "proofs") if file.stat().st_mtime > made]
    return f"the proved program is older than {newer[0].relative_to(TOP)}" if newer else None


def is_kept(wanted):
    """Whether the program that is kept was made from the sources of this checksum."""
    return KEPT.is_file() and MADE_FROM.is_file() and MADE_FROM.read_text(encoding="utf-8") == wanted


@contextlib.contextmanager
def started(words, **how):
    """A program at work. It is ended with this, also where this is interrupted. An interrupt of the terminal comes
    to this alone, so that a program which has others at work hears of it by being ended, and ends these."""
    ran = None
    try:
        with held():
            ran = subprocess.Popen(words, start_new_session=True, **how)
        yield ran
    finally:
        if ran and ran.poll() is None:
            ran.terminate()
            ran.wait()


def answered(program, words, content):
    """What a program answers to some input."""
    try:
        pipes = {"stdin": subprocess.PIPE, "stdout": subprocess.PIPE, "stderr": subprocess.PIPE}
        with pipes_may_break(), started([program, *words], **pipes) as ran, Seconds("the program is at work"):
            written, note = ran.communicate(content)
    except OSError as error:
        raise Fault(f"expected a program at {program}: {error.strerror}") from None
    return Run(written, note.decode(errors="replace"), ran.returncode)


def checked(ran, program):
    """A run that ended by itself. A program that was stopped has another status; one without a proof also stops where
    it would do what a proof excludes."""
    if 0 <= ran.status <= MOST_STATUS:
        return ran
    said = [line for line in ran.note.splitlines() if line.isprintable() and line.strip()]
    raise Fault(f"{program} stopped with status {ran.status}: {said[-1][:200] if said else 'it says nothing'}")


def take_program(room, made):
    """Copies the program that rt try runs in a folder below this one, if it is there and whole: it answers a check."""
    for file in room.glob("*/*/program"):
        try:
            shutil.copyfile(file, made)
            made.chmod(0o755)
            if answered(made, ["check"], b"") == Run(b"ok 0 0 0 0\n", "", 0):
                return True
        except (OSError, Fault):  # it is gone again, or not there whole yet
            pass
    return False


def why_not(said):
    """What rt says where it didn't build the program, as far as it is text."""
    lines = [line for line in said.decode(errors="replace").splitlines() if line.isprintable() and line.strip()]
    return "\n".join(line[:200] for line in lines[-12:])


def build(room, made):
    """Has rt try build the program and run it on ticks, and copies it while it runs."""
    cases = room / "cases"
    cases.mkdir()
    (cases / "ticks").write_bytes(TICK * TICKS)
    log = room / "log"
    is_taken = False
    with open(log, "wb") as told:
        streams = {"stdin": subprocess.DEVNULL, "stdout": subprocess.DEVNULL, "stderr": told}
        words = ["rt", "try", "--cases", str(cases), "--", "replay"]
        try:
            with started(words, cwd=CRATE, env={**os.environ, "TMPDIR": str(room)}, **streams) as ran:
                while ran.poll() is None and not is_taken:
                    is_taken = take_program(room, made)
                    time.sleep(0.02)
        except OSError:
            raise Fault("expected the toolchain's command rt on the path, and there is none") from None
    if not is_taken:
        raise Fault(f"expected rt try to build the program; it says\n{why_not(log.read_bytes())}")


def keep_program():
    """Builds the program without a proof, and keeps it."""
    try:
        build_once()
    except OSError as error:
        name = KEPT.parent.relative_to(TOP)
        raise Fault(
            f"expected a folder {name} that can be written, to keep a program in: {error.strerror};"
            " --program FILE takes a built one"
        ) from None


def build_once():
    """Builds the program without a proof, unless somebody else has just done it."""
    KEPT.parent.mkdir(parents=True, exist_ok=True)
    with open(KEPT.with_name("lock"), "wb") as lock:
        with Seconds("another run is building the program"):
            fcntl.flock(lock, fcntl.LOCK_EX)
        wanted = checksum()
        if is_kept(wanted):
            return
        made = KEPT.with_suffix(".part")
        with tempfile.TemporaryDirectory(prefix="statsd-unproved-") as room, Seconds("rt builds the program"):
            build(pathlib.Path(room), made)
        MADE_FROM.unlink(missing_ok=True)
        made.replace(KEPT)
        if checksum() == wanted:
            MADE_FROM.write_text(wanted, encoding="utf-8")


def unproved(why):
    """The program without a proof. Says once that it is one, and whether it has to be built first."""
    name = KEPT.relative_to(TOP)
    if is_kept(checksum()):
        tell(f"{why}: {name} answers, which is built from these sources without a proof")
        return KEPT
    tell(f"{why}: rt builds one from the sources without a proof, once, in some minutes, and {name} keeps it")
    keep_program()
    return KEPT


def want_of(program):
    """That there is no program in a place, and how to get one."""
    name = KEPT.relative_to(TOP)
    return (
        f"no program at {program}: .ci/run builds the proved one, and {name} is one without a proof, where"
        " tools/session run has kept it"
    )


def packaged():
    """The program of an archive. Says that it isn't proved, where it isn't."""
    if not json.loads(ABOUT.read_text(encoding="utf-8"))["proved"]:
        tell("the program of this archive answers, which was built without a proof")
    return PACKAGED


def chosen(program=None):
    """The program to run: the one that is given, that of the archive, the proved one, or one without a proof."""
    if program:
        given = os.path.abspath(program)
        if not (os.path.isfile(given) and os.access(given, os.X_OK)):
            raise Fault(f"expected a program at {given}, and there is none that can be run")
        return given
    if PACKAGED.is_file():
        return packaged()
    why = want_of_proof()
    return unproved(why) if why else PROGRAM


def run(words, content, program):
    """Runs a program on these words and this input."""
    return checked(answered(program, words, content), program)
