"""tools/session save and resume: a session that is cut in two.

What the program saves of a session stands in a file, byte for byte, and which program saved it in a file beside that. A
saved form means something to that program alone, which can't tell by the bytes whose they are."""
import os
import pathlib
from collections import namedtuple

from . import program
from .answering import packed_lines, shown_lines
from .faults import Fault
from .files import content_of, judge_output, text, write
from .version import sha256, sha256_of

# What is kept beside a saved form: the checksum of the program, and that of the form.
Kept = namedtuple("Kept", "program form")


def beside(name):
    """The file that says which program saved a form."""
    return f"{name}.program"


def names(given):
    """The name of a saved form, and that of a session."""
    name, session = [*given.files, "-"][:2]
    if name == "-":
        raise Fault("expected the name of a file to keep a saved form in, got -")
    return name, session


def written(kept):
    """What is kept, as text."""
    return text(f"{field} {value}" for field, value in kept._asdict().items())


def kept_of(name):
    """What is kept beside a saved form."""
    if not os.path.exists(beside(name)):
        raise Fault(f"expected {beside(name)}, which says which program saved {name}, and there is none")
    words = content_of(beside(name)).decode(errors="replace").split()
    if words[::2] != list(Kept._fields):
        raise Fault(f"{beside(name)}: expected the checksums of a program and of a form")
    return Kept(*words[1::2])


def form_of(name, chosen):
    """A saved form, which this program saved."""
    form, kept, own = content_of(name), kept_of(name), sha256(pathlib.Path(chosen))
    if kept.form != sha256_of(form):
        raise Fault(f"{name} was changed since it was saved: its checksum isn't the one in {beside(name)}")
    if kept.program != own:
        raise Fault(
            f"{name} was saved by the program with the checksum {kept.program}, and {chosen} has {own}; a saved form"
            " means something to its own program alone, so take that one (--program FILE), or save again"
        )
    return form


def ended(lines, status):
    """Shows what came of a run, and its status."""
    write(text([*lines, f"status {status}"]))
    return status


def save(given):
    """Has the program serve a session, and keeps what it saves of it. Where it saves nothing, what was kept stays."""
    name, session = names(given)
    for target in (name, beside(name)):
        judge_output(session, target)
    lines, chosen = packed_lines(session), program.chosen(given.program)
    own, ran = sha256(pathlib.Path(chosen)), program.run(["save"], b"".join(lines), chosen)
    if ran.status != 0:
        return ended(shown_lines(ran._replace(written=b""), lines), ran.status)
    write(ran.written, name)
    write(written(Kept(own, sha256_of(ran.written))), beside(name))
    return ended([f"saved {len(ran.written)} bytes"], ran.status)


def resume(given):
    """Has the program go on from a saved form with a further session."""
    name, session = names(given)
    lines, chosen = packed_lines(session), program.chosen(given.program)
    ran = program.run(["resume"], form_of(name, chosen) + b"".join(lines), chosen)
    return ended(shown_lines(ran, lines), ran.status)
