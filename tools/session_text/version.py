"""Which version this is, and which program it has: its checksum, and whether it is proved."""
import argparse
import hashlib
import json

from . import program
from .faults import Fault
from .files import text, write

VERSION = program.TOP / "VERSION"


def version():
    """The version of this tree."""
    try:
        return VERSION.read_text(encoding="utf-8").strip()
    except OSError as error:
        raise Fault(f"expected a file VERSION that can be read: {error.strerror}") from None


def sha256_of(content):
    """The checksum of bytes."""
    return hashlib.sha256(content).hexdigest()


def sha256(file):
    """The checksum of a file."""
    return sha256_of(file.read_bytes())


def packaged():
    """What an archive says of its program, or None where this is a clone."""
    if not program.PACKAGED.is_file():
        return None
    return json.loads(program.ABOUT.read_text(encoding="utf-8"))


def lines():
    """The version, and what is told of each program that is there."""
    yield f"version {version()}"
    about = packaged()
    if about:
        is_same = sha256(program.PACKAGED) == about["sha256"]
        proved = "proved" if about["proved"] else "not proved: it was built without a proof"
        yield f"program {program.PACKAGED}"
        yield f"  sha256 {sha256(program.PACKAGED)}" + ("" if is_same else ", which isn't the one it was packed with")
        yield f"  {proved if is_same else 'not known'}"
        return
    why = program.want_of_proof()
    if program.PROGRAM.is_file():
        yield f"program {program.PROGRAM}"
        yield f"  sha256 {sha256(program.PROGRAM)}"
        is_proved = "proved: rt builds nothing else there, and it is newer than its sources"
        yield f"  {f'proved, but {why}' if why else is_proved}"
    if program.KEPT.is_file():
        is_current = program.is_kept(program.checksum())
        yield f"program {program.KEPT}"
        yield f"  sha256 {sha256(program.KEPT)}"
        yield "  not proved: it was built without a proof" + ("" if is_current else ", from other sources than these")
    if not program.PROGRAM.is_file() and not program.KEPT.is_file():
        yield "no program is built: tools/begin builds one without a proof, .ci/run the proved one"


class Show(argparse.Action):
    """Shows the version, and ends."""

    def __init__(self, option_strings, dest, **how):
        super().__init__(option_strings, dest, nargs=0, **how)

    def __call__(self, parser, _namespace, _values, _option=None):
        try:
            write(text(lines()))
        except Fault as fault:
            parser.exit(7, f"tools/session: {fault}\n")
        parser.exit(0)
