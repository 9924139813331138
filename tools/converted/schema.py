"""The schema of a table: what its columns are. It is a small file with sections, as a .ini has them:

    [session]
    time = elapsed_ms          the column of the time
    unit = ms                  ns (where nothing is said), us, ms, s; or date, for times as 2026-11-30T08:00:00.25Z
    clock = elapsed            the device's own clock since it began (where nothing is said); or wall: then the first
                               row's time is 0, or the one that zero names
    zero = 2026-11-30T08:00:00Z
    falls = split              where time falls: a new session begins (where nothing is said); or refuse; or hold, which
                               gives the row the time of the one before it
    atom = kind                the column of the atom's id, where there are several sections of atoms
    separator = tab            a character, or tab; a comma where nothing is said
    install = 10 1 config.txtpb     what is installed first, and reported with a cut at the end; it may be left out

    [atom 48]                  what a row is: an atom of this id, which is logged
    1 = uid int                a field, its column, its type (int, long, bool, str, raw, bits, float), and marks
    2 = state int exclusive
    3[1].2 = tag str primary

    [pull 10010]               or an atom that was pulled: neighbours of one time are one pull
    1 = uid int
"""
import configparser
import re
import shlex
from collections import namedtuple

from session_text.faults import Fault
from session_text.layout import FLAGS
from session_text.tables import wall_nanos

from converted.lines import FALLS, SPLIT

UNITS = {"ns": 1, "us": 10**3, "ms": 10**6, "s": 10**9}
DATE = "date"
ELAPSED, WALL = CLOCKS = ("elapsed", "wall")
TYPES = ("int", "long", "bool", "str", "raw", "bits", "float")
PLACE = re.compile(r"[0-9]{1,3}(\[[0-9]{1,3}\])?(\.[0-9]{1,3})?")
KIND = re.compile(r"(atom|pull) +([0-9]{1,10})")
SETTINGS = ("time", "unit", "clock", "zero", "falls", "atom", "separator", "install")

# A field: its place in the atom, its column, its type and marks.
Field = namedtuple("Field", "place column type marks")
# What a row is: atom or pull, its id, and its fields.
Kind = namedtuple("Kind", "word atom_id fields")
# A schema whole. `kinds` are by their ids.
Schema = namedtuple("Schema", "time unit clock zero falls atom separator install kinds")


def one_of(name, value, words):
    """A setting that is one of some words."""
    if value not in words:
        raise Fault(f"{name}: expected one of {', '.join(words)}; got {value!r}")
    return value


def field_of(place, said):
    """A field, from its place and what is said of it."""
    if not PLACE.fullmatch(place):
        raise Fault(f"{place}: expected a field as 1 or 3[1].2")
    try:
        column, kind, *marks = shlex.split(said)
    except ValueError:
        raise Fault(f"{place}: expected a column, a type and marks; got {said!r}") from None
    one_of(f"{place}: type", kind, TYPES)
    for mark in marks:
        one_of(f"{place}: mark", mark, tuple(FLAGS))
    return Field(place, column, kind, tuple(marks))


def order(field):
    """Where an entry stands in its atom: by field, index and sub."""
    numbers = re.fullmatch(r"(\d+)(?:\[(\d+)\])?(?:\.(\d+))?", field.place)
    return [int(number or 0) for number in numbers.groups()]


def kinds_of(parser):
    """The kinds of rows."""
    found = {}
    for name in parser.sections():
        if name == "session":
            continue
        kind = KIND.fullmatch(name)
        if not kind:
            raise Fault(f"[{name}]: expected [session], [atom ID] or [pull ID]")
        fields = sorted((field_of(*item) for item in parser[name].items()), key=order)
        found[int(kind[2])] = Kind(kind[1], int(kind[2]), fields)
    if not found:
        raise Fault("expected a section [atom ID] or [pull ID]")
    return found


def install_of(said):
    """What is installed and reported: the lines before and after the log."""
    if said is None:
        return (), ()
    words = shlex.split(said)
    if len(words) != 3:
        raise Fault(f"install: expected a client, an id and a configuration; got {said!r}")
    return (f"install {said}",), (f"report {words[0]} {words[1]} cut",)


def separator_of(word):
    """A separator of columns."""
    found = {"tab": "\t", "comma": ",", "semicolon": ";"}.get(word, word)
    if len(found) != 1:
        raise Fault(f"separator: expected one character, or tab; got {word!r}")
    return found


def schema_in(text):
    """The schema that a text is."""
    parser = configparser.ConfigParser(interpolation=None, delimiters=("=",), inline_comment_prefixes=("#", ";"))
    parser.optionxform = str
    try:
        parser.read_string(text)
    except configparser.Error as error:
        raise Fault(str(error).replace("\n", " ").replace("<string>", "the schema")) from None
    said = dict(parser["session"]) if parser.has_section("session") else {}
    for name in said:
        one_of("[session]", name, SETTINGS)
    if "time" not in said:
        raise Fault("[session]: expected time, the name of the column of the time")
    kinds = kinds_of(parser)
    if len(kinds) > 1 and "atom" not in said:
        raise Fault("[session]: expected atom, the column of the atom's id, since there are several kinds of rows")
    return Schema(
        said["time"],
        one_of("unit", said.get("unit", "ns"), (*UNITS, DATE)),
        one_of("clock", said.get("clock", WALL if said.get("unit") == DATE else ELAPSED), CLOCKS),
        wall_nanos(said["zero"]) if "zero" in said else None,
        one_of("falls", said.get("falls", SPLIT), FALLS),
        said.get("atom"),
        separator_of(said.get("separator", ",")),
        install_of(said.get("install")),
        kinds,
    )
