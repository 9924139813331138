"""From text to bytes: a session's lines, and configurations."""
import os
import re
import struct
from collections import namedtuple

from . import spelled
from .android import encoded
from .faults import Fault, column_of, echo, shown, within
from .layout import ATOM, BITS, BOOL, FLAGS, INSTALL, INT, LONG, PULL, RAW, REMOVE, REPORT, STR, TICK, TYPES
from .reading import is_text, without_mark
from .words import QUOTED, hex_of, number_of, string_of, time_of, words_of

ENTRY = re.compile(r"([0-9]+)(?:\[([0-9]+)\])?(?:\.([0-9]+))?=([a-z]+):(.*)", re.DOTALL)
# What is no space in a session, and is one where bytes are split.
OTHER_SPACE = re.compile(rb"[\v\f]")
VALUE = re.compile(rf'({QUOTED}|[^",]*)((?:,[^",]*)*)', re.DOTALL)


def counted(content, what):
    """Bytes with their number in front."""
    if len(content) >= 2**16:
        raise Fault(f"{what}: expected at most 65535 bytes, got {len(content)}")
    return struct.pack("<H", len(content)) + content


def bool_byte(word):
    """The byte of a Bool."""
    if word not in ("true", "false"):
        raise Fault(f"bool: expected true or false, got {echo(word)}")
    return bytes([word == "true"])


VALUES = {
    INT: lambda word: struct.pack("<i", number_of(word, -(2**31), 2**31 - 1, "int")),
    LONG: lambda word: struct.pack("<q", number_of(word, -(2**63), 2**63 - 1, "long")),
    BOOL: bool_byte,
    STR: lambda word: counted(string_of(word), "str"),
    RAW: lambda word: counted(hex_of(word, "raw"), "raw"),
    BITS: lambda word: struct.pack("<I", number_of(word, 0, 2**32 - 1, "bits")),
}


def value_and_flags(text):
    """A value's word, and the sum of the flags that follow it after commas."""
    found = VALUE.fullmatch(text)
    if not found:
        raise Fault(f"entry: expected a value, and then flags after commas; got {shown(text)}")
    flags = found[2].split(",")[1:]
    if set(flags) - set(FLAGS):
        raise Fault(f"flags: expected some of {', '.join(FLAGS)}; got {echo(','.join(flags))}")
    return found[1], sum(FLAGS[flag] for flag in set(flags))


def entry_bytes(word):
    """An entry of an atom, as 1=int:5, 2[1].3=str:"a" or 1=int:2,exclusive."""
    with within(word):
        content = bytes_of_entry(word)
    spelled.learn(word, content)
    return content


def bytes_of_entry(word):
    """The bytes of an entry."""
    found = ENTRY.fullmatch(word)
    if not found or found[4] not in TYPES:
        raise Fault(f"entry: expected FIELD[INDEX].SUB=TYPE:VALUE with a type of {', '.join(TYPES)}; got {echo(word)}")
    place = [number_of(found[at] or "0", 0, 255, what) for at, what in ((1, "field"), (2, "index"), (3, "sub"))]
    kind = TYPES[found[4]]
    value, flags = value_and_flags(found[5])
    return bytes([*place, flags, kind]) + VALUES[kind](value)


def id_of(word):
    """The id of an atom."""
    return number_of(word, 0, 2**32 - 1, "atom id")


def payload_bytes(atom_id, words):
    """The payload of an atom with these entries."""
    return struct.pack("<I", atom_id) + b"".join(map(entry_bytes, words))


def atoms_of(words, atom_id):
    """The payloads of a pull: each atom begins with the word atom, or with atom:ID where it has another id."""
    atoms = []
    for word in words:
        name, colon, other = word.partition(":")
        if name == "atom":
            atoms.append((id_of(other) if colon else atom_id, []))
        elif atoms:
            atoms[-1][1].append(word)
        else:
            raise Fault(f"pull: expected failed alone, or atom before the entries; got {echo(word)}", column_of(word))
    return [payload_bytes(*atom) for atom in atoms]


def is_pipe(name):
    """Whether a name is that of something that is there and no file or folder, as a shell's <(..) is."""
    return os.path.exists(name) and not os.path.isfile(name) and not os.path.isdir(name)


def config_in(content, name):
    """The configuration that is the content of a pipe: protobuf text where it is text, and else bytes."""
    return encoded(without_mark(content), name) if is_text(content) else content


def config_file(name, folder):
    """The configuration in a file of protobuf text (.txtpb), of bytes (.pb) or of hexadecimal (.hex)."""
    ending = os.path.splitext(name)[1]
    if ending not in (".txtpb", ".pb", ".hex"):
        raise Fault(f"configuration: expected a file .txtpb, .pb or .hex; got {echo(name)}")
    try:
        with open(os.path.join(folder, name), "rb") as file:
            content = file.read()
    except OSError as error:
        place, why = os.path.abspath(folder or "."), error.strerror
        raise Fault(f"configuration: expected a file {shown(name)} in {place} that can be read: {why}") from None
    if ending == ".txtpb":
        return encoded(without_mark(content), name)
    if is_text(content) and ending == ".pb":
        raise Fault(f"configuration: expected bytes in {name}, and it is text; text is taken as a file .txtpb")
    if ending == ".hex":
        return hex_of("".join(content.decode("ascii", "replace").split()), name)
    return content


def config_bytes(word, folder):
    """A configuration: hex:BYTES, or a file, whose name is a string where it has spaces."""
    with within(word):
        if word.startswith("hex:"):
            return hex_of(word[4:], "configuration")
        return config_file(os.fsdecode(string_of(word)) if word.startswith('"') else word, folder)


def client_bytes(words):
    """A client's uid and the id of its configuration."""
    uid = number_of(words[0], -(2**31), 2**31 - 1, "client")
    return struct.pack("<iq", uid, number_of(words[1], -(2**63), 2**63 - 1, "configuration id"))


def time_bytes(word):
    """A time."""
    return struct.pack("<Q", time_of(word))


def tick_body(words, _folder):
    """The body of a Tick."""
    return time_bytes(words[0])


def atom_body(words, _folder):
    """The body of an Atom."""
    return time_bytes(words[0]) + payload_bytes(id_of(words[1]), words[2:])


def pull_body(words, _folder):
    """The body of a Pull."""
    atom_id = id_of(words[1])
    head = time_bytes(words[0]) + struct.pack("<I", atom_id)
    if words[2:] == ["failed"]:
        return head + b"\1"
    atoms = atoms_of(words[2:], atom_id)
    if len(atoms) >= 2**16:
        raise Fault(f"pull: expected at most 65535 atoms, got {len(atoms)}")
    return head + struct.pack("<BH", 0, len(atoms)) + b"".join(counted(atom, "atom") for atom in atoms)


def install_body(words, folder):
    """The body of an Install."""
    return client_bytes(words) + config_bytes(words[2], folder)


def remove_body(words, _folder):
    """The body of a Remove."""
    return client_bytes(words)


def report_body(words, _folder):
    """The body of a Report."""
    if words[2:] not in ([], ["cut"]):
        raise Fault(f"report: expected cut or nothing after the id; got {echo(words[2])}", column_of(words[2]))
    return client_bytes(words) + bytes([len(words) > 2])


# How a line looks, how many words it has after its name, and the kind and body of its frame.
Line = namedtuple("Line", "looks least most kind body")
MANY = float("inf")
LINES = {
    "tick": Line("tick TIME", 1, 1, TICK, tick_body),
    "atom": Line("atom TIME ID ENTRY ..", 2, MANY, ATOM, atom_body),
    "pull": Line("pull TIME ID failed, or pull TIME ID atom ENTRY .. atom ENTRY ..", 2, MANY, PULL, pull_body),
    "install": Line("install CLIENT ID CONFIGURATION", 3, 3, INSTALL, install_body),
    "remove": Line("remove CLIENT ID", 2, 2, REMOVE, remove_body),
    "report": Line("report CLIENT ID, or report CLIENT ID cut", 2, 3, REPORT, report_body),
}


def frame_bytes(name, words, folder):
    """The bytes of a frame, from the words of its line."""
    if name not in LINES:
        raise Fault(f"expected a line of {', '.join(LINES)} or bytes; got {echo(name)}", column_of(name))
    line = LINES[name]
    if not line.least <= len(words) <= line.most:
        raise Fault(f"expected {line.looks}; got {shown(' '.join([name, *words]))}", column_of(name))
    body = line.body(words, folder)
    return struct.pack("<IB", len(body) + 1, line.kind) + body


def line_bytes(line, folder):
    """The bytes of one line: a frame, bytes that may be no frame, or nothing."""
    name, *words = words_of(line) or [""]
    if name == "bytes" and words:
        return hex_of("".join(words), "bytes")
    return frame_bytes(name, words, folder) if name else b""


def text_of(line):
    """A line as text."""
    try:
        return line.decode()
    except UnicodeDecodeError as error:
        byte, column = line[error.start], len(line[: error.start].decode()) + 1
        said = rf"expected text in UTF-8, got the byte 0x{byte:02x}; in a string it is \x{byte:02x}"
        raise Fault(said, column) from None


def pack_lines(content, folder, name):
    """The bytes of each line of a session in text. A fault names the line, and the column where it is known."""
    if b"\0" in content:
        raise Fault(f"{name}: expected a session in text, and it is bytes; tools/session unpack shows them as text")
    usual = spelled.line_bytes if not OTHER_SPACE.search(content) else lambda _line: None
    parts = []
    for number, line in enumerate(without_mark(content).split(b"\n"), 1):
        packed = usual(line)
        if packed is None:
            packed = unusual_line(line, folder, name, number)
        parts.append(packed)
    return parts


def unusual_line(line, folder, name, number):
    """The bytes of any line, at its number. A fault tells the place."""
    try:
        return line_bytes(text_of(line), folder)
    except Fault as fault:
        place = f"{number}:{fault.column}" if fault.column else number
        raise Fault(f"{name}:{place}: {fault}") from None


def pack(content, folder, name):
    """The bytes of a session in text."""
    return b"".join(pack_lines(content, folder, name))
