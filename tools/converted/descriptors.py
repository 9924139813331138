"""The atoms of a descriptor file: what `protoc --include_imports --descriptor_set_out=FILE atoms.proto` writes. Of
each atom the types of its fields and the marks of its states are taken, from the options that Android's
atom_field_options.proto has (told from memory): state_field_option is 50000, a message of primary_field 1,
exclusive_state 2, primary_field_first_uid 3 and trigger_state_reset_value 5; log_mode is 50002, where 2 means bytes."""
import sys
from collections import namedtuple

from session_text.config import records, signed, varint_at
from session_text.faults import Fault

STATE_OPTION, LOG_MODE = 50000, 50002
PRIMARY, EXCLUSIVE, FIRST_UID, RESET_VALUE = 1, 2, 3, 5
MODE_BYTES = 2
ATOM = "Atom"

# The types of fields by their numbers in a descriptor, and the types of entries that they are. A double has none.
TYPES = {
    2: "bits",
    3: "long",
    4: "long",
    5: "int",
    6: "long",
    7: "int",
    8: "bool",
    9: "str",
    12: "raw",
    13: "int",
    14: "int",
}
TYPES |= {15: "int", 16: "long", 17: "int", 18: "long"}
ZIGZAG = (17, 18)
MESSAGE, GROUP, REPEATED = 11, 10, 3

# A field of an atom: its name, its type in a descriptor, the entries' type, whether it is repeated, the fields of a
# message, the marks, the value that resets, and whether the first uid inside of it is a part of the key.
Field = namedtuple("Field", "name type kind is_repeated inner marks reset has_first_uid")


def library():
    """The descriptors of the protobuf library."""
    try:
        from google.protobuf import descriptor_pb2
    except ImportError:
        raise Fault(
            f"expected the protobuf library for {sys.executable} (Debian: python3-protobuf, for /usr/bin/python3)"
        ) from None
    return descriptor_pb2


def numbers_in(content):
    """The numbers of a message by their fields."""
    return {number: varint_at(payload, 0)[0] for number, kind, payload in records(content) if kind == 0}


def options_of(field):
    """The options of a field that matter: those of its state, and its mode."""
    state, mode = {}, None
    for number, kind, payload in records(field.options.SerializeToString()):
        if number == STATE_OPTION and kind == 2:
            state = numbers_in(payload)
        elif number == LOG_MODE and kind == 0:
            mode = varint_at(payload, 0)[0]
    return state, mode


class Atoms:
    """The messages of a descriptor file, and the atoms among them by their ids."""

    def __init__(self, content, name):
        try:
            files = library().FileDescriptorSet.FromString(content)
        except Fault:
            raise
        except Exception as error:  # the library's own kind of fault, by which it tells bytes that are none
            raise Fault(f"{name}: expected a descriptor file as protoc writes it: {error}") from None
        self.messages, self.fields = {}, {}
        for file in files.file:
            for message in file.message_type:
                self.note(f".{file.package}" if file.package else "", message)
        tops = [message for path, message in self.messages.items() if path.rsplit(".", 1)[-1] == ATOM]
        if not tops:
            raise Fault(
                f"{name}: expected a message Atom, as Android's atoms.proto has it; --include_imports may be wanted"
            )
        self.ids = {field.number: field.type_name for top in tops for field in top.field if field.type == MESSAGE}

    def note(self, prefix, message):
        """Notes a message and those in it."""
        path = f"{prefix}.{message.name}"
        self.messages[path] = message
        for inner in message.nested_type:
            self.note(path, inner)

    def of(self, path):
        """The fields of a message by their numbers."""
        if path not in self.fields:
            self.fields[path] = {}
            self.fields[path].update((field.number, self.field(field)) for field in self.messages[path].field)
        return self.fields[path]

    def field(self, field):
        """A field of a message."""
        state, mode = options_of(field)
        marks = [word for number, word in ((EXCLUSIVE, "exclusive"), (PRIMARY, "primary")) if state.get(number)]
        is_message = field.type == MESSAGE and mode != MODE_BYTES
        kind = "raw" if field.type == MESSAGE else TYPES.get(field.type)
        inner = self.of(field.type_name) if is_message and field.type_name in self.messages else None
        reset = signed(state[RESET_VALUE], 32) if RESET_VALUE in state else None
        is_repeated = field.label == REPEATED
        return Field(field.name, field.type, kind, is_repeated, inner, marks, reset, bool(state.get(FIRST_UID)))
