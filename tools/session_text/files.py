"""The inputs and outputs of the scripts: files, pipes, and the standard streams."""
import os
import pathlib
import sys

from . import reading
from .faults import Fault
from .told import tell


def called(name):
    """How an input is told of."""
    return "standard input" if name == "-" else name


def content_of(name):
    """The bytes of a file, or of standard input."""
    if name == "-" and sys.stdin is None:
        raise Fault("expected an input on standard input, and that is closed")
    if name == "-" and sys.stdin.isatty():
        tell("reading standard input, to its end (Ctrl-D)")
    try:
        with open(0 if name == "-" else name, "rb") as file:
            return file.read()
    except OSError as error:
        raise Fault(f"expected an input {called(name)} that can be read: {error.strerror}") from None


def bytes_of(name, what, instead):
    """The bytes of an input that are no text. Where they are text it is told what takes that."""
    content = content_of(name)
    if reading.is_text(content):
        raise Fault(f"{called(name)}: expected the bytes of {what}, and it is text{instead}")
    return content


def write_file(content, name):
    """Writes a file, which is there whole or as it was. What is no file, as a device, is written as it is."""
    target, beside = pathlib.Path(name), pathlib.Path(f"{name}.part")
    if target.exists() and not target.is_file():
        target.write_bytes(content)
        return
    try:
        beside.write_bytes(content)
        os.replace(beside, target)
    finally:
        beside.unlink(missing_ok=True)


def write_out(content):
    """Writes bytes to standard output."""
    left = memoryview(content)
    while left:
        left = left[os.write(1, left) :]


def write(content, name=None):
    """Writes bytes to a file, or to standard output where none is named."""
    try:
        if name is None:
            write_out(content)
        else:
            write_file(content, name)
    except OSError as error:
        raise Fault(f"expected an output that can be written: {error}") from None


def is_same(one, other):
    """Two names are of one file."""
    try:
        return os.path.samefile(one, other)
    except OSError:
        return False


def judge_output(name, target):
    """Nothing is written over the file that is read."""
    if target is not None and name != "-" and is_same(name, target):
        raise Fault(f"expected another file to write than {name}, which is read")


def text(lines):
    """Lines as bytes."""
    return "".join(line + "\n" for line in lines).encode()
