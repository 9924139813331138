"""Configurations and reports by protoc, which is called as a program."""
import pathlib
import shutil
import subprocess

from .faults import Fault

HERE = pathlib.Path(__file__).resolve().parent
PROTO = HERE.parents[1] / "proto"

# How text in UTF-16 begins.
UTF_16 = (b"\xff\xfe", b"\xfe\xff")

# So many lines of protoc are told, in one.
MOST_TOLD = 3

# So many bytes of reports go to protoc at once, and one report more.
MOST_AT_ONCE = 2**24


def is_here():
    """Protoc can be called."""
    return shutil.which("protoc") is not None


def protoc(how, schema, content, name, folder=PROTO):
    """What protoc makes of some bytes, by a schema in a folder. What it says of its input is said of this name."""
    words = ["protoc", f"--proto_path={folder}", f"--proto_path={HERE}", how, schema]
    try:
        ran = subprocess.run(words, input=content, capture_output=True, check=False)
    except OSError:
        raise Fault(f"{name}: expected a program protoc (Debian: protobuf-compiler), and there is none") from None
    if ran.returncode:
        said = ran.stderr.decode(errors="replace").replace("Failed to parse input.", "").replace("input:", name + ":")
        lines = [line.strip() for line in said.splitlines() if line.strip()][:MOST_TOLD]
        raise Fault(f"{name}: expected what proto/{schema} has; {'; '.join(lines) or 'protoc failed'}")
    return ran.stdout


def encoded(text, name, folder=PROTO):
    """The bytes of a configuration in protobuf text, by the schema of that name in a folder."""
    if text[:2] in UTF_16:
        raise Fault(f"{name}: expected text in UTF-8, and it is UTF-16")
    return protoc("--encode=statsd.profile.StatsdConfig", "statsd_config.proto", text, name, folder)


def varint(value):
    """A number, seven bits a byte."""
    written = []
    while value > 127:
        written.append(value & 127 | 128)
        value >>= 7
    return bytes([*written, value])


def batches(reports):
    """Lists of neighbours, each of which goes to protoc at once."""
    batch, size = [], 0
    for report in reports:
        batch.append(report)
        size += len(report)
        if size > MOST_AT_ONCE:
            yield batch
            batch, size = [], 0
    if batch:
        yield batch


def decoded_at_once(reports):
    """The lines of each report as protobuf text, indented by two: protoc is called once for all."""
    content = b"".join(b"\n" + varint(len(report)) + report for report in reports)
    lines = protoc("--decode=statsd.profile.Reports", "many.proto", content, "report").decode().splitlines()
    ends = [place for place, line in enumerate(lines) if line == "}"]
    begins = [0, *(end + 1 for end in ends[:-1])]
    return [lines[begin + 1 : end] for begin, end in zip(begins, ends)]


def decoded(reports):
    """The lines of each report as protobuf text, indented by two."""
    return [lines for batch in batches(reports) for lines in decoded_at_once(batch)]
