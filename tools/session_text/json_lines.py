"""tools/session show, and run --json: reports, and replies, as lines of JSON. A report stands in them as the program's word
`show` writes it, byte for byte."""
import json

from . import program
from .answering import Program, answered, first_not_well, is_replies, tell_ending
from .faults import Fault
from .files import bytes_of, called, text, write
from .reading import Cursor
from .replies import refusal
from .reports import read_replies
from .told import tell

FAULT = 7


class NotShown(Exception):
    """The program doesn't show a report: what it notes, and its status."""

    def __init__(self, ran):
        super().__init__(ran.note)
        self.lines, self.status = ran.note.splitlines(), ran.status


def report_json(report, chosen):
    """The JSON of a report's bytes."""
    ran = program.run(["show"], report, chosen())
    if ran.status != 0:
        raise NotShown(ran)
    return ran.written.decode().rstrip("\n")


def reply_json(reply, chosen):
    """One reply as a line: whose it is, its name, and a report, why a configuration was refused, or how many are live."""
    told = {"client": reply.client, "config": reply.config, "reply": reply.kind}
    if reply.kind == "refused":
        told["refused"] = refusal(Cursor(reply.body), None)[0]
    elif reply.kind == "client_full":
        told["live"] = Cursor(reply.body).number("I")
    line = json.dumps(told, separators=(",", ":"))
    return line if reply.report is None else f'{line[:-1]},"report":{report_json(reply.report, chosen)}}}'


def reports_in(name):
    """The bytes of the report that a file is, or of each report among the replies that it has."""
    content = bytes_of(name, "a report, or of replies", "; tools/session run --json takes a session")
    return [one.report for one in read_replies(content) if one.report is not None] if is_replies(content) else [content]


def write_shown(name, chosen):
    """Writes the JSON of each report in a file, a line each."""
    for report in reports_in(name):
        write(text([report_json(report, chosen)]))
    return 0


def write_replies(name, chosen):
    """Has a session answered and writes its replies, a line each."""
    one = answered(name, chosen)
    for reply in read_replies(one.written):
        write(text([reply_json(reply, chosen)]))
    tell_ending(one)
    return one.status


def each(given, write_one):
    """Writes what there is of each file. One with a fault is told of, and the others go on."""
    chosen, statuses = Program(given.program), []
    for name in given.files or ["-"]:
        try:
            status = write_one(name, chosen)
        except Fault as fault:
            tell(str(fault))
            status = FAULT
        except NotShown as refused:
            for line in refused.lines:
                tell(f"{called(name)}: {line}")
            status = refused.status
        statuses.append(status)
    return first_not_well(statuses)


def show(given):
    """Writes the JSON of reports."""
    return each(given, write_shown)


def run_json(given):
    """Writes the replies to sessions as JSON."""
    return each(given, write_replies)
