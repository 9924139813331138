"""tools/session why: what a second reading of the rules says of a session, beside the program's replies."""
from . import commands
from .answering import Program, answered, first_not_well, tell_ending
from .faults import Fault
from .files import text, write
from .reports import read_replies, rows_of
from .told import Seconds, tell

FAULT = 7


def told_of(name, chosen):
    """The lines on a session, and the status of the program."""
    from reasons.telling import lines_of
    from reasons.watching import watched

    one = answered(name, chosen)
    tell_ending(one)
    rows = list(rows_of(read_replies(one.written), commands.commands(one.session)))
    with Seconds("the rules are read once more"):
        return list(lines_of(watched(one.session), rows)), one.status


def why(given):
    """Tells why the metrics of sessions show what they show."""
    names, chosen, statuses = given.files or ["-"], Program(given.program), []
    for name in names:
        try:
            lines, status = told_of(name, chosen)
            write(text([*([f"== {name}"] if len(names) > 1 else []), *lines]))
        except Fault as fault:
            tell(str(fault))
            status = FAULT
        statuses.append(status)
    return first_not_well(statuses)
