"""tools/session rows: the reports of sessions, or of replies, as a table."""
from . import commands
from .answering import Program, answered, first_not_well, is_replies, tell_ending
from .faults import Fault
from .files import content_of, text, write
from .reports import read_replies, rows_of
from .tables import Table, wall_nanos
from .told import tell

FAULT = 7


def rows_in(name, chosen):
    """The rows of a file of replies, or of the replies to a session, and the status."""
    if name != "-":
        content = content_of(name)
        if is_replies(content):
            return rows_of(read_replies(content)), 0
    one = answered(name, chosen)
    tell_ending(one)
    return rows_of(read_replies(one.written), commands.commands(one.session)), one.status


def rows(given):
    """Writes the rows of each file. A file with a fault is told of, and the others go on."""
    names, chosen = given.files or ["-"], Program(given.program)
    zero = wall_nanos(given.wall) if given.wall else None
    table, statuses = Table(given.how or "tsv", zero, len(names) > 1), []
    write(text(table.head()))
    for name in names:
        try:
            found, status = rows_in(name, chosen)
            write(text(table.lines(found, name)))
        except Fault as fault:
            tell(str(fault))
            status = FAULT
        statuses.append(status)
    return first_not_well(statuses)
