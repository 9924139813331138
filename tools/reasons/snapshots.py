"""How old the snapshots were that a pulled metric used, and pulls that came too late for what wanted them."""
from collections import namedtuple

from compared.pulled import PulledGauge
from session_text.layout import ATOM

from reasons.words import span, times

SECOND = 10**9

# A use of a snapshot: the place of the step after which it stood, when it was wanted, the place of the step that wanted
# it, and whether an interval ends there.
Use = namedtuple("Use", "stood at place is_end")


def is_turn(note, place):
    """At a step the condition becomes true, or a trigger comes."""
    told = note.metric.told
    return place < len(told) and (told[place].is_trigger or (told[place].is_true and not told[place - 1].is_true))


def use_at(note, watcher, part, place, is_end=False):
    """The use at a place of a part: of an atom at its own time, and else where the part begins or ends."""
    if is_end and place == part.closed and note.metric.told[place - 1].is_true:
        return Use(place - 1, part.end, place, True)
    if not is_end and place == part.opened and not is_turn(note, place):
        return Use(place - 1, part.start, place, False)
    return Use(place, watcher.steps[place].at, place, is_end)


def uses_of(note, watcher, parts):
    """All uses, in their order."""
    for part in parts:
        if isinstance(note.metric, PulledGauge):
            yield from (use_at(note, watcher, part, place) for place, _ in note.metric.moments(part))
            continue
        for interval in note.metric.intervals(part):
            yield use_at(note, watcher, part, interval.begin)
            yield use_at(note, watcher, part, interval.end, True)


def age(note, use):
    """How old the snapshot was where it was wanted, or None where there was none."""
    pulled = note.times[use.stood]
    return None if pulled is None else use.at - pulled


def is_late(note, watcher, use):
    """A pull came within a second after what wanted it."""
    after = (pulled - use.at for place, pulled, _ in watcher.pulls[note.atom_id] if place > use.stood)
    return next((0 <= wait <= SECOND for wait in after), False)


def late_lines(note, watcher, uses):
    """Pulls that stand behind the atom, or the end of a bucket, that wanted them."""
    late = [use for use in uses if is_late(note, watcher, use)]
    atoms = sum(
        use.place < len(watcher.steps) and watcher.steps[use.place].kind == ATOM and use.stood == use.place
        for use in late
    )
    if atoms:
        yield (
            f"{times(atoms, 'use')} at an atom that a pull follows within a second: a pull has to stand before the atom"
            " that wants it"
        )
    ends = sum(use.is_end for use in late if use.stood != use.place)
    if ends:
        yield (
            f"{times(ends, 'use')} at the end of a bucket that a pull follows within a second: a pull at the end itself"
            " is of the bucket, and a later one isn't"
        )


def snapshot_lines(note, watcher, parts):
    """What is told of a pulled metric."""
    pulls = watcher.pulls[note.atom_id]
    failed = sum(atoms is None for _, _, atoms in pulls)
    yield f"{times(len(pulls), 'pull')} of atom {note.atom_id} since the installation, {failed} of them failed"
    uses = list(uses_of(note, watcher, parts))
    if not uses:
        yield "it wanted no snapshot: its condition was never true, or no trigger came"
        return
    ages = [age(note, use) for use in uses]
    known = sorted(one for one in ages if one is not None)
    if known:
        oldest = f"{span(known[0])} to {span(known[-1])} old, {span(known[len(known) // 2])} in the middle"
        yield f"snapshots were used {times(len(known))}: they were {oldest}"
    if None in ages:
        yield f"{times(ages.count(None))} there was none: none was pulled before, or the last pull failed"
    pairs = zip(uses, uses[1:])
    still = sum(
        end.is_end and note.times[end.stood] is not None and note.times[one.stood] == note.times[end.stood]
        for one, end in pairs
    )
    if still:
        yield f"{times(still, 'interval')} had no pull inside: both ends are one snapshot, so nothing grew there"
    yield from late_lines(note, watcher, uses)
