"""What a report shows, in one line: its rows and what was turned away, metric by metric."""
from .config import records, signed, varint_at
from .words import quoted

SECOND = 10**9
EVENTS, COUNTS, DURATIONS, VALUES, GAUGES = range(4, 9)
OVERFLOW = 1001
TURNED_AWAY = ((1001, "dropped"), (1002, "not kept"), (1003, "missing"))
ALARMS, ALARMS_NOT_KEPT = 1004, 1005


def parts(content, number):
    """The payloads of the fields of a number."""
    return [payload for found, _, payload in records(content) if found == number]


def number_at(content, number, bits=64):
    """A number, or None where it isn't there."""
    found = parts(content, number)
    return signed(varint_at(found[0], 0)[0], bits) if found else None


def value_word(value):
    """A value of a key; - where there is none."""
    for number, bits in ((3, 32), (4, 64)):
        if parts(value, number):
            return str(number_at(value, number, bits))
    if parts(value, 2):
        return quoted(parts(value, 2)[0])
    if parts(value, 5):
        return "true" if number_at(value, 5) else "false"
    return (parts(value, 1002) + parts(value, 6) + [b""])[0].hex() or "-"


def key_word(data):
    """A key: its leaves, and the values of one leaf with spaces between them."""
    leaves = {}
    for value in parts(data, 4):
        leaves.setdefault(number_at(value, 1001) or 0, []).append(value_word(value))
    return ", ".join(" ".join(leaves[place]) for place in sorted(leaves))


def slice_word(state):
    """A state that a row is of."""
    group = number_at(state, 2)
    name = f"group {group}" if group is not None else str(number_at(state, 3, 32))
    return f"atom {number_at(state, 1)} at {name}"


def time_word(nanos):
    """A time, in seconds where it is whole seconds, or in milliseconds where it is whole ones."""
    for unit, word in ((SECOND, "s"), (10**6, "ms")):
        if nanos % unit == 0:
            return f"{nanos // unit}{word}"
    return str(nanos)


def field_word(number, kind, payload):
    """A field of an atom: a number, a string, or the bits of a float in hexadecimal."""
    if kind == 0:
        return f"{number}={signed(varint_at(payload, 0)[0], 64)}"
    return f"{number}={quoted(payload) if kind == 2 else payload.hex()}"


def atom_word(atom):
    """An atom: its fields in brackets."""
    contents = [inner for _, _, inner in records(atom)]
    return "".join("(" + " ".join(field_word(*field) for field in records(content)) + ")" for content in contents)


def bucket_word(kind, bucket):
    """What a bucket has: the number, the time, or the samples."""
    if kind == GAUGES:
        return " ".join(atom_word(atom) for atom in parts(bucket, 3))
    number = number_at(bucket, 3)
    return time_word(number) if kind == DURATIONS else str(number)


def row_words(kind, data, has_times):
    """What is shown of one key: a word for each of its buckets. An event is one, with its time."""
    if kind == EVENTS:
        yield f"{atom_word(parts(data, 2)[0])} at {time_word(number_at(data, 1))}"
        return
    key, slices = key_word(data), ", ".join(map(slice_word, parts(data, 6)))
    whose = (f" of {key}" if key else "") + (f" with {slices}" if slices else "")
    whose += " overflow" if parts(data, OVERFLOW) else ""
    for bucket in parts(data, 3):
        word = bucket_word(kind, bucket) + whose
        begin, end = time_word(number_at(bucket, 1)), time_word(number_at(bucket, 2))
        yield word + (f" in [{begin}, {end})" if has_times else "")


def metric_words(metric, has_times):
    """What is shown of a metric."""
    shown = [(kind, data) for kind in range(EVENTS, GAUGES + 1) for data in parts(b"".join(parts(metric, kind)), 1)]
    rows = [word for kind, data in shown for word in row_words(kind, data, has_times)]
    counts = [f"{what} {number_at(metric, number)}" for number, what in TURNED_AWAY if parts(metric, number)]
    return f"{number_at(metric, 1)}: {'; '.join(rows + counts) or 'none'}"


def alarm_word(alarm):
    """An alarm: its sum, its key, and when it came."""
    key, slices = key_word(alarm), ", ".join(map(slice_word, parts(alarm, 6)))
    whose = (f" of {key}" if key else "") + (f" with {slices}" if slices else "")
    return f"{number_at(alarm, 3)}{whose} at {time_word(number_at(alarm, 2))}"


def alert_words(content):
    """The alarms of each alert, and how many aren't listed."""
    alarms = {}
    for alarm in parts(content, ALARMS):
        alarms.setdefault(number_at(alarm, 1), []).append(alarm_word(alarm))
    for unlisted in parts(content, ALARMS_NOT_KEPT):
        alarms.setdefault(number_at(unlisted, 1), []).append(f"not kept {number_at(unlisted, 2)}")
    return [f"alert {alert}: {'; '.join(words)}" for alert, words in alarms.items()]


def report_words(report, has_times):
    """What a report shows: the metrics that have rows or counts, what found no room, and alarms."""
    content = parts(report, 2)[0]
    metrics = [metric_words(metric, has_times) for metric in parts(content, 1)]
    words = [word for word in metrics if not word.endswith(": none")]
    words += [f"predicate {number_at(one, 1)}: dropped {number_at(one, 2)}" for one in parts(content, 1001)]
    words += [f"atom {number_at(one, 1)}: dropped {number_at(one, 2)}" for one in parts(content, 1002)]
    words += [f"state atoms: dropped {number_at(content, 1003)}"] if parts(content, 1003) else []
    return " | ".join(words + alert_words(content)) or "none"
