"""Random reports, with numbers at the ends of their ranges, and changes of their bytes and of their fields."""
from compared.wire import fixed, message, number, varint

I32, I64, U32, U64 = (-(2**31), 2**31 - 1), (-(2**63), 2**63 - 1), (0, 2**32 - 1), (0, 2**64 - 1)
POSITIVE, PLACE = (1, 2**64 - 1), (0, 2**32 - 1)
ENTRY, ATOM = (1, 127), (1, 2**29 - 1)
TEXTS = (b"", b"a", b"\x00", b"\x7f", b"\xff\xfe", b"\"\\", "é€".encode(), b"\xed\xa0\x80")


def drawn(rng, ends):
    """A number within these ends: one of them, one near 0 or a power of 2, or any."""
    least, most = ends
    near = [least, most, max(least, -1), max(least, 1), max(least, 127), max(least, 128), max(least, 1 << 31)]
    value = rng.choice([*near, rng.randint(least, most)])
    return value if least <= value <= most else most


def several(rng, most, draw):
    """A few of these, one after the other."""
    return b"".join(draw(rng) for _ in range(rng.randrange(most + 1)))


def above(field, value):
    """A number that is left out where it is 0."""
    return number(field, value or None)


def text(rng):
    """Bytes, of a text or not."""
    return rng.choice([*TEXTS, bytes(rng.randrange(256) for _ in range(rng.randrange(6)))])


def leaf(rng):
    """A value of a key, or none."""
    place = above(1001, drawn(rng, PLACE) if rng.randrange(2) else rng.randrange(3))
    kinds = [
        lambda: message(2, text(rng)) + place,
        lambda: number(3, drawn(rng, I32)) + place,
        lambda: number(4, drawn(rng, I64)) + place,
        lambda: number(5, rng.randrange(2)) + place,
        lambda: fixed(6, drawn(rng, U32)) + place,
        lambda: place + message(1002, text(rng)),
        lambda: place,
    ]
    return message(4, rng.choice(kinds)())


def shown_slice(rng):
    """A state, or a group."""
    chosen = number(2, drawn(rng, I64)) if rng.randrange(2) else number(3, drawn(rng, I32))
    return message(6, number(1, drawn(rng, U32)) + chosen)


def keys(rng):
    """The values and the states of a key."""
    return several(rng, 3, leaf) + several(rng, 2, shown_slice)


def bucket(rng):
    """A bucket with its number."""
    return message(3, number(1, drawn(rng, U64)) + number(2, drawn(rng, U64)) + number(3, drawn(rng, I64)))


def part(rng):
    """A field of an atom."""
    field = drawn(rng, ENTRY)
    return rng.choice([number(field, drawn(rng, U64)), message(field, text(rng)), fixed(field, drawn(rng, U32))])


def atom(rng):
    """An atom."""
    return message(drawn(rng, ATOM), several(rng, 3, part))


def samples(rng):
    """A bucket with atoms."""
    atoms = b"".join(message(3, atom(rng)) for _ in range(rng.randrange(3)))
    return message(3, number(1, drawn(rng, U64)) + number(2, drawn(rng, U64)) + atoms)


def row(rng, kind):
    """A row of a metric of this kind."""
    if kind == 4:
        return number(1, drawn(rng, U64)) + message(2, atom(rng))
    if kind == 5 and rng.randrange(4) == 0:
        return several(rng, 2, bucket) + number(1001, 1)
    return several(rng, 2, samples if kind == 8 else bucket) + keys(rng)


def metric(rng):
    """A metric of any kind."""
    kind = rng.randrange(4, 9)
    rows = b"".join(message(1, row(rng, kind)) for _ in range(rng.randrange(3)))
    size = b"" if kind == 4 else number(10, drawn(rng, U64))
    counts = b"".join(above(field, drawn(rng, U64) if rng.randrange(2) else 0) for field in (1001, 1002, 1003))
    return message(1, number(1, drawn(rng, I64)) + message(kind, rows) + number(9, drawn(rng, U64)) + size + counts)


def drops(rng, field):
    """What full tables dropped."""
    return b"".join(
        message(field, number(1, drawn(rng, I64)) + number(2, drawn(rng, POSITIVE))) for _ in range(rng.randrange(3))
    )


def alarm(rng):
    """An alarm."""
    told = number(1, drawn(rng, I64)) + number(2, drawn(rng, U64)) + number(3, drawn(rng, U64))
    return message(1004, told + keys(rng))


def draw_report(rng):
    """A report's bytes."""
    whose = number(1, drawn(rng, I32)) + number(2, drawn(rng, I64))
    clock = number(3, drawn(rng, U64)) + number(4, drawn(rng, U64))
    dropped = drops(rng, 1001) + drops(rng, 1002) + above(1003, drawn(rng, U64) if rng.randrange(2) else 0)
    alarms = several(rng, 2, alarm) + drops(rng, 1005)
    return message(1, whose) + message(2, several(rng, 3, metric) + clock + dropped + alarms)


def changed(rng, content):
    """The bytes with a few changes: a bit or a byte anew, one more or less, some twice, cut, or one at the end."""
    made = bytearray(content)
    for _ in range(rng.randrange(1, 4)):
        at = rng.randrange(len(made) or 1)
        how = rng.randrange(7)
        if how == 0 and made:
            made[at] ^= 1 << rng.randrange(8)
        elif how == 1 and made:
            made[at] = rng.randrange(256)
        elif how == 2:
            made.insert(at, rng.choice([0, 1, 127, 128, 255, rng.randrange(256)]))
        elif how == 3:
            del made[at : at + 1]
        elif how == 4:
            made[at:at] = made[at : at + rng.randrange(1, 12)]
        elif how == 5:
            del made[at:]
        else:
            made.append(rng.randrange(256))
    return bytes(made)


def number_at(content, at):
    """A number that begins there, and where it ends; nothing where none does."""
    value, shift = 0, 0
    while at < len(content):
        value |= (content[at] & 127) << shift
        at, shift = at + 1, shift + 7
        if content[at - 1] < 128:
            return value, at
    return None


def fields(content):
    """The fields of a message, each with its tag and what stands there after it; nothing where it is no message."""
    found, at = [], 0
    while at < len(content):
        tag = number_at(content, at)
        if tag is None or tag[0] < 8 or tag[0] & 7 not in (0, 2, 5):
            return None
        after = number_at(content, tag[1]) if tag[0] & 7 != 5 else (4, tag[1])
        if after is None:
            return None
        end = after[1] + (after[0] if tag[0] & 7 else 0)
        if end > len(content):
            return None
        found.append((tag[0], content[after[1] : end] if tag[0] & 7 else content[tag[1] : end]))
        at = end
    return found


def spelled(tag, content):
    """A field: a number as it is spelled, bytes with their length before them."""
    return varint(tag) + (varint(len(content)) if tag & 7 == 2 else b"") + content


def longer(content):
    """A number with a byte more than it takes."""
    return content[:-1] + bytes([content[-1] | 128, 0])


def refielded(rng, tag, content):
    """Fields in place of this one: none, two, one of another number or another type, or a longer spelling."""
    how = rng.randrange(6)
    if how == 0:
        return b""
    if how == 1:
        return spelled(tag, content) * 2
    if how == 2:
        return spelled(rng.choice([1, 2, 3, 4, 6, 10, 1001, 1002, 1003, 1004, 1005]) << 3 | tag & 7, content)
    if how == 3 and tag & 7 == 0:
        return spelled(tag, longer(content))
    if how == 4 and tag & 7 == 0:
        return spelled(tag, rng.choice([b"\0", b"\1", b"\2", b"\x80\1"]))
    return spelled(tag ^ 2, content)


def reshaped(rng, content):
    """A message with a field of it, or of one within it, changed, and all lengths as they have to be."""
    found = fields(content)
    if not found:
        return content
    at = rng.randrange(len(found))
    tag, inside = found[at]
    parts = [spelled(*one) for one in found]
    if tag & 7 == 2 and fields(inside) and rng.randrange(8):
        parts[at] = spelled(tag, reshaped(rng, inside))
    elif at > 0 and rng.randrange(4) == 0:
        parts[at - 1], parts[at] = parts[at], parts[at - 1]
    else:
        parts[at] = refielded(rng, tag, inside)
    return b"".join(parts)


def draw_changed(rng):
    """A report's bytes, changed."""
    content = draw_report(rng)
    return reshaped(rng, content) if rng.randrange(2) else changed(rng, content)
