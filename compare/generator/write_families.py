"""Families of event tapes for the writer, in the same form as those for the reader."""

from . import edges, tape, worked
from .tape import END, FALSE, TRUE

INTEGERS = sorted(set(edges.NUMBERS) | {-1 - n for n in edges.NUMBERS if n < 1 << 63})


# --- good tapes -----------------------------------------------------------------------------------

def text(rng):
    return tape.text(rng.choice((edges.utf8_good(rng, 4), b"a", b"b", b"ab", b"key", b"")))


def scalar(rng):
    """One scalar from a small choice, so that equal ones meet, in equal and other kinds."""
    pick = rng.randrange(8)
    if pick == 0:
        return rng.choice((FALSE, TRUE))
    if pick == 1:
        return tape.integer(rng.choice((0, 1, -1, 97, rng.choice(INTEGERS))))
    if pick == 2:
        return tape.real(rng.choice((0, 1 << 63, rng.choice(edges.REALS64))))
    if pick == 3:
        return tape.uid(rng.choice((0, 1, rng.choice(edges.NUMBERS))))
    if pick == 4:
        return tape.data(rng.choice((b"", b"a", b"ab", b"key", rng.randbytes(rng.randrange(20)))))
    return text(rng)


def length(rng, right):
    """None, the right length, or any."""
    return rng.choice((None, None, right, right, rng.choice(edges.NUMBERS)))


def value(rng, levels):
    if levels == 0 or rng.randrange(3) == 0:
        return scalar(rng)
    count = rng.choice((0, 1, 2, 3, 4, 6))
    if rng.randrange(2):
        items = b"".join(value(rng, levels - 1) for _ in range(count))
        return tape.start_array(length(rng, count)) + items + END
    pairs = b"".join(text(rng) + value(rng, levels - 1) for _ in range(count))
    return tape.start_dictionary(length(rng, count)) + pairs + END


def trees(rng):
    return value(rng, rng.randrange(1, 5))


def scalars(rng):
    return scalar(rng)


def integers(rng):
    """All the limits, alone or many together."""
    if rng.randrange(2):
        return rng.choice((tape.integer(rng.choice(INTEGERS)), tape.uid(rng.choice(edges.NUMBERS))))
    picked = [rng.choice((tape.integer(rng.choice(INTEGERS)), tape.uid(rng.choice(edges.NUMBERS))))
              for _ in range(rng.randrange(1, 12))]
    return tape.array(*picked)


def every_integer():
    yield from (tape.integer(n) for n in INTEGERS)
    yield from (tape.uid(n) for n in edges.NUMBERS)
    yield from (tape.real(bits) for bits in edges.REALS64)


def lengths(rng):
    """Lengths at which the head or the size of a reference changes; long ones are rare."""
    short = (0, 1, 13, 14, 15, 16, 17)
    longer = (254, 255, 256, 257)
    count = rng.choice(short if rng.randrange(6) else longer)
    if rng.randrange(400) == 0:
        count = rng.choice((65535, 65536))
    pick = rng.randrange(5)
    if pick == 0:
        return tape.data(bytes([rng.randrange(256)]) * count)
    if pick == 1:
        return tape.text(b"t" * count)
    if pick == 2:
        return tape.text("\u00e9".encode() * count)
    if pick == 3:
        distinct = rng.choice((1, 2, count or 1))
        return tape.array(*(tape.integer(i % distinct) for i in range(count)))
    pairs = (tape.text(f"k{i}") + tape.integer(i % 3) for i in range(min(count, 300)))
    return tape.dictionary(*pairs)


def texts(rng):
    picked = [tape.text(edges.utf8_good(rng, 9)) for _ in range(rng.randrange(1, 6))]
    return picked[0] if len(picked) == 1 else tape.array(*picked)


def keys(rng):
    """Dictionaries whose keys come again as keys and as values."""
    names = [text(rng) for _ in range(3)]
    pairs = []
    for _ in range(rng.randrange(1, 7)):
        below = tape.dictionary(rng.choice(names), rng.choice(names))
        pairs.append(rng.choice(names) + rng.choice((*names, below, tape.array(rng.choice(names)))))
    return tape.dictionary(*pairs)


def numbering(rng):
    """Nested containers of scalars that all differ, so that every number shows."""
    counter = iter(range(1000))

    def part(levels):
        if levels == 0 or rng.randrange(3) == 0:
            return tape.integer(next(counter))
        items = range(rng.randrange(4))
        if rng.randrange(2):
            return tape.array(*(part(levels - 1) for _ in items))
        return tape.dictionary(*(tape.text(f"k{next(counter)}") + part(levels - 1) for _ in items))

    return part(4)


def depth(rng):
    """About 512 containers, or fewer, each inside the last; now and then one more where a key is due."""
    levels = rng.choice((rng.randrange(509, 516), rng.randrange(2, 70), rng.randrange(2, 70)))
    starts = [tape.start_array(), tape.start_dictionary() + tape.text("k")]
    opened = [rng.choice(starts) if rng.randrange(8) == 0 else starts[0] for _ in range(levels)]
    if rng.randrange(4) == 0:
        opened[rng.randrange(levels)] = tape.start_dictionary()
    inner = rng.choice((b"", b"", TRUE, text(rng)))
    return b"".join(opened) + inner + END * levels


# --- refused tapes --------------------------------------------------------------------------------

def unexpected(rng):
    """21, after some good events and at some depth."""
    wrong = rng.choice((
        tape.start_dictionary() + rng.choice((
            FALSE, TRUE, tape.integer(3), tape.integer(-3), tape.real(0), tape.uid(9),
            tape.data(b"a"), tape.start_array(), tape.start_array(2), tape.start_dictionary(),
        )),
        tape.start_dictionary() + text(rng) + END,
        tape.start_dictionary() + text(rng) + scalar(rng) + text(rng) + END,
        tape.start_dictionary() + text(rng) + tape.array() + TRUE,
    ))
    before = b"".join(value(rng, 1) for _ in range(rng.randrange(4)))
    opened = rng.randrange(4)
    if opened == 0:
        return rng.choice((wrong, END, END + TRUE))
    return tape.start_array() * opened + before + wrong + END * opened


BAD_NUMBERS = (
    b"", b"\x80", b"\x80\x00", b"\x81\x00", b"\xff\x80\x00", b"\xff" * 9 + b"\x02", b"\x80" * 10 + b"\x01",
    b"\xff" * 10, b"\x80" * 9 + b"\x00", b"\xff" * 9,
)


def bad_event(rng):
    """Bytes that are not one whole event."""
    pick = rng.randrange(6)
    if pick == 0:
        return bytes([rng.choice((0x00, 0x0F, 0x10, 0x7F, 0x80, 0xFF))])
    if pick == 1:
        return bytes([rng.choice((3, 4, 7, 8, 9, 0x0B, 0x0D))]) + rng.choice(BAD_NUMBERS)
    if pick == 2:
        return b"\x04" + tape.number(rng.choice((1 << 63, (1 << 64) - 1)))
    if pick == 3:
        return bytes([rng.choice((5, 6))]) + rng.randbytes(rng.randrange(8))
    if pick == 4:
        return bytes([rng.choice((8, 9))]) + tape.number(rng.choice(edges.NUMBERS[4:])) + b"abc"
    return tape.text(edges.utf8_edge(rng))


def bad(rng):
    """20, after some good events."""
    opened = rng.randrange(3)
    before = b"".join(value(rng, 1) for _ in range(rng.randrange(3))) if opened else b""
    return tape.start_array() * opened + before + bad_event(rng)


def trailing(rng):
    after = rng.choice((TRUE, END, b"\x00", b"\xff", tape.array(), tape.text("a")))
    return value(rng, 2) + after


def incomplete(rng):
    whole = tape.array(value(rng, 2), tape.dictionary(text(rng), value(rng, 1)))
    return whole[: -rng.randrange(1, 4)]


def mutated(rng):
    wrong = bytearray(value(rng, 3))
    for _ in range(rng.choice((1, 1, 2))):
        at = rng.randrange(len(wrong))
        pick = rng.randrange(3)
        if pick == 0:
            wrong[at] = rng.choice((0, 1, 0x0E, 0x0A, 0x0C, 0x80, 0xFF, rng.randrange(256)))
        elif pick == 1:
            wrong.insert(at, rng.choice((0x0E, 0x0A, 0x0C, 0x01, 0x80, 0x09)))
        elif len(wrong) > 1:
            del wrong[at]
    return bytes(wrong)


def cut(rng):
    good = value(rng, 3)
    return good[: rng.randrange(len(good))]


def dates(rng):
    event = tape.date(edges.date_bits(rng))
    return rng.choice((event, tape.array(value(rng, 1), event), tape.start_dictionary() + event))


def every_date():
    return (tape.date(bits) for bits in edges.every_date())


def worked_cases(rng):
    return rng.choice(worked.tapes())


def every_kind():
    """Every first byte, alone, with a zero, and where a key is due."""
    for kind in range(256):
        yield bytes([kind])
        yield bytes([kind, 0])
        yield tape.start_dictionary() + bytes([kind, 0])
        yield tape.start_array() + bytes([kind]) + bytes(8) + END


FAMILIES = {
    "trees": trees,
    "scalars": scalars,
    "integers": integers,
    "lengths": lengths,
    "texts": texts,
    "keys": keys,
    "numbering": numbering,
    "depth": depth,
    "unexpected": unexpected,
    "bad": bad,
    "trailing": trailing,
    "incomplete": incomplete,
    "mutated": mutated,
    "cut": cut,
    "dates": dates,
    "worked": worked_cases,
}

EVERY = {
    "integers": every_integer,
    "kinds": every_kind,
    "dates": every_date,
    "worked": worked.tapes,
}
