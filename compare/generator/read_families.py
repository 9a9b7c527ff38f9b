"""Families of files for the reader.

A family is a function from a random generator to one file. Those in EVERY can also be listed whole.
"""

import datetime
import plistlib

from . import edges, worked
from .bplist import (
    MAGIC, SIZES, array, be, build, data, dictionary, head, text16, text8, trailer, uid,
    width_of, with_table_first,
)
from .samples import samples

SAMPLES = samples()


# --- one object -----------------------------------------------------------------------------------

def marker_file(marker, following, filler=b"\x01" * 18):
    """An object of any two bytes. As references, the filler's bytes point to `true`."""
    return build([bytes([marker, following]) + filler, b"\x09"])


def markers(rng):
    filler = rng.choice((b"\x01" * 18, b"\x00" * 18, rng.randbytes(18)))
    return marker_file(rng.randrange(256), rng.randrange(256), filler)


def every_marker():
    return (marker_file(m, f) for m in range(256) for f in range(256))


def scalar(rng):
    """One object that is no container, mostly a good one."""
    pick = rng.randrange(10)
    number = rng.choice(edges.NUMBERS)
    if pick == 0:
        return rng.choice((b"\x08", b"\x09"))
    if pick == 1:
        power = rng.randrange(4)
        return bytes([0x10 | power]) + be(number, 1 << power)
    if pick == 2:
        high = rng.choice((0, 0, 0, 1, 1 << 63, (1 << 64) - 1))
        return b"\x14" + be(high, 8) + be(number, 8)
    if pick == 3:
        return b"\x22" + be(rng.choice(edges.REALS32), 4)
    if pick == 4:
        return b"\x23" + be(rng.choice(edges.REALS64), 8)
    if pick == 5:
        return uid(number, rng.randrange(1, 9))
    if pick == 6:
        return data(rng.randbytes(rng.choice((0, 1, 2, 7, 8, 9, 14, 15, 16, 20))))
    if pick == 7:
        return text16(edges.utf16_good(rng))
    return text8(edges.utf8_good(rng))


def date(bits):
    return b"\x33" + be(bits, 8)


def dates(rng):
    """A date behind a boolean or an integer."""
    before = rng.choice((b"\x08", b"\x10\x00", b"\x13" + bytes(8)))
    return build([array([1, 2]), before, date(edges.date_bits(rng))])


def every_date():
    return (build([date(bits)]) for bits in edges.every_date())


def scalars(rng):
    return build([scalar(rng)], gap=bytes(rng.choice((0, 0, 1, 8))))


def utf8(rng):
    return build([text8(edges.utf8_edge(rng))])


def every_utf8():
    """All pairs of a first and a second byte about the limits, with and without what follows."""
    for lead in edges.LEADS:
        for follow in edges.FOLLOWS:
            for rest in (b"", b"\x80", b"\xbf\x80", b"\x80\xbf\xbf", b"\x41"):
                yield build([text8(bytes([lead, follow]) + rest)])


def utf16(rng):
    return build([text16(edges.utf16_edge(rng))])


def every_utf16():
    for first in edges.UNITS:
        yield build([text16([first])])
        for second in edges.UNITS:
            yield build([text16([first, second])])
            yield build([text16([0x41, first, second, 0x42])])


# --- the trailer ----------------------------------------------------------------------------------

def sized_file(offset_size, ref_size):
    """[true, "s"] in these sizes; sizes that no file has stand in the trailer alone."""
    offsets = offset_size if offset_size in SIZES else 1
    references = ref_size if ref_size in SIZES else 1
    good = build([array([1, 2], references), b"\x09", text8(b"s")], offsets, references)
    end = bytearray(good[-32:])
    end[6], end[7] = offset_size, ref_size
    return good[:-32] + bytes(end)


def sizes(rng):
    def any_size():
        return rng.choice(SIZES) if rng.randrange(2) else rng.randrange(256)

    return sized_file(any_size(), any_size())


def every_size():
    return (sized_file(o, r) for o in range(256) for r in range(256))


def trailers(rng):
    """Count, root and table offset about the file's own limits and about powers of two."""
    offset_size, ref_size = rng.choice(SIZES), rng.choice(SIZES)
    good = build([array([1], ref_size), b"\x09"], offset_size, ref_size, gap=bytes(rng.randrange(3)))
    limit = len(good) - 32

    def near(right):
        pick = rng.randrange(4)
        if pick == 0:
            return rng.choice(edges.NUMBERS)
        if pick == 1:
            return max(0, rng.choice((limit, limit // offset_size, right)) + rng.randrange(-2, 3))
        return right

    table = limit - 2 * offset_size if rng.randrange(2) else int.from_bytes(good[-8:], "big")
    padding = rng.choice((bytes(6), rng.randbytes(6)))
    return good[:-32] + trailer(offset_size, ref_size, near(2), near(0), near(table), padding)


# --- good files made worse ------------------------------------------------------------------------

def truncations(rng):
    good = rng.choice(SAMPLES)
    cut = rng.randrange(len(good) + 1)
    if rng.randrange(2):
        return good[:cut]
    # The trailer is kept: T moves, and the table may no longer fit.
    at = rng.randrange(len(good) - 32)
    return good[:at] + good[at + rng.randrange(1, 4):]


def every_truncation():
    return (good[:cut] for good in SAMPLES for cut in range(len(good)))


def changes(rng):
    wrong = bytearray(rng.choice(SAMPLES))
    for _ in range(rng.choice((1, 1, 2, 3))):
        wrong[rng.randrange(len(wrong))] = rng.choice((0, 1, 0x80, 0xFF, rng.randrange(256)))
    return bytes(wrong)


def every_change():
    for good in SAMPLES:
        for at in range(len(good)):
            for byte in range(256):
                if byte != good[at]:
                    yield good[:at] + bytes([byte]) + good[at + 1:]


def noise(rng):
    """Any bytes between a magic and a trailer that fits them."""
    body = rng.randbytes(rng.randrange(1, 60))
    entries = bytes(8 + rng.randrange(len(body)) for _ in range(rng.randrange(1, 6)))
    table = 8 + len(body)
    return MAGIC + body + entries + trailer(1, 1, len(entries), rng.randrange(len(entries)), table)


# --- graphs of objects ----------------------------------------------------------------------------

def graph_file(rng, objects, ref_size):
    offset_size = rng.choice(SIZES if sum(map(len, objects)) < 240 else SIZES[1:])
    return build(objects, offset_size, ref_size, gap=bytes(rng.choice((0, 0, 0, 1, 9))))


def container(rng, references, ref_size):
    if rng.randrange(2):
        return array(references, ref_size, rng.choice((None, None, None, 1, 2, 4, 8)))
    half = len(references) // 2
    return dictionary(references[:half], references[half:2 * half], ref_size)


def tree(rng):
    """Containers that refer to later objects alone: shared ones, but no recursion."""
    count = rng.randrange(2, 14)
    ref_size = rng.choice(SIZES)
    objects = []
    for index in range(count):
        later = range(index + 1, count)
        if later and (index == 0 or rng.randrange(3) == 0):
            references = [rng.choice(later) for _ in range(rng.randrange(5))]
            objects.append(container(rng, references, ref_size))
        else:
            objects.append(scalar(rng))
    return graph_file(rng, objects, ref_size)


def distinct(rng):
    """A tree in which no object is reached twice, so that every place compares."""
    ref_size = rng.choice(SIZES)
    objects = [b""]
    waiting = [0]
    while waiting:
        index = waiting.pop()
        fresh = range(len(objects), len(objects) + rng.randrange(5))
        objects.extend(scalar(rng) for _ in fresh)
        objects[index] = container(rng, list(fresh), ref_size)
        waiting.extend(i for i in fresh if len(objects) < 14 and rng.randrange(3) == 0)
    return graph_file(rng, objects, ref_size)


def wrong_end(rng):
    """As `distinct`, with one last object or reference that is refused."""
    ref_size = rng.choice(SIZES)
    bad = rng.choice((
        b"\x00", b"\x0f", b"\x07", b"\x15", b"\x21", b"\x34", b"\x70", b"\x88", b"\x90", b"\xb0",
        b"\xc1", b"\xe0", b"\xff", b"\x14" + b"\x01" * 16, text8(b"\xc0\x80"), text16([0xDC00]),
        head(4, 200), head(5, 1 << 40), head(6, 120), head(10, 240), head(13, 250), array([0], ref_size),
    ))
    before = [scalar(rng) for _ in range(rng.randrange(4))]
    last = len(before) + 1
    references = list(range(1, last + 1)) + [rng.choice((0, last + 1, 255))]
    if rng.randrange(3) == 0:
        references.remove(last)
    return graph_file(rng, [array(references, ref_size), *before, bad], ref_size)


def graphs(rng):
    """References to anything, recursion and all, and now and then past the count."""
    count = rng.randrange(1, 9)
    ref_size = rng.choice(SIZES)
    objects = []
    for index in range(count):
        if index == 0 or rng.randrange(2):
            past = count + (rng.randrange(30) == 0)
            references = [rng.randrange(past) for _ in range(rng.randrange(4))]
            objects.append(container(rng, references, ref_size))
        else:
            objects.append(scalar(rng))
    return graph_file(rng, objects, ref_size)


def shared(rng):
    """Each container twice in the one above: the events double at every level."""
    levels = rng.randrange(1, 12)
    objects = [array([i + 1] * rng.choice((1, 2, 2))) for i in range(levels)]
    return build(objects + [rng.choice((array([]), b"\x09", text8(b"longer than 8")))])


def recursive(rng):
    """A chain of containers whose last refers to one of them."""
    levels = rng.randrange(1, 12)
    objects = []
    for index in range(levels):
        below = index + 1 if index + 1 < levels else rng.randrange(levels)
        whole = (array([below]), dictionary([levels], [below]), array([levels, below]))
        objects.append(rng.choice(whole))
    return build(objects + [rng.choice((b"\x09", text8(b"key longer than 8")))])


def depth(rng):
    """About 512 containers, or fewer, each inside the last; the last may refer back up."""
    levels = rng.choice((rng.randrange(508, 517), rng.randrange(2, 70), rng.randrange(2, 70)))
    key, size = levels, width_of(levels)
    objects = []
    for index in range(levels - 1):
        below = index + 1
        objects.append(rng.choice((array([below], size), array([below], size), dictionary([key], [below], size))))
    last = rng.choice((array([]), array([]), array([key], size), array([0], size), array([levels - 1], size), head(10, 99)))
    return build(objects + [last, text8(b"k")], ref_size=size)


# --- lengths and offsets --------------------------------------------------------------------------

def rooms(rng):
    """One object whose content ends about T, whatever its head takes."""
    ref_size = rng.choice(SIZES)
    kind = rng.choice((4, 5, 6, 10, 13))
    unit = {4: 1, 5: 1, 6: 2, 10: ref_size, 13: ref_size}[kind]
    runs = 2 if kind == 13 and rng.randrange(2) else 1
    length = rng.choice((0, 1, 2, 3, 13, 14, 15, 16, 30))
    width = rng.choice((None, None, 1, 2, 4, 8))
    start = head(kind, length, width)
    room = max(0, length * unit * runs + rng.randrange(-2, 3))
    fill = rng.choice((b"\x00", b"\x01", b"\x41"))
    body = (start + fill * 200)[: max(1, room)]
    return with_table_first([9], body, ref_size=ref_size)


def past_end(rng):
    """A dictionary whose keys fit and whose values end about T, the trailer's end or later."""
    ref_size = rng.choice(SIZES)
    pairs = rng.randrange(30, 60) // ref_size + rng.randrange(2)
    start = head(13, pairs, rng.choice((None, None, 1, 2, 4, 8)))
    run = pairs * ref_size
    room = max(len(start), run + rng.choice((-1, 0, 0, 0, 1, 2, 3, run - 32, run - 31, run - 33, run)))
    first = array([1], ref_size) if rng.randrange(2) else bytes(rng.randrange(1, 5))
    table = [10, 10 + len(first)]
    body = first + start + bytes(room - len(start))
    return with_table_first(table, body, ref_size=ref_size, root=int(first[0] == 0))


def lengths(rng):
    """A length about a power of two, in any form that holds it or loses its high bytes."""
    kind = rng.choice((4, 5, 6, 10, 13))
    length = rng.choice(edges.NUMBERS)
    width = rng.choice((1, 2, 4, 8, 8))
    marker = bytes([kind << 4 | 15, rng.choice((0x10, 0x00, 0x50, 0xFC)) | (1, 2, 4, 8).index(width)])
    body = marker + be(length, width) + b"\x01" * rng.randrange(40)
    return build([body, b"\x09"], rng.choice(SIZES), rng.choice(SIZES))


def offsets(rng):
    """Table entries about T and about powers of two, the second reached through an array."""
    offset_size = rng.choice(SIZES)
    body = array([1, 2, 1]) + b"\x09"
    start = 8 + 3 * offset_size
    limit = start + len(body)

    def entry():
        pick = rng.randrange(3)
        if pick == 0:
            return rng.choice(edges.NUMBERS)
        if pick == 1:
            return limit + rng.randrange(-3, 4)
        return start + 4

    first = start if rng.randrange(4) else entry()
    return with_table_first([first, entry(), entry()], body, offset_size)


# --- files of another writer ----------------------------------------------------------------------

def python_value(rng, levels):
    pick = rng.randrange(10 if levels else 7)
    if pick == 0:
        return rng.choice((True, False))
    if pick == 1:
        return rng.choice((1, -1)) * rng.choice(edges.NUMBERS[:-4])
    if pick == 2:
        return rng.choice((0.0, -0.0, 1.5, -3.25e10, float("inf"), rng.random()))
    if pick == 3:
        return rng.randbytes(rng.choice((0, 1, 8, 9, 20)))
    if pick == 4:
        return plistlib.UID(rng.choice(edges.NUMBERS))
    if pick in (5, 6):
        return edges.utf8_good(rng, 12).decode()
    if pick == 7:
        return [python_value(rng, levels - 1) for _ in range(rng.randrange(5))]
    keys = {edges.utf8_good(rng, 4).decode() for _ in range(rng.randrange(5))}
    return {key: python_value(rng, levels - 1) for key in sorted(keys)}


def python(rng):
    """A file of Python's plistlib, one in sixteen with a date."""
    value = python_value(rng, 3)
    if rng.randrange(16) == 0:
        value = [value, datetime.datetime(2001, 1, 1 + rng.randrange(28), rng.randrange(24))]
    try:
        return plistlib.dumps(value, fmt=plistlib.FMT_BINARY, sort_keys=bool(rng.randrange(2)))
    except OverflowError:
        return python(rng)  # an integer that plistlib doesn't write


def worked_cases(rng):
    return rng.choice(worked.files())


FAMILIES = {
    "markers": markers,
    "scalars": scalars,
    "utf8": utf8,
    "utf16": utf16,
    "sizes": sizes,
    "trailers": trailers,
    "truncations": truncations,
    "changes": changes,
    "noise": noise,
    "tree": tree,
    "distinct": distinct,
    "wrong-end": wrong_end,
    "graphs": graphs,
    "shared": shared,
    "recursive": recursive,
    "depth": depth,
    "rooms": rooms,
    "past-end": past_end,
    "lengths": lengths,
    "offsets": offsets,
    "python": python,
    "worked": worked_cases,
    "dates": dates,
}

EVERY = {
    "markers": every_marker,
    "sizes": every_size,
    "truncations": every_truncation,
    "changes": every_change,
    "utf8": every_utf8,
    "utf16": every_utf16,
    "dates": every_date,
    "kinds": worked.kinds,
    "worked": worked.files,
}
