"""Families of bytes for the UTF-8 and UTF-16 checks."""

import itertools

from . import edges


def utf8_edges(rng):
    return edges.utf8_edge(rng)


def utf8_good(rng):
    return edges.utf8_good(rng, 12)


def ascii_runs(rng):
    """ASCII of any length with at most one other byte, as a check by eights would meet it."""
    run = bytearray(rng.randrange(0x80) for _ in range(rng.randrange(40)))
    if run and rng.randrange(2):
        at = rng.randrange(len(run))
        run[at:at] = rng.choice((b"\x80", b"\xff", "\u00e9".encode(), "\U0001f600".encode()))
    return bytes(run)


def noise(rng):
    return rng.randbytes(rng.randrange(9))


def every_utf8():
    """All of one and two bytes, and three and four about the limits."""
    yield b""
    yield from (bytes([a]) for a in range(256))
    yield from (bytes([a, b]) for a in range(256) for b in range(256))
    follows = edges.FOLLOWS
    for lead in edges.LEADS:
        yield from (bytes([lead, *rest]) for rest in itertools.product(follows, repeat=2))
        yield from (bytes([lead, *rest]) for rest in itertools.product(follows, repeat=3))


def to_bytes(units):
    return b"".join(unit.to_bytes(2, "big") for unit in units)


def utf16_edges(rng):
    return to_bytes(edges.utf16_edge(rng))


def utf16_good(rng):
    return to_bytes(edges.utf16_good(rng, 12))


def utf16_noise(rng):
    units = to_bytes(rng.randrange(0xD000, 0xE800) for _ in range(rng.randrange(5)))
    return units + b"\x00" * (rng.randrange(20) == 0)


def every_utf16():
    """All single units, and two and three about the limits."""
    yield b""
    yield from (to_bytes([unit]) for unit in range(1 << 16))
    yield from (to_bytes(units) for units in itertools.product(edges.UNITS, repeat=2))
    yield from (to_bytes(units) for units in itertools.product(edges.UNITS, repeat=3))


UTF8 = {"edges": utf8_edges, "good": utf8_good, "runs": ascii_runs, "noise": noise}
EVERY_UTF8 = {"edges": every_utf8}

UTF16 = {"edges": utf16_edges, "good": utf16_good, "noise": utf16_noise}
EVERY_UTF16 = {"edges": every_utf16}
