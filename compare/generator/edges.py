"""Values at which programs go wrong: numbers, reals, UTF-8 and UTF-16."""

POWERS = (1 << 7, 1 << 8, 1 << 15, 1 << 16, 1 << 24, 1 << 31, 1 << 32, 1 << 63, 1 << 64)

# 0 to 2^64 - 1, with the neighbours of every power.
NUMBERS = sorted(
    {0, 1, 2, 14, 15, 16, 32}
    | {p + d for p in POWERS for d in (-2, -1, 0, 1) if 0 <= p + d < 1 << 64}
)

REALS32 = (
    0x00000000, 0x80000000, 0x00000001, 0x007FFFFF, 0x00800000, 0x3F800000, 0x3FC00000,
    0x7F7FFFFF, 0x7F800000, 0xFF800000, 0x7FC00000, 0x7F800001, 0xFFBFFFFF, 0xFFFFFFFF,
)

REALS64 = (
    0x0000000000000000, 0x8000000000000000, 0x0000000000000001, 0x3FF0000000000000,
    0x3FF8000000000000, 0x400921FB54442D18, 0x7FEFFFFFFFFFFFFF, 0x7FF0000000000000,
    0xFFF0000000000000, 0x7FF8000000000000, 0x7FF0000000000001, 0xFFFFFFFFFFFFFFFF,
)

# The largest finite numbers, both infinities, quiet and signalling NaNs: the first two are dates, the others aren't.
DATES = (
    0x7FEFFFFFFFFFFFFF, 0xFFEFFFFFFFFFFFFF, 0x7FF0000000000000, 0xFFF0000000000000, 0x7FF8000000000000,
    0x7FF0000000000001, 0xFFFFFFFFFFFFFFFF,
)

# The ends of every row of the Unicode Standard's table 3-7, and the scalar values between them.
SCALARS = (
    0x00, 0x41, 0x7F, 0x80, 0xE9, 0x7FF, 0x800, 0xFFF, 0x1000, 0x6973, 0x706C, 0xCFFF, 0xD000,
    0xD7FF, 0xE000, 0xFFFD, 0xFFFF, 0x10000, 0x1F600, 0x3FFFF, 0x40000, 0xFFFFF, 0x100000, 0x10FFFF,
)

# First and second bytes about the limits of that table.
LEADS = (
    0x00, 0x7F, 0x80, 0xBF, 0xC0, 0xC1, 0xC2, 0xDF, 0xE0, 0xE1, 0xEC, 0xED, 0xEE, 0xEF,
    0xF0, 0xF1, 0xF3, 0xF4, 0xF5, 0xF7, 0xF8, 0xFF,
)
FOLLOWS = (0x00, 0x41, 0x7F, 0x80, 0x8F, 0x90, 0x9F, 0xA0, 0xBF, 0xC0, 0xC2, 0xFF)

UNITS = (
    0x0000, 0x0041, 0x007F, 0x0080, 0x07FF, 0x0800, 0xD7FF, 0xD800, 0xD801, 0xDBFE, 0xDBFF,
    0xDC00, 0xDC01, 0xDFFE, 0xDFFF, 0xE000, 0xFFFD, 0xFFFF,
)


def date_bits(rng):
    """Any sign and exponent; now and then about the limits of dates."""
    pick = rng.randrange(4)
    if pick == 0:
        return rng.choice(DATES)
    if pick == 1:
        return rng.choice(REALS64)
    return rng.randrange(1 << 12) << 52 | rng.choice((0, 1, (1 << 52) - 1, rng.randrange(1 << 52)))


def every_date():
    """Each sign and exponent, with fractions at both ends and about the quiet bit."""
    fractions = (0, 1, (1 << 51) - 1, 1 << 51, (1 << 52) - 1)
    return (high << 52 | fraction for high in range(1 << 12) for fraction in fractions)


def utf8_edge(rng):
    """Some bytes about the limits: whole characters, cut ones, and bytes that never fit."""
    parts = []
    for _ in range(rng.randrange(1, 5)):
        whole = chr(rng.choice(SCALARS)).encode()
        pick = rng.randrange(8)
        if pick < 4:
            parts.append(whole)
        elif pick == 4:
            parts.append(whole[: rng.randrange(1, len(whole) + 1)])
        elif pick == 5:
            parts.append(bytes(rng.choice(b"az09 ") for _ in range(rng.randrange(12))))
        else:
            parts.append(bytes([rng.choice(LEADS)]))
            parts.append(bytes(rng.choice(FOLLOWS) for _ in range(rng.randrange(4))))
    return b"".join(parts)


def utf8_good(rng, most=6):
    return "".join(chr(rng.choice(SCALARS)) for _ in range(rng.randrange(most + 1))).encode()


def utf16_good(rng, most=6):
    raw = utf8_good(rng, most).decode().encode("utf-16-be")
    return [raw[i] << 8 | raw[i + 1] for i in range(0, len(raw), 2)]


def utf16_edge(rng):
    """Units about the surrogates: pairs, lone ones, pairs the wrong way round."""
    units = []
    for _ in range(rng.randrange(1, 6)):
        if rng.randrange(2):
            units.extend(utf16_good(rng, 2))
        else:
            units.append(rng.choice(UNITS))
    return units
