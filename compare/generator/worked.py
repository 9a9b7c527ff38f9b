"""Document 01's own cases, as files and as tapes, and the calls that its rules single out."""

import functools
import plistlib
import sys

from . import edges, tape
from .bplist import MAGIC, array, be, build, data, dictionary, text16, text8, trailer, uid, with_table_first

FULL = b"\xff"


def one(hexed):
    return build([bytes.fromhex(hexed)])


@functools.cache
def deep(depth, keyed):
    """Arrays, each inside the last, as Python's plistlib writes them. With `keyed` each third one is a dictionary of one key."""
    value = []
    for level in range(1, depth):
        value = {"k": value} if keyed and level % 3 == 0 else [value]
    least = sys.getrecursionlimit()
    sys.setrecursionlimit(least + 10 * depth)  # its writer goes down with the value
    try:
        return plistlib.dumps(value, fmt=plistlib.FMT_BINARY)
    finally:
        sys.setrecursionlimit(least)


def outwards(depth, keyed, key, array):
    """What stands for a dictionary or an array around each other one, the outermost first."""
    return [key if keyed and level % 3 == 0 else array for level in reversed(range(1, depth))]


def deep_tape(depth, keyed):
    """The tape of the same value, without lengths."""
    starts = outwards(depth, keyed, tape.start_dictionary() + tape.text("k"), tape.start_array())
    return b"".join(starts) + tape.start_array() + tape.END * depth


def deep_lines(depth, keyed):
    """The events of the same value, as `oracle read` prints them."""
    return "".join(outwards(depth, keyed, "dict 1\nstr 1 6b\n", "array 1\n")) + "array 0\n" + "close\n" * depth


# How deep, and whether with dictionaries: well below the limit, and about it.
DEPTHS = [(depth, keyed) for keyed in (False, True) for depth in (200, 511, 512, 513)]


def dictionary_at_9(length, trailer_at):
    """`DF 10 length` at 9 with references of one byte, in a file whose T is `trailer_at`."""
    head = bytes([0xDF, 0x10, length])
    return with_table_first([9], head + bytes(trailer_at - 9 - len(head)))


def files():
    """P2 to P12 and the cases after them."""
    return [
        one("10ff"),  # P2
        one("1380" + "00" * 7),  # P3
        one("14" + "00" * 8 + "ff" * 8),  # P4
        one("14" + "ff" * 16),  # P5
        one("14" + "00" * 7 + "01" + "00" * 8),  # 2^64, one past P4
        one("4f1002abcd"),  # P6, three forms
        one("4f5002abcd"),
        one("4f1402abcd"),
        one("61d800"),  # P7
        with_table_first([0], b""),  # P8
        one("09"),  # P9
        build([array([1, 2, 1]), b"\x10\x01", text8(b"a")]),  # P10
        build([dictionary([1], [2]), text8(b"k"), array([1, 3]), b"\x13" + FULL * 8]),  # P11
        build([array([0])]),  # P12
        with_table_first([9], b"\x41"),  # data of one trailer byte
        with_table_first([9], b"\x42"),
        dictionary_at_9(0x1D, 38),
        dictionary_at_9(0x1E, 39),
        dictionary_at_9(0x1D, 39),
        dictionary_at_9(0x1E, 38),
        *(deep(*each) for each in DEPTHS),
        # A container seen twice side by side is no recursion.
        build([array([1, 1]), array([2]), b"\x09"]),
        # Recursion at the second and third level, and from a dictionary.
        build([array([1]), array([0])]),
        build([array([1]), array([2]), array([1])]),
        build([dictionary([1], [0]), text8(b"a")]),
        # Keys that aren't text.
        build([dictionary([1, 2], [3, 3]), b"\x09", array([]), b"\x08"]),
        # Trailer: nothing, half a magic, magic alone, one byte too few, wrong magic.
        b"",
        MAGIC[:7],
        MAGIC,
        MAGIC + bytes(23),
        b"bplist01" + bytes(33),
        # The magic lies in the trailer: T is 0.
        MAGIC + bytes(24),
        # Reference size 0 leaves the reader as it was, others end it. Offset size always leaves it.
        MAGIC + b"\x09\x08" + trailer(1, 0, 1, 0, 9),
        MAGIC + b"\x09\x08" + trailer(1, 5, 1, 0, 9),
        MAGIC + b"\x09\x08" + trailer(0, 1, 1, 0, 9),
        MAGIC + b"\x09\x08" + trailer(5, 0, 1, 0, 9),
        # No objects; a root past the count; a table past T; an object at T.
        MAGIC + b"\x09\x08" + trailer(1, 1, 0, 0, 9),
        MAGIC + b"\x09\x08" + trailer(1, 1, 1, 1, 9),
        MAGIC + b"\x09\x08" + trailer(1, 1, 2, 0, 9),
        MAGIC + b"\x09\x08" + trailer(1, 1, 0, 0, 10),
        MAGIC + b"\x09\x08" + trailer(1, 1, 0, 0, 11),
        MAGIC + b"\x09\x0a" + trailer(1, 1, 1, 0, 9),
        MAGIC + b"\x09\x09" + trailer(1, 1, 1, 0, 9),
        # Nothing, and a fill byte.
        one("00"),
        one("0f"),
        # Length bytes with nothing but the low two bits right.
        build([data(b"\xab", 1)]),
        one("4fff0000000000000001ab"),
        one("5ffd000161"),
        one("6fee000000010061"),
    ]


def kinds():
    """Every kind of scalar at its limits, each as the root of a file."""
    lengths = (0, 1, 8, 9, 14, 15, 16)
    wide = [(1 << 63) - 1, 1 << 63, (1 << 64) - 1]
    objects = [bytes([0x10 | power]) + be(number, 1 << power)
               for power in range(4)
               for number in (0, 1 << (8 << power) - 1, (1 << (8 << power)) - 1)]
    objects += [b"\x14" + be(high, 8) + be(low, 8) for high in (0, 1, 1 << 63) for low in (0, *wide)]
    objects += [b"\x22" + be(bits, 4) for bits in edges.REALS32]
    objects += [b"\x23" + be(bits, 8) for bits in edges.REALS64]
    objects += [uid((1 << 8 * width) - 1, width) for width in range(1, 9)]
    objects += [data(bytes(range(length))) for length in lengths]
    objects += [text8(b"x" * length) for length in lengths]
    objects += [text16([0x706C] * length) for length in lengths]
    objects += [text8(chr(scalar).encode()) for scalar in edges.SCALARS]
    return [build([each]) for each in objects]


def dates():
    """Document 02's dates: the two neighbours of infinity, which are taken, and what isn't."""
    return [build([b"\x33" + be(bits, 8)]) for bits in edges.DATES]


def date_tapes():
    return [tape.date(bits) for bits in edges.DATES]


def tapes():
    key = tape.text("k")
    return [
        tape.TRUE,  # P9
        tape.array(tape.integer(1), tape.text("a"), tape.integer(1)),  # P10
        tape.dictionary(key, tape.array(key, tape.integer(-1))),  # P11
        *(deep_tape(*each) for each in DEPTHS),
        # 15 at other offsets: with lengths given, with keys, and where nothing follows.
        tape.start_array(1) * 513 + tape.END * 513,
        (tape.start_dictionary() + key) * 513,
        tape.start_dictionary() + key + tape.start_array() * 511 + tape.END * 512,
        tape.start_dictionary() + key + tape.start_array() * 512,
        # These two fix the numbering of objects, which P10 and P11 leave open.
        tape.array(tape.array(tape.integer(1)), tape.text("a")),
        tape.dictionary(tape.text("a"), tape.integer(1), key, tape.text("a")),
        # 21: an end with nothing open, a lone key, and what is no key.
        tape.END,
        tape.start_dictionary() + key + tape.END,
        tape.start_dictionary() + tape.TRUE,
        tape.start_dictionary() + tape.start_array(),
        tape.start_dictionary() + tape.start_dictionary(3),
        # 512 open and a container where a key is due: 21 comes before 15.
        tape.start_array() * 511 + tape.start_dictionary() + tape.start_array(),
        # 22 and 23.
        b"",
        tape.start_array(),
        tape.start_dictionary() + key,
        tape.TRUE + tape.TRUE,
        tape.TRUE + b"\xff",
        tape.array() + tape.END,
        # Equal bits, equal values, different kinds.
        tape.array(tape.real(0), tape.real(1 << 63), tape.real(0), tape.integer(0), tape.uid(0)),
        tape.array(tape.text("ab"), tape.data(b"ab"), tape.text("ab"), tape.data(b"ab")),
        tape.array(tape.TRUE, tape.FALSE, tape.TRUE, tape.integer(1), tape.uid(1)),
        # All the limits of integers, UIDs and reals, each in one file.
        tape.array(*(tape.integer(n) for n in edges.NUMBERS)),
        tape.array(*(tape.integer(-1 - n) for n in edges.NUMBERS if n < 1 << 63)),
        tape.array(*(tape.uid(n) for n in edges.NUMBERS)),
        tape.array(*(tape.real(bits) for bits in edges.REALS64)),
        # Given lengths are ignored.
        tape.start_array(0) + tape.TRUE + tape.END,
        tape.start_array((1 << 64) - 1) + tape.END,
        tape.start_dictionary(7) + tape.END,
        # The table's offset is 255, then 256: its entries take one byte, then two.
        tape.data(bytes(244)),
        tape.data(bytes(245)),
        # 256 objects, then 257: a reference takes one byte, then two.
        tape.array(*(tape.integer(i) for i in range(255))),
        tape.array(*(tape.integer(i) for i in range(256))),
        # Containers are never shared.
        tape.array(tape.array(), tape.array(), tape.dictionary(), tape.dictionary()),
    ]
