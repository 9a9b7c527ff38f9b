"""Good files, for the families that cut and change them."""

from .bplist import array, build, data, dictionary, text16, text8, uid


def samples():
    """Small files that hold every kind between them, with several sizes."""
    integers = [b"\x10\x07", b"\x11\x01\x00", b"\x12\x00\x01\x00\x00", b"\x13" + b"\xff" * 8]
    large = b"\x14" + bytes(8) + b"\xfe" * 8
    reals = [b"\x22\x3f\xc0\x00\x00", b"\x23\x40\x09\x21\xfb\x54\x44\x2d\x18"]
    texts = [text8(b"k"), text8("\u00e9t\u00e9".encode()), text16([0x706C, 0xD83D, 0xDE00])]
    return [
        build([b"\x09"]),
        build([array([1, 2, 1]), b"\x10\x01", text8(b"a")]),
        build([dictionary([1], [2]), text8(b"k"), array([1, 3]), b"\x13" + b"\xff" * 8]),
        build([array(range(1, 6)), *integers, large]),
        build([array([1, 2, 3, 4], 2), *reals, b"\x08", uid(300, 2)], 2, 2),
        build([dictionary([1, 2, 3], [1, 2, 3], 1), *texts], 3),
        build([array([1, 2], 3), data(b"\x00\x01" * 10), text8(b"longer than eight")], 4, 3),
        build([array([1, 1], 8), array([2], 8), dictionary([3], [3], 8), text8(b"z")], 8, 8),
        build([array([1, 2], 4), array([]), dictionary([], [])], 1, 4),
    ]
