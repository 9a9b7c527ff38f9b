"""A small builder of event tapes, written from document 01."""

END = b"\x0e"
FALSE = b"\x01"
TRUE = b"\x02"


def number(value):
    """Groups of seven bits, low group first, the high bit on all but the last."""
    groups = bytearray()
    while value >= 0x80:
        groups.append(0x80 | value & 0x7F)
        value >>= 7
    groups.append(value)
    return bytes(groups)


def integer(value):
    return b"\x03" + number(value) if value >= 0 else b"\x04" + number(-1 - value)


def real(bits):
    return b"\x05" + bits.to_bytes(8, "big")


def date(bits):
    return b"\x06" + bits.to_bytes(8, "big")


def uid(value):
    return b"\x07" + number(value)


def data(content):
    return b"\x08" + number(len(content)) + content


def text(content):
    if isinstance(content, str):
        content = content.encode()
    return b"\x09" + number(len(content)) + content


def start_array(length=None):
    return b"\x0a" if length is None else b"\x0b" + number(length)


def start_dictionary(length=None):
    return b"\x0c" if length is None else b"\x0d" + number(length)


def array(*events):
    return start_array() + b"".join(events) + END


def dictionary(*events):
    return start_dictionary() + b"".join(events) + END
