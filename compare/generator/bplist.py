"""A small builder of binary property lists, right and wrong ones.

It is written from Apple's notes and document 01, and shares nothing with the programs it tests.
Objects are bytes; a file is objects, a table of their offsets, and a trailer.
"""

MAGIC = b"bplist00"
SIZES = (1, 2, 3, 4, 8)  # of offsets and references


def be(number, width):
    """A big-endian number; too large a one loses its high bytes, as in a wrong file."""
    return (number % (1 << (8 * width))).to_bytes(width, "big")


def width_of(number):
    """The width of the shortest of the four length forms: 1, 2, 4 or 8 bytes."""
    for width in (1, 2, 4, 8):
        if number < 1 << (8 * width):
            return width
    raise ValueError(number)


def head(kind, length, width=None):
    """A marker with its length: inline below 15, unless a width asks for the long form."""
    if width is None and length < 15:
        return bytes([kind << 4 | length])
    width = width or width_of(length)
    power = (1, 2, 4, 8).index(width)
    return bytes([kind << 4 | 15, 0x10 | power]) + be(length, width)


def data(content, width=None):
    return head(4, len(content), width) + content


def text8(content, width=None):
    return head(5, len(content), width) + content


def text16(units, width=None):
    return head(6, len(units), width) + b"".join(be(unit, 2) for unit in units)


def uid(number, width):
    return bytes([0x80 | width - 1]) + be(number, width)


def array(references, ref_size=1, width=None):
    return head(10, len(references), width) + b"".join(be(r, ref_size) for r in references)


def dictionary(keys, values, ref_size=1, width=None):
    both = list(keys) + list(values)
    return head(13, len(keys), width) + b"".join(be(r, ref_size) for r in both)


def trailer(offset_size, ref_size, count, root, table, padding=bytes(6)):
    return padding + bytes([offset_size, ref_size]) + be(count, 8) + be(root, 8) + be(table, 8)


def build(objects, offset_size=None, ref_size=1, root=0, gap=b"", padding=bytes(6)):
    """A file of these objects in this order, with `gap` between the table and the trailer."""
    body = MAGIC
    offsets = []
    for item in objects:
        offsets.append(len(body))
        body += item
    offset_size = offset_size or (1 if len(body) < 256 else 2)
    table = b"".join(be(offset, offset_size) for offset in offsets)
    end = trailer(offset_size, ref_size, len(objects), root, len(body), padding)
    return body + table + gap + end


def with_table_first(offsets, body, offset_size=1, ref_size=1, root=0, **changed):
    """A file whose table stands at 8, so that objects can touch or pass the trailer."""
    table = b"".join(be(offset, offset_size) for offset in offsets)
    fields = {"count": len(offsets), "root": root, "table": 8}
    fields.update(changed)
    return MAGIC + table + body + trailer(offset_size, ref_size, **fields)
