"""Document 01's writer rules as a function of a tape, the number of lent words and the room of the output.

Written from docs/FORMAT.md (T, G, W), whose rules are named here, and document 01. It shares nothing with the proved code or with
the builders of tapes."""

MAX_LENGTH = 2_147_483_648
MAX_OPEN = 512
WORDS = 8  # for each event
SIZES = (1, 2, 4, 8)
SCALARS = {3: "Integer", 4: "Integer", 5: "Real", 6: "Date", 7: "Uid", 8: "Data", 9: "String"}
STARTS = {0x0A: "StartArray", 0x0B: "StartArray", 0x0C: "StartDictionary", 0x0D: "StartDictionary"}


class Refused(Exception):
    """A refusal's number and place; 21 has the kinds that it names behind them."""

    def __init__(self, number, place, kinds=()):
        self.number, self.place, self.kinds = number, place, kinds

    def line(self):
        return " ".join([f"refused {self.number} at {self.place}", *self.kinds])


# --- T: the tape ----------------------------------------------------------------------------------

def number_at(tape, at):
    """T1: a number and the place behind it, or None."""
    value = 0
    for group in range(10):
        if at + group >= len(tape):
            return None
        byte = tape[at + group]
        value += (byte % 128) << 7 * group
        if byte < 128:
            shortest = byte > 0 or group == 0
            return (value, at + group + 1) if shortest and value < 1 << 64 else None
    return None


def scalar_at(tape, at):
    """T2: the value of a scalar that has one and the place behind it, or None."""
    kind = tape[at]
    if kind in (5, 6):
        content = tape[at + 1 : at + 9]
        return (content, at + 9) if len(content) == 8 and (kind == 5 or is_finite(content)) else None
    got = number_at(tape, at + 1)
    if got is None or kind in (3, 7):
        return got
    value, start = got
    if kind == 4:
        return (-1 - value, start) if value < 1 << 63 else None
    content = tape[start : start + value]
    if len(content) < value or (kind == 9 and not is_utf8(content)):
        return None
    return content, start + value


def is_finite(content):
    """Whether eight bytes are a finite number's: its exponent isn't all ones."""
    return int.from_bytes(content[:2], "big") >> 4 & 0x7FF != 0x7FF


def is_utf8(content):
    try:
        content.decode()
    except UnicodeDecodeError:
        return False
    return True


def event_at(tape, at):
    """T3: the event at a place as its name and value, and the place behind it; None where there is none."""
    kind = tape[at]
    if kind in (1, 2):
        return ("Boolean", kind == 2), at + 1
    if kind in SCALARS:
        got = scalar_at(tape, at)
        return got and ((SCALARS[kind], got[0]), got[1])
    if kind in STARTS:
        got = number_at(tape, at + 1) if kind in (0x0B, 0x0D) else (None, at + 1)
        return got and ((STARTS[kind], None), got[1])  # W2: the length is not looked at
    return (("EndCollection", None), at + 1) if kind == 0x0E else None


# --- G: one whole root ----------------------------------------------------------------------------

class Container:
    def __init__(self, kind):
        self.kind, self.members = kind, []

    def key_is_due(self):
        return self.kind == "StartDictionary" and len(self.members) % 2 == 0


def root_of(tape):
    """The root, its containers in the order in which they begin, and how many events there are."""
    if len(tape) > MAX_LENGTH:
        raise Refused(1, 0)
    roots, opened, containers, events, at = [], [], [], 0, 0
    while at < len(tape):
        if roots and not opened:
            raise Refused(23, at)
        got = event_at(tape, at)
        if got is None:
            raise Refused(20, at)
        (name, value), after = got
        check(name, opened, at)
        if name == "EndCollection":
            opened.pop()
        else:
            node = Container(name) if name in STARTS.values() else (name, value)
            (opened[-1].members if opened else roots).append(node)
            if isinstance(node, Container):
                opened.append(node)
                containers.append(node)
        events += 1
        at = after
    if opened or not roots:
        raise Refused(22, len(tape))
    return roots[0], containers, events


def check(name, opened, at):
    """G5, G6."""
    if name == "EndCollection":
        if not opened:
            raise Refused(21, at, ("ValueOrStartCollection", name))
        if opened[-1].kind == "StartDictionary" and not opened[-1].key_is_due():
            raise Refused(21, at, ("DictionaryKeyOrEndCollection", name))
    elif opened and opened[-1].key_is_due() and name != "String":
        raise Refused(21, at, ("DictionaryKeyOrEndCollection", name))
    elif name in STARTS.values() and len(opened) == MAX_OPEN:
        raise Refused(15, at)


# --- W: the file ----------------------------------------------------------------------------------

def size_of(number):
    """The fewest of 1, 2, 4 and 8 bytes that hold a number."""
    return next(size for size in SIZES if number < 256**size)


def be(number, size):
    return number.to_bytes(size, "big")


def integer(number):
    """W7."""
    size = size_of(number)
    return bytes([0x10 + SIZES.index(size)]) + be(number, size)


def head(marker, length):
    """W9."""
    return bytes([marker + length]) if length < 15 else bytes([marker + 15]) + integer(length)


def scalar_bytes(name, value):
    """W8, W10, W11."""
    if name == "Boolean":
        return b"\x09" if value else b"\x08"
    if name == "Integer":
        if value < 0:
            return b"\x13" + be(value + (1 << 64), 8)
        return integer(value) if value < 1 << 63 else b"\x14" + be(value, 16)
    if name in ("Real", "Date"):
        return (b"\x23" if name == "Real" else b"\x33") + value
    if name == "Uid":
        return bytes([0x80 + size_of(value) - 1]) + be(value, size_of(value))
    if name == "Data":
        return head(0x40, len(value)) + value
    if max(value, default=0) < 128:
        return head(0x50, len(value)) + value
    units = value.decode().encode("utf-16-be")
    return head(0x60, len(units) // 2) + units


def members(container):
    """Its references in order: of a dictionary the keys, then the values."""
    if container.kind == "StartArray":
        return container.members
    return container.members[::2] + container.members[1::2]


def numbered(root, containers):
    """W3, W4: the number of each object. A scalar stands for all that are equal to it (W1), a container for itself."""
    numbers = {root: 0}
    for container in containers:
        for member in members(container):
            numbers.setdefault(member, len(numbers))
    return numbers


def in_order(root):
    """W5, W6: the objects in the order of their bytes."""
    seen = {}

    def visit(node):
        seen.setdefault(node)
        if isinstance(node, Container):
            dictionary = node.kind == "StartDictionary"
            for key in node.members[::2] if dictionary else ():
                seen.setdefault(key)
            for value in node.members[1::2] if dictionary else node.members:
                visit(value)

    visit(root)
    return list(seen)


def file_of(root, containers):
    """W12 to W15."""
    numbers = numbered(root, containers)
    width = size_of(len(numbers) - 1)
    out = bytearray(b"bplist00")
    places = {}
    for node in in_order(root):
        places[numbers[node]] = len(out)
        if isinstance(node, Container):
            array = node.kind == "StartArray"
            out += head(0xA0, len(node.members)) if array else head(0xD0, len(node.members) // 2)
            out += b"".join(be(numbers[member], width) for member in members(node))
        else:
            out += scalar_bytes(*node)
    table = len(out)
    size = size_of(table)
    out += b"".join(be(places[number], size) for number in range(len(numbers)))
    out += bytes(6) + bytes([size, width]) + be(len(numbers), 8) + be(0, 8) + be(table, 8)
    return bytes(out)


def write(tape, words=None, room=None):
    """The file and how many events the tape has. Without words and room there is always enough."""
    root, containers, events = root_of(tape)
    if words is not None and words < WORDS * events:
        raise Refused(24, 0)
    file = file_of(root, containers)
    if len(file) > MAX_LENGTH:
        raise Refused(26, 0)
    if room is not None and room < len(file):
        raise Refused(25, 0)
    return file, events
