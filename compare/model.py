"""Document 01's reader rules as a function of a file and a state, for states and records that no reader gave.

Written from document 01 ("Reader rules", "Refusal numbers") and the project's decisions on what it leaves open. It shares
nothing with the proved code. A state is a tuple:

    (fresh, length, offsets, refs, count, table, place, held, frames)   frames: 512 of (object, position, length, offset)

A record is a kind, a value, its object's number and offset. A signed integer's value is its 64 bits, a real's and a date's too.
"""
import struct

import dates

MAX_LENGTH = 2_147_483_648
MAX_OPEN = 512
MOST_SIGNED = (1 << 63) - 1
SIZES = (1, 2, 3, 4, 8)
# The tape's kinds, but that 4 is an integer by its 64 bits; and a NaN by any bits.
KINDS = {
    "false": 1, "true": 2, "unsigned": 3, "signed": 4, "real": 5, "date": 6, "uid": 7, "data": 8, "text": 9,
    "array": 10, "sized array": 11, "dict": 12, "sized dict": 13, "end": 14, "nan": 15,
}  # fmt: skip
NO_FRAME = (0, 0, 0, 0)
FRESH = (1, 0, 0, 0, 0, 0, 0, 0, (NO_FRAME,) * MAX_OPEN)
ENDED = (0,) + FRESH[1:]


class Refused(Exception):
    """A refusal with document 01's number and its place. The state after it is ENDED unless `keeps` says otherwise."""

    def __init__(self, number, place, keeps=False):
        self.number, self.place, self.keeps = number, place, keeps


class Added(Refused):
    """A refusal by a rule that document 02 adds."""


# The clauses of 17, of a state and of a record, in their order. For counts alone.
CLAUSES = [
    "length, depth or sizes", "no entry of the innermost", "another offset than was kept", "no container there",
    "another length, or a position behind the end", "a reference outside the file", "an entry outside the file",
    "no trailer", "no such number", "another offset than is listed", "an offset in the trailer", "refused there", "another object",
]  # fmt: skip


class Wrong(Exception):
    """The state or the record isn't one that this file gives: 17. It says which clause is met."""

    def __init__(self, clause, *more):
        super().__init__(" ".join([clause, *more]))
        assert clause in CLAUSES


def number_at(file, at, width):
    """The big-endian number at an offset, or None where it isn't all within the file."""
    if at + width > len(file):
        return None
    return int.from_bytes(file[at : at + width], "big")


def widened(bits):
    """The 64 bits of a 32-bit real: numbers exactly; of a NaN the sign kept, quiet, the fraction shifted by 29."""
    if bits & 0x7F800000 == 0x7F800000 and bits & 0x7FFFFF:
        return (bits >> 31) << 63 | 0x7FF8 << 48 | (bits & 0x7FFFFF) << 29
    return struct.unpack(">Q", struct.pack(">d", struct.unpack(">f", bits.to_bytes(4, "big"))[0]))[0]


def utf16_text(content):
    """The text of UTF-16 in UTF-8, or None at a surrogate that stands alone."""
    try:
        return content.decode("utf-16-be").encode()
    except UnicodeDecodeError:
        return None


def head(file, offset):
    """The length that a head gives and where the content begins: the low nibble, or if it is 15, the next byte is 10, 11, 12 or
    13 for 1, 2, 4 or 8 bytes of length; any other is 31. Of an object below T the head lies within the file."""
    low = file[offset] & 15
    if low != 15:
        return low, offset + 1
    size = file[offset + 1]
    if not 0x10 <= size <= 0x13:
        raise Added(31, offset)
    width = 1 << (size & 3)
    return number_at(file, offset + 2, width), offset + 2 + width


def measure(file, offset, end):
    """An object's true end, head and content, must be at most T, else 6."""
    if end > len(file) - 32:
        raise Added(6, offset)


def whole(file, offset, at, width):
    """The number of a scalar of fixed size, which must end at or before T."""
    measure(file, offset, at + width)
    return number_at(file, at, width)


def object_at(file, refs, offset):
    """What stands at an offset below T: ("scalar", line), ("data", bytes), ("text", bytes, wide) or (kind, length, start)."""
    marker = file[offset]
    high, low = marker >> 4, marker & 15
    if marker == 0x00:
        raise Refused(8, offset)
    if marker in (0x08, 0x09):
        return "scalar", "true" if marker == 0x09 else "false"
    if marker == 0x0F:
        raise Refused(9, offset)
    if marker in (0x10, 0x11, 0x12):
        return "scalar", f"int {whole(file, offset, offset + 1, 1 << low)}"
    if marker == 0x13:
        number = whole(file, offset, offset + 1, 8)
        return "scalar", f"int {number - (1 << 64) if number >> 63 else number}"
    if marker == 0x14:
        number = whole(file, offset, offset + 1, 16)
        if number >> 64:
            raise Refused(11, offset)
        return "scalar", f"int {number}"
    if marker == 0x22:
        return "scalar", f"real {widened(whole(file, offset, offset + 1, 4)):016x}"
    if marker == 0x23:
        return "scalar", f"real {whole(file, offset, offset + 1, 8):016x}"
    if marker == 0x33:
        bits = whole(file, offset, offset + 1, 8)
        if not dates.is_date(bits):
            raise Added(34, offset)
        return "scalar", f"date {bits:016x}"
    if high in (4, 5, 6):
        length, start = head(file, offset)
        size = length * 2 if high == 6 else length
        measure(file, offset, start + size)
        content = file[start : start + size]
        if high == 4:
            return "data", content
        if high == 5:
            try:
                content.decode("utf-8")
            except UnicodeDecodeError:
                raise Refused(12, offset)
            return "text", content, False
        text = utf16_text(content)
        if text is None:
            raise Refused(13, offset)
        return "text", text, True
    if 0x80 <= marker <= 0x87:
        return "scalar", f"uid {whole(file, offset, offset + 1, low + 1)}"
    if high == 0xA:
        length, start = head(file, offset)
        measure(file, offset, start + length * refs)
        return "array", length, start
    if high == 0xD:
        length, start = head(file, offset)
        measure(file, offset, start + 2 * length * refs)
        return "dict", length, start
    raise Refused(10, offset)


def with_bytes(word, content):
    return f"{word} {len(content)}" + (f" {content.hex()}" if content else "")


def trailer(file):
    """The layout and the root: (offsets, refs, count, table, root)."""
    if len(file) < 8:
        raise Refused(2, 0, keeps=True)
    if file[:8] != b"bplist00":
        raise Refused(3, 0, keeps=True)
    top = len(file) - 32
    if top < 0:
        raise Refused(2, 0, keeps=True)
    offsets, refs = file[top + 6], file[top + 7]
    if offsets not in SIZES:
        raise Refused(4, top, keeps=True)
    if refs not in SIZES:
        raise Refused(5, top, keeps=refs == 0)
    count, root, table = (number_at(file, top + at, 8) for at in (8, 16, 24))
    if table + count * offsets > top:
        raise Refused(6, table)
    return offsets, refs, count, table, root


def fetch(file, state, object_number):
    """An object that a reference names: the answer (number, offset, line) and the state after it."""
    fresh, length, offsets, refs, count, table, place, held, frames = state
    if object_number >= count:
        raise Refused(7, place)
    offset = number_at(file, table + object_number * offsets, offsets)
    if offset is None:
        raise Wrong("an entry outside the file")
    if offset >= len(file) - 32:
        raise Refused(6, place)
    found = object_at(file, refs, offset)
    frames = list(frames)
    if held:
        inner = frames[held - 1]
        frames[held - 1] = (inner[0], inner[1] + 1) + inner[2:]
    if found[0] in ("array", "dict"):
        if any(frame[0] == object_number for frame in frames[:held]):
            raise Refused(14, offset)
        if held >= MAX_OPEN:
            raise Refused(15, offset)
        frames[held] = (object_number, 0, found[1], offset)
        return (object_number, offset, f"{found[0]} {found[1]}"), state[:6] + (offset, held + 1, tuple(frames))
    line = found[1] if found[0] == "scalar" else with_bytes("data" if found[0] == "data" else "str", found[1])
    return (object_number, offset, line), (state[:6] + (offset, held, tuple(frames)) if held else ENDED)


def go_on(file, state):
    """A call with an open container: what is due in the innermost one."""
    fresh, length, offsets, refs, count, table, place, held, frames = state
    if length != len(file) or held > MAX_OPEN or offsets not in SIZES or refs not in SIZES:
        raise Wrong("length, depth or sizes")
    number, position, claimed, kept = frames[held - 1]
    offset = number_at(file, table + number * offsets, offsets) if number < count else None
    if offset is None:
        raise Wrong("no entry of the innermost")
    if offset != kept:
        raise Wrong("another offset than was kept")
    if offset >= len(file) - 32 or file[offset] >> 4 not in (0xA, 0xD):
        raise Wrong("no container there")
    try:
        found, start = head(file, offset)
    except Refused:
        raise Wrong("no container there")
    references = found if file[offset] >> 4 == 0xA else 2 * found
    if found != claimed or position > references:
        raise Wrong("another length, or a position behind the end")
    if position == references:
        if held == 1:
            return (number, offset, "close"), ENDED
        frames = frames[: held - 1] + (NO_FRAME,) + frames[held:]
        return (number, offset, "close"), state[:7] + (held - 1, frames)
    at = position if references == found else position // 2 + position % 2 * found
    reference = number_at(file, start + at * refs, refs)
    if reference is None:
        raise Wrong("a reference outside the file")
    return fetch(file, state, reference)


def listed(line):
    """A scalar as the listing says it: a date by its day and time, if it has one. Elsewhere here a date is its bits."""
    word, _, bits = line.partition(" ")
    return dates.line_of(int(bits, 16)) if word == "date" else line


def printed(file, number, offset, line):
    """An event as a program prints it: the bytes of data and text are asked for in the same file, and there are none where that is refused,
    as it may be after a forged state."""
    word, _, _ = line.partition(" ")
    if word not in ("data", "str"):
        return listed(line)
    try:
        return with_bytes(word, given(file, KINDS["data" if word == "data" else "text"], 0, number, offset)[1])
    except Wrong:
        return with_bytes(word, b"")


def call(file, state):
    """What one call gives where it isn't refused: (number, offset, line), and the state after it."""
    if len(file) > MAX_LENGTH:
        raise Refused(1, 0, keeps=True)
    if not state[0]:
        return go_on(file, state)
    offsets, refs, count, table, root = trailer(file)
    laid = (0, len(file), offsets, refs, count, table, table, 0, (NO_FRAME,) * MAX_OPEN)
    return fetch(file, laid, root)


def step(file, state):
    """One call: the answer's line and the state after it."""
    fresh, held = state[0], state[7]
    if not fresh and not held:
        return "end", state
    try:
        (number, offset, line), after = call(file, state)
        return f"at {number} {offset} {printed(file, number, offset, line)}", after
    except Refused as refusal:
        return f"refused {refusal.number} at {refusal.place}", state if refusal.keeps else ENDED
    except Wrong:
        return "refused 17 at 0", state


def added(file, calls):
    """The first of so many calls from a fresh reader that a rule of document 02 refuses: (its index, number, place), or None."""
    state = FRESH
    for at in range(calls):
        if not state[0] and not state[7]:
            return None
        try:
            _, state = call(file, state)
        except Added as refusal:
            return at, refusal.number, refusal.place
        except Refused:
            return None
    return None


def said(kind, value):
    """A record without bytes, that is no container's, as a listing says it."""
    if kind in (KINDS["false"], KINDS["true"]):
        return "true" if kind == KINDS["true"] else "false"
    if kind == KINDS["unsigned"]:
        return f"int {value}"
    if kind == KINDS["signed"]:
        return f"int {value - (1 << 64) if value >> 63 else value}"
    if kind in (KINDS["real"], KINDS["nan"]):
        return f"real {value:016x}"
    return f"date {value:016x}" if kind == KINDS["date"] else f"uid {value}"


def given(file, kind, value, number, offset):
    """What reading gives for a record, which must be that record: what `object_at` finds."""
    try:
        offsets, refs, count, table, _ = trailer(file)
    except Refused:
        raise Wrong("no trailer")
    if number >= count:
        raise Wrong("no such number")
    if number_at(file, table + number * offsets, offsets) != offset:
        raise Wrong("another offset than is listed")
    if offset >= len(file) - 32:
        raise Wrong("an offset in the trailer")
    try:
        found = object_at(file, refs, offset)
    except Refused as refusal:
        raise Wrong("refused there", f"with {refusal.number}")
    if kind in (KINDS["data"], KINDS["text"]):
        same = found[0] == ("data" if kind == KINDS["data"] else "text")
    elif kind == KINDS["end"]:
        same = found[0] in ("array", "dict")
    elif kind in (KINDS["sized array"], KINDS["sized dict"]):
        same = found[:2] == ("array" if kind == KINDS["sized array"] else "dict", value)
    else:
        same = kind not in (KINDS["array"], KINDS["dict"]) and found == ("scalar", said(kind, value))
    if not same:
        raise Wrong("another object")
    return found


def request(file, scratch, kind, value, number, offset):
    """The two calls of a text request: (the first's line, the scratch afterwards, the second's part)."""
    refused = lambda number, place: (f"refused {number} at {place}", scratch, b"")
    if len(file) > MAX_LENGTH:
        return refused(1, 0)
    try:
        found = given(file, kind, value, number, offset)
    except Wrong:
        return refused(17, 0)
    if kind not in (KINDS["data"], KINDS["text"]):
        return "length 0", scratch, b""
    if found[0] == "data" or not found[2]:
        return f"length {len(found[1])}", scratch, found[1]
    text = found[1]
    if len(scratch) < len(text):
        return refused(16, offset)
    return f"length {len(text)}", text + scratch[len(text) :], text


def clause(judge, *words):
    """Which clause of 17 is met, for counts: `judge` is `call` or `given`."""
    try:
        judge(*words)
    except Wrong as wrong:
        return str(wrong)
    except Refused:
        pass
    return "none"
