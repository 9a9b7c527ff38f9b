#!/usr/bin/env python3
"""Compares the XML of tapes with xml_model.py, byte for byte, and with what others read in it.

    xml_ask.py [--seed N] [--count N] -- PROGRAM..

Each tape is asked with an output of some length: as long as the XML, longer, a byte too short, shorter. What expat reads, and the values that
plistlib reads, and those of libplist where it is installed, must be the tape's. A return
comes back as a newline, from libplist as it is."""
import argparse
import collections
import ctypes
import ctypes.util
import datetime
import plistlib
import random
import struct
import subprocess
import xml.parsers.expat

from generator import tape as make
from write_model import Refused
from xml_model import xml_of

KINDS = [
    "ValueOrStartCollection", "DictionaryKeyOrEndCollection", "StartArray", "StartDictionary", "EndCollection", "Boolean", "Data", "Date",
    "Integer", "Real", "String", "Uid",
]
EPOCH = datetime.datetime(2001, 1, 1)
FILLING = 0xA5
BATCH = 20_000
EDGES = [
    "", "&", "<", ">", "&&<<>>", "a&b<c>d", "\t\n\r", "\r", "\r\n", "\0", "\x01", "\x08", "\x0b", "\x0c", "\x0e", "\x1f", "\x7f", "\x80",
    "\x85", "\u07ff", "\u0800", "\u2028", "\ud7ff", "\ue000", "\ufeff", "\ufefe", "\uefbf", "\uffbf", "\ufffd", "\ufffe", "\uffff", "x\uffff",
    "\uf8ff\ufffe", "\U00010000", "\U0001fffe", "\U0010ffff", "\ubfbe", "]]>", "&amp;", "&#13;", "<![CDATA[", "--", "\"'", "é&ü", "日本<語>",
    "😀&😀", "a" * 31 + "&", "a" * 32 + "<", "a" * 63 + ">b", "z" * 200,
]
REALS = [
    0.0, -0.0, 0.5, -0.5, 5e-324, -63113904000.0, -63113904000.5, 252423993599.5, 252423993600.0, 1e300, -1e300, 820454400.0, -12219292800.0,
]


def bits(value):
    return int.from_bytes(struct.pack(">d", value), "big")


# --- tapes: each with its value, None where another can't read it as one ---------------------------------------------------------

def any_text(rng):
    if rng.random() < 0.3:
        return rng.choice(EDGES)
    letters = "ab &<>é日😀\n\t" + "z" * rng.randrange(20)
    return "".join(rng.choice(letters) for _ in range(rng.randrange(1, rng.choice((4, 12, 90)))))


def scalar(rng):
    """A scalar's value and its event."""
    kind = rng.randrange(40)
    if kind < 6:
        value = rng.random() < 0.5
        return value, b"\x02" if value else b"\x01"
    if kind < 16:
        value = rng.choice((rng.randrange(300), -rng.randrange(300), rng.randrange(1 << 64), -rng.randrange(1, 1 << 63), 10 ** rng.randrange(20)))
        return value, make.integer(value)
    if kind < 28:
        value = any_text(rng)
        return value, make.text(value.encode())
    if kind < 33:
        value = rng.randbytes(rng.randrange(40))
        return value, make.data(value)
    if kind < 38:
        seconds = rng.randrange(-63_113_904_000, 252_423_993_600)
        return EPOCH + datetime.timedelta(seconds=seconds), make.date(bits(seconds))
    if kind == 38:
        return None, make.date(bits(rng.choice(REALS)))
    return None, rng.choice((make.real(0), make.uid(9), make.real(bits(1.5))))


def tree(rng, depth):
    if depth and rng.random() < 0.55:
        count = rng.choice((0, 1, 2, 3, 5))
        if rng.random() < 0.5:
            parts = [tree(rng, depth - 1) for _ in range(count)]
            start = rng.choice((make.start_array(), make.start_array(count), make.start_array(7)))
            return [value for value, _ in parts], start + b"".join(part for _, part in parts) + b"\x0e"
        value, events = {}, [rng.choice((make.start_dictionary(), make.start_dictionary(count)))]
        for i in range(count):
            key = any_text(rng) + str(i)
            value[key], part = tree(rng, depth - 1)
            events += [make.text(key.encode()), part]
        return value, b"".join(events) + b"\x0e"
    return scalar(rng)


def damaged(rng, tape):
    """A tape with a byte changed, one left out or one added, or cut off."""
    at = rng.randrange(len(tape))
    return rng.choice((
        tape[:at] + bytes([rng.randrange(256)]) + tape[at + 1 :], tape[:at] + tape[at + 1 :], tape[:at] + bytes([rng.randrange(16)]) + tape[at:],
        tape[:at], tape + tape[:1],
    ))


def edges():
    """Every edge, alone, as a key, and beside every other; the ends of numbers, dates and depths."""
    for one in EDGES:
        yield one, make.text(one.encode())
        yield {one: one}, make.start_dictionary() + 2 * make.text(one.encode()) + b"\x0e"
        for other in EDGES:
            yield one + other, make.text((one + other).encode())
    numbers = {10**k + d for k in range(20) for d in (-1, 0, 1)} | {(1 << k) + d for k in range(65) for d in (-1, 0, 1)}
    for n in sorted(numbers):
        if n < 1 << 64:
            yield n, make.integer(n)
        if 0 < n <= 1 << 63:
            yield -n, make.integer(-n)
    for length in range(200):
        content = bytes(i * 37 % 256 for i in range(length))
        yield content, make.data(content)
    for value in REALS:
        yield None, make.date(bits(value))
        yield None, make.array(make.date(bits(value)), make.real(bits(value)))
    for depth in (1, 63, 64, 65, 511, 512, 513):
        yield None, b"\x0a" * depth + b"\x0e" * depth
        yield None, (b"\x0c\x09\x00" * depth)[: 3 * depth - 2] + b"\x0e" * depth
    for tape in (b"", b"\x0a", b"\x02\x02", b"\x0a\xff", b"\x0e", b"\x0c\x01", b"\x0c\x09\x00\x0e", b"\x09\x01\xff"):
        yield None, tape


def cases(seed, count):
    made = 0
    for case in edges():
        if made == count:
            return
        yield case
        made += 1
    rng = random.Random(seed)
    while made < count:
        value, tape = tree(rng, rng.choice((0, 1, 2, 4, 6)))
        if rng.random() < 0.08:
            value, tape = None, damaged(rng, tape)
        yield value, tape
        made += 1


# --- what others read ------------------------------------------------------------------------------------------------------------

def newlines(text):
    return text.replace("\r\n", "\n").replace("\r", "\n")


def kept(text):
    return text


def same(read, value, change=newlines):
    """Whether a value was read, text changed in some way; None stands for one that isn't told."""
    if value is None:
        return True
    if isinstance(value, str):
        return isinstance(read, str) and read == change(value)
    if isinstance(value, list):
        return isinstance(read, list) and len(read) == len(value) and all(same(a, b, change) for a, b in zip(read, value))
    if isinstance(value, dict):
        told = {change(key): part for key, part in value.items()}
        return isinstance(read, dict) and read.keys() == told.keys() and all(same(read[key], part, change) for key, part in told.items())
    return type(read) is type(value) and read == value


class Libplist:
    """libplist's reader of XML. What it read is taken from it as a binary file."""

    def __init__(self):
        self.library = None
        for name in ("libplist-2.0.so.4", "libplist-2.0.so.3"):
            try:
                self.library = ctypes.CDLL(name)
                return
            except OSError:
                pass

    def read(self, content):
        node, file, length = ctypes.c_void_p(), ctypes.c_void_p(), ctypes.c_uint32()
        self.library.plist_from_xml(content, ctypes.c_uint32(len(content)), ctypes.byref(node))
        if not node.value:
            raise ValueError("libplist reads nothing")
        self.library.plist_to_bin(node, ctypes.byref(file), ctypes.byref(length))
        try:
            return plistlib.loads(ctypes.string_at(file, length.value))
        finally:
            self.library.plist_free(node)
            libc = ctypes.CDLL(None)
            libc.free(file)


# --- the comparison --------------------------------------------------------------------------------------------------------------

def room_for(rng, length):
    return rng.choice((*6 * (length,), length + rng.randrange(1, 40), length + 1, length - 1, rng.randrange(length)))


def question(tape, room):
    return struct.pack("=II", len(tape), room) + tape


def answers(program, questions, rooms):
    done = subprocess.run(program, input=b"".join(questions), stdout=subprocess.PIPE, check=True).stdout
    at = 0
    for room in rooms:
        yield struct.unpack_from("=QIIII", done, at)[:4], struct.unpack_from("=QIIII", done, at + 24)[:4], done[at + 48 : at + 48 + room]
        at += 48 + room
    if at != len(done):
        raise SystemExit("the program answers too much")


def told(refused):
    kinds = [KINDS.index(kind) + 1 for kind in refused.kinds] or [0, 0]
    return (refused.place, refused.number, *kinds)


def expected(tape, room, content, refused):
    """What must come: the numbers of zm_xml, those of zm_xml_length, and the output."""
    filling = bytes([FILLING]) * room
    if refused:
        return told(refused), told(refused), filling
    length = (len(content), 0, 0, 0)
    if len(content) > room:
        return (0, 25, 0, 0), length, filling
    return length, length, content + filling[len(content) :]


class Run:
    def __init__(self, program, seed):
        self.program, self.rng, self.counts, self.libplist = program, random.Random(seed + 1), collections.Counter(), Libplist()

    def batch(self, batch):
        asked = []
        for value, tape in batch:
            content, refused = None, None
            try:
                content = xml_of(tape)
            except Refused as why:
                refused = why
            asked.append((value, tape, content, refused, room_for(self.rng, len(content)) if content else self.rng.choice((0, 3000))))
        rooms = [room for *_, room in asked]
        for (value, tape, content, refused, room), answer in zip(asked, answers(self.program, [question(t, r) for _, t, _, _, r in asked], rooms)):
            if answer != expected(tape, room, content, refused):
                self.differs("the model", tape, answer)
            self.counts[f"refused {refused.number}" if refused else "XML" if len(content) <= room else "refused 25"] += 1
            if content:
                self.others(value, tape, content)

    def others(self, value, tape, content):
        try:
            xml.parsers.expat.ParserCreate().Parse(content, True)
        except xml.parsers.expat.ExpatError as why:
            self.differs("expat", tape, why)
        self.counts["read by expat"] += 1
        if tape.count(b"\x0a") + tape.count(b"\x0c") > 200:
            return
        if not same(plistlib.loads(content), value):
            self.differs("plistlib", tape, value)
        self.counts["read by plistlib"] += 1
        if self.libplist.library and self.rng.random() < 0.1:
            if not same(self.libplist.read(content), value, kept):
                self.differs("libplist", tape, value)
            self.counts["read by libplist"] += 1

    def differs(self, whom, tape, what):
        self.counts["differences"] += 1
        if self.counts["differences"] <= 20:
            print(f"differs from {whom}: {tape[:200].hex()}: {str(what)[:300]}")


def main():
    parser = argparse.ArgumentParser(allow_abbrev=False)
    parser.add_argument("--seed", type=int, default=1)
    parser.add_argument("--count", type=int, default=100_000)
    parser.add_argument("program", nargs="+")
    words = parser.parse_args()
    run, batch = Run(words.program, words.seed), []
    for case in cases(words.seed, words.count):
        batch.append(case)
        if len(batch) == BATCH:
            run.batch(batch)
            batch = []
    run.batch(batch)
    for what, count in sorted(run.counts.items()):
        print(f"{count:9,} {what}")
    print(f"{words.count:,} tapes, {run.counts['differences']} differences")
    raise SystemExit(run.counts["differences"] > 0)


if __name__ == "__main__":
    main()
