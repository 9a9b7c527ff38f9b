#!/usr/bin/env python3
"""Tapes and paths for the lookup: makes them from a seed, predicts the answers with find_model.py, and compares.

    find.py --seed 1 --count 100000 -- PROGRAM ..   asks the program (words may start it), compares, counts

compare/find starts it. README.md says what is asked."""
import argparse
import collections
import itertools
import random
import struct
import subprocess
import sys

sys.dont_write_bytecode = True  # nothing is left beside the sources

import find_model
from generator import find_families, tape

BATCH = 4096
ANSWER = struct.Struct("=4I2Q")
NOT_FOUND = 254
KINDS = ("ValueOrStartCollection", "DictionaryKeyOrEndCollection", "StartArray", "StartDictionary", "EndCollection", "Boolean", "Data", "Date",
         "Integer", "Real", "String", "Uid")
SAMPLE = 120  # drawn lines of the sample
SMALL = 120  # bytes of a drawn tape in it


def drawn(seed):
    """Each family in turn, with its name; the deep ones, which are long, one time in twenty."""
    generators = {name: random.Random(f"{seed} {name}") for name in find_families.FAMILIES}
    for turn in itertools.count():
        for name in generators:
            if name != "deep" or turn % 20 == 0:
                yield name, *find_families.FAMILIES[name](generators[name])


# --- what must be answered ------------------------------------------------------------------------

def numbers_for(question):
    """Code, expected, found, start and length, as the header says."""
    try:
        found = find_model.find(*question)
    except find_model.Refused as refused:
        kinds = [1 + KINDS.index(kind) for kind in refused.kinds] or [0, 0]
        return (refused.number, *kinds, refused.place, 0)
    return (NOT_FOUND, 0, 0, 0, 0) if found is None else (0, 0, 0, *found)


def lines_for(question):
    """The same as crates/replay_writer prints it: the answer, then the part."""
    drawn_tape, path = question
    try:
        found = find_model.find(drawn_tape, path)
    except find_model.Refused as refused:
        return [refused.line(), "part"]
    if found is None:
        return ["nowhere", "part"]
    start, length = found
    return [f"found {start} {length}", f"part {drawn_tape[start : start + length].hex()}"]


# --- the sample -----------------------------------------------------------------------------------

def worked():
    """A hold record, every path of it and beside it; a key twice; what hides another; paths that are none; bad tapes."""
    hold = tape.dictionary(tape.text("un"), tape.integer(1), tape.text("until"), tape.integer(2), tape.text("until"), tape.integer(3))
    record = tape.start_dictionary(1) + tape.text("matter") + tape.dictionary(tape.text("id"), tape.integer(7), tape.text("hold"), hold) + tape.END
    matter = [b"matter", b"hold", b"until"]
    keys = [matter[:n] for n in range(4)]
    keys += [[b"matter", b"hold", other] for other in (b"un", b"unt", b"untils", b"")] + [[b"until"], [b"matter", b"id"], [b"matter", b"id", b"until"], [b""]]
    yield from ((record, find_model.path_of(each)) for each in keys)
    hiding = tape.dictionary(tape.text("a"), tape.integer(1), tape.text("a"), tape.dictionary(tape.text("b"), tape.integer(2)))
    yield from ((hiding, find_model.path_of(each)) for each in ([b"a"], [b"a", b"b"], [b"b"]))
    listed = tape.array(tape.dictionary(tape.text("a"), tape.integer(1)), tape.text("a"), tape.text("b"))
    yield from ((listed, find_model.path_of(each)) for each in ([], [b"a"], [b"b"]))
    for path in (b"", b"\x01", b"\x02\x01a", b"\0\0", b"\x80\0", b"\x01\x81\0a", b"\x01\x02a", b"\x01\xff", b"\x01\x01a\0", b"\xff" * 9 + b"\x01", b"\x01\x01\xff"):
        yield hiding, path
        yield hiding + tape.END, path
    for bad in (b"", b"\x0c\x03\x01", b"\x0c\x09\x01a\x0e", b"\x0e", b"\x0a", b"\x02\xff", b"\x0a\xff"):
        yield bad, b"\x01\x01a"
    for levels in (512, 513):
        arrays = tape.start_array() * levels + tape.END * levels
        yield arrays, b"\0"
        yield arrays, b"\x01\0"
    wide = tape.dictionary(*(tape.text(f"{n}") + tape.integer(n) for n in range(200)))
    yield from ((wide, find_model.path_of([f"{n}".encode()])) for n in (0, 19, 199, 200))


def sample():
    """Lines of crates/replay_writer with their answers: a tape, a slash and a path."""
    small = ((t, p) for _, t, p in drawn("sample") if len(t) <= SMALL)
    return [(f"{t.hex()}/{p.hex()}", lines_for((t, p))) for t, p in itertools.chain(worked(), itertools.islice(small, SAMPLE))]


# --- comparing ------------------------------------------------------------------------------------

class Program:
    def __init__(self, words):
        self.process = subprocess.Popen(words, stdin=subprocess.PIPE, stdout=subprocess.PIPE)

    def send(self, kind, questions):
        """One batch of two pieces of bytes and a number. The program takes all of it before it answers."""
        parts = [struct.pack("=Q", len(questions))]
        for first, second, held in questions:
            parts += [struct.pack("=4Q", ord(kind), len(first), len(second), held), first, second]
        self.process.stdin.write(b"".join(parts))
        self.process.stdin.flush()

    def read(self, size):
        got = self.process.stdout.read(size)
        if len(got) != size:
            sys.exit("find.py: the program ended early")
        return got

    def finds(self, questions):
        self.send("f", [(*question, 0) for question in questions])
        answers = ANSWER.iter_unpack(self.read(len(questions) * ANSWER.size))
        return [(code, expected, found, start, length) for code, expected, found, _, start, length in answers]

    def appends(self, questions):
        """The number, and the memory afterwards."""
        self.send("a", [(memory, key, held) for memory, held, key in questions])
        return [(ANSWER.unpack(self.read(ANSWER.size))[4], self.read(len(memory))) for memory, _, _ in questions]


class Count:
    def __init__(self):
        self.answered, self.differences = collections.Counter(), 0

    def compare(self, question, got, wanted, name):
        self.answered[name] += 1
        if got != wanted:
            self.differences += 1
            if self.differences <= 20:
                print(f"{question}: {got}, not {wanted}")


def batches(source):
    source = iter(source)
    while batch := list(itertools.islice(source, BATCH)):
        yield batch


def compare_finds(program, questions, count):
    steps = collections.Counter()
    for batch in batches(questions):
        for question, got in zip(batch, program.finds(batch), strict=True):
            wanted = numbers_for(question)
            code = wanted[0]
            count.compare(question, got, wanted, {0: "found", NOT_FOUND: "not found"}.get(code, f"refused {code}"))
            if code == 0:
                steps[min(len(find_model.keys_of(question[1])), 4)] += 1
    print("found by keys: " + ", ".join(f"{n}{' or more' if n == 4 else ''}: {steps[n]}" for n in sorted(steps)))


def compare_appends(program, questions, count):
    for batch in batches(questions):
        for question, got in zip(batch, program.appends(batch), strict=True):
            wanted = find_model.append(*question)
            names = {find_model.NOT_PATH: "no path", find_model.NO_ROOM: "no room for a key"}
            count.compare(question, got, wanted, names.get(wanted[0], "key added"))


def compare(seed, number, words):
    program, count = Program(words), Count()
    finds = itertools.chain(worked(), ((t, p) for _, t, p in itertools.islice(drawn(seed), number)))
    compare_finds(program, finds, count)
    rng = random.Random(f"{seed} appended")
    compare_appends(program, (find_families.appended(rng) for _ in range(number // 10)), count)
    for name in sorted(count.answered):
        print(f"{name}: {count.answered[name]}")
    print(f"{sum(count.answered.values())} questions, {count.differences} differences")
    return 1 if count.differences else 0


def main():
    parser = argparse.ArgumentParser()
    parser.add_argument("--seed", default="1")
    parser.add_argument("--count", type=int, default=100_000)
    parser.add_argument("words", nargs="+")
    given = parser.parse_args()
    sys.exit(compare(given.seed, given.count, given.words))


if __name__ == "__main__":
    main()
