#!/usr/bin/env python3
"""Compares the proved calendar with Python's datetime, and with the floor of exact fractions.

    dates.py --seed 1 --count 10000000 -- PROGRAM ..   asks the program (words may start it), compares, counts

compare/calendar starts it. README.md says what is asked."""
import argparse
import collections
import datetime
import random
import struct
import subprocess
import sys

EPOCH = datetime.datetime(2001, 1, 1)
FIRST, END = -63_113_904_000, 252_423_993_600
DAYS = 3_652_059
BATCH = 65_536
DATE = struct.Struct("=QQ16x")
FIELDS = struct.Struct("=Q6I")
DATED = struct.Struct("=7I4x")
SECONDS = struct.Struct("=I4xq16x")
NO_TIME = (30, 0, 0, 0, 0, 0, 0)


# --- what must be answered --------------------------------------------------------------------------

def day_and_time(seconds):
    t = EPOCH + datetime.timedelta(seconds=seconds)
    return (0, t.year, t.month, t.day, t.hour, t.minute, t.second)


def is_date(bits):
    """Whether a file or a tape may hold a date of these bits: they are those of a finite number."""
    return bits >> 52 & 0x7FF != 0x7FF


def floor_of(bits):
    """The floor of the number that 64 bits are, by its numerator and denominator; None where they are no number."""
    x = struct.unpack("=d", struct.pack("=Q", bits))[0]
    if x != x or x in (float("inf"), float("-inf")):
        return None
    numerator, denominator = x.as_integer_ratio()
    return numerator // denominator


def dated(bits):
    floor = floor_of(bits)
    return day_and_time(floor) if floor is not None and FIRST <= floor < END else NO_TIME


def line_of(bits):
    """The line of a listing."""
    refused, year, month, day, hour, minute, second = dated(bits)
    return f"date {bits:016x}" if refused else f"date {year:04}-{month:02}-{day:02}T{hour:02}:{minute:02}:{second:02}Z"


def seconds_of(fields):
    try:
        passed = datetime.datetime(*fields) - EPOCH
    except (ValueError, OverflowError):
        return (30, 0)
    return (0, passed.days * 86400 + passed.seconds)


def bits_of(x):
    return struct.unpack("=Q", struct.pack("=d", x))[0]


# --- what is asked ----------------------------------------------------------------------------------

def every_day():
    """The first and the last second of each day."""
    for day in range(DAYS):
        yield FIRST + 86400 * day
        yield FIRST + 86400 * day + 86399


def any_bits(rng):
    return rng.getrandbits(64)


def near_range(rng):
    """Exponents from well below one up to a little above the range: most lie in it, with fractions."""
    return rng.getrandbits(1) << 63 | rng.randrange(1000, 1064) << 52 | rng.getrandbits(52)


def with_fraction(rng):
    """A whole second of the range, and half, a quarter or less of one beside it."""
    return bits_of(rng.randrange(FIRST - 2, END + 2) + rng.choice([0.0, 0.5, -0.5, 0.25, -0.25, 2.0**-14, -(2.0**-14)]))


def neighbour(rng):
    """A whole second, or the number just beside it."""
    bits = bits_of(float(rng.randrange(FIRST - 2, END + 2)))
    return max(bits + rng.choice([-1, 0, 1]), 0)


def small(rng):
    """Below one: subnormal numbers, and tiny ones."""
    return rng.getrandbits(1) << 63 | rng.getrandbits(rng.randrange(1, 62))


def huge(rng):
    """Far above the range, infinities and NaNs."""
    return rng.getrandbits(1) << 63 | rng.randrange(1060, 2048) << 52 | rng.choice([0, rng.getrandbits(52)])


KINDS = [near_range, with_fraction, neighbour, near_range, any_bits, small, huge, with_fraction]


def edges():
    """Both ends of the range, 0 and 1, an infinity, each with its neighbours and both signs."""
    for x in (0.0, 0.5, 1.0, float(-FIRST), float(END), float(2**38), float("inf")):
        for bits in range(max(bits_of(x) - 3, 0), bits_of(x) + 4):
            yield bits
            yield bits | 1 << 63


def drawn_fields(rng):
    """Fields, each right by itself or just beside what is."""
    return (
        rng.choice([rng.randrange(1, 10000), rng.randrange(1, 10000), rng.randrange(1, 100) * 100, 0, 1, 4, 9999, 10000, rng.getrandbits(32)]),
        rng.choice([rng.randrange(1, 13), rng.randrange(1, 13), 2, 2, rng.randrange(0, 15), rng.getrandbits(32) if rng.random() < 0.1 else 12]),
        rng.choice([rng.randrange(1, 29), rng.randrange(27, 33), 29, 29, rng.randrange(0, 34)]),
        rng.choice([rng.randrange(0, 24), rng.randrange(0, 24), rng.randrange(0, 24), rng.randrange(22, 26)]),
        rng.choice([rng.randrange(0, 60), rng.randrange(0, 60), rng.randrange(0, 60), rng.randrange(58, 62)]),
        rng.choice([rng.randrange(0, 60), rng.randrange(0, 60), rng.randrange(0, 60), rng.randrange(58, 62)]),
    )


# --- asking -----------------------------------------------------------------------------------------

class Program:
    def __init__(self, words):
        self.process = subprocess.Popen(words, stdin=subprocess.PIPE, stdout=subprocess.PIPE)

    def ask(self, questions, answer):
        """The answers to one batch. The program takes all of it before it answers."""
        data = b"".join(questions)
        self.process.stdin.write(struct.pack("=Q", len(questions)) + data)
        self.process.stdin.flush()
        got = self.process.stdout.read(len(data))
        if len(got) != len(data):
            sys.exit("dates.py: the program ended early")
        return answer.iter_unpack(got)

    def dates(self, bits):
        return self.ask([DATE.pack(ord("d"), b) for b in bits], DATED)

    def seconds(self, fields):
        return self.ask([FIELDS.pack(ord("s"), *f) for f in fields], SECONDS)


class Count:
    def __init__(self):
        self.asked = collections.Counter()
        self.answered = collections.Counter()
        self.differences = 0

    def compare(self, name, question, got, wanted):
        self.asked[name] += 1
        self.answered[name, wanted[0]] += 1
        if got != wanted:
            self.differences += 1
            if self.differences <= 20:
                print(f"{name} {question}: {got}, not {wanted}")


def batches(source):
    batch = []
    for element in source:
        batch.append(element)
        if len(batch) == BATCH:
            yield batch
            batch = []
    if batch:
        yield batch


def compare_days(program, count):
    for batch in batches(every_day()):
        wanted = [day_and_time(s) for s in batch]
        for s, got, right in zip(batch, program.dates([bits_of(float(s)) for s in batch]), wanted):
            count.compare("days", s, got, right)
        for right, got, s in zip(wanted, program.seconds([w[1:] for w in wanted]), batch):
            count.compare("days back", right, got, (0, s))


def compare_bits(program, count, name, source):
    for batch in batches(source):
        for bits, got in zip(batch, program.dates(batch)):
            count.compare(name, f"{bits:016x}", got, dated(bits))


def compare_fields(program, count, source):
    for batch in batches(source):
        for fields, got in zip(batch, program.seconds(batch)):
            count.compare("fields", fields, got, seconds_of(fields))


def main():
    words = argparse.ArgumentParser()
    words.add_argument("--seed", type=int, default=1)
    words.add_argument("--count", type=int, default=10_000_000, help="drawn bit patterns; a tenth as many drawn fields")
    words.add_argument("program", nargs="+")
    words = words.parse_args()
    rng = random.Random(words.seed)
    program, count = Program(words.program), Count()
    compare_days(program, count)
    compare_bits(program, count, "edges", edges())
    compare_bits(program, count, "bits", (KINDS[i % len(KINDS)](rng) for i in range(words.count)))
    compare_fields(program, count, (drawn_fields(rng) for _ in range(words.count // 10)))
    for name, asked in count.asked.items():
        print(f"{name}: {asked:,} asked, {count.answered[name, 0]:,} given, {count.answered[name, 30]:,} refused with 30")
    print(f"{sum(count.asked.values()):,} answers, {count.differences} differences")
    sys.exit(1 if count.differences else 0)


if __name__ == "__main__":
    main()
