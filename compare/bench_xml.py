#!/usr/bin/env python3
"""Asks drive/bench_xml.c for the times of made values, and times plistlib's dumps on them.

    bench_xml.py PROGRAM"""
import datetime
import plistlib
import random
import struct
import subprocess
import sys
import time

from generator import tape as make

EPOCH = datetime.datetime(2001, 1, 1)
ROUNDS = 7


def events(value):
    if isinstance(value, bool):
        return make.TRUE if value else make.FALSE
    if isinstance(value, int):
        return make.integer(value)
    if isinstance(value, str):
        return make.text(value)
    if isinstance(value, bytes):
        return make.data(value)
    if isinstance(value, datetime.datetime):
        return make.date(int.from_bytes(struct.pack(">d", (value - EPOCH).total_seconds()), "big"))
    if isinstance(value, list):
        return make.array(*map(events, value))
    return make.dictionary(*(part for pair in value.items() for part in map(events, pair)))


def cases():
    rng = random.Random(1)
    day = datetime.datetime(2027, 1, 1)
    record = {"matter": "Roe & Coe <sealed>", "until": day, "seal": bytes.fromhex("deadbeef"), "balance": -5, "hold": True, "notes": []}
    yield "hold record", record
    yield "1,000 records", [dict(record, balance=i) for i in range(1000)]
    yield "10,000 strings", [f"custodian {i:05}" for i in range(10_000)]
    yield "10,000 strings with &", [f"Roe & Coe {i:05}" for i in range(10_000)]
    yield "10,000 integers", [rng.randrange(1 << 63) for _ in range(10_000)]
    yield "10,000 dates", [day + datetime.timedelta(seconds=i) for i in range(10_000)]
    yield "10,000 empty arrays", [[] for _ in range(10_000)]
    yield "data of 1,000,000 bytes", rng.randbytes(1_000_000)
    yield "one text of 1,000,000 ASCII bytes", "The quick brown fox. " * 47_619
    yield "one text of 1,000,000 bytes, one in 42 escaped", "The quick brown fox jumps over it all. & c" * 23_810
    yield "one text of 1,000,000 bytes, not ASCII", "Zoë 日本語 " * 58_824


def plistlib_time(value):
    best = None
    for _ in range(ROUNDS):
        begin = time.process_time()
        plistlib.dumps(value, sort_keys=False)
        each = time.process_time() - begin
        best = each if best is None else min(best, each)
    return best * 1e9


def main():
    made = list(cases())
    asked = b""
    for name, value in made:
        tape, file = events(value), plistlib.dumps(value, fmt=plistlib.FMT_BINARY, sort_keys=False)
        asked += struct.pack("=III", len(name.encode()), len(tape), len(file)) + name.encode() + tape + file
    done = subprocess.run(sys.argv[1:], input=asked, stdout=subprocess.PIPE, check=True).stdout.decode()
    print("| value | ours | length alone | libplist | of libplist's | plistlib | UTF-8 check and copy |")
    print("|---|---|---|---|---|---|---|")
    for (name, value), line in zip(made, done.splitlines()):
        ours, length, theirs, *copy = map(float, line.split("\t")[1:])
        shown = f"{copy[0] / 1e3:,.1f}" if copy else ""
        print(f"| {name} | {ours / 1e3:,.1f} | {length / 1e3:,.1f} | {theirs / 1e3:,.1f} | {ours / theirs:.3f} | {plistlib_time(value) / 1e3:,.0f} | {shown} |")


if __name__ == "__main__":
    main()
