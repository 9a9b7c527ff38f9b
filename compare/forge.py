#!/usr/bin/env python3
"""States and records that no reader gave: makes them from a seed, predicts the answers with model.py, and compares.

    forge.py --seed 1 --count 20000 PROGRAM ..   asks the program (words may start it), compares, counts
    forge.py --sample STDIN STDOUT               writes a sample of 300 lines and the predicted answers

README.md has the format of the lines."""
import argparse
import collections
import random
import subprocess
import sys

import model
from generator import read_families

FAMILIES = ["tree", "graphs", "shared", "recursive", "depth", "distinct", "offsets", "rooms", "lengths", "scalars", "utf16", "worked", "dates"]
FIELD_BITS = [1, 32, 8, 8, 32, 32, 64, 64]
NAMES = {kind: name for name, kind in model.KINDS.items()}
HELD = [0, 1, 2, model.MAX_OPEN - 1, model.MAX_OPEN, model.MAX_OPEN + 1, 1 << 32, (1 << 64) - 1]


def drawn_file(rng):
    made = read_families.FAMILIES[rng.choice(FAMILIES)](rng)
    return made if isinstance(made, bytes) else bytes(made)


def real_state(rng, file):
    """A state that a fresh reader comes to on this file."""
    state = model.FRESH
    for _ in range(rng.choice([0, 1, 1, 2, 3, 5, 8, 20, 64, 200, 600, 600, 600])):
        _, after = model.step(file, state)
        if after == model.ENDED and rng.random() < 0.9:
            break
        state = after
    return state


def near(rng, value, bits):
    """A number near another, or an extreme one."""
    top = (1 << bits) - 1
    choice = rng.choice([value + 1, value - 1, 0, 1, top, top - 1, 1 << (bits - 1), rng.getrandbits(bits), value ^ 1 << rng.randrange(bits)])
    return min(max(choice, 0), top)


def forged_frame(rng, frame):
    frame = list(frame)
    at = rng.randrange(4)
    frame[at] = near(rng, frame[at], 32) if rng.random() < 0.7 else rng.randrange(6)
    return tuple(frame)


def forged_state(rng, state):
    """One or more fields changed: any of them, or a frame."""
    fields, frames = list(state[:8]), list(state[8])
    for _ in range(rng.choice([1, 1, 1, 2, 3])):
        pick = rng.random()
        if pick < 0.45:
            at = rng.randrange(8)
            fields[at] = near(rng, fields[at], FIELD_BITS[at])
        elif pick < 0.6:
            fields[7] = rng.choice(HELD)
        elif pick < 0.9:
            inner = min(max(fields[7] - 1, 0), model.MAX_OPEN - 1)
            frames[inner] = forged_frame(rng, frames[inner])
        else:
            at = rng.choice([rng.randrange(8), rng.randrange(64), model.MAX_OPEN - 1])
            frames[at] = forged_frame(rng, frames[at])
    return tuple(fields) + (tuple(frames),)


def other_file(rng, file):
    """A file of the same length, or nearly: some bytes changed, or another file's, or a byte more or less."""
    pick = rng.random()
    if pick < 0.6 and file:
        changed = bytearray(file)
        for _ in range(rng.choice([1, 1, 2, 4])):
            changed[rng.randrange(len(file))] = rng.choice([0, 1, 8, 15, 0xA1, 0xD1, 0xAF, 0xDF, 255, rng.randrange(256)])
        return bytes(changed)
    if pick < 0.85:
        other = drawn_file(rng)
        return (other + bytes(len(file)))[: len(file)]
    return file + b"\0" if pick < 0.93 else file[:-1]


def leading_out(rng, file, state):
    """A file and a state with an open container that lead behind the file's end: to an entry of the table, or to a reference."""
    fields, frames, changed = list(state[:8]), list(state[8]), bytearray(file)
    inner = fields[7] - 1
    number, _, _, offset = frames[inner]
    width = fields[2]
    if rng.random() < 0.5 and width * (number + 1) <= len(file):
        # its own entry is the file's last number, so that those behind it lie outside
        changed[-width:] = offset.to_bytes(width, "big")
        fields[5] = len(file) - width * (number + 1)
    else:
        length = near(rng, len(file), rng.choice([8, 16, 32]))
        changed[offset : offset + 6] = bytes([changed[offset] | 15, 0x12]) + length.to_bytes(4, "big")
        frames[inner] = (number, rng.randrange(length + 1), length, offset)
    return bytes(changed), tuple(fields) + (tuple(frames),)


def state_input(rng):
    file = drawn_file(rng)
    state = real_state(rng, file)
    pick = rng.random()
    if pick < 0.03 and state[7]:
        file, state = leading_out(rng, file, state)
    elif pick < 0.55:
        state = forged_state(rng, state)
    elif pick < 0.9:
        file = other_file(rng, file)
    return file, state


def record_there(rng, file, refs, offset):
    """A kind and a value of a record that reading at an offset gives; any where it gives none."""
    found = None
    if offset < len(file) - 32:
        try:
            found = model.object_at(file, refs, offset)
        except model.Refused:
            # what stands there, if it is a container that is refused
            if file[offset] >> 4 in (0xA, 0xD) and rng.random() < 0.9:
                try:
                    found = ("array" if file[offset] >> 4 == 0xA else "dict", model.head(file, offset)[0])
                except model.Refused:
                    found = None
    if not found:
        return rng.randrange(1, 16), rng.choice([0, 1, 3, rng.getrandbits(64)])
    if found[0] in ("array", "dict"):
        name = rng.choice(["end", f"sized {found[0]}"])
        return model.KINDS[name], 0 if name == "end" else found[1]
    if found[0] == "scalar":
        word, _, number = found[1].partition(" ")
        if word == "int":
            number = int(number)
            name = "signed" if number < 0 or number < 1 << 63 and rng.random() < 0.5 else "unsigned"
            return model.KINDS[name], number % (1 << 64)
        if word in ("real", "date"):
            name = "nan" if word == "real" and rng.random() < 0.3 else word
            return model.KINDS[name], int(number, 16)
        return model.KINDS[word], int(number or 0)
    return model.KINDS[found[0]], 0


def listed(rng, file):
    """Numbers and offsets that the file's table has, and the size of its references; a few made up where there is no table."""
    try:
        offsets, refs, count, table, _ = model.trailer(file)
    except model.Refused:
        return [(rng.randrange(4), 8 + rng.randrange(8))], 1
    numbers = range(count) if count <= 300 else rng.sample(range(count), 300)
    return [(n, model.number_at(file, table + n * offsets, offsets)) for n in numbers] or [(0, 8)], refs


def record_input(rng):
    """A file, and a record that it gives, or nearly: another value, kind, number or offset, an entry moved, or another file."""
    file = drawn_file(rng)
    entries, refs = listed(rng, file)
    by_marker = collections.defaultdict(list)
    for number, offset in entries:
        byte = file[offset] if offset < len(file) else 0
        by_marker[byte if byte < 0x40 else byte & 0xF0].append((number, offset))
    number, offset = rng.choice(by_marker[rng.choice(sorted(by_marker))])
    kind, value = record_there(rng, file, refs, offset)
    pick = rng.random()
    if pick < 0.12:
        value = near(rng, value, 64)
    elif pick < 0.22:
        kind = rng.randrange(1, 16)
    elif pick < 0.32:
        offset = near(rng, offset, rng.choice([8, 32, 64]))
    elif pick < 0.42:
        number = near(rng, number, rng.choice([4, 32]))
    elif pick < 0.5:
        number = rng.choice(entries)[0]
    elif pick < 0.58:
        offset = rng.choice(entries)[1]
    elif pick < 0.75:
        file = other_file(rng, file)
    return file, rng.choice([0, 1, 2, 3, 4, 5, 6, 8, 12, 40, 300]), kind, value, number, offset


def shown(state):
    frames = list(state[8])
    while frames and frames[-1] == model.NO_FRAME:
        frames.pop()
    return " ".join(map(str, state[:8])) + " " + "".join(":".join(map(str, frame)) + "," for frame in frames)


def crossing():
    """The smallest container that crosses T: an array of 2^63 - 1 at 8. Reading refuses it with 6, so neither its start nor an end is given."""
    array = b"\xaf\x13" + model.MOST_SIGNED.to_bytes(8, "big")
    words = b"".join(each.to_bytes(8, "big") for each in (1, 0, 18))
    file = b"bplist00" + array + b"\x08" + bytes(6) + b"\x01\x01" + words
    return [record_case(file, 4, model.KINDS["sized array"], model.MOST_SIGNED, 0, 8), record_case(file, 4, model.KINDS["end"], 0, 0, 8)]


def state_case(file, state):
    line, after = model.step(file, state)
    said = f"{line}: {model.clause(model.call, file, state)}" if line.startswith("refused 17") else line
    return f"S {file.hex()} {shown(state)}", [line, f"state {shown(after)}"], said


def record_case(file, length, kind, value, number, offset):
    line, left, part = model.request(file, b"\xaa" * length, kind, value, number, offset)
    said = f"request {NAMES[kind]}: {line}"
    if line.startswith("refused 17"):
        said = f"request: {model.clause(model.given, file, kind, value, number, offset)}: {line}"
    return f"R {file.hex()} {length} {kind} {value} {number} {offset}", [line, model.with_bytes("data", left), model.with_bytes("data", part)], said


def cases(seed, count):
    """Each case is a line, its predicted answer, and what kind of answer that is."""
    rng = random.Random(f"forged {seed}")
    for at in range(count):
        if at % 4 < 3:
            yield state_case(*state_input(rng))
        else:
            yield record_case(*record_input(rng))


def sort_of(line):
    if line.startswith("request"):
        name, _, answer = line.rpartition(": ")
        words = answer.split()
        return f"{name} {words[0]} {words[1]}" if words[0] == "refused" else f"{name} length"
    if line.startswith("refused 17"):
        return "refused 17: " + line.partition(": ")[2]
    words = line.split()
    return f"refused {words[1]}" if words[0] == "refused" else words[3] if words[0] == "at" else words[0]


def sample(stdin, stdout):
    """300 lines: the crossing ones, then as even over the sorts of answers as can be. With 512 open, 15, a line is long."""
    by_sort = collections.defaultdict(list)
    for line, answer, said in cases("sample", 20000):
        if len(line) < (12000 if sort_of(said) == "refused 15" else 1500):
            by_sort[sort_of(said)].append((line, answer))
    chosen = [(line, answer) for line, answer, _ in crossing()]
    while len(chosen) < 300:
        for sort in sorted(by_sort):
            if by_sort[sort] and len(chosen) < 300:
                chosen.append(by_sort[sort].pop(0))
    with open(stdin, "w") as lines, open(stdout, "w") as answers:
        for line, answer in chosen:
            lines.write(line + "\n")
            answers.write("\n".join(answer) + "\n")


def compare(seed, count, program):
    made = crossing() + list(cases(seed, count))
    text = "".join(line + "\n" for line, _, _ in made)
    got = subprocess.run(program, input=text, capture_output=True, text=True).stdout.split("\n")
    at, differing, sorts = 0, [], collections.Counter()
    for line, answer, said in made:
        ours = got[at : at + len(answer)]
        at += len(answer)
        sorts[sort_of(said)] += 1
        if ours != answer:
            differing.append((len(line), line, answer, ours))
    extra = len(got) - at - 1
    print(f"{len(made)} forged inputs, {len(differing)} differences" + (f", {extra} lines too many" if extra else ""))
    print("  " + ", ".join(f"{sort}: {number}" for sort, number in sorted(sorts.items())))
    unmet = [clause for clause in model.CLAUSES if not any(clause in sort for sort in sorts)]
    print("  clauses of 17 that were not met: " + ("; ".join(unmet) or "none"))
    for _, line, answer, ours in sorted(differing)[:3]:
        print(f"{line}\n  model {answer}\n  ours  {ours}")
    return 1 if differing or extra else 0


def main():
    parser = argparse.ArgumentParser()
    parser.add_argument("--seed", default="1")
    parser.add_argument("--count", type=int, default=20000)
    parser.add_argument("--sample", action="store_true")
    parser.add_argument("words", nargs="+")
    given = parser.parse_args()
    if given.sample:
        sample(*given.words)
        return
    sys.exit(compare(given.seed, given.count, given.words))


main()
