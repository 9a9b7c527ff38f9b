#!/usr/bin/env python3
"""Tapes for the writer, with words and output lent to it: makes them from a seed, predicts the answers with write_model.py, and compares.

    lend.py --seed 1 --count 20000 PROGRAM ..            asks the program (words may start it), compares, counts
    lend.py --oracle --seed 1 --count 20000 ORACLE       compares the model with the crate's writer, recorded tapes first
    lend.py --sample STDIN STDOUT                        writes the sample of crates/replay_writer

README.md has the format of the lines."""
import argparse
import collections
import itertools
import pathlib
import random
import subprocess
import sys

sys.dont_write_bytecode = True  # nothing is left beside the sources

import find
import write_model
from generator import worked, write_families

RECORDED = pathlib.Path(__file__).parent / "recorded"
FILLING = b"\xaa"
DRAWN = 160  # bytes of a drawn tape, but for deep ones
CHUNK = 380  # lines for one run of the program, whose buffer holds so many
DATED = 20  # tapes with dates in the sample, drawn
SMALL = 40  # bytes of a tape in the sample that is lent words and output


def drawn(seed):
    generators = {name: random.Random(f"{seed} {name}") for name in write_families.FAMILIES}
    for name in itertools.cycle(generators):
        tape = write_families.FAMILIES[name](generators[name])
        if len(tape) <= DRAWN or name == "depth":
            yield tape


def recorded_tapes():
    return [bytes.fromhex(line) for line in (RECORDED / "writer-tapes.txt").read_text().splitlines()]


# --- a line and its answer ------------------------------------------------------------------------

def plain_answer(tape):
    try:
        return f"file {write_model.write(tape)[0].hex()}"
    except write_model.Refused as refused:
        return refused.line()


def lent_answer(tape, words, room, first):
    """The answer; the whole output afterwards; how many of the last words, none before the first that is looked at, are as they were."""
    out = FILLING * room
    try:
        file, _ = write_model.write(tape, words, room)
        answer = f"length {len(file)}"
        out = file + out[len(file) :]
    except write_model.Refused as refused:
        answer = refused.line()
    return [answer, f"out {out.hex()}".strip(), f"words {max(0, words - first)}"]


def lendings(rng, tape):
    """What is lent: enough, just enough or too little. Words are looked at behind those that may change."""
    try:
        file, events = write_model.write(tape)
    except write_model.Refused:
        return [(rng.choice((0, 1, 12)), rng.choice((0, 1, 40)), 0)]
    words, room = write_model.WORDS * events, len(file)
    return [
        (words, room, words),
        (words + 7, room + 3, words),
        (words - 1, room, 0),
        (rng.randrange(words), rng.randrange(room), 0),
        (words + 1, room - 1, words),
        (words, rng.randrange(room), words),
    ]


def cases(seed, count):
    """Lines with the predicted answers: every other tape with nothing said of what is lent."""
    rng = random.Random(f"{seed} lent")
    for index, tape in enumerate(itertools.islice(drawn(seed), count)):
        if index % 2:
            yield tape.hex(), [plain_answer(tape)]
        else:
            yield lent_line(tape, *rng.choice(lendings(rng, tape)))


def lent_line(tape, words, room, first):
    return f"{tape.hex()} {words} {room} {first}", lent_answer(tape, words, room, first)


# --- the sample -----------------------------------------------------------------------------------

def recorded_answer(line):
    """The crate's answer, or what follows from document 01's added rules."""
    return line.replace("outside", "refused", 1)


def sample(stdin, stdout):
    """The recorded tapes with their answers; tapes with dates, which the recorded ones lack; then the small recorded ones again with
    what is lent, all kinds of lending in turn; then the sample of the lookup."""
    tapes = recorded_tapes()
    answers = [recorded_answer(line) for line in (RECORDED / "writer-answers.txt").read_text().splitlines()]
    made = [(tape.hex(), [answer]) for tape, answer in zip(tapes, answers, strict=True)]
    rng = random.Random("sample")
    dated = dict.fromkeys([*worked.date_tapes(), *(write_families.dates(rng) for _ in range(DATED))])
    made += [(tape.hex(), [plain_answer(tape)]) for tape in dated]
    for index, tape in enumerate(each for each in tapes if len(each) <= SMALL):
        kinds = lendings(rng, tape)
        made.append(lent_line(tape, *kinds[index % len(kinds)]))
    made += find.sample()
    pathlib.Path(stdin).write_text("".join(line + "\n" for line, _ in made))
    pathlib.Path(stdout).write_text("".join("\n".join(answer) + "\n" for _, answer in made))
    print(f"sample: {len(made)} lines, {len(tapes)} of them recorded tapes")


# --- comparing ------------------------------------------------------------------------------------

def ask(program, lines):
    text = "".join(line + "\n" for line in lines)
    return subprocess.run(program, input=text, capture_output=True, text=True, check=True).stdout.splitlines()


def sort_of(answer):
    words = answer.split()
    return f"refused {words[1]}" if words[0] == "refused" else words[0]


def report(what, pairs):
    """Pairs of a line, the predicted and the given answer."""
    differing = sorted((each for each in pairs if each[1] != each[2]), key=lambda each: len(each[0]))
    sorts = collections.Counter(sort_of(predicted[0]) for _, predicted, _ in pairs)
    print(f"{len(pairs)} {what}, {len(differing)} differences")
    print("  " + ", ".join(f"{sort}: {number}" for sort, number in sorted(sorts.items())))
    for line, predicted, given in differing[:3]:
        print(f"{line}\n  model {predicted}\n  other {given}")
    return 1 if differing else 0


def compare(seed, count, program):
    pairs = []
    made = list(cases(seed, count))
    for at in range(0, len(made), CHUNK):
        part = made[at : at + CHUNK]
        got = iter(ask(program, [line for line, _ in part]))
        pairs += [(line, answer, list(itertools.islice(got, len(answer)))) for line, answer in part]
    return report("lines", pairs)


def compare_oracle(seed, count, program):
    """Tapes with a date are left out: the crate rounds these."""
    tapes = recorded_tapes() + list(itertools.islice(drawn(seed), count))
    answers = ask([*program, "write"], [tape.hex() for tape in tapes])
    pairs = [
        (tape.hex(), [plain_answer(tape)], [recorded_answer(line)])
        for tape, line in zip(tapes, answers, strict=True)
        if line != "outside date"
    ]
    return report("tapes", pairs)


def main():
    parser = argparse.ArgumentParser()
    parser.add_argument("--seed", default="1")
    parser.add_argument("--count", type=int, default=20000)
    parser.add_argument("--sample", action="store_true")
    parser.add_argument("--oracle", action="store_true")
    parser.add_argument("words", nargs="+")
    given = parser.parse_args()
    if given.sample:
        sample(*given.words)
        return
    against = compare_oracle if given.oracle else compare
    sys.exit(against(given.seed, given.count, given.words))


main()
