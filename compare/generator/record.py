"""Chooses the recorded inputs and writes them with the oracle's answers.

    python3 -m generator.record ORACLE FOLDER

Document 01's cases come first, with every kind at its limits. Then each drawn input that shows something new is taken: a number at
a new place, a new kind of event, a new end for its family. The rest is filled up evenly.
"""

import collections
import itertools
import pathlib
import random
import re
import subprocess
import sys

import model

from . import read_families, worked, write_families

SEED = "recorded"
DRAWN = 600  # of each family
READER_INPUTS = 560
ADDED_INPUTS = 40  # at least, that a rule of document 02 refuses
TAPES = 318
LONGEST = 300  # bytes of an input that is drawn
MOST_PLACES = 12  # of one refusal number, in the first choice


def pool(first, families):
    """Pairs of a family and an input, document 01's own before the drawn ones, none twice."""
    seen = set()
    drawn = (
        (name, family(generator))
        for name, family in families.items()
        for generator in [random.Random(f"{SEED} {name}")]
        for _ in range(DRAWN)
    )
    for name, each in itertools.chain((("worked", each) for each in first), drawn):
        if each not in seen and (name == "worked" or len(each) <= LONGEST):
            seen.add(each)
            yield name, each


def ask(oracle, command, inputs):
    lines = "".join(each.hex() + "\n" for each in inputs)
    return subprocess.run([oracle, command], input=lines, capture_output=True, text=True, check=True).stdout


def blocks(answers):
    """The reader's answers, cut before each line `events`."""
    return re.split(r"(?m)(?<=\n)(?=events$)", answers)


# --- what an answer shows -------------------------------------------------------------------------

def reader_shows(name, block):
    lines = block.splitlines()
    end = next(i for i, line in enumerate(lines) if line.startswith(("end", "refused")))
    words = lines[end].split()
    yield (name, *words[:2])
    yield ("then", *words[:2], lines[end + 1].split()[1])
    yield from (("event", line.split()[0]) for line in lines[1:end])
    if words[0] == "refused":
        yield ("place", words[1], words[3])


def tape_shows(name, line):
    words = line.split()
    yield (name, words[0], *words[4:6])
    if words[0] == "outside":
        yield (name, *words[:2])
    if words[0] != "file":
        yield ("place", words[1], words[3])


# --- choosing -------------------------------------------------------------------------------------

def choose(candidates, shows, wanted):
    """Indices of the chosen candidates, in their order. A candidate is (family, input, answer)."""
    chosen = []
    covered = set()
    places = collections.Counter()
    for index, (name, _, answer) in enumerate(candidates):
        new = {
            feature
            for feature in shows(name, answer)
            if feature not in covered and (feature[0] != "place" or places[feature[1]] < MOST_PLACES)
        }
        covered |= new
        places.update(feature[1] for feature in new if feature[0] == "place")
        if new or name == "worked":
            chosen.append(index)
    return sorted(chosen + fill(candidates, set(chosen), wanted - len(chosen)))


def fill(candidates, chosen, count):
    """Further indices, one of each family in turn."""
    rest = {}
    for index, (name, _, _) in enumerate(candidates):
        if index not in chosen:
            rest.setdefault(name, []).append(index)
    turns = itertools.chain.from_iterable(itertools.zip_longest(*rest.values()))
    return list(itertools.islice((index for index in turns if index is not None), max(0, count)))


# --- the two lists --------------------------------------------------------------------------------

def compares_whole(block):
    """Whether document 01 compares every line of a block."""
    return not re.search(r"(?m)^(then )?(outside|stopped|panic)| at -$", block)


def reader_list(oracle):
    named = list(pool(worked.files() + worked.kinds(), read_families.FAMILIES))
    answers = blocks(ask(oracle, "read", [each for _, each in named]))
    candidates = [
        (name, each, block) for (name, each), block in zip(named, answers, strict=True) if compares_whole(block)
    ]
    return [candidates[i] for i in choose(candidates, reader_shows, READER_INPUTS)]


def model_block(file):
    """The block of a file by the model: where document 02 refuses and the crate doesn't, the answers are not the crate's."""
    lines, state = ["events"], model.FRESH
    while not lines[-1].startswith(("end", "refused")):
        line, state = model.step(file, state)
        lines.append(line.split(" ", 3)[3] if line.startswith("at ") else line)
    for _ in range(2):
        line, state = model.step(file, state)
        lines.append(f"then {line}")
    return "".join(line + "\n" for line in lines)


def added_list(oracle):
    """Dates at document 02's limits, files that are too deep, then files with an object that its added rules refuse, answered by the model."""
    dates = [("dates", each, model_block(each)) for each in worked.dates()]
    named = list(pool(worked.files() + worked.kinds(), read_families.FAMILIES))
    answers = blocks(ask(oracle, "read", [each for _, each in named]))
    deep = [
        ("deep", each, model_block(each))
        for (name, each), block in zip(named, answers, strict=True)
        if name == "worked" and block.endswith("outside depth\n")
    ]
    candidates = [
        (name, each, model_block(each))
        for (name, each), block in zip(named, answers, strict=True)
        if re.search(r"(?m)^outside \d+ at \d+$", block)
    ]
    return dates + deep + [candidates[i] for i in choose(candidates, reader_shows, ADDED_INPUTS)]


def tape_list(oracle):
    named = list(pool(worked.tapes(), write_families.FAMILIES))
    answers = ask(oracle, "write", [each for _, each in named]).splitlines(keepends=True)
    candidates = [
        (name, each, line)
        for (name, each), line in zip(named, answers, strict=True)
        if not line.startswith(("outside date", "panic"))
    ]
    return [candidates[i] for i in choose(candidates, tape_shows, TAPES)]


def check_reader(chosen):
    """Every refusal that the crate's reader can give must stand at several places; 2 and 3 have but one."""
    found = {}
    for _, _, block in chosen:
        match = re.search(r"(?m)^refused (\d+) at (\d+)$", block)
        if match:
            found.setdefault(int(match[1]), set()).add(match[2])
    for number in range(2, 15):
        least = 1 if number in (2, 3) else 4
        if len(found.get(number, ())) < least:
            sys.exit(f"record: refusal {number} stands at too few places")


def check_deep(files, added, tapes):
    """What plistlib wrote is read as its values, by the crate and, where it is too deep, by the model up to the container that is refused;
    and the crate writes the values as the very same file."""
    read, refused, written = ({each: answer for _, each, answer in chosen} for chosen in (files, added, tapes))
    for depth, keyed in worked.DEPTHS:
        file, lines, line = worked.deep(depth, keyed), worked.deep_lines(depth, keyed), written[worked.deep_tape(depth, keyed)]
        if depth <= model.MAX_OPEN:
            good = read[file] == f"events\n{lines}end\nthen end\nthen end\n" and line == f"file {file.hex()}\n"
        else:
            events, _, rest = refused[file].partition("refused 15 at ")
            good = f"events\n{lines}".startswith(events) and rest.endswith("\nthen end\nthen end\n") and line.startswith("outside 15 at ")
        if not good:
            sys.exit(f"record: {depth} containers, each inside the last, are not read or written as they should be")


def save(folder, inputs_name, answers_name, chosen):
    (folder / inputs_name).write_text("".join(each.hex() + "\n" for _, each, _ in chosen))
    (folder / answers_name).write_text("".join(answer for _, _, answer in chosen))


def main():
    oracle, folder = sys.argv[1], pathlib.Path(sys.argv[2])
    files = reader_list(oracle)
    check_reader(files)
    tapes = tape_list(oracle)
    added = added_list(oracle)
    check_deep(files, added, tapes)
    save(folder, "reader-inputs.txt", "reader-answers.txt", files)
    save(folder, "added-inputs.txt", "added-answers.txt", added)
    save(folder, "writer-tapes.txt", "writer-answers.txt", tapes)
    print(f"recorded: {len(files)} reader inputs, {len(added)} by document 02, {len(tapes)} tapes")


if __name__ == "__main__":
    main()
