#!/usr/bin/env python3
"""Compares two files of answers to the same files, block by block: blocks.py INPUTS THEIRS OURS.

A block begins with `events`. Lines are compared one by one: events and the numbers of refusals always, places except
where the oracle prints `-`. A block that the oracle ends with `outside ..` is compared up to that line; there ours must
go on with a date, with `refused 15` for the 513th open container, or with the refusal that the line names. Which files
document 02 refuses so, and where, is found by model.py too, for every file; the oracle must have found the same. Exit code 1
on a difference."""
import collections
import sys

import model

SHOWN = 5


def blocks(path):
    """The blocks of a file of answers, one at a time."""
    block = None
    with open(path) as lines:
        for line in lines:
            line = line.rstrip("\n")
            if line == "events":
                if block is not None:
                    yield block
                block = []
            else:
                block.append(line)
    if block is not None:
        yield block


def same_line(theirs, ours):
    """Whether two lines agree, a place of `-` masked."""
    if theirs.endswith(" at -") and " at " in ours:
        return theirs[: -len(" at -")] == ours[: ours.rindex(" at ")]
    return theirs == ours


def narrowed(theirs):
    """Where the oracle says that document 02 refuses: (the line's index, number, place), or None."""
    words = theirs[-1].split() if theirs else []
    if len(words) == 4 and words[0] == "outside":
        return len(theirs) - 1, int(words[1]), int(words[3])
    return None


def first_difference(theirs, ours):
    """The index of the first line at which two blocks differ, or None, and whether they were compared to the end."""
    for at, line in enumerate(theirs):
        if at >= len(ours):
            return at, False
        if line == "outside depth":
            return (None if ours[at].startswith("refused 15 at ") else at), False
        if line.startswith("outside ") and " at " in line:
            return (None if ours[at] == line.replace("outside", "refused") else at), False
        if line == "outside date":
            return (None if ours[at].startswith("date ") else at), False
        if not same_line(line, ours[at]):
            return at, False
    return (None if len(theirs) == len(ours) else len(theirs)), True


def main():
    inputs_path, theirs_path, ours_path = sys.argv[1:]
    count = events = whole = 0
    masked = 0
    differing = []
    refused = collections.Counter()
    theirs_blocks, ours_blocks = blocks(theirs_path), blocks(ours_path)
    with open(inputs_path) as inputs:
        for line in inputs:
            theirs, ours = next(theirs_blocks, None), next(ours_blocks, None)
            if theirs is None or ours is None:
                print(f"answers end before input {count + 1}")
                sys.exit(1)
            count += 1
            at, to_the_end = first_difference(theirs, ours)
            rule = narrowed(theirs)
            if model.added(bytes.fromhex(line.strip()), len(theirs)) != rule:
                at, to_the_end = len(theirs) - 1, False
            if rule:
                refused[rule[1]] += 1
            whole += to_the_end and at is None
            limit = len(theirs) if at is None else at
            events += sum(1 for l in theirs[:limit] if not l.startswith(("then ", "end", "refused ", "stopped", "outside ")))
            masked += any(l.endswith(" at -") for l in theirs[:limit])
            if at is not None:
                differing.append((len(line), line.strip(), at, theirs, ours))
    if next(theirs_blocks, None) is not None or next(ours_blocks, None) is not None:
        print("answers go on after the last input")
        sys.exit(1)
    print(f"{count} inputs, {events} events compared, {whole} blocks compared whole, {masked} with a place left out, {len(differing)} differences")
    print("  up to a refusal of document 02: " + ", ".join(f"{inputs} at {number}" for number, inputs in sorted(refused.items())))
    for _, line, at, theirs, ours in sorted(differing)[:SHOWN]:
        print(f"file {line}\n  line {at + 1}: theirs {theirs[at:at + 1]}, ours {ours[at:at + 1]}")
    sys.exit(1 if differing else 0)


main()
