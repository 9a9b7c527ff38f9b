#!/usr/bin/env python3
"""Prints inputs for the oracle and for the proved programs, one a line, in hex.

    generate.py read --seed 1 --count 1000                 files, all families mixed
    generate.py read --family depth --seed 1 --count 1000  files of one family
    generate.py read --family markers --every              the whole of a family that can be listed
    generate.py read --families                            the names of the families
    generate.py write | utf8 | utf16 ..                    the same, for tapes and for text

The same words print the same lines.
"""

import argparse
import itertools
import random
import sys

from generator import read_families, text_families, write_families

KINDS = {
    "read": (read_families.FAMILIES, read_families.EVERY),
    "write": (write_families.FAMILIES, write_families.EVERY),
    "utf8": (text_families.UTF8, text_families.EVERY_UTF8),
    "utf16": (text_families.UTF16, text_families.EVERY_UTF16),
}


def arguments():
    parser = argparse.ArgumentParser(description="Makes inputs for the comparison, as hex lines.")
    parser.add_argument("kind", choices=KINDS)
    parser.add_argument("--seed", default="1", help="any word; the same one gives the same inputs")
    parser.add_argument("--count", type=int, default=1000)
    parser.add_argument("--family", help="one family; without it all of them take turns")
    parser.add_argument("--every", action="store_true", help="list the family whole")
    parser.add_argument("--families", action="store_true", help="print the families' names")
    return parser.parse_args()


def drawn(families, name, seed, count):
    """`count` inputs by chance. Each family has its own generator, so that none moves another."""
    names = [name] if name else list(families)
    generators = {each: random.Random(f"{seed} {each}") for each in names}
    for each in itertools.islice(itertools.cycle(names), count):
        yield families[each](generators[each])


def names_of(families, every):
    for name in dict.fromkeys([*families, *every]):
        if name not in families:
            yield f"{name} (--every alone)"
        else:
            yield f"{name} (also --every)" if name in every else name


def inputs(given):
    families, every = KINDS[given.kind]
    if given.every:
        chosen = [given.family] if given.family else list(every)
        return itertools.chain.from_iterable(every[name]() for name in chosen)
    return drawn(families, given.family, given.seed, given.count)


def main():
    given = arguments()
    families, every = KINDS[given.kind]
    if given.families:
        print("\n".join(names_of(families, every)))
        return
    known = every if given.every else families
    if given.family and given.family not in known:
        sys.exit(f"generate.py: no such family: {given.family} (see --families)")
    sys.stdout.writelines(each.hex() + "\n" for each in inputs(given))


if __name__ == "__main__":
    main()
