"""Chooses the sample of text that the program `replay_text` answers, and asks the oracle for its answers.

    python3 -m generator.record_text ORACLE FOLDER

A line of the sample is `8` or `16`, a space and bytes in hex; nothing follows the number of no bytes.
"""

import itertools
import pathlib
import random
import sys

from . import edges, text_families
from .record import ask

SEED = "recorded"
WANTED = 210  # of each kind
LONG = 12  # of these, long texts
LONG_SCALARS = 150

# "Not UTF-8": the worked examples of table 3-7.
NOT_UTF8 = ("c080", "c1bf", "e09fbf", "eda080", "f08fbfbf", "f4908080", "f5808080", "80", "c2", "e180")


def scalars(coding):
    return [chr(scalar).encode(coding) for scalar in edges.SCALARS]


def surrogates():
    """Each limit alone, with half a unit more, and before each other."""
    limits = [unit for unit in edges.UNITS if 0xD7FF <= unit <= 0xE000]
    alone = [text_families.to_bytes([unit]) for unit in limits]
    return alone + [each + b"\xdc" for each in alone] + [a + b for a, b in itertools.product(alone, repeat=2)]


def long_texts(coding):
    rng = random.Random(f"{SEED} long {coding}")
    for _ in range(LONG // 2):
        text = "".join(chr(rng.choice(edges.SCALARS)) for _ in range(LONG_SCALARS)).encode(coding)
        at = rng.randrange(len(text))
        yield text
        yield text[:at] + bytes([rng.randrange(256)]) + text[at + 1 :]


def drawn(families):
    generators = {name: random.Random(f"{SEED} {name}") for name in families}
    for name in itertools.cycle(families):
        yield families[name](generators[name])


def sample(first, coding, families):
    """The first ones, the long ones, and drawn ones up to the number that is wanted; none twice."""
    chosen = dict.fromkeys([*first, *long_texts(coding)])
    for each in drawn(families):
        if WANTED <= len(chosen):
            return list(chosen)
        chosen[each] = None


def main():
    oracle, folder = sys.argv[1], pathlib.Path(sys.argv[2])
    utf8 = [b"", *scalars("utf-8"), *map(bytes.fromhex, NOT_UTF8)]
    utf16 = [b"", b"\x00", *scalars("utf-16-be"), *surrogates()]
    samples = (
        ("8", "utf8", sample(utf8, "utf-8", text_families.UTF8)),
        ("16", "utf16", sample(utf16, "utf-16-be", text_families.UTF16)),
    )
    lines = [f"{number} {each.hex()}".strip() for number, _, chosen in samples for each in chosen]
    answers = [ask(oracle, command, chosen) for _, command, chosen in samples]
    (folder / "stdin").write_text("".join(line + "\n" for line in lines))
    (folder / "stdout").write_text("".join(answers))
    print(f"recorded: {len(lines)} texts")


if __name__ == "__main__":
    main()
