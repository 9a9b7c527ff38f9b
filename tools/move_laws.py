#!/usr/bin/env python3
"""Moves files of theorems from crates/CRATE/specs/ to crates/CRATE/proofs/: tools/move_laws.py CRATE NAME..

The files move by `git mv`, specs/Lib.antt loses their lines, proofs/Lib.antt gains them (it is made where there is none), and each path
`Rattle.CRATE.specs.NAME` in crates/ becomes `Rattle.CRATE.proofs.NAME`; `crates/CRATE/specs/NAME.antt` in the pages does alike. A must-fail edit's `file:`
line is mended where it names a file that moved. A file of specs/ can't import its own crate's proofs/, so it is refused where one that
stays imports one that moves.
"""
import os
import re
import subprocess
import sys


def read(path):
    with open(path, encoding="utf-8") as f:
        return f.read()


def write(path, text):
    os.makedirs(os.path.dirname(path), exist_ok=True)
    with open(path, "w", encoding="utf-8") as f:
        f.write(text)


def tracked(*patterns):
    return [p for p in subprocess.run(["git", "ls-files", *patterns], capture_output=True, text=True, check=True).stdout.split() if os.path.exists(p)]


def main(crate, names):
    os.chdir(os.path.dirname(os.path.dirname(os.path.abspath(__file__))))
    specs, proofs = f"crates/{crate}/specs", f"crates/{crate}/proofs"
    some = "|".join(map(re.escape, names))
    module = re.compile(rf"\bRattle\.{crate}\.specs\.({some})(?![\w'])")
    there = {f[:-5] for f in os.listdir(specs) if f.endswith(".antt")}
    missing = [n for n in names if n not in there]
    if missing:
        sys.exit(f"{specs} has no {', '.join(missing)}")
    taken = [n for n in names if os.path.exists(f"{proofs}/{n}.antt")]
    if taken:
        sys.exit(f"{proofs} has {', '.join(taken)} already")
    staying = [n for n in sorted(there - set(names) - {"Lib"}) if module.search(read(f"{specs}/{n}.antt"))]
    if staying:
        sys.exit(f"these stay in {specs} and import what moves: {', '.join(staying)}")
    os.makedirs(proofs, exist_ok=True)
    for n in names:
        subprocess.run(["git", "mv", f"{specs}/{n}.antt", f"{proofs}/{n}.antt"], check=True)
    line = re.compile(rf"^(?:pub )?mod ({some})$\n?", re.M)
    moved = [m.group(1) for m in line.finditer(read(f"{specs}/Lib.antt"))]
    write(f"{specs}/Lib.antt", line.sub("", read(f"{specs}/Lib.antt")))
    lib = f"{proofs}/Lib.antt"
    old = read(lib) if os.path.exists(lib) else ""
    if old and not old.endswith("\n"):
        old += "\n"
    write(lib, old + "".join(f"pub mod {n}\n" for n in moved))
    for path in tracked("crates/*.antt", "crates/*.rt", "crates/*.edit", "crates/*.tried"):
        text = read(path)
        new = module.sub(rf"Rattle.{crate}.proofs.\1", text)
        if path.startswith(f"crates/{crate}/") and path.endswith((".edit", ".tried")):
            new = re.sub(rf"^file: specs/({some})\.antt$", r"file: proofs/\1.antt", new, flags=re.M)
        if new != text:
            write(path, new)
    for path in tracked("README.md", "docs/*.md"):
        text = read(path)
        new = re.sub(rf"\bcrates/{crate}/specs/({some})\.antt", rf"crates/{crate}/proofs/\1.antt", text)
        if new != text:
            write(path, new)
    subprocess.run(["git", "add", lib], check=True)


if __name__ == "__main__":
    if len(sys.argv) < 3:
        sys.exit(__doc__)
    main(sys.argv[1], sys.argv[2:])
