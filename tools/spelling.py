#!/usr/bin/env python3
"""Brings the repository's own names to the spelling of today's library, once, right after the kit's port.py.

usage: tools/spelling.py        at the top of the repository

Words (definitions, lemmas, fields, bound variables) get snake case, types camel case, and a prime is an apostrophe. Names of Rust items, exported C names,
strings, inputs and outputs stay. A lemma whose new name would be that of a definition gets `_law` behind it. Two crates that a library of the kit is named
like are renamed: `unicode` to `utf`, `base64` to `radix64`. A second run changes nothing.
"""
import collections
import os
import re
import subprocess

NAME = r'[^\s(){}.;,@"«»:]+'
TOKEN = re.compile(r'--[^\n]*|"(?:[^"\\]|\\.)*"|[^\s(){}.;,@"«»]+')
CRATES = {"unicode": "utf", "base64": "radix64"}
# Lemmas whose name port.py has turned to that of a definition of the same file.
LEMMAS = {
    "crates/builder/proofs/Building.antt": "by_way",
    "crates/lookup/specs/PathLaws.antt": "key_in",
    "crates/plainly/specs/ElementsLaws.antt": "due_in",
    "crates/tape/specs/KindsLaws.antt": "negative_of",
    "crates/written_claims/specs/Writes.antt": "fitted_of",
}
KEYWORDS = "pub|abbrev|unfoldable|record|data|ghost|private|mutual|instance|syntax|constructor|field|ruleset"


def files(ends, *parts):
    for folder, dirs, names in os.walk("crates"):
        dirs[:] = sorted(d for d in dirs if d != "out")
        for name in sorted(names):
            path = os.path.join(folder, name)
            if name.endswith(ends) and (not parts or any(f"/{part}/" in path for part in parts)):
                yield path


def read(path):
    with open(path, encoding="utf-8", newline="") as it:
        return it.read()


def write(path, text):
    with open(path, "w", encoding="utf-8", newline="") as it:
        it.write(text)


def is_odd(name):
    """Says whether a name has an old spelling: camel case, a dash, or a prime."""
    return bool(name[0].isalpha() and (re.search(r"[a-z0-9₀-₉][A-Z]", name) and name[0].islower() or "-" in name or "′" in name))


def spelled(name):
    name = name.replace("′", "'")
    if name[0].isupper():
        return "".join(part[:1].upper() + part[1:] for part in name.split("-"))
    name = re.sub(r"([a-z0-9₀-₉])([A-Z])", lambda it: it[1] + "_" + it[2].lower(), name)
    return re.sub(r"-+", "_", name)


def table():
    """Returns the new spelling of each name that the repository's own texts declare or bind."""
    declared, bound = set(), set()
    for path in files(".antt", "specs", "proofs"):
        text = re.sub(r"--[^\n]*", "", read(path))
        if path.endswith("/Proof.antt"):
            continue
        for it in re.finditer(rf"(?m)^ *(?:(?:{KEYWORDS})\s+)*({NAME})(?:\s+(?:\{{[^{{}}\n]*\}}|\([^()\n]*\)))* :(?=\s)", text):
            declared.add(it[1])
        for it in re.finditer(rf"\blet ({NAME}) [:=]", text):
            bound.add(it[1])
        for it in re.finditer(rf"[({{]((?:{NAME} )+): ", text):
            bound.update(it[1].split())
    names = declared | bound
    new = {name: spelled(name) for name in names if is_odd(name)}
    met = collections.defaultdict(set)
    for name in names:
        met[new.get(name, name)].add(name)
    for name, all in met.items():
        if len(all) > 1:
            for it in all:
                if "-" in it:
                    new[it] = name + "_law"
    # The library has a definition `is_nan`, which that lemma is about.
    new["is-nan"] = "is_nan_law"
    return new


def turned(text, new, skip_behind_dot=False):
    def one(found):
        word = found[0]
        if word.startswith(("--", '"')):
            if word.startswith("--"):
                return re.sub(r"`([^`\n]+)`", lambda it: "`" + turned(it[1], new) + "`", word)
            return word
        if word.startswith("Need-") or word.startswith(("After-", "Then", "Else", "In-", "At-")):
            return word
        return new.get(word, word)

    return TOKEN.sub(one, text)


def crate_words(text):
    """Turns the names of the crates that are renamed, in paths of Rattle and of Rust."""
    for old, name in CRATES.items():
        text = re.sub(rf"\bRattle\.{old}\b", f"Rattle.{name}", text)
    return text


def rust(text, new):
    """Turns the names in clauses, ghost fields and ghost imports, and the crates in `use` lines."""
    text = crate_words(text)
    for old, name in CRATES.items():
        text = re.sub(rf"(?m)^((?:pub )?use ){old}::", rf"\g<1>{name}::", text)
    out, at = [], 0
    clause = re.compile(r"ghost use [^;]*;|\b(?:requires|ensures)\*?(?: \w+)? \{|\bghost (?:invariant|\w+): \{")
    while True:
        it = clause.search(text, at)
        if not it:
            break
        end = it.end()
        if it[0].endswith("{"):
            depth = 1
            while depth:
                depth += {"{": 1, "}": -1}.get(text[end], 0)
                end += 1
        out.append(text[at : it.start()])
        out.append(turned(text[it.start() : end], new))
        at = end
    return "".join(out) + text[at:]


def prose(text, new):
    """Turns names in code spans."""
    text = re.sub(r"`([^`\n]+)`", lambda it: "`" + turned(it[1], new) + "`", text)
    for old, name in CRATES.items():
        text = re.sub(rf"`{old}`", f"`{name}`", text)
        text = re.sub(rf"crates/{old}/", f"crates/{name}/", text)
    return text


def edit(text, new):
    file = re.search(r"(?m)^file: (\S+)", text)
    if not file:
        return text
    lines = []
    for line in text.split("\n"):
        it = re.match(r"(old: |new: )(.*)", line)
        if it and file[1].endswith(".antt"):
            line = it[1] + turned(crate_words(it[2]), new)
        elif it and re.match(r"\s*(ghost use|requires|ensures)", it[2]):
            line = it[1] + turned(crate_words(it[2]), new)
        lines.append(line)
    return "\n".join(lines)


def main():
    new = table()
    every = {}
    for path in files(".antt"):
        text = read(path)
        if path in LEMMAS and not re.search(rf"\b{LEMMAS[path]}_law\b", text):
            text = turned(text, {LEMMAS[path]: LEMMAS[path] + "_law"})
        elif "KindsLaws.{" in text and "crates/tape/" in path:
            text = turned(text, {"negative_of": "negative_of_law"}) if re.search(r"KindsLaws\.\{[^}]*negative_of", text) else text
        every[path] = turned(crate_words(text), new)
    for path in files(".rt"):
        every[path] = rust(read(path), new)
    for path in files((".edit", ".tried")):
        every[path] = edit(read(path), new)
    texts = subprocess.run(["git", "ls-files", "*.md"], capture_output=True, text=True).stdout.split()
    for path in texts:
        every[path] = prose(read(path), new)
    for path, text in every.items():
        if text != read(path):
            write(path, text)
    for old, name in CRATES.items():
        if os.path.isdir(f"crates/{old}"):
            subprocess.run(["git", "mv", f"crates/{old}", f"crates/{name}"], check=True)
    listed = read("crates.txt")
    for old, name in CRATES.items():
        listed = re.sub(rf"(?m)(?<!\w){old}(?!\w)(?=[ :]|$)", name, listed) if not listed.startswith("#!") else listed
    write("crates.txt", listed)


if __name__ == "__main__":
    main()
