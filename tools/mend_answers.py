#!/usr/bin/env python3
"""Mends paths in proof files by what a check says of them: fields that are named anew, and records further in.

usage: tools/mend_answers.py CRATE SAID        SAID is what `rt check` printed in the crate's folder
"""
import re
import sys


def main():
    crate, said = sys.argv[1:]
    text = re.sub(r"\n  +(?=the fields|\S+ can be named)", " ", open(said, encoding="utf-8").read())
    changes, named = {}, {}
    for it in re.finditer(r"(?m)^(?:so far: )?(\./proofs/\S+\.antt):(\d+):(\d+): error: (.*)$", text):
        path, line, column, what = it[1], int(it[2]), int(it[3]), it[4]
        new = None
        f = re.search(r"has no field `([^`]+)`", what)
        if not f:
            continue
        old = f[1]
        inner = re.search(r"write `([^`]+)` in place of `([^`]+)`", what)
        listed = re.search(r"the fields that can be named here are (.*)", what)
        nearest = re.search(r"\(nearest: \.([^)\s]+)\)", what)
        names = re.findall(r"`([^`]+)`", listed[1]) if listed else []
        if inner:
            old, new = inner[2].lstrip("."), inner[1].lstrip(".")
        elif old.isdigit() and names and int(old) < len(names):
            new = names[int(old)]
        elif nearest:
            new = nearest[1]
        elif len(names) == 1:
            new = names[0]
        if old.isdigit() and names and re.search(r"record `\S*(Last|Kept)-", what):
            named[(line, column)] = names
            new = names[0]
        if new:
            changes.setdefault(path, []).append((line, column, old, new))
    done = 0
    for path, all in changes.items():
        file = f"{crate}/{path}"
        lines = open(file, encoding="utf-8").read().split("\n")
        for line, column, old, new in sorted(set(all), reverse=True):
            at = line - 1
            found = lines[at].find("." + old, max(column - 2, 0))
            if found < 0:
                found = lines[at].find("." + old)
            if found < 0:
                continue
            behind = lines[at][found + 1 + len(old) :]
            if old.isdigit() and all:
                # a nested pair, as .new.1.0, where the record now names each part
                path = re.match(r"(?:\.\d)*", "." + old + behind)[0].split(".")[1:]
                names = named.get((line, column), [])
                count = 0
                while count < len(names) - 1 and path[count : count + 1] == ["1"]:
                    count += 1
                used = count + (path[count : count + 1] == ["0"])
                if len(names) == 1:
                    count, used = 0, len(path)
                if names:
                    new = names[min(count, len(names) - 1)]
                    behind = "".join("." + it for it in path[max(used, 1) :]) + behind[len("".join("." + it for it in path[1:])) :]
            lines[at] = lines[at][: found + 1] + new + behind
            done += 1
        open(file, "w", encoding="utf-8").write("\n".join(lines))
    print(done)


if __name__ == "__main__":
    main()
