#!/usr/bin/env python3
"""Lists the places of docs/DESIGN-PASS.md, point by point: tools/places.py [POINT] [--list] [ROOT].

Words and shapes alone are looked at, so a listed place need not be one; the page says which are. A place with a line `// Kept: ..` above it is
counted as kept.
"""
import re
import sys
from collections import defaultdict
from pathlib import Path

NOTHING = re.compile(r"^(No[A-Z]\w*|Not[A-Z]\w*|Nothing|Nowhere|Outside|OutOfRange|Refused|Barred|Bad\w*|Fails|Too[A-Z]\w*|Wrong|Missing|Keeps|Ends|"
                     r"Stop|TapeShrank|Denied|Over|FileTooLong|End|NoRoom\w*)$")


def sources(root):
    for path in sorted((root / "crates").glob("*/src/**/*.rt")):
        yield path, path.read_text()


def kept(text, at):
    """Whether one of the comment lines above says why the place stays."""
    for line in reversed(text[:at].split("\n")[:-1]):
        line = line.strip()
        if line.startswith("// Kept:"):
            return True
        if not line.startswith(("//", "#[")):
            return False
    return False


def functions(text):
    """Name, place, head and body of each function. A brace of a literal counts for none."""
    text = re.sub(r'b?"(?:[^"\\\n]|\\.)*"|b?\'(?:[^\'\\\n]|\\.)\'', lambda found: "_" * len(found.group(0)), text)
    for found in re.finditer(r"(?m)^ *(?:pub(?:\(crate\))? )?(?:const )?(?:extern \"C\" )?fn (\w+)", text):
        indent = "\n" + re.match(r" *", found.group(0)).group(0)
        start = text.find(indent + "{\n", found.start())
        if text.find(indent + "}", found.start()) < start:
            start = -1
        plain = text.find("{\n", found.start())
        opened = start + 1 if start >= 0 else plain
        depth, at = 0, text.index("{", opened)
        begin = at
        while True:
            depth += {"{": 1, "}": -1}.get(text[at], 0)
            if depth == 0:
                break
            at += 1
        yield found.group(1), found.start(), text[found.start():begin], text[begin + 1:at]


def one(root):
    """Enums with a case for nothing or for a refusal; numbers for kinds and refusals."""
    for path, text in sources(root):
        for found in re.finditer(r"(?m)^ *(?:pub(?:\(crate\))? )?enum (\w+)[^{]*\{(.*?)\n *\}", text, re.S):
            cases = re.findall(r"(?m)^ *(\w+)(?:\(|,| \{)", found.group(2))
            odd = [case for case in cases if NOTHING.match(case)]
            if odd and len(odd) < len(cases):
                yield path, f"enum {found.group(1)}: {', '.join(odd)}", kept(text, found.start())
        for name, at, head, body in functions(text):
            if re.search(r"(number|code)(_of|_for)?$|^(number|code)_of$", name) and re.search(r"-> u(8|32|64|size)", head):
                yield path, f"fn {name}: a number for a kind or a refusal", kept(text, at)


def masked(body):
    body = re.sub(r"//[^\n]*", "", body)
    tokens = re.findall(r"\w+|[^\w\s]", body)
    return [("0" if token[0].isdigit() else token) for token in tokens]


def two(root):
    """Functions of one crate with the same tokens, but for at most one in eight."""
    crates = defaultdict(list)
    for path, text in sources(root):
        for name, at, head, body in functions(text):
            tokens = masked(body)
            if len(tokens) >= 12:
                crates[path.parts[path.parts.index("crates") + 1]].append((path, name, tokens, kept(text, at)))
    for crate, items in crates.items():
        for i, (path, name, tokens, stays) in enumerate(items):
            for other_path, other, others, other_stays in items[i + 1:]:
                if len(tokens) == len(others):
                    same = sum(a == b for a, b in zip(tokens, others))
                    if same * 8 >= len(tokens) * 7:
                        yield path, f"fn {name} and fn {other} ({other_path.name})", stays or other_stays


def three(root):
    """Loops written with `while` or `loop`."""
    for path, text in sources(root):
        for found in re.finditer(r"(?m)^ *(?:'\w+: )?(while\b[^\n]*|loop \{)", text):
            fn = re.findall(r"fn (\w+)", text[:found.start()])[-1]
            above = [at for name, at, _, body in functions(text) if name == fn]
            yield path, f"fn {fn}: {found.group(1).rstrip(' {')}", kept(text, found.start()) or any(kept(text, at) for at in above)


def four(root):
    """Functions that are one match from cases to values, that choose the smaller or larger, or that compare by hand."""
    for path, text in sources(root):
        for name, at, head, body in functions(text):
            code = re.sub(r"//[^\n]*", "", body).strip()
            arms = re.fullmatch(r"match \*?[\w.]+ \{(.*)\}", code, re.S)
            if arms and all(re.fullmatch(r"[\w:()., |_=<>+-]+", arm.strip()) for arm in re.split(r",\n", arms.group(1)) if arm.strip()):
                if not re.search(r"=> [a-z_]\w*\(", arms.group(1)):
                    yield path, f"fn {name}: a match from cases to values", kept(text, at)
            elif re.fullmatch(r"if (\w+) <=? (\w+) \{\s*(\1|\2)\s*\} else \{\s*(\1|\2)\s*\}", code):
                yield path, f"fn {name}: the smaller or the larger", kept(text, at)
            elif re.search(r"^(is_same|same)", name):
                yield path, f"fn {name}: equality by hand", kept(text, at)


def five(root):
    """Facts that stand in the requires of three or more functions of a crate; parameters that three or more take together."""
    facts, groups = defaultdict(set), defaultdict(set)
    for path, text in sources(root):
        crate = path.parts[path.parts.index("crates") + 1]
        if crate.endswith("_c"):
            continue
        for name, at, head, body in functions(text):
            for clause in re.findall(r"requires(?: \w+)? \{ (.*) \}", head):
                for fact in re.split(r" × ", clause):
                    facts[crate, fact.strip("() ")].add(name)
            names = re.findall(r"(\w+): ([^,()]+(?:\([^()]*\))?[^,()]*)", head[head.find("("):head.find("requires") if "requires" in head else None].split("->")[0])
            pairs = [f"{n}: {t.strip()}" for n, t in names if n not in ("ensures", "value")]
            for i in range(len(pairs)):
                for j in range(i + 1, len(pairs)):
                    for k in range(j + 1, len(pairs)):
                        groups[crate, pairs[i], pairs[j], pairs[k]].add(name)
    for (crate, fact), names in sorted(facts.items()):
        if len(names) >= 3:
            yield Path(crate), f"fact {fact}: {len(names)} functions", False
    for (crate, *group), names in sorted(groups.items()):
        if len(names) >= 3:
            yield Path(crate), f"parameters {', '.join(group)}: {len(names)} functions", False


def six(root):
    """Structs with an array and a number beside it; arrays beside each other; searches by hand."""
    for path, text in sources(root):
        for found in re.finditer(r"(?m)^ *(?:pub(?:\(crate\))? )?struct (\w+)[^{;]*\{(.*?)\n *\}", text, re.S):
            fields = re.findall(r"(\w+): ([^\n]+),", found.group(2))
            if any(t.startswith("[") for _, t in fields) and any(t == "usize" for _, t in fields):
                yield path, f"struct {found.group(1)}: an array with its length beside it", kept(text, found.start())
        for name, at, head, body in functions(text):
            arrays = re.findall(r"let mut (\w+) = \[", body)
            if arrays and re.search(r"let mut (depth|used|held|count|n): usize", body) or len(arrays) > 1:
                yield path, f"fn {name}: {', '.join(arrays)} with a number beside", kept(text, at)
            if re.search(r"\b(\w+): &mut \[u8\],\s+(held|at|used): usize", head):
                yield path, f"fn {name}: lent memory with a number beside", kept(text, at)


def seven(root):
    """Numbers that select a step, and matches on a kind that is a number."""
    for path, text in sources(root):
        for name, at, head, body in functions(text):
            if re.search(r"\b(pair|side|mode|step|which|kind|select): (usize|u8|u32)\b", head):
                yield path, f"fn {name}: a number selects what is done", kept(text, at)


def eight(root):
    """Answers of proofs, and lemmas."""
    for crate in sorted((root / "crates").iterdir()):
        answers = sum(len(re.findall(r"(?m)^pub ", p.read_text())) for p in crate.glob("proofs/**/Answers.antt"))
        lemmas = sum(len(re.findall(r"(?m)^(?:pub )?[\w'-]+ :", p.read_text())) for p in crate.glob("proofs/*.antt"))
        if answers or lemmas:
            yield crate, f"{answers} answers, {lemmas} lemmas of proofs/", False


def main():
    words = [w for w in sys.argv[1:] if not w.startswith("--")]
    points = [one, two, three, four, five, six, seven, eight]
    root = Path(words.pop()) if words and not words[-1].isdigit() else Path(".")
    chosen = [int(w) for w in words] or range(1, 9)
    for number in chosen:
        found = list(points[number - 1](root))
        if number == 8:
            total = [sum(int(re.findall(r"\d+", what)[i]) for _, what, _ in found) for i in (0, 1)]
            print(f"{number}: {total[0]} answers, {total[1]} lemmas")
        else:
            print(f"{number}: {len(found)} places, {sum(k for _, _, k in found)} with a line `Kept`")
        if "--list" in sys.argv:
            for path, what, stays in found:
                print(f"   {'kept ' if stays else ''}{path}: {what}")


main()
