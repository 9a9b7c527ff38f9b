#!/usr/bin/env python3
"""Turns each proof of a crate that walks a function's goals by `tie.close` into Invariants.antt and Answers.antt.

usage: tools/answers.py CRATE NAMES GENERATED [FUNCTION..]

CRATE is a crate's folder. NAMES is the names.json that `rt check --generated DIR --old-names` writes there, GENERATED what
`rt check --generated GENERATED` writes where the proofs are turned already (a first run may give an empty folder). With functions, as be/horner, only their
proofs are turned. It goes by text; what it can't tell it prints, and a check decides. Answers that are `search rules` alone go: the check tries that itself.
"""
import glob
import json
import os
import re
import sys

W = r"[^\s(){}.;,@\"«»\[\]\\]+"
PATH = re.compile(rf"(?<![^\s(\[,{{])({W})((?:\.{W})+)")
norm = lambda it: re.sub(r"[-_]+", "-", it)


def clauses(root):
    """Returns, for each function of the repository, the names of its `requires` and of its `ensures`, where it has several of a kind."""
    out = {}
    for path in glob.glob(f"{root}/crates/*/src/**/*.rt", recursive=True):
        crate, inside = re.search(r"crates/(\w+)/src/(.*)\.rt$", path).groups()
        module = [crate] + ([] if inside in ("lib", "main") else inside.split("/"))
        text = re.sub(r"//[^\n]*", "", open(path, encoding="utf-8").read())
        owner = None
        for it in re.finditer(r"(?m)^impl(?:<[^>]*>)? (?:\w+ for )?(\w+)[^\n]*\{$|^( *)(?:pub(?:\([a-z]+\))? )?(?:extern \"C\" )?fn (\w+)([^{}]*?)((?: *(?:requires|ensures)\*?(?: \w+)? \{(?:[^{}]|\{[^{}]*\})*\}\s*)*)(?=\{|;)", text):
            if it[1]:
                owner = it[1]
                continue
            name = module + ([owner] if it[2] else []) + [it[3]]
            found = re.findall(r"(requires|ensures)\*?(?: (\w+))? \{", it[5])
            out["::".join(name)] = {kind: [n for k, n in found if k == kind and n] for kind in ("requires", "ensures")}
    return out


CLAUSES = {}


class Function:
    def __init__(self, of, path, generated=None):
        self.of = of
        # the chain of the records of Lts, and the places that have a view, as the check generates them
        self.before, self.views = {}, None
        if generated and os.path.exists(generated + "/Lts.antt"):
            text = text_of_lts = open(generated + "/Lts.antt", encoding="utf-8").read()
            self.before = {norm(a): norm(b) for a, b in re.findall(r"pub record (\S+) : Type 0 where\n +pub before : (\S+)", text)}
            self.views = {}
        if generated and os.path.exists(generated + "/Lts/View.antt"):
            text = open(generated + "/Lts/View.antt", encoding="utf-8").read()
            # the place of Lts that each view stands on
            self.views = {norm(a): norm(b) for a, b in re.findall(r"pub record In-(\S+) : Type 0 where\n +pub before : Lts\.(\S+)", text)}
        self.own = CLAUSES.get(path, {})
        self.stem = of.get("stem") or ""
        self.need, self.newer = {}, {}
        for (old, new), place in zip(of["needs"], of["asked_at"]):
            self.need.setdefault(norm(old), (new, norm(place[0])))
            self.newer.setdefault(norm(new), (new, norm(place[0])))
        self.place = {}
        for it, name, typed, arm in zip(of["places"], of["places_by_name"], of["typed"], of["arms"] + [None] * len(of["places"])):
            self.place[norm(it[0])] = dict(name=name, prev=it[1] and norm(it[1]), step=it[2], callee=it[3], typed=typed, arm=arm)
        self.loops = {norm(a[0]): (a, b, changed) for (a, b), changed in zip(of["loops"], of["changed"])}
        claims = ["tie.the-claims"] if any(it[3] for it in of["places"]) else []
        handed = ["tie.handed_clauses"] if len(self.own.get("ensures", [])) > 1 else []
        if self.before:
            claims = ["tie.the-claims"] if "module _ (the-claims : Claims)" in text_of_lts else []
            handed = ["tie.handed_clauses"] if "pub record the-Clauses" in text_of_lts else []
        bounds = [f"goal.the-{kind}-{a[1]}" for a, _ in of["loops"] for kind in ("invariant", "decreases")]
        # what the records of Lts take
        self.given = " ".join(claims + ["reads.Pre", "reads.Post"] + bounds + handed)

    def goal(self, name):
        """Returns the goal of an old name, which may have the newer kind of goal in front."""
        name = norm(name)
        kind = re.match(r"(overflow|nonzero|float)-(.*)", name)
        part = re.match(r"slice-bounds-(.*)-(start|end|length)$", name)
        tries = [name] + ([kind[2]] if kind else []) + ([f"part-{part[1]}-{part[2]}", f"slice-aggregate-{part[1]}"] if part else [])
        return next((self.need[it] for it in tries if it in self.need), None) or self.newer.get(name)

    def canon(self, place):
        """Returns the end of the arm that a place lies in, where the records of Lts go past the arm as a whole."""
        for end, it in self.place.items():
            if it["arm"] and "Past-" + end in self.before and place in self.chain(end)[: it["arm"][1]]:
                return end
        return place

    def chain(self, place):
        out = []
        while place:
            out.append(place)
            place = self.place[place]["prev"]
        return out


def paragraphs(text):
    """The file's blocks: comments above a declaration, its signature, and its clauses. What is indented belongs to the block above."""
    out = []
    for it in re.split(r"\n\n+", text.strip("\n")):
        if not it.strip():
            continue
        if it.startswith(" ") and out:
            out[-1] += "\n\n" + it
        else:
            out.append(it)
    # the file's comment may stand apart from its uses
    while len(out) > 1 and "\nuse " not in "\n" + out[0]:
        out[:2] = [out[0] + "\n" + out[1]]
    return out


START = ("args", "requires", "ranges", "well-formed", "lifetimes", "utf8", "captures")


class Turner:
    def __init__(self, fun, said):
        self.fun, self.said = fun, said
        # the lemmas of the file that take a place's record, by name; those of them whose record is the inner one, of Lts; the file's uses of them
        self.takes = {}
        self.inner = set()
        self.uses = []

    def by_clause(self, labels, callee):
        """Names a clause of a call's `ensures` in place of its number."""
        if not callee or labels[1:2] != ["ensures"] or len(labels) < 3:
            return labels
        names = CLAUSES.get(callee, {}).get("ensures", [])
        if len(names) < 2:
            return labels
        rest, at = labels[2:], 0
        while rest and rest[0] == "1" and at < len(names) - 1:
            at += 1
            rest = rest[1:]
        if at < len(names) - 1:
            if rest[:1] != ["0"]:
                return labels
            rest = rest[1:]
        return labels[:2] + [names[at]] + rest

    def resolve(self, place, labels, where, inner=False):
        """Returns the labels of the new path for `c.labels` at a place. How often a path goes back says nothing: a step's label stands once in a function."""
        labels = list(labels)
        while labels and labels[0] == "before":
            labels.pop(0)
        if not labels:
            return None
        chain = self.fun.chain(place)
        # a table of lemmas' names may have taken a step for a lemma
        for first in (norm(labels[0]), re.sub("-(law|lem)$", "", norm(labels[0])).lower()):
            if first in START:
                return [first.replace("-", "_"), *labels[1:]]
            if first == "pre":
                return ["requires", *labels[1:]]
            here = next((p for n in (0, 1) for p in chain if norm(self.fun.place[p]["step"][n]) == first), None)
            here = here or next((p for p in chain if norm(self.fun.place[p]["step"][0]).lower() == first), None)
            if not here:
                stem = re.sub(r"\d+$", "", first)
                alike = [p for p in chain if re.sub(r"\d+$", "", norm(self.fun.place[p]["step"][0])) == stem]
                here = alike[0] if len(alike) == 1 else None
            if here:
                break
        if not here:
            self.said(f"{where}: no step {labels[0]}")
            return None
        step = self.fun.place[here]["step"]
        labels = self.by_clause(labels, self.fun.place[here]["callee"])
        if labels[1:2] == ["given"] and not inner:
            for p in chain:
                for var, known in self.fun.place[p]["typed"]:
                    if norm(known) == norm(step[0]):
                        return ["type_inv", var, *labels[2:]]
        for p in chain:
            arm = self.fun.place[p]["arm"]
            if not arm or inner and "Past-" + p not in self.fun.before:
                continue
            name, _, fields = arm
            for label, of, inner in sorted(fields, key=lambda f: -len(f[2])):
                if norm(of) == norm(step[0]) and [norm(x) for x in labels[1 : 1 + len(inner)]] == [norm(x) for x in inner]:
                    if label.endswith("-own"):
                        return [name, label, *labels[1:]]
                    return [name, label, *labels[1 + len(inner) :]]
        return [step[1], *labels[1:]]

    def has_view(self, place):
        if self.fun.views is not None:
            return norm(self.fun.place[place]["name"]) in self.fun.views
        return bool(self.fun.place[place]["typed"]) or any(self.fun.place[p]["arm"] for p in self.fun.chain(place))

    def hops(self, place, to):
        """Returns how many records of Lts lie between a place's own and another's above it."""
        if self.fun.before:
            past = "Past-" + place
            at, n = past if past in self.fun.before else place, 0
            if self.fun.views:
                at = self.fun.views.get(norm(self.fun.place[place]["name"]), at)
            while at not in (to, "Past-" + to) and at in self.fun.before:
                at = self.fun.before[at]
                n += 1
            return n if at in (to, "Past-" + to) else None
        chain = self.fun.chain(place)
        return chain.index(to) if to in chain else None

    def body(self, text, place, where, var="c", inner=False):
        """Turns the paths of a declaration's body."""
        # what is bound to a place's record or to a path of it
        bound = {var: []}
        pattern = re.compile(rf"\blet ({W}) = ({W})((?:\.{W})*) in[ \n]+")
        for it in pattern.finditer(text):
            if it[2] in bound:
                bound[it[1]] = bound[it[2]] + [x for x in it[3].split(".") if x]

        def full(head, labels):
            return bound[head] + labels

        # a place's record that is handed to a lemma
        def handed(found):
            lemma, head, labels = found[1], found[2], found[3]
            if head in bound and lemma in self.takes and all(x == "before" for x in full(head, labels.split(".")[1:])):
                n = self.hops(place, self.takes[lemma])
                if n is not None:
                    self.uses.append((lemma, n, inner))
                    if lemma in self.inner and not inner and self.has_view(place):
                        n += 1
                    return f"{lemma} {var}" + ".before" * n
                self.said(f"{where}: {lemma} takes {self.takes[lemma]}, which is not above {place}")
            return found[0]

        if self.takes:
            text = re.sub(rf"(?<![^\s(\[,])({'|'.join(map(re.escape, self.takes))}) ({W})((?:\.before)*)(?=[\s)\],]|$)(?! =)", handed, text)

        def one(found):
            head, labels = found[1], found[2][1:].split(".")
            if head not in bound:
                return found[0]
            if all(x == "before" for x in full(head, labels)):
                return found[0]
            whole = full(head, labels)
            got = self.resolve(place, whole, where, inner)
            if got is None:
                return found[0]
            if head != var and any(x != "before" for x in bound[head]):
                short = self.resolve(place, bound[head], where + " (quiet)", inner)
                if short and got == short + labels:
                    return found[0]
            return var + "." + ".".join(got)

        def binding(found):
            name = found[1]
            if name not in bound or found[2] not in bound:
                return found[0]
            return found[0]

        lines = PATH.sub(one, text)
        # bindings that nothing uses any more
        for name in list(bound):
            if name == var:
                continue
            uses = re.findall(rf"(?<![^\s(\[,{{]){re.escape(name)}(?=[\s.)\],}}]|$)", lines)
            if len(uses) == 1:
                lines = re.sub(rf"\blet {re.escape(name)} = {W}(?:\.{W})* in[ \n]+", "", lines)
        return lines


def bound_place(block):
    """Binds the place that a lemma's type names without a name."""
    def one(found):
        head = re.search(rf"(?m)^ *{re.escape(found[2])} ([^\s=(]+)", block[found.end() :])
        return f"{found[1]} ({head[1] if head else 'c'} : tie.{found[3]}) →"

    return re.sub(rf"(?m)^( *(?:abbrev )?(?:pub )?({W}) :) tie\.((?!Need-){W}(?: invariant-{W}| decreases-{W})*) →", one, block)


def split_top(text):
    """Splits a tuple's inside at its commas."""
    parts, depth, at = [], 0, 0
    for n, it in enumerate(text):
        depth += it in "([{"
        depth -= it in ")]}"
        if it == "," and depth == 0:
            parts.append(text[at:n])
            at = n + 1
    parts.append(text[at:])
    return [it.strip() for it in parts if it.strip()]


def as_record(body, names):
    """Turns what a body ends in, a tuple or a pair that a lemma gives, to a record of named clauses."""
    text = body.rstrip()
    if len(names) < 2:
        return body
    if text.endswith(")"):
        depth, at = 0, len(text)
        while at > 0:
            at -= 1
            depth += text[at] == ")"
            depth -= text[at] == "("
            if depth == 0:
                break
        parts = split_top(text[at + 1 : -1])
        while 1 < len(parts) < len(names) and parts[-1].startswith("(") and parts[-1].endswith(")"):
            parts = parts[:-1] + split_top(parts[-1][1:-1])
        if len(parts) == len(names):
            return text[:at] + "(record { " + "; ".join(f"{n} = {v}" for n, v in zip(names, parts)) + " })"
        inside = text[at + 1 : -1]
        if re.match(r"[\s\n]*rw ", last_of(text)[1]) and re.match(W + " ", inside) and not inside.startswith(("rw ", "omega", "simp", "search", "cc")):
            return text[:at] + "(" + pair(inside, names) + ")"
    front, last = last_of(text)
    if re.match(rf"(rw|omega|simp|search|cc|grind|absurd|elim|record|\()", last) or re.fullmatch(r"c(\.\S+)+", last):
        return body
    return f"{front}{pair(last, names)}"


def last_of(text):
    """Splits a body at what stands behind its last `in`."""
    depth, at = 0, 0
    for it in re.finditer(r"[()\[\]{}]|(?<![^\s)\]}])in(?=\s)", text):
        depth += it[0] in "([{"
        depth -= it[0] in ")]}"
        if it[0] == "in" and depth == 0:
            at = it.end()
    gap = re.match(r"\s*", text[at:])[0]
    return text[: at + len(gap)], text[at + len(gap) :]


def pair(term, names):
    """A record of the parts of a pair, or of a pair in a pair."""
    paths = [".1" * n + ".0" for n in range(len(names) - 1)] + [".1" * (len(names) - 1)]
    return f"let both = {term} in record {{ " + "; ".join(f"{n} = both{p}" for n, p in zip(names, paths)) + " }"


def turn(crate, path, fun, said):
    text = open(path, encoding="utf-8").read()
    where = os.path.relpath(os.path.dirname(path), crate + "/proofs")
    if "tie.close" not in text:
        said(f"{where}: no tie.close")
        return False
    # an earlier place's record by a name of its own
    for it in re.finditer(rf"(?m)^(?:--[^\n]*\n)*abbrev ({W}) : tie\.[^→\n]* → tie\.[^\n]*\n\1 ({W}) = \2((?:\.before)*)\n\n", text):
        text = re.sub(rf"\({re.escape(it[1])} ({W}(?:\.{W})*)\)", lambda f: f[1] + it[3], text.replace(it[0], ""))
    inner = set()
    while True:
        t = Turner(fun, lambda _: None)
        t.inner = inner
        written(crate, path, text, where, t)
        more = {lemma for lemma, n, by_inner in t.uses if n or by_inner} | {lemma for lemma in t.takes if t.takes[lemma] not in {norm(p[0]) for p in fun.of["asked_at"]}}
        # the lemmas of one block share its record
        more |= {lemma for lemma in t.takes if t.block.get(lemma) in {t.block.get(it) for it in more}}
        if more <= inner:
            break
        inner = inner | more
    t = Turner(fun, said)
    t.inner = inner
    for name, it in written(crate, path, text, where, t).items():
        with open(os.path.dirname(path) + "/" + name, "w", encoding="utf-8") as out:
            out.write(it)
    os.remove(path)
    return True


def written(crate, path, text, where, t):
    fun, said = t.fun, t.said
    t.block = {}
    blocks = paragraphs(text)
    head = blocks[0]
    comment = [it for it in head.split("\n") if it.startswith("--")]
    uses = [it for it in head.split("\n") if it.startswith("use ")]
    module = next(re.match(r"use (\S+)\.Tie as tie", it)[1] for it in uses if re.match(r"use (\S+)\.Tie as tie", it))
    other = [it for it in uses if not re.search(r"\.(Tie as tie|Statement\.\{statement\})$", it)]
    invariants, answers = [], []
    names = {}
    asked = {norm(place[0]): place[1] for place in fun.of["asked_at"]}
    for block in map(bound_place, blocks[1:]):
        it = re.search(rf"(?m)^(?:pub )?({W}) : tie\.Need-({W})", block)
        if it:
            got = fun.goal(it[2])
            if got:
                names[it[1]] = got[0]
            continue
        it = re.search(rf"\(({W}) : tie\.({W})", block)
        if it and norm(it[2]) in fun.place:
            for f in re.finditer(rf"(?m)^ *(?:abbrev )?(?:pub )?({W}) :", block):
                t.takes[f[1]] = fun.canon(norm(it[2]))
                t.block[f[1]] = block[:80]
    uses_lts = False
    locals_ = {}
    for block in map(bound_place, blocks[1:]):
        lines = block.split("\n")
        notes = []
        while lines and lines[0].startswith("--"):
            notes.append(lines.pop(0))
        code = "\n".join(lines)
        if "tie.close" in block:
            continue
        it = re.match(rf"(?:abbrev )?(?:pub )?((invariant|decreases)-({W})) : tie\.({W})\n", code)
        if it and it[4] == it[1]:
            kind, loop = it[2], norm(it[3])
            found = fun.loops.get(loop)
            if not found:
                said(f"{where}: no loop {it[3]}")
                continue
            (old, new), variables, changed = found
            line = code[it.end() :]
            m = re.match(rf"((?:unfolding[^\n]*\n)?){re.escape(it[1])}((?: (?:{W}|_))*) =(.*)", line, re.S)
            params, body = m[2].split(), m[3]
            want = [f"l.initial.{v}" if c else f"l.{v}" for v, c in zip(variables, changed)] + [f"l.{v}" for v, c in zip(variables, changed) if c]
            if len(params) != len(want):
                said(f"{where}: {it[1]} has {len(params)} parameters for {want}")
            by = dict(zip(params, want))
            by.pop("_", None)
            body = re.sub(rf"(?<![^\s(\[,{{]){W}", lambda f: by.get(f[0], f[0]), body)
            invariants.append("\n".join(notes + [f"abbrev pub {kind}-{new} : goal.{kind}-{new}", f"{m[1]}{kind}-{new} l ={body}"]))
            continue

        def named(body):
            for old_name, new_name in names.items():
                body = re.sub(rf"(?<![^\s(\[,{{]){re.escape(old_name)}(?=[\s)\],}}])", lambda _: new_name, body)
            return body

        it = re.match(rf"(?:pub )?({W}) : tie\.Need-({W})([^\n]*)\n", code)
        if it:
            got = fun.goal(it[2])
            rest = code[it.end() :]
            b = re.search(rf"(?m)^{re.escape(it[1])}((?: [^\s=(){{}}]+)*) =(.*)\Z", rest, re.S)
            if not got:
                if b and b[2].strip() not in ("search rules",):
                    said(f"{where}: no goal {it[2]}: dropped: {' '.join(rest.split())[:300]}")
                continue
            new, place = got
            if b is None:
                said(f"{where}: cannot read {it[1]}")
                continue
            unfolding = rest[: b.start()].strip()
            if b[2].strip() == "search rules" and not unfolding:
                continue
            params = [p for p in b[1].split() if p != "κs"]
            body = t.body(b[2], place, f"{where}:{it[1]}", "c" if "c" in params else params[0] if params else "c")
            if new.startswith("returns"):
                body = as_record(body, fun.own.get("ensures", []))
            answers.append("\n".join(notes + [f"pub {new} : goal.{new}"] + ([unfolding] if unfolding else []) + [f"{new} {' '.join(params)} ={named(body)}"]))
            continue
        # a lemma of the file, perhaps over a place

        is_inner = any(lemma in t.inner for lemma in t.takes if t.block[lemma] == block[:80])

        def typed(f):
            there = fun.canon(norm(f[2]))
            got = fun.place.get(there)
            if got and not is_inner and there in asked:
                return f"({f[1]} : goal.{asked[there]}"
            if got:
                nonlocal uses_lts
                uses_lts = True
                old = next(p[0] for p in fun.of["places"] if norm(p[0]) == there)
                old = "Past-" + old if "Past-" + norm(old) in fun.before else old
                return f"({f[1]} : lts.{old} {fun.given}"
            said(f"{where}: no place {f[2]}")
            return f[0]

        code = bound_place(code)
        f = re.search(rf"\(({W}) : tie\.({W})", code)
        if f and norm(f[2]) in fun.place:
            code = t.body(code, fun.canon(norm(f[2])), f"{where}:{code.split(' ')[0]}", f[1], is_inner)
        code = re.sub(rf"\(({W}) : tie\.({W})((?: invariant-{W}| decreases-{W})*)", typed, code)
        code = named(code)
        if re.search(r"tie\.(?!the-claims|handed_clauses)", code):
            said(f"{where}: left: {' '.join(code.split())[:200]}")
        answers.append("\n".join(notes + [code]))
        plain = re.match(rf"(?:abbrev |unfoldable )?(?:pub )?({W}) :", code)
        if plain and "c." not in code and "goal." not in code and "lts." not in code:
            locals_[plain[1]] = len(answers) - 1
    end = [f"use {module}.Lts as lts", f"use {module}.Reads as reads"] + ([f"use {module}.Tie as tie"] if "tie." in fun.given else []) if uses_lts else []
    # what the invariants speak of stands with them
    moved, text_of = [], "\n".join(invariants)
    while True:
        more = [n for n in locals_ if n not in moved and re.search(rf"(?<![^\s(\[,{{]){re.escape(n)}(?=[\s)\],}}]|$)", text_of)]
        if not more:
            break
        moved += more
        text_of += "\n" + "\n".join(answers[locals_[n]] for n in more)
    if moved:
        shared = sorted((locals_[n], n) for n in moved)
        invariants = [re.sub(rf"(?m)^((?:abbrev |unfoldable )?)(?:pub )?(?={re.escape(n)} :)", r"\1pub ", answers[at]) for at, n in shared] + invariants
        answers = [it for at, it in enumerate(answers) if at not in {a for a, _ in shared}]
        end.append(f"use {module}.Invariants.{{{', '.join(n for _, n in shared)}}}")
    out = {}
    if invariants:
        out["Invariants.antt"] = "\n".join(comment + other + [f"use {module}.Given as goal"]) + "\n\n" + "\n\n".join(invariants) + "\n"
    if answers:
        out["Answers.antt"] = "\n".join(comment + other + [f"use {module}.Goals as goal"] + end) + "\n\n" + "\n\n".join(answers) + "\n"
    return out


def main():
    crate, names, generated, *only = sys.argv[1:]
    crate = os.path.abspath(crate)
    CLAUSES.update(clauses(os.path.dirname(os.path.dirname(crate))))
    of = {}
    for module, it in json.load(open(names, encoding="utf-8")).items():
        if module.endswith(".Lts"):
            of[norm(module.split(".", 1)[1][: -len(".Lts")].replace(".", "/"))] = it
    for path in sorted(glob.glob(f"{glob.escape(crate)}/proofs/**/Proof.antt", recursive=True)):
        function = os.path.dirname(os.path.relpath(path, f"{crate}/proofs"))
        if only and function not in only:
            continue
        if norm(function) not in of:
            print(f"{function}: not in the names")
            continue
        turn(crate, path, Function(of[norm(function)], "::".join([os.path.basename(crate), *function.split("/")]), f"{generated}/Rattle-{os.path.basename(crate)}-proofs/{function}"), print)


if __name__ == "__main__":
    main()
