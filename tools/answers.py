#!/usr/bin/env python3
"""Turns the proofs that walk over `tie` (proofs/F/Proof.antt) into Answers.antt and Invariants.antt.

usage: python3 tools/answers.py NAMES CRATE     at the top; NAMES is names.json of `rt check --generated DIR --old-names` in crates/CRATE

An answer that is `search rules` alone goes: the check tries that by itself. What it cannot turn it says, and leaves the Proof.antt beside the rest as Proof.antt.left.
"""
import json
import os
import re
import sys

HEAD = re.compile(r"^(?:(?:abbrev|unfoldable|opaque|pub) )*([^\s:(){}]+)(?: \{[^{}\n]*\})* :(?: |$)")
SEG = r"[^\s(){}.;,@\"«»]+"
PATH = re.compile(rf"(?<![^\s(){{}};,])({SEG})((?:\.{SEG})+)|(?<![^\s(){{}};,.])({SEG})(?![^\s(){{}};,])")


def norm(s):
    """A step may bear a name that a lemma lost."""
    return re.sub("-lem$", "", s.replace("_", "-"))


def stripped(s):
    out = [s]
    for a, b in (("overflow-", ""), ("slice-bounds-", "part-"), ("nonzero-", ""), ("offset-bounds-", ""), ("bounds-", "")):
        if s.startswith(a):
            out.append(b + s[len(a):])
    return out


class Fn:
    def __init__(self, d):
        self.places = [p[0] for p in d["places"]]
        self.parent = {}
        self.own = {}
        self.arm = {}
        self.clauses = {}
        for i, p in enumerate(d["places"]):
            self.parent[p[0]] = p[1]
            self.own[p[0]] = p[2]
            self.arm[p[0]] = d["arms"][i]
            self.clauses[p[0]] = (d["clauses"][i] or {}).get("fields")
        self.needs = [(a, b) for a, b in d["needs"]]
        self.at = [a for a, b in d["asked_at"]]
        self.loops = d["loops"]
        self.changed = d["changed"]
        self.settled = d["settled"]
        self.args = [[x.replace(" ", "")[1:].split(".") for x in pair] for pair in d["args"]]

    def goal(self, need):
        cands = stripped(norm(need))
        for c in cands:
            for i, (a, b) in enumerate(self.needs):
                if norm(a) == c:
                    return i
        for c in cands:
            for i, (a, b) in enumerate(self.needs):
                if b and norm(b) == c:
                    return i
        return None

    def step(self, place, segs):
        """(new path segments, or a place) for an old path from a place."""
        k = 0
        while k < len(segs) and segs[k] == "before":
            # the start is reached sooner where a step is gone
            place = self.parent[place] or place
            k += 1
        rest = segs[k:]
        if not rest:
            return None, place
        old, new = self.own[place]
        if norm(old) == norm(rest[0]) and old:
            arm = self.arm[place]
            if arm:
                best = None
                for f, o, olds in arm[2]:
                    if norm(o) == norm(old) and [norm(x) for x in olds] == [norm(x) for x in rest[1 : 1 + len(olds)]]:
                        if best is None or len(olds) > len(best[1]):
                            best = (f, olds)
                if best:
                    f, olds = best
                    tail = rest[1 + len(olds) :]
                    return [arm[0], f] + tail, None
            tail = ["type_inv" if s == "type-inv" else s for s in rest[1:]]
            if len(tail) > 1 and tail[0] == "ensures" and tail[1].isdigit() and self.clauses[place]:
                tail[1] = self.clauses[place][int(tail[1])]
            return [new] + tail, None
        # a step further up, or args and the like
        up = place
        while up is not None:
            o, n = self.own[up]
            if o and norm(o) == norm(rest[0]):
                return self.step(up, rest)
            up = self.parent[up]
        return rest, None


def blocks(text):
    """(head comments, blocks) by declarations at the left edge."""
    lines = text.splitlines()
    out, cur = [], []
    for l in lines:
        if l.startswith("--") or HEAD.match(l) or l.startswith("use ") or l.startswith("pub use "):
            if cur and not all(x.startswith("--") for x in cur):
                out.append(cur)
                cur = []
        cur.append(l)
    if cur:
        out.append(cur)
    return out


def name_of(block):
    for l in block:
        m = HEAD.match(l)
        if m:
            return m[1]
    return None


def rewrite(body, fn, place, said):
    """Rewrites paths from c, and from lets that name a place."""
    alias = {"c": place}
    # lets that name a place go
    let = re.compile(rf"let ({SEG}) = ({SEG}(?:\.before)*) in\s*")
    while True:
        hit = None
        for m in let.finditer(body):
            head = m[2].split(".")[0]
            if head in alias and (m[2] != head or head == "c"):
                hit = m
                break
        if not hit:
            break
        head, *segs = hit[2].split(".")
        p = alias[head]
        for s in segs:
            p = fn.parent[p]
        alias[hit[1]] = p
        body = body[: hit.start()] + body[hit.end() :]

    def one(m):
        if m[3]:
            if m[3] in alias and m[3] != "c":
                said.append(f"{m[3]} is used whole")
            return m[0]
        if m[1] not in alias:
            return m[0]
        segs = m[2][1:].split(".")
        try:
            new, whole = fn.step(alias[m[1]], segs)
        except (ValueError, KeyError) as e:
            said.append(f"{m[0]}: {e}")
            return m[0]
        if new is None:
            said.append(f"{m[0]} is a place, used whole")
            return m[0]
        return ".".join(["c"] + new)

    body = PATH.sub(one, body)
    named = {m[1] for m in re.finditer(rf"let ({SEG}) = c\.args in", body)}
    for old, new in fn.args:
        body = re.sub(rf"(?<=\.){re.escape('.'.join(old))}(?![^\s(){{}};,.])", ".".join(new), body)
        if old[0] == "args":
            for a in named:
                body = re.sub(rf"(?<![^\s(){{}};,]){re.escape(a)}\.{re.escape(old[1])}(?![^\s(){{}};,.])", f"{a}.{new[1]}", body)
    # of `!x` the check says now what `x` is
    return re.sub(r"not-(?:true|false) [^\s(){},;]+ (c\.[^\s(){},;]+)", r"\1", re.sub(r"\(not-(?:true|false) [^\s(){},;]+ (c\.[^\s(){},;]+)\)", r"\1", body))


def clauses_of(crate, inner):
    """The names of the clauses that a function ensures, where it has several."""
    parts = inner.split("/")
    for n in range(len(parts), -1, -1):
        for src in (f"crates/{crate}/src/{'/'.join(parts[:n])}.rt", f"crates/{crate}/src/lib.rt", f"crates/{crate}/src/main.rt"):
            if n and src.endswith(("lib.rt", "main.rt")) or not os.path.exists(src):
                continue
            text = open(src, encoding="utf-8").read()
            if len(parts) - n == 2:
                m = re.search(rf"(?ms)^impl {parts[-2]}\b.*?^}}", text)
                text = m[0] if m else ""
            m = re.search(rf"(?ms)^ *(?:pub(?:\(\w+\))? )?(?:extern \"C\" )?fn {parts[-1]}\b(.*?)^ *{{", text)
            if m:
                return re.findall(r"(?m)^ *ensures (\w+) {", m[1])
    return []


def as_record(term, names):
    """A tuple at the end, of as many parts as there are clauses, as a record."""
    text = term.rstrip()
    if len(names) < 2 or not text.endswith(")"):
        return term
    depth, i = 0, len(text)
    while i:
        i -= 1
        depth += {")": 1, "(": -1}.get(text[i], 0)
        if not depth:
            break
    before = text[:i].rstrip()
    if before and not re.search(r"(^|\s)in$", before):
        return term
    parts, depth, cur = [], 0, ""
    for ch in text[i + 1 : -1]:
        depth += {"(": 1, "[": 1, "{": 1, ")": -1, "]": -1, "}": -1}.get(ch, 0)
        if ch == "," and not depth:
            parts.append(cur)
            cur = ""
        else:
            cur += ch
    if cur.strip():
        parts.append(cur)
    if len(parts) != len(names):
        return term
    return text[:i] + "record { " + "; ".join(f"{n} = {x.strip()}" for n, x in zip(names, parts)) + " }"


def module(path):
    return ".".join(path.split("/"))


def turn(crate, path, d):
    text = open(path, encoding="utf-8").read()
    if ".Tie as tie" not in text:
        return f"{path}: no tie"
    fn = Fn(d)
    folder = os.path.dirname(path)
    inner = folder.split("/proofs/", 1)[1]
    here = f"Rattle.{crate}.proofs.{module(inner)}"
    comments, uses, invs, answers, own, said = [], [], [], [], [], []
    locals_ = {}
    all_blocks = blocks(text)
    for b in all_blocks:
        n = name_of(b)
        if n and "-" in n and not any("tie." in l for l in b) and not n.endswith("-spec"):
            locals_[n] = n.replace("-", "_")
    for b in all_blocks:
        if b[0].startswith("--") and name_of(b) is None:
            rest = []
            for l in b:
                (comments if l.startswith("--") else rest).append(l)
            b = [l for l in rest if l.strip()]
            if not b:
                continue
        if b[0].startswith(("use ", "pub use ")):
            u = " ".join(x.strip() for x in b if x.strip())
            if ".Statement" in u or u.endswith(".Tie as tie"):
                continue
            uses.append(u)
            continue
        n = name_of(b)
        if n is None:
            own.append("\n".join(b).rstrip())
            continue
        i = next(k for k, l in enumerate(b) if HEAD.match(l))
        lead = [l for l in b[:i] if l.strip()]
        sig = b[i]
        k = i + 1
        while k < len(b) and b[k].startswith(" ") and not b[k].startswith(n):
            sig += " " + b[k].strip()
            k += 1
        tail = b[k:]
        m = re.search(r"tie\.((?:Need|invariant|decreases)-(\S+))", sig)
        if "tie" not in sig:
            if "statement M" in sig:
                continue
            own.append("\n".join(b).rstrip())
            continue
        if not m:
            said.append(f"{n}: {sig}")
            continue
        body = "\n".join(tail).rstrip()
        for a, z in locals_.items():
            body = re.sub(rf"(?<![^\s(){{}};,.]){re.escape(a)}(?![^\s(){{}};,.])", z, body)
        if m[1].startswith(("invariant-", "decreases-")):
            kind = m[1].split("-", 1)[0]
            at = next((j for j, (names, vs) in enumerate(fn.loops) if norm(names[0]) in (norm(m[2]), "loop-" + norm(m[2])) or norm(names[1]) == norm(m[2])), None)
            if at is None:
                said.append(f"{n}: no loop {m[2]} of {[x[0] for x in fn.loops]}")
                continue
            new = fn.loops[at][0][1]
            variables, changed = fn.loops[at][1], fn.changed[at]
            lhs, rhs = body.split("=", 1) if "\n" not in body.split("=", 1)[0] else (None, None)
            if lhs is None:
                said.append(f"{n}: equations")
                continue
            unfold = re.match(r"((?:unfolding .*\n)?)(.*)", lhs, re.S)
            params = unfold[2].split()[1:]
            subs = [f"l.initial.{v}" if c else f"l.{v}" for v, c in zip(variables, changed)] + [f"l.{v}" for v, c in zip(variables, changed) if c]
            if len(params) != len(subs):
                said.append(f"{n}: {params} and {subs}")
                continue
            table = {p: s for p, s in zip(params, subs) if p != "_"}

            def put(mm):
                head = mm[1] or mm[3]
                return table[head] + (mm[2] or "") if head in table else mm[0]

            rhs = PATH.sub(put, rhs)
            invs.append("\n".join(lead + [f"abbrev pub {kind}-{new} : goal.{kind}-{new}", f"{unfold[1]}{kind}-{new} l ={rhs}"]))
            continue
        at = fn.goal(m[2])
        if at is None:
            said.append(f"{n}: no goal {m[2]} of {[x[0] for x in fn.needs]}; settled {fn.settled}")
            continue
        new, place = fn.needs[at][1], fn.at[at]
        if new is None:
            continue
        mm = re.match(r"((?:unfolding [^\n]*\n)?)(\S+) c((?: [^\s=]+)*) =(.*)", body, re.S)
        if not mm:
            said.append(f"{n}: its equation {body[:80]!r}")
            continue
        term = mm[4]
        if re.fullmatch(r"\s*search rules\s*", term) and not mm[1]:
            continue
        term = rewrite(term, fn, place, said_here := [])
        said += [f"{n}: {x}" for x in said_here]
        if new.startswith("returns"):
            term = as_record(term, clauses_of(crate, inner))
        answers.append("\n".join(lead + [f"pub {new} : goal.{new}", f"{mm[1]}{new} c ={term}"]))
    own = [re.sub("|".join(rf"(?<![^\s(){{}};,.]){re.escape(a)}(?![^\s(){{}};,.])" for a in sorted(locals_, key=len, reverse=True)), lambda q: locals_[q[0]], o) if locals_ else o for o in own]
    head = "\n".join(comments)
    if invs:
        with open(os.path.join(folder, "Invariants.antt"), "w") as f:
            f.write(head + "\n" + "\n".join(uses + [f"use {here}.Given as goal"]) + "\n\n" + "\n\n".join(invs) + "\n")
    if answers or own and not invs:
        with open(os.path.join(folder, "Answers.antt"), "w") as f:
            f.write(head + "\n" + "\n".join(uses + [f"use {here}.Goals as goal"]) + "\n\n" + "\n\n".join(own + answers) + "\n")
    elif own:
        said.append("own lemmas beside invariants alone: " + "; ".join(o.splitlines()[0] for o in own))
        with open(os.path.join(folder, "Answers.antt"), "w") as f:
            f.write(head + "\n" + "\n".join(uses + [f"use {here}.Goals as goal"]) + "\n\n" + "\n\n".join(own) + "\n")
    os.remove(path)
    if said:
        with open(path + ".left", "w") as f:
            f.write(text)
        return path + ":\n    " + "\n    ".join(said)
    return None


def main():
    names, crate = sys.argv[1:]
    d = json.load(open(names, encoding="utf-8"))
    for folder, dirs, files in os.walk(f"crates/{crate}/proofs"):
        dirs.sort()
        if "Proof.antt" in files:
            path = os.path.join(folder, "Proof.antt")
            inner = folder.split("/proofs/", 1)[1]
            key = f"Rattle-{crate}-proofs.{module(inner)}.Lts"
            if key not in d:
                print(f"{path}: no names under {key}")
                continue
            r = turn(crate, path, d[key])
            if r:
                print(r)


main()
