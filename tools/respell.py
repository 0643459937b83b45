#!/usr/bin/env python3
"""Brings this repository's own definitions and lemmas to today's spelling: words in snake case, types, modules and facts in camel case. A dash stays where it joins
a type to a name, as in Light-sent_unique.

usage: python3 tools/respell.py [--check]     at the top of the repository, once, on what port.py left. --check prints the table and what falls together, and writes nothing

It goes over the definitions, lemmas and fields of specs/ and proofs/; then each whole word of .antt files, of the
clauses and ghost items of .rt files, of must-fail edits, and of code spans in pages turns by that table. Functions of src/, exported C names, strings, inputs and outputs stay.
"""
import collections
import os
import re
import sys

DECLARED = re.compile(r"^ *(?:(?:abbrev|unfoldable|opaque|pub|ruleset|infixl? \d+) )*([^\s:(){}.,;@\"«»]+)(?: \{[^{}\n]*\})* :(?= |$)")
WORD = re.compile(r'[^\s(){}.;,@"«»`⟨⟩\[\]!/]+')
MADE = ("Proof.antt", "Answers.antt", "Invariants.antt")
CLAUSE = re.compile(r"\b(?:requires|ensures)\*?\s*(?:\w+\s*)?\{|\bghost\s+(?:use\b|\w+\s*:\s*\{)")
PAGES = ["README.md", "docs", "examples/README.md", "tests/second/READINGS.md", "include/potmeander.h"]


def antt_files():
    for folder, dirs, files in os.walk("crates"):
        dirs[:] = sorted(d for d in dirs if d != "out")
        for f in sorted(files):
            if f.endswith(".antt"):
                yield os.path.join(folder, f)


def read(path):
    with open(path, encoding="utf-8") as f:
        return f.read()


def spelled(name):
    """A type's name, with the dash behind it, stays; the rest is snake case."""
    head = ""
    m = re.match(r"([A-Z]\w*-)(.+)", name)
    if m:
        head, name = m.groups()
    elif name[0].isupper() or not name[0].isascii():
        return name
    name = re.sub(r"(?<=[a-z0-9])([A-Z]+)(?=[A-Z][a-z]|$|[^A-Za-z])|(?<=[a-z0-9])([A-Z])", lambda m: "_" + m[0].lower(), name)
    return head + name.replace("-", "_").replace("′", "'")


def table():
    """A lemma that would have a definition's name gets `_lem`."""
    stands, lemmas = set(), set()
    for path in antt_files():
        there = stands if "/specs/" in path else lemmas
        made = os.path.basename(path) in MADE
        for line in read(path).splitlines():
            m = DECLARED.match(line)
            # in a function's own proof a goal is named by the checker
            if m and not (made and (line.startswith(" ") or re.search(r"\b(tie|goal)\.|statement M", line))):
                there.add(m[1])
    names = {a: spelled(a) for a in stands | lemmas}
    taken = {names[a] for a in stands}
    for a in lemmas - stands:
        if names[a] in taken:
            names[a] += "_lem"
    return {a: b for a, b in names.items() if a != b}


def turned(text, names):
    """A name in snake case beside a dot is a function's module, and stays."""

    def one(m):
        dotted = "." in text[m.start() - 1 : m.start()] + text[m.end() : m.end() + 1]
        return m[0] if dotted and "-" not in m[0] and m[0].islower() else names.get(m[0], m[0])

    return WORD.sub(one, text)


def clauses(text, names):
    """In a .rt file, what stands in the braces of a clause or of a ghost item."""
    out, at = [], 0
    while True:
        m = CLAUSE.search(text, at)
        if not m:
            return "".join(out) + spans(text[at:], names)
        end = m.end()
        if m[0].endswith("use"):
            end = text.index(";", end)
        else:
            depth = 1
            while depth:
                depth += {"{": 1, "}": -1}.get(text[end], 0)
                end += 1
        out += [spans(text[at : m.start()], names), turned(text[m.start() : end], names)]
        at = end


def edits(text, names):
    out = []
    for line in text.splitlines(keepends=True):
        if line.startswith(("old:", "new:")):
            line = turned(line, names)
        out.append(line)
    return "".join(out)


def spans(text, names):
    return re.sub(r"`[^`\n]+`", lambda m: turned(m[0], names), text)


def pages():
    for p in PAGES:
        if os.path.isdir(p):
            yield from (os.path.join(p, f) for f in sorted(os.listdir(p)) if f.endswith(".md") and not f.startswith("PORT"))
        elif os.path.exists(p):
            yield p


def together(names):
    """New names that another declaration, a local name or an import of the same file has already."""
    olds = collections.defaultdict(list)
    for a, b in names.items():
        olds[b].append(a)
    said = [f"{b}: from {' and '.join(a)}" for b, a in sorted(olds.items()) if len(a) > 1]
    for path in antt_files():
        words = set(WORD.findall(read(path)))
        said += [f"{path}: {a} would meet {names[a]}" for a in sorted(words & names.keys()) if names[a] in words]
    return said


def main():
    names = table()
    if "--check" in sys.argv:
        for a, b in sorted(names.items()):
            print(f"{a}\t{b}")
        print("\n".join(together(names)), file=sys.stderr)
        return
    count = 0
    for folder, dirs, files in os.walk("crates"):
        dirs[:] = sorted(d for d in dirs if d != "out")
        for f in sorted(files):
            turn = {".antt": turned, ".rt": clauses, ".edit": edits}.get(os.path.splitext(f)[1])
            if turn:
                count += write(os.path.join(folder, f), turn, names)
    for p in pages():
        count += write(p, spans, names)
    print(f"{len(names)} names, {count} files")


def write(path, turn, names):
    text = read(path)
    new = turn(text, names)
    if new == text:
        return 0
    with open(path, "w", encoding="utf-8") as f:
        f.write(new)
    return 1


main()
