#!/usr/bin/env python3
"""Respells the names of this repository's own definitions and lemmas as today's Rattle spells names: words in snake case,
types and modules in camel case. usage: python3 tools/respell.py, once, at the top, right after the kit's port.py.

What it renames are the names that specs/*.antt and proofs/*.antt declare (definitions, lemmas, constructors, fields, local
definitions): `stopNumber` becomes stop_number, and a dash becomes `_` but where it joins names of definitions, as in
length-append. A lemma that would have its function's name gets `_lem`; what clashes otherwise keeps its name, and is told. Files of a function's proof, sources, edits and what pages have in backquotes follow. Functions of src/, strings and
exported names are not touched: a Rust name has neither a dash nor a capital after a small letter.
"""
import collections
import glob
import os
import re
import sys

TOKEN = re.compile(r"[^\s(){},;.:\"`|]+")
DECLARED = re.compile(r"^\s*(?:(?:abbrev|unfoldable|pub|axiom)\s+)*([a-z][^\s(){},;.:\"`|]*)((?: [a-z][^\s(){},;.:\"`|]*)*) : ", re.M)
# what the rules do not give: names that would fall together with another, and what the kit's script left or turned too far
ELSE = {"noWords": "illegal_words", "noHalves": "illegal_halves", "no-halves": "no_halves", "digitsOf": "digits_of", "inRange": "in_range", "x_Fits": "x_fits", "is_IsWord": "is_word"}


def read(p):
    with open(p, encoding="utf-8") as f:
        return f.read()


def write(p, text):
    with open(p, "w", encoding="utf-8") as f:
        f.write(text)


def snake(word):
    word = re.sub(r"(?<=[a-z0-9])(?=[A-Z])", "_", word)
    return re.sub(r"[A-Z]+", lambda m: m.group(0).lower(), word)


def move_contracts():
    """The kit makes a module specs.contracts in each crate, so the file of that name has another; each root file gets its line for tactics."""
    for part in ("specs", "proofs"):
        if os.path.exists(f"crates/promises/{part}/Contracts.antt"):
            os.rename(f"crates/promises/{part}/Contracts.antt", f"crates/promises/{part}/Equations.antt")
    for p in glob.glob("crates/*/specs/*.antt") + glob.glob("crates/*/proofs/**/*.antt", recursive=True):
        text = read(p)
        new = re.sub(r"promises\.(specs|proofs)\.Contracts\b", r"promises.\1.Equations", text)
        if "/promises/" in p:
            new = new.replace("proofs/Contracts.antt", "proofs/Equations.antt")
            new = new.replace("pub mod Contracts\n", "pub mod Equations\n") if p.endswith("/Lib.antt") else new
        if new != text:
            write(p, new)
    for p in glob.glob("crates/*/src/lib.rt") + glob.glob("crates/*/src/main.rt"):
        text = read(p)
        if "#![tactic(auto)]" not in text:
            head = re.match(r"(?://[^\n]*\n)*", text).group(0)
            write(p, head + "#![tactic(auto)]\n" + ("" if text[len(head) :].startswith("\n") else "\n") + text[len(head) :])


def record_fields(text):
    """The fields that the text's records declare: `record R : Type 0 where`, and the lines further in."""
    found, inside = set(), None
    for line in text.split("\n"):
        indent = len(line) - len(line.lstrip())
        if re.match(r" *(?:pub )?record .* where$", line):
            inside = indent
        elif inside is not None and line.strip():
            m = re.match(r" +(?:pub )?([a-z][^\s(){},;.:]*) : ", line)
            if indent <= inside:
                inside = None
            elif m:
                found.add(m.group(1))
    return found


def proofs_of_statements(text):
    """`pub stays-a-row : StaysARow`: a proof has its statement's name, in small letters."""
    return {m.group(1) for m in re.finditer(r"^pub (\S+) : ([A-Z]\w*)$", text, re.M) if re.sub("[-_]", "", m.group(1)).lower() == m.group(2).lower()}


def main():
    move_contracts()
    lemmas = sorted(glob.glob("crates/*/proofs/*.antt"))
    specs = sorted(glob.glob("crates/*/specs/*.antt"))
    others = sorted(glob.glob("crates/*/proofs/*/**/*.antt", recursive=True)) + sorted(glob.glob("crates/*/src/**/*.rt", recursive=True))
    edits = sorted(glob.glob("crates/*/must-fail/*.edit"))
    pages = ["README.md"] + sorted(glob.glob("docs/**/*.md", recursive=True))
    texts = {p: read(p) for p in lemmas + specs + others + edits + pages}
    tokens = collections.Counter(t for p in lemmas + specs for t in TOKEN.findall(re.sub(r"^ *--.*$|Rattle[.][\w.'-]*|\.[\w'-]+", " ", texts[p], flags=re.M)))
    imported = {t for p in lemmas + specs + others for m in re.finditer(r"use (?!Rattle[.])[^{\n]*\{([^}]*)\}", texts[p]) for t in TOKEN.findall(m.group(1))}
    in_specs, in_proofs = set(), set()
    for group, paths in ((in_specs, specs), (in_proofs, lemmas)):
        for p in paths:
            for m in DECLARED.finditer(texts[p]):
                group.add(m.group(1))
                if m.group(2) and re.match(r"^\s*(pub )?\w", m.group(0)):
                    group.update(m.group(2).split())
    # what a dash may join: definitions, the repository's own and those of the kit that it imports
    known = {t for p in lemmas + specs + others for m in re.finditer(r"use [^{\n]*\{([^}]*)\}", texts[p]) for t in TOKEN.findall(m.group(1)) if "-" not in t and t not in in_proofs}
    known |= {snake(t) for t in in_specs if "-" not in t}
    plain = set().union(*(record_fields(texts[p]) | proofs_of_statements(texts[p]) for p in lemmas + specs))
    turned, clash = {}, []
    for name in sorted(in_specs | in_proofs):
        parts = name.split("-")
        if name in in_specs or name in plain or len(parts) == 1 or not all(snake(x) in known or x in known for x in parts if x):
            new = "_".join(snake(x) for x in parts)
        else:
            new = "-".join(x if x[:1].isupper() else snake(x) for x in parts)
        if new != name:
            turned[name] = new
    # a lemma that would have its function's name gets `_lem`
    back = collections.defaultdict(set)
    for old, new in turned.items():
        back[new].add(old)
    for new, olds in sorted(back.items()):
        if new in tokens:
            olds = olds | {new}
        for old in sorted(olds) if len(olds) > 1 else []:
            if old in turned and old not in in_specs:
                turned[old] += "_lem"
                print(f"lemma: {old} -> {turned[old]}, beside {sorted(olds - {old})}")
            elif old in turned and (len(olds & in_specs) > 1 or new in imported):
                clash.append(old)
    turned |= ELSE
    for old in sorted(set(clash) - set(ELSE)):
        print(f"left: {old} -> {turned.pop(old)}: taken")

    fields = set().union(*(record_fields(texts[p]) for p in lemmas + specs))

    def turn(text, steps=False):
        """In a function's proof what follows a dot is a step of the code, unless it is a field of a record."""

        def one(m):
            name = m.group(0)
            if steps and text[m.start() - 1 : m.start()] == "." and name not in fields:
                return name
            return turned.get(name, name)

        return TOKEN.sub(one, text)

    n = 0
    for p, text in texts.items():
        new = re.sub(r"`[^`\n]*`", lambda m: turn(m.group(0)), text) if p.endswith(".md") else turn(text, p in others)
        if new != text:
            write(p, new)
            n += 1
    print(f"{len(turned)} names in {n} files")
    if len(sys.argv) > 1:
        with open(sys.argv[1], "w") as f:
            f.writelines(f"{a}\t{b}\n" for a, b in sorted(turned.items()))


main()
