#!/usr/bin/env python3
"""Respells the repository's own definitions, lemmas and fields as today's Rattle spells names: snake case, a dash between two names.

usage: tools/respell.py             at the top, once, after the port script of the toolchain
       tools/respell.py --table     prints the old and the new names and changes nothing

It reads the names that crates/*/specs and crates/*/proofs define, and rewrites them wherever they stand in .antt and .rt files (edits and pages are turned by hand).
A dash stays where it joins two names that are themselves defined (here or among the words below); else it becomes an underscore. A lemma whose
new name another definition has gets `_lem`. Functions of src/, types, modules, strings, inputs and outputs keep their names.
"""

import glob
import re
import sys

DEFINES = re.compile(r"^(\s*)(?:(?:abbrev|unfoldable|pub|record|data)\s+)*([^\s:(){}.,;]+)\s*(?:\([^=]*\)\s*|\{[^=]*\}\s*)*:(?=\s|$)")
TOKEN = re.compile(r"[^\s(){}.;,@\"«»\[\]\\]+")
# Words of the library that stand as names in lemmas here.
LIBRARY = set("add sub mul div mod zero one suc length append take drop set get get_or replicate map all cond rest phase row".split()) - set("all rest phase row".split())


def sources():
    kinds = ("crates/*/specs/**/*.antt", "crates/*/proofs/**/*.antt", "crates/*/src/**/*.rt")
    return sorted(p for k in kinds for p in glob.glob(k, recursive=True))


def defined():
    names = set()
    for path in glob.glob("crates/*/specs/**/*.antt", recursive=True) + glob.glob("crates/*/proofs/*.antt"):
        for line in open(path, encoding="utf-8"):
            if line.strip().startswith("--") or re.match(r"\s*(use|module|mod)\b", line):
                continue
            found = DEFINES.match(line)
            if found:
                names.add(found[2])
    return names


def snake(name):
    return re.sub(r"(?<=[a-z0-9])([A-Z])", lambda m: "_" + m[1].lower(), name)


def spelled(name, words):
    if "-" not in name:
        return snake(name) if name[0].islower() else name
    parts = [snake(p) if p[:1].islower() else p for p in name.split("-")]
    if any(not p for p in parts):
        return name
    out = parts[0]
    for at in range(1, len(parts)):
        before = [p for i in range(at) for p in ["_".join(parts[i:at])]]
        behind = [p for i in range(at + 1, len(parts) + 1) for p in ["_".join(parts[at:i])]]
        joins = any(p in words for p in before) and any(p in words for p in behind)
        out += ("-" if joins else "_") + parts[at]
    return out


def table():
    names = defined()
    words = {snake(n) for n in names if "-" not in n and not n[0].isupper()} | {n for n in names if n[0].isupper()} | LIBRARY
    new = {}
    taken = {n for n in names if spelled(n, words) == n}
    tokens = set()
    for path in sources():
        tokens |= set(TOKEN.findall(open(path, encoding="utf-8").read()))
    # A lemma here or in one proof has the name that a definition gets.
    for name in [snake(n) for n in names if "-" not in n and n[0].islower() and snake(n) != n]:
        if name in names or name == "second_fits":
            new[name] = name + "_lem"
            taken = taken - {name} | {name + "_lem"}
    for name in sorted(names, key=lambda n: ("-" in n, n)):
        to = spelled(name, words)
        if to == name or name in new:
            continue
        if to in taken or (to in tokens and "-" in name):
            to = to + "_lem"
        if to in taken or (to in tokens and to.endswith("_lem")):
            print("falls together:", name, to, file=sys.stderr)
            continue
        taken.add(to)
        new[name] = to
    return new, tokens


def main():
    names, tokens = table()
    if "--table" in sys.argv:
        for old, to in sorted(names.items()):
            print(old, to, "(a token before)" if to in tokens else "")
        return
    for path in sources():
        text = open(path, encoding="utf-8").read()
        # A function of src/ keeps its name, and what is renamed beside a definition is a lemma.
        if path.endswith(".rt"):
            new = {old: to for old, to in names.items() if not to.endswith("_lem")}
        else:
            new = names
        # Behind a dot of a function's proof stands a step, named after a function, or a field.
        step = lambda m: path.endswith("/Proof.antt") and text[m.start() - 1 : m.start()] == "."
        turned = TOKEN.sub(lambda m: re.sub("_lem$", "", new[m[0]]) if m[0] in new and step(m) else new.get(m[0], m[0]), text)
        if turned != text:
            open(path, "w", encoding="utf-8").write(turned)


main()
