#!/usr/bin/env python3
"""Turns the names that this repository gave its own definitions, lemmas, fields and bound variables to today's spelling.

usage: tools/snake_names.py        at the top of the repository, once, after the toolchain's own script

A name that specs/ declares is in snake case: camel case and dashes go. A bound variable in camel case goes the same way. Types, modules,
functions of src/, C names, texts and data keep their spelling. Where a lemma's new name is a definition's, the lemma ends in '_law'.
"""

import glob
import re

ID = r"[A-Za-z_][A-Za-z0-9_'-]*"
HEAD = re.compile(r"^(?:(?:abbrev|unfoldable|pub|data|record|mutual)\s+)*(" + ID + r")(?:\s+\([^)]*\)|\s+\{[^}]*\})*\s*:", re.M)
INNER = re.compile(r"^[ \t]+(?:pub\s+)?(" + ID + r")\s*:\s", re.M)
CAMEL = re.compile(r"(?<![A-Za-z0-9_'])([a-z][a-z0-9]*(?:[A-Z][A-Za-z0-9]*)+)")
TOKEN = re.compile(r"(?<![A-Za-z0-9_'-])[A-Za-z_][A-Za-z0-9_'-]*")
# .. in Rattle's own code a dash is a minus
WORD = re.compile(r"(?<![A-Za-z0-9_'])[A-Za-z_][A-Za-z0-9_']*")


def snake(name):
    name = name.replace("getD", "get_or").replace("-", "_")
    return re.sub(r"(?<=[a-z0-9])([A-Z])", r"_\1", name).lower()


def files(*patterns):
    return sorted(f for p in patterns for f in glob.glob(p, recursive=True) if "/out/" not in f)


def read(path):
    with open(path, encoding="utf-8") as f:
        return f.read()


def renamings():
    declared = set()
    for f in files("crates/*/specs/**/*.antt"):
        text = read(f)
        declared |= set(HEAD.findall(text)) | set(INNER.findall(text))
    declared = {n for n in declared if n[0].islower()}
    plain = {n for n in declared if not ("-" in n or CAMEL.search(n))}
    definitions = {n: snake(n) for n in declared - plain if "-" not in n}
    taken = plain | set(definitions.values())
    both = dict(definitions)
    for n in sorted(declared - plain - set(definitions)):
        new = snake(n)
        if new in taken:
            new += "_law"
        assert new not in taken, n
        taken.add(new)
        both[n] = new
    return both


def main():
    new = renamings()

    def turned(match):
        name = match.group(0)
        if name in new:
            return new[name]
        return CAMEL.sub(lambda m: new.get(m.group(1), snake(m.group(1))), name)

    for f in files("crates/**/*.antt"):
        text = read(f)
        with open(f, "w", encoding="utf-8") as out:
            out.write(TOKEN.sub(turned, text))
    for f in files("crates/*/src/**/*.rt", "crates/*/must-fail/*.edit"):
        text = read(f)
        # a name with dashes stands in an import or a clause; CAMEL finds the others
        text = TOKEN.sub(lambda m: new.get(m.group(0), m.group(0)), text)
        with open(f, "w", encoding="utf-8") as out:
            out.write(WORD.sub(turned, text))
    for f in files("README.md", "docs/*.md", "docs/trace/*.md"):
        text = read(f)
        text = re.sub(r"`[^`\n]+`", lambda m: TOKEN.sub(turned, m.group(0)), text)
        with open(f, "w", encoding="utf-8") as out:
            out.write(text)
    for old, name in sorted(new.items()):
        print(f"{old}\t{name}")


main()
