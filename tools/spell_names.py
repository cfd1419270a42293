#!/usr/bin/env python3
"""Spells the repository's own definitions and lemmas in snake case.

Run once, at the top, after the toolchain's own script for older repositories. It reads which names the files of specs/ and
proofs/ declare, and turns those that are in camel case or have dashes: `recordAt` to `record_at`, `kept-then` to `kept_then`.
A lemma that would then have its definition's name gets `_lem`. Types, modules, names of src/ and names of the libraries stay.
"""
import collections
import glob
import re

WORD = re.compile(r"[A-Za-z_][A-Za-z0-9_'₀-₉]*(?:-[A-Za-z0-9_'₀-₉ℕ]+)*")
DECLARES = re.compile(r"\s*(?:abbrev |unfoldable |pub )*([a-z][^\s:]*)((?: [a-zA-Z_']+)*) : ")
USES = re.compile(r"\s*(?:pub |ghost )?use ([^{\s;]+?)(?:\.\{([^}]*)\})?(?: as .*)?;?$")

# Lemmas that would share a definition's name, spelled alike by the earlier script: where, and what.
LEMMAS = {
    "expiring": ["due_in", "told_in", "by_default"],
    "cells": ["held_in"],
    "text": ["is_digit"],
}
# In other words, since a parameter beside them has the plain name.
OTHER = {}


def snake(name):
    name = name.replace("-", "_")
    return re.sub(r"(?<=[a-z0-9'])[A-Z]", lambda m: "_" + m.group(0).lower(), name)


def files(*endings):
    return sorted(f for e in endings for f in glob.glob("crates/" + e, recursive=True))


def main():
    crates = {l.split(":")[0] for l in open("crates.txt") if l.strip() and not l.startswith("#")}
    antt = files("*/specs/**/*.antt", "*/proofs/**/*.antt")
    library, declared, seen = set(), set(), set()
    for path in antt:
        for line in open(path):
            line = line.split("--")[0].rstrip()
            use = USES.match(line)
            if use:
                parts = use.group(1).split(".")
                if use.group(2) and not (parts[0] == "Rattle" and parts[1] in crates):
                    library |= {n.split(" as ")[0].strip() for n in use.group(2).split(",")}
                continue
            seen |= set(WORD.findall(line))
            told = DECLARES.match(line)
            if told:
                declared.add(told.group(1))
    odd = {n for n in declared - library if "-" in n or re.match(r"[a-z].*[A-Z]", n)}
    by_new = collections.defaultdict(set)
    for n in odd:
        by_new[snake(n)].add(n)
    new = {}
    for n in odd:
        s = OTHER.get(n, snake(n))
        together = by_new[s] | ({s} if s in declared else set())
        new[n] = s + "_lem" if "-" in n and len(together) > 1 else s
    for path in files("*/specs/**/*.antt", "*/proofs/**/*.antt", "*/src/**/*.rt", "*/must-fail/*.edit"):
        crate = path.split("/")[1]
        names = dict(new)
        if "/proofs/" in path:
            names.update({n: n + "_lem" for n in LEMMAS.get(crate, [])})
        lines = []
        for line in open(path):
            mark = "//" if path.endswith(".rt") else "--"
            code, comment, rest = line.partition(mark + " ")
            if path.endswith(".edit"):
                code, comment, rest = line, "", ""
            turned = WORD.sub(lambda m: names.get(m.group(0), m.group(0)), code)
            told = WORD.sub(lambda m: names[m.group(0)] if m.group(0) in names and "-" not in m.group(0) else m.group(0), rest)
            lines.append(turned + comment + told)
        text = "".join(lines)
        if text != open(path).read():
            open(path, "w").write(text)


if __name__ == "__main__":
    main()
