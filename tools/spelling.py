#!/usr/bin/env python3
"""Turns the repository's own definitions and lemmas to snake case: containsZero and contains-zero become contains_zero.

usage: python3 tools/spelling.py [FOLDER]      once, at the top, after port.py

A name is the repository's own where a signature of an .antt file below crates/ declares it. Types, modules, names that a file imports from
the kit, functions of src/, strings and what Rattle makes keep their spelling. A lemma that would then have the name of a definition ends in
'_lem'. Files of crates/*/must-fail are turned too. It prints what it renames.
"""
import collections
import glob
import os
import re
import sys

TOKEN = re.compile(r"[A-Za-z_][A-Za-z0-9_'₀-₉′]*(?:-[A-Za-z0-9_'₀-₉′]+)*")
SIGNATURE = re.compile(r"^(\s*)((?:pattern |unfoldable |opaque |abbrev |pub |axiom )*)((?:[^\s:(){}=λ→∷]+ )+): ")
USE = re.compile(r"^use (\S+?)\.\{([^}]*)\}", re.M)
MADE = re.compile(r"^(?:abbrev )?(?:pub )?(\S+) : tie\.", re.M)
CAMEL = re.compile(r"[a-z0-9₀-₉][A-Z]")


def files(top, pattern):
    return sorted(f for f in glob.glob(os.path.join(top, "crates", pattern), recursive=True) if "/out/" not in f)


def read(f):
    with open(f, encoding="utf-8") as it:
        return it.read()


def snake(name):
    name = name.replace("-", "_").replace("′", "'")
    name = re.sub(r"([a-z0-9₀-₉])([A-Z])", r"\1_\2", name)
    return "_".join(p if len(p) == 1 else p[:1].lower() + p[1:] for p in name.split("_"))


def walk(f):
    """The proof of one function, which cites names that Rattle makes."""
    return f.endswith("/Proof.antt")


def declared(top):
    """The names that signatures declare: by file, and the fields of the records of specs/ and of lemmas."""
    names, fields = collections.defaultdict(set), set()
    for f in files(top, "**/*.antt"):
        inside = False
        for line in read(f).splitlines():
            text = line.split("--")[0]
            if text.strip() and not text.startswith(" "):
                inside = bool(re.match(r"(pub )?record ", text))
            m = SIGNATURE.match(text)
            if m and "record " not in text[:8]:
                for n in m[3].split():
                    if TOKEN.fullmatch(n):
                        names[n].add(f)
                        if inside and m[1] and not walk(f):
                            fields.add(n)
    return names, fields


def renames(top, names):
    """Old name to new name; where one file has two names that would fall together, the lemma gets '_lem'."""
    turned = {n for n in names if n[0].islower() and ("-" in n or CAMEL.search(n))}
    out, old = {n: snake(n) for n in turned}, collections.defaultdict(set)
    for n in set(names) | turned:
        old[out.get(n, n)].add(n)
    crowded = {n: new for new, ns in old.items() if len(ns) > 1 for n in ns}
    clash = set()
    for f in files(top, "**/*.antt") + files(top, "**/*.rt"):
        here = set(TOKEN.findall(read(f))) & set(crowded)
        for n in here:
            if sum(crowded[n] == crowded[o] for o in here) > 1:
                clash.add(crowded[n])
    for new in clash:
        first = min(old[new], key=lambda n: ("-" in n, not CAMEL.search(n), n))
        for n in old[new] - {first}:
            out[n] = new + "_lem"
    return out


def turn(text, to, dotted):
    def one(m):
        n, before = m[0], text[max(0, m.start() - 1) : m.start()]
        if n not in to or (before == "." and n not in dotted):
            return n
        return to[n]

    return TOKEN.sub(one, text)


def own_crates(top):
    return {os.path.basename(c) for c in glob.glob(os.path.join(top, "crates", "*"))}


def imported(text, crates):
    out = set()
    for m in USE.finditer(text):
        parts = m[1].split(".")
        if parts[0] != "Rattle" or parts[1] not in crates:
            out |= set(TOKEN.findall(m[2]))
    return out


def main(top):
    names, fields = declared(top)
    to, crates = renames(top, names), own_crates(top)
    camel = {n: to[n] for n in to if CAMEL.search(n) and "-" not in n}
    for f in files(top, "**/*.antt") + files(top, "**/*.rt") + files(top, "*/must-fail/*.edit"):
        text = read(f)
        if f.endswith(".rt") or (f.endswith(".edit") and ".rt\n" in text.splitlines(True)[0]):
            new = turn(text, camel, set(camel))
        else:
            kit = imported(text, crates)
            made = {m[1] for m in MADE.finditer(text)}
            mine = {n: to[n] for n in to if n not in kit and n not in made}
            new = turn(text, mine, set(camel) | fields if walk(f) else set(mine))
        if new != text:
            with open(f, "w", encoding="utf-8") as it:
                it.write(new)
    for n in sorted(to):
        print(n, to[n])


if __name__ == "__main__":
    main(sys.argv[1] if len(sys.argv) > 1 else ".")
