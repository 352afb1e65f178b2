#!/usr/bin/env python3
"""Brings the repository's own names of definitions, lemmas, fields and constructors to snake case.

usage: python3 tools/spell.py KIT     at the top of the repository; KIT is the folder that `rt doc` names the first page of

Words of antt and of the toolchain's libraries keep their spelling, and so do types, modules and strings. A name that a
file imports from a library keeps its spelling in that file. A dash that joins two names of a lemma stays.
It prints the names that would fall together; with --write as a second word it writes all the same: what it printed are then
a definition and the Rust function that it defines, whose module has that name.
"""

import collections
import os
import re
import sys

NAME = re.compile(r'[^\s(){}.;,@"«»`]+')
STRING = re.compile(r'"(?:[^"\\]|\\.)*"')
DECLARED = re.compile(r"(?m)^ *(?:abbrev |unfoldable |pub |open |data |record )*([^\s(){}.;,@\"«»:]+)(?: \{[^{}\n]*\})* :")
USE = re.compile(r"(?m)\buse ([^\s;{]+)\.\{([^}]*)\}")
WORD = re.compile(r"^[a-z][\w'₀-₉]*$")

# Lemmas that would meet the definition that they are named for: such a lemma gets the ending `_lem` first.
LEMMAS = "listed_by read_no walk_no front_by to_last others_by front_bytes test_at end_row among_in joins_after none_after".split()


def snake(name):
    return re.sub(r"(?<=[a-z0-9'])([A-Z])", lambda m: "_" + m[1].lower(), name)


def files(root, *ends):
    for folder, dirs, names in os.walk(root):
        dirs[:] = sorted(d for d in dirs if d != "out")
        for name in sorted(names):
            if name.endswith(ends):
                yield os.path.join(folder, name)


def bare(text):
    return re.sub(r"--.*", "", STRING.sub('""', text))


def library(kit):
    tokens = set()
    for p in files(os.path.join(kit, "rattle"), ".antt"):
        if not re.search("/(examples|tests|docs)/", p):
            tokens.update(NAME.findall(bare(open(p, errors="replace").read())))
    return tokens


def is_own(module):
    return module.startswith("Rattle.") and os.path.isdir(os.path.join("crates", module.split(".")[1]))


def imported(text):
    found = set()
    for m in USE.finditer(text):
        if not is_own(m[1]):
            for item in m[2].split(","):
                found.update(item.split())
    return found


def main(kit):
    theirs = library(kit)
    own, declared = collections.Counter(), set()
    texts = {}
    for p in files("crates", ".antt", ".rt"):
        texts[p] = open(p).read()
        if p.endswith(".antt"):
            b = bare(texts[p])
            own.update(NAME.findall(b))
            declared.update(DECLARED.findall(b))
    turned = {}
    for n in own:
        if WORD.match(n) and snake(n) != n and (n not in theirs or n in declared):
            turned[n] = snake(n)
    for n in LEMMAS:
        turned[n] = n + "_lem"
    by_new = collections.defaultdict(set)
    for n, m in turned.items():
        by_new[m].add(n)
    together = 0
    for p, t in texts.items():
        kept = imported(t)
        words = set(NAME.findall(bare(t))) if p.endswith(".antt") else set(NAME.findall(t))
        for n in sorted(words & set(turned)):
            if n in kept:
                continue
            others = (by_new[turned[n]] & words) - kept
            if len(others) > 1 or turned[n] in words:
                together += 1
                print("together:", p, sorted(others), turned[n], "(there already)" if turned[n] in words else "")
    if together and "--write" not in sys.argv:
        print(together, "places")
        return 1

    def replaced(chunk, kept):
        return NAME.sub(lambda m: turned.get(m[0], m[0]) if m[0] not in kept else m[0], chunk)

    for p, t in texts.items():
        kept = imported(t)
        out, at = [], 0
        for m in STRING.finditer(t):
            out += [replaced(t[at : m.start()], kept), m[0]]
            at = m.end()
        out.append(replaced(t[at:], kept))
        new = "".join(out)
        if new != t:
            open(p, "w").write(new)
    print(len(turned), "names")
    return 0


if __name__ == "__main__":
    raise SystemExit(main(sys.argv[1]))
