#!/usr/bin/env python3
"""The numbers that an insert gets for the names that it omits: the definitions of crates/format against the implementation in recfile.py.

Usage: python3 tests/model/numberings.py [SEED COUNT]     (from the repository's root; needs rt where a COUNT is given)

The computed examples of crates/laws/proofs/Numberings.antt have the answers of recfile.py. What that answers of COUNT random inserts is stated as equations like those, which the checker must
prove by computing both sides; they go behind the examples, in a copy of the crate and the definitions in a temporary folder.
"""
import collections
import os
import re
import shutil
import subprocess
import sys
import tempfile

import recfile
import samples

EXAMPLES = 'crates/laws/proofs/Numberings.antt'
TEXT = r'"((?:[^"\\]|\\.)*)"'
ESCAPES = {'n': '\n', 't': '\t', '\\': '\\', '"': '"'}


def read(literal):
    return re.sub(r'\\(.)', lambda m: ESCAPES[m.group(1)], literal).encode('latin-1')


def literal(text):
    return '"%s"' % ''.join('\\' + {v: k for k, v in ESCAPES.items()}[c] if c in ESCAPES.values() else c for c in text.decode('latin-1'))


def set_t(rules, records=b''):
    """The pieces of a file, and its set T."""
    pieces = recfile.read_pieces(b'%rec: T\n' + rules + b'\n' + records)
    return pieces, recfile.find_set(recfile.read_sets(pieces), b'T')


def made(rules, records, new):
    """The text of the record that an insert makes, empty where a name has no number."""
    try:
        pairs = recfile.completed(*set_t(rules, records), [(p.name, p.value) for p in recfile.read_pieces(new) if p.kind == ':'])
    except recfile.No as no:
        assert no.number == 31
        return b''
    return b''.join(recfile.written(n, v) for n, v in pairs)


def counted(rules):
    pieces, s = set_t(rules)
    return recfile.autos_counted(pieces, s.descriptor)


def examples(page):
    """How many examples there are, and those of which recfile.py says something else."""
    inserts = [tuple(map(read, row)) for row in re.findall(r'^    makes %s ∷' % ' '.join([TEXT] * 4), page, flags=re.M)]
    assert inserts and len(inserts) == page.count(' makes "')
    wrong = ['%r: %r, there %r' % (e[:3], made(*e[:3]), e[3]) for e in inserts if made(*e[:3]) != e[3]]
    for name, answer in (('counted', True), ('uncounted', False)):
        part = page[page.index('\n%s-told :' % name):page.index('\n%s-told = refl' % name)]
        lists = [read(rules) for rules in re.findall(r'^    %s ∷' % TEXT, part, flags=re.M)]
        assert lists
        wrong += ['%r: %s, there %s' % (rules, not answer, answer) for rules in lists if counted(rules) != answer]
    return len(inserts), wrong


def agrees(page, seed, count):
    """Does the checker prove what recfile.py answers of random inserts?"""
    random, sorts = samples.Samples(seed), collections.Counter()
    unfolding = re.search(r'^unfolding .* completed\n', page, flags=re.M).group()
    for k in range(count):
        rules, records, new = random.numbered()
        assert counted(rules)
        whole = made(rules, records, new)
        sorts['31' if not whole else 'completed' if whole.count(b'\n') > new.count(b'\n') else 'itself'] += 1
        page += '\nrandom-%d : holds (makes %s) ≡ true\n%srandom-%d = refl\n' % (k, ' '.join(map(literal, (rules, records, new, whole))), unfolding, k)
    with tempfile.TemporaryDirectory() as folder:
        for crate in ('format', 'laws'):
            shutil.copytree('crates/' + crate, folder + '/crates/' + crate, ignore=shutil.ignore_patterns('must-fail', 'out'))
        with open(folder + '/crates.txt', 'w') as f:
            f.write('format:\nlaws: format\n')
        with open(os.path.join(folder, EXAMPLES), 'w', encoding='utf-8') as f:
            f.write(page)
        said = subprocess.run(['rt', 'check'], cwd=folder + '/crates/laws', capture_output=True, text=True, check=False)
    errors = [line for line in (said.stdout + said.stderr).splitlines() if ': error' in line]
    for line in errors[:10]:
        print(line[:300])
    print('random inserts: %s' % dict(sorts))
    return said.returncode == 0 and not errors


def main(seed=1, count=0):
    with open(EXAMPLES, encoding='utf-8') as f:
        page = f.read()
    inserts, wrong = examples(page)
    for line in wrong:
        print(line)
    agreed = not wrong and (count == 0 or agrees(page, seed, count))
    print('%d examples and %d random inserts: %s' % (inserts, count, 'agreed' if agreed else 'NOT agreed'))
    sys.exit(0 if agreed else 1)


if __name__ == '__main__':
    main(*map(int, sys.argv[1:]))
