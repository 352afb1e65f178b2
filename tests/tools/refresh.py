#!/usr/bin/env python3
"""tools/refresh on a change of the code: a branch is put into `dictionary::lists::part_next`, in a clone of the repository. Each answer must stand under the need that
it had, the new branch must be the only hole, and a second run must leave the file alone.

Usage: tests/tools/refresh.py       (after rt check; a minute)
"""
import os
import re
import shutil
import subprocess
import sys
import tempfile

ROOT = os.path.join(os.path.dirname(os.path.abspath(__file__)), '..', '..')
BEFORE = '        if words::is_gap(byte) {\n'
BRANCH = '        if byte == 32 {\n            return Part::Nothing;\n        }\n'


def answers(text):
    """The answer of each need, without the lines that only give paths."""
    blocks = re.findall(r'^(\S+) : tie\.Need-\S+.*\n((?:.+\n)+)', text, flags=re.M)
    return {name: re.sub(r'^\S+ c(?: κs)? =\s*| *let at-.* in\n', '', body, flags=re.M).strip() for name, body in blocks}


def refresh(folder, *words):
    run = subprocess.run(['tools/refresh', *words], cwd=folder, capture_output=True, text=True)
    return run.stdout + run.stderr


with tempfile.TemporaryDirectory() as folder:
    subprocess.run(['git', 'clone', '-q', ROOT, folder], check=True)
    shutil.copy(os.path.join(ROOT, 'tools', 'refresh'), os.path.join(folder, 'tools', 'refresh'))
    for part in ('rlib', 'stamp'):
        shutil.copytree(os.path.join(ROOT, 'target', part), os.path.join(folder, 'target', part))
    code, proof = (os.path.join(folder, 'crates', 'dictionary', p) for p in ('src/lists.rt', 'proofs/lists/part_next/Proof.antt'))
    old = answers(open(proof).read())
    text = open(code).read()
    assert text.count(BEFORE) == 1, 'the code of part_next has moved: mend this test'
    with open(code, 'w') as f:
        f.write(text.replace(BEFORE, BRANCH + BEFORE))
    said = refresh(folder, 'dictionary', 'lists::part_next')
    new = answers(open(proof).read())
    assert 'new: returns-2, a hole' in said and said.count('new:') == 1 and 'gone' not in said, said
    assert new.pop('returns-2') == '?'
    moved = {'returns-2': 'returns-3', 'returns-3': 'returns-4'}
    number = {'at-if1': 'at-if2', 'at-if2': 'at-if3'}
    for name, answer in old.items():
        wanted = re.sub(r'at-if[12]\b', lambda m: number[m.group(0)], answer)
        assert new.pop(moved.get(name, name)) == wanted, name
    assert not new, new
    said = refresh(folder, '--check', 'dictionary', 'lists::part_next')
    assert '1 proof files, 1 up to date' in said, said
print('refresh: ok')
sys.exit(0)
