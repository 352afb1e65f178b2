#!/usr/bin/env python3
"""What GNU recins makes of inserts that omit names of %auto lists, where its reading and document 02's coincide, for the test program `test_replay`.

Usage: tests/recins/make.py       (needs recins of GNU recutils; writes tests/recins/cases and tests/recins/told, which tests/replay/make.py takes in)

The expected file is recins's own; where it refuses an insert the file stays, and the refusal's number, which recins does not have, is that of tests/model/recfile.py. That is
asked too, and a case of COINCIDE on which the two differ stops the script, as does a case of DIFFER on which they agree: such a case stands in the wrong list.
"""
import os
import subprocess
import sys
import tempfile
import zlib

ROOT = os.path.dirname(os.path.dirname(os.path.dirname(os.path.abspath(__file__))))
sys.path.insert(0, os.path.join(ROOT, 'tests', 'model'))

import recfile  # noqa: E402
from edits import insert  # noqa: E402
from frames import four, frame, packed  # noqa: E402

ROOM = 2000


def scans(rules, *records):
    return '%rec: S\n' + rules + ''.join('\n' + fields for fields in records)


def typed(kind, *there):
    return scans('%auto: Id\n%type: Id ' + kind + '\n', *('Id: ' + v + '\n' for v in there))


X, Y, ID, NO = ('A', 'x'), ('B', 'y\nz'), ('Id', '7'), ('No', '3')
BOTH = '%type: Id,No int\n'
THERE = ('Id: 3\nNo: 6\n', 'Id: 2\n')
COINCIDE = [(text, 'S', pairs) for text, pairs in [
    # what is there: nothing, ints in decimal in any order, several in one record
    *((typed('int', *there), [X]) for there in ((), ('0',), ('3',), ('9',), ('99',), ('2', '1'), ('5', '11', '7'), ('-1',), ('-5', '-3'), ('-1', '0'), ('123456789',), ('2147483646',))),
    *((typed('int', *there), [X, Y]) for there in ((), ('8',))),
    (scans('%auto: Id\n', 'Id: 3\n'), [X]), (scans('%auto: Id\n'), [X]), (scans('%auto: Id\n', 'A: 9\nIdx: 8\n'), [X]), (scans('%auto: Id\n%type: Id int\n', 'Id: 4\nId: 9\nA: 70\n', 'Id: 6\n'), [X]), (scans('%auto: Id\n%type: Id int\n', 'A: a\n+ b\n'), [X]),
    # ranges that have 0, and their end
    *((typed(kind, *there), [X]) for kind in ('range 9', 'range 0 9', 'range -3 9', 'range MIN 9') for there in ((), ('0',), ('7',), ('8',), ('9',))),
    *((typed(kind), [X]) for kind in ('range 0', 'range -5 -1', 'range 5 3')), (typed('range 0', '0'), [X]), (typed('range 100 199', '100'), [X]), (typed('range 100 199', '198'), [X]), (typed('range 100 199', '199'), [X]), (typed('range 0 MAX', '41'), [X]),
    # types by other names, and of other fields
    (scans('%auto: Id\n%typedef: T U\n%typedef: U int\n%type: Id T\n', 'Id: 4\n'), [X]), (scans('%auto: Id\n%typedef: T range 5\n%type: No,Id T\n', 'Id: 4\n'), [X]), (scans('%auto: Id\n%typedef: T range 5\n%type: No,Id T\n', 'Id: 5\n'), [X]), (scans('%auto: Id\n%type: A line\n'), [X]),
    # several names, in the order of the lists, each once, and those that the insert has
    *((scans(lists + BOTH, *there), pairs) for lists in ('%auto: Id No\n', '%auto: No Id\n', '%auto: No\n%auto: Id\n', '%auto: No\n%auto: Id No\n', '%auto: Id Id\n', '%auto: No\n+ Id\n') for there in ((), THERE) for pairs in ([X], [X, ID], [NO, X], [NO, ID], [X, Y])),
    (scans('%auto: Id No Row\n' + BOTH, *THERE), [('Row', '5'), X]), (scans('%auto: Id\n%type: Id range 3\n', 'Id: 3\n'), [('Id', '2')]),
    # the rules of the completed record
    *((scans('%auto: Id\n%type: Id int\n' + rules, 'Id: 4\nA: y\n'), pairs) for rules in ('%key: Id\n', '%mandatory: Id A\n', '%mandatory: B\n', '%unique: Id\n', '%unique: A\n', '%prohibit: B\n', '%prohibit: C\n', '%allowed: Id A\n', '%size: < 2\n', '%size: < 3\n', '%singular: A\n', '%singular: Id\n', '%type: A size 1\n', '%type: A int\n', '%key: A\n')
      for pairs in ([X], [('A', 'y')], [X, ('A', 'z')], [('B', '1')], [('Id', '4'), X])),
    (scans('%auto: Id\n%type: Id int\n%prohibit: Id\n'), [X]), (scans('%auto: Id\n%type: Id int\n%allowed: A\n'), [X]), (scans('%auto: Id\n%type: Id int\n%size: 0\n'), [X]),
    # other sets
    ('Id: 70\n\n' + typed('int', '3'), [X]), (typed('int', '3') + '\n%rec: T\n%auto: Id\n\nId: 50\n', [X]), ('%rec: R\n%auto: Id\n\nId: 50\n\n' + typed('int'), [X]), ('%rec: R\n\nId: 50\n\n' + typed('int') + '\n%rec: T\n\nId: 60\n', [X]),
]] + [('', '', [X]), ('A: 0\n\n' + typed('int'), '', [X]), (typed('int', '4'), '', [X]), (typed('int', '4') + '\n%rec: T\n\nId: 50\n', 'T', [X])]

# Where the readings differ. The program is not asked.
DIFFER = {
    'recins counts from 0, above a range or not': [(typed('range 2 4'), 'S', [X]), (typed('range 100 199'), 'S', [X])],
    'recins reads decimal digits, without blanks, and makes what it cannot read a 0': [(typed('int', v), 'S', [X]) for v in ('0x10', '010', ' 4 ')] + [(scans('%auto: Id\n', 'Id: 08\n'), 'S', [X]), (scans('%auto: Id\n', 'Id: x\n'), 'S', [X])],
    'recins counts in 32 bits': [(typed('int', '2147483647'), 'S', [X]), (typed('int', '123456789012'), 'S', [X])],
    'recins has no limits': [(scans('%auto: ' + 'L' * 65 + '\n'), 'S', [X])],
    'recins takes the key and the mandatory names as allowed': [(scans('%auto: Id\n%type: Id int\n%allowed: A\n%key: Id\n'), 'S', [X])],
    'recins writes an empty value without a blank, and one blank line between records': [(typed('int'), 'S', [('A', '')]), (typed('int', '3').replace('\n\n', '\n\n\n'), 'S', [X])],
}


def recins(text, name, pairs):
    """The file after an insert, the same where it is refused."""
    with tempfile.TemporaryDirectory() as folder:
        path = os.path.join(folder, 'book.rec')
        with open(path, 'wb') as f:
            f.write(text)
        words = [w for n, v in pairs for w in ('-f', n, '-v', v)]
        subprocess.run(['recins', *(['-t', name] if name else []), *words, path], capture_output=True, check=False)
        with open(path, 'rb') as f:
            return f.read()


def request(name, pairs):
    return insert(name.encode(), *((n.encode(), v.encode()) for n, v in pairs))


def ours(text, name, pairs):
    """The refusal's number, and the file after the insert."""
    number, used, buffer = recfile.edit(text + bytes(ROOM - len(text)), len(text), request(name, pairs))
    return number, buffer[:used]


lines, stdin, refused = '', b'', 0
for text, name, pairs in COINCIDE:
    file = text.encode()
    number, after = ours(file, name, pairs)
    if recins(file, name, pairs) != after:
        sys.exit('the readings differ on %r into %r of %r: %r, %r' % (pairs, name, text, recins(file, name, pairs), after))
    refused += number != 0
    stdin += frame(b'\0', four(ROOM), four(len(file)), packed([(1, file), (65600 - len(file), b'\0')])) + frame(b'\1', packed([(1, request(name, pairs))]))
    lines += '%d %d %d\n' % (number, len(after), zlib.adler32(after + bytes(ROOM - len(after))))
for why, cases in DIFFER.items():
    for text, name, pairs in cases:
        if recins(text.encode(), name, pairs) == ours(text.encode(), name, pairs)[1]:
            sys.exit('the readings agree on %r into %r of %r: %s' % (pairs, name, text, why))
folder = os.path.join(ROOT, 'tests', 'recins')
with open(os.path.join(folder, 'cases'), 'wb') as f:
    f.write(stdin)
with open(os.path.join(folder, 'told'), 'w') as f:
    f.write(lines)
print(len(COINCIDE), 'cases', refused, 'refused', sum(map(len, DIFFER.values())), 'left out', len(stdin), 'bytes')
