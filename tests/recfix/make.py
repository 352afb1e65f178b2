#!/usr/bin/env python3
"""What GNU recfix says of files on which its reading and document 01's coincide, for the test program `test_questions`.

Usage: tests/recfix/make.py       (needs recfix of GNU recutils; writes tests/recfix/cases and tests/recfix/verdicts, which tests/questions/make.py takes in)

The expected output is recfix's own. tests/model/recfile.py is asked too, and a case of COINCIDE on which the two differ stops the script, as does a case of
DIFFER on which they agree: such a case stands in the wrong list.
"""
import os
import subprocess
import sys
import tempfile

ROOT = os.path.dirname(os.path.dirname(os.path.dirname(os.path.abspath(__file__))))
sys.path.insert(0, os.path.join(ROOT, 'tests', 'model'))

import recfile  # noqa: E402
from frames import four, frame, packed  # noqa: E402


def described(rules, records='A: 1\n'):
    return '%rec: S\n' + rules + '\n' + records


def typed(kind, *values):
    return [described('%type: A ' + kind + '\n', 'A: ' + v + '\n') for v in values]


COINCIDE = [
    # lines and records
    '', '\n', '\n\n\n', '# c\n', 'A: 1\n', 'A: 1\nB: 2\n\nA: 3\n', 'A: 1\n+ 2\n', 'A: 1\n+2\n', 'A: 1\n+\n', 'A: x\\\ny\n', 'A: x\\\ny\\\nz\n', 'A: 1\n# c\nB: 2\n', '# c\nA: 1\n', 'A:\n', 'A: \n', 'A_1: x\n', 'A\n', 'A 1\n', '1: x\n', '+ x\n', ': x\n', '_A: x\n',
    'A: 1\nB\n', 'A: 1\n\n+ x\n', 'A-B: 1\n', 'A:\tx\n', ' \n', '\t\n', 'A : 1\n', 'A%: x\n', '# c\n+ x\n', 'A: 1\n# c\n+ x\n', 'A: 1\n \n+ x\n', 'A: \\\nx\n', 'A: x\\\n\nB: 1\n', 'A: é\n',
    # descriptors
    '%rec: S\n', '%rec: S\n\n%rec: T\n', '%rec: S\n\n%rec: S\n', 'A: 1\n\n%rec: S\n\nB: 2\n', '%rec:\n', '%rec: 1\n', '%rec: S T\n', '%rec: S\n%rec: T\n', described('%doc: a\n+ b\n'), described('%doc: a\n%doc: b\n'),
    # %mandatory, %prohibit, %allowed, %unique
    described('%mandatory: A\n'), described('%mandatory: B\n'), described('%mandatory: A B\n', 'A: 1\nB: 2\n'), described('%mandatory: A B\n'), described('%mandatory: A\n%mandatory: B\n'), described('%mandatory: A\n%mandatory: B\n', 'A: 1\nB: 2\n'),
    described('%mandatory: A\n', 'A: 1\n\nB: 1\n'), described('%mandatory: A\n', ''), described('%mandatory: A A\n'), described('%mandatory:\n'), described('%mandatory: 1\n'), described('%prohibit:\n'), described('%allowed:\n'),
    described('%prohibit: B\n'), described('%prohibit: A\n'), described('%prohibit: B C\n', 'A: 1\n\nC: 1\n'), described('%prohibit: B\n%prohibit: A\n'),
    described('%allowed: A\n'), described('%allowed: B\n'), described('%allowed: A B\n', 'A: 1\nB: 2\n'), described('%allowed: A\n', 'A: 1\nB: 2\n'), described('%allowed: A\n%allowed: B\n', 'A: 1\nB: 2\n'),
    described('%unique: A\n', 'A: 1\n\nA: 1\n'), described('%unique: A\n', 'A: 1\nA: 2\n'), described('%unique: B\n', 'A: 1\nA: 2\n'), described('%unique: A B\n', 'A: 1\nB: 1\nB: 1\n'),
    # %singular
    *(described('%singular: ' + rules + '\n', records) for rules in ('A', 'A\n%singular: B', 'B\n%singular: A', 'B') for records in ('A: 1\n', 'A: 1\n\nA: 1\n', 'A: 1\n\nA: 2\n', 'A: 1\n\nA: 01\n', 'A: 1\nA: 2\n\nA: 3\n\nA: 2\n', 'A: 1\n\nB: 1\n', 'A: 1\nB: 1\n\nA: 2\nB: 1\n', 'A: a\n+ b\n\nA: a\n+b\n')),
    described('%singular: A\n', 'A: 1\n') + '\n%rec: T\n%singular: A\n\nA: 1\n', described('%singular: A\n', 'A: 1\n\nA:  1\n'), described('%singular: A\n', 'A: x\\\ny\n\nA: xy\n'), described('%singular: A\n', 'A:\n\nA:\n'), described('%singular: A\n', ''), described('%singular: A\n%key: A\n', 'A: 1\n\nA: 1\n'),
    # %auto
    *(described('%auto: A\n%type: A ' + kind + '\n') for kind in ('int', 'range 5', 'range 1 2', 'real', 'line', 'size 3', 'enum 1', 'bool', 'field')), *(described('%typedef: T U\n%typedef: U ' + kind + '\n%type: B,A T\n%auto: A\n') for kind in ('int', 'range 5', 'real', 'line')),
    described('%auto: A\n'), described('%auto: A B\n%type: A real\n'), described('%auto: B A\n%type: A real\n'), described('%auto: B\n%auto: A\n%type: A real\n'), described('%auto: B\n%type: A real\n'), described('%auto: A A\n'), described('%auto: A\n+ B\n'), described('%auto:\n'), described('%auto: 1\n'),
    described('%auto: A,B\n'), described('%auto: A\n%type: A int\n', 'A: x\n'), described('%auto: A\n', '') + '\n%rec: T\n%type: A line\n', described('%type: A line\n', '') + '\n%rec: T\n%auto: A\n', described('%auto: A\n%key: A\n%mandatory: A\n%type: A range 5 1\n', ''),
    # %key
    described('%key: A\n'), described('%key: A\n', 'A: 1\n\nA: 2\n'), described('%key: A\n', 'A: 1\n\nA: 1\n'), described('%key: A\n', 'A: 1\n\nA: 01\n'), described('%key: A\n', 'A: 1\n\nA:  1\n'), described('%key:\n'), described('%key: A\n', 'A: 1\nA: 2\n'), described('%key: A\n', 'B: 1\n'), described('%key: A\n%key: B\n', 'A: 1\nB: 2\n'),
    described('%key: A\n', 'A: 1\n') + '\n%rec: T\n%key: A\n\nA: 1\n',
    # %size
    described('%size: 1\n'), described('%size: 2\n'), described('%size: 0\n'), described('%size: 0\n', ''), described('%size: 1\n', ''), described('%size: < 2\n'), described('%size: < 1\n'), described('%size: <= 1\n'), described('%size: <= 0\n'), described('%size: > 0\n'),
    described('%size: > 1\n'), described('%size: >= 1\n'), described('%size: >= 2\n'), described('%size: >= 1\n', ''), described('%size: -1\n'), described('%size: x\n'), described('%size: < 2 3\n'), described('%size: 0x1\n'), described('%size: 1\n%size: 1\n'),
    # types
    *typed('int', '1', '-1', '0', '0x1F', '010', 'x', '', ' 1', '1.5', '0x', '1 2', '2147483648', '-0x80000001', '123456789012', '9223372036854775807', '-9223372036854775808'),
    *typed('range 5', '0', '5', '6', '-1', 'x'), *typed('range -2 3', '-2', '-3', '3', '4'), *typed('range MIN 3', '-100', '4'), *typed('range 3 MAX', '3', '2', '1000'),
    *typed('real', '1.5', '-1.5', '1', 'x', '1.5.5'), *typed('line', 'a b', 'a\n+ b', ''), *typed('size 3', 'abc', 'abcd', '', 'é', 'éa', 'éééé', '€', 'abcé'), *typed('size 2', 'é', '€€€'), *typed('bool', 'yes', 'no', '0', '1', 'true', 'false', 'x', '2'),
    *typed('enum a b', 'a', 'b', 'c', 'ab'), *typed('enum a (c) b', 'a', 'b', 'c'), *typed('field', 'A', '%A', '1', 'A B'), *typed('uuid', '01234567-89ab-cdef-0123-456789abcdef', '01234567-89AB-CDEF-0123-456789ABCDEF', 'x', '01234567-89ab-cdef-0123-456789abcdeg'),
    *typed('range 0x10', '16', '17'), *typed('range 010', '8', '9'), *typed('range 5 1', '3'), *typed('range 1 2 3', '1'), *typed('size 0x3', 'abc', 'abcd'), *typed('size -1', 'x'), *typed('enum a (b', 'a'), *typed('enum a) b', 'a'), *typed('enum -a', '-a'), *typed('enum 1', '1'),
    *typed('foo', '1'), *typed('size', '1'), *typed('range', '1'), *typed('enum', '1'), *typed('range x', '1'),
    described('%type: A,B int\n', 'A: 1\nB: x\n'), described('%type: A,B int\n', 'A: 1\nB: 2\n'), described('%type: A int\n', 'B: x\n'), described('%typedef: T int\n%type: A T\n'), described('%typedef: T int\n%type: A T\n', 'A: x\n'),
    described('%typedef: T U\n%typedef: U int\n%type: A T\n', 'A: x\n'), described('%typedef: T U\n%typedef: U int\n%type: A T\n'), described('%typedef: T U\n%typedef: U T\n%type: A T\n'), described('%type: A T\n'),
    described('%typedef: T foo\n'), described('%typedef: T T\n'), described('%typedef: 1 int\n'), described('%typedef: T\n'), described('%type: A\n'), described('%type: A, int\n'), described('%type: A int x\n'),
]

# Where the readings differ. The program is not asked.
DIFFER = {
    'recfix has no limits, takes any byte and no last newline': ['A' * 65 + ': 1\n', 'A: ' + 'x' * 4097 + '\n', 'A: 1\n' * 257, 'A: \x01\n', 'A: 1'],
    'recfix asks for no blank behind the colon, takes blanks before the name, and a backslash at the end': ['A:1\n', ' A: 1\n', 'A:\\\nx\n', 'A: x\\\n'],
    'recfix takes `%` names in a record without %rec': ['%: x\n', '%A: x\n', '%key: A\n', 'A: 1\n%key: A\n'],
    'recfix knows more type names and ignores `%` names that it does not know': ['%rec: S-T\n', '%rec: %S\n', described('%foo: x\n')],
    'fields of a descriptor that are left to others': [described('%sort: A\n'), described('%constraint: A > 0\n')],
    'types that are left to others': [*typed('date', 'x'), *typed('regexp /x/', 'x')],
    'recfix takes the first of several keys': [described('%key: A B\n', 'A: 1\nB: 2\n')],
    'of a %singular field recfix takes one name, not several, in any form, and no two fields of one record': [
        described('%singular: A B\n', 'A: 1\n\nA: 1\n'), described('%singular: B A\n', 'A: 1\n\nA: 1\n'), described('%singular:\n'), described('%singular: 1\n'), described('%singular: A\n', 'A: 1\nA: 1\n')],
    'recfix takes uuids and dates in %auto lists, and names with `%`': [described('%auto: A\n%type: A uuid\n', ''), described('%auto: A\n%type: A date\n', ''), described('%auto: %A\n')],
    'recfix takes a size without a blank behind the sign': [described('%size: <1\n', '')],
    'recfix takes the key and the mandatory names as allowed': [described('%allowed: B\n%key: A\n'), described('%allowed: B\n%mandatory: A\n')],
    'of several types of one field recfix takes the last': [described('%type: A range 5\n%type: A int\n', 'A: 7\n'), described('%auto: A\n%type: A real\n%type: A int\n')],
    'recfix takes typedefs called by a kind, and defined twice': [described('%typedef: int bool\n'), described('%typedef: T int\n%typedef: T bool\n%type: A T\n')],
    'ints have no bounds in recfix, and 8 and 9 may follow a 0': typed('int', '9223372036854775808', '-9223372036854775809', '0x8000000000000000', '08', '09'),
    'the ends of ranges and the numbers of sizes have 32 bits in recfix': [*typed('range 3 MAX', '2147483648'), *typed('range MIN 3', '-2147483649'), *typed('range 4294967297', '5'), *typed('size 4294967297', 'abc'), described('%size: < 4294967297\n', 'A: 1\n\nA: 2\n')],
    'recfix counts the bytes of a size': [*typed('size 1', 'é', '€', '𝄞'), *typed('size 3', 'éé', 'abé', 'é\n+ a')],
    'a real without digits, or with none before the dot': typed('real', '.5', '-', ''),
    'blanks around a uuid': typed('uuid', ' 01234567-89ab-cdef-0123-456789abcdef'),
}
# They agree, but for unlike reasons, on %confidential (recfix asks for encrypted values) and the types email and rec: these are left out too.


def recfix(text):
    with tempfile.NamedTemporaryFile(suffix='.rec') as f:
        f.write(text)
        f.flush()
        return subprocess.run(['recfix', '--check', f.name], capture_output=True).returncode == 0


def ours(text):
    return recfile.check(text, len(text)) == 0


told, stdin = [], b''
for t in COINCIDE:
    text = t.encode()
    told.append(recfix(text))
    if told[-1] != ours(text):
        sys.exit('the readings differ on %r' % t)
    stdin += frame(four(1), four(len(text)), four(len(text)), packed([(1, text)]))
for why, texts in DIFFER.items():
    for t in texts:
        if recfix(t.encode()) == ours(t.encode()):
            sys.exit('the readings agree on %r: %s' % (t, why))
folder = os.path.join(ROOT, 'tests', 'recfix')
with open(os.path.join(folder, 'cases'), 'wb') as f:
    f.write(stdin)
with open(os.path.join(folder, 'verdicts'), 'w') as f:
    f.writelines('pass\n' if ok else 'fail\n' for ok in told)
print(len(told), 'cases', told.count(True), 'pass', sum(map(len, DIFFER.values())), 'left out', len(stdin), 'bytes')
