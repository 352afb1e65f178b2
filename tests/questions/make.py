#!/usr/bin/env python3
"""The input and the expected output of the test program `test_questions`: what tests/model/recfile.py answers of files at each question and each limit,
and what GNU recfix said of the files of tests/recfix.

Usage: tests/questions/make.py       (writes crates/test_questions/stdin and crates/test_questions/stdout)
"""
import collections
import os
import sys

ROOT = os.path.dirname(os.path.dirname(os.path.dirname(os.path.abspath(__file__))))
sys.path.insert(0, os.path.join(ROOT, 'tests', 'model'))

import recfile  # noqa: E402
import samples  # noqa: E402
from frames import four, frame, packed, whole  # noqa: E402

RECEIPTS = open(os.path.join(ROOT, 'samples', 'receipts.rec'), 'rb').read()
cases = []


def case(runs, room=None, used=None):
    """A file as text or as runs; where nothing else is said it fills its buffer."""
    if isinstance(runs, str):
        runs = runs.encode('latin-1')
    if isinstance(runs, bytes):
        runs = [(1, runs)]
    size = len(whole(runs))
    used = size if used is None else used
    room = size if room is None else room
    assert size <= room <= 65600
    cases.append((runs, room, used))


def each(*texts):
    for t in texts:
        case(t)


def at_limit(make, limit):
    """A file at a limit, and one past it."""
    case(make(limit))
    case(make(limit + 1))


def described(rules, records='A: 1\n'):
    return '%rec: S\n' + rules + '\n' + records


def lengths():
    case(b'')
    case(b'', room=10)
    for used in (108, 109, 110):
        case(RECEIPTS, used=used)
        case(RECEIPTS, room=200, used=used)
    case(RECEIPTS, used=65536)
    case(RECEIPTS, used=4294967295)
    for used in (65535, 65536, 65537, 65600):
        case([(65599, b'\n'), (1, b'\n')], used=used)
    case([(65536, b'\n')])
    case([(65537, b'\n')])
    case([(1, b'#'), (65534, b'x'), (1, b'\n')])
    case([(1, b'#'), (65535, b'x'), (1, b'\n')])


def bytes_and_lines():
    case(b'A: 1')
    case(b'# c')
    case(RECEIPTS[:-1])
    for b in list(range(0, 34)) + [92, 126, 127, 128, 160, 255]:
        case(b'A: x' + bytes([b]) + b'y\n')
        case(bytes([b]) + b'\n')
    for b in range(33, 128):
        case(b'A' + bytes([b]) + b': x\n')
        case(bytes([b]) + b': x\n')
    each('\n', ' \n', '\t \t\n', '#\n', '# c\\\n', '# c\\\nA: 1\n', '# c\\\nA\n', ' # c\n', ' A: 1\n', 'A\n', 'A:1\n', 'A:\n', 'A: \n', 'A:\t\n', 'A:\t x\n', 'A :1\n',
         'A B: 1\n', '%: 1\n', 'A%: 1\n', '%rec\n', '_A: 1\n', '1A: 1\n', 'A_1: 1\n', ': 1\n', 'A::\n', 'A:\\\n', 'A:\\\nx\n', 'A: \\\n', 'A: x\\\n', 'A: x\\\ny\n', 'A: x\\\ny\\\n',
         'A: x\\\n\n', 'A: x\\\n# c\n', 'A: x\\\n+ c\n', 'A: x\\\nB: c\n', 'A: x\\\n\\\n\\\nz\n', 'A: x\\\\\n', 'A: x\\\\\ny\n', '+ x\n', '+\n', '# c\n+ x\n', '\n+ x\n', 'A: 1\n+ x\n', 'A: 1\n+x\n',
         'A: 1\n+\n', 'A: 1\n+\tx\n', 'A: 1\n+  x\n', 'A: 1\n+ x\n+ y\n', 'A: 1\n# c\n+ x\n', 'A: 1\n\n+ x\n', 'A: 1\n \n+ x\n', 'A: 1\n+ x\\\n', 'A: 1\n+ x\\\ny\n', 'A: 1\n+ x\\\n\n+ z\n', 'A: 1\n+\\\ny\n',
         'A: 1\n +x\n', 'A: 1\nB\n', 'A: 1\n\nB\n', 'A: 1\n# c\n# d\nB: 2\n')


def limits():
    case([(1, b'A: '), (65532, b'x'), (1, b'\n')])
    case([(1, b'# '), (65533, b'x'), (1, b'\n')])
    case([(65535, b' '), (1, b'\n')])
    case([(32766, b'A:'), (1, b' x\n')])
    case([(21845, b'A:\n')])
    case([(21845, b'A:\n'), (1, b'\n')])
    case([(85, b'A:\n' * 256)] + [(1, b'A:\n' * 85)])
    case([(85, b'A:\n' * 256 + b'\n')])
    case([(16384, b'A:\n\n')])
    case([(16383, b'A:\n\n'), (1, b'A:\n#')])
    case([(13107, b'A:\n \n')], room=65600)
    case([(13107, b'A:\n#\n')])
    case([(1, b'%rec: S\n%size: 16379\n\n'), (16378, b'A:\n\n'), (1, b'A:\n')])
    case([(1, b'%rec: S\n%size: 16378\n\n'), (16378, b'A:\n\n'), (1, b'A:\n')])
    case([(1, b'%rec: S\n%mandatory: A\n\n'), (16376, b'A:\n\n')])
    case([(1, b'%rec: S\n%key: A\n\n'), (16376, b'A:\n\n')])
    keys = b''.join(b'K: %d\n\n' % n for n in range(7000))
    case([(1, b'%rec: S\n%key: K\n%type: K int\n\n'), (1, keys)])
    case([(1, b'%rec: S\n%key: K\n%type: K int\n\n'), (1, keys), (1, b'K: 6999\n')])
    case([(1, b'%rec: S\n%key: K\n%type: K int\n\n'), (1, keys), (1, b'K: 0\n')])
    case([(1, b'%rec: S\n%key: K\n%type: K int\n\n'), (1, keys), (1, b'K: 00\n')])
    at_limit(lambda n: ''.join('%%rec: S%d\n\n' % k for k in range(n)), 64)
    at_limit(lambda n: 'A: 0\n\n' + ''.join('%%rec: S%d\n\nA: %d\n\n' % (k, k) for k in range(n)), 64)
    at_limit(lambda n: 'A' * n + ': 1\n', 64)
    at_limit(lambda n: '%' + 'A' * (n - 1) + ': 1\n', 64)
    at_limit(lambda n: '%rec: S\n%' + 'A' * (n - 1) + ': 1\n', 64)
    at_limit(lambda n: '%rec: ' + 'S' * n + '\n', 64)
    at_limit(lambda n: '%rec: ' + 'S' * n + '\n', 4096)
    at_limit(lambda n: described('%mandatory: ' + 'A' * n + '\n'), 64)
    at_limit(lambda n: described('%prohibit: ' + 'A' * n + '\n'), 64)
    at_limit(lambda n: described('%auto: ' + 'A' * n + '\n%type: ' + 'A' * n + ' int\n'), 64)
    at_limit(lambda n: described('%auto: ' + 'A' * n + '\n'), 4096)
    at_limit(lambda n: described('%key: ' + 'A' * n + '\n', 'A' * n + ': 1\n'), 64)
    at_limit(lambda n: 'A: ' + 'x' * n + '\n', 4096)
    at_limit(lambda n: 'A: ' + 'x' * (n - 2) + '\n+ y\n', 4096)
    at_limit(lambda n: 'A: ' + 'x' * (n - 2) + '\n+y\n', 4096)
    at_limit(lambda n: 'A: ' + 'x' * (n - 1) + '\\\ny\n', 4096)
    at_limit(lambda n: 'A:' + '\n+ ' * n + '\n', 4096)
    at_limit(lambda n: 'A: ' + '\\\n' * 100 + 'x' * n + '\n', 4096)
    at_limit(lambda n: described('%doc: ' + 'x' * n + '\n'), 4096)
    at_limit(lambda n: described('%mandatory: A' + ' ' * (n - 1) + '\n'), 4096)
    at_limit(lambda n: 'A: x\n' * n, 256)
    at_limit(lambda n: '# c\nA: x\n' * n, 256)
    at_limit(lambda n: '%rec: S\n' + '%doc: x\n' * (n - 1), 256)
    at_limit(lambda n: '%rec: S\n\n' + 'A: x\n' * n, 256)
    at_limit(lambda n: described(''.join('%%typedef: T%d int\n' % k for k in range(n))), 32)
    at_limit(lambda n: described('%type: A int\n' * n), 32)
    at_limit(lambda n: described(''.join('%%typedef: T%d int\n' % k for k in range(n)) + '%type: A int\n' * n), 32)
    for name in ('mandatory', 'prohibit', 'allowed', 'unique', 'singular', 'auto'):
        at_limit(lambda n: described('%' + name + ':' + ' B' * n + '\n', ''), 64)
        at_limit(lambda n: described('%' + name + ':' + ' B' * n + '\n', 'B: 1\n'), 64)
        at_limit(lambda n: described(('%' + name + ': B\n') * n, 'B: 1\n'), 64)
        at_limit(lambda n: described(''.join('%%%s: B%d\n+ C%d\n' % (name, k, k) for k in range(n // 2)) + ('%' + name + ': D\n') * (n % 2), ''), 64)
        at_limit(lambda n: described('%' + name + ':' + ''.join(' B%d' % k for k in range(n - 1)) + '\n%' + name + ': A\n'), 64)


def descriptors():
    each('%key: A\n', '%rec: S\n%rec: T\n', '%rec: S\n%rec: S\n', 'A: 1\n%key: A\n', '%: 1\n', '%doc: x\n', 'A: 1\n\n%type: A int\n\n%rec: S\n', '%rec: S\n\n%rec: T\n', '%rec: S\n\nA: 1\n%key: A\n')
    each('%rec:\n', '%rec: \n', '%rec: S T\n', '%rec: S\n+ T\n', '%rec: \n+ S\n', '%rec:  S \n', '%rec:\tS\t\n', '%rec: S\\\nT\n', '%rec: S\\\n T\n', '%rec: %S\n', '%rec: 1\n', '%rec: S-T\n', '%rec: S_1\n', '%rec: S:\n',
         '%rec: S\n\n%rec: S\n', '%rec: S\n\n%rec: s\n', '%rec: S\n\n%rec:  S \n', '%rec: S\\\nT\n\n%rec: ST\n', 'A: 1\n%rec: S\n', '# c\n%rec: S\n# d\n', '%rec: rec\n', '%rec: int\n')
    for name in ('mandatory', 'prohibit', 'allowed', 'unique', 'singular', 'auto'):
        each(*(described('%' + name + ':' + v + '\n', 'A: 1\nB: 2\n') for v in ('', ' ', ' A', ' A B', ' A\n+ B', ' A A', ' A,B', ' 1', ' %A', ' %', ' A:', '\tA\tB', ' A B C', ' \n+ ', ' A\\\nB', ' _A', ' C')))
    each(*(described('%key:' + v + '\n') for v in ('', ' ', ' A', ' A B', ' 1', ' %A', ' A:', '  A ', '\tA', ' A\n+ ', ' A\n+ B', ' B')))
    each(described('%key: A\n%key: A\n'), described('%key: A\n%key: B\n'), described('%size: 1\n%size: 1\n'))
    each(*(described('%size:' + v + '\n') for v in ('', ' ', ' 1', ' 0', ' 2', ' 01', ' 0x1', ' 0X1', ' 00', ' -0', ' -1', ' +1', ' 1 1', ' <1', ' < 1', ' < 2', ' <= 1', ' <= 0', ' > 0', ' > 1', ' >= 1', ' >= 2', ' >= 0',
                                                    ' = 1', ' == 1', ' != 1', ' <\n+ 2', ' 08', ' 9223372036854775807', ' < 9223372036854775807', ' < 9223372036854775808', ' <', ' < <', ' < 2 3', ' a', ' 1.0', ' >= -0', ' >= 0x0', '  <=  1 ')))
    each(*(described('%size: ' + v + '\n', '') for v in ('0', '1', '< 1', '<= 0', '> 0', '>= 0', '< 0')))
    each(described('%foo: x\n'), described('%Rec: x\n'), described('%keys: A\n'), described('%confidential: A\n'), described('%sort: A\n'), described('%autos: A\n'), described('%aut: A\n'), described('%Auto: A\n'), described('%singulars: A\n'), described('%constraint: A\n'),
         described('%doc:\n'), described('%doc: a\n+ b\n%doc: c\n'), described('Foo: x\n'), described('Foo: x\n%key: A\n'))


def types():
    words = ['int', 'range', 'real', 'line', 'size', 'enum', 'bool', 'field', 'uuid', 'email', 'date', 'regexp', 'rec', 'T', '', 'Int', '1T', 'T_1', 'T-1', '%T', 'int 1', 'real 1', 'bool x', 'line x', 'field x', 'uuid x', 'T x',
             'range 1', 'range 1 2', 'range 1 2 3', 'range MIN', 'range MIN MAX', 'range MAX MIN', 'range 5 1', 'range x', 'range 0x10', 'range 010 0x10', 'range -5 -1', 'range 9223372036854775808', 'range -9223372036854775808 1', 'range min', 'range 08',
             'size 0', 'size 5', 'size -1', 'size -0', 'size x', 'size 1 2', 'size 0x5', 'size 9223372036854775807', 'size 9223372036854775808', 'enum a', 'enum a b', 'enum a a', 'enum (c)', 'enum (c) a', 'enum a (c', 'enum a c)', 'enum a ((c)) b',
             'enum a(c)b', 'enum(c) a', 'enum a (x y) b', 'enum a\n+ b', 'enum 1', 'enum _a', 'enum a_b-c', 'enum -a', 'enum a,b', 'enum (a) (b) c', 'enuma', 'enum a (c)(d) e', 'enum(a', 'enum)a', '\n+ int', ' int ', 'int\n+ ']
    for w in words:
        case(described('%type: A ' + w + '\n', ''))
        case(described('%typedef: T ' + w + '\n', ''))
        case(described('%typedef: T ' + w + '\n%type: A T\n', ''))
        case(described('%typedef: U T\n%typedef: T ' + w + '\n%type: A U\n', ''))
    each(*(described('%type: ' + v + ' int\n', '') for v in ('A', 'A,B', 'A,B,C', 'A,', ',A', 'A,,B', ',', '%A', '%', '1', 'A:', 'A ,B', 'A, B', 'A' * 64, 'A' * 65, 'A,A')))
    each(*(described('%typedef: ' + v + ' int\n', '') for v in ('T', 'T,U', '1T', '%T', 'int', 'range', 'real', 'line', 'size', 'enum', 'bool', 'field', 'uuid', 'email', 'date', 'regexp', 'rec', 'Int', 'INT', 'T' * 64, 'T' * 65)))
    each(described('%type: A\n', ''), described('%type:\n', ''), described('%type: \n+ A\n+ int\n', ''), described('%typedef:\n', ''), described('%typedef: T\n', ''), described('%typedef: T int\n%typedef: T int\n', ''),
         described('%typedef: T U\n', ''), described('%typedef: T T\n', ''), described('%typedef: T U\n%typedef: U T\n', ''), described('%typedef: T U\n%typedef: U V\n%typedef: V U\n', ''),
         described('%type: A T\n%typedef: T int\n', ''), described('%typedef: T int\n', '') + '\n%rec: R\n%type: A T\n', described('%typedef: T int\n', '') + '\n%rec: R\n%typedef: T bool\n%type: A T\n')
    for n in (1, 2, 31, 32):
        chain = ''.join('%%typedef: T%d T%d\n' % (k, k + 1) for k in range(n - 1))
        for end in ('int', 'T0', 'T%d' % (n // 2), 'T99'):
            case(described(chain + '%%typedef: T%d %s\n' % (n - 1, end), ''))
            case(described('%type: A T0\n' + chain + '%%typedef: T%d %s\n' % (n - 1, end), 'A: 1\n'))
            case(described('%type: A T0\n' + chain + '%%typedef: T%d %s\n' % (n - 1, end), 'A: x\n'))
    back = ''.join('%%typedef: T%d T%d\n' % (k, k - 1) for k in range(31, 0, -1))
    case(described(back + '%typedef: T0 int\n%type: A T31\n', 'A: 1\n'))
    case(described(back + '%typedef: T0 T31\n%type: A T31\n', 'A: 1\n'))


def values():
    ints = ['0', '1', '-1', '-0', '00', '01', '010', '08', '09', '0x', '0x0', '0xfF', '0XF', '-0x10', '0xg', '+1', '1 2', '', ' 1', '1 ', ' \t1\t ', '9223372036854775807', '9223372036854775808', '-9223372036854775808', '-9223372036854775809',
            '0x7fffffffffffffff', '0x8000000000000000', '-0x8000000000000000', '-0x8000000000000001', '0777777777777777777777', '01000000000000000000000', '-01000000000000000000000', '99999999999999999999', '1.0', 'a', '-', '--1', '1-', '0' * 50, '0' * 50 + '7', '0x' + '0' * 50 + '1', '1\n+ ', '\n+ 1', '1\n+ 2', '1\\\n2']
    for v in ints:
        for t in ('int', 'range 10', 'range -5 8', 'range MIN MAX', 'range 5 1', 'real', 'line', 'size 3', 'bool', 'field', 'enum 0 1 a 010'):
            case(described('%type: A ' + t + '\n', 'A: ' + v + '\n'))
    for t, vs in {'real': ['1.5', '-1.5', '.5', '1.', '1.5.5', '-.5', '1e5', '01.50', '-0.0', '1 .5', '٣'.encode('utf-8').decode('latin-1'), '-', '9' * 400 + '.' + '1' * 400],
                  'bool': ['yes', 'no', '0', '1', 'true', 'false', 'Yes', 'TRUE', 'y', '', ' yes ', 'yes no', '01', 'yes\n+ '],
                  'field': ['A', '%A', '%', 'A_1', '1', '', 'A B', 'A:', ' A ', '_A', 'A\n+ ', 'A' * 65],
                  'uuid': ['01234567-89ab-cdef-0123-456789abcdef', '01234567-89AB-CDEF-0123-456789ABCDEF', '0123456789abcdef0123456789abcdef', '01234567-89ab-cdef-0123-456789abcdeg', '01234567-89ab-cdef-0123-456789abcde', ' 01234567-89ab-cdef-0123-456789abcdef ',
                           '01234567-89ab-cdef-0123-456789abcdef0', '01234567-89ab-cdef-01234-56789abcdef', '{01234567-89ab-cdef-0123-456789abcdef}', ''],
                  'line': ['', 'a b', 'a\n+ b', '\n+ ', 'a\\\nb'], 'size 0': ['', ' ', 'a', '\n+ '], 'size 3': ['', 'abc', 'abcd', ' ab', ' abc', 'a\n+ b', 'ab\n+ c', 'é', 'éé', 'ab\\\nc', 'ab\\\ncd'],
                  'enum a b-c 1': ['a', 'b-c', '1', 'b', '', 'a b', ' a ', 'A', '(c)', 'a\n+ '], 'enum (x) a (y) b': ['a', 'b', 'x', 'y', '(x)'], 'enum a(x)b': ['a', 'b', 'ab', 'x']}.items():
        for v in vs:
            case(described('%type: A ' + t + '\n', 'A: ' + v + '\n'))
    each(described('%type: A int\n%type: A range 5\n', 'A: 7\n'), described('%type: A,B int\n', 'A: 1\nB: x\n'), described('%type: A int\n', 'A: 1\nA: x\n'), described('%type: A int\n', 'B: x\n'), described('%type: B,A,B bool\n', 'A: x\n'),
         'A: x\n\n' + described('%type: A int\n'), described('%type: A int\n') + '\n%rec: T\n\nA: x\n', described('%type: A int\nA: x\n'))


def rules():
    each(described('%prohibit: B\n', 'A: 1\nB: 2\n'), described('%prohibit: B C\n', 'A: 1\n\nC: 2\n'), described('%prohibit: A\n', ''), described('%prohibit: A\nA: 1\n', ''), described('%prohibit: A\n', '# A: 1\n'), 'A: 1\n\n' + described('%prohibit: A\n', ''))
    each(described('%allowed: B\n', 'A: 1\nB: 2\n'), described('%allowed: B\n%key: A\n', 'A: 1\n'), described('%allowed: B\n%mandatory: A\n', 'A: 1\n'), described('%allowed: A\n%allowed: B\n', 'A: 1\nB: 2\n'), described('%allowed: A\n', 'B: 1\n') + '\n%rec: T\n\nB: 1\n')
    each(described('%mandatory: B\n', 'A: 1\n'), described('%mandatory: B A\n', 'A: 1\nB: 1\n'), described('%mandatory: B\n', 'B:\n'), described('%key: B\n', 'A: 1\n'), described('%mandatory: A\n', 'A: 1\nA: 2\n'), described('%mandatory: A\n%mandatory: B\n', 'A: 1\n'))
    each(described('%unique: A\n', 'A: 1\nA: 1\n'), described('%unique: A\n', 'A: 1\n\nA: 1\n'), described('%key: A\n', 'A: 1\nA: 2\n'), described('%unique: B\n', 'A: 1\n'), described('%unique: A\n', 'A: 1\n# c\nA: 2\n'))
    each(described('%key: A\n', 'A: 1\n\nA: 1\n'), described('%key: A\n', 'A: 1\n\nA: 01\n'), described('%key: A\n', 'A: 1\n\nA:  1\n'), described('%key: A\n', 'A: 1\n\nA: 2\n\nA: 1\n'), described('%key: A\n', 'A: 1\n') + '\n%rec: T\n%key: A\n\nA: 1\n',
         described('%key: A\n', 'A: a\\\nb\n\nA: ab\n'), described('%key: A\n', 'A: a\n+ b\n\nA: a\n+b\n'), described('%key: A\n', 'A:\n\nA: \n'), described('%key: A\n', 'A:\n\nA:  \n'))
    # two that say no: the first in order wins, wherever it stands
    noes = {5: '%key: A\n', 6: '%rec: X\n%foo: x\n', 7: '%rec: Y\n%type: A foo\n', 8: '%rec: P\n%prohibit: A\n\nA: 1\n', 9: '%rec: Q\n%allowed: B\n\nA: 1\n', 10: '%rec: M\n%mandatory: B\n\nA: 1\n', 11: '%rec: U\n%unique: A\n\nA: 1\nA: 1\n',
            12: '%rec: T\n%type: A int\n\nA: x\n', 13: '%rec: K\n%key: A\n\nA: 1\n\nA: 1\n', 14: '%rec: Z\n%size: 0\n\nA: 1\n', 30: '%rec: W\n%singular: A\n\nA: 1\n\nA: 1\n', 3: 'x\n', 2: '\x01\n', 4: 'A' * 65 + ': 1\n'}
    for a in noes:
        for b in noes:
            case(noes[a] + '\n' + noes[b])


def marked():
    case(RECEIPTS)
    scan = RECEIPTS.decode()
    each(scan + '\nId: 2\nPage: p\n', scan + '\nId: 1\nPage: p\n', scan + '\nPage: p\n', scan.replace('Page: back\n', ''), scan[:69], scan.replace('Id: 1', 'Id: 08'), scan.replace('Id: 1', 'Id: 010'), scan.replace('Page: front', 'Id: front'), scan.replace('<= 3', '<= 0'))


def ends():
    for runs in samples.int_ends():
        case(runs)


def accents():
    for runs in samples.accents():
        case(runs)


def singulars():
    for runs in samples.singulars():
        case(runs)


def autos():
    for runs in samples.autos():
        case(runs)


def alike_keys(count):
    for seed in range(count):
        case(samples.Samples(seed).alike())


def random_files(count):
    for seed in range(count):
        case(samples.Samples(seed).file())


for make in (lengths, bytes_and_lines, limits, descriptors, types, values, ends, accents, rules, singulars, autos, marked):
    make()
random_files(630)
alike_keys(120)

numbers, stdin = [], b''
for runs, room, used in cases:
    buffer = whole(runs)
    numbers.append(recfile.check(buffer + bytes(room - len(buffer)), used))
    stdin += frame(four(0), four(room), four(used), packed(runs))
judged = os.path.join(ROOT, 'tests', 'recfix')
with open(os.path.join(judged, 'cases'), 'rb') as f:
    stdin += f.read()
with open(os.path.join(judged, 'verdicts')) as f:
    verdicts = f.read()
folder = os.path.join(ROOT, 'crates', 'test_questions')
with open(os.path.join(folder, 'stdin'), 'wb') as f:
    f.write(stdin)
with open(os.path.join(folder, 'stdout'), 'w') as f:
    f.write(''.join('%d\n' % n for n in numbers) + verdicts)
print(len(cases), 'cases', len(stdin), 'bytes', sorted(collections.Counter(numbers).items()))
