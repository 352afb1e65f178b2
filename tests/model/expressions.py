#!/usr/bin/env python3
"""Expressions that select records (document 02, order 11): their form, what they say of a record, the call that finds records by one, random ones.

Usage: python3 tests/model/expressions.py [SEED [ROUNDS]]     (recutils if it is installed)

Expressions written by hand are of the form, and say of a record, what their list says. Random texts, of the form, a byte away from it and of parts in
any order, are read a second time, by a regular expression for comparisons and Python's own parser around them. GNU recsel selects the same records.
"""
import ast
import functools
import itertools
import operator
import os
import random
import re
import shutil
import subprocess
import sys
import tempfile

import recfile
import samples
from same import same

BYTES, OPEN = 256, 16
BLANKS = b' \t'
OPERATORS = {b'=': operator.eq, b'!=': operator.ne, b'<': operator.lt, b'<=': operator.le, b'>': operator.gt, b'>=': operator.ge}


def cuts(text, sign):
    """What stands before a sign and what behind it, at each place where its bytes are."""
    return [(text[:at], text[at + len(sign):]) for at in range(len(text)) if text.startswith(sign, at)]


# A tree is (sign, name, int or string), (b'!', tree), (b'()', tree), (b'&&', tree, tree) or (b'||', tree, tree).
# Each of the next four gives every tree that a text has by its rule, where so many parentheses are open around it. The text is cut at every place
# where the bytes of a sign are, also within a string.

@functools.lru_cache(maxsize=20000)
def or_trees(text, opened):
    joined = [(b'||', x, y) for left, right in cuts(text, b'||') for x in or_trees(left, opened) for y in and_trees(right, opened)]
    return and_trees(text, opened) + joined


@functools.lru_cache(maxsize=20000)
def and_trees(text, opened):
    joined = [(b'&&', x, y) for left, right in cuts(text, b'&&') for x in and_trees(left, opened) for y in unary_trees(right, opened)]
    return unary_trees(text, opened) + joined


@functools.lru_cache(maxsize=20000)
def unary_trees(text, opened):
    bare = text.strip(BLANKS)
    trees = comparisons(bare)
    if bare.startswith(b'!'):
        trees += [(b'!', x) for x in unary_trees(bare[1:], opened)]
    if bare.startswith(b'(') and bare.endswith(b')') and opened < OPEN:
        trees += [(b'()', x) for x in or_trees(bare[1:-1], opened + 1)]
    return trees


def comparisons(text):
    trees = []
    for sign in OPERATORS:
        for name, operand in cuts(text, sign):
            name, operand = name.rstrip(BLANKS), operand.lstrip(BLANKS)
            if recfile.NAME_RE.match(name) and recfile.parse_int(operand) is not None:
                trees.append((sign, name, recfile.parse_int(operand)))
            if recfile.NAME_RE.match(name) and is_string(operand) and sign in (b'=', b'!='):
                trees.append((sign, name, operand[1:-1]))
    return trees


def is_string(text):
    return text.startswith(b"'") and text.endswith(b"'") and text.count(b"'") == 2


def read(expression):
    """The tree of an expression of the form; None where it isn't of the form."""
    trees = or_trees(bytes(expression), 0) if len(expression) <= BYTES else []
    assert len(trees) <= 1, expression
    return trees[0] if trees else None


def satisfies(value, sign, operand):
    """Does an occurrence with this value satisfy a comparison?"""
    if isinstance(operand, bytes):
        return OPERATORS[sign](value, operand)
    n = recfile.parse_int(value.strip(b' \t\n'))
    return n is not None and OPERATORS[sign](n, operand)


def holds(tree, pairs):
    """Does a record of these names and values satisfy the expression?"""
    sign = tree[0]
    if sign == b'()':
        return holds(tree[1], pairs)
    if sign == b'!':
        return not holds(tree[1], pairs)
    if sign == b'&&':
        return holds(tree[1], pairs) and holds(tree[2], pairs)
    if sign == b'||':
        return holds(tree[1], pairs) or holds(tree[2], pairs)
    return any(satisfies(value, sign, tree[2]) for name, value in pairs if name == tree[1])


def find(buf, used, name, expression, records):
    """(number, how many, records after it)"""
    try:
        pieces, sets = recfile.passed(buf, used)
        s, tree = recfile.find_set(sets, name), read(expression)
        if tree is None:
            raise recfile.No(33)
        found = [k for k, r in enumerate(s.records) if holds(tree, [(pieces[i].name, pieces[i].value) for i in r.fields])]
        if len(found) > len(records):
            raise recfile.No(34)
        return 0, len(found), found + records[len(found):]
    except recfile.No as no:
        return no.number, 0, records


# Written by hand, by the points of order 11: expressions of the form, and texts that are not.

FORM = [
    # 11.2: the parts and their order, 256 bytes
    b'A=1', b'A=1||B=1', b'A=1&&B=1', b'A=1||B=1&&C=1||D=1', b'A=1&&B=1||C=1&&D=1', b'!A=1', b'(A=1)', b'!(A=1)', b'(!A=1)', b'!(!A=1||B=1)&&!C=1',
    b'A=1&&!B=1', b'A=1||!B=1', b'A=1&&(B=1||C=1)', b'(A=1||B=1)&&C=1', b'((A=1))', b'A!=1', b'A<1', b'A<=1', b'A>1', b'A>=1', b"A='x'", b"A!='x'",
    b'A=1&&A=1', b"Amount > 20 && Paid = 'no'", b'A=1' + b' ' * 253, b' ' * 253 + b'A=1', b'A=' + b' ' * 253 + b'1', b'A' * 254 + b'=1',
    b"A='" + b'x' * 252 + b"'", b'A=0' + b'0' * 253, b'A=0x' + b'0' * 251 + b'1', b'A=1||' * 50 + b'A=1   ',
    # 11.3: blanks
    b' A = 1 ', b'\tA\t=\t1\t', b' \t A \t = \t 1 \t ', b' ! ( ! A = 1 && B != 2 ) || C <= 3 ', b"A = 'x' ", b'A= 1', b'A =1', b'( A=1 )', b"A='\n'",
    b"A='x\ty '",
    # 11.4: signs of two bytes
    b'! A=1', b'!\tA=1', b'!!A=1', b'! !A=1', b'!A!=1', b'!!A!=1', b'! ! ! A != 1', b'!(A!=1)', b'A<=-1', b'A=1 &&B=1', b'A=1|| B=1', b'A=1 && !B=1',
    # 11.5: names
    b'a=1', b'z=1', b'Z9_=1', b'A_=1', b'%=1', b'%rec=1', b'%A_1=1', b'%9=1', b'A' * 64 + b'=1', b'A' * 65 + b'=1', b'and=1', b"x='x'", b'MAX=1',
    b'x0x1=0x1',
    # 11.6: ints
    *(b'A=' + n for n in (
        b'-5', b'0x1F', b'010', b'-0', b'0', b'00', b'-00', b'07', b'0x0', b'-0x0', b'0xfF', b'-0xAb', b'0x00000000000000000001F',
        b'9223372036854775807', b'-9223372036854775808', b'0x7fffffffffffffff', b'-0x8000000000000000', b'0777777777777777777777',
        b'-01000000000000000000000', b'0000000000000000000000000777777777777777777777')),
    b'A=-1&&B=-0x1||C=-01', b'(A=-1)', b'A>-1', b'A<=-0',
    # 11.7: strings
    b"A=''", b"A!=''", b"A='x'", b"A=' x '", b"A='\n'", b"A='\\'", b"A='\\n'", b"A='\"'", b"A='\0\1\x7f\x80\xff'", b"A='||'", b"A='&&'||B='||'",
    b"A='('", b"A=')' && B='('", b"A='B=1'", b"A='!'", b"A='='", b"A='1'", b"A='x'&&B='y'", b"(A='x')", b"!A='x'", b"A='x'||B=1", b"A='x' ",
    b"A='A=1||'||A='||A=1'", b"A='x'&&B='&&'&&C='y'", b"A='#'",
    # 11.8: parentheses
    b'(' * 16 + b'A=1' + b')' * 16, b'( ' * 16 + b'A=1' + b' )' * 16, b'!(' * 16 + b'A=1' + b')' * 16, b'(A=1)||' * 30 + b'(A=1)',
    b'(A=1)&&' + b'(' * 16 + b'A=1' + b')' * 16, b'(' * 16 + b'A=1' + b')' * 16 + b'||(A=1)', b'(' * 15 + b'(A=1)||(B=1)' + b')' * 15,
    b'(A=1||' * 16 + b'A=1' + b')' * 16, b"A='" + b'(' * 17 + b"'", b'(' * 16 + b"A='(((((((((((((((((')" + b')' * 15, b'!' * 253 + b'A=1',
    b'!' * 100 + b'(' * 16 + b'!' * 100 + b'A=1' + b')' * 16,
]

OTHER = [
    # 11.2
    b'', b' ', b' \t ', b'A', b'1', b"'x'", b'=', b'A=', b'=1', b'A 1', b'1=A', b'1=1', b"'x'='x'", b"'x'=A", b'A=B', b'A=A', b'A=1||', b'||A=1',
    b'A=1&&', b'&&A=1', b'A=1&&||B=1', b'A=1||&&B=1', b'A=1 B=1', b'A=1(B=1)', b'(A=1)(B=1)', b'(A=1)B=1', b'(A=1)!B=1', b'A=1!B=1', b'()', b'(',
    b')', b'(A=1', b'A=1)', b')A=1(', b'(A=1))', b'((A=1)', b'!', b'!!', b'!()', b'(!)', b'!&&A=1', b'A!', b'A=1!', b'A=!1', b'A=(1)', b'(A)=1',
    b'A(=1)', b'(A=)1', b'!A', b'A&&B', b'A||B=1', b'A=1&&B', b'A=1=1', b'A<1<2', b'A=1,B=1', b'A=1;', b'A=1&B=1', b'A=1|B=1', b'A=1&&&B=1',
    b'A=1|||B=1', b'A=1&&&&B=1', b'A=1||||B=1', b'A==1', b'A=>1', b'A=<1', b'A<>1', b'A><1', b'A~1', b'A!==1', b'A<<1', b'A>>1', b'A=1 and B=1',
    b'not A=1', b'A=1 AND B=1', b'A[0]=1', b'#A=1', b'#A', b'A=1?B=1:C=1', b'A="x"', b'A=x', b'A.B=1', b'A:B=1', b'A-1=1', b'A+1=2', b'A=1 # c',
    b'A=1=>B=1', b'A=1' + b' ' * 254, b' ' * 254 + b'A=1', b'A=' + b' ' * 254 + b'1', b'A' * 255 + b'=1', b"A='" + b'x' * 253 + b"'",
    b'A=0' + b'0' * 254, b'A=0x' + b'0' * 252 + b'1', b'A=1||' * 50 + b'A=1    ', b'x' * 300, b'A=1||' * 60 + b'A=1',
    # 11.3
    b'A=1\n', b'\nA=1', b'A\n=1', b'A=\n1', b'A=1\r', b'A=1\r\n', b'\x0bA=1', b'\x0cA=1', b'A=1\0', b'\0', b'\xa0A=1', b'A=1&&\nB=1', b"A='x'\n",
    # 11.4
    b'A! =1', b'A!\t=1', b'A< =1', b'A> =1', b'A=1& &B=1', b'A=1| |B=1', b'!=1', b'! =1', b'!!=1', b'A!!=1', b'A!=!=1', b'A=!=1', b'A!=!1', b'A!1',
    b'A<!1',
    # 11.5
    b'_A=1', b'9A=1', b'9=1', b'A%=1', b'%%=1', b'A-B=1', b'-A=1', b'\xe9=1', b'A\xe9=1', b'A B=1', b'A\0=1', b'A =1 B', b"'A'=1", b'$A=1', b'A.=1',
    # 11.6
    *(b'A=' + n for n in (
        b'9223372036854775808', b'-9223372036854775809', b'0x8000000000000000', b'-0x8000000000000001', b'01000000000000000000000',
        b'-01000000000000000000001', b'18446744073709551616', b'0x10000000000000001', b'08', b'09', b'018', b'-08', b'1.5', b'1.', b'.5', b'1.0',
        b'+1', b'--1', b'-+1', b'- 1', b'-', b'-\t1', b'0x', b'-0x', b'0X1F', b'0xG', b'0x1G', b'0x1g', b'0x-1', b'1_', b'1_0', b'_1', b'1a', b'1A',
        b'1Z', b'0b1', b'1e3', b'1%', b'5\xe9', b'0x 1', b'0 x1', b'1 0', b'1 1', b'MAX', b'MIN', b'-MAX', b"1'", b"1''", b"1'x'", b'1B=1',
        b'1_&&B=1', b'08||B=1', b'(1', b'1x&&B=1', b'9' * 200)),
    # 11.7
    b"A='", b"A='''", b"A='x", b"A=x'", b"A='x''", b"A=''x'", b"A='x''y'", b"A='\\''", b"A='x'y", b"A='x'1", b"A='x' 'y'", b"A='x'B='y'",
    b"A='x'(B=1)", b"A<'x'", b"A<='x'", b"A>'x'", b"A>='x'", b"A<''", b"A>=''", b"A=='x'", b"A 'x'", b"A=-'x'", b"A=1&&'x'=B", b"A='x'||B<'y'",
    b"A=\"'\"", b"A='x\"", b"'", b"''", b"A='x'_",
    # 11.8
    b'(' * 17 + b'A=1' + b')' * 17, b'( ' * 17 + b'A=1' + b' )' * 17, b'!(' * 17 + b'A=1' + b')' * 17, b'(A=1)&&' + b'(' * 17 + b'A=1' + b')' * 17,
    b'(' * 16 + b'(A=1)||(B=1)' + b')' * 16, b'(A=1||' * 17 + b'A=1' + b')' * 17, b'(' * 100 + b'A=1' + b')' * 100, b'(' * 16 + b'A=1' + b')' * 15,
    b'(' * 15 + b'A=1' + b')' * 16, b'(' * 256, b'!' * 254 + b'A=1', b'!' * 256, b'(' * 17 + b"A='x'" + b')' * 16,
]

RECORD = [(b'A', b'5'), (b'A', b'x'), (b'A', b' 010\n'), (b'B', b'-3'), (b'C', b''), (b'D', b'5 '), (b'E', b'9223372036854775808'), (b'F', b'a\nb\\')]

# Of this record: what holds and what does not, by 11.9 and 11.10.
TRUE = [
    b'A=5', b'A=8', b'A=010', b'A=0x5', b'A!=5', b'A!=8', b'A<6', b'A>7', b'A<=5', b'A>=8', b'A=5&&A=8', b'A>7&&A<6', b'A!=5&&A=5', b'!A=6', b'!!A=5',
    b'!A=7||A=7', b'B=-3', b'B<0', b'B=-0x3', b'B!=3', b'D=5', b'D<=05', b"A='5'", b"A='x'", b"A=' 010\n'", b"A!='5'", b"A!='y'", b"C=''", b"C!='x'",
    b"D='5 '", b"D!='5'", b"F='a\nb\\'", b"E='9223372036854775808'", b'!C=0', b'!C!=0', b'!E>0', b'!E!=0', b"!F='a'", b'!Z=1', b'!Z!=1', b"!Z=''",
    b"!Z!=''", b'!Z<1', b'!(Z=1||Z!=1)', b'!%rec=1', b'!' + b'A' * 65 + b'=1', b'A=5||A=6&&A=7', b'A=6&&A=7||A=5', b'!A=5||A=5', b'!A=5&&A=6||A=5',
    b'!(A=5&&A=6)', b'!a=5', b'B>-9223372036854775808', b'B<9223372036854775807',
]
FALSE = [
    b'A=6', b'A<5', b'A>8', b'!A=5', b'!!A=6', b"A='010'", b"A='8'", b"A='X'", b"A=''", b"A=' 010'", b'C=0', b'C!=0', b'C<0', b'C>=0', b'C<1||C>=1',
    b'E>0', b'E!=0', b'E=9223372036854775807', b'F!=0', b"C!=''", b"D='5'", b"D!='5 '", b'B!=-3', b'Z=1', b'Z!=1', b"Z=''", b"Z!=''", b"Z!='x'",
    b'Z<1||Z>=1', b'%rec=1', b'%rec!=1', b'A' * 65 + b'!=1', b'(A=5||A=6)&&A=7', b'!(A=5||A=6)', b'!A=5&&A=5', b'!(A=5)&&A=5', b'A=5&&!A=8', b'a=5',
    b'A=5&&Z=1', b'!(!Z=1)',
]

FILE = b'A: 1\n\n%rec: S\n%key: A\n\nA: 3\nA2: x\n\nA: 1\n# A: 3\n\nA: 2\nB: 3\nB: 4\n\n%rec: T\n'
FINDS = [
    (FILE, 0, b'S', b'A>1', 2, (0, 2, [0, 2])), (FILE, 0, b'S', b'A>1', 1, (34, 0, None)), (FILE, 0, b'S', b'A>1', 4, (0, 2, [0, 2])),
    (FILE, 0, b'S', b'A=7', 0, (0, 0, [])), (FILE, 0, b'S', b'A=7', 2, (0, 0, [])), (FILE, 0, b'S', b'A>0', 3, (0, 3, [0, 1, 2])),
    (FILE, 0, b'S', b'!B=3', 3, (0, 2, [0, 1])), (FILE, 0, b'S', b'B=3&&B=4', 3, (0, 1, [2])), (FILE, 0, b'', b"A='1'", 1, (0, 1, [0])),
    (FILE, 0, b'T', b'!A=1', 0, (0, 0, [])), (FILE, 0, b'S', b'A', 0, (33, 0, None)), (FILE, 0, b'S', b'', 9, (33, 0, None)),
    (FILE, 0, b'U', b'A', 9, (21, 0, None)), (FILE, 0, b'U', b'A=1', 9, (21, 0, None)), (FILE, 0, b'T', b'A', 9, (33, 0, None)),
    (FILE, 1, b'S', b'A>1', 9, (1, 0, None)), (FILE, -1, b'S', b'A>1', 9, (2, 0, None)), (FILE + b'x\n', 0, b'U', b'A', 0, (3, 0, None)),
    (FILE.replace(b'A: 2', b'A: 1'), 0, b'U', b'', 0, (13, 0, None)), (b'', 0, b'', b'A=1', 0, (0, 0, [])), (b'', 0, b'', b'!A=1', 5, (0, 0, [])),
    (b'A:\n', 0, b'', b'!A=1', 0, (34, 0, None)),
]


# A second reading: comparisons by a regular expression; around them stands what Python reads with `not`, `and` and `or`, and groups alike.

PART = re.compile(rb'''[ \t]*(?:
    (?P<name>[A-Za-z%][A-Za-z0-9_]*)[ \t]*(?:
        (?P<equal>!?=)[ \t]*'(?P<string>[^']*)'
        |(?P<sign>!=|[<>]?=|[<>])[ \t]*(?P<minus>-?)(?:0x(?P<hex>[0-9a-fA-F]+)|0(?P<octal>[0-7]*)|(?P<decimal>[1-9][0-9]*))(?![A-Za-z0-9_]))
    |(?P<not>!(?!=))|(?P<and>&&)|(?P<or>\|\|)|(?P<open>\()|(?P<close>\)))''', re.X | re.S)
WORDS = {'not': 'not', 'and': 'and', 'or': 'or', 'open': '(', 'close': ')'}


def compared(m):
    """The tree of a comparison that PART met; None where its int is too large."""
    if m['string'] is not None:
        return m['equal'], m['name'], m['string']
    n = int(m['hex'], 16) if m['hex'] else int(m['decimal']) if m['decimal'] else int(b'0' + m['octal'], 8)
    n = -n if m['minus'] else n
    return (m['sign'], m['name'], n) if -2 ** 63 <= n < 2 ** 63 else None


def regrouped(node, leaves):
    """The tree, without the parentheses, of what Python's parser read; None where it read something else than `not`, `and`, `or` and names."""
    if isinstance(node, ast.Name):
        return leaves[int(node.id[1:])]
    if isinstance(node, ast.UnaryOp) and isinstance(node.op, ast.Not):
        inner = regrouped(node.operand, leaves)
        return inner and (b'!', inner)
    if isinstance(node, ast.BoolOp):
        inner = [regrouped(x, leaves) for x in node.values]
        sign = b'&&' if isinstance(node.op, ast.And) else b'||'
        return None if None in inner else functools.reduce(lambda x, y: (sign, x, y), inner)
    return None


def read_again(text):
    """The tree of an expression without its parentheses, None where it isn't of the form."""
    words, leaves, at, bare = [], [], 0, text.rstrip(BLANKS)
    while at < len(bare):
        m = PART.match(bare, at)
        if not m:
            return None
        at = m.end()
        if m['name']:
            words.append('c%d' % len(leaves))
            leaves.append(compared(m))
        else:
            words.append(WORDS[m.lastgroup])
    depth = max(itertools.accumulate({'(': 1, ')': -1}.get(w, 0) for w in words), default=0)
    if None in leaves or depth > 16 or len(text) > 256 or not words:
        return None
    try:
        return regrouped(ast.parse(' '.join(words), mode='eval').body, leaves)
    except SyntaxError:
        return None


def without_parentheses(tree):
    if tree is None or tree[0] in OPERATORS:
        return tree
    return without_parentheses(tree[1]) if tree[0] == b'()' else (tree[0], *map(without_parentheses, tree[1:]))


class Expressions:
    """Random expressions over these names and values, and texts near them."""

    NAMES = [b'A', b'B', b'Id', b'Page', b'C', b'A', b'Id', b'%rec', b'a', b'N' * 64, b'N' * 65, b'x_1']
    VALUES = [v.encode() for v in samples.VALUES] + [b'a\nb', b'\n', b'x\\', b'11', b'\xe9', b'0', b'-1', b'010']
    SIGNS = [b'!', b'&&', b'||', b'(', b')', b'=', b'!=', b'<', b'<=', b'>', b'>=', b"'", b'-', b'&', b'|', b' ', b'\n', b'_', b'%', b'.', b'\0']
    PARTS = SIGNS + SIGNS[:5] + [b'A', b'1', b'08', b'0x', b'A=1', b'A<1', b"A='x'", b"B!=''", b'\xff']

    def __init__(self, random, names=(), values=()):
        self.random, self.names, self.values = random, list(names) or self.NAMES, list(values) or self.VALUES

    def numeral(self):
        """An int in any base: near one of the values, near an end, or any."""
        r = self.random
        known = [n for n in (recfile.parse_int(v.strip(b' \t\n')) for v in self.values) if n is not None] or [0]
        end = r.choice([recfile.INT_MIN, recfile.INT_MAX]) + r.choice([-1, 0, 0, 1])
        n = r.choice([r.choice(known), r.choice(known), r.choice(known) + r.choice([-1, 1]), r.randint(-20, 20), end, r.randrange(-2 ** 63, 2 ** 63)])
        n = n if r.random() < .02 else min(max(n, recfile.INT_MIN), recfile.INT_MAX)
        digits = r.choice([b'%d', b'%d', b'%d', b'0x%x', b'0x%X', b'0x00%x', b'0%o', b'00%o']) % abs(n)
        return (b'-' if n < 0 or (n == 0 and r.random() < .2) else b'') + digits

    def string(self):
        r = self.random
        other = bytes(r.choice(b'ab \t\n\\"()!=&|<5\0\xff') for _ in range(r.randint(0, 6)))
        return b"'" + r.choice([r.choice(self.values), r.choice(self.values), other]).replace(b"'", b'') + b"'"

    def comparison(self):
        """The parts of a comparison."""
        r = self.random
        if r.random() < .4:
            return [r.choice(self.names), r.choice([b'=', b'!=']), self.string()]
        return [r.choice(self.names), r.choice(sorted(OPERATORS)), self.numeral()]

    def unary(self, depth):
        """The parts of an expression that neither `&&` nor `||` joins, with parentheses at most so deep."""
        r, turn = self.random, self.random.random()
        if turn < .25:
            return [b'!'] * r.choice([1, 1, 1, 2, 3]) + self.unary(depth)
        return [b'('] + self.parts(depth - 1) + [b')'] if turn < .5 and depth else self.comparison()

    def parts(self, depth, most=4):
        """The parts of an expression, with parentheses at most so deep."""
        r = self.random
        out = self.unary(depth)
        for _ in range(r.choice([0, 0, 1, 2, most])):
            out += [r.choice([b'&&', b'||'])] + self.unary(depth)
        return out

    def nested(self, depth):
        """The parts of an expression with parentheses so deep."""
        r = self.random

        def short():
            return [r.choice([n for n in self.names if len(n) < 5] or [b'A']), r.choice(sorted(OPERATORS)), b'%d' % r.randint(0, 9)]

        out = short()
        for _ in range(depth):
            beside = short() + [r.choice([b'&&', b'||'])] if r.random() < .25 else []
            out = [b'('] + beside + [b'!'] * r.choice([0, 0, 1]) + out + [b')']
        return out + ([b'||', b'('] + short() + [b')'] if r.random() < .3 else [])

    def laid(self, parts, often):
        """The parts with blanks around them."""
        r = self.random
        return b''.join((bytes(r.choices(b'  \t', k=r.choice([1, 1, 1, 2]))) if r.random() < often else b'') + part for part in [*parts, b''])

    def sized(self, length):
        """An expression of this length, which may be too long: filled by blanks, by `!`, by a long name, int or string, or by comparisons."""
        r, parts, turn = self.random, [], self.random.randrange(5)
        if turn == 0:
            parts = [b'!'] * r.randint(0, length - 20) + self.comparison()
        elif turn == 1:
            parts = [b'N' * r.randint(1, length - 9), b'=', b'0' * 3]
        elif turn == 2:
            parts = [self.names[0], r.choice([b'=', b'!=']), b"'" + bytes(r.choices(b'ab&|!()= \n\\\xff', k=r.randint(0, length - 9))) + b"'"]
        elif turn == 3:
            parts = [self.names[0], b'=', r.choice([b'0', b'-0x']) + b'0' * r.randint(1, length - 9)]
        else:
            parts = self.comparison()
            while len(b''.join(parts)) < length - 90:
                parts += [r.choice([b'&&', b'||'])] + self.unary(2)
        gaps = [0] * (len(parts) + 1)
        while len(b''.join(parts)) + sum(gaps) < length:
            gaps[r.randrange(len(gaps))] += r.randint(1, length - len(b''.join(parts)) - sum(gaps))
        text = b''.join(r.choice([b' ', b'\t']) * gap + part for gap, part in zip(gaps, [*parts, b'']))
        return text if len(text) == length else self.sized(length)

    def formed(self):
        """An expression of the form; now and then one of more than 256 bytes, with an int that is too large or with parentheses 17 deep."""
        r, turn = self.random, self.random.random()
        if turn < .75:
            return self.laid(self.parts(r.choice([0, 1, 2, 4])), r.choice([0, .1, .5, 1]))
        if turn < .9:
            return self.laid(self.nested(r.choice([1, 5, 15, 16, 16, 17])), r.choice([0, .1, .5]))
        return self.sized(r.choice([254, 255, 256, 256, 257, 258]))

    def near(self):
        """An expression of the form with a byte changed, taken out or put in."""
        r, text = self.random, self.formed()
        at, other = r.randrange(len(text)), bytes([r.choice([r.choice(b"!=<>&|()' \t\n-_%0189xAaZz.,\"\\\0\xff"), r.choice(text), r.randrange(256)])])
        return r.choice([text[:at] + other + text[at + 1:], text[:at] + text[at + 1:], text[:at] + other + text[at:]])

    def soup(self):
        """Parts in any order."""
        return b''.join(self.random.choices(self.PARTS, k=self.random.choice([0, 1, 2, 3, 5, 8, 30])))

    def text(self):
        """Mostly an expression of the form."""
        turn = self.random.random()
        return self.formed() if turn < .7 else self.near() if turn < .95 else self.soup()

    def asked(self, buf, used):
        """What find is given with a file: a set, mostly one of its own, an expression over its names and values, and a list, mostly long enough."""
        r, pairs, name = self.random, [], b'X'
        try:
            pieces, sets = recfile.passed(buf, used)
            s = r.choice([s for s in sets if s.records] if r.random() < .9 and any(s.records for s in sets) else sets)
            name = s.name if r.random() < .97 else r.choice([b'X', b'S ', b'\0'])
            pairs = [(pieces[i].name, pieces[i].value) for record in s.records for i in record.fields]
        except recfile.No:
            pass
        expression = Expressions(r, [n for n, _ in pairs] + self.names[:3], [v for _, v in pairs if len(v) < 60] + self.values[:3]).text()
        found = find(buf, used, name, expression, [0] * recfile.FILE)[1]
        return name, expression, [r.choice([0, 1, 7, 2 ** 64 - 1]) for _ in range(max(0, found + r.choice([-1, 0, 0, 0, 1, 5])))]


def by_hand():
    """What is written above is so; how many of it there is."""
    assert not set(FORM) & set(OTHER) and not set(TRUE) & set(FALSE)
    for text in FORM + OTHER:
        same(text in FORM, read(text) is not None, text)
        same(without_parentheses(read(text)), read_again(text), text)
    for text in TRUE + FALSE:
        same(text in TRUE, holds(read(text), RECORD), text)
    for text, more, name, expression, room, (number, count, found) in FINDS:
        wanted = (number, count, [9] * room if found is None else found + [9] * (room - count))
        same(wanted, find(text, len(text) + more, name, expression, [9] * room), text, expression)
        same(wanted, recfile.find(text, len(text) + more, name, expression, [9] * room), text, expression)
    return len(FORM + OTHER + TRUE + FALSE + FINDS)


def few_parts():
    """All texts of at most five of these parts."""
    for n in range(6):
        yield from map(b''.join, itertools.product([b'A=1', b'A', b'=', b'1', b"'x'", b'!', b'(', b')', b'&&', b'||'], repeat=n))


def readings(texts):
    """How many texts were read twice alike, and how many of them are of the form."""
    trees = []
    for text in texts:
        trees.append(without_parentheses(read(text)))
        same(trees[-1], read_again(text), text)
    return len(trees), len(trees) - trees.count(None)


# GNU recsel 1.9 reads more than this form, and some of it otherwise:
# - `&&` and `||` bind alike and group to the left, and `!` binds tighter than a comparison, so that `!A = 1` is `(!A) = 1`;
# - ints have 32 bits, in an expression and in a value, and wrap around beyond; the value `08` is 8;
# - a value that is compared with an int may be a real, begin with `+`, or be empty, which is 0; blanks may stand before its int and not behind it;
# - where it is no number, the record is out, under `!` and beside `||` too, and not this comparison alone;
# - a name without an occurrence is the empty value, and of several occurrences one is taken for the whole expression, each in turn;
# - a backslash in a string escapes, hex FF in one ends the expression, and names with `%` are not read; `"` is a quote too.
# So the records here have each field once, and ints of 32 bits, without blanks behind them, in the fields that are compared with ints. An expression
# is given to recsel as it stands where that groups it in the same way, else with all its parentheses.

def grouped_alike(tree):
    """Does recsel group the expression in the same way?"""
    if tree[0] in OPERATORS:
        return True
    if tree[0] == b'!' and tree[1][0] in OPERATORS:
        return False
    if tree[0] == b'||' and tree[2][0] == b'&&':
        return False
    return all(grouped_alike(x) for x in tree[1:])


def spelled(tree):
    """An expression with all its parentheses."""
    if tree[0] in OPERATORS:
        sign, name, operand = tree
        return b'%s %s %s' % (name, sign, b"'%s'" % operand if isinstance(operand, bytes) else b'%d' % operand)
    if tree[0] == b'()':
        return spelled(tree[1])
    if tree[0] == b'!':
        return b'!(' + spelled(tree[1]) + b')'
    return b'(' + spelled(tree[1]) + b') ' + tree[0] + b' (' + spelled(tree[2]) + b')'


def leaves_of(tree):
    return [tree] if tree[0] in OPERATORS else [leaf for x in tree[1:] for leaf in leaves_of(x)]


def recsel_reads(tree):
    """Has it only what recsel reads in the same way?"""
    def alike(name, operand):
        if isinstance(operand, bytes):
            return name in (b'I', b'J', b'T') and not set(operand) & set(b'\\\0\xff')
        return name in (b'I', b'J') and abs(operand) < 2 ** 31

    return all(alike(name, operand) for _, name, operand in leaves_of(tree))


def selections(r, count):
    """How many expressions selected the same records as recsel, and how many of them were given to it as they stand."""
    ints = [b'0', b'1', b'-1', b'5', b'05', b'0x5', b'010', b'8', b' 8', b'-0', b'00', b'2147483647', b'-2147483647', b'-0x10', b'12']
    texts = [b'x', b'', b'5', b' 5', b'a b', b'a\nb', b'yes', b'x ', b'"', b'\n', b'&&', b'X', b'\xe9']
    asked, standing = 0, 0
    with tempfile.TemporaryDirectory() as folder:
        path = os.path.join(folder, 'file.rec')
        while asked < count:
            records = [[(b'N', b'%d' % k), (b'I', r.choice(ints)), (b'J', r.choice(ints)), (b'T', r.choice(texts))] for k in range(40)]
            text = b'%rec: S\n\n' + b'\n'.join(b''.join(recfile.written(n, v) for n, v in pairs) for pairs in records)
            with open(path, 'wb') as f:
                f.write(text)
            made = Expressions(r, [b'I', b'J', b'T'], ints + texts)
            for _ in range(20):
                expression = made.formed()
                tree = read(expression)
                if tree is None or not recsel_reads(tree):
                    continue
                given = expression if grouped_alike(tree) else spelled(tree)
                shown = subprocess.run(['recsel', '-t', 'S', '-P', 'N', '-e', given, path], capture_output=True, check=False)
                _, n, found = find(text, len(text), b'S', expression, [0] * 40)
                same((found[:n], b''), ([int(k) for k in shown.stdout.split()], shown.stderr), given, text)
                asked, standing = asked + 1, standing + (given == expression)
    return asked, standing


def main(seed=1, rounds=2000):
    r = random.Random(seed)
    made = Expressions(r)
    print('%d by hand: as written' % by_hand())
    print('%d texts of at most five parts, %d of the form: read alike' % readings(few_parts()))
    for name in ('formed', 'near', 'soup'):
        print('%d random texts, %d of the form: read alike (%s, seed %d)' % (*readings(getattr(made, name)() for _ in range(rounds)), name, seed))
    if shutil.which('recsel'):
        print('%d expressions, %d of them as they stand: GNU recsel selects the same records' % selections(r, max(20, rounds // 4)))


if __name__ == '__main__':
    main(*map(int, sys.argv[1:]))
