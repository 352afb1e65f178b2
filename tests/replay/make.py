#!/usr/bin/env python3
"""The input and the expected output of the test program `test_replay`: what tests/model/recfile.py answers to edits, runs of requests and the other calls,
and what GNU recins made of the files of tests/recins.

Usage: tests/replay/make.py       (writes crates/test_replay/stdin and crates/test_replay/stdout)
"""
import collections
import os
import sys
import zlib

ROOT = os.path.dirname(os.path.dirname(os.path.dirname(os.path.abspath(__file__))))
sys.path.insert(0, os.path.join(ROOT, 'tests', 'model'))

import expressions  # noqa: E402
import recfile  # noqa: E402
import samples  # noqa: E402
from edits import add, delete, drop, head, insert, pair, rename, run, setting  # noqa: E402
from frames import four, frame, packed, two, whole  # noqa: E402
from samples import tagged  # noqa: E402

RECEIPTS = open(os.path.join(ROOT, 'samples', 'receipts.rec'), 'rb').read()
MORE = 200      # of spare bytes in a large buffer


class Replay:
    """The frames and what each call must print. The model keeps the buffer."""

    def __init__(self):
        self.frames, self.lines, self.calls = [], [], collections.Counter()
        self.buffer, self.used = b'', 0

    def start(self, runs, room=None, used=None, behind=b''):
        """A file in a buffer; behind it there is `behind`, and then zeros up to the buffer's length."""
        if isinstance(runs, bytes):
            runs = [(1, runs)]
        size = len(whole(runs))
        room = size + MORE if room is None else room
        runs = runs + [(1, behind)] if behind else runs
        self.buffer = whole(runs)
        assert len(self.buffer) <= room <= 65600
        self.buffer += bytes(room - len(self.buffer))
        self.used = size if used is None else used
        self.frames.append(frame(b'\0', four(room), four(self.used), packed(runs + [(65600 - len(whole(runs)), b'\0')])))

    def tell(self, kind, number_, length, text):
        self.calls[kind, number_] += 1
        self.lines.append('%d %d %d\n' % (number_, length, zlib.adler32(text)))

    def edit(self, *requests):
        for runs in requests:
            if isinstance(runs, bytes):
                runs = [(1, runs)]
            no, self.used, self.buffer = recfile.edit(self.buffer, self.used, whole(runs))
            self.frames.append(frame(b'\1', packed(runs)))
            self.tell('edit', no, self.used, self.buffer)

    def edit_run(self, runs, answers=70, held=77):
        """A run of requests in one call, given a list of so many answers that all are `held` before."""
        if isinstance(runs, bytes):
            runs = [(1, runs)]
        no, self.used, self.buffer, told = recfile.edit_run(self.buffer, self.used, whole(runs), [held] * answers)
        self.frames.append(frame(b'\2', bytes([answers, held]), packed(runs)))
        self.tell('run', no, self.used, self.buffer)
        self.lines.append(''.join('%d ' % n for n in told) + '\n')
        self.calls.update(('sent', n) for n in told if n != held)

    def call(self, kind, name=b'', row=0, field=b'', occurrence=0, room=0, runs=None):
        tail = name + field if runs is None else packed(runs)
        self.frames.append(frame(bytes([kind]), two(row), two(occurrence), four(room), two(len(name)), two(len(field)), tail))

    def count(self, name):
        self.call(3, name)
        self.tell('count', *recfile.count(self.buffer, self.used, name), b'')

    def fetch(self, name, row, field, occurrence, room):
        self.call(4, name, row, field, occurrence, room)
        self.tell('fetch', *recfile.fetch(self.buffer, self.used, name, row, field, occurrence, b'\xaa' * room))

    def view(self, name, row):
        no, _, part = recfile.view(self.buffer, self.used, name, row)
        self.call(5, name, row)
        self.tell('view', no, len(part), part)

    def write(self, runs, room):
        if isinstance(runs, bytes):
            runs = [(1, runs)]
        self.call(6, room=room, runs=runs)
        self.tell('write', *recfile.write(whole(runs), b'\xaa' * room))

    def find(self, name, expression, room, held=77):
        """The records that an expression finds, in a list of so many entries that all are `held` before."""
        no, found, told = recfile.find(self.buffer, self.used, name, expression, [held] * room)
        self.call(10, name, row=room, field=expression, occurrence=held)
        self.calls['find', no] += 1
        self.lines.append('%d %d ' % (no, found) + ''.join('%d ' % n for n in told) + '\n')

    def total(self, name, field):
        no, hundredths, millionths, values = recfile.total(self.buffer, self.used, name, field)
        self.call(9, name, field=field)
        self.calls['total', no] += 1
        self.lines.append('%d %d %d %d\n' % (no, values, hundredths, millionths))

    def to_fill(self, *requests):
        for runs in requests:
            if isinstance(runs, bytes):
                runs = [(1, runs)]
            self.call(8, runs=runs)
            self.tell('draft', *recfile.to_fill(self.buffer, self.used, whole(runs)), b'')

    def set_name(self, order, room):
        """The name of a set by its place in the file: 21 where there are not so many sets, 27 where it is longer than the second buffer."""
        self.call(7, row=order, room=room)
        out = b'\xaa' * room
        try:
            _, sets = recfile.passed(self.buffer, self.used)
            if order >= len(sets):
                raise recfile.No(21)
            name = sets[order].name
            if len(name) > room:
                raise recfile.No(27)
            self.tell('name', 0, len(name), name + out[len(name):])
        except recfile.No as no:
            self.tell('name', no.number, 0, out)

    def look_around(self):
        """Every call of every set, record and field, and one past each."""
        try:
            pieces, sets = recfile.passed(self.buffer, self.used)
        except recfile.No:
            sets = []
        for k in range(len(sets) + 1):
            self.set_name(k, 64)
        for s in [b'', b'X'] + [s.name for s in sets[1:]]:
            self.count(s)
            here = [t for t in sets if t.name == s]
            for row in range(len(here[0].records) + 1 if here else 1):
                self.view(s, row)
                r = here[0].records[row] if here and row < len(here[0].records) else None
                names = recfile.names_of(pieces, r) if r else [b'A']
                for name in sorted(set(names)) + [b'Zz', b'']:
                    if row == 0:
                        self.total(s, name)
                    for occurrence in range(names.count(name) + 1):
                        length = recfile.fetch(self.buffer, self.used, s, row, name, occurrence, bytes(4096))[1]
                        self.fetch(s, row, name, occurrence, 40)
                        self.fetch(s, row, name, occurrence, length)
                        if length:
                            self.fetch(s, row, name, occurrence, length - 1)


def receipt(r, *requests, room=None, behind=b''):
    r.start(RECEIPTS, room, behind=behind)
    r.edit(*requests)


def marked(r):
    """Cases (b) to (l), each on the receipt book."""
    two_ = insert(b'Scan', (b'Id', b'2'), (b'Page', b'p'))
    for request in (two_, insert(b'Scan', (b'Id', b'1'), (b'Page', b'p')), insert(b'Scan', (b'Page', b'p')), drop(b'Scan', 0, b'Page', 1), bytes.fromhex('01000102020004 5363616E 0300020000'), setting(b'Scan', 0, b'Id', 0, b'08'),
                    setting(b'Scan', 0, b'Id', 0, b'010'), rename(b'Scan', 0, b'Page', 0, b'Id'), setting(b'Scan', 0, b'Id', 0, b'a\\')):
        receipt(r, request)
        receipt(r, request, room=109)
        receipt(r, request, room=150, behind=b'left behind')
    receipt(r, two_, room=109)
    r.start(b'')
    r.edit(two_, insert(b'', (b'A', b'1')), insert(b'', (b'A', b'2')))


def numbers(r):
    """Every number of a refusal, and accepted edits beside them."""
    page = setting(b'Scan', 0, b'Page', 0, b'x')
    # 1 to 14 and 30: of the file itself
    for text in (b'A: 1', b'A: \x01\n', b'A\n', b'A' * 65 + b': 1\n', b'%key: A\n', b'%rec: S\n%foo: 1\n', b'%rec: S\n%type: A foo\n', b'%rec: S\n%prohibit: A\n\nA: 1\n', b'%rec: S\n%allowed: B\n\nA: 1\n', b'%rec: S\n%mandatory: B\n\nA: 1\n',
                 b'%rec: S\n%unique: A\n\nA: 1\nA: 1\n', b'%rec: S\n%type: A int\n\nA: x\n', b'%rec: S\n%key: A\n\nA: 1\n\nA: 1\n', b'%rec: S\n%size: 0\n\nA: 1\n', b'%rec: S\n%singular: A\n\nA: 1\nA: 1\n'):
        r.start(text)
        r.edit(setting(b'S', 0, b'A', 0, b'2'), b'')
        r.edit_run(run(insert(b'', (b'A', b'1')), b'x', b''), 4)
        r.edit_run(b'', 4)
        r.edit_run(run(insert(b'', (b'A', b'1'))) + b'x', 4)
        r.look_around()
    r.start(RECEIPTS, room=108 + 1, used=110)
    r.edit(page)
    r.look_around()
    # 20: the form of a request
    good = insert(b'Scan', (b'Id', b'2'), (b'Page', b'p'))
    receipt(r, b'', b'\1', good[:-1], good + b'\0', good[4:], tagged(1, b''), tagged(1, b'\1\1') + good[4:], tagged(1, b'\0') + good[4:], tagged(1, b'\7') + good[4:], tagged(1, b'\2') + good[4:], insert(b'Scan'), insert(b'Scan') + tagged(4, b'Id'),
            insert(b'Scan') + tagged(6, b'2') + tagged(4, b'Id'), good + tagged(4, b'A'), good + tagged(3, b'\0\0'), delete(b'Scan', 0) + tagged(3, b'\0\0'), head(2, b'Scan'), head(2, b'Scan') + tagged(3, b'\0'), head(2, b'Scan') + tagged(3, b'\0\0\0'),
            add(b'Scan', 0, b'A', b'1') + tagged(7, b'B'), head(5, b'Scan') + tagged(3, b'\0\0') + tagged(4, b'Page') + tagged(5, b'\0'), rename(b'Scan', 0, b'Page', 0, b'P') + pair(b'A', b'1'),
            head(6, b'Scan') + tagged(3, b'\0\0') + tagged(4, b'Page') + tagged(7, b'P') + tagged(5, b'\0\0'), tagged(2, b'Scan') + tagged(1, b'\2') + tagged(3, b'\0\0'), page)
    long = [(1, insert(b'Scan', (b'Id', b'2'))), (16, pair(b'Page', b'p' * 4000))]
    size = len(whole(long))
    for more in (65536 - size - 6, 65536 - size - 5):
        receipt(r)
        r.edit(long + [(1, tagged(4, b'') + tagged(6, b'y' * more))])
        r.edit(long + [(1, pair(b'Page', b'y' * (more - 4)))])
        r.start(RECEIPTS, room=65600)
        r.edit(long + [(1, pair(b'Page', b'y' * (more - 4)))])
    # 21 to 24
    receipt(r, delete(b'scan', 0), delete(b'Sca', 0), delete(b'', 0), delete(b'Scan', 1), delete(b'Scan', 65535), delete(b'\0Scan', 0), drop(b'Scan', 0, b'Pag', 0), drop(b'Scan', 0, b'Page', 2), drop(b'Scan', 0, b'Page', 65535),
            drop(b'Scan', 0, b'Id', 0), setting(b'Scan', 0, b'%rec', 0, b'x'), rename(b'Scan', 0, b'', 0, b'x'), drop(b'Scan', 0, b'Page', 0), drop(b'Scan', 0, b'Page', 0))
    r.start(b'A: 1\n')
    r.edit(drop(b'', 0, b'A', 0), drop(b'', 0, b'A', 1), drop(b'', 0, b'B', 0), add(b'', 0, b'A', b'2'), drop(b'', 0, b'A', 0), delete(b'', 0), delete(b'', 0), insert(b'', (b'A', b'')))
    # 25
    for value in (b'a\\', b'a\\\nb', b'a\nb\\', b'\\', b'a\\b', b'a\\ ', b'\1', b'a\x7f', b'\xff\x80', b'x' * 4096, b'x' * 4097, b'\n' * 4096, b'\n', b'\n\n', b'+ x', b'# x', b'\t'):
        receipt(r, setting(b'Scan', 0, b'Page', 0, value), add(b'Scan', 0, b'Note', value), insert(b'Scan', (b'Id', b'2'), (b'Page', value)), room=20000)
        r.look_around()
    for name in (b'A' * 64, b'A' * 65, b'%A', b'%', b'', b'1', b'A b', b'A:', b'_A', b'A_1', b'Id', b'Page', b'\xe9'):
        receipt(r, add(b'Scan', 0, name, b'1'), rename(b'Scan', 0, b'Page', 1, name), insert(b'Scan', (b'Id', b'2'), (b'Page', b'p'), (name, b'1')), room=2000)
    # 26
    for room in (109, 110, 117, 123, 124, 125):
        receipt(r, good, page, setting(b'Scan', 0, b'Page', 1, b'longer'), add(b'Scan', 0, b'A', b''), rename(b'Scan', 0, b'Page', 0, b'Pages'), rename(b'Scan', 0, b'Page', 0, b'P'), delete(b'Scan', 0), room=room)
    r.start([(16000, b'A:\n\n'), (1, b'A: x\n')], room=65600)
    r.edit(insert(b'', (b'B', b'y' * 1000)), insert(b'', (b'B', b'y' * 520)), insert(b'', (b'B', b'y' * 525)), insert(b'', (b'B', b'')), add(b'', 16000, b'C', b'z' * 8), add(b'', 16000, b'C', b'z' * 7), delete(b'', 3), add(b'', 15999, b'C', b''))
    # 104
    r.start(b'A: x\n' * 256, room=3000)
    r.edit(add(b'', 0, b'A', b'x'), setting(b'', 0, b'A', 255, b'y'), drop(b'', 0, b'A', 255), add(b'', 0, b'A', b'x'), insert(b'', *[(b'A', b'')] * 256), insert(b'', *[(b'A', b'')] * 257))
    # 108 to 114
    rules = b'%rec: S\n%prohibit: P\n%allowed: K A B P U\n%mandatory: A\n%unique: U\n%key: K\n%type: A int\n%size: <= 2\n\nK: 1\nA: 1\nU: 1\n'
    r.start(rules, room=400)
    r.edit(add(b'S', 0, b'P', b'1'), rename(b'S', 0, b'U', 0, b'P'), add(b'S', 0, b'Q', b'1'), rename(b'S', 0, b'U', 0, b'Q'), rename(b'S', 0, b'A', 0, b'B'), drop(b'S', 0, b'A', 0), drop(b'S', 0, b'K', 0), add(b'S', 0, b'U', b'1'),
           add(b'S', 0, b'K', b'1'), setting(b'S', 0, b'A', 0, b'x'), insert(b'S', (b'K', b'1'), (b'A', b'1')), insert(b'S', (b'K', b'2'), (b'A', b'1')), insert(b'S', (b'K', b'3'), (b'A', b'1')), setting(b'S', 1, b'K', 0, b'1'),
           delete(b'S', 0), setting(b'S', 0, b'K', 0, b'1'), insert(b'S', (b'K', b'1'), (b'A', b'1')), insert(b'S', (b'K', b'3'), (b'A', b'1')), delete(b'S', 1), delete(b'S', 0), delete(b'S', 0))
    r.look_around()
    # 130: a second value by each of the edits that can make one, in another record and in the same; accepted ones beside them
    stamps = b'%rec: S\n%key: K\n%singular: A R\n%singular: A\n%size: <= 3\n\nK: 1\nA: a\nA: b\nR:\n\nK: 2\nA: c\nO: b\nQ: a\n\n%rec: T\n%singular: A\n\nA: a\n'
    for request in (insert(b'S', (b'K', b'3'), (b'A', b'a')), insert(b'S', (b'K', b'3'), (b'R', b'')), insert(b'S', (b'K', b'3'), (b'A', b'd'), (b'A', b'd')), insert(b'S', (b'K', b'2'), (b'A', b'a')), insert(b'S', (b'K', b'3'), (b'A', b'd'), (b'R', b'a')),
                    add(b'S', 1, b'A', b'b'), add(b'S', 0, b'A', b'b'), add(b'S', 0, b'A', b'b '), add(b'S', 1, b'R', b''), add(b'S', 1, b'R', b'a'), add(b'S', 0, b'K', b'1'), setting(b'S', 1, b'A', 0, b'a'), setting(b'S', 0, b'A', 1, b'a'), setting(b'S', 0, b'A', 1, b'b'),
                    setting(b'S', 1, b'O', 0, b'a'), rename(b'S', 1, b'O', 0, b'A'), rename(b'S', 1, b'O', 0, b'R'), rename(b'S', 1, b'Q', 0, b'A'), rename(b'S', 1, b'Q', 0, b'R'), rename(b'S', 1, b'A', 0, b'O'), rename(b'S', 0, b'R', 0, b'A'), insert(b'T', (b'A', b'a')), insert(b'T', (b'A', b'b'))):
        r.start(stamps, room=400, behind=b'behind')
        r.edit(request, request)
        r.look_around()
    r.start(stamps, room=400)
    r.edit(drop(b'S', 0, b'A', 0), add(b'S', 1, b'A', b'a'), add(b'S', 0, b'A', b'a'), delete(b'S', 1), insert(b'S', (b'K', b'2'), (b'A', b'c'), (b'A', b'a')), insert(b'S', (b'K', b'3'), (b'A', b'c')), rename(b'S', 1, b'A', 0, b'B'), insert(b'S', (b'K', b'3'), (b'A', b'c')))
    r.edit_run(run(rename(b'S', 1, b'B', 0, b'A'), setting(b'S', 1, b'B', 0, b'd'), rename(b'S', 1, b'B', 0, b'A'), setting(b'S', 1, b'A', 0, b'b'), delete(b'S', 0), setting(b'S', 0, b'A', 0, b'b')))
    r.look_around()
    # 112 and 0 at both sides of the ends of int
    r.start(b'%rec: S\n%type: A int\n%type: B range MIN MAX\n%type: C range MAX MAX\n%type: D range MIN MIN\n\nA: 0\nB: 0\nC: 9223372036854775807\nD: -9223372036854775808\n', room=400)
    for value in (b'9223372036854775807', b'-9223372036854775808', b'-0x8000000000000000', b'-01000000000000000000000', b'9223372036854775808', b'-9223372036854775809', b'0x8000000000000000', b'18446744073709551616', b'123456789012'):
        r.edit(*(setting(b'S', 0, name, 0, value) for name in (b'A', b'B', b'C', b'D')))
    r.look_around()
    # 112 and 0 at both sides of a size, which counts characters
    r.start(b'%rec: S\n%type: A size 2\n\nA:\n', room=400)
    for value in (*map(str.encode, ('é', 'éé', 'ééa', '€€', '€€€', '𝄞𝄞', 'a𝄞é', 'é\n', 'é\na')), b'\x80' * 9, b'\xff\xfe\xbf', b'\xff\xfe\xc0'):
        r.edit(setting(b'S', 0, b'A', 0, value), add(b'S', 0, b'A', value), insert(b'S', (b'B', value), (b'A', value)), rename(b'S', 1, b'B', 0, b'A'), delete(b'S', 1))
    r.look_around()
    r.start(b'%rec: S\n%size: >= 1\n\nA: 1\n\n# c\n\n%rec: T\n\n', room=400, behind=b'behind')
    r.edit(delete(b'S', 0), insert(b'S', (b'A', b'2')), delete(b'S', 0), delete(b'S', 0), insert(b'T', (b'A', b'a\nb'), (b'B', b'')), insert(b'', (b'Z', b'z')), insert(b'T', (b'C', b'c')), delete(b'', 0), delete(b'T', 0))
    r.look_around()


def comments(r):
    """Comments, blank lines, joined lines and plus lines around each edit."""
    text = b'# top\nA: 1\n# in\nB: x\\\ny\n+ z\n# end\n \nC:\n\n%rec: S\n# rules\n%doc: d\n# last\n\n# alone\n\n# before\nA: 1\nA: 2\n+ 3\n# after\n'
    r.start(text, room=400, behind=b'Behind: 1\n')
    r.look_around()
    for request in (delete(b'', 0), delete(b'S', 0), add(b'', 0, b'N', b'1\n2'), add(b'S', 0, b'N', b''), setting(b'', 0, b'B', 0, b'\n'), setting(b'S', 0, b'A', 1, b'9'), drop(b'', 0, b'B', 0), drop(b'S', 0, b'A', 0), rename(b'', 0, b'B', 0, b'Longer'),
                    rename(b'S', 0, b'A', 1, b'L'), insert(b'', (b'N', b'1')), insert(b'S', (b'N', b'1'))):
        r.start(text, room=400, behind=b'Behind: 1\n')
        r.edit(request, request, request)
        r.look_around()


def writing(r):
    good = insert(b'S', (b'A', b'1'), (b'B', b'a\nb'))
    for room in (0, 5, 15, 16, 17, 100):
        r.write(good, room)
        r.write(insert(b'', (b'A', b'')), room)
    for request in (b'', good[:-1], delete(b'S', 0), add(b'S', 0, b'A', b'1'), insert(b'S', (b'%A', b'1')), insert(b'S', (b'A', b'\\')), insert(b'S', (b'A' * 65, b'1')), insert(b'S', (b'A', b'x' * 4097)), insert(b'S', (b'A', b'x' * 4096))):
        r.write(request, 5000)
    r.write(insert(b'S', *[(b'A', b'')] * 256), 65600)
    r.write(insert(b'S', *[(b'A', b'')] * 257), 65600)
    r.write(insert(b'S', *[(b'A', b'')] * 257), 0)
    r.write([(1, head(1, b'S')), (15, pair(b'A', b'x' * 4096)), (1, pair(b'A', b'x' * 3900))], 65600)
    r.write([(1, head(1, b'S')), (15, pair(b'A', b'\n' * 2048)), (1, pair(b'A', b'\n'))], 65600)
    r.write([(1, head(1, b'S')), (8, pair(b'A', b'\n' * 2727)), (1, pair(b'A', b''))], 65600)
    r.write([(1, head(1, b'S')), (8, pair(b'A', b'\n' * 2729)), (1, pair(b'A', b'xx'))], 65600)
    r.write([(1, head(1, b'S')), (8, pair(b'A', b'\n' * 2729)), (1, pair(b'A', b'xxx'))], 65600)
    r.write([(1, head(1, b'S')), (9, pair(b'A', b'\n' * 4096))], 65600)


def names(r):
    r.start(b'A: 1\n\n' + b''.join(b'%%rec: S%d\n\n' % k for k in range(64)), room=2000)
    for order in (0, 1, 2, 10, 11, 63, 64, 65, 65535):
        for room in (0, 1, 2, 3, 64):
            r.set_name(order, room)
    r.start(b'%rec: \n+ Scan\\\nner \n\nA: 1\n\n%rec: ' + b'L' * 4096 + b'\n', room=5000)
    for order in range(4):
        for room in (0, 6, 7, 4095, 4096, 65600):
            r.set_name(order, room)
    r.count(b'Scanner')
    r.count(b'L' * 4096)
    r.count(b'L' * 4095)
    r.fetch(b'Scanner', 0, b'A', 0, 1)


def runs(r):
    """Runs of requests between other edits, runs that are refused among them, and what is refused at both sides of each bound."""
    a, b, c = insert(b'Scan', (b'Id', b'2'), (b'Page', b'p')), setting(b'Scan', 1, b'Page', 0, b'q'), delete(b'Scan', 0)
    r.start(RECEIPTS, behind=b'left behind')
    r.edit(b, a)
    r.edit_run(run(b, a, b'', c, drop(b'Scan', 0, b'Page', 0), insert(b'Scan', (b'Id', b'3'), (b'Page', b'longer'))))
    r.edit(delete(b'Scan', 7), rename(b'Scan', 1, b'Page', 0, b'Pages'))
    r.edit_run(run(a, c) + b'\0')
    r.edit(c)
    r.edit_run(run(insert(b'', (b'A', b'x'))))
    r.look_around()
    # whatever the file: it passes, fails, or has a length that is beyond the buffer
    for start in ({'runs': RECEIPTS}, {'runs': RECEIPTS, 'room': 109}, {'runs': b'A\n'}, {'runs': b'A: 1'}, {'runs': b''}, {'runs': RECEIPTS, 'room': 109, 'used': 110}, {'runs': b'', 'room': 0, 'used': 1}):
        for text in (b'', run(b''), run(a), run(a, b, c), run(a, b, c, b''), run(b'', a), run(a) + b'\0', run(a) + b'\1', b'\0', b'\1', b'\0\1', b'\1\0', b'\xff\xff', run(a)[:-1], run(a, b)[:-1], run(a, b)[:-len(b)], run(a, b)[:-len(b) - 1],
                     run(a, b)[:-len(b) - 2], b'\0' + run(a), run(a)[1:], run(b'\0'), run(b'x' * 255), run(b'x' * 256), run(b'x' * 256)[:-1], run(b'x' * 257, a)):
            for answers in range(6):
                r.start(**start)
                r.edit_run(text, answers)
        for count in (64, 65):
            for answers in (count - 1, count, 255):
                r.start(**start)
                r.edit_run(run(*[b''] * count), answers)
                r.start(**start)
                r.edit_run(run(*[insert(b'Scan', (b'Id', b'%d' % i), (b'Page', b'p')) for i in range(count)]), answers, held=0)
    # more bytes than a file may have
    long = [(1, run(b'x' * 65535)[:2] + head(1, b'')), (15, pair(b'A', b'x' * 4096)), (1, pair(b'A', b'x' * (65535 - 7 - 15 * 4103 - 7)))]
    for text in (long, long + long, [(1, run(a))] + long, long + [(1, run(a, b''))], long + [(1, b'\0')], long[:-1]):
        r.start(b'', room=65600)
        r.edit_run(text)


MAX, MIN = b'9223372036854775807', b'-9223372036854775808'


def scans(rules, *records):
    """A file of the set S: its rules, and its records' lines."""
    return b'%rec: S\n' + rules + b''.join(b'\n' + fields for fields in records)


def numbered_by_types(r):
    """The number of an omitted name: every kind of type, alone and with others, and what is there."""
    new, own = insert(b'S', (b'A', b'x')), insert(b'S', (b'A', b'x'), (b'Id', b'1'))
    ends = (b'', b'0', b'2', b'3', b'-3', b'-0', b'0x0F', b'017', b'198', b'199', b'9223372036854775806', MAX, b'0x7fffffffffffffff', b'0777777777777777777777', MIN)
    kinds = (b'int', b'range 3', b'range 0', b'range 3 199', b'range 100 199', b'range -5 5', b'range -5 -1', b'range -5 -0', b'range -0 0x10', b'range 5 3', b'range MAX MAX', b'range MIN MAX', b'range MIN', b'range 9223372036854775806 MAX')
    for kind in kinds:
        for there in ends:
            text = scans(b'%auto: Id\n%type: Id ' + kind + b'\n', *[b'Id: ' + there + b'\n'] * (there != b''))
            if recfile.check(text, len(text)) == 0:
                r.start(text)
                r.edit(new, new, own)
    # no type: any base, any order, any occurrence, blanks around; what is no int does not count
    for there in ((b'08',), (b'1.5', b'+7', b'7a', b'0x', b'--1', b'1 2', b'-'), (b'',), (b'9223372036854775808',), (b'-9223372036854775809', b'18446744073709551616', b'0x8000000000000000'), (b'-0x8000000000000000',), (b'old', b'3', b'new'), (b' 6\t',), (b'\n+ 6\n+',), (b'1\n+ 2',),
                  (b'\\\n12',), (b'1\\\n\\\n2',), (b'9', b'0x0A', b'-20'), (b'010', b'9'), (b'9', b'010'), (b'-1', b'-2'), (b'0' * 50 + b'7',), (b'0x' + b'0' * 50 + b'fF',), (b'9',), (b'99',), (b'999999999999',), (MAX,), (MIN, MAX), (MIN,)):
        for text in (scans(b'%auto: Id\n', *(b'Id: ' + v + b'\nB: 77\n' for v in there)), scans(b'%auto: Id\n', b'# c\n' + b'# d\n'.join(b'Id: ' + v + b'\n' for v in there) + b'id: 77\nIdx: 78\n')):
            r.start(text)
            r.edit(new, new)
    for types in (b'%type: Id int\n%type: Id,No range 10 20\n%type: Id range 15 30\n', b'%type: Id range 10 20\n%type: Id range 21 30\n', b'%type: No,Id range 10 20\n%type: Id range 20 30\n', b'%typedef: Low Mid\n%typedef: Mid High\n%typedef: High range 7 9\n%type: A,Id Low\n',
                  b'%typedef: N int\n%type: Id N\n', b'%type: No range 50\n%type: A line\n', b'%type: Id range 9 MAX\n' * 32, b'%type: Id range MIN MAX\n' * 31 + b'%type: No,Id range 1\n'):
        r.start(scans(types + b'%auto: Id\n'), room=2000)
        r.edit(new, insert(b'S', (b'A', b'8')), new, new, own)
        r.start(scans(types + b'%auto: Id No\n', b'No: 16\n'), room=2000)
        r.edit(new, insert(b'S', (b'A', b'8')), insert(b'S', (b'No', b'3')), insert(b'S', (b'Id', b'17')), own)


def numbered_names(r):
    """Which names are added, where and in which order; sets; and the edits that add none."""
    x, id_, no = (b'A', b'x'), (b'Id', b'7'), (b'No', b'5')
    for lists in (b'%auto: Id No\n', b'%auto: No Id\n', b'%auto: No\n%auto: Id No Id\n+ Row\n', b'%auto: Id\\\n No\n', b'%auto: I\\\nd\n+No\n', b'%auto: Id No\n%type: No range 5 4\n', b'%auto: Id\n%type: Id range 0\n', b'%mandatory: Id\n', b'%auto: A Id A\n'):
        for pairs in ([x], [id_, x], [x, no], [no, id_, (b'No', b'6')], [(b'Id', b'')], [(b'id', b'1'), (b'Idx', b'2'), (b'I', b'3')], [(b'N', b'1'), (b'o', b'2'), (b'NoNo', b'3')]):
            r.start(scans(lists, b'Id: 0\n'))
            r.edit(insert(b'S', *pairs), insert(b'S', *pairs))
        r.look_around()
    text = b'Id: 70\n\n%rec: S\n# c\n%auto: Id\n# d\n\n# e\n\n%rec: T\n%auto: Id No\n\nId: 8\n# f\n\n\n%rec: U\n\nId: 9\n'
    for request in (insert(b'', x), insert(b'S', x), insert(b'T', x), insert(b'U', x), insert(b'T', x, id_), insert(b'V', x), insert(b'S'), add(b'T', 0, *x), setting(b'T', 0, b'Id', 0, b'3'), drop(b'T', 0, b'Id', 0), rename(b'T', 0, b'Id', 0, b'No'), delete(b'T', 0), delete(b'', 0)):
        r.start(text, room=400, behind=b'behind')
        r.edit(request, insert(b'T', x), insert(b'S', x), insert(b'', x), request)
        r.look_around()
    r.start(b'')
    r.edit(insert(b'', x))
    for room in (0, 4, 5, 100):
        r.write(insert(b'T', x), room)
    # a field's lines are as long as the number has digits
    for last in (b'8', b'9', b'98', b'99', b'999999999999999999'):
        text = scans(b'%auto: Id\n', b'Id: ' + last + b'\n')
        least = len(text) + len(b'\nId: \nA: x\n') + len(b'%d' % (int(last) + 1))
        for room in (least - 1, least, least + 1):
            r.start(text, room=room)
            r.edit(insert(b'S', x), insert(b'S', x))


def numbered_refusals(r):
    """25, 31, 26 and 104 beside each other, and what is asked of the completed record."""
    x, bad, long = (b'A', b'x'), (b'A', b'\\'), b'L' * 65
    # names at both sides of 64 bytes, in a small buffer and in a large one, with a number and without
    for name in (b'L' * 64, long, b'L' * 300):
        for more in (b'', b'%type: ' + name + b' range MIN -1\n', b'%auto: Id\n%type: Id range -1\n'):
            text = scans(b'%auto: ' + name + b'\n' + more)
            for room in (len(text), len(text) + len(name) + 10, len(text) + len(name) + 11, len(text) + 400):
                for pairs in ([x], [bad], [x, (name, b'1')], [(b'%A', b'1')]):
                    r.start(text, room=room)
                    r.edit(insert(b'S', *pairs))
    r.start(scans(b'%auto: Id ' + long + b' No\n%prohibit: Id\n%mandatory: B\n'), room=400)
    r.edit(insert(b'S', x), insert(b'S', (b'B', b'1')), insert(b'S', (long, b'1')))
    # 256 fields, the added ones among them
    names = [b'N%d' % k for k in range(64)]
    for lists, count in ((b'%auto: Id\n', 255), (b'%auto: ' + b' '.join(names) + b'\n', 192), (b'%auto: ' + b' '.join(names[:40]) + b'\n%auto: ' + b' '.join(names[40:]) + b'\n', 193)):
        for n in (count - 1, count, count + 1, 256, 257):
            for room in (400, 1800, 3000):
                r.start(scans(lists), room=max(room, len(scans(lists))))
                r.edit([(1, head(1, b'S')), (n, pair(b'A', b''))], [(1, insert(b'S', (b'Id', b'1'))), (n - 1, pair(b'A', b''))], [(1, insert(b'S', *((m, b'1') for m in names))), (n - 64, pair(b'A', b''))])
    r.start(scans(b'%auto: Id\n%type: Id range -1\n'), room=3000)
    r.edit(insert(b'S', *[(b'A', b'')] * 256), insert(b'S', *[(b'A', b'')] * 257), insert(b'S', *[(b'A', b'')] * 256, bad))
    # a file of 65,536 bytes and one more
    for more in (0, 1):
        r.start([(1, scans(b'%auto: Id\n\n')), (16000, b'A:\n\n'), (1, b'# ' + b'c' * (65536 - 64000 - len(scans(b'%auto: Id\n\n')) - 3 - 13 + more) + b'\n')], room=65600)
        r.edit(insert(b'S', x))
    # 108 to 114 and 130
    for rules in (b'%prohibit: Id\n', b'%allowed: A\n', b'%allowed: Id A\n', b'%allowed: Id\n', b'%mandatory: Id A\n', b'%mandatory: B\n', b'%unique: Id\n', b'%key: Id\n', b'%key: A\n', b'%singular: Id\n', b'%singular: A\n', b'%singular: Id A\n', b'%size: <= 2\n', b'%type: A int\n',
                  b'%key: Id\n%type: Id int\n%mandatory: A\n%unique: A\n%singular: A\n%size: < 3\n%allowed: A Id B\n'):
        for there in ((), (b'Id: 3\nA: y\n',), (b'Id: 010\nA: z\n',), (b'Id: x\nA: y\n',)):
            text = scans(b'%auto: Id\n' + rules, *there)
            if recfile.check(text, len(text)) == 0:
                for pairs in ([x], [(b'A', b'3')], [(b'B', b'')], [x, x], [x, (b'Id', b'4'), (b'Id', b'5')], [(b'Id', b'3'), x]):
                    r.start(text, behind=b'behind')
                    r.edit(insert(b'S', *pairs), insert(b'S', *pairs))


def numbered_runs(r):
    """Runs of requests whose inserts are numbered one after another, with other edits between them."""
    x = insert(b'S', (b'A', b'x'))
    for rules in (b'%key: Id\n%auto: Id\n%type: Id int\n', b'%auto: Id\n%type: Id range 2 4\n', b'%auto: Id No\n'):
        for requests in ([x] * 5, [x, x, delete(b'S', 1), x, delete(b'S', 0), x], [x, setting(b'S', 0, b'Id', 0, MAX), x, setting(b'S', 0, b'Id', 0, b'3'), x], [x, x, rename(b'S', 1, b'Id', 0, b'No'), x, x], [x, add(b'S', 0, b'Id', b'4'), x, drop(b'S', 0, b'Id', 1), x],
                         [x, insert(b'S', (b'Id', b'3')), x, insert(b'', (b'Id', b'9')), x, b'', insert(b'T', (b'A', b'1')), insert(b'T', (b'A', b'2'))], [x] * 64, [x] * 65):
            for room in (60, 140, 1600):
                text = scans(rules) + b'\n%rec: T\n%auto: A Id\n'
                r.start(text, room=max(room, len(text)), behind=b'' if room < 140 else b'behind')
                r.edit(*requests)
                r.start(text, room=max(room, len(text)))
                r.edit_run(run(*requests))
                r.edit_run(run(*requests), 3)
                r.edit(x)
        r.look_around()


def finds(r):
    """Expressions: each sentence of the form at both sides, what each means, rooms of every length, and random ones."""
    book = b'%rec: S\n\nId: 1\nAmount: 25\nPaid: no\n\nId: 2\nAmount: 0x20\nPaid: yes\n\nId: 3\nAmount: 7\nAmount: 30\nPaid: no\n# Paid: x\n\nId: 4\nAmount: none\n\nId: 5\nAmount:  -3 \nPaid: \n\n%rec: T\n'
    r.start(book)
    for expression in (b"Amount > 20 && Paid = 'no'", b'Amount>20', b'Amount!=25', b"Amount!='25'", b'Amount=32', b"Amount='0x20'", b'Amount<0', b'Amount<=-3', b"Amount=' -3 '", b'!Amount=7', b'!(Amount=7)', b"!Paid!='no'", b"Paid=''", b"Paid!=''", b'Id=1||Id=2&&Id=3', b'(Id=1||Id=2)&&Id=3', b'!Id=1&&Id>3',
                       b'!(Id=1&&Id>3)', b'!Id=1||!Id>3', b'Id=1 || Id=2 || Id=3', b'Id>=0x2&&Id<=04', b'Nothing=1', b'!Nothing=1', b'%rec=1', b"%='S'", b'', b'Id', b'Id=', b'Id=09', b'Id==1', b'(Id=1', b'Id=1)', b'Id = 1 &&', b'Id<\'1\'', b"Id='", b'Id=-0', b'Id=- 1', b'Id! =1', b'Id=1&&&Id=1', b'!!!!Id=1', b'! ! !Id=1'):
        for room in (0, 1, 2, 3, 5, 6):
            for name in (b'S', b'', b'T', b'X'):
                r.find(name, expression, room)
    for length in (255, 256, 257):
        r.find(b'S', b'Id=1' + b' ' * (length - 4), 5)
        r.find(b'S', b"Paid!='" + b'n' * (length - 8) + b"'", 5)
        r.find(b'S', b'!' * (length - 4) + b'Id=1', 5)
    for depth in (15, 16, 17):
        r.find(b'S', b'(' * depth + b'Id=1' + b')' * depth, 5)
        r.find(b'S', b'!(' * depth + b'Id=1' + b')' * depth + b'||(Id=2)&&(Id=2)', 5)
    for expression in (*expressions.FORM, *expressions.OTHER):
        r.find(b'S', expression, 5)
    for text in (b'A: 1', b'A\n', b'%rec: S\n%type: A int\n\nA: x\n', b'%rec: S\n%singular: A\n\nA: 1\nA: 1\n'):
        r.start(text)
        for name in (b'', b'S', b'T'):
            r.find(name, b'A=1', 2)
            r.find(name, b'A', 2)
    r.start(RECEIPTS, room=109, used=110)
    r.find(b'Scan', b'Id=1', 2)
    for seed in range(60):
        g = samples.Samples(30000 + seed)
        text, sets = passing(g)
        wild = expressions.Expressions(g.random, [b'A', b'B', b'Id', b'Page'], [b'1', b'x', b'', b'-1', b'010'])
        r.start(text)
        for _ in range(6):
            name, expression, records = wild.asked(text, len(text))
            if len(name) + len(expression) < 60000:
                r.find(name, expression, min(len(records), 250))


def totals(r):
    """Totals: both sides of each limit of digits, zeros, signs, blanks and joints anywhere; both ends of a sum; halves of a hundredth and their neighbours; several records and sets."""
    for value in (b'0', b'-0', b'00000000', b'000000000', b'-00000000', b'1', b'12345678', b'123456789', b'99999999', b'-99999999', b'0.1', b'0.10', b'0.123456', b'0.1234567', b'0.0000001', b'0.000000', b'12345678.123456', b'-12345678.123456', b'123456789.1', b'1.1234567', b'.5', b'5.', b'-.5', b'-5.', b'.', b'-', b'',
                  b'--1', b'+1', b'1-', b'- 1', b'1.-1', b'1.1.1', b'1 1', b'1\n+ 1', b' 1', b'1 ', b'\t 1 \t', b'\n+ 1', b'1\n+', b'\n+ \n+ -1.5\n+ ', b'1\\\n2', b'-\\\n1', b'1\\\n.5', b'1.\\\n\\\n5', b'1\\\n', b'1\\\n 5', b'1e3', b'0x10', b'010', b'1,5', b'\xb2', b'1\x80', b'7\\\n+ 7', b'-0.000001', b'0.000001'):
        r.start(b'A: ' + value + b'\n')
        r.total(b'', b'A')
        r.start(b'A: 1\nB: ' + value + b'\n\n%rec: S\n\nA: 2.5\nA: ' + value + b'\n# A: 7\n\nB: 1\nA: -3\n\n%rec: T\n')
        for name in (b'', b'S', b'T', b'X'):
            for field in (b'A', b'B', b'C', b'', b'%rec', b'a', b'A' * 65):
                r.total(name, field)
    # halves of a hundredth and their neighbours, in one value and in several
    for cents in (0, 1, 2, 3, 12, 13, 99, 100, 9999999998, 9999999999):
        for more in (4999, 5000, 5001, 9999):
            for sign in (b'', b'-'):
                n = cents * 10000 + more
                for parts in ([n], [n // 2, n - n // 2], [n // 3, n // 3, n - 2 * (n // 3)]):
                    r.start(b''.join(b'A: %s%d.%06d\n' % (sign, part // 1000000, part % 1000000) for part in parts))
                    r.total(b'', b'A')
    # the most values, and the largest sums that a file holds
    for runs in ([(51, b'A: 1\n' * 256 + b'\n')], [(13107, b'A: 1\n')], [(1, b'A: 1\n'), (9361, b'\nA: -1\n')], [(5041, b'A: 99999999\n\n')], [(4681, b'A: -99999999\n\n')], [(3276, b'A: 99999999.999999\n\n')], [(3120, b'A: -99999999.999999\n\n')], [(9000, b'A:1\n')], [(256, b'A: 1\n')], [(257, b'A: 1\n')]):
        r.start(runs, room=65600)
        r.total(b'', b'A')
    # files that fail, and lengths beyond the buffer
    for text in (b'A: 1', b'A\n', b'%rec: S\n%type: A int\n\nA: 1.5\n', b'%rec: S\n%singular: A\n\nA: 1\nA: 1\n'):
        r.start(text)
        for name in (b'', b'S', b'T'):
            r.total(name, b'A')
    r.start(RECEIPTS, room=109, used=110)
    r.total(b'Scan', b'Id')
    # after edits of an occurrence, a record, another name and another set
    r.start(b'A: 1.5\nA: 2\n\nA: -3\n\n%rec: S\n\nA: 7\n', room=400)
    for request in (setting(b'', 0, b'A', 1, b'-0.25'), setting(b'S', 0, b'A', 0, b'8'), insert(b'', (b'A', b'10'), (b'B', b'1'), (b'A', b'0.005')), add(b'', 1, b'B', b'9'), rename(b'', 1, b'B', 0, b'A'), drop(b'', 0, b'A', 0), delete(b'', 1), setting(b'', 0, b'A', 0, b'x')):
        r.edit(request)
        for name in (b'', b'S'):
            r.total(name, b'A')
            r.total(name, b'B')


def drafts(r):
    """Drafts of records: lists at their limit, names that stand twice, begin with % or are too long, keys of every kind, and what is refused."""
    names, long = [b'N%d' % k for k in range(64)], b'L' * 65
    x, page, id_ = (b'A', b'x'), (b'Page', b'p'), (b'Id', b'2')
    r.start(RECEIPTS)
    r.to_fill(insert(b'Scan', x), insert(b'Scan', page), insert(b'Scan', id_), insert(b'Scan', x, page, id_), insert(b'Scan', page, page, page), insert(b'Scan', (b'page', b''), (b'Pag', b''), (b'Page ', b'')), insert(b'', x),
              insert(b'X', x), insert(b'Scan'), b'', delete(b'Scan', 0), delete(b'X', 0), add(b'Scan', 0, *page), setting(b'Scan', 0, b'Page', 0, b'x'), drop(b'Scan', 0, b'Page', 0), rename(b'Scan', 0, b'Page', 0, b'Id'), insert(b'X')[:-1])
    r.to_fill([(1, head(1, b'Scan')), (300, pair(b'Page', b''))], [(1, head(1, b'Scan')), (15, pair(b'Id', b'x' * 4097))], [(1, head(1, b'Scan')), (1, pair(b'Page', b'x' * 60000)), (1, pair(b'Id', b'\\'))])
    full = [(1, head(1, b'Scan')), (16, pair(b'Page', b'p' * 4000))]
    for more in (65536, 65537):
        r.to_fill(full + [(1, pair(b'Page', b'y' * (more - len(whole(full)) - len(pair(b'Page', b'')))))])
    # every kind of key beside lists of every kind
    for rules in (b'', b'%mandatory: A\n', b'%mandatory: A A B\n%mandatory: B A\n', b'%mandatory: %A ' + long + b'\n', b'%mandatory: A\\\n B\n', b'%mandatory: A\\\n\\\nB\n+ C\n', b'%mandatory:\n+ A\n', b'%mandatory: ' + b' '.join(names) + b'\n', b'%mandatory:' + b' N0' * 64 + b'\n',
                  b'%mandatory: ' + b' '.join(names[:40]) + b'\n%mandatory: ' + b' '.join(names[40:]) + b'\n'):
        for key in (b'', b'%key: A\n', b'%key: K\n', b'%key: N63\n', b'%key: %A\n', b'%key: ' + long + b'\n', b'%key: \\\n K\n'):
            for auto in (b'', b'%auto: A\n', b'%auto: K\n', b'%auto: ' + long + b' N63\n', b'%auto: ' + b' '.join(names) + b'\n'):
                text = scans(rules + key + auto)
                r.start(text, room=len(text) + 1)
                r.to_fill(insert(b'S', (b'Z', b'')), insert(b'S', x), insert(b'S', (b'K', b''), x), insert(b'S', (b'%A', b'')), insert(b'S', (long, b'')), insert(b'S', (b'AB', b''), (b'B', b'\1')), insert(b'S', *((n, b'') for n in names)), insert(b'S', *((n, b'') for n in names[1:])))
    # files that fail, and lengths beyond the buffer
    for text in (b'A: 1', b'A\n', b'%rec: S\n%mandatory: A\n\nB: 1\n', b'%rec: S\n%singular: A\n\nA: 1\nA: 1\n'):
        r.start(text)
        r.to_fill(insert(b'S', x), b'', delete(b'S', 0), insert(b'T', x))
    r.start(RECEIPTS, room=109, used=110)
    r.to_fill(insert(b'Scan', x), b'')
    # a draft that is accepted had nothing to fill
    r.start(scans(b'%key: Id\n%auto: Id\n%mandatory: Page Note\n'), room=400)
    for pairs in ([x], [x, page], [page, (b'Note', b'n')], [page, (b'Note', b'\\')]):
        r.to_fill(insert(b'S', *pairs))
        r.edit(insert(b'S', *pairs))


def passing(g):
    """A random file that passes and has two records or more, and its sets."""
    while True:
        text = g.file()
        if recfile.check(text, len(text)) == 0:
            _, sets = recfile.passed(text, len(text))
            if sum(len(s.records) for s in sets) > 1:
                return text, sets


def random_lists(r, count):
    for seed in range(count):
        g = samples.Samples(10000 + seed)
        text, sets = passing(g)
        here = [s.name for s in sets if s.records or g.random.random() < .2] or [b'']
        requests = [g.request(here) for _ in range(8)]
        room = len(text) + g.random.choice([0, 5, 40, 300])
        behind = b'Left: 1\n'[:room - len(text)] if g.random.random() < .3 else b''
        r.start(text, room, behind=behind)
        r.to_fill(*requests)
        r.edit(*requests)
        r.look_around()
        for q in requests:
            r.write(q, g.random.choice([0, 6, 12, 40]))
        r.start(text, room, behind=behind)
        r.edit_run(run(*requests), g.random.choice([8, 8, 9, 7]))
        r.start(text, room, behind=behind)
        while requests:
            n = g.random.randint(0, len(requests))
            r.edit(*requests[:1])
            r.edit_run(run(*requests[1:n]) + g.random.choice([b'', b'', b'', b'\0']), g.random.randint(max(0, n - 2), 9))
            requests = requests[max(1, n):]


def random_numberings(r, count):
    """Inserts into sets with %auto lists, one by one and as a run."""
    for seed in range(count):
        g = samples.Samples(20000 + seed)
        text, requests = g.numbering(6)
        while recfile.check(text, len(text)) != 0 and g.random.random() < .9:
            text, requests = g.numbering(6)
        room = len(text) + g.random.choice([0, 20, 60, 400, 400])
        r.start(text, room)
        r.to_fill(*requests)
        r.edit(*requests)
        if seed % 4 == 0:
            r.look_around()
        r.start(text, room)
        r.edit_run(run(*requests), 6)


r = Replay()
for make in (marked, numbers, comments, writing, names, runs, numbered_by_types, numbered_names, numbered_refusals, numbered_runs, drafts, totals, finds):
    make(r)
random_lists(r, 150)
random_numberings(r, 120)

judged = os.path.join(ROOT, 'tests', 'recins')
with open(os.path.join(judged, 'cases'), 'rb') as f:
    stdin = b''.join(r.frames) + f.read()
with open(os.path.join(judged, 'told')) as f:
    r.lines += f.readlines()
folder = os.path.join(ROOT, 'crates', 'test_replay')
with open(os.path.join(folder, 'stdin'), 'wb') as f:
    f.write(stdin)
with open(os.path.join(folder, 'stdout'), 'w') as f:
    f.writelines(r.lines)
print(len(r.frames), 'frames', len(r.lines), 'lines', len(stdin), 'bytes')
for kind in sorted({k for k, _ in r.calls}):
    print(kind, sorted((n, c) for (k, n), c in r.calls.items() if k == kind))
