#!/usr/bin/env python3
"""The calls of a directory of sets against tests/model/recfile.py: filling it, edits with it and without, runs of requests between them, the count at a position.

Usage: python3 tests/directory/run.py PROGRAM [SEED [ROUNDS]]       (PROGRAM: tests/c/directory.c, built over crates/recfile/out/librecfile.a)

Each case is a file of 1 to 65 sets in a buffer, or one that fails, a list of 0 to 70 entries that hold anything, and calls one after another on both. After each call
its number, what it returned, the buffer and every entry must be the model's. It prints how many answers were compared, by call and number, and stops at the first that differs.
"""
import collections
import os
import struct
import subprocess
import sys
import zlib

ROOT = os.path.dirname(os.path.dirname(os.path.dirname(os.path.abspath(__file__))))
sys.path.insert(0, os.path.join(ROOT, 'tests', 'model'))

import recfile  # noqa: E402
import samples  # noqa: E402
from edits import add, delete, drop, insert, rename, run, setting  # noqa: E402

RECEIPTS = open(os.path.join(ROOT, 'samples', 'receipts.rec'), 'rb').read()
FAILING = (b'A: 1', b'A: \x01\n', b'A\n', b'A' * 65 + b': 1\n', b'%key: A\n', b'%rec: S\n%foo: 1\n', b'%rec: S\n%type: A foo\n', b'%rec: S\n%prohibit: A\n\nA: 1\n', b'%rec: S\n%allowed: B\n\nA: 1\n',
           b'%rec: S\n%mandatory: B\n\nA: 1\n', b'%rec: S\n%unique: A\n\nA: 1\nA: 1\n', b'%rec: S\n%type: A int\n\nA: x\n', b'%rec: S\n%key: A\n\nA: 1\n\nA: 1\n', b'%rec: S\n%size: 0\n\nA: 1\n',
           b'%rec: S\n%auto: %A\n\nA: 1\n', b'%rec: S\n%auto: A\n%type: A real\n\nA: 1\n')


def numbers(*ns):
    return struct.pack('<%dQ' % len(ns), *ns)


class Cases:
    """The program's input, and the line that each call must print. The model keeps buffer and list."""

    def __init__(self, seed):
        self.input, self.lines, self.asked, self.calls = [], [], [], collections.Counter()
        self.samples = samples.Samples(seed)
        self.random = self.samples.random
        self.buffer, self.used, self.entries = b'', 0, []

    def start(self, text, entries, room=200, used=None):
        """A file, `room` bytes behind it, and a list of so many entries."""
        self.buffer, self.used = text + bytes(self.random.randrange(256) for _ in range(room)), len(text) if used is None else used
        self.entries = self.samples.entries(entries)
        self.input.append(b's' + numbers(len(self.buffer), self.used, entries) + self.buffer + b''.join(numbers(*e) for e in self.entries))
        self.case = (text, entries)

    def tell(self, call, number, value, *asks, answers=()):
        self.calls[call, number] += 1
        self.asked.append((self.case, call, asks))
        self.lines.append('%d %d %d%s%s' % (number, value, zlib.adler32(self.buffer), ''.join(' %d,%d,%d' % e for e in self.entries), ''.join(' %d' % n for n in answers)))

    def fill(self):
        self.input.append(b'f')
        number, value, self.entries = recfile.fill(self.buffer, self.used, self.entries)
        self.tell('fill', number, value)

    def edit(self, *requests):
        for request in requests:
            self.input.append(b'e' + numbers(len(request)) + request)
            number, self.used, self.buffer = recfile.edit(self.buffer, self.used, request)
            self.tell('edit', number, self.used, request)

    def listed(self, *requests):
        for request in requests:
            self.input.append(b'l' + numbers(len(request)) + request)
            number, self.used, self.buffer, self.entries = recfile.edit_listed(self.buffer, self.used, request, self.entries)
            self.tell('listed', number, self.used, request)

    def edit_run(self, text, answers):
        """A run of requests, which leaves the list as it is; the answers are those of a list of so many."""
        self.input.append(b'r' + numbers(len(text), answers) + text + struct.pack('<%dI' % answers, *[77] * answers))
        number, self.used, self.buffer, told = recfile.edit_run(self.buffer, self.used, text, [77] * answers)
        self.tell('run', number, self.used, text, answers=told)

    def count_at(self, *positions):
        for position in positions:
            self.input.append(b'c' + numbers(position))
            self.tell('count_at', *recfile.count_at(self.entries, position), position)

    def counts_are_read(self):
        """In a list that is right, the count at each set's position is the one that reads the file."""
        for k, s in enumerate(recfile.passed(self.buffer, self.used)[1]):
            assert recfile.count_at(self.entries, k) == recfile.count(self.buffer, self.used, s.name)


def book(c):
    """The receipt book and small files, with every length of a list up to four."""
    for text in (RECEIPTS, b'', b'\n', b' \n\t\n', b'# c\n', b'\n\n# c\n\n', b'A: 1\n', b'\nA: 1\n\n', b'A: 1\\\n\n', b'A: 1\\\n\n\nB: 2\n', b'%rec: S\n', b'\n \n%rec: S\n\n', b'# c\n%rec: S\n# d\n\n# e\n',
                 b'A: 1\n# end\n\n# alone\n\n# c\nB: 1\n%rec: S\\\n\n%doc: d\n# last\n\n# alone\n\n# before\nA: 1\n+ 2\n# after\n\n# alone\n'):
        for entries in range(5):
            for request in (insert(b'', (b'A', b'1')), insert(b'S', (b'A', b'1\n2')), insert(b'Scan', (b'Id', b'2'), (b'Page', b'p')), delete(b'', 0), delete(b'S', 0), delete(b'Scan', 0), b'', setting(b'Scan', 0, b'Page', 1, b'longer'),
                            drop(b'Scan', 0, b'Page', 0), rename(b'Scan', 0, b'Page', 1, b'P'), add(b'', 0, b'B', b''), drop(b'', 0, b'A', 0)):
                c.start(text, entries)
                c.listed(request, request)
                c.fill()
                c.count_at(*range(entries + 1))
                c.start(text, entries, room=0)
                c.fill()
                c.edit(request)
                c.listed(b'x')
    c.start(RECEIPTS, 2)
    c.count_at(0, 1, 2, 3, 75, 2 ** 32, 2 ** 63, 2 ** 64 - 1)
    c.start(b'', 0)
    c.count_at(0, 1, 2 ** 64 - 1)


def failing(c):
    """1 to 14, and 28 of a file that passes: no entry is changed, whatever is asked."""
    for text in FAILING:
        for entries in (0, 1, 2, 5):
            c.start(text, entries)
            c.fill()
            c.listed(insert(b'', (b'A', b'1')), setting(b'S', 0, b'A', 0, b'2'), b'')
            c.count_at(0, 1, 2, entries)
    for used in (len(RECEIPTS) + 1, 2 ** 64 - 1):
        c.start(RECEIPTS, 2, room=0, used=used)
        c.fill()
        c.listed(delete(b'Scan', 0))
    c.start(b''.join(b'%%rec: S%d\n\n' % k for k in range(65)), 70)
    c.fill()
    c.listed(b'')


def refusals(c):
    """20 to 26 and 104 to 114 with a list that holds anything: it is right afterwards."""
    rules = b'%rec: S\n%prohibit: P\n%allowed: K A B P U\n%mandatory: A\n%unique: U\n%key: K\n%type: A int\n%size: <= 2\n\nK: 1\nA: 1\nU: 1\n\nK: 2\nA: 1\n'
    for request in (b'', delete(b'T', 0), delete(b'S', 7), drop(b'S', 0, b'Z', 0), setting(b'S', 0, b'A', 0, b'a\\'), add(b'S', 0, b'B', b'x' * 500), add(b'S', 0, b'P', b'1'), add(b'S', 0, b'Q', b'1'), drop(b'S', 0, b'A', 0),
                    add(b'S', 0, b'U', b'1'), setting(b'S', 0, b'A', 0, b'x'), setting(b'S', 1, b'K', 0, b'1'), insert(b'S', (b'K', b'3'), (b'A', b'1')), add(b'S', 0, b'B', b'1')):
        for entries in (1, 2, 3):
            c.start(rules, entries)
            c.listed(request)
            c.count_at(0, 1, 2, 3)
    for text, request in ((b'A: 1\n', drop(b'', 0, b'A', 0)), (b'A: 1\n' * 256, add(b'', 0, b'A', b'1'))):
        c.start(text, 2)
        c.listed(request)


def numbered(c):
    """Inserts that omit names of %auto lists: accepted, 31, 26 and 104 to 109; the list is right afterwards."""
    x = (b'A', b'x')
    for rules in (b'%auto: Id\n', b'%auto: Id No\n%type: Id range 2\n%type: No range 9 MAX\n', b'%auto: Id\n%type: Id range -1\n', b'%auto: Id\n%prohibit: Id\n', b'%auto: Id\n%allowed: A\n', b'%auto: ' + b'L' * 65 + b'\n', b'%key: Id\n%auto: Id\n%size: < 3\n'):
        for entries in (2, 3, 4):
            for room in (0, 14, 200):
                c.start(b'A: 0\n\n%rec: S\n' + rules + b'# c\n\n# d\n\n%rec: T\n\nId: 70\n', entries, room=room)
                c.listed(insert(b'S', x), insert(b'S', x), insert(b'T', x))
                c.edit(insert(b'S', x))
                c.count_at(0, 1, 2)
                c.edit_run(run(insert(b'S', x), delete(b'S', 0), insert(b'S', x)), 3)
                c.listed(insert(b'S', (b'Id', b'1'), x), insert(b'S', x))
                c.count_at(0, 1, 2)
    c.start(b'%rec: S\n%auto: Id\n', 2, room=2000)
    c.listed(insert(b'S', *[(b'A', b'')] * 255), insert(b'S', *[(b'A', b'')] * 256))


def many(c):
    """Files of 1 to 65 sets: a list that is one entry short, just long enough, and longer."""
    for sets in list(range(1, 66)) + [63, 64, 65, 65]:
        text = b'A'
        while recfile.check(text, len(text)) != 0:
            text = c.samples.arranged(sets) if sets < 12 else plain(c, sets)
        names = [s.name for s in recfile.passed(text, len(text))[1]]
        for entries in (sets - 1, sets, 70):
            c.start(text, entries, room=300)
            c.fill()
            c.count_at(*(range(76) if sets > 62 or entries == sets else (0, sets - 1, sets, 69, 70, 75)))
            for name in (names[0], names[-1], names[len(names) // 2]):
                new = insert(name, (b'Id', b'900'), (b'A', b'7'))
                c.listed(new, new)
                c.edit(delete(name, 0))
                c.edit_run(run(new, delete(name, 0), b''), 3)
                c.count_at(sets - 1, len(names) // 2)
                c.listed(b'', delete(name, 0))
            if entries == sets:
                c.counts_are_read()


def plain(c, sets):
    """A file of many sets without rules, with comments here and there."""
    r, text = c.random, b'A: 0\n\n' * c.random.randint(0, 2)
    for k in range(1, sets):
        text += r.choice([b'', b'', b'# c\n', b'# c\n\n']) + b'%%rec: S%d\n' % k + r.choice([b'', b'%doc: d\\\n\n', b'# d\n']) + b'\n' * r.randint(1, 2)
        text += b''.join(r.choice([b'', b'# e\n']) + b'Id: %d\n\n' % i for i in range(r.choice([0, 0, 1, 3])))
    return text


def random_calls(c, rounds):
    """Calls in any order on random files, with lists of any length."""
    r = c.random
    for _ in range(rounds):
        text = r.choice([c.samples.file, lambda: c.samples.arranged(r.randint(1, 8)), lambda: c.samples.arranged(r.randint(1, 8))])()
        names, sets = [b''], 1
        if recfile.check(text, len(text)) == 0:
            there = recfile.passed(text, len(text))[1]
            names, sets = [s.name for s in there if s.records or r.random() < .3] or [b''], len(there)
        c.start(text, max(0, r.choice([sets, sets, sets, sets + 1, sets + 5, sets - 1, r.randint(0, 70)])), room=r.choice([0, 5, 40, 300]))
        for _ in range(r.randint(2, 12)):
            turn = r.random()
            if turn < .15:
                c.fill()
            elif turn < .3:
                c.edit(c.samples.request(names))
            elif turn < .65:
                c.listed(c.samples.request(names))
            elif turn < .8:
                requests = [c.samples.request(names) for _ in range(r.randint(0, 4))]
                c.edit_run(run(*requests) + r.choice([b'', b'', b'', b'\0']), max(0, len(requests) + r.choice([0, 0, 1, -1])))
            else:
                c.count_at(r.randint(0, 75))


def main(program, seed=1, rounds=1000):
    c = Cases(int(seed))
    for make in (book, failing, refusals, numbered, many):
        make(c)
    random_calls(c, int(rounds))
    done = subprocess.run(program.split(), input=b''.join(c.input), capture_output=True, check=False)
    got = done.stdout.decode().splitlines()
    for i, want in enumerate(c.lines):
        if i >= len(got) or got[i] != want:
            sys.exit('call %d differs (seed %s): %r\nlibrary %s\nmodel   %s' % (i, seed, c.asked[i], got[i] if i < len(got) else 'nothing', want))
    if done.returncode != 0 or len(got) != len(c.lines):
        sys.exit('exit status %d, %d lines for %d calls\n%s' % (done.returncode, len(got), len(c.lines), done.stderr.decode()))
    for call in ('fill', 'edit', 'listed', 'run', 'count_at'):
        print('%s, by number: %s' % (call, ' '.join('%d:%d' % (n, k) for (what, n), k in sorted(c.calls.items()) if what == call)))
    print('%d answers of a directory, seed %s: all the same' % (len(got), seed))


main(*sys.argv[1:])
