#!/usr/bin/env python3
"""Edits of different sets in either order through the library, and what every other set answers before and after each edit (document 02, order 13).

Usage: python3 tests/apart/run.py [SEED [ROUNDS]]     (after `rt lib` in crates/recfile; needs cc)

Each round is a random file, mostly one of several sets that passes, with other bytes behind it, and pairs of requests to two of its sets. Where both are accepted in both
orders, the lengths and the bytes up to them must be the same; so must they after two orders of a longer list in which each set's own requests keep their order, the one
sent singly and the other as a run. After every edit, accepted or refused, all that can be asked of a set that it does not name must be what it was: the count, every fetch,
every view's number and bytes and, where the library has them, every total and the names still to fill. It prints how many pairs and lists were alike and how many answers
were compared, and stops at the first difference, showing the file and the requests.
"""
import collections
import ctypes
import os
import subprocess
import sys

ROOT = os.path.dirname(os.path.dirname(os.path.dirname(os.path.abspath(__file__))))
sys.path.insert(0, os.path.join(ROOT, 'tests', 'model'))
import edits      # noqa: E402
import recfile    # noqa: E402
import samples    # noqa: E402

size = ctypes.c_size_t
FIELDS = [b'A', b'B', b'Id', b'Page', b'C', b'Q', b'Foo', b'']


def load():
    archive = os.path.join(ROOT, 'crates', 'recfile', 'out', 'librecfile.a')
    if not os.path.exists(archive):
        sys.exit('make the library first: rt lib in crates/recfile')
    shared = os.path.join(ROOT, 'target', 'librecfile.so')
    os.makedirs(os.path.dirname(shared), exist_ok=True)
    subprocess.run(['cc', '-shared', '-o', shared, '-Wl,--whole-archive', archive, '-Wl,--no-whole-archive'], check=True)
    lib = ctypes.CDLL(shared)
    for name in ('count', 'fetch', 'view', 'edit', 'edit_run', 'to_fill', 'total'):
        if hasattr(lib, 'recfile_' + name):
            getattr(lib, 'recfile_' + name).restype = size
    return lib


class State:
    """A buffer, the length in use, and what each set has been asked so far."""

    def __init__(self, lib, buf, used):
        self.lib, self.buf, self.used, self.known = lib, buf, used, {}

    def file(self):
        return self.used, self.buf[:self.used]

    def edit(self, request):
        """The number, and the state that the edit leaves."""
        number, room = ctypes.c_uint32(77), ctypes.create_string_buffer(self.buf, max(1, len(self.buf)))
        n = self.lib.recfile_edit(room, size(len(self.buf)), size(self.used), request, size(len(request)), ctypes.byref(number))
        return number.value, State(self.lib, room.raw[:len(self.buf)], n)

    def edit_run(self, requests):
        """The numbers, and the state that the run leaves."""
        run, room = edits.run(*requests), ctypes.create_string_buffer(self.buf, max(1, len(self.buf)))
        number, answers = ctypes.c_uint32(77), (ctypes.c_uint32 * len(requests))()
        n = self.lib.recfile_edit_run(room, size(len(self.buf)), size(self.used), run, size(len(run)), answers, size(len(requests)), ctypes.byref(number))
        return list(answers), State(self.lib, room.raw[:len(self.buf)], n)

    def call(self, name, set_, *rest):
        """A call about a set: its number and what it returned."""
        number = ctypes.c_uint32(77)
        n = getattr(self.lib, 'recfile_' + name)(self.buf, size(len(self.buf)), size(self.used), set_, size(len(set_)), *rest, ctypes.byref(number))
        return number.value, n

    def fetches(self, set_, row):
        """Every occurrence of every name in a record, and one more; into a buffer that is long enough and into one that mostly is not."""
        for field in FIELDS:
            for occurrence in range(300):
                for length in (60, 2):
                    out = ctypes.create_string_buffer(b'\xee' * length, length)
                    told = self.call('fetch', set_, size(row), field, size(len(field)), size(occurrence), out, size(length))
                    yield 'fetch', row, field, occurrence, length, told, out.raw
                if told[0] not in (0, 27):
                    break

    def asked(self, set_):
        """All answers about a set, one after another; a view's place is left out."""
        yield 'count', self.call('count', set_)
        rows = self.call('count', set_)[1]
        for row in (*range(rows + 1), 2 ** 64 - 1):
            start = size(77)
            number, n = self.call('view', set_, size(row), ctypes.byref(start))
            yield 'view', row, number, n, self.buf[start.value:start.value + n]
            yield from self.fetches(set_, row)
        for field in FIELDS if hasattr(self.lib, 'recfile_total') else ():
            sums = ctypes.c_int64(77), ctypes.c_int64(77)
            told = self.call('total', set_, field, size(len(field)), *map(ctypes.byref, sums))
            yield 'total', field, told, sums[0].value, sums[1].value
        for pairs in ([(b'A', b'1')], [(b'Id', b'1'), (b'B', b'x')]) if hasattr(self.lib, 'recfile_to_fill') else ():
            number, draft = ctypes.c_uint32(77), edits.insert(set_, *pairs)
            n = self.lib.recfile_to_fill(self.buf, size(len(self.buf)), size(self.used), draft, size(len(draft)), ctypes.byref(number))
            yield 'to_fill', pairs, number.value, n

    def answers(self, set_):
        if set_ not in self.known:
            self.known[set_] = list(self.asked(set_))
        return self.known[set_]


def named(request):
    """The set that a request names, None where it is no request."""
    try:
        return recfile.parse_request(request)[1][2]
    except recfile.No:
        return None


class Tests:
    def __init__(self, lib, seed):
        self.lib, self.seed = lib, seed
        self.samples = samples.Samples(seed)
        self.random = self.samples.random
        self.pairs, self.lists, self.compared, self.moved, self.numbers = collections.Counter(), 0, 0, 0, collections.Counter()

    def stop(self, what, start, requests, *more):
        sys.exit('%s (seed %d): the first %d bytes of %r, requests %r%s' % (what, self.seed, start.used, start.buf, requests, ''.join('\n%r' % (m,) for m in more)))

    def edit(self, state, request, sets):
        """One edit; no set but the one that it names answers otherwise than before."""
        number, after = state.edit(request)
        own = named(request)
        self.numbers[number] += 1
        for name in sets:
            same = state.answers(name) == after.answers(name)
            if name == own:
                self.moved += not same
                continue
            self.compared += len(after.answers(name))
            if not same:
                self.stop('set %r answers otherwise after the edit' % name, state, [request], *next(((a, b) for a, b in zip(state.answers(name), after.answers(name)) if a != b), ()))
        return number, after

    def pair(self, start, q, r, sets):
        """Both orders of two requests: alike where all four are accepted."""
        ends, numbers = [], []
        for requests in ((q, r), (r, q)):
            state = start
            for request in requests:
                number, state = self.edit(state, request, sets)
                numbers.append(number)
            ends.append(state)
        accepted = numbers == [0, 0, 0, 0]
        self.pairs['alike' if accepted else 'refused in one order' if numbers[:2] == [0, 0] or numbers[2:] == [0, 0] else 'refused'] += 1
        if accepted and ends[0].file() != ends[1].file():
            self.stop('two orders leave different files', start, [q, r], ends[0].file(), ends[1].file())

    def mixed(self, requests):
        """The same requests in another order, each set's own in theirs."""
        queues = collections.defaultdict(list)
        for request in requests:
            queues[named(request)].append(request)
        turns = [named(request) for request in requests]
        self.random.shuffle(turns)
        return [queues[name].pop(0) for name in turns]

    def list(self, start, requests):
        """A list of requests, sent singly, and another order of it, sent as a run: alike where all are accepted."""
        state, other = start, self.mixed(requests)
        numbers = []
        for request in requests:
            number, state = state.edit(request)
            numbers.append(number)
        told, end = start.edit_run(other)
        if not any(numbers) and not any(told):
            self.lists += other != requests
            if state.file() != end.file():
                self.stop('two orders of a list leave different files', start, [requests, other], state.file(), end.file())

    def request(self, pieces, s):
        """A request to a set, mostly one that is accepted."""
        r = self.random
        turn, value = r.random(), b'%d' % r.randint(1, 9)
        new = edits.insert(s.name, *[(b'Id', b'%d' % r.choice([r.randint(1, 9), r.randint(100, 60000)]))] * (r.random() < .6), (b'A', value), *[(b'Page', r.choice([b'x', b'a\nb', b'']))] * r.randint(0, 1))
        if turn < .25:
            return self.samples.request([s.name])
        if turn < .55 or not s.records:
            return new
        row = r.randrange(len(s.records))
        field = pieces[r.choice(s.records[row].fields)].name
        return r.choice([edits.delete(s.name, row), edits.add(s.name, row, r.choice([b'A', b'B', b'Q']), value), edits.setting(s.name, row, field, 0, value + value),
                         edits.drop(s.name, row, field, 0), edits.rename(s.name, row, field, 0, r.choice([b'A', b'B', b'Q']))])

    def ruled(self, sets):
        """A file of so many sets whose records may get numbers and have keys and singular values."""
        r = self.random
        rules = [b'%auto: Id', b'%auto: Id No\n%type: No range 5', b'%key: Id', b'%singular: A', b'%singular: B Id', b'%type: Id int', b'%mandatory: A']
        text = b'Id: 3\n\n' * r.randint(0, 1)
        for k in range(1, sets):
            text += b'\n'.join([b'%%rec: S%d' % k] + r.sample(rules, r.randint(0, 3)) + [b'', b''])
            text += b''.join(b'Id: %d\nA: %d\n\n' % (i, r.randint(1, 9)) for i in r.sample(range(30), r.randint(0, 3)))
        return text

    def text(self):
        """A file: of several sets with comments and blank lines anywhere, of sets with many rules, or of sets whose records get numbers; now and then one that fails."""
        r = self.random
        while True:
            text = r.choice([lambda: self.samples.arranged(r.choice([2, 3, 5, 8, 12])), lambda: self.ruled(r.choice([2, 3, 5, 8])), self.samples.file, lambda: self.samples.numbering(1)[0]])()
            if recfile.check(text, len(text)) == 0 or r.random() < .05:
                return text

    def round(self, pairs):
        r, text = self.random, self.text()
        used = len(text) + r.choice([0] * 60 + [1, 700])
        start = State(self.lib, text + bytes(r.randrange(256) for _ in range(r.choice([0, 12, 40, 90, 600, 600, 600]))), used)
        try:
            pieces, there = recfile.passed(start.buf, used)
        except recfile.No:
            pieces, there = [], [recfile.Set(name, None) for name in (b'', b'S', b'S1', b'T', b'U')]
        sets = [s.name for s in there] + [b'X']
        for _ in range(pairs):
            a, b = r.sample(there, 2) if len(there) > 1 else (there[0], there[0])
            q, t = self.request(pieces, a), self.request(pieces, b)
            if named(q) is None or named(q) != named(t):
                self.pair(start, q, t, sets)
            few = r.sample(there, min(3, len(there)))
            self.list(start, [self.request(pieces, r.choice(few)) for _ in range(r.choice([3, 4, 6]))])


def main():
    seed = int(sys.argv[1]) if len(sys.argv) > 1 else 1
    rounds = int(sys.argv[2]) if len(sys.argv) > 2 else 300
    tests = Tests(load(), seed)
    for _ in range(rounds):
        tests.round(5)
    print('%d pairs of edits of two sets, seed %d: %s' % (sum(tests.pairs.values()), seed, ', '.join('%d %s' % (n, what) for what, n in sorted(tests.pairs.items()))))
    print('%d lists alike in another order' % tests.lists)
    print('%d answers about other sets compared before and after an edit: all the same; %d edits changed what their own set answers' % (tests.compared, tests.moved))
    print('edits by number: ' + ' '.join('%d:%d' % x for x in sorted(tests.numbers.items())))


main()
