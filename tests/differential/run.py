#!/usr/bin/env python3
"""The library against the independent implementation in tests/model/recfile.py, and its reading against GNU recutils.

Usage: python3 tests/differential/run.py [SEED [ROUNDS]]     (after `rt lib` in crates/recfile; needs cc; recutils if it is installed)

Random, damaged and limit-sized files, such with many types, names and symbols, such with runs of joints, such with keys of one fingerprint in several lines, and such of many sets with comments and blank lines anywhere; every call on each of them;
requests built field by field; lists of edits with other bytes behind the file, some of them given a directory of its sets, and runs of requests among them; inserts that omit names of %auto lists; drafts of records; totals of fields; records found by expressions. It prints how many answers were compared and stops at the first that differs,
showing what was asked.
"""
import ctypes
import os
import re
import shutil
import subprocess
import sys
import tempfile

HERE = os.path.dirname(os.path.abspath(__file__))
ROOT = os.path.dirname(os.path.dirname(HERE))
sys.path.insert(0, os.path.join(ROOT, 'tests', 'model'))
import crowds     # noqa: E402
import edits      # noqa: E402
import expressions  # noqa: E402
import frames     # noqa: E402
import recfile    # noqa: E402
import samples    # noqa: E402

size = ctypes.c_size_t


def load():
    archive = os.path.join(ROOT, 'crates', 'recfile', 'out', 'librecfile.a')
    if not os.path.exists(archive):
        sys.exit('make the library first: rt lib in crates/recfile')
    shared = os.path.join(ROOT, 'target', 'librecfile.so')
    os.makedirs(os.path.dirname(shared), exist_ok=True)
    subprocess.run(['cc', '-shared', '-o', shared, '-Wl,--whole-archive', archive, '-Wl,--no-whole-archive'], check=True)
    lib = ctypes.CDLL(shared)
    lib.recfile_check.restype = ctypes.c_uint32
    for name in ('count', 'set_name', 'fetch', 'view', 'find', 'total', 'request_field', 'write', 'to_fill', 'edit', 'edit_run', 'fill', 'edit_listed', 'count_at'):
        getattr(lib, 'recfile_' + name).restype = size
    return lib


def lent(entries):
    """A list of entries for the library, each three numbers."""
    return (size * (3 * len(entries)))(*[n for e in entries for n in e])


def held(room):
    return [tuple(room[k:k + 3]) for k in range(0, len(room), 3)]


class Library:
    """The calls with the same arguments and answers as recfile.py's."""

    def __init__(self, lib):
        self.lib = lib

    def check(self, buf, used):
        return self.lib.recfile_check(bytes(buf), size(len(buf)), size(used))

    def count(self, buf, used, name):
        number = ctypes.c_uint32(77)
        n = self.lib.recfile_count(bytes(buf), size(len(buf)), size(used), name, size(len(name)), ctypes.byref(number))
        return number.value, n

    def fetch(self, buf, used, name, row, field, occurrence, out):
        number, room = ctypes.c_uint32(77), ctypes.create_string_buffer(bytes(out), max(1, len(out)))
        n = self.lib.recfile_fetch(bytes(buf), size(len(buf)), size(used), name, size(len(name)), size(row), field, size(len(field)),
                                   size(occurrence), room, size(len(out)), ctypes.byref(number))
        return number.value, n, room.raw[:len(out)]

    def set_name(self, buf, used, k, out):
        number, room = ctypes.c_uint32(77), ctypes.create_string_buffer(bytes(out), max(1, len(out)))
        n = self.lib.recfile_set_name(bytes(buf), size(len(buf)), size(used), size(k), room, size(len(out)), ctypes.byref(number))
        return number.value, n, room.raw[:len(out)]

    def request_field(self, request, at, tag, contents):
        room = ctypes.create_string_buffer(bytes(request), max(1, len(request)))
        n = self.lib.recfile_request_field(room, size(len(request)), size(at), ctypes.c_uint8(tag), contents, size(len(contents)))
        return n, room.raw[:len(request)]

    def view(self, buf, used, name, row):
        number, start = ctypes.c_uint32(77), size(77)
        n = self.lib.recfile_view(bytes(buf), size(len(buf)), size(used), name, size(len(name)), size(row), ctypes.byref(start), ctypes.byref(number))
        return number.value, start.value, bytes(buf[start.value:start.value + n])

    def write(self, request, out):
        number, room = ctypes.c_uint32(77), ctypes.create_string_buffer(bytes(out), max(1, len(out)))
        n = self.lib.recfile_write(request, size(len(request)), room, size(len(out)), ctypes.byref(number))
        return number.value, n, room.raw[:len(out)]

    def find(self, buf, used, name, expression, records):
        number, list_ = ctypes.c_uint32(77), (size * len(records))(*records)
        n = self.lib.recfile_find(bytes(buf), size(len(buf)), size(used), name, size(len(name)), expression, size(len(expression)), list_, size(len(records)), ctypes.byref(number))
        return number.value, n, list(list_)

    def total(self, buf, used, name, field):
        number, hundredths, millionths = ctypes.c_uint32(77), ctypes.c_int64(-78), ctypes.c_int64(79)
        n = self.lib.recfile_total(bytes(buf), size(len(buf)), size(used), name, size(len(name)), field, size(len(field)),
                                   ctypes.byref(hundredths), ctypes.byref(millionths), ctypes.byref(number))
        if number.value == 0:
            return 0, hundredths.value, millionths.value, n
        return number.value, hundredths.value + 78, millionths.value - 79, n

    def to_fill(self, buf, used, request):
        number = ctypes.c_uint32(77)
        n = self.lib.recfile_to_fill(bytes(buf), size(len(buf)), size(used), request, size(len(request)), ctypes.byref(number))
        return number.value, n

    def edit(self, buf, used, request):
        number, room = ctypes.c_uint32(77), ctypes.create_string_buffer(bytes(buf), max(1, len(buf)))
        n = self.lib.recfile_edit(room, size(len(buf)), size(used), request, size(len(request)), ctypes.byref(number))
        return number.value, n, room.raw[:len(buf)]

    def edit_run(self, buf, used, run, answers):
        number, room, list_ = ctypes.c_uint32(77), ctypes.create_string_buffer(bytes(buf), max(1, len(buf))), (ctypes.c_uint32 * len(answers))(*answers)
        n = self.lib.recfile_edit_run(room, size(len(buf)), size(used), run, size(len(run)), list_, size(len(answers)), ctypes.byref(number))
        return number.value, n, room.raw[:len(buf)], list(list_)

    def fill(self, buf, used, entries):
        number, list_ = ctypes.c_uint32(77), lent(entries)
        n = self.lib.recfile_fill(bytes(buf), size(len(buf)), size(used), list_, size(len(entries)), ctypes.byref(number))
        return number.value, n, held(list_)

    def edit_listed(self, buf, used, request, entries):
        number, room, list_ = ctypes.c_uint32(77), ctypes.create_string_buffer(bytes(buf), max(1, len(buf))), lent(entries)
        n = self.lib.recfile_edit_listed(room, size(len(buf)), size(used), request, size(len(request)), list_, size(len(entries)), ctypes.byref(number))
        return number.value, n, room.raw[:len(buf)], held(list_)

    def count_at(self, entries, position):
        number = ctypes.c_uint32(77)
        n = self.lib.recfile_count_at(lent(entries), size(len(entries)), size(position), ctypes.byref(number))
        return number.value, n


class Tests:
    def __init__(self, library, seed):
        self.library, self.seed, self.done, self.numbers = library, seed, 0, {}
        self.samples = samples.Samples(seed)
        self.random = self.samples.random
        self.crowds = crowds.Crowds(self.random)
        self.expressions = expressions.Expressions(self.random, [b'A', b'B', b'Id', b'Page', b'%', b'L' * 64, b'L' * 65], [b'', b'1', b'x', b'yes', b' 1', b'0x1', b'-1', b'010'])

    def compare(self, call, *args):
        """Both answers, which must be one."""
        want = getattr(recfile, call)(*args)
        got = getattr(self.library, call)(*args)
        self.done += 1
        if call != 'request_field':
            number = want if call == 'check' else want[0]
            self.numbers[number] = self.numbers.get(number, 0) + 1
        if got != want:
            folder = tempfile.mkdtemp(prefix='recfile-')
            for i, arg in enumerate(args):
                with open(os.path.join(folder, 'argument-%d' % i), 'wb') as f:
                    f.write(arg if isinstance(arg, bytes) else str(arg).encode())
            sys.exit('%s differs (seed %d): library %.300r, model %.300r; its arguments are in %s' % (call, self.seed, got, want, folder))
        return want

    def lookups(self, buf, used):
        r = self.random
        for name in (b'', b'S', b'T', b'X', b'Scan'):
            self.compare('count', buf, used, name)
        for k in (0, 1, r.choice([2, 3, 64, 65, 2 ** 64 - 1])):
            self.compare('set_name', buf, used, k, b'\xee' * r.choice([0, 1, 4, 40]))
        for _ in range(6):
            name, row = r.choice([b'', b'S', b'T', b'U', b'Scan']), r.choice([0, 0, 1, 2, 70000, 2 ** 64 - 1])
            self.compare('view', buf, used, name, row)
            self.compare('total', buf, used, name, r.choice([b'A', b'B', b'Id', b'', b'Q']))
            self.compare('find', buf, used, *self.expressions.asked(buf, used))
            self.compare('fetch', buf, used, name, row, r.choice([b'A', b'B', b'Id', b'Page', b'', b'Q']), r.choice([0, 0, 1, 2 ** 63]), b'\xee' * r.choice([0, 1, 3, 40]))

    def directory(self, buf, used):
        """The file's directory in a list of any length; it is mostly long enough."""
        r, need = self.random, recfile.fill(buf, used, [(0, 0, 0)] * 65)[1]
        entries = self.samples.entries(max(0, need + r.choice([-1, 0, 0, 0, 1, 5])))
        return self.compare('fill', buf, used, entries)[2]

    def run(self, requests):
        """The requests as a run, now and then one whose lengths do not add up, and a list of answers that is mostly long enough."""
        r, run = self.random, edits.run(*requests)
        turn = r.random()
        if turn < .1:
            run += bytes([r.randrange(256)])
        elif turn < .2:
            run = run[:-1]
        elif turn < .25 and run:
            at = r.randrange(len(run))
            run = run[:at] + bytes([r.choice([0, 1, 255])]) + run[at + 1:]
        return run, [r.choice([0, 7, 2 ** 32 - 1]) for _ in range(max(0, len(requests) + r.choice([-1, 0, 0, 0, 1, 9])))]

    def edits(self, buf, used, rounds):
        """A list of edits, a longer one and of its own sets where the file passes; single ones, ones that are given its directory, and runs of requests."""
        r, sets, entries = self.random, [b'', b'S', b'T', b'Scan'], self.directory(buf, used)
        if recfile.check(buf, used) == 0:
            sets, rounds = [s.name for s in recfile.passed(buf, used)[1] if s.records] + [b''], 4 * rounds
        for _ in range(rounds):
            request, turn = self.samples.request(sets), r.random()
            self.compare('write', request, b'\xee' * r.choice([0, 5, 200]))
            self.compare('to_fill', buf, used, request)
            if turn < .35:
                _, used, buf = self.compare('edit', buf, used, request)
            elif turn < .6:
                requests = [request] * r.randint(0, 1) + [r.choice([b'', self.samples.request(sets), self.samples.request(sets)]) for _ in range(r.choice([0, 1, 2, 3, 6]))]
                _, used, buf, _ = self.compare('edit_run', buf, used, *self.run(requests))
            else:
                _, used, buf, entries = self.compare('edit_listed', buf, used, request, entries)
                self.compare('count_at', entries, r.choice([0, 1, 2, len(entries), 2 ** 64 - 1]))
        return buf, used

    def build(self, parts):
        """Fields appended one after another, in a buffer that has room for all of them or not."""
        r = self.random
        text = b''.join(samples.tagged(tag, contents) for tag, contents in parts)
        request, at = b'\xee' * max(0, len(text) + r.choice([0, 0, 1, 9, -1, -r.randint(0, len(text) + 1)])), 0
        for tag, contents in parts:
            at, request = self.compare('request_field', request, at, tag, contents)
        if (at <= len(request)) != (len(text) <= len(request)) or (at <= len(request) and request[:at] != text):
            sys.exit('appended fields are not the request (seed %d): %r, %r' % (self.seed, request[:at], text))

    def builds(self, rounds):
        r = self.random
        for _ in range(rounds):
            self.build([(r.randrange(256), bytes(r.randrange(256) for _ in range(r.choice([0, 1, 2, 5, 255, 256, 300])))) for _ in range(r.randint(1, 6))])
            request = bytes(r.randrange(256) for _ in range(r.choice([0, 2, 3, 20])))
            self.compare('request_field', request, r.choice([0, 1, 17, 18, 20, 21, 2 ** 63, 2 ** 64 - 1]), r.randrange(256), bytes(r.choice([0, 1, 3])))
        for n in (65535, 65536):
            self.compare('request_field', bytes(70000), 7, 6, b'x' * n)

    def file(self, text, rounds=4):
        r = self.random
        for used in (len(text), max(0, len(text) - 1), len(text) + 1):
            self.compare('check', text, used)
        behind = r.choice([0, 0, 1, 30, 400])
        buf = text + bytes(r.randrange(256) for _ in range(behind))
        self.lookups(buf, len(text))
        self.edits(buf, len(text), rounds)

    def damaged(self, text):
        """A file with a few bytes changed, taken out or put in."""
        r, text = self.random, bytearray(text)
        for _ in range(r.randint(1, 3)):
            at = r.randrange(len(text) + 1)
            turn = r.random()
            if turn < .4 and at < len(text):
                text[at] = r.choice(b'\\\n+#:% \taA0\x00\x7f\xff')
            elif turn < .7:
                text[at:at + r.randint(1, 3)] = b''
            else:
                text[at:at] = bytes(r.choice(b'\\\n+#:% \tA') for _ in range(r.randint(1, 3)))
        return bytes(text)

    def jointed(self, text):
        """A file with runs of joints put in: behind bytes of its values, where they add nothing, and now and then anywhere, at the end too."""
        r, text = self.random, bytearray(text)
        for _ in range(r.randint(1, 6)):
            inside = [m.start() + r.randint(0, len(m.group())) for m in re.finditer(rb'(?<=: )[^\n]+', text)]
            at = r.choice(inside) if inside and r.random() < .85 else r.randrange(len(text) + 1)
            text[at:at] = b'\\\n' * r.choice([1, 1, 2, 3, 40])
        return bytes(text)

    def passing(self):
        """A file that passes and has a set with records."""
        while True:
            text = self.samples.file()
            if recfile.check(text, len(text)) == 0 and any(s.records and s.name for s in recfile.passed(text, len(text))[1]):
                return text

    def limit_crowds(self):
        """The check of files with many types, names and symbols at the limits, and an edit of each."""
        for text in crowds.at_limits():
            self.compare('check', text, len(text))
            self.edits(text + bytes(90), len(text), 1)

    def chosen(self):
        """Files about the ends of int, about sizes, about singular names and about %auto lists, and an edit of each."""
        for runs in (*samples.int_ends(), *samples.accents(), *samples.singulars(), *samples.autos()):
            text = frames.whole(runs)
            self.compare('check', text, len(text))
            self.edits(text + bytes(90), len(text), 1)

    def numberings(self, rounds):
        """Inserts that omit names of %auto lists, into a file of a set with such lists: singly, with its directory, in a run, and other edits between them."""
        r = self.random
        for _ in range(rounds):
            text, requests = self.samples.numbering(8)
            while recfile.check(text, len(text)) != 0 and r.random() < .9:
                text, requests = self.samples.numbering(8)
            buf, used = text + bytes(r.randrange(256) for _ in range(r.choice([0, 20, 60, 500, 500]))), len(text)
            entries = self.directory(buf, used)
            for request in requests[:3]:
                self.compare('to_fill', buf, used, request)
                _, used, buf = self.compare('edit', buf, used, request)
            _, used, buf, entries = self.compare('edit_listed', buf, used, requests[3], entries)
            _, used, buf = self.compare('edit', buf, used, self.samples.request([b'T']))
            self.compare('edit_run', buf, used, *self.run(requests[4:]))

    def full_lists(self):
        """Inserts that get the numbers of 64 names, and 256 fields with them and one more; in a buffer that is long enough and in one that is a byte too short."""
        names = [b'N%d' % k for k in range(64)]
        for lists in (names, names[:63] + [b'L' * 64], names[:63] + [b'L' * 65], names[:32] * 2):
            text = b'%rec: S\n%auto: ' + b' '.join(lists) + b'\n%type: ' + b','.join(lists) + b' range 7 MAX\n'
            for count in (1, 191, 192, 193, 223, 224, 225, 256):
                for given in (0, 1, 64):
                    request = edits.insert(b'S', *((n, b'70') for n in names[:given]), *[(b'A', b'')] * max(0, count - given))
                    length = self.compare('edit', text + bytes(4000), len(text), request)[1]
                    for room in {max(len(text), length - 1), length}:
                        self.compare('edit', text + bytes(room - len(text)), len(text), request)

    def finds(self, rounds):
        """Expressions of the form and one byte away from it, on files of many occurrences, joined values and values that are no ints; those that were written by hand, on each."""
        r = self.random
        names, values = [b'A', b'B', b'Cc', b'%', b'A1'], [b'0', b'1', b'-1', b'01', b'0x1F', b'31', b'-0', b' 5 ', b'\n+ 5', b'5\n+', b'1\\\n2', b'', b'x', b'no', b'yes', b'08', b'9223372036854775807', b'9223372036854775808', b'-9223372036854775808', b"it's", b'\\ ']
        plain = [b'0', b'1', b'-1', b'31', b'5', b'12', b'', b'x', b'no', b'yes', b' 5 ', b'1\n2', b'01', b'9223372036854775807']
        wild = expressions.Expressions(r, names, plain)
        for _ in range(rounds):
            text = b'%rec: S\n\n' + b'\n'.join(b''.join(r.choice([b'A', b'A', b'B', b'Cc', b'A1']) + b': ' + r.choice(values) + b'\n' + r.choice([b'', b'', b'# A: 1\n']) for _ in range(r.choice([1, 1, 2, 3, 9]))) for _ in range(r.choice([0, 1, 3, 8, 40])))
            for _ in range(8):
                expression = r.choice([wild.formed, wild.formed, wild.near, wild.text])()
                room = r.choice([0, 1, 2, 40, 41, 64])
                self.compare('find', text, len(text), r.choice([b'S', b'S', b'S', b'', b'T']), expression, [r.randrange(99) for _ in range(room)])

    def full_finds(self):
        """The most comparisons that an expression has and the most records that a file has; every expression that was written by hand."""
        book = b'%rec: S\n\n' + b''.join(b'A: %d\nB: x\n\n' % k for k in range(4000))
        for expression in (b'||'.join(b'A=%d' % (k % 10) for k in range(51)), b'&&'.join([b'A!=7'] * 42), b'!' * 252 + b'A=77', b'(' * 16 + b'A=1' + b')' * 16 + b'||B=\'x\''):
            for room in (0, 3999, 4000, 4001):
                self.compare('find', book, len(book), b'S', expression, [7] * room)
        for text in (b'A:\n\n' * 16383 + b'A: 1\n', b'A: 1\n\n' * 10000):
            for room in (9999, 10000, 16384):
                self.compare('find', text, len(text), b'', b"A=1||A=''", [7] * room)
        text = b'Id: 1\nA: 5\n\nA: x\nB: \n\nA: -5\nA: 010\n'
        for expression in (*expressions.FORM, *expressions.OTHER):
            self.compare('find', text, len(text), b'', expression, [7] * 3)

    def totals(self, rounds):
        """Totals of values that count, and now and then one that does not: both signs, each number of digits, blanks, joints and plus lines around and between the digits, in several records of several sets."""
        r = self.random

        def digits(most):
            return bytes(r.choice(b'0123456789') for _ in range(r.choice([1, 1, 2, 3, most, r.randint(1, most + 1)])))

        def value():
            text = r.choice([b'', b'', b'-']) + digits(8) + r.choice([b'', b'.' + digits(6)])
            if r.random() < .05:
                at = r.randrange(len(text) + 1)
                text = text[:at] + r.choice([b'-', b'.', b' ', b'x', b'+', b'\n+ ', b'\n+']) + text[at:]
            if r.random() < .3:
                at = r.randrange(1, len(text) + 1)
                text = text[:at] + r.choice([b'\\\n', b'\\\n\\\n']) + text[at:]
            return r.choice([b'', b'', b' ', b'\t', b'\n+ ', b'\n+ \n+ ']) + text + r.choice([b'', b'', b' ', b'\t ', b'\n+', b'\n+ \n+ '])

        for _ in range(rounds):
            text = b''
            for name in r.choice([[b'', b'S'], [b'S', b'T'], [b'']]):
                text += b'%rec: ' + name + b'\n\n' if name else b''
                for _ in range(r.choice([0, 1, 2, 5, 30])):
                    text += b''.join(r.choice([b'A: ', b'A: ', b'A:\t', b'B: ', b'AA: ']) + value() + b'\n' + r.choice([b'', b'', b'# 7\n']) for _ in range(r.choice([1, 1, 2, 4]))) + b'\n'
            for name in (b'', b'S', b'T'):
                for field in (b'A', b'B', b'Q'):
                    self.compare('total', text + bytes(r.choice([0, 9])), len(text), name, field)

    def full_totals(self):
        """The most values, the largest sums, and sums about each half of a hundredth."""
        for text in (b'A: 1\n' * 256 + (b'\n' + b'A: 1\n' * 256) * 49, b'A: 1\n\n' * 10922, b'A: 99999999.9\n\n' * 4369, b'A: -99999999\n' * 256 + b'\n' + b'A: -99999999.999999\n' * 256, b'A: 1\\\n\\\n2\n' * 256):
            self.compare('total', text, len(text), b'', b'A')
        for cents in (0, 1, 2, 3, 4, 10, 99, 12345678):
            for millionths in (4998, 4999, 5000, 5001, 9999, 10000):
                for sign in (b'', b'-'):
                    sum_ = cents * 10000 + millionths
                    for parts in ([sum_], [sum_ - sum_ // 3, sum_ // 3]):
                        text = b''.join(b'A: %s%d.%06d\n' % (sign, part // 1000000, part % 1000000) for part in parts)
                        self.compare('total', text, len(text), b'', b'A')

    def drafts(self, rounds):
        """Drafts of records with some of a set's names and some others, by descriptors with any lists of them: names that stand twice, begin with % or are over 64 bytes long, and a key among them or not."""
        r = self.random
        names = [b'A', b'B', b'%A', b'%', b'L' * 64, b'L' * 65, b'L' * 300, b'Id', b'id', b'I', b'Idx'] + [b'N%d' % k for k in range(64)]
        for _ in range(rounds):
            some = r.sample(names, r.choice([1, 2, 5, 20, 64]))
            text = b'%rec: S\n'
            for field in (b'%mandatory', b'%auto', b'%mandatory', b'%unique'):
                listed = [r.choice(some) for _ in range(r.choice([0, 1, 2, 7, 32]))]
                if field == b'%auto':
                    listed = [n for n in listed if n[:1] != b'%']
                if listed:
                    text += field + b': ' + b''.join(n + r.choice([b' ', b'\t', b'\n+ ', b'\\\n ', b'\\\n\\\n ']) for n in listed) + b'\n'
            if r.random() < .7:
                text += b'%key: ' + r.choice(some) + b'\n'
            for _ in range(4):
                pairs = [(r.choice([r.choice(some), r.choice(names), bytes(r.randrange(256) for _ in range(2))]), r.choice([b'', b'\\', b'x' * 4097])) for _ in range(r.choice([1, 2, 3, 9, 300]))]
                self.compare('to_fill', text + bytes(r.choice([0, 9])), len(text), edits.insert(r.choice([b'S', b'S', b'S', b'', b'T']), *pairs))

    def full_drafts(self):
        """Lists of 64 words, all distinct or not, a key beside them or among them, and drafts with all of the names or all but one."""
        names = [b'N%d' % k for k in range(64)]
        for words in (names, names[:32] * 2, names[:63] + [b'L' * 65], names[:1] * 64):
            for key in (b'', b'%key: K\n', b'%key: N0\n', b'%key: N63\n'):
                for auto in (b'', b'%auto: K\n', b'%auto: ' + b' '.join(names) + b'\n', b'%auto: N63 N62 N0\n'):
                    text = b'%rec: S\n%mandatory: ' + b' '.join(words) + b'\n' + key + auto
                    for given in ([b'A'], names, names[1:], names[:63], [b'K'], names + [b'K'], [b'L' * 65], names[:1] * 300):
                        self.compare('to_fill', text, len(text), edits.insert(b'S', *((n, b'') for n in given)))

    def runs(self):
        """Runs about the most requests that there may be, on files that pass, fail and are said to be longer than their buffer, and runs of more bytes than a file may have."""
        inserts = [edits.insert(b'', (b'A', b'%d' % k)) for k in range(66)]
        for buf, used in ((bytes(900), 0), (bytes(100), 0), (b'A\n', 2), (b'A\n', 3), (b'', 2 ** 64 - 1)):
            for count in (0, 1, 63, 64, 65, 66):
                for answers in {max(0, count - 1), count, count + 1, 64, 65}:
                    for requests in (inserts[:count], [b''] * count):
                        self.compare('edit_run', buf, used, edits.run(*requests), [9] * answers)
        long = edits.insert(b'', *[(b'A', b'x' * 4096)] * 15)
        for requests in ([long] * 2, [b'x' * 65535] * 3, [long, *inserts[:63]], [long, *inserts[:64]]):
            for cut in (0, 1):
                run = edits.run(*requests)
                self.compare('edit_run', bytes(70000), 0, run[:len(run) - cut], [9] * 64)

    def limits(self):
        """Files about the size of every limit, and large ones."""
        def book(n):
            return b'%rec: Scan\n%key: Id\n%type: Id int\n%unique: Page\n\n' + b''.join(b'Id: %d\nPage: p%d\n\n' % (i, i) for i in range(n))

        def chain(n, last):
            return b'%rec: S\n' + b''.join(b'%%typedef: T%d T%d\n' % (i, i + 1) for i in range(n - 1)) + b'%%typedef: T%d %s\n%%type: A T0\n\nA: 5\n' % (n - 1, last)

        for text in (
            b'', b'A: 1', b'A: 1\n', b'\n' * 65536, b'\n' * 65537, b'#' * 65535 + b'\n', b'A' * 65535 + b'\n', b'A: ' + b'x' * 65532 + b'\n', b'A:\n' * 21845,
            b'A:\n\n' * 16384, b'A: 1\n' * 256, b'A: 1\n' * 257, b'A: ' + b'x' * 4096 + b'\n', b'A: ' + b'x' * 4097 + b'\n',
            b'A: ' + b'x' * 4000 + b'\\\n' + b'y' * 96 + b'\n', b'A: ' + b'x' * 4000 + b'\n+ ' + b'y' * 96 + b'\n', b'N' * 64 + b': 1\n', b'N' * 65 + b': 1\n',
            b'\n'.join(b'%%rec: S%d\n' % i for i in range(64)), b'\n'.join(b'%%rec: S%d\n' % i for i in range(65)),
            *(b'%rec: S\n' + (b'%%typedef: T%d int\n' * n % tuple(range(n))) for n in (32, 33)), *(b'%rec: S\n' + b'%type: A int\n' * n for n in (32, 33)),
            *(b'%rec: S\n%' + f + b':' + b' A' * n + b'\n' for n in (64, 65) for f in (b'mandatory', b'prohibit', b'allowed', b'unique', b'singular', b'auto')),
            *(b'%rec: S\n%' + f + b': A\n' + b'%' + f + b':' + b' A' * n + b'\n' for n in (63, 64) for f in (b'mandatory', b'prohibit', b'allowed', b'unique', b'singular', b'auto')),
            chain(32, b'int'), chain(32, b'T0'), chain(33, b'int'), chain(32, b'T31'),
            book(1800), book(1800).replace(b'Id: 1799', b'Id: 77'), book(2400), b'%rec: S\n%key: K\n\n' + b''.join(b'K: %d\n\n' % i for i in range(7000)),
            b'%rec: S\n%size: <= 3\n%key: A\n\nA: 1\n', b'%rec: S\n%mandatory: ' + b'N' * 65 + b'\n\nA: 1\n', b'%rec: S\n%type: ' + b'A,' * 2000 + b'A int\n\nA: 5\nA: x\n',
        ):
            self.file(text, rounds=2)
        # an insert of 256 and 257 pairs, of text that fits and does not, and requests at their limit
        for n in (256, 257):
            request = samples.tagged(1, b'\1') + samples.tagged(2, b'') + (samples.tagged(4, b'A') + samples.tagged(6, b'1')) * n
            self.compare('edit', bytes(4000), 0, request)
            self.compare('write', request, bytes(4000))
        for n in (4096, 4097):
            request = samples.tagged(1, b'\1') + samples.tagged(2, b'') + (samples.tagged(4, b'A') + samples.tagged(6, b'x' * n)) * 15
            self.compare('edit', bytes(70000), 0, request)
            self.compare('write', request, bytes(70000))
            self.compare('write', request + b'\0' * (65537 - len(request)), bytes(10))


def readings(library, tests, count):
    """Sets of random files that pass, read by recsel and by fetch: the names and values must be the same."""
    compared = 0
    with tempfile.TemporaryDirectory() as folder:
        path = os.path.join(folder, 'file.rec')
        while compared < count:
            text = tests.random.choice([tests.samples.file, tests.crowds.file])()
            if recfile.check(text, len(text)) != 0 or b'\xff' in text:
                continue
            pieces, sets = recfile.passed(text, len(text))
            with open(path, 'wb') as f:
                f.write(text)
            for s in sets:
                if s.name == b'' or not s.records:
                    continue
                shown = subprocess.run(['recsel', '-t', s.name.decode('latin-1'), path], capture_output=True, check=False)
                if shown.returncode != 0:
                    continue
                theirs = [[(p.name, p.value) for p in block if p.kind == ':'] for block in blocks(shown.stdout)]
                ours = []
                for row, record in enumerate(s.records):
                    seen, fields = {}, []
                    for i in record.fields:
                        name = pieces[i].name
                        number, n, out = library.fetch(text, len(text), s.name, row, name, seen.get(name, 0), bytes(5000))
                        seen[name] = seen.get(name, 0) + 1
                        fields.append((name, out[:n]))
                    ours.append(fields)
                compared += 1
                if ours != theirs:
                    sys.exit('recsel reads another %r: %r, library %r' % (text, theirs, ours))
    return compared


def sums(library, tests, count):
    """Totals of random values with few digits, by recsel's Sum, which prints six of them: the same sum, and 0 where no field has the name."""
    r = tests.random
    with tempfile.TemporaryDirectory() as folder:
        path = os.path.join(folder, 'file.rec')
        for _ in range(count):
            text = b'%rec: S\n\n' + b'\n'.join(b''.join(b'%s: %s%d%s\n' % (r.choice([b'A', b'B']), r.choice([b'', b'-']), r.randint(0, 99), r.choice([b'', b'.%d' % r.randint(0, 9), b'.%02d' % r.randint(0, 99)])) for _ in range(r.randint(1, 3))) for _ in range(r.randint(1, 9)))
            with open(path, 'wb') as f:
                f.write(text)
            for name in (b'A', b'B', b'C'):
                number, _, millionths, _ = library.total(text, len(text), b'S', name)
                shown = subprocess.run(['recsel', '-t', 'S', '-p', 'Sum(%s)' % name.decode(), path], capture_output=True, check=True).stdout.decode()
                if number != 0 or shown != 'Sum_%s: %g\n' % (name.decode(), millionths / 1000000):
                    sys.exit('recsel adds up %r to %r, library %r' % (text, shown, millionths))
    return 3 * count


def blocks(text):
    """What recsel prints, as blocks of pieces."""
    out = [[]]
    for p in recfile.read_pieces(text):
        if p.kind == ' ':
            out.append([])
        else:
            out[-1].append(p)
    return [b for b in out if b]


def main():
    seed = int(sys.argv[1]) if len(sys.argv) > 1 else 1
    rounds = int(sys.argv[2]) if len(sys.argv) > 2 else 1000
    library = Library(load())
    tests = Tests(library, seed)
    tests.limits()
    tests.chosen()
    tests.limit_crowds()
    tests.runs()
    tests.full_lists()
    tests.full_drafts()
    tests.full_totals()
    tests.full_finds()
    tests.builds(rounds)
    tests.numberings(2 * rounds)
    tests.drafts(2 * rounds)
    tests.totals(rounds)
    tests.finds(rounds)
    for _ in range(rounds):
        tests.file(tests.samples.file())
        tests.file(tests.damaged(tests.samples.file()))
        tests.file(tests.passing())
        tests.file(tests.crowds.file())
        tests.file(tests.damaged(tests.crowds.file()), rounds=1)
        tests.file(tests.samples.arranged(tests.random.choice([1, 2, 3, 8])))
        tests.file(tests.jointed(tests.passing()), rounds=2)
        tests.file(tests.jointed(tests.crowds.file()), rounds=1)
        tests.file(tests.samples.alike(), rounds=2)
        tests.file(tests.damaged(tests.samples.alike()), rounds=1)
    print('%d answers compared with tests/model/recfile.py, seed %d: all the same' % (tests.done, seed))
    print('by number: ' + ' '.join('%d:%d' % x for x in sorted(tests.numbers.items())))
    if shutil.which('recsel'):
        print('%d sets read alike by GNU recutils' % readings(library, tests, max(20, rounds // 10)))
        print('%d sums alike by GNU recutils' % sums(library, tests, max(20, rounds // 10)))


main()
