#!/usr/bin/env python3
"""The definitions of crates/format against the implementation in recfile.py, on random files, lists of edits, runs of requests and directories of sets.

Usage: tests/model/definitions.py [SEED [COUNT]]       (from the repository's root; needs rt)

It states what recfile.py answers as equations about the definitions, which the checker must prove by computing both sides: the verdict of COUNT files and of those about the ends of int, about sizes, about singular names and about %auto lists; the numbers,
lengths and buffer of COUNT / 2 lists of edits, runs of requests among them; what COUNT / 2 runs of requests answer; the directory of COUNT / 2 files, filled and after an edit that is given it; and
COUNT / 4 lists of edits, some of them given the directory and some of them runs of requests, and COUNT / 4 lists of inserts that omit names of %auto lists, run on the buffer and on the plain file.
The equations go into a copy of the crate in a temporary folder.
"""
import collections
import os
import shutil
import subprocess
import sys
import tempfile

import edits
import frames
import recfile
import samples

HEAD = '''-- What the independent implementation answers, of random files, lists of edits, runs of requests and directories of sets.
use Prim.Native.Nat.{ℕ}
use mathlib.Core.Path.{◌≡◌, refl}
use mathlib.Core.Bool.{Bool, true, false, ◌&&◌}
use mathlib.Core.List.{List, [], ◌∷◌, ◌++◌}
use lib.Dec.{eqb}
use lib.ListN.{length, replicate}
use Rattle.format.specs.Bytes.{Bytes, text, same}
use Rattle.format.specs.Pieces.{pieces, read_of, bytes_of}
use Rattle.format.specs.Sets.{sets_of}
use Rattle.format.specs.Written.{written}
use Rattle.format.specs.Numbering.{decimal, completed}
use Rattle.format.specs.Questions.{file_of, verdict_in, verdict}
use Rattle.format.specs.Requests.{tagged, request_of, requests_in}
use Rattle.format.specs.Plain.{plain_of, length_of, apply, completed_by, step}
use Rattle.format.specs.Calls.{Answer, number_in, value_or, edit_answer}
use Rattle.format.specs.Directory.{directory_of, Listed, fill_answer, listed_step, listed_answer, Kept, kept_answer, count_at_answer}
use Rattle.format.specs.Runs.{Single, singly, Call, singles, run, Ran, plain_run, PlainRan, entries_after, Told, Numbered, run_answer}
use Rattle.format.specs.declared.Entry.{Entry}

abbrev judged : Bytes → ℕ → Bool
judged s k = eqb (verdict s (length s)) k

abbrev numbers : List Told → List ℕ
numbers [] = []
numbers (t ∷ ts) = t.number ∷ t.length ∷ numbers ts

abbrev edited : Bytes → ℕ → List Call → List ℕ → Bytes → Bool
edited file spare calls told buffer =
    let r : Ran = run calls (file ++ replicate spare 170) (length file) in
    same (numbers r.told) told && same r.buffer buffer

abbrev one : Bytes → Call
one q = Call.one (Single.edit q)

abbrev listed : ℕ → Bytes → Call
listed n q = Call.one (Single.listed n q)

abbrev entry : ℕ → ℕ → ℕ → Entry
entry place count end = record { place = place; count = count; end = end }

abbrev holds : List Entry → List Entry → Bool
holds [] [] = true
holds [] (y ∷ ys) = false
holds (x ∷ xs) [] = false
holds (x ∷ xs) (y ∷ ys) = eqb x.place y.place && (eqb x.count y.count && (eqb x.end y.end && holds xs ys))

abbrev answers : Answer → ℕ → ℕ → ℕ → Bool
answers a other number value = eqb (number_in a) number && eqb (value_or other a) value

abbrev sends : Bytes → ℕ → Bytes → List ℕ → ℕ → ℕ → Bytes → List ℕ → Bool
sends buffer used sent old number value after new =
    let a : Numbered = run_answer buffer used sent old in
    answers a.result used number value && (same a.out after && same a.answers new)

abbrev lists : Bytes → ℕ → List Entry → ℕ → ℕ → List Entry → Bool
lists buffer used old number value new =
    let a : Listed = fill_answer buffer used old in
    answers a.result 0 number value && holds a.entries new

abbrev keeps : Bytes → ℕ → Bytes → List Entry → ℕ → ℕ → Bytes → List Entry → Bool
keeps buffer used request old number value after new =
    let a : Kept = kept_answer buffer used request old in
    answers a.result used number value && (same a.out after && holds a.entries new)

abbrev counts : List Entry → ℕ → ℕ → ℕ → Bool
counts entries i number value = answers (count_at_answer entries i) 0 number value

abbrev runs : Bytes → ℕ → List Call → List ℕ → Bytes → List Entry → List Entry → Bool
runs file spare calls told buffer old new =
    let start : Bytes = file ++ replicate spare 170 in
    let p : PlainRan = plain_run (length start) (singles calls) (plain_of (read_of file)) (length file) in
    edited file spare calls told buffer && (same (numbers p.told) told && holds (entries_after (singles calls) start (length file) old) new)

'''
UNFOLDING = 'unfolding bytes_of pieces read_of sets_of written decimal completed file_of verdict_in verdict tagged request_of plain_of length_of apply completed_by step edit_answer singly run requests_in run_answer ' \
    'directory_of fill_answer listed_step listed_answer kept_answer count_at_answer plain_run entries_after\n'


def literal(data):
    named = {34: '\\"', 92: '\\\\', 10: '\\n', 9: '\\t'}
    return '(text "%s")' % ''.join(named.get(c) or (chr(c) if 32 <= c < 127 else '\\u{%x}' % c) for c in data)


def listed(items):
    return '(%s)' % ' ∷ '.join(list(items) + ['[]'])


def entries(items):
    return listed('entry %d %d %d' % e for e in items)


def equation(name, term):
    return '%s : %s ≡ true\n%s%s = refl\n\n' % (name, term, UNFOLDING, name)


class Equations:
    """The text of the equations, and how often each number is the answer."""

    def __init__(self, seed):
        self.samples, self.text = samples.Samples(seed), HEAD
        self.random = self.samples.random
        self.verdicts, self.edits, self.sent, self.filled, self.kept, self.numbered = (collections.Counter() for _ in range(6))

    def files(self, count):
        """Equations of the verdict of files; those that pass."""
        passing, files = [], 0
        while files < count:
            data = self.samples.file()
            number = recfile.check(data, len(data))
            if number == 0 and len(data) > 30:
                passing.append(data)
            if self.verdicts[number] < max(4, count // 8):
                self.verdicts[number] += 1
                files += 1
                self.text += equation('file-%d' % files, 'judged %s %d' % (literal(data), number))
        return passing

    def chosen(self, name, files):
        """Equations of the verdict of those of some files that are short; how many."""
        short = [data for data in map(frames.whole, files) if len(data) < 200]
        for k, data in enumerate(short):
            self.text += equation('%s-%d' % (name, k), 'judged %s %d' % (literal(data), recfile.check(data, len(data))))
        return len(short)

    def run(self, sets):
        """A run of requests, now and then one that is refused, and the length of its list of answers."""
        r = self.random
        requests = [r.choice([b'', self.samples.request(sets), self.samples.request(sets)]) for _ in range(r.choice([0, 1, 2, 3, 4]))]
        sent, turn = edits.run(*requests), r.random()
        if turn < .1:
            sent += bytes([r.choice([0, 1, 65])])
        elif turn < .2:
            sent = sent[:-1]
        return sent, max(0, len(requests) + r.choice([-1, 0, 0, 0, 1, 3]))

    def call(self, buffer, used, sets, told):
        """A single edit or a run, as a call of the definitions, and the buffer and length after it; each request's number and length is told."""
        requests = [self.samples.request(sets)]
        call = 'one ' + literal(requests[0])
        if self.random.random() < .3:
            sent, room = self.run(sets)
            call = 'Call.many %d %s' % (room, literal(sent))
            number, _, _, _ = recfile.edit_run(buffer, used, sent, [0] * room)
            self.sent[number] += 1
            requests = [] if number else recfile.requests_in(sent)
        for request in requests:
            number, used, buffer = recfile.edit(buffer, used, request)
            told += [number, used]
            self.edits[number] += 1
        return call, buffer, used

    def sendings(self, passing, count):
        """What a run answers, of files that pass and that do not, and of a length that is beyond the buffer."""
        r = self.random
        for k in range(count):
            data = r.choice([r.choice(passing), r.choice(passing), self.samples.file()])
            buffer = data + bytes([170]) * r.choice([0, 20, 200])
            used = len(data) if r.random() < .9 else len(buffer) + 1
            sent, room = self.run(self.names(data)[0])
            old = [r.choice([0, 7, 300]) for _ in range(room)]
            number, value, after, new = recfile.edit_run(buffer, used, sent, old)
            self.sent[number] += 1
            self.text += equation('sent-%d' % k, 'sends %s %d %s %s %d %d %s %s' % (
                literal(buffer), used, literal(sent), listed(map(str, old)), number, value, literal(after), listed(map(str, new))))

    def edit_lists(self, passing, count):
        r = self.random
        for k in range(count):
            data = r.choice(passing)
            sets = [s.name for s in recfile.read_sets(recfile.read_pieces(data))]
            spare = r.choice([0, 5, 20, 200, 200])
            buffer, used, told, calls = data + bytes([170]) * spare, len(data), [], []
            for _ in range(r.randint(2, 9)):
                call, buffer, used = self.call(buffer, used, sets, told)
                calls.append(call)
            self.text += equation('run-%d' % k, 'edited %s %d %s %s %s' % (literal(data), spare, listed(calls), listed(str(n) for n in told), literal(buffer)))

    def numberings(self, count):
        """Lists of inserts that omit names of %auto lists, some of them in runs, on the buffer and on the plain file."""
        r = self.random
        for k in range(count):
            data = b'A'
            while recfile.check(data, len(data)) != 0 or b'%auto' not in data or len(data) > 400:
                data, requests = self.samples.numbering(r.randint(1, 4))
            spare = r.choice([0, 20, 200, 200])
            buffer, used, told, calls = data + bytes([170]) * spare, len(data), [], []
            single = r.randint(0, len(requests))
            calls = ['one ' + literal(q) for q in requests[:single]] + ['Call.many 4 ' + literal(edits.run(*requests[single:]))]
            for request in requests:
                number, used, buffer = recfile.edit(buffer, used, request)
                told += [number, used]
                self.numbered[number] += 1
            self.text += equation('numbered-%d' % k, 'runs %s %d %s %s %s [] []' % (literal(data), spare, listed(calls), listed(str(n) for n in told), literal(buffer)))

    def names(self, data):
        """The names of a file's sets, those with records several times."""
        sets = recfile.read_sets(recfile.read_pieces(data)) if recfile.check(data, len(data)) == 0 else [recfile.Set(b'', None)]
        return [s.name for s in sets] + 3 * [s.name for s in sets if s.records], len(sets)

    def room(self, sets):
        """The length of a list for so many sets, now and then too short."""
        return max(0, sets + self.random.choice([-2, -1, 0, 0, 0, 0, 1, 3]))

    def directories(self, passing, count):
        """Each file's directory, filled and then kept by an edit of a list that holds anything; a count at a position."""
        r = self.random
        for k in range(count):
            data = self.samples.arranged(r.randint(1, 6)) if r.random() < .8 else r.choice([r.choice(passing), self.samples.file()])
            names, sets = self.names(data)
            buffer = data + bytes([170]) * r.choice([0, 1, 30, 60])
            used = max(0, len(data) + r.choice([0] * 20 + [-1, 1, 100]))
            old = self.samples.entries(self.room(sets))
            number, value, new = recfile.fill(buffer, used, old)
            self.filled[number] += 1
            self.text += equation('fill-%d' % k, 'lists %s %d %s %d %d %s' % (literal(buffer), used, entries(old), number, value, entries(new)))
            request = self.samples.request(names)
            number, value, after, new = recfile.edit_listed(buffer, used, request, old)
            self.kept[number] += 1
            self.text += equation('kept-%d' % k, 'keeps %s %d %s %s %d %d %s %s' % (literal(buffer), used, literal(request), entries(old), number, value, literal(after), entries(new)))
            position = r.randint(0, len(new) + 1)
            self.text += equation('count-%d' % k, 'counts %s %d %d %d' % (entries(new), position, *recfile.count_at(new, position)))

    def listed_runs(self, count):
        """Lists of edits, most of them given the directory, from one that is freshly filled or holds anything."""
        r = self.random
        for k in range(count):
            data = b'A'
            while recfile.check(data, len(data)) != 0:
                data = self.samples.arranged(r.randint(1, 4))
            names, sets = self.names(data)
            spare = r.choice([0, 5, 20, 200, 200])
            buffer, used, told, calls = data + bytes([170]) * spare, len(data), [], []
            old = self.samples.entries(self.room(sets))
            if r.random() < .5:
                old = recfile.fill(buffer, used, old)[2]
            new = old
            for _ in range(r.randint(1, 5)):
                if r.random() < .6:
                    request = self.samples.request(names)
                    calls.append('listed %d %s' % (len(old), literal(request)))
                    number, used, buffer, new = recfile.edit_listed(buffer, used, request, new)
                    self.kept[number] += 1
                    told += [number, used]
                else:
                    call, buffer, used = self.call(buffer, used, names, told)
                    calls.append(call)
            self.text += equation('listed-%d' % k, 'runs %s %d %s %s %s %s %s' % (
                literal(data), spare, listed(calls), listed(str(n) for n in told), literal(buffer), entries(old), entries(new)))


def main(seed=1, count=300):
    e = Equations(seed)
    passing = e.files(count)
    chosen = e.chosen('end', samples.int_ends()) + e.chosen('accent', samples.accents()) + e.chosen('singular', samples.singulars()) + e.chosen('auto', samples.autos())
    e.edit_lists(passing, count // 2)
    e.sendings(passing, count // 2)
    e.directories(passing, count // 2)
    e.listed_runs(count // 4)
    e.numberings(count // 4)
    with tempfile.TemporaryDirectory() as folder:
        shutil.copytree('crates/format', folder + '/crates/format', ignore=shutil.ignore_patterns('must-fail', 'out'))
        with open(folder + '/crates.txt', 'w') as f:
            f.write('format:\n')
        with open(folder + '/crates/format/proofs/Lib.antt', 'a') as f:
            f.write('pub mod Random\n')
        with open(folder + '/crates/format/proofs/Random.antt', 'w') as f:
            f.write(e.text)
        said = subprocess.run(['rt', 'check'], cwd=folder + '/crates/format', capture_output=True, text=True)
    errors = [line for line in (said.stdout + said.stderr).splitlines() if ': error' in line]
    for what, numbers in (('files by verdict', e.verdicts), ('edits by number', e.edits), ('runs of requests, by number', e.sent), ('directories filled, by number', e.filled), ('edits with a directory, by number', e.kept), ('inserts that omit names, by number', e.numbered)):
        print('%s: %s' % (what, dict(sorted(numbers.items()))))
    for line in errors[:10]:
        print(line[:300])
    agreed = said.returncode == 0 and not errors
    print('%d files, %d lists of edits, %d runs of requests, %d directories, %d lists of edits with one, %d lists of inserts that omit names: %s' % (
        count + chosen, count // 2, count // 2, count // 2, count // 4, count // 4, 'agreed' if agreed else 'NOT agreed'))
    sys.exit(0 if agreed else 1)


if __name__ == '__main__':
    sys.path.insert(0, os.path.dirname(os.path.abspath(__file__)))
    main(*map(int, sys.argv[1:]))
