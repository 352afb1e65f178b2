#!/usr/bin/env python3
"""Merging a file into another (document 02, order 12), and pairs of files for it.

Usage: python3 tests/model/merging.py [SEED [ROUNDS]]

Pairs written by hand have the answers that stand beside them. After random merges the sets are read anew and compared with plain lists of records.
"""
import collections
import sys

import edits
import recfile
import samples
from same import same


def pairs_of(pieces, record):
    return [(pieces[i].name, pieces[i].value) for i in record.fields]


def is_there(buf, used, name, pairs):
    """Has the set of that name a key, and a record of just these names and values in this order?"""
    pieces, sets = recfile.passed(buf, used)
    s = recfile.find_set(sets, name)
    return recfile.values(pieces, s.descriptor, b'%key') != [] and pairs in [pairs_of(pieces, r) for r in s.records]


def merge(buf, used, spare, spare_used):
    """(number, length, buffer after it)"""
    try:
        _, sets = recfile.passed(buf, used)
        if recfile.check(spare, spare_used) != 0:
            raise recfile.No(35)
        pieces, spare_sets = recfile.passed(spare, spare_used)
        if not {s.name for s in spare_sets} <= {s.name for s in sets}:
            raise recfile.No(36)
        after, length = buf, used
        for s in spare_sets:
            for r in s.records:
                pairs = pairs_of(pieces, r)
                if not is_there(after, length, s.name, pairs):
                    number, length, after = recfile.edit(after, length, edits.insert(s.name, *pairs))
                    if number != 0:
                        raise recfile.No(number)
        return 0, length, after
    except recfile.No as no:
        return no.number, used, buf


# Written by hand: the main file, how many bytes its buffer has behind it, the spare file, the number, and the main file after it where it is another.

S, T = b'%rec: S\n', b'%rec: T\n'
KEYED = b'%rec: S\n%key: Id\n'
NUMBERED = b'%rec: S\n%key: Id\n%auto: Id\n%type: Id int\n'

CASES = [
    # 12.1: the main file's numbers, then 35, then 36
    (b'A\n', 99, b'A\n', 3, None), (b'A', 99, T, 2, None), (b'%rec: S\n%size: 1\n', 99, b'%rec: S\n\nA: 1\n', 14, None), (S, 99, b'A\n', 35, None),
    (S, 99, b'A', 35, None), (S, 99, KEYED + b'\nA: 1\n', 35, None), (S, 99, b'%rec: S\n%size: 1\n', 35, None), (S, 99, T + b'%size: 1\n', 35, None),
    (S, 99, b'%rec: S\n%singular: A\n\nA: 1\nA: 1\n', 35, None), (S, 99, T, 36, None), (S, 99, S + b'\n' + T, 36, None), (b'', 99, S, 36, None),
    (S, 99, T + b'\nA: 1\n\n' + S + b'\nA: 1\n', 36, None), (S, 99, S + b'\nA: 1\n\n' + T, 36, None), (KEYED, 99, b'%rec: s\n', 36, None),
    (S, 0, b'', 0, None), (S, 0, S, 0, None), (S, 0, b'# A: 1\n\n', 0, None), (S, 0, b'\n%rec:   S\n+\n%key: B\n%doc: d\n%mandatory: C\n', 0, None),
    (b'', 0, b'', 0, None),
    # 12.2: records in file order, each into the set of its name
    (b'', 99, b'A: 1\n\nB: 2\n', 0, b'A: 1\n\nB: 2\n'), (S, 99, b'A: 1\n\nB: 2\n', 0, b'A: 1\n\nB: 2\n\n%rec: S\n'),
    (b'C: 3\n\n' + S, 99, b'A: 1\n', 0, b'C: 3\n\nA: 1\n\n%rec: S\n'),
    (S + b'\n' + T, 99, T + b'\nA: 1\n\n' + S + b'\nB: 2\n\nC: 3\n', 0, b'%rec: S\n\nB: 2\n\nC: 3\n\n%rec: T\n\nA: 1\n'),
    (S, 99, S + b'\nA:\t1\\\n2\n# c\nA: \n+x\n', 0, b'%rec: S\n\nA: 12\nA: \n+ x\n'),
    (S, 99, S + b'\nA: 1\n# c\n\n# d\n\nA: 1\n', 0, b'%rec: S\n\nA: 1\n\nA: 1\n'),
    (S, 99, S + b'%type: A int\n%key: A\n\nA: 1\n', 0, b'%rec: S\n\nA: 1\n'),
    # 12.3: what is there already, in a set with a key
    (KEYED + b'\nId: 1\n', 0, S + b'\nId: 1\n', 0, None), (KEYED + b'\nId: 1\n', 99, S + b'\nId: 1 \n', 0, KEYED + b'\nId: 1\n\nId: 1 \n'),
    (KEYED + b'\nId: 1\nA: x\n', 99, S + b'\nId: 1\n', 113, None), (KEYED + b'\nId: 1\nA: x\n', 99, S + b'\nA: x\nId: 1\n', 113, None),
    (KEYED + b'\nId: 1\nA: x\n', 99, S + b'\nId: 1\nA: y\n', 113, None), (KEYED + b'\nId: 1\nA: x\n', 0, S + b'\nId:\t\\\n1\n#\nA: x\\\n\n', 0, None),
    (KEYED, 99, S + b'\nId: 1\n\nId: 1\n\nId: 2\n\nId: 1\n', 0, KEYED + b'\nId: 1\n\nId: 2\n'),
    (KEYED, 99, S + b'\nId: 1\n\nId: 1\nA: x\n', 113, None), (S + b'\nId: 1\n', 99, S + b'\nId: 1\n', 0, S + b'\nId: 1\n\nId: 1\n'),
    (b'A: 1\n', 99, b'A: 1\n', 0, b'A: 1\n\nA: 1\n'), (S + b'\nId: 1\n', 99, KEYED + b'\nId: 1\n', 0, S + b'\nId: 1\n\nId: 1\n'),
    (KEYED + b'\nId: 1\n\n' + T, 99, T + b'\nId: 1\n', 0, KEYED + b'\nId: 1\n\n%rec: T\n\nId: 1\n'),
    (KEYED + b'%size: 1\n\nId: 1\n', 0, S + b'\nId: 1\n', 0, None), (KEYED + b'\nId: a\\\\\n\n', 0, S + b'\nId: a\\\\\n\n', 0, None),
    (NUMBERED + b'\nId: 0\nA: x\n', 99, S + b'\nA: x\n', 0, NUMBERED + b'\nId: 0\nA: x\n\nId: 1\nA: x\n'),
    (NUMBERED, 99, S + b'\nA: x\n\nA: x\n', 0, NUMBERED + b'\nId: 0\nA: x\n\nId: 1\nA: x\n'),
    (NUMBERED, 99, S + b'\nA: x\n\nId: 0\nA: x\n', 0, NUMBERED + b'\nId: 0\nA: x\n'),
    (NUMBERED + b'\nId: 7\n', 99, S + b'\nA: x\n\nId: 8\nA: y\n', 113, None),
    # 12.4: the first insert that is refused
    (S + b'%size: <= 2\n\nA: 1\n', 99, S + b'\nA: 2\n', 0, S + b'%size: <= 2\n\nA: 1\n\nA: 2\n'),
    (S + b'%size: <= 2\n\nA: 1\n', 99, S + b'\nA: 2\n\nA: 3\n', 114, None), (S + b'%size: 0\n', 99, S + b'\nA: 1\n', 114, None),
    (S + b'%type: A int\n', 99, S + b'\nA: 1\n\nA: x\n', 112, None), (S + b'%singular: A\n\nA: 1\n', 99, S + b'\nA: 2\n\nA: 1\n', 130, None),
    (S + b'%prohibit: A\n', 99, S + b'\nA: 1\n', 108, None), (S + b'%allowed: B\n', 99, S + b'\nA: 1\n', 109, None),
    (S + b'%mandatory: B\n', 99, S + b'\nA: 1\n', 110, None), (S + b'%unique: A\n', 99, S + b'\nA: 1\nA: 2\n', 111, None),
    (S, 7, S + b'\nA: 1\n', 0, S + b'\nA: 1\n'), (S, 5, S + b'\nA: 1\n', 26, None), (S, 11, S + b'\nA: 1\n\nA: 2\n', 26, None),
    (S, 12, S + b'\nA: 1\n\nA: 2\n', 0, S + b'\nA: 1\n\nA: 2\n'), (S, 6, S + b'\nA: 1\n\nA: a\\\\\n\n', 25, None),
    (S, 5, S + b'\nA: 1\n\nA: a\\\\\n\n', 26, None), (KEYED, 9, S + b'\nA: 1\n\nA: 2\n', 110, None),
    (NUMBERED + b'\nId: 9223372036854775807\n', 99, S + b'\nA: x\n', 31, None),
    (NUMBERED, 99, S + b'\nId: 9223372036854775806\n\nA: x\n\nA: x\n', 31, None), (NUMBERED, 18, S + b'\nA: x\n\nA: y\n', 26, None),
    (NUMBERED, 24, S + b'\nA: x\n\nA: y\n', 0, NUMBERED + b'\nId: 0\nA: x\n\nId: 1\nA: y\n'),
    # 12.5: values that no insert takes
    (b'', 99, b'A: a\\\\\n\n', 25, None), (b'', 99, b'A: a\\\\\n\\\n\n', 25, None), (b'', 99, b'A: a\\\\\n\n+ b\n', 25, None),
    (b'', 99, b'A: a\\\\\nb\n', 0, b'A: a\\b\n'), (S, 99, b'A: x\n\n' + S + b'\nA: 1\n\nA: \\\\\n\n', 25, None),
]


def at_limits():
    """Arguments of merge about the size of a request, of a record and of a file."""
    def fields(count, total):
        """So many fields whose names and values have so many bytes in all."""
        sizes = [(total + k) // count - 1 for k in range(count)]
        return b''.join(b'A: ' + b'x' * n + b'\n' for n in sizes)

    def pair(main, room, spare):
        return main + b'\xee' * (room - len(main)), len(main), spare, len(spare)

    # requests of one byte less than the most, of the most and of one byte more: in a set without a name, in one with, in one whose name is long
    for head in (b'', S, b'%rec: ' + b'S' * 700 + b'\n'):
        name = len(head.strip()[6:])
        for count in (255, 256):
            for request in (65535, 65536, 65537):
                record = (b'\n' if head else b'') + fields(count, request - 7 - name - 6 * count)
                if len(head + record) <= recfile.FILE:
                    yield pair(head, recfile.FILE, head + record)
                    yield pair(head, len(head) + 300, head + record)
                    yield pair(head, 70000, head + b'\nA: 1\n' * (head != b'') + record)
    # such a record that is there already, in a set with a key and in one without
    record = b'\nId: 1\n' + fields(255, 63990)
    for head in (KEYED, S):
        yield pair(head + record, 70000, S + record)
        yield pair(head + record, 70000, S + record + b'\nId: 2\n')
    # 256 fields and one more, with a name of an %auto list
    for head in (S, S + b'%auto: Id\n', S + b'%auto: ' + b'N' * 64 + b'\n', S + b'%auto: ' + b'N' * 65 + b'\n', S + b'%auto: Id No\n'):
        for count in (1, 254, 255, 256):
            yield pair(head, 9000, S + b'\n' + b'A: 1\n' * count)
    # as long as a file may be, and longer
    for room in (65536, 65537, 70000):
        for length in (65535, 65536, 65537):
            main = S + b'\n' + b'A: 1\n\n' * 3
            main += b'#' * (length - len(main) - 7) + b'\n'
            yield pair(main, room, S + b'\nA: 2\n')
    # many records, many of them alike, in many sets
    numbers = [k * k % 61 for k in range(90)]
    yield pair(KEYED, 5000, S + b''.join(b'\nId: %d\n' % k for k in numbers))
    yield pair(KEYED + b''.join(b'\nId: %d\n' % k for k in set(numbers)), 700, S + b''.join(b'\nId: %d\n' % k for k in numbers))
    heads = [b'%%rec: S%d\n%%key: Id\n' % k for k in range(64)]
    yield pair(b'\n'.join(heads), 5000, b'\n'.join(head + b'\nId: 1\n' for head in reversed(heads)))
    yield pair(b'\n'.join(heads[:-1]), 5000, b'\n'.join(heads))


class Merges:
    """Random pairs of files, given random samples."""

    KEYS = [b'%key: Id', b'%key: Id', b'%key: Id\n%auto: Id', b'%key: Id\n%auto: Id No\n%type: Id,No int',
            b'%auto: Id\n%type: Id range 3 45', b'%auto: No']
    RULES = [b'%singular: A', b'%singular: Tax No', b'%mandatory: A', b'%unique: A', b'%prohibit: C', b'%allowed: Id A B No Tax', b'%type: A int',
             b'%type: A size 3', b'%type: Id int', b'%doc: any \\\nthing', b'Foo: x']
    VALUES = [b'1', b'2', b'x', b'', b' ', b'a b', b'x\ny', b'\n', b'1 ', b'01', b'a\\b', b'\xc3\xa9', b'7']

    def __init__(self, samples):
        self.samples, self.random = samples, samples.random

    def rules(self):
        r = self.random
        chosen = r.sample(self.KEYS, r.choice([0, 1, 1, 1])) + r.sample(self.RULES, r.choice([0, 1, 2, 3]))
        if r.random() < .2:
            chosen.append(b'%size: ' + r.choice([b'', b'<= ', b'<= ', b'< ', b'>= ', b'> ']) + b'%d' % r.randint(0, 5))
        return chosen

    def record(self, number, often=.8):
        """The names and values of a record; so often it has an Id, which is mostly this number."""
        r = self.random
        number = number if r.random() < .97 else recfile.INT_MAX - r.randint(0, 1)
        numbers = [(b'Id', number, often), (b'No', r.randint(0, 30), .3), (b'Tax', r.randint(0, 20), .3)]
        pairs = [(name, b'%d' % n) for name, n, likely in numbers if r.random() < likely]
        for _ in range(r.choice([0, 1, 1, 2])):
            pairs.append((r.choice([b'A', b'A', b'A', b'B', b'B', b'C']), r.choice(self.VALUES if r.random() < .5 else self.VALUES[:2])))
        if r.random() < .2:
            r.shuffle(pairs)
        return pairs or [(b'Id', b'%d' % number)]

    def changed(self, pairs):
        """The record with one thing changed: a value, the order, a field more or less, a value that no insert takes."""
        r, pairs = self.random, list(pairs)
        at = r.randrange(len(pairs))
        name, value = pairs[at]
        turn = r.randrange(6)
        if turn == 0:
            pairs[at] = name, r.choice(self.VALUES)
        elif turn == 1:
            pairs[at] = name, r.choice([value + b' ', b' ' + value, value + b'\n', value + b'x'])
        elif turn == 2:
            pairs.insert(r.randrange(len(pairs) + 1), r.choice(pairs + [(b'A', b'1'), (b'C', b'')]))
        elif turn == 3 and len(pairs) > 1:
            del pairs[at]
        elif turn == 4:
            r.shuffle(pairs)
        else:
            pairs[at] = name, r.choice([value + b'\\', b'\\\n' + value, b'x\\'])
        return pairs

    def brought(self, rules, there, number, harmed):
        """The records of a spare set: of those that are there, of its own, and new ones; and some of them changed."""
        r, out, often = self.random, [], .5 if any(b'%auto' in rule for rule in rules) else .97
        for _ in range(r.choice([0, 1, 1, 2, 4, 7])):
            turn = r.random()
            record = r.choice(there) if there and turn < .4 else r.choice(out) if out and turn < .6 else self.record(number, often)
            number += 1
            out.append(self.changed(record) if r.random() < harmed else record)
        return out

    def block(self, lines):
        """A block of these lines, with comments among them."""
        r, out = self.random, b''
        for line in lines + [b'']:
            out += r.choice([b'# c\n', b'#\n', b'# A: 1\\\n']) if r.random() < .06 else b''
            out += line + b'\n' if line else b''
        return out

    def text(self, sets):
        """A file of these sets, each a name, its rules and its records; the default set is the first."""
        r, blocks = self.random, []
        for name, rules, records in sets:
            blocks += [self.block([b'%rec: ' + name] + rules)] if name else []
            for pairs in records:
                blocks.append(self.block([n + b':' + r.choice([b' ', b' ', b' ', b'\t']) + self.samples.laid(v) for n, v in pairs]))
            blocks += [self.block([b'# lone'])] if r.random() < .1 else []
        text = r.choice([b'', b'', b'\n', b' \n']) + b''.join(b + r.choice([b'\n', b'\n', b'\n', b' \n\n', b'\t\n']) for b in blocks)
        return text[:-1] if text.endswith(b'\n\n') and not text.endswith(b'\\\n\n') and r.random() < .5 else text

    def set(self, name, count, number):
        """The name, rules and records of a set of so many records, which mostly passes."""
        r = self.random
        while True:
            rules = self.rules() if name else []
            often = 1 if any(b'%key' in rule for rule in rules) else .6
            records = [self.record(number + k * r.choice([1, 1, 5]), often) for k in range(count)]
            text = self.text([(name, rules, records)])
            if recfile.check(text, len(text)) == 0 or r.random() < .01:
                return name, rules, records

    def main(self):
        """The sets of a main file."""
        r = self.random
        names = r.sample([b'S', b'T', b'U'], r.choice([0, 1, 1, 1, 2, 2, 3]))
        return [self.set(b'', r.choice([0, 0, 1, 2]), 0)] + [self.set(name, r.choice([0, 1, 2, 3, 5]), 10 * k) for k, name in enumerate(names)]

    def spare(self, sets):
        """A file of these sets or some of them, in any order and mostly without rules, now and then with another set or a damage."""
        r, out = self.random, []
        number, harmed = 40, r.choice([0, 0, 0, .1, .4])
        for name, rules, there in sets[:1] + r.sample(sets[1:], r.choice([len(sets) - 1, len(sets) - 1, r.randint(0, len(sets) - 1)])):
            brought = self.brought(rules, there, number, harmed) if name or r.random() < .4 else []
            number += len(brought)
            out.append((name, r.choice([[], [], [], rules, r.sample(rules, len(rules) // 2)]), brought))
        if r.random() < .05:
            other = r.choice([b'V', b's', b'SS']), r.choice([[], self.rules()]), r.choice([[], self.brought([], [], 1, 0)])
            out.insert(r.randint(1, len(out)), other)
        text = self.text(out)
        at = r.randrange(len(text) + 1)
        return text if r.random() < .97 else text[:at] + r.choice([b'\1', b'x', b'%', b':', b'\\\n']) + text[at:]

    def arguments(self):
        """What merge is given: a main file in a buffer that is mostly long enough, and a spare file."""
        r = self.random
        sets = self.main()
        main, spare = self.text(sets), self.spare(sets)
        number, length, _ = merge(main + bytes(4000), len(main), spare, len(spare))
        needed = length - len(main) if number == 0 else r.randint(40, 400)
        room = r.choice([4000, 4000, needed, needed, needed + 1, max(0, needed - 1), r.randint(0, needed)])
        used, spare_used = len(main) + (r.random() < .01), max(0, len(spare) + r.choice([0] * 60 + [1, -1]))
        return main + r.randbytes(room), used, spare + r.randbytes(r.choice([0, 0, 5])), spare_used


def lists(buf, used):
    """For each set of a file the words of its %key, those of its %auto lists, and its records as lists of names and values."""
    pieces, sets = recfile.passed(buf, used)
    words = [[recfile.listed(pieces, s.descriptor, name) for name in (b'%key', b'%auto')] for s in sets]
    return {s.name: (*listed, [pairs_of(pieces, r) for r in s.records]) for s, listed in zip(sets, words)}


def follow(buf, used, spare, spare_used, answer):
    """What merge answered is right by plain lists of records."""
    number, length, after = answer
    if number != 0:
        same((used, buf), (length, after), number)
        return
    there, result, brought, requests = lists(buf, used), lists(after, length), lists(spare, spare_used), []
    for name in brought:
        key, auto, now = there[name]
        for pairs in brought[name][2]:
            if not key or pairs not in now:
                # the next record in the result: the names that it lacked, then itself
                omitted = list(dict.fromkeys(n for n in auto if n not in dict(pairs)))
                whole = result[name][2][len(now)]
                same((omitted, pairs), ([n for n, _ in whole[:len(omitted)]], whole[len(omitted):]), name)
                now.append(whole)
                requests.append(edits.insert(name, *pairs))
    same(there, result)
    same((True, buf[length:]), (used <= length, after[length:]))
    # as the same inserts in a run; and once more, which brings nothing where all sets have keys and no numbers are added
    if len(requests) <= recfile.RUN and all(len(q) < 65536 for q in requests):
        same((0, length, after, [0] * len(requests)), recfile.edit_run(buf, used, edits.run(*requests), [9] * len(requests)))
    if all(there[name][0] and not there[name][1] for name in brought if brought[name][2]):
        same((0, length, after), merge(after, length, spare, spare_used))


def by_hand():
    """What is written above is so; how many of it there is."""
    for text, room, spare, number, wanted in CASES:
        buf, after = text + b'\xee' * room, text if wanted is None else wanted
        same((number, len(after), after + buf[len(after):]), merge(buf, len(text), spare, len(spare)), text, room, spare)
    return len(CASES)


def main(seed=1, rounds=1000):
    print('%d by hand: as written' % by_hand())
    numbers, merges = collections.Counter(), Merges(samples.Samples(seed))
    for arguments in (*at_limits(), *(merges.arguments() for _ in range(rounds))):
        answer = recfile.merge(*arguments)
        follow(*arguments, answer)
        numbers[answer[0], answer[1] > arguments[1]] += 1
    print('%d merges, seed %d: as plain lists have it' % (sum(numbers.values()), seed))
    print('by number: ' + ' '.join('%d%s:%d' % (number, '+' * grown, count) for (number, grown), count in sorted(numbers.items())))


if __name__ == '__main__':
    main(*map(int, sys.argv[1:]))
