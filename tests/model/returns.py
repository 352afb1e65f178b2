#!/usr/bin/env python3
"""The returns camera (document 02, order 14): scans, returns, voids and look-ups of receipts; the laws of their lists, and random actions and files.

Usage: python3 tests/model/returns.py [SEED [ROUNDS]]

Calls written by hand have the answers that stand beside them. From files that hold just the descriptor, lists of actions leave the receipts and the
sum that plain lists have. On other files what a call answers agrees with what count and fetch say before it, and the receipts after it.
"""
import collections
import sys

import edits
import recfile
import samples
from same import same

START = b'%rec: Receipt\n%key: Id\n%type: Id int\n%auto: Id\n%mandatory: Amount State\n%type: Amount real\n%type: State enum open returned void\n'
LAST, BOUND = 20, 10 ** 14


def meant(state):
    """The amounts of a state, oldest first, in millionths: none where no list of scans leaves that state."""
    amounts, total = state
    return [] if len(amounts) > LAST or any(abs(n) >= BOUND for n in amounts) or total != sum(amounts) else amounts


def scan(state, buf, used, amount):
    """(number, length, buffer after it, state after it)"""
    number = recfile.check(buf, used)
    if number == 0 and (recfile.amount(amount) is None or len(amount) > recfile.VALUE):
        number = 37
    if number == 0:
        number, length, after = recfile.edit(buf, used, edits.insert(b'Receipt', (b'Amount', amount), (b'State', b'open')))
    if number != 0:
        return number, used, buf, state
    amounts = (meant(state) + [int(recfile.amount(amount) * 1000000)])[-LAST:]
    return 0, length, after, (amounts, sum(amounts))


def receipt(buf, used, wanted):
    """(record number, Amount, State) of the receipt of an Id, or No(..)."""
    pieces, sets = recfile.passed(buf, used)
    for s in sets:
        for row, r in enumerate(s.records if s.name == b'Receipt' else []):
            ids, amounts, states = [recfile.values(pieces, r, name) for name in (b'Id', b'Amount', b'State')]
            if ids and recfile.parse_int(ids[0].strip(b' \t\n')) == wanted:
                if not amounts or not states:
                    raise recfile.No(38)
                return row, amounts[0], states[0]
    raise recfile.No(38)


def close(buf, used, wanted, state):
    """(number, length, buffer after it): the receipt of an Id gets this State."""
    try:
        row, _, now = receipt(buf, used, wanted)
        if now.strip(b' \t\n') != b'open':
            raise recfile.No(39)
    except recfile.No as no:
        return no.number, used, buf
    return recfile.edit(buf, used, edits.setting(b'Receipt', row, b'State', 0, state))


def return_(buf, used, wanted):
    """(number, length, buffer after it)"""
    return close(buf, used, wanted, b'returned')


def void(buf, used, wanted):
    """(number, length, buffer after it)"""
    return close(buf, used, wanted, b'void')


def look_up(buf, used, wanted, amount_out, state_out):
    """(number, length of Amount, length of State, amount_out after it, state_out after it)"""
    try:
        _, amount, state = receipt(buf, used, wanted)
        if len(amount) > len(amount_out) or len(state) > len(state_out):
            raise recfile.No(27)
        return 0, len(amount), len(state), amount + amount_out[len(amount):], state + state_out[len(state):]
    except recfile.No as no:
        return no.number, 0, 0, amount_out, state_out


# Written by hand.

SET = b'%rec: Receipt\n'
OPEN = b'Amount: 5\nState: open\n'

# 14.4 to 14.6: a file, an Id, what a look-up answers, and the numbers of a return and a void.
LOOKUPS = [
    (START, 0, 38, 38), (b'', 0, 38, 38), (b'Id: 0\n' + OPEN, 0, 38, 38), (b'%rec: R\n\nId: 0\n' + OPEN, 0, 38, 38), (SET + b'\n' + OPEN, 0, 38, 38),
    (START + b'\nId: 0\n' + OPEN, 0, (b'5', b'open'), 0), (START + b'\nId: 0\n' + OPEN, 1, 38, 38), (START + b'\nId: 0\n' + OPEN, -1, 38, 38),
    (START + b'\nState: open\nId: 0\nAmount: 5\n', 0, (b'5', b'open'), 0),
    (START + b'\nAmount:  5 \nState:\topen \n+\nId: \n+ 0\n', 0, (b' 5 ', b'open \n'), 0),
    (START + b'\nId: 0\nAmount: 5\nState: void\n', 0, (b'5', b'void'), 39),
    (START + b'\nId: 0\nAmount: 5\nState: returned \n', 0, (b'5', b'returned '), 39),
    # compared as ints
    (SET + b'\nId: 010\n' + OPEN, 8, (b'5', b'open'), 0), (SET + b'\nId: 010\n' + OPEN, 10, 38, 38),
    (SET + b'\nId: 0x0A\n' + OPEN, 10, (b'5', b'open'), 0), (SET + b'\nId: -0\n' + OPEN, 0, (b'5', b'open'), 0),
    (SET + b'\nId: -9223372036854775808\n' + OPEN, -2 ** 63, (b'5', b'open'), 0),
    (SET + b'\nId: 0x7fffffffffffffff\n' + OPEN, 2 ** 63 - 1, (b'5', b'open'), 0), (SET + b'\nId: 9223372036854775808\n' + OPEN, -2 ** 63, 38, 38),
    (SET + b'\nId: 08\n' + OPEN, 8, 38, 38), (SET + b'\nId: 8.0\n' + OPEN, 8, 38, 38), (SET + b'\nId: +8\n' + OPEN, 8, 38, 38),
    (SET + b'\nId:\n' + OPEN, 0, 38, 38), (SET + b'\nId: x\n' + OPEN, 0, 38, 38), (SET + b'\nid: 0\n' + OPEN, 0, 38, 38),
    # of several receipts the first, which may lack something; of each field the first
    (START + b'\nId: 8\n' + OPEN + b'\nId: 010\nAmount: 6\nState: void\n', 8, (b'5', b'open'), 0),
    (START + b'\nId: 010\nAmount: 6\nState: void\n\nId: 8\n' + OPEN, 8, (b'6', b'void'), 39),
    (SET + b'\nId: 8\nAmount: 5\n\nId: 8\n' + OPEN, 8, 38, 38), (SET + b'\nId: 8\nState: open\n\nId: 8\n' + OPEN, 8, 38, 38),
    (SET + b'\nId: 8\n\nId: 8\n' + OPEN, 8, 38, 38),
    (SET + b'\nId: 7\nId: 8\n' + OPEN + b'\nId: 8\nAmount: 6\nState: void\n', 8, (b'6', b'void'), 39),
    (SET + b'\nId: 7\nId: 8\n' + OPEN, 7, (b'5', b'open'), 0), (SET + b'\nId: x\nId: 8\n' + OPEN, 8, 38, 38),
    (SET + b'\nId: 8\nAmount: x\nAmount: 6\nState: open\nState: void\n', 8, (b'x', b'open'), 0),
    (SET + b'\nId: 8\nAmount:\nState: void\nState: open\n', 8, (b'', b'void'), 39),
    (b'Id: 8\nAmount: 1\nState: void\n\n%rec: R\n\nId: 8\nAmount: 2\nState: void\n\n' + SET + b'\nId: 8\n' + OPEN, 8, (b'5', b'open'), 0),
    # 39
    *((SET + b'\nId: 8\nAmount: 5\nState:' + state + b'\n', 8, (b'5', value), number) for state, value, number in (
        (b' open', b'open', 0), (b'  open\t', b' open\t', 0), (b'\n+ open\n+', b'\nopen\n', 0), (b' op\\\nen', b'open', 0), (b' Open', b'Open', 39),
        (b' opened', b'opened', 39), (b' op en', b'op en', 39), (b'', b'', 39), (b' open open', b'open open', 39))),
    # the edit's own numbers, and the file's before all
    (SET + b'%type: State size 4\n\nId: 8\n' + OPEN, 8, (b'5', b'open'), [112, 0]),
    (SET + b'%type: State enum open returned\n\nId: 8\n' + OPEN, 8, (b'5', b'open'), [0, 112]),
    (SET + b'%key: State\n\nId: 8\n' + OPEN + b'\nState: void\n', 8, (b'5', b'open'), [0, 113]),
    (SET + b'%singular: State\n\nId: 8\n' + OPEN + b'State: returned\n', 8, (b'5', b'open'), [130, 0]), (b'Id\n', 0, 3, 3), (START + START, 0, 5, 5),
    (START + b'\nId: 0\nAmount: x\nState: open\n', 0, 12, 12), (START + b'\nId: 0\n' + OPEN + b'\nId: 0\n' + OPEN, 0, 13, 13),
]

# 14.3: a file, an Amount, the number of a scan, and the text that it adds at the file's end.
SCANS = [
    (START, b'5', 0, b'\nId: 0\nAmount: 5\nState: open\n'), (START, b' 5\n', 0, b'\nId: 0\nAmount:  5\n+ \nState: open\n'),
    (START + b'\nId: 7\n' + OPEN, b'-1.5', 0, b'\nId: 8\nAmount: -1.5\nState: open\n'), (SET, b'5', 0, b'\nAmount: 5\nState: open\n'),
    *((START, amount, 0, b'\nId: 0\nAmount: ' + amount + b'\nState: open\n') for amount in (
        b'0', b'-0', b'00000001', b'12345678', b'12345678.123456', b'-99999999.999999', b'0.000001', b'1.50', b'5' + b' ' * 4095)),
    *((START, amount, 37, b'') for amount in (
        b'', b' ', b'x', b'123456789', b'000000001', b'1.', b'.5', b'1.1234567', b'1.0000000', b'+1', b'--1', b'- 1', b'0x5', b'1e3', b'1,5', b'1 2',
        b'1\n2', b'5\0', b'5\r', b'5\\', b'5\xff', b'5' + b' ' * 4096)),
    (b'', b'5', 21, b''), (b'', b'x', 37, b''), (b'A: 1\n', b'5', 21, b''), (b'%rec: receipt\n', b'5', 21, b''), (b'A\n', b'x', 3, b''),
    (b'A\n', b'5', 3, b''), (START + b'\nId: 0\n', b'x', 10, b''), (START + b'\nId: 9223372036854775807\n' + OPEN, b'5', 31, b''),
    (START + b'\nId: 9223372036854775807\n' + OPEN, b'x', 37, b''),
    (START + b'\nId: 9223372036854775806\n' + OPEN, b'5', 0, b'\nId: 9223372036854775807\nAmount: 5\nState: open\n'),
    (SET + b'%prohibit: Amount\n', b'5', 108, b''), (SET + b'%allowed: Amount\n', b'5', 109, b''), (SET + b'%key: Id\n', b'5', 110, b''),
    (SET + b'%type: Amount int\n', b'5.0', 112, b''), (SET + b'%key: State\n\nState: open\n', b'5', 113, b''),
    (SET + b'%size: <= 1\n\nA: 1\n', b'5', 114, b''), (SET + b'%singular: State\n\nState: open\n', b'5', 130, b''),
    (SET + b'%auto: ' + b'N' * 65 + b'\n', b'5', 104, b''), (SET + b'%auto: No Id\n', b'5', 0, b'\nNo: 0\nId: 0\nAmount: 5\nState: open\n'),
]

# 14.2: a state, and the one that an accepted scan of 7 leaves.
STATES = [
    (([], 0), ([7000000], 7000000)), (([5], 5), ([5, 7000000], 7000005)), (([1] * 19, 19), ([1] * 19 + [7000000], 7000019)),
    (([3] + [1] * 19, 22), ([1] * 19 + [7000000], 7000019)), (([0, 0], 0), ([0, 0, 7000000], 7000000)),
    (([10 ** 14 - 1] * 20, 20 * (10 ** 14 - 1)), ([10 ** 14 - 1] * 19 + [7000000], 19 * (10 ** 14 - 1) + 7000000)),
    (([1 - 10 ** 14], 1 - 10 ** 14), ([1 - 10 ** 14, 7000000], 7000001 - 10 ** 14)),
    *((odd, ([7000000], 7000000)) for odd in (
        ([], 1), ([5], 4), ([5], 0), ([1] * 21, 21), ([1] * 21, 20), ([0] * 255, 0), ([10 ** 14], 10 ** 14), ([-10 ** 14], -10 ** 14),
        ([10 ** 14, -10 ** 14], 0), ([2 ** 63 - 1, 1], -2 ** 63), ([-2 ** 63], 0))),
]


class Returns:
    """Random files, states and actions, given random samples."""

    DESCRIPTOR = [tuple(line.split(b': ')) for line in START.split(b'\n')[:-1]]
    IDS = [b'0', b'1', b'2', b'8', b'010', b'0x8', b' 8 ', b'\n8', b'-1', b'-0', b'x', b'', b'08', b'9223372036854775806', b'9223372036854775807',
           b'9223372036854775808', b'-9223372036854775808']
    AMOUNTS = [b'5', b' 5', b'-0.25', b'12.50', b'5\n', b'', b'x', b'123456789']
    STATES = [b'open', b'open', b'open', b' open', b'open\n', b'\topen ', b'returned', b'void', b'Open', b'', b'open x']
    RULES = [b'%key: Id', b'%key: Id\n%auto: Id', b'%auto: Id', b'%auto: Id\n%type: Id range 9', b'%auto: No Id', b'%key: State', b'%mandatory: No',
             b'%mandatory: Amount', b'%type: Id int', b'%type: Amount real', b'%type: Amount int', b'%type: State enum open void',
             b'%type: State size 5', b'%singular: State', b'%singular: Amount', b'%size: <= 2', b'%size: < 4', b'%prohibit: No',
             b'%allowed: Id Amount State', b'%unique: Id State']

    def __init__(self, samples):
        self.samples, self.random = samples, samples.random

    def field(self, name, value):
        return name + b':' + self.random.choice([b' ', b' ', b'\t']) + self.samples.laid(value) + b'\n'

    def remarks(self, often, *lines):
        """Mostly nothing; else some of these lines."""
        return b''.join(self.random.choices(lines, k=self.random.choice([1, 1, 2]))) if self.random.random() < often else b''

    def start(self):
        """A file that holds just the descriptor, with comments, blank lines and joined lines."""
        if self.random.random() < .3:
            return START
        comments = [b'#\n', b'# c\n', b'# Id: 7\\\n']
        fields = b''.join(self.remarks(.1, *comments) + self.field(n, v) for n, v in self.DESCRIPTOR)
        return self.remarks(.3, b'\n', b' \n', b'# c\n\n') + fields + self.remarks(.2, *comments) + self.remarks(.5, b'\n', b'\t\n', b'\n# c\n')

    def odd(self):
        """A file with other receipts, or with none, which mostly passes."""
        r = self.random
        while True:
            rules = START[14:] if r.random() < .3 else b''.join(rule + b'\n' for rule in r.sample(self.RULES, r.choice([0, 0, 1, 2, 3])))
            sets = [b'%rec: Receipt\n' + rules] * (r.random() < .95) + [b'%rec: R\n'] * (r.random() < .15)
            text = b''.join(self.receipt() + b'\n' for _ in range(r.choice([0, 0, 0, 1])))
            for head in r.sample(sets, len(sets)):
                text += head + b'\n' + b''.join(self.receipt() + b'\n' for _ in range(r.choice([0, 1, 2, 2, 3])))
            if recfile.check(text, len(text)) == 0 or r.random() < .01:
                return text

    def receipt(self):
        """The lines of a receipt: mostly an Id, an Amount and a State, else in another order, missing or more than one."""
        r, usual = self.random, self.random.random() < .6
        fields = []
        for name, values in ((b'Id', self.IDS), (b'Amount', self.AMOUNTS), (b'State', self.STATES)):
            for _ in range(1 if usual else r.choice([0, 1, 1, 2])):
                fields.append(self.field(name, r.choice(values[:5] if r.random() < .5 else values)))
        if not usual:
            r.shuffle(fields)
        return b''.join(f + self.remarks(.03, b'# c\n') for f in fields or [b'A:\n'])

    def amount(self):
        r = self.random
        digits = b'%d' % r.randrange(10 ** r.randint(1, 8))
        if r.random() < .6:
            part = r.randint(1, 6)
            digits += b'.%0*d' % (part, r.randrange(10 ** part))
        digits = r.choice([b'', b'', b'-']) + digits
        turn = r.random()
        if turn < .8:
            return digits
        if turn < .9:
            return r.choice([b' ', b'', b'\n', b'\t ']) + digits + r.choice([b'', b' ', b'\n', b'\n \n', b' ' * 50])
        if turn < .93:
            return digits + b' ' * (r.choice([4095, 4096, 4097]) - len(digits))
        others = [b'', b' ', b'x', b'1.', b'.5', b'0' * 9, b'100000000', b'1.0000000', b'\0', b'0x5', digits + b'x', digits + b'.1', digits + b'\\']
        return r.choice([b'99999999.999999', b'-99999999.999999', b'-' + digits, *others])

    def action(self, ids):
        """A call and what it is given besides a state and a file with receipts of these Ids."""
        r, turn = self.random, self.random.random()
        if turn < .5:
            return 'scan', self.amount()
        wanted = r.choice(ids) if ids and r.random() < .85 else r.choice([0, 8, -1, len(ids), len(ids) + 1, 2 ** 63 - 1, -2 ** 63])
        if turn < .85:
            return r.choice(['return_', 'return_', 'void']), wanted
        return 'look_up', wanted, b'\xee' * r.choice([0, 1, 2, 20, 20, 5000]), b'\xee' * r.choice([0, 3, 4, 7, 8, 20, 20])

    def actions(self, count):
        """So many actions from a file without receipts; the Ids are mostly those of scans before."""
        out, scans = [], 0
        for _ in range(count):
            out.append(self.action(range(scans)))
            scans += out[-1][0] == 'scan' and recfile.amount(out[-1][1]) is not None
        return out

    def state(self):
        """A state that scans leave, or another."""
        r = self.random
        amounts = [r.choice([0, -1, 250000, BOUND - 1, 1 - BOUND, r.randrange(1 - BOUND, BOUND)]) for _ in range(r.choice([0, 1, 5, 19, 20, 20]))]
        turn = r.random()
        if turn > .9:
            amounts = (amounts + [r.choice([BOUND, -BOUND, 10 ** 18])])[-LAST:]
        elif turn > .8:
            amounts += [1] * (LAST + 1 - len(amounts))
        return amounts, sum(amounts) + (r.choice([1, -1, 2 ** 62]) if .6 < turn < .8 else 0)


def records(buf, used):
    """The names and values of each receipt, in order."""
    pieces, sets = recfile.passed(buf, used)
    return [[(pieces[i].name, pieces[i].value) for i in r.fields] for r in recfile.find_set(sets, b'Receipt').records]


def plainly(amount):
    """An Amount in millionths, read digit by digit; None where it doesn't count."""
    bare = amount.strip(b' \t\n')
    whole, dot, part = bare[bare.startswith(b'-'):].partition(b'.')
    if len(amount) > 4096 or not whole.isdigit() or len(whole) > 8 or (dot and not part.isdigit()) or len(part) > 6:
        return None
    return (-1 if bare.startswith(b'-') else 1) * int(whole + part.ljust(6, b'0'))


class Plain:
    """What a list of actions leaves, as plain lists: the amounts of accepted scans, and each receipt's Amount and State."""

    def __init__(self, length, room):
        self.amounts, self.receipts, self.length, self.most = [], [], length, min(length + room, 65536)

    def scan(self, amount):
        new = b'\nId: %d\n' % len(self.receipts) + recfile.written(b'Amount', amount) + b'State: open\n'
        if plainly(amount) is None:
            return 37
        if self.length + len(new) > self.most:
            return 26
        self.amounts.append(plainly(amount))
        self.receipts.append([amount, b'open'])
        self.length += len(new)
        return 0

    def close(self, wanted, state):
        if not 0 <= wanted < len(self.receipts):
            return 38
        if self.receipts[wanted][1] != b'open':
            return 39
        if self.length + len(state) - len(b'open') > self.most:
            return 26
        self.receipts[wanted][1] = state
        self.length += len(state) - len(b'open')
        return 0

    def found(self, wanted):
        """(number, Amount, State)"""
        return (0, *self.receipts[wanted]) if 0 <= wanted < len(self.receipts) else (38, None, None)


def looked_up(number, values, outs):
    """What a look-up answers into these buffers where the receipt has these values, or is refused with a number."""
    if number == 0 and any(len(v) > len(out) for v, out in zip(values, outs)):
        number = 27
    return (number, 0, 0, *outs) if number != 0 else (0, *map(len, values), *(v + out[len(v):] for v, out in zip(values, outs)))


def law(text, room, actions):
    """After every action its number, the state and the length are those of plain lists, now and then the receipts too. How often each number came."""
    buf, used, state, plain, numbers = text + b'\xee' * room, len(text), ([], 0), Plain(len(text), room), collections.Counter()
    for k, (name, given, *outs) in enumerate(actions):
        told, before = [text, room, actions[:k + 1]], (used, buf)
        if name == 'scan':
            number, used, buf, state = scan(state, buf, used, given)
            same(plain.scan(given), number, *told)
        elif name == 'look_up':
            number, *values = plain.found(given)
            answer = look_up(buf, used, given, *outs)
            same(looked_up(number, values, outs), answer, *told)
            number = answer[0]
        else:
            number, used, buf = (return_ if name == 'return_' else void)(buf, used, given)
            same(plain.close(given, b'returned' if name == 'return_' else b'void'), number, *told)
        same((plain.amounts[-20:], sum(plain.amounts[-20:])), state, *told)
        same((plain.length, b'\xee' * (len(text) + room - plain.length)), (used, buf[used:]), *told)
        same(True, number == 0 or (used, buf) == before, *told)
        numbers[number] += 1
        if k % 40 == 0 or k == len(actions) - 1:
            same([[(b'Id', b'%d' % n), (b'Amount', a), (b'State', s)] for n, (a, s) in enumerate(plain.receipts)], records(buf, used), *told)
    return numbers


def fetched(buf, used, wanted):
    """(number, record number, Amount, State) of the receipt of an Id, by count and fetch alone."""
    def value(row, name):
        number, n, out = recfile.fetch(buf, used, b'Receipt', row, name, 0, bytes(recfile.VALUE))
        return out[:n] if number == 0 else None

    number, count = recfile.count(buf, used, b'Receipt')
    for row in range(count):
        first, amount, state = [value(row, name) for name in (b'Id', b'Amount', b'State')]
        if first is not None and recfile.parse_int(first.strip(b' \t\n')) == wanted:
            return (38, None, None, None) if amount is None or state is None else (0, row, amount, state)
    return 38 if number in (0, 21) else number, None, None, None


def scans_anywhere(state, buf, used, amount):
    """The answer of a scan of any file, which says the same as the receipts before and after it."""
    number, length, after, left = answer = scan(state, buf, used, amount)
    wanted = recfile.check(buf, used) or (37 if plainly(amount) is None else 0)
    if wanted != 0:
        same(wanted, number, buf, amount)
    if number != 0:
        same((used, buf, state), (length, after, left), buf, amount)
        return answer
    *before, last = records(after, length)
    same((records(buf, used), [(b'Amount', amount), (b'State', b'open')]), (before, last[-2:]), buf)
    amounts = (meant(state) + [plainly(amount)])[-20:]
    same((amounts, sum(amounts)), left, state)
    return answer


def closes_anywhere(buf, used, wanted, call, closed):
    """The answer of a return or void of any file, which says the same as count and fetch before it and the receipts after it."""
    number, length, after = answer = call(buf, used, wanted)
    expected, row, _, state = fetched(buf, used, wanted)
    if expected == 0 and state.strip(b' \t\n') != b'open':
        expected = 39
    if expected != 0:
        same(expected, number, buf, wanted)
    if number != 0:
        same((used, buf), (length, after), buf, wanted)
        return answer
    receipts = records(buf, used)
    receipts[row][[n for n, _ in receipts[row]].index(b'State')] = b'State', closed
    same(receipts, records(after, length), buf, wanted)
    return answer


def anywhere(made, buf, used, state, count):
    """So many actions on any file, each on what the one before left. How often each number came."""
    numbers = collections.Counter()
    for _ in range(count):
        try:
            ids = [recfile.parse_int(v.strip(b' \t\n')) for pairs in records(buf, used) for n, v in pairs if n == b'Id']
        except recfile.No:
            ids = []
        name, given, *outs = made.action([n for n in ids if n is not None])
        if name == 'scan':
            number, used, buf, state = scans_anywhere(state, buf, used, given)
        elif name == 'look_up':
            number, _, *values = fetched(buf, used, given)
            answer = look_up(buf, used, given, *outs)
            same(looked_up(number, values, outs), answer, buf, given)
            number = answer[0]
        else:
            number, used, buf = closes_anywhere(buf, used, given, *((return_, b'returned') if name == 'return_' else (void, b'void')))
        numbers[number] += 1
    return numbers


def by_hand():
    """What is written above is so; how many of it there is."""
    same(128, len(START))
    for text, wanted, found, closed in LOOKUPS:
        number, values = (0, found) if isinstance(found, tuple) else (found, (b'', b''))
        for more in ((0, 0), (1, 9), (-1, 0), (0, -1)):
            outs = [b'\xee' * max(0, len(v) + n) for v, n in zip(values, more)]
            same(looked_up(number, values, outs), look_up(text, len(text), wanted, *outs), text, wanted)
        numbers = [call(text + bytes(9), len(text), wanted)[0] for call in (return_, void)]
        same(closed if isinstance(closed, list) else [closed, closed], numbers, text, wanted)
    for text, amount, number, added in SCANS:
        for state in (([], 0), ([1], 2)):
            left = ([plainly(amount)], plainly(amount)) if number == 0 else state
            answer = scan(state, text + b'\xee' * (len(added) + 200), len(text), amount)
            same((number, len(text + added), text + added + b'\xee' * 200, left), answer, text, amount)
        if number == 0:
            same([0, 26], [scan(([], 0), text + bytes(len(added) - k), len(text), amount)[0] for k in (0, 1)], text, amount)
    for state, left in STATES:
        same(left, scan(state, START + bytes(50), len(START), b'7')[3], state)
        for number, room, used, amount in ((37, 50, 128, b'x'), (26, 9, 128, b'7'), (2, 50, 127, b'7')):
            same((number, state), scan(state, START + bytes(room), used, amount)[::3], state)
    return len(LOOKUPS) + len(SCANS) + len(STATES)


def main(seed=1, rounds=30):
    print('%d by hand: as written' % by_hand())
    made = Returns(samples.Samples(seed))
    r, laws, others = made.random, collections.Counter(), collections.Counter()
    for _ in range(rounds):
        text = made.start()
        same(made.DESCRIPTOR, [(p.name, p.value) for p in recfile.read_pieces(text) if p.kind == ':'], text)
        laws += law(text, r.choice([0, 25, 500, 4000, 20000, 20000, 20000, 70000]), made.actions(r.choice([0, 1, 5, 20, 60, 150, 300])))
    for _ in range(20 * rounds):
        text = made.odd()
        others += anywhere(made, text + r.randbytes(r.choice([0, 4, 40, 300, 300, 300])), len(text) + (r.random() < .01), made.state(), 6)
    for name, numbers in (('from the descriptor alone', laws), ('on other files', others)):
        print('%d actions %s, seed %d: as plain lists have it' % (sum(numbers.values()), name, seed))
        print('by number: ' + ' '.join('%d:%d' % x for x in sorted(numbers.items())))


if __name__ == '__main__':
    main(*map(int, sys.argv[1:]))
