"""Random recfiles whose descriptors have many types, names and symbols, with records that meet all of them or fail in one thing; and such files at
the limits. Seeded by the random numbers they are given, as samples.py is."""
import itertools

LETTERS = 'ABCDEFGHIJKLMNOPQRSTUVWXYZabcdefghijklmnopqrstuvwxyz'
PAIRS = [a + b for a in LETTERS for b in LETTERS]

# The values of a class of fields, and kinds that all of them meet; `enum` stands for one that has them among its symbols.
CLASSES = {
    'number': (['0', '1'], ['int', 'real', 'bool', 'range 1', 'range -1 0x1', 'range MIN MAX', 'line', 'size 60', 'enum']),
    'key': ([str(n) for n in range(30)], ['int', 'real', 'range 29', 'range MIN 40', 'line', 'size 99', 'enum']),
    'count': (['0', '5', '0x7'], ['int', 'range 7', 'range -1 0x9', 'range MIN MAX']),
    'word': (['yes', 'no', 'true'], ['bool', 'field', 'line', 'size 60', 'enum']),
    'text': (['front', 'a b', '', '%'], ['line', 'size 60']),
    'uuid': (['0123abcd-45ef-6789-ABCD-0123456789ef'], ['uuid', 'line', 'size 90', 'enum']),
}
# Kinds that no value of a class meets, or that no name of an %auto list has.
OTHERS = {'number': ['field', 'uuid', 'range 2 9', 'enum 2', 'size'], 'key': ['range 30 99', 'bool x', 'enum a'], 'count': ['real', 'enum 0 5', 'size 9', 'range 8 9'], 'word': ['int', 'real', 'enum ye s'],
          'text': ['enum f', 'uuid', 'T99'], 'uuid': ['size 35', 'int', 'bool']}


def alike(count):
    """Names of one fingerprint: the upper ten bits of what `sorting::mix` makes of their bytes."""
    def mixed(text):
        h = 2166136261
        for b in text.encode():
            h = (h + b) * 2654435761 % 2 ** 32
        return h >> 22
    words = (''.join(w) for w in itertools.product('abcdefgh', repeat=6))
    return list(itertools.islice((w for w in words if mixed(w) == 7), count))


ALIKE = alike(30)
NAMES = ['A', 'B', 'Id', 'Page', 'C'] + ALIKE[:12] + PAIRS[:12] + ['N' * n + x for n in (1, 20, 63) for x in 'XY'] + ['N' * 64]
SYMBOLS = ['a', 'b', 'x', '2', '12', 'front', 'ye', 's', 'y', 'es', 'tru', '0-', 'a_b'] + ALIKE + PAIRS[:300]


class Crowds:
    def __init__(self, random):
        self.random = random

    def gap(self):
        return self.random.choice([' ', ' ', ' ', ' ', '  ', '\t', '\n+ ', ' \\\n'])

    def cut(self, word):
        """A word, at times joined over two lines or more."""
        if self.random.random() < .97 or not word:
            return word
        at = self.random.randrange(len(word))
        return word[:at] + '\\\n' * self.random.choice([1, 1, 7]) + word[at:]

    def words(self, words):
        return ''.join(self.gap() + self.cut(w) for w in words)

    def enum(self, values):
        """An `enum` with these symbols among others, and comments."""
        r = self.random
        symbols = values + [r.choice(SYMBOLS) for _ in range(r.choice([0, 1, 5, 5, 40, 300]))]
        r.shuffle(symbols)
        comments = ['', '', '', '', '', '', '', '()', '(a b)', ' (1)', '(x\n+ 0) ']
        return 'enum' + r.choice(comments) + ''.join(self.gap() + self.cut(s) + r.choice(comments) for s in symbols)

    def kind(self, of):
        values, kinds = CLASSES[of]
        kind = self.random.choice(kinds)
        return self.enum(list(values)) if kind == 'enum' else kind

    def typedefs(self, of):
        """A chain of aliases that ends in a kind of the class, in any order; and their names."""
        r = self.random
        count = r.choice([0, 1, 3, 3, 31, 32])
        front = r.choice(['T', 'T', 'T' * 90])
        ends = [front + str(i + 1) for i in range(count - 1)] + [self.kind(of)]
        lines = ['%typedef: ' + self.cut(front + str(i)) + self.gap() + ends[i] for i in range(count)]
        r.shuffle(lines)
        return lines, [front + str(i) for i in range(count)]

    def types(self, fields):
        """`%type` fields, each of several names of one class, some named often."""
        r = self.random
        aliased = r.choice(sorted(set(fields.values())))
        lines, aliases = self.typedefs(aliased)
        for _ in range(r.choice([0, 1, 3, 8, 32])):
            of = r.choice(sorted(set(fields.values())))
            names = [n for n in fields if fields[n] == of]
            listed = [r.choice(names) for _ in range(r.choice([1, 1, 2, 5, 40]))]
            kind = r.choice(aliases) if of == aliased and aliases and r.random() < .5 else self.kind(of)
            lines.append('%type: ' + self.cut(','.join(listed)) + self.gap() + kind)
        return lines

    def lists(self, needed, single, fields, others):
        """Lists, their words repeated and in several fields."""
        r, out = self.random, []
        for name, words in (('mandatory', needed), ('unique', single), ('prohibit', others)):
            for _ in range(r.choice([0, 1, 1, 2]) if words else 0):
                out.append('%' + name + ':' + self.words([r.choice(words) for _ in range(r.choice([1, 2, 5, 30]))]))
        if r.random() < .5:
            allowed = list(fields) + [r.choice(list(fields)) for _ in range(r.choice([0, 1, 64 - len(fields)]))]
            r.shuffle(allowed)
            out.append('%allowed:' + self.words(allowed))
        counted = [n for n in fields if fields[n] == 'count']
        for _ in range(r.choice([0, 1, 2]) if counted else 0):
            out.append('%auto:' + self.words([r.choice(counted + others[:r.choice([0, 0, 1])]) for _ in range(r.choice([1, 2, 5, 30]))]))
        return out

    def value(self, of):
        r, value = self.random, self.random.choice(CLASSES[of][0])
        return r.choice(['', '', '', ' ', '\t ']) + self.cut(value) + r.choice(['', '', '', ' ', '\t'])

    def record(self, fields, needed, single, number):
        """(name, value) of a record that meets the rules."""
        r = self.random
        names = needed + [n for n in single if n not in needed and r.random() < .3]
        names += [r.choice([n for n in fields if n not in single]) for _ in range(r.choice([0, 1, 3]))]
        r.shuffle(names)
        return [(n, str(number) if fields[n] == 'key' else self.value(fields[n])) for n in names or ['A']]

    def harm(self, descriptor, records, fields, others):
        """One thing is made wrong."""
        r = self.random
        record = r.choice(records)
        at = r.randrange(len(record))
        name, value = record[at]
        turn = r.randrange(7)
        if turn == 0:
            record[at] = (name, r.choice(['2', 'zz', '-', 'a\n+ b', 'x' * 70]))
        elif turn == 1:
            types = [i for i, line in enumerate(descriptor) if line.startswith('%type:')]
            if len(types) >= 32:
                del descriptor[types[-1]]
            names = [name] + [r.choice(others) for _ in range(r.choice([0, 30]))]
            descriptor.append('%type: ' + ','.join(r.sample(names, len(names))) + ' ' + r.choice(OTHERS[fields[name]]))
        elif turn == 2 and len(record) > 1:
            del record[at]
        elif turn == 3:
            record.insert(r.randrange(len(record) + 1), (name, value))
        elif turn == 4:
            record[at] = (r.choice(others), value)
        elif turn == 5:
            records.append(record)
        else:
            wrong = ['%typedef: Q Q', '%typedef: T0 int', '%type: A int', '%type: A T31', '%type: A enum ((', '%unique:' + ' A' * 64, '%size: 1', '%allowed: ' + name]
            descriptor.append(r.choice(wrong))

    def set(self, name):
        """The text of a set."""
        r = self.random
        names = r.sample(NAMES[1:], r.choice([3, 6, 20]))
        fields = {n: r.choice(['number', 'count', 'word', 'word', 'text', 'uuid']) for n in names + ['A']}
        others = [n for n in NAMES if n not in fields] + ALIKE[12:]
        needed = r.sample(names, r.choice([0, 1, 3]))
        single = r.sample(names, r.choice([0, 1, 2]))
        descriptor = ['%rec: ' + self.cut(name)]
        if r.random() < .4:
            key = r.choice(names)
            fields[key] = 'key'
            needed, single = sorted({*needed, key}), sorted({*single, key})
            descriptor.append('%key: ' + self.cut(key))
        descriptor += self.types(fields) + self.lists(needed, single, fields, others)
        tail = descriptor[1:]
        r.shuffle(tail)
        descriptor[1:] = tail
        records = [self.record(fields, needed, single, n) for n in range(r.choice([0, 1, 2, 5]))]
        if records and r.random() < .4:
            self.harm(descriptor, records, fields, others)
        blocks = ['\n'.join(descriptor)] + ['\n'.join(n + ': ' + v for n, v in record) for record in records]
        return '\n\n'.join(blocks) + '\n\n'

    def file(self):
        sets = self.random.sample(['S', 'T', 'Scan', 'U' * 70, 'U' * 71], self.random.choice([1, 1, 2, 3]))
        return ''.join(self.set(name) for name in sets).encode()


def enum(symbols):
    return 'enum ' + ' '.join(symbols)


def at_limits():
    """Files that pass, each with one that fails in the last of many things: names, types, symbols, words."""
    def both(head, good, bad, fill=0):
        return [('%rec: S\n' + head + '\n\n' + good * fill + last).encode() for last in (good, bad)]

    def types(names, kinds):
        return ''.join('%type: ' + names + ' ' + k + '\n' for k in kinds)

    def listed(name, words):
        return '%' + name + ': ' + ' '.join(words) + '\n'

    symbols, single = PAIRS[:1360], [LETTERS[i % 51] for i in range(2040)]
    chain = ''.join('%%typedef: T%d T%d\n' % (i, i - 1) for i in range(1, 32))
    words = PAIRS[:64]
    record = ''.join(w + ':\n' for w in words) + '\n'
    many, few = [','.join(single)] * 11, ','.join(single[:50])
    rest = [PAIRS[200 * i:200 * i + 1300] for i in range(8)]
    return [
        *both(types('A', ['range 0 9'] * 31 + ['range 0 8']), 'A: 8\n\n', 'A: 9\n\n', 200),
        *both(types('A', [enum(symbols)] * 8 + [enum(symbols[:-1])]), 'A: ' + symbols[0] + '\n\n', 'A: ' + symbols[-1] + '\n\n'),
        *both('%typedef: T0 ' + enum(symbols) + '\n' + chain + types('A', ['T31'] * 32), 'A: ' + symbols[-1] + '\n\n', 'A: ' + symbols[0] + 'x\n\n', 100),
        *both(types('A', [enum(single + ['z'])] * 11 + [enum(single)]), 'A: a\n\n', 'A: z\n\n'),
        *both(types('A', [enum(single)] + [enum(single + ['z'])] * 11), 'A: a\n\n', 'A: z\n\n'),
        *both('%typedef: T ' + enum(single) + '\n' + types('A', ['T'] + [enum(single + ['z'])] * 11 + ['T']), 'A: a\n\n', 'A: z\n\n'),
        *both(''.join(types(names, ['line']) for names in many) + types('z,' + few, ['int']), 'z: 1\nA: 2\n\n', 'z: x\nA: 2\n\n'),
        *both(''.join(types(names, ['line']) for names in many) + types(few + ',z', ['int']), 'A: 1\n\n', 'z: x\n\n'),
        *both(types(','.join(single + ['zz']), ['line'] * 7 + ['int']), 'A: 1\n\n', 'zz: x\n\n'),
        *both(types('Z', ['int']) + ''.join(types(names, ['line']) for names in many), 'A: x\n\n', 'Z: x\n\n'),
        *both(''.join(types(','.join(names), ['int']) for names in rest), 'zz: x\n' + rest[-1][-1] + ': 1\n\n', rest[-1][-1] + ': x\n\n', 50),
        *both(listed('mandatory', words), record, record[:-5] + '\n', 3),
        *both(listed('unique', words), record, record[:-1] + words[-1] + ':\n\n', 3),
        *both(listed('allowed', words), record, record[:-1] + 'zz:\n\n', 3),
        *both(listed('prohibit', words), 'A:\nzz:\n\n', words[-1] + ':\n\n', 3),
        *both(listed('mandatory', ['A'] * 63 + ['B']) + listed('unique', ['C'] * 63 + ['A']), 'A:\nB:\n\n', 'A:\n\n', 5),
        *both(listed('unique', ['C'] * 63 + ['A']) + listed('mandatory', ['A'] * 64), 'A:\nB:\n\n', 'A:\nB:\nA:\n\n', 5),
        *both(types(','.join(ALIKE[:20]), ['int', 'real']) + listed('unique', ALIKE[:25]), ALIKE[0] + ': 1\n' + ALIKE[29] + ': x\n\n', ALIKE[19] + ': x\n\n', 5),
        *both(listed('auto', words) + types(','.join(words), ['int', 'range MIN MAX', 'range 100']), record.replace(':', ': 99').replace(words[0], 'zz'), record.replace(':', ': 99').replace('%s: 99' % words[-1], '%s: 101' % words[-1])),
        *both(listed('auto', ALIKE[:30]) + types(','.join(ALIKE[20:]), ['range 9']) + types(','.join(ALIKE[:20]), ['range 5 9'] * 31), ALIKE[0] + ': 5\n' + ALIKE[29] + ': 7\n\n', ALIKE[19] + ': 4\n\n', 5),
        *both(types('A', [enum(ALIKE[:29])]), 'A: ' + ALIKE[28] + '\n\n', 'A: ' + ALIKE[29] + '\n\n', 5),
        *both(types('N' * 64 + ',' + 'N' * 65 + ',' + 'N' * 3000, ['int']), 'N' * 63 + ': x\n\n', 'N' * 64 + ': x\n\n'),
    ]
