"""Random recfiles and requests, near enough to valid ones that every question is reached. Seeded: the same numbers give the same samples."""
import functools
import random

NAMES = ['A', 'B', 'Id', 'Page', 'C']
VALUES = ['1', '2', 'x', '-5', '0x1F', '08', 'yes', 'a b', '', 'front', '3.5', 'T', '  7 ']
KINDS = ['int', 'real', 'bool', 'line', 'size 3', 'range 5', 'range -1 3', 'enum a b x', 'enum(c) x 1', 'field', 'uuid', 'T1', 'U', 'range MIN MAX', 'size', 'enum', 'int 3', '%x']


def tagged(tag, contents):
    return bytes([tag, len(contents) // 256, len(contents) % 256]) + contents


def number(n):
    return bytes([n // 256, n % 256])


def int_ends():
    """Files, as runs, with numbers at both sides of the ends of int and beyond 64 bits, in three bases: as values, ends of ranges and sizes; and numerals as long as a value may be."""
    def described(rules, *value):
        return [(1, b'%rec: S\n' + rules + b'\n\nA: '), *value, (1, b'\n')]

    for n in (2 ** 31, 10 ** 12 - 1, 2 ** 63 - 1, 2 ** 63, 2 ** 63 + 1, 2 ** 64 - 1, 2 ** 64, 10 ** 20 - 1):
        for form in (b'%d', b'-%d', b'0x%x', b'-0x%X', b'0%o', b'-0%o'):
            w = form % n
            for kind in (b'int', b'range MIN MAX', b'range MAX MAX', b'range MIN MIN'):
                yield described(b'%type: A ' + kind, (1, w))
            for kind in (b'range ' + w, b'range MIN ' + w, b'range ' + w + b' MAX'):
                yield from (described(b'%type: A ' + kind, (1, end)) for end in (b'-9223372036854775808', b'9223372036854775807'))
            for rule in (b'%type: A size ', b'%size: ', b'%size: < ', b'%size: >= '):
                yield described(rule + w, (1, b'1'))
    for front in (b'', b'-', b'0', b'-0', b'0x', b'-0x'):
        for digit in (b'0', b'1', b'9'):
            for end in (b'', b'1' + b'0' * 21, b'7' + b'f' * 15, b'8' + b'0' * 15):
                yield from (described(b'%type: A int', (1, front), (n - len(front + end), digit), (1, end)) for n in (4096, 4097))


def accents():
    """Files, as runs, about sizes at n and n + 1 characters: characters of one to four bytes, continuation bytes without one, values in several lines, as long as a value may be, and what other questions say."""
    def sized(n, *value, rules=b''):
        return [(1, b'%%rec: S\n%%type: A size %d\n' % n + rules + b'\nA: '), *value, (1, b'\n')]

    for text in ('é', '€', '𝄞', 'aé€𝄞', '€ é ', 'élémentaire', 'Ærøskøbing', '\u00a0', '\u07ff\u0800\uffff\U00010000'):
        yield from (sized(n, (1, text.encode())) for n in (len(text) - 1, len(text), len(text.encode()) - 1))
    # any byte, sound or not: alone, behind a letter and behind another
    for b in (33, 126, 128, 143, 144, 159, 160, 175, 176, 190, 191, 192, 193, 223, 224, 239, 240, 247, 248, 254, 255):
        yield sized(0, (1, bytes([b])))
        yield sized(1, (1, b'a' + bytes([b])))
    yield from (sized(2, (1, v)) for v in (b'\xa9\xc3\xc3', b'\xc3\xc3\xc3', b'\xe2\x82a\xac', b'\x80\x80\x80a', b'\xff\xfe\xbf', b'\xc3\n+ \xa9', b'\xc3\\\n\xa9a', b'\xc3\xa9\n+\n+', b'\xc3\xa9\n+ \x80'))
    # bytes that are no character at all, and the limit of a value in bytes
    yield from (sized(0, (n, b'\x80')) for n in (4096, 4097))
    yield from (sized(n, (k, 'é'.encode())) for n, k in ((2047, 2048), (2048, 2048), (2049, 2049)))
    for rules in (b'%size: 2\n', b'%type: A size 0x1\n', b'%type: A size 3\n', b'%type: A line\n', b'%type: A int\n', b'%typedef: T size 0\n%type: A T\n', b'%mandatory: B\n'):
        yield sized(1, (1, 'é'.encode()), rules=rules)
    for rule in (b'%key: A\n', b'%singular: A\n'):
        yield from (sized(n, (1, 'é\n\nA: é'.encode()), rules=rule) for n in (0, 1))


def singulars():
    """Files, as runs, about singular names: few and many fields, at both sides of being alike, in one record and in two, however the values are written."""
    def described(rules, records):
        return b'%rec: S\n' + rules + b'\n' + records

    for rules in (b'%singular: A\n', b'%singular: A B\n', b'%singular: B A\n', b'%singular: A A\n', b'%singular: B\n%singular: A\n', b'%singular: B\n', b'%singular: %A a\n', b'%singular: A\n%key: A\n', b'%singular: A\n%size: 1\n', b'%singular: A\n%unique: A\n'):
        for gap in (b'', b'\n', b'# c\n', b'B: x\n', b'\nB: x\n\n'):
            yield from ([(1, described(rules, b'A: x\n' + gap + b'A: ' + other + b'\n'))] for other in (b'x', b'y'))
    for one, other in ((b' x', b'\tx'), (b' x', b'  x'), (b' x', b' x '), (b' x', b' X'), (b' 1', b' 01'), (b'', b''), (b'', b' '), (b'', b'  '), (b'', b'\n+'), (b'\n+', b' \n+ '), (b' x', b' \\\nx'), (b' xy', b' x\\\ny'), (b' x\n+ y', b' x\n+y'),
                       (b' x\n+ y', b' x\n+  y'), (b' x\n+\\\n y', b' x\n+  y'), (b' x', b' xx'), (b' xx', b' yx')):
        yield from ([(1, described(b'%singular: A\n', b'A:' + one + b'\n' + gap + b'A:' + other + b'\n'))] for gap in (b'', b'\n'))
    for n in (60, 61, 255, 256):
        texts = [b'%d' % k for k in range(n)]
        for last in (b'', texts[0], texts[-1], b'x'):
            yield [(1, described(b'%singular: A\n', b''.join(b'A: ' + t + b'\n\n' for t in texts) + b'A: ' + last + b'\n'))]
    # each name of a full list has one value, once more in the last name or in one that is not listed
    names = [b'N%d' % k for k in range(64)]
    for last in (names[0], names[63], b'M'):
        yield [(1, described(b'%singular: ' + b' '.join(names[:40]) + b'\n%singular: ' + b' '.join(names[40:]) + b'\n', b''.join(n + b': x\n' for n in names) + b'\n' + last + b': x\n'))]
        yield [(1, described(b'%singular: ' + b' '.join(names) + b'\n', b''.join(n + b':\n' for n in names) + b'\n' + last + b':\n'))]
    # as many fields as a file holds: empty ones, and short ones that are all unlike
    yield [(1, described(b'%singular: A\n', b'')), (85, b'A:\n' * 256 + b'\n')]
    yield [(1, described(b'%singular: B\n', b'')), (85, b'A:\n' * 255 + b'B:\n\n')]
    letters = [bytes([c]) for c in range(33, 127) if c != 92] + [bytes([c]) for c in range(160, 256)]
    short = b'%singular: ' + b' '.join(b'%c' % c for c in range(65, 91)) + b' ' + b' '.join(b'%c' % c for c in range(97, 123)) + b'\n'
    fields = [b'%c: ' % c + v + b'\n' for c in [*range(65, 91), *range(97, 123)] for v in letters]

    def records(lines):
        return b''.join(b''.join(lines[k:k + 256]) + b'\n' for k in range(0, len(lines), 256))

    for lines in (fields + [b'A:\n', b'z:\n'], fields + fields[-1:], [b'A: ' + x + y + b'\n' for x in letters for y in letters][:10800]):
        yield [(1, described(short, records(lines)))]


def autos():
    """Files, as runs, about the names of %auto lists: the kinds that their types may have and may not, at the first place and at the last, and what comes before question 7."""
    def described(*rules):
        return [(1, b'%rec: S\n' + b''.join(rule + b'\n' for rule in rules) + b'\nA: 1\n')]

    kinds = (b'int', b'range 5', b'range 5 1', b'range MIN MAX', b'real', b'line', b'size 3', b'enum 1', b'bool', b'field', b'uuid')
    for kind in kinds:
        yield described(b'%auto: A', b'%type: A ' + kind)
        yield described(b'%type: B,A T', b'%auto: A', b'%typedef: T U', b'%typedef: U ' + kind)
    for types in ((b'A int', b'A range 5'), (b'A int', b'A real'), (b'A real', b'A int'), (b'B,A line', b'B int'), (b'A,B line', b'A int'), (b'B line', b'A int'), (b'a line', b'AA line'), (b'B,A,B bool', b'C int')):
        yield described(b'%auto: A', *(b'%type: ' + t for t in types))
        yield described(*(b'%type: ' + t for t in types), b'%auto: B', b'%auto: C A')
    # 5 and 6 before 7, words in several lines, and types of another set
    yield [(1, b'%auto: A\n\nA: 1\n')]
    yield described(b'%auto: A %A', b'%type: A real')
    yield described(b'%auto: A\\\nB', b'%type: A real')
    yield described(b'%auto: A\\\nB', b'%type: AB real')
    yield described(b'%auto: \\\n\\\nB\n+A\n+', b'%type: A real')
    yield described(b'%auto: \\\n\\\nB\n+A\n+', b'%type: BA real')
    yield described(b'%auto: A', b'%typedef: T line')
    yield described(b'%auto: A', b'', b'%rec: T', b'%type: A line')
    yield described(b'%type: A line', b'', b'%rec: T', b'%auto: A')
    yield described(b'%type: A line', b'', b'%rec: T', b'%auto: %A')
    yield described(b'%key: A', b'%mandatory: A', b'%unique: A', b'%singular: A', b'%auto: A', b'%type: A int')
    # names that differ at their end only, as long as a field's may be and longer
    for n in (63, 64, 65, 3000):
        yield from (described(b'%auto: ' + b'L' * n + end, b'%type: ' + b'L' * n + b'x line') for end in (b'x', b'y', b''))
    # the last of many words, of many types and of many names
    words = [b'N%d' % k for k in range(63)]
    for kind in (b'int', b'line'):
        yield described(b'%auto: ' + b' '.join(words) + b' A', b'%type: A ' + kind)
        yield described(b'%auto: A ' + b' '.join(words[:30]), b'%auto: ' + b' '.join(words[30:]), b'%type: ' + b','.join(words) + b' int', *[b'%type: A int'] * 30, b'%type: A ' + kind)
        yield described(b'%auto: ' + b'A ' * 64, *[b'%type: B,A int'] * 31, b'%type: B,A ' + kind)
        yield described(b'%auto: A', b'%type: ' + b'B,' * 2000 + b'A ' + kind)
        yield described(b'%auto: A', b'%type: A T0', *(b'%%typedef: T%d T%d' % (k, k + 1) for k in range(31)), b'%typedef: T31 ' + kind)
        yield described(b'%auto:' + b' A' * 65, b'%type: A ' + kind)
    yield described(b'%auto:' + b' %A' * 65)
    yield described(b'%auto:' + b' A' * 40, b'%auto:' + b' %A' * 25)


def fingerprint(text):
    """Keys that differ here are told apart by the library without a look at their bytes (`sorting::mix`)."""
    h = 2166136261
    for b in text:
        h = (h + b) * 2654435761 % 2 ** 32
    return h >> 16


@functools.lru_cache
def twins():
    """Lists of keys of one fingerprint: of one length, with a common front and a common end; of unlike lengths, one a front of the other; and any, with all that a key in several lines is made of."""
    r, lists = random.Random(1), []
    fronts, ends = [b'', b'0077', b'k' * 60, b'a\n\n', b'\\', b'+ '], [b'', b'z', b'z' * 60, b'\n', b'\n\n + ', b'\\\\', b' \n+']
    texts = [(front + bytes(r.choices(b'abcdefghij', k=4)) + end for _ in range(900)) for front in fronts for end in ends]
    texts += [(b * n for n in range(600)) for b in (b'a', b'\n', b'\\', b'+\n ')]
    texts += [(bytes(r.choices(b'ab+ \\\n', k=r.randint(1, 9))) for _ in range(2500)) for _ in range(6)]
    for some in texts:
        groups = {}
        for text in dict.fromkeys(some):
            groups.setdefault(fingerprint(text), []).append(text)
        lists.append([group for group in groups.values() if len(group) > 1])
    return [kind for kind in lists if kind]


class Samples:
    def __init__(self, seed):
        self.random = random.Random(seed)

    def counted(self):
        """%auto lists, and types for their names that are all int or range."""
        r = self.random
        ends = ['0', '3', '8', '0x10', '011', '100', '-5', '-0', 'MIN', 'MAX', '9223372036854775807']

        def kind():
            return r.choice(['int', 'range ' + r.choice(ends), 'range %s %s' % (r.choice(ends), r.choice(ends)), 'range 0 MAX', 'N', 'O'])

        rules = ['%auto: ' + r.choice(['Id', 'Id A', 'A\n+ B', 'B Id B', 'A', 'C Id', 'L' * 65]) for _ in range(r.choice([0, 1, 1, 1, 2, 3]))]
        rules += ['%type: ' + r.choice(['Id', 'A', 'Id,A', 'B,Id,B']) + ' ' + kind() for _ in range(r.choice([0, 0, 1, 2, 3]))]
        rules += ['%typedef: N ' + r.choice(['int', 'range 2 9', 'range MIN 4']), '%typedef: O N']
        r.shuffle(rules)
        return rules

    def descriptor(self):
        r = self.random
        good = r.random() < .85
        words = ['A', 'B', 'Id', 'Page', 'C', 'A B', 'Id A'] + ([] if good else ['Zz', '%q', '1x', '', 'A\n+ B'])
        rules = [
            lambda: '%key: ' + r.choice(['Id', 'A'] if good else words),
            lambda: '%mandatory: ' + r.choice(words),
            lambda: '%prohibit: ' + r.choice(['Zz', 'C', 'Q R']),
            lambda: '%allowed: ' + r.choice(['A B Id Page C', 'A B Id', 'A Page Id']),
            lambda: '%unique: ' + r.choice(words),
            lambda: '%singular: ' + r.choice(words),
            lambda: '%auto: ' + r.choice(['Id', 'A', 'C', 'Id A'] if good else [*words, 'A ' * 65, 'Id\n+ %rec']),
            lambda: '%size: ' + r.choice(['<= 3', '< 9', '>= 0', '<= 2'] if good else ['1', '< 2', '> 0', '0', '-0', '<1', 'x']),
            lambda: '%typedef: T1 ' + r.choice(KINDS[:8] if good else KINDS),
            lambda: '%typedef: ' + r.choice(['U', 'W']) + ' ' + r.choice(['T1', 'int', 'U', 'W', 'enum a x 1']),
            lambda: '%type: ' + r.choice(['A', 'A,B', 'Id', 'C'] + ([] if good else ['Page,'])) + ' ' + r.choice(KINDS[:9] if good else KINDS),
            lambda: '%type: Page ' + r.choice(['line', 'size 5', 'enum front x']),
            lambda: '%doc: any \\\nthing',
            lambda: 'Foo: x',
        ]
        name = r.choice(['S', 'T', 'U', 'V'] if r.random() < .9 else ['S', 'S T', ''])
        numbered = self.counted() if r.random() < .2 else []
        return ['%rec: ' + name] + numbered + [r.choice(rules)() for _ in range(r.randint(0, 1 if numbered else 4))]

    def record(self, key):
        r, out = self.random, []
        for _ in range(r.randint(1, 4)):
            name = r.choice(NAMES if r.random() < .97 else NAMES + ['%rec'])
            value = str(key) if name == 'Id' and r.random() < .5 else r.choice(VALUES)
            out.append(name + (r.choice([': ', ':\t']) if value else r.choice([':', ': '])) + value)
            turn = r.random()
            if turn < .08:
                out.append('+ ' + r.choice(VALUES))
            elif turn < .11:
                out.append('+' + r.choice(VALUES))
            elif turn < .14:
                out[-1] = name + ': ' + value + '\\'
                out.append(r.choice(['x', '', '# y', '+ z', 'B: q']))
            elif turn < .2:
                out.append('# c' + r.choice(['', '\\']))
        if r.random() < .6 and not any(line.startswith('Id') for line in out):
            out.insert(0, 'Id: %d' % key)
        return out

    def file(self):
        r, blocks, key = self.random, [], 0
        if r.random() < .3:
            blocks.append(self.record(0))
        for _ in range(r.randint(0, 3)):
            blocks.append(self.descriptor())
            for _ in range(r.randint(0, 3)):
                key += 1
                blocks.append(self.record(key))
            if r.random() < .1:
                blocks.append(['# lone'])
        text = ''.join('\n'.join(b) + '\n' + r.choice(['\n', '\n', '\n\n', ' \n', '\t \n']) for b in blocks)
        if r.random() < .5 and text.strip():
            text = text.rstrip('\n \t') + '\n'
        if r.random() < .1 and text:
            at = r.randrange(len(text))
            text = text[:at] + r.choice('\\\n+#:% aA0\x01\xe9') + text[at + 1:]
        if r.random() < .05:
            text = text[:-1]
        return text.encode('latin-1')

    def arranged(self, sets):
        """A file of so many sets, the default set included: comments and blank lines wherever they may stand, blank-looking lines that a backslash took on, and few rules, so that nearly all pass."""
        r = self.random
        comments = ['#', '# c', '#\\', '# %rec: X', '#A: 1']
        endings = ['', '', '', '\\\n', '\\\n \t', '\\\n\\\n', '\\\n# x', '\\\nB: 1', '\n+ y', '\n+', '\n+\\\n']

        def block(fields):
            out = []
            for f in fields + [None]:
                while r.random() < .15:
                    out.append(r.choice(comments))
                out += [f] if f else []
            return out

        def descriptor(k):
            rules = ['%key: Id', '%mandatory: A', '%size: <= 3', '%type: A int', '%unique: B', '%singular: B', '%prohibit: C', '%doc: d' + r.choice(endings), 'Foo:' + r.choice(endings).replace('\\', ' \\', 1)]
            fields = ['%rec: ' + r.choice(['S%d', 'S%d\\\n', '\n+ S%d', ' S%d\n+', 'S\\\n%d']) % k] + r.sample(rules, r.choice([0, 0, 1, 2]))
            r.shuffle(fields)
            return block(fields)

        def record(k):
            return block(['Id: %d' % k] * (r.random() < .8) + [r.choice(NAMES[:2]) + ': %d' % r.randint(1, 9) + r.choice(endings) for _ in range(r.randint(1, 2))])

        blocks, key = [], 0
        for k in range(sets):
            blocks += [descriptor(k)] if k else []
            for _ in range(r.choice([0, 0, 1, 1, 2, 3])):
                key += 1
                blocks.append(record(key))
            while r.random() < .2:
                blocks.insert(r.randint(max(0, len(blocks) - 3), len(blocks)), [r.choice(comments) for _ in range(r.randint(1, 2))])
        blanks = ['\n', '\n', '\n', ' \n', '\t \n', '\n\n']
        text = r.choice(['', '', '', '\n', ' \n\n']) + ''.join('\n'.join(b) + '\n' + r.choice(blanks) for b in blocks)
        if r.random() < .5 and blocks:
            while text.endswith(('\n\n', ' \n')) and not text.endswith(('\\\n\n', '\\\n \t\n')):
                text = text[:-1].rstrip(' \t')
        return text.encode()

    def laid(self, value):
        """A value as it may stand in a file: joints anywhere, plus lines with a space and without."""
        r, out = self.random, b''
        joints = r.choice([0, 0, .1, .4])
        for i, c in enumerate(value):
            later = value[i + 1:i + 2]
            while r.random() < joints:
                out += b'\\\n'
            out += bytes([c]) if c != 10 else b'\n+ ' if later == b' ' or r.random() < .5 else b'\n+'
            if c == 92 and later in (b'', b'\n'):
                out += b'\\\n'
        return out + b'\\\n' * (r.random() < joints)

    def alike(self):
        """A file of a few keys of one fingerprint, or of two; now and then one comes twice, in other lines."""
        r = self.random
        kind = r.choice(twins())
        keys = [k for _ in range(r.choice([1, 1, 2])) for k in r.choice(kind)[:5]]
        keys = list(dict.fromkeys(keys)) + [r.choice(keys)] * (r.random() < .3)
        r.shuffle(keys)
        return b'%rec: S\n%key: K\n\n' + b''.join(b'K: ' + self.laid(k) + b'\n' + b'A: 1\n' * (r.random() < .3) + b'\n' for k in keys)

    def numbered(self):
        """The rules of a set with %auto lists, its records, and the fields of an insert; each as text."""
        r = self.random
        ints = ['0', '-1', '-0', '3', '7', '010', '0x1F', '0XA', '08', '12', '-0x10', '2.5', 'x', '', ' 5 ', '9223372036854775806', '9223372036854775807', '9223372036854775808', '-9223372036854775808', '0x7fffffffffffffff']

        def field():
            return r.choice(NAMES[:4]) + ': ' + r.choice(ints if r.random() < .4 else ints[:6]) + r.choice(['', '', '\n+', '\n+ 1', '\n#'])

        records = [[field() for _ in range(r.randint(1, 3))] for _ in range(r.randint(0, 3))]
        return tuple(t.encode() for t in ('\n'.join(self.counted()) + '\n', '\n'.join('\n'.join(fs) + '\n' for fs in records), ''.join(field() + '\n' for _ in range(r.randint(1, 3)))))

    def numbering(self, count):
        """A file with a set T that has %auto lists, mostly one that passes, and so many inserts into T, few of which name what the lists do."""
        r = self.random
        rules, records, _ = self.numbered()
        more = [b'%key: Id', b'%mandatory: A', b'%unique: Id', b'%singular: A', b'%allowed: A B Id', b'%prohibit: C', b'%%auto: A%d %s' % (r.randint(1, 3), b'M' * r.choice([1, 64, 65, 200])), b'%size: <= 4', b'%auto: Id A\n%type: Id,A range 9', b'%auto: B\n%type: B range -3 0']
        text = b'%rec: T\n' + rules + b''.join(rule + b'\n' for rule in r.sample(more, r.choice([0, 0, 1, 2]))) + b'\n' + records
        text = r.choice([b'', b'', b'Id: 70\n\n']) + text + r.choice([b'', b'', b'\n%rec: U\n%auto: Id\n\nId: 900\n'])
        names = [b'Page', b'Page', b'B', b'A', b'Id', b'L' * 65]
        values = [b'x', b'1', b'', b'12', b'-3', b'a\nb', b'a\\']
        return text, [tagged(1, b'\1') + tagged(2, b'T') + b''.join(tagged(4, r.choice(names[:r.choice([2, 5, 5, 6])])) + tagged(6, r.choice(values[:r.choice([2, 5, 7])])) for _ in range(r.choice([1, 1, 2, 3]))) for _ in range(count)]

    def entries(self, count):
        """So many entries that hold anything."""
        r = self.random
        return [tuple(r.choice([0, 1, 7, 500, 2 ** 16, 2 ** 64 - 1]) for _ in range(3)) for _ in range(count)]

    def request(self, sets):
        r = self.random
        kind = r.randint(1, 6)
        out = tagged(1, bytes([kind])) + tagged(2, r.choice(sets if r.random() < .93 else [b'X', b'\x00S']))
        value = r.choice([v.encode() for v in VALUES] + [b'a\nb', b'x\\\ny', b'\n', b'\x01', b'a\\', b'11'])
        name = r.choice(NAMES).encode()
        new = r.choice([b'A', b'B', b'Id', b'C', b'Q', b'%x', b'1', b'', b'L' * 65])
        if kind == 1:
            pairs = [(b'Id', b'%d' % r.randint(1, 20))] if r.random() < .6 else []
            pairs += [(r.choice([b'A', b'B', b'Page']), value)] + [(r.choice(NAMES[:2]).encode(), b'x')] * r.randint(0, 1)
            out += b''.join(tagged(4, n) + tagged(6, v) for n, v in pairs)
        else:
            out += tagged(3, number(r.choice([0, 0, 0, 0, 1, 1, 2, 300])))
            if kind == 3:
                out += tagged(4, r.choice([name, name, new])) + tagged(6, value)
            if kind >= 4:
                out += tagged(4, name) + tagged(5, number(r.choice([0, 0, 0, 1, 2])))
            if kind == 4:
                out += tagged(6, value)
            if kind == 6:
                out += tagged(7, new)
        turn = r.random()
        if turn < .03:
            out = out[:-1]
        elif turn < .05:
            out += b'\x00'
        elif turn < .08:
            at = r.randrange(len(out))
            out = out[:at] + bytes([r.randrange(256)]) + out[at + 1:]
        return out
