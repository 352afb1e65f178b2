"""Files for bench/run.py: the receipt book and the key-only file of any size, and files of up to 65,536 bytes that pass the check and are
shaped to make it slow. A joint is a backslash and a newline: it joins two lines and adds nothing to a value."""
import bisect
import functools

LIMIT = 65536
LETTERS = b'ABCDEFGHIJKLMNOPQRSTUVWXYZabcdefghijklmnopqrstuvwxyz'
LETTERS_DIGITS = LETTERS + b'0123456789'
PAIRS = [bytes((a, b)) for a in LETTERS for b in LETTERS_DIGITS]
HEAD = b'%rec: Scan\n'
THREE = (b'unique', b'allowed', b'mandatory')
UUID = b'0123abcd-45ef-6789-abcd-0123456789ef'


def filled(head, record, limit=LIMIT):
    """head, then records by number, as many as fit; and how many."""
    parts, size, count = [head], len(head), 0
    while size + len(record(count + 1)) <= limit:
        count += 1
        parts.append(record(count))
        size += len(parts[-1])
    return b''.join(parts), count


def book(limit):
    head = HEAD + b'%key: Id\n%type: Id int\n%mandatory: Page\n\n'
    return filled(head, lambda n: b'Id: %d\nPage: front\nTotal: %d.50\n\n' % (n, n % 90 + 10), limit)


def only_keys(limit):
    return filled(HEAD + b'%key: K\n\n', lambda n: b'K: %d\n\n' % n, limit)


def four(n):
    """Four letters by number."""
    return bytes(LETTERS[n // 52 ** i % 52] for i in (3, 2, 1, 0))


def long_keys(limit, last):
    """Keys of 64 bytes that differ in four, the last or the first."""
    return filled(HEAD + b'%key: K\n\n', lambda n: b'K: %s%s\n\n' % ((b'k' * 60, four(n)) if last else (four(n), b'k' * 60)), limit)


def keyed(keys, head=HEAD + b'%key: K\n'):
    """Records of one field, the key."""
    return filled(head + b'\n', lambda n: b'K: ' + keys[n - 1] + b'\n\n' if n <= len(keys) else bytes(LIMIT))[0]


def full(head, lines, each=200, limit=LIMIT):
    """A descriptor, then records of some fields each, the lines again and again, as many whole records as fit."""
    return filled(head + b'\n', lambda n: b''.join(lines[i % len(lines)] for i in range(each * (n - 1), each * n)) + b'\n', limit)[0]


M, SIZE = 2654435761, 1 << 32


def mixed(text):
    """The bytes of a text mixed into one number, as `sorting::mix` does: a byte b turns h into (h + b) * M mod 2^32."""
    h = 2166136261
    for b in text:
        h = (h + b) * M % SIZE
    return h


@functools.lru_cache
def triples(behind):
    """What three bytes add to a mix with so many bytes behind them, whatever stands before them, in order; and the bytes."""
    texts = [bytes((a, b, c)) for a in LETTERS_DIGITS for b in LETTERS_DIGITS for c in LETTERS_DIGITS]
    power = pow(M, behind, SIZE)
    adds = sorted(((t[0] * M ** 3 + t[1] * M ** 2 + t[2] * M) * power % SIZE, t) for t in texts)
    return [add for add, _ in adds], [t for _, t in adds]


def alike(count, bits, front=b'', width=1, end=b''):
    """Texts of one fingerprint, which is the upper bits of the mix: front, width letters, three letters or digits that make it 0, and end."""
    (adds, threes), texts, number = triples(len(end)), [], 0
    while len(texts) < count:
        begin = front + bytes(LETTERS[number // 52 ** i % 52] for i in range(width))
        number += 1
        low = -mixed(begin + bytes(3) + end) % SIZE
        at = bisect.bisect_left(adds, low)
        while at < len(adds) and adds[at] < low + (SIZE >> bits):
            texts.append(begin + threes[at] + end)
            at += 1
    return texts[:count]


def types(names, kinds):
    """A `%type` field of the names for each kind."""
    return b''.join(b'%type: ' + names + b' ' + kind + b'\n' for kind in kinds)


def of_types(kinds, value, each=200, head=b''):
    """Records of the field A with this value, which is of all these types; typedefs stand in the head."""
    return full(HEAD + head + types(b'A', kinds), [b'A: ' + value + b'\n' if value else b'A:\n'], each)


def chain(last, name=b'T', alias=b'T'):
    """32 typedefs, each but the last an alias of the next: the front of their names, and the same as an alias writes it."""
    return b''.join(b'%typedef: ' + name + b'%d ' % i + (alias + b'%d' % (i + 1) if i < 31 else last) + b'\n' for i in range(32))


def enum(symbols):
    return b'enum ' + b' '.join(symbols)


def lists(words, *names):
    return b''.join(b'%' + name + b': ' + b' '.join(words) + b'\n' for name in names)


def joints(size):
    return b'\\\n' * (size // 2)


def aliases():
    """A type behind 31 aliases, 32 times."""
    return of_types([b'T0'] * 32, b'5', head=chain(b'int'))


def enums():
    """Shapes of `enum` types."""
    symbols = PAIRS[:1360]
    backward = b'%typedef: T0 ' + enum(symbols) + b'\n' + b''.join(b'%%typedef: T%d T%d\n' % (i, i - 1) for i in range(1, 32))
    one_print, single = alike(800, 10), [LETTERS[i % 52:i % 52 + 1] for i in range(2040)]
    rows = [PAIRS[13 * i:13 * i + 300] for i in range(32)]
    own = b''.join(types(PAIRS[i], [enum(row)]) for i, row in enumerate(rows))
    long, longs = alike(60, 10, b's' * 60), alike(840, 10, b's' * 60)
    return {
        '31 aliases of an enum, 32 types': of_types([b'T31'] * 32, symbols[-1], head=backward),
        '31 aliases of an enum, 32 types, last first': of_types([b'T0'] * 32, symbols[-1], head=chain(enum(symbols))),
        '8 enums of one field': of_types([enum(symbols)] * 8, symbols[-1]),
        'one enum': of_types([enum(symbols)], symbols[-1]),
        'one enum, all symbols': full(HEAD + types(b'A', [enum(symbols)]), [b'A: ' + s + b'\n' for s in symbols]),
        '8 enums, one fingerprint': full(HEAD + types(b'A', [enum(one_print)] * 8), [b'A: ' + s + b'\n' for s in one_print]),
        '8 enums of their own, one fingerprint': full(HEAD + b''.join(types(LETTERS[i:i + 1], [enum(one_print)]) for i in range(8)),
                                                      [LETTERS[i % 8:i % 8 + 1] + b': ' + one_print[7 * i % 800] + b'\n' for i in range(800)]),
        '32 enums of their own': full(HEAD + own, [PAIRS[i % 32] + b': ' + rows[i % 32][i % 300] + b'\n' for i in range(9600)]),
        '32 enums of one field': of_types([enum(symbols[:300])] * 32, symbols[299]),
        '32 enums of one symbol': of_types([b'enum a'] * 32, b'a'),
        '8 enums of one-byte symbols': full(HEAD + types(b'A', [enum(single)] * 8), [b'A: ' + s + b'\n' for s in single]),
        '15 enums of one-byte symbols': full(HEAD + types(b'A', [enum(single)] * 15), [b'A: ' + s + b'\n' for s in single]),
        '16 enums of comments': of_types([b'enum' + b'(c) a' * 400 + b' b'] * 16, b'b'),
        '8 enums behind long comments': of_types([b'enum (' + b'c' * 4000 + b') b'] * 8, b'b'),
        'long symbols, one fingerprint': full(HEAD + types(b'A', [enum(long)] * 8), [b'A: ' + s + b'\n' for s in long]),
        '14 enums of long symbols of their own, one fingerprint': full(HEAD + b''.join(types(PAIRS[i], [enum(longs[60 * i:60 * i + 60])]) for i in range(14)),
                                                                       [PAIRS[i % 14] + b': ' + longs[60 * (i % 14)] + b'\n' for i in range(14)], 14),
        '32 enums of one long symbol': of_types([b'enum ' + b's' * 60] * 32, b's' * 60, 20),
        '11 enums of one-byte symbols': full(HEAD + types(b'A', [enum(single)] * 11), [b'A: ' + s + b'\n' for s in single]),
        'enum of a typedef each': of_types([b'T%d' % i for i in range(32)], rows[0][-1],
                                           head=b''.join(b'%%typedef: T%d ' % i + enum(rows[0]) + b'\n' for i in range(32))),
    }


def names():
    """Shapes of many or long names."""
    wide = [PAIRS[i * 269:i * 269 + 1340] for i in range(8)]
    short = b','.join(LETTERS[i % 52:i % 52 + 1] for i in range(2040))
    crafted = alike(6500, 10)
    rows = [crafted[i:i + 800] for i in range(0, 6400, 800)]
    common = [b'N' * 62 + pair for pair in PAIRS[:64]]
    craft64, craft900 = alike(60, 10, b'N' * 60), alike(840, 10, b'N' * 60)
    every = b','.join(common[:60])
    long = [b'N' * 600 + pair for pair in PAIRS[:32]]
    return {
        '8 types of 1,340 names': full(HEAD + b''.join(types(b','.join(row), [b'line']) for row in wide), [b'zz:\n']),
        '8 enum types of 1,340 names': full(HEAD + b''.join(types(b','.join(row), [enum(PAIRS[:20])]) for row in wide),
                                            [name + b': ' + PAIRS[19] + b'\n' for name in wide[0]]),
        'names of one fingerprint, others in records': full(HEAD + b''.join(types(b','.join(row), [b'line']) for row in rows), [n + b':\n' for n in crafted[6400:]]),
        'names of one fingerprint, in records too': full(HEAD + b''.join(types(b','.join(row), [b'line']) for row in rows), [n + b':\n' for n in crafted]),
        'names of one fingerprint, 8 times each': full(HEAD + types(b','.join(rows[0]), [b'line'] * 8), [n + b':\n' for n in rows[0]]),
        'half names, half records': full(HEAD + b''.join(types(b','.join(row), [b'int']) for row in wide), [n + b': 7\n' for row in wide for n in row]),
        'one name 2,000 times in 8 types': full(HEAD + types(b'A,' * 2000 + b'A', [b'int'] * 8), [b'A: 5\n']),
        'one-byte names in 8 types': full(HEAD + types(short, [b'line'] * 8), [LETTERS[i:i + 1] + b':\n' for i in range(52)]),
        'one-byte names in 11 types': full(HEAD + types(short, [b'line'] * 11), [LETTERS[i:i + 1] + b':\n' for i in range(52)]),
        'one-byte names in 15 types': full(HEAD + types(short, [b'line'] * 15), [b'z:\n']),
        'long names in 15 types': full(HEAD + types(every, [b'line'] * 15), [n + b':\n' for n in common[:60]]),
        'long names of one fingerprint in 14 types': full(HEAD + b''.join(types(b','.join(craft900[i:i + 60]), [b'line']) for i in range(0, 840, 60)), [n + b':\n' for n in craft900], 20),
        'long names in all lists': full(HEAD + lists(common[:60], *THREE) + lists([b'M' * 61 + p for p in PAIRS[:63]], b'prohibit'), [n + b':\n' for n in common[:60]], 60),
        'long names of one fingerprint in all lists': full(HEAD + lists(craft64, *THREE) + types(b','.join(craft64), [b'line']), [n + b':\n' for n in craft64], 60),
        'names of 4,000 bytes in all lists': full(HEAD + lists([b'N' * 4000], b'unique', b'prohibit', b'allowed') * 2 + lists([b'A'], b'allowed'), [b'A:\n']),
        'typedef names of 2,000 bytes': of_types([b'int'], b'5', 1, b''.join(b'%typedef: ' + b'N' * 2000 + pair + b' int\n' for pair in PAIRS[:32])),
        'long typedef names': of_types([long[0]] * 32, b'5', 1, b''.join(b'%typedef: ' + a + b' ' + b + b'\n' for a, b in zip(long, long[1:] + [b'int']))),
        'long typedef names, last first': of_types([long[-1]] * 32, b'5', 1, b''.join(b'%typedef: ' + a + b' ' + b + b'\n' for a, b in zip(long, [b'int'] + long))),
        '31 aliases of int, 32 types': aliases(),
        '64 long set names': full(b'\n'.join(b'%rec: ' + b'S' * 1000 + pair + b'\n' for pair in PAIRS[:64]), [b'A:\n'], 1),
    }


def listed():
    """Shapes of lists, with few and many fields in a record."""
    words = PAIRS[:64]
    lines = [w + b':\n' for w in words]
    others = lists([b'Q' + p for p in words], b'prohibit')
    same, numbers, print64 = [b'A'] * 64, [b'%d' % n for n in range(9000)], alike(128, 10)
    return {
        '64 words in three lists': full(HEAD + lists(words, b'unique', b'allowed') + others, lines, 64),
        '64 words in four lists': full(HEAD + lists(words, *THREE) + others, lines, 64),
        '64 words in three lists, 256 fields a record': full(HEAD + lists([b'U' + p for p in words], b'unique') + lists(words, b'allowed') + others, lines, 256),
        '64 words in lists of one each': full(HEAD + b''.join(lists([w], *THREE) for w in words), lines, 64),
        'one name 64 times in three lists': full(HEAD + lists(same, *THREE) + others, [b'A:\n'], 1),
        'one name 64 times in three lists, 32 types': of_types([b'line'] * 32, b'', 1, lists(same, *THREE)),
        'one name 64 times in three lists, 32 enums': of_types([b'enum a'] * 32, b'a', 1, lists(same, *THREE)),
        'one name 64 times in three lists, 32 types, the key': keyed(numbers, HEAD + b'%key: K\n' + lists([b'K'] * 64, *THREE) + types(b'K', [b'int'] * 32)),
        'one long name 64 times in three lists, 32 types': full(HEAD + lists([b'N' * 60] * 64, *THREE) + types(b'N' * 60, [b'line'] * 32), [b'N' * 60 + b':\n'], 1),
        'one name of 20 bytes 64 times in three lists, 32 types': full(HEAD + lists([b'N' * 20] * 64, *THREE) + types(b'N' * 20, [b'line'] * 32), [b'N' * 20 + b':\n'], 1),
        '64 mandatory words behind 192 fields': full(HEAD + lists(words, b'mandatory', b'unique'), [b'zz:\n'] * 192 + lines, 256),
        'one name 64 times as the only allowed': of_types([b'line'] * 32, b'', 256, lists(same, b'allowed')),
        'prohibited names of one fingerprint': full(HEAD + lists(print64[:64], b'prohibit', b'unique'), [w + b':\n' for w in print64[64:]]),
        'a key and 64 words in three lists': keyed(numbers, HEAD + b'%key: K\n' + lists([b'K'] * 64, *THREE) + others),
        'a size rule': full(HEAD + b'%size: <= 65535\n', [b'A:\n'], 1),
    }


SHORT = {b'int': b'5', b'range 0 99': b'7', b'real': b'1.5', b'line': b'', b'size 9': b'', b'bool': b'no', b'field': b'B', b'uuid': UUID, b'range MIN MAX': b'-0x7f'}
LONG = {b'int': b'0' * 4090, b'range 0 99': b'0x' + b'0' * 4000, b'real': b'1' * 4090, b'line': b'x' * 4090, b'size 4096': b'x' * 4096, b'field': b'F' * 4090,
        b'enum a b': b' ' * 4000 + b'b', b'bool': b' ' * 4000 + b'true', b'uuid': UUID + b' ' * 4000, b'range MIN MAX': b' ' * 2000 + b'7' + b' ' * 2000}


def kinds():
    """Shapes of many types of one field, with short and with long values. No value meets all nine kinds: an int is no name."""
    out = {}
    for kind, value in SHORT.items():
        out['32 %s, short values' % kind.decode()] = of_types([kind] * 32, value)
    for kind, value in LONG.items():
        out['32 %s, long values' % kind.decode()] = of_types([kind] * 32, value, 1)
    mixed = [b'int', b'range 9', b'real', b'line', b'size 9', b'enum 0 1', b'bool', b'range -1 1']
    out['32 types of 7 kinds'] = of_types(mixed * 4, b'1')
    out['32 types of 5 kinds'] = of_types([b'field', b'bool', b'line', b'enum no yes', b'size 3', b'bool', b'field', b'line'] * 4, b'yes')
    out['32 types of 4 kinds'] = of_types([b'uuid', b'line', b'size 36', b'enum a ' + UUID] * 8, UUID)
    nine = list(SHORT.items())
    out['nine kinds for nine fields'] = full(HEAD + b''.join(types(LETTERS[i:i + 1], [kind]) for i, (kind, _) in enumerate(nine)),
                                             [LETTERS[i:i + 1] + b': ' + value + b'\n' for i, (_, value) in enumerate(nine)], 9)
    for kind in (b'int', b'real', b'enum 5', b'size 4096'):
        out['32 %s, newlines around' % kind.decode()] = of_types([kind] * 32, b'\n+' * 2000 + b' 5' + b'\n+' * 2000, 1)
    return out


def keys():
    """Shapes of keys."""
    return {
        'crafted keys': keyed(alike(6000, 16, width=3)),
        'crafted keys with a common front of 60': keyed(alike(900, 16, b'k' * 60, 3)),
        'crafted keys with a common front of 500': keyed(alike(130, 16, b'k' * 500, 3)),
        'crafted keys with a common end of 60': keyed(alike(900, 16, width=3, end=b'k' * 60)),
        'crafted keys with a common end of 500': keyed(alike(130, 16, width=3, end=b'k' * 500)),
        'crafted keys with a common end of 30 plus lines': keyed([k.replace(b'\n', b'\n+ ') for k in alike(600, 16, width=3, end=b'\n' * 30)]),
        'crafted keys of 4,000 bytes': keyed(alike(16, 16, b'k' * 4000, 3)),
        'keys that differ in the last byte': keyed([b'k' * 4000 + bytes((a,)) for a in LETTERS]),
        'keys of 60 bytes with a common front': keyed([b'k' * 60 + b'%d' % n for n in range(1000, 2000)]),
        'crafted keys in joined lines': keyed([b'\\\n'.join(k[i:i + 1] for i in range(len(k))) for k in alike(6000, 16, width=3)]),
        'crafted keys in plus lines': keyed([k.replace(b'\n', b'\n+ ') for k in alike(6000, 16, b'x\n', 3)]),
        'crafted keys of 100 plus lines': keyed([k.replace(b'\n', b'\n+') for k in alike(400, 16, b'\n' * 100, 3)]),
        'crafted keys behind 50 joints': keyed([joints(100) + k for k in alike(600, 16, width=3)]),
        'crafted keys behind 500 joints': keyed([joints(1000) + k for k in alike(64, 16, width=3)]),
        'keys of backslashes': keyed([b'\\' * (n // 50 + 20) + LETTERS[n % 50:n % 50 + 1] for n in range(2000)]),
        'empty key in 64 sets': b''.join(b'%%rec: S%d\n%%key: K\n\nK:\n\n' % i for i in range(64)).ljust(LIMIT, b'\n'),
    }


def singular(names, values, head=b'', each=250):
    """Fields of singular names, one of each name and value, some of them a record."""
    lines = [n + b': ' + v + b'\n' for v in values for n in names]
    return filled(HEAD + head + b'%singular: ' + b' '.join(names) + b'\n\n', lambda n: b''.join(lines[each * (n - 1):each * n]) + b'\n' if each * (n - 1) < len(lines) else bytes(LIMIT))[0]


def singulars():
    """Shapes of singular names."""
    letters, one = [b'%c' % c for c in LETTERS], [b'S']
    bytes_ = [bytes((c,)) for c in (*range(33, 92), *range(93, 127), *range(160, 256))]
    return {
        'singular values of two bytes': singular(one, [a + b for a in bytes_ for b in bytes_]),
        'singular names with one-byte values': singular(letters, bytes_),
        '64 singular names with one-byte values': singular(PAIRS[:64], bytes_),
        'the last of 64 singular names': singular(one, [b'%d' % n for n in range(9000)], b'%singular: ' + b' '.join(PAIRS[:63]) + b'\n'),
        'crafted singular values': singular(one, alike(9000, 10)),
        'crafted singular values of 52 names': singular(letters, alike(200, 10)),
        'crafted singular values with a common front of 60': singular(one, alike(1000, 10, b'k' * 60)),
        'crafted singular values with a common tail of 60': singular(one, alike(1000, 10, end=b'k' * 60)),
        'crafted singular values with a common tail of 500': singular(one, alike(130, 10, end=b'k' * 500), each=10),
        'crafted singular values in joined lines': singular(one, [b'\\\n'.join(v[i:i + 1] for i in range(len(v))) for v in alike(7000, 10)]),
        'crafted singular values in plus lines': singular(one, [v.replace(b'\n', b'\n+ ') for v in alike(6000, 10, b'x\n')]),
        'crafted singular values behind 50 joints': singular(one, [joints(100) + v for v in alike(600, 10)]),
        'singular values of 4,000 bytes': singular(one, [b'%c' % c + b'k' * 4000 for c in LETTERS], each=1),
    }


NUMBERED = [b'N%02d' % k for k in range(64)]
INSERTED = 6144     # the most that an insert into a shape of `%auto` names writes


def numbered(limit, there):
    """The book with 64 `%auto` names; they are there in each record, or in none."""
    fields = b''.join(n + b': %d\n' for n in NUMBERED) if there else b''
    return filled(HEAD + lists(NUMBERED, b'auto') + types(b','.join(NUMBERED), [b'int']) + b'\n', lambda n: b'Page: front\n' + fields.replace(b'%d', b'%d' % n) + b'\n', limit)[0]


def autos():
    """Shapes of `%auto` names, with room for an insert into the set that gets all their numbers."""
    words, common, crafted = PAIRS[:64], [b'N' * 62 + pair for pair in PAIRS[:60]], alike(60, 10, b'N' * 60)
    many = b','.join(PAIRS[:600])

    def counted(names, kinds, lines, each=200, head=b''):
        return full(HEAD + head + lists(names, b'auto') + (types(b','.join(names), kinds) if kinds else b''), lines, each, LIMIT - INSERTED)

    def fives(names):
        return [n + b': 5\n' for n in names]

    return {
        '64 auto names in each record': counted(words, [b'int'], fives(words), 64),
        '64 auto names without a type': counted(words, [], fives(words), 64),
        '64 auto names, none in a record': counted(words, [b'int'], [b'zz:\n'], 1),
        'all fields of one auto name': counted([b'A'], [b'int'], [b'A: 5\n'], 256),
        'one auto name 64 times': counted([b'A'] * 64, [], [b'A: 5\n'], 1),
        '64 auto names in lists of one each': counted(words[63:], [], fives(words), 64, b''.join(lists([w], b'auto') for w in words[:63])),
        'auto names of 64 bytes with a common front': counted(common, [b'int'], fives(common), 60),
        'auto names of 64 bytes of one fingerprint': counted(crafted, [b'int'], fives(crafted), 60),
        'auto names of one fingerprint': counted(alike(64, 10), [b'int'], fives(alike(128, 10)), 64),
        'auto names of 32 ranges': counted(words, [b'range 0 MAX'] * 32, fives(words), 64),
        'auto names of 14 types of 600 names': counted(words, [], [b'zz:\n'], 1, types(many, [b'int'] * 14)),
        'auto names behind 31 aliases': counted(words, [b'T0'] * 32, fives(words), 64, chain(b'range 0 MAX')),
        'auto values of 4,000 digits': counted([b'A'], [b'int'], [b'A: ' + b'0' * 4000 + b'7\n'], 1),
        'auto values that are no ints': counted([b'A'], [], [b'A: ' + b'1' * 200 + b'x\n'], 1),
        'auto values behind joints': counted([b'A'], [b'int'], [b'A: ' + joints(400) + b'5\n'], 10),
        'joints in an auto name': counted([b'A' + joints(50000) + b'B'], [], [b'AB: 5\n']),
        'joints in 64 auto names': counted([p[:1] + joints(840) + p[1:] for p in words], [], fives(words), 64),
        'a joint behind each byte of 15 auto names': counted([b'\\\n'.join(n[i:i + 1] for i in range(64)) for n in common[:15]], [], fives(common), 20),
        '64 sets of 64 auto names': b''.join(b'%%rec: S%d\n' % i + lists(words, b'auto') + types(b','.join(words), [b'int']) + b'\n' for i in range(63)) + counted(words, [b'int'], fives(words), 64)[:30000].rsplit(b'\n\n', 1)[0] + b'\n',
    }


def sets():
    """Shapes of many descriptors."""
    def each(descriptor, records, count=64):
        return b''.join(b'%%rec: S%d\n' % i + descriptor + b'\n' + records for i in range(count))

    small = b'%key: K\n%type: A,B int\n%mandatory: A\n%unique: A\n%allowed: A B K\n%prohibit: C\n%size: > 0\n'
    return {
        '64 sets of few records': each(small, b''.join(b'K: %d\nA: 5\nB: 6\n\n' % n for n in range(53))),
        '64 sets of large descriptors': each(lists(PAIRS[:64], b'unique', b'prohibit') + types(b','.join(PAIRS[100:285]), [b'int']), b'A: 5\n\n'),
        '64 sets of aliases': each(chain(b'int') + types(b'A', [b'T0'] * 32), b'A: 5\n\n'),
        '64 sets of an enum': each(types(b'A', [enum(PAIRS[:320])]), b'A: ' + PAIRS[319] + b'\n\n'),
        '64 descriptors of docs': each(b'%doc: t\n' * 100, b''),
        '64 descriptors of plain fields': each(b'F: t\n' * 160, b''),
        '64 empty sets behind a large default set': b'A:\n\n' * 16000 + each(b'', b''),
        '64 empty sets of a rule each behind it': b'A:\n\n' * 15600 + each(b'%type: A int\n%key: A\n', b''),
        '64 empty sets before a large one': full(each(b'%key: K\n', b'', 63) + HEAD, [b'A:\n'], 1),
        'a large set before 64 empty ones': filled(HEAD + b'%size: >= 0\n%type: A line\n\n', lambda n: b'A:\n\n', 63000)[0] + each(b'%size: 0\n', b'', 63),
        'no descriptor, small records': b'A:\n\n' * 16384,
        'no descriptor, records of 256 fields': full(b'', [b'A:\n'], 256),
    }


def lines():
    """Shapes of lines: blanks, comments, long and short ones."""
    docs, rules = b'%doc: ' + b'd' * 300 + b'\n', types(b'A', [b'T'] * 32) + b'%typedef: T int\n%key: K\n' + lists([b'A'], b'unique', b'mandatory')
    wide = b''.join(PAIRS[i] + b': ' + b'v' * 248 + b'\n' for i in range(256))
    return {
        'blank lines': HEAD + b'%key: A\n\nA: 1\n'.ljust(LIMIT - len(HEAD), b'\n'),
        'one long blank line': HEAD + b'%key: A\n\nA: 1\n' + b' ' * 65000 + b'\n',
        'comments': full(HEAD + b'%key: A\n\nA: 1\n', [b'#\n'], 1),
        'comments within a record': HEAD + b'%key: A\n\nA: 1\n' + b'#\n' * 32000 + b'B: 1\n',
        'comments within a descriptor': HEAD + b'#\n' * 32000 + b'%key: A\n\nA: 1\n',
        'one long comment': HEAD + b'%key: A\n\nA: 1\n#' + b'c' * 65000 + b'\n',
        'small records': full(HEAD + b'%unique: A\n', [b'A:\n'], 1),
        'small records of a type': full(HEAD + types(b'A', [b'line']), [b'A:\n'], 1),
        'one record of 256 long fields': HEAD + b'%unique: Aa\n\n' + wide,
        'a descriptor of 256 fields': HEAD + b'%doc: ' + b'd' * 4000 + b'\n' + (b'Foo: ' + b'x' * 230 + b'\n') * 254 + b'\nA: 1\n',
        'rules behind a long descriptor': HEAD + docs * 208 + rules + b'\nK: 1\nA: 5\n',
        'rules behind plus lines': filled(HEAD + (b'%doc:' + b'\n+' * 4090 + b'\n') * 7 + rules + b'\n', lambda n: b'K: %d\nA: 5\n\n' % n)[0],
        'rules behind joints': filled(HEAD + b'%doc: ' + joints(60000) + b'\n' + rules + b'\n', lambda n: b'K: %d\nA: 5\n\n' % n)[0],
        'half descriptor, half records': filled(HEAD + docs * 106 + rules + b'\n', lambda n: b'K: %d\nA: 5\n\n' % n)[0],
        'values of backslashes': of_types([b'line'] * 32, b'\\' * 4000 + b'x', 1),
        'short values of backslashes': of_types([b'size 3'] * 32, b'\\\\x'),
        'many plus lines': full(HEAD + types(b'A', [b'size 4096'] * 32), [b'A:\n' + b'+\n' * 2044], 1),
        'a plus line in each field': full(HEAD + types(b'A', [b'size 1'] * 32), [b'A:\n+\n']),
        'lists over plus lines': full(HEAD + b'%allowed:' + b''.join(b'\n+ ' + w for w in PAIRS[:64]) + b'\n', [w + b':\n' for w in PAIRS[:64]]),
        'lists with long gaps': full(HEAD + b'%unique: A' + b' ' * 4000 + b'B\n%allowed: C' + b' ' * 4000 + b'A\n%mandatory: C' + b'\n+' * 4000 + b'A\n', [b'C:\nA:\n'], 1),
    }


def joined():
    """Shapes of joints: half of the file in the descriptor, half in records."""
    hole = joints(30000)
    part = joints(900)
    return {
        'joints alone': HEAD + b'%key: A\n\nA: ' + joints(65000) + b'1\n',
        'joints in the key\'s name': keyed([b'%d' % n for n in range(9000)], HEAD + b'%key: ' + hole + b'K\n'),
        'joints in a long key\'s name': filled(HEAD + b'%key: K' + hole + b'ey\n\n', lambda n: b'Key: %d\n\n' % n)[0],
        'joints in a mandatory name': full(HEAD + b'%mandatory: A' + hole + b'B\n', [b'AB:\n'], 1),
        'joints in an allowed name': full(HEAD + b'%allowed: A' + hole + b'B\n', [b'AB:\n']),
        'joints in a unique name': full(HEAD + b'%unique: A' + hole + b'B\n', [b'AB:\n'], 1),
        'joints in one name 64 times in a list': full(HEAD + lists([b'A' + joints(450) + b'B'] * 64, b'unique'), [b'AB:\n'], 1),
        'joints in a typed name': full(HEAD + types(b'A' + hole + b'B', [b'line']), [b'AB:\n']),
        'joints in 32 typed names': full(HEAD + types(b'A' + part + b'B', [b'line'] * 32), [b'AB:\n']),
        'joints in a symbol': of_types([b'enum a' + hole + b'b'], b'ab'),
        'joints in 32 symbols': of_types([b'enum a' + part + b'b'] * 32, b'ab'),
        'joints before symbols': of_types([b'enum ' + part + b'b'] * 32, b'b'),
        'a joint behind each byte of a symbol': of_types([b'enum ' + b'\\\n'.join([b'a'] * 1300)], b'a' * 1300),
        'a joint behind each byte of 32 symbols': of_types([b'enum ' + b'\\\n'.join([b'a'] * 300)] * 32, b'a' * 300),
        'joints in a range': of_types([b'range ' + part + b'0 9'] * 32, b'5'),
        'joints behind a typed name': of_types([part + b'int'] * 32, b'5'),
        'joints in aliases': of_types([b'T' + part + b'0'] * 32, b'5', head=chain(b'int', alias=b'T' + part)),
        'joints in typedefs\' names': of_types([b'T0'] * 32, b'5', head=chain(b'int', name=b'T' + part)),
        'joints in all types\' names': of_types([b'T' + joints(600) + b'0'] * 32, b'5', head=chain(b'int', b'T' + joints(600), b'T' + joints(600))),
        'joints in 64 sets\' names': b''.join(b'%rec: S' + joints(1000) + b'%d\n\nA:\n\n' % i for i in range(64)),
        'joints in a size rule': full(HEAD + b'%size: ' + hole + b'>= 0\n', [b'A:\n'], 1),
        'joints in values of 32 ints': of_types([b'int'] * 32, part + b'5', 1),
        'joints in values of 32 reals': of_types([b'real'] * 32, part + b'5', 1),
        'joints in values of 32 lines': of_types([b'line'] * 32, part + b'5', 1),
        'joints in values of 32 sizes': of_types([b'size 9'] * 32, part + b'5', 1),
        'a joint in each field': of_types([b'line'] * 32, joints(2)),
        'joints in a descriptor\'s doc': filled(HEAD + b'%doc: ' + hole + b'\n%key: K\n\n', lambda n: b'K: %d\n\n' % n)[0],
    }


def shapes():
    """All of them by name."""
    return {**keys(), **singulars(), **autos(), **enums(), **names(), **listed(), **kinds(), **sets(), **lines(), **joined()}
