"""An implementation of the recfile paper in Python, independent of the library and of its definitions.

It is slow and plain: every call reads the file anew. Tests compare the library with it.
"""
import fractions
import itertools
import math
import re

FILE, NAME, VALUE, FIELDS = 65536, 64, 4096, 256
DESCRIPTORS, TYPEDEFS, TYPES, WORDS = 64, 32, 32, 64
RUN = 64
INT_MIN, INT_MAX = -9223372036854775808, 9223372036854775807

ALLOWED = {9, 10} | set(range(32, 127)) | set(range(128, 256))
NAME_RE = re.compile(rb'[A-Za-z%][A-Za-z0-9_]*\Z')
TYPE_NAME_RE = re.compile(rb'[A-Za-z][A-Za-z0-9_]*\Z')
FIELD_LINE_RE = re.compile(rb'([A-Za-z%][A-Za-z0-9_]*):(?:[ \t](.*)|)\Z', re.S)
KINDS = {b'int', b'range', b'real', b'line', b'size', b'enum', b'bool', b'field', b'uuid'}
LISTS = (b'%mandatory', b'%prohibit', b'%allowed', b'%unique', b'%singular', b'%auto')
RESERVED = KINDS | {b'email', b'date', b'regexp', b'rec'}


class No(Exception):
    """A question says no."""

    def __init__(self, number):
        self.number = number


class Piece:
    """A run of the file's bytes: blank (' '), comment ('#') or field (':')."""

    def __init__(self, kind, raw, name=b'', value=b''):
        self.kind, self.raw, self.name, self.value = kind, raw, name, value


def read_pieces(data):
    """The pieces of a file that ends in a newline, or No(3)."""
    lines = data.split(b'\n')[:-1]
    pieces, at, open_field = [], 0, None
    while at < len(lines):
        first = lines[at]
        taken = [first]
        if first.strip(b' \t') == b'':
            pieces.append(Piece(' ', first + b'\n'))
            open_field = None
            at += 1
            continue
        if first.startswith(b'#'):
            pieces.append(Piece('#', first + b'\n'))
            open_field = None
            at += 1
            continue
        m = FIELD_LINE_RE.match(first)
        if m:
            text = m.group(2) or b''
        elif first.startswith(b'+') and open_field is not None:
            text = first[2:] if first[1:2] == b' ' else first[1:]
        else:
            raise No(3)
        at += 1
        while text.endswith(b'\\'):
            if at == len(lines):
                raise No(3)
            text = text[:-1]
            taken.append(lines[at])
            if not lines[at].endswith(b'\\'):
                text += lines[at]
                at += 1
                break
            text += lines[at]
            at += 1
        raw = b''.join(line + b'\n' for line in taken)
        if m:
            open_field = Piece(':', raw, m.group(1), text)
            pieces.append(open_field)
        else:
            open_field.raw += raw
            open_field.value += b'\n' + text
    return pieces


def blocks_of(pieces):
    """Runs of pieces (as index ranges) without a blank line."""
    out, start = [], 0
    for i, p in enumerate(pieces + [Piece(' ', b'')]):
        if p.kind == ' ':
            out.append((start, i))
            start = i + 1
    return out


class Set:
    def __init__(self, name, descriptor):
        self.name, self.descriptor, self.records = name, descriptor, []


class Record:
    """The indices of a record's fields among the pieces, and its block."""

    def __init__(self, block, fields):
        self.block, self.fields = block, fields


def gaps_split(text):
    return [w for w in re.split(rb'[ \t\n]+', text) if w]


def names_of(pieces, record):
    return [pieces[i].name for i in record.fields]


def values(pieces, record, name):
    return [pieces[i].value for i in record.fields if pieces[i].name == name] if record else []


def read_sets(pieces):
    sets = [Set(b'', None)]
    for block in blocks_of(pieces):
        fields = [i for i in range(*block) if pieces[i].kind == ':']
        if not fields:
            continue
        r = Record(block, fields)
        recs = values(pieces, r, b'%rec')
        if recs:
            words = gaps_split(recs[0])
            sets.append(Set(words[0] if words else b'', r))
        else:
            sets[-1].records.append(r)
    return sets


def parse_int(word):
    m = re.match(rb'(-?)(0x[0-9a-fA-F]+|0[0-7]*|[1-9][0-9]*)\Z', word)
    if not m:
        return None
    digits = m.group(2)
    n = int(digits, 16) if digits.startswith(b'0x') else int(digits, 8) if digits.startswith(b'0') else int(digits)
    n = -n if m.group(1) else n
    return n if INT_MIN <= n <= INT_MAX else None


def parse_size(word):
    n = parse_int(word)
    return n if n is not None and n >= 0 else None


def parse_size_rule(text):
    words = gaps_split(text)
    if len(words) == 1:
        n = parse_size(words[0])
        return None if n is None else ('==', n)
    if len(words) == 2 and words[0] in (b'<', b'<=', b'>', b'>='):
        n = parse_size(words[1])
        return None if n is None else (words[0].decode(), n)
    return None


def parse_type(text):
    """(kind, ..) or ('alias', name); None for a fault."""
    body = text.lstrip(b' \t\n')
    if body == b'enum' or re.match(rb'enum[ \t\n(]', body):
        out, depth = b'', 0
        for c in body[4:].decode('latin-1'):
            if c == '(':
                if depth:
                    return None
                depth = 1
                out += b' '
            elif c == ')':
                if not depth:
                    return None
                depth = 0
            elif not depth:
                out += c.encode('latin-1')
        words = gaps_split(out)
        if depth or not words or not all(re.match(rb'[A-Za-z0-9][A-Za-z0-9_-]*\Z', w) for w in words):
            return None
        return ('enum', words)
    words = gaps_split(text)
    if not words:
        return None
    kind, rest = words[0], words[1:]
    if kind in (b'int', b'real', b'line', b'bool', b'field', b'uuid'):
        return None if rest else (kind.decode(),)
    if kind == b'range':
        ends = [INT_MIN if w == b'MIN' else INT_MAX if w == b'MAX' else parse_int(w) for w in rest]
        if None in ends or len(ends) not in (1, 2):
            return None
        return ('range', 0, ends[0]) if len(ends) == 1 else ('range', ends[0], ends[1])
    if kind == b'size':
        n = parse_size(rest[0]) if len(rest) == 1 else None
        return None if n is None else ('size', n)
    if rest or not TYPE_NAME_RE.match(kind):
        return None
    return ('alias', kind)


def head_word(text):
    """The first word, and the text behind it."""
    m = re.match(rb'[ \t\n]*([^ \t\n]*)', text)
    return m.group(1), text[m.end():]


def resolve(defs, t):
    seen = set()
    while t is not None and t[0] == 'alias':
        if t[1] in seen or t[1] not in defs:
            return None
        seen.add(t[1])
        t = defs[t[1]]
    return t


def meets(t, value):
    bare = value.strip(b' \t\n')
    kind = t[0]
    if kind == 'int':
        return parse_int(bare) is not None
    if kind == 'range':
        n = parse_int(bare)
        return n is not None and t[1] <= n <= t[2]
    if kind == 'real':
        return re.match(rb'-?[0-9]+(\.[0-9]+)?\Z', bare) is not None
    if kind == 'line':
        return b'\n' not in value
    if kind == 'size':
        return len(re.sub(rb'[\x80-\xbf]', b'', value)) <= t[1]
    if kind == 'enum':
        return bare in t[1]
    if kind == 'bool':
        return bare in (b'yes', b'no', b'0', b'1', b'true', b'false')
    if kind == 'field':
        return NAME_RE.match(bare) is not None
    return re.match(rb'[0-9a-fA-F]{8}-[0-9a-fA-F]{4}-[0-9a-fA-F]{4}-[0-9a-fA-F]{4}-[0-9a-fA-F]{12}\Z', bare) is not None


def listed(pieces, record, name):
    return [w for v in values(pieces, record, name) for w in gaps_split(v)]


def ask_limits(pieces, sets, number=4):
    for s in sets:
        for r in ([s.descriptor] if s.descriptor else []) + s.records:
            if len(r.fields) > FIELDS:
                raise No(number)
            for i in r.fields:
                if len(pieces[i].name) > NAME or len(pieces[i].value) > VALUE:
                    raise No(number)
        if s.descriptor:
            if len(values(pieces, s.descriptor, b'%typedef')) > TYPEDEFS or len(values(pieces, s.descriptor, b'%type')) > TYPES:
                raise No(number)
            if any(len(listed(pieces, s.descriptor, n)) > WORDS for n in LISTS):
                raise No(number)
    if len(sets) - 1 > DESCRIPTORS:
        raise No(number)


def ask_descriptors(pieces, sets):
    for s in sets:
        for r in ([s.descriptor] if s.descriptor else []) + s.records:
            if any(n.startswith(b'%') for n in names_of(pieces, r)) and names_of(pieces, r).count(b'%rec') != 1:
                raise No(5)
    names = [s.name for s in sets[1:]]
    for s in sets[1:]:
        fields = [pieces[i] for i in s.descriptor.fields]
        for f in fields:
            words = gaps_split(f.value)
            if f.name == b'%rec':
                good = len(words) == 1 and TYPE_NAME_RE.match(words[0])
            elif f.name in LISTS:
                good = words and all(NAME_RE.match(w) for w in words) and not (f.name == b'%auto' and any(w.startswith(b'%') for w in words))
            elif f.name == b'%key':
                good = len(words) == 1 and NAME_RE.match(words[0])
            elif f.name == b'%size':
                good = parse_size_rule(f.value) is not None
            else:
                good = f.name in (b'%doc', b'%typedef', b'%type') or not f.name.startswith(b'%')
            if not good:
                raise No(6)
        if [f.name for f in fields].count(b'%key') > 1 or [f.name for f in fields].count(b'%size') > 1:
            raise No(6)
    if len(set(names)) != len(names):
        raise No(6)
    for s in sets[1:]:
        read_types(pieces, s.descriptor)
        if not autos_counted(pieces, s.descriptor):
            raise No(7)


def read_types(pieces, descriptor):
    """The list of (names, type) that %type fields give, or No(7)."""
    defs, out = {}, []
    for v in values(pieces, descriptor, b'%typedef'):
        name, rest = head_word(v)
        t = parse_type(rest)
        if not TYPE_NAME_RE.match(name) or name in RESERVED or name in defs or t is None:
            raise No(7)
        defs[name] = t
    for t in defs.values():
        if resolve(defs, t) is None:
            raise No(7)
    for v in values(pieces, descriptor, b'%type'):
        names, rest = head_word(v)
        t = parse_type(rest)
        if not all(NAME_RE.match(n) for n in names.split(b',')) or t is None or resolve(defs, t) is None:
            raise No(7)
        out.append((names.split(b','), resolve(defs, t)))
    return out


def types_of(pieces, descriptor, name):
    return [t for names, t in read_types(pieces, descriptor) if name in names]


def autos_counted(pieces, descriptor):
    """Is every type of a name of the %auto lists int or range?"""
    return all(t[0] in ('int', 'range') for n in listed(pieces, descriptor, b'%auto') for t in types_of(pieces, descriptor, n))


def next_number(pieces, s, name):
    """The least int above every int in the fields of a name, not below 0, that meets their types; None where there is none."""
    there = [parse_int(v.strip(b' \t\n')) for r in s.records for v in values(pieces, r, name)]
    there = [n for n in there if n is not None]
    types = types_of(pieces, s.descriptor, name)
    # the least one is 0, follows an int that is there, or begins a range
    tried = [0] + [n + 1 for n in there] + [t[1] for t in types if t[0] == 'range']
    fits = [n for n in tried if 0 <= n <= INT_MAX and all(n > m for m in there) and all(meets(t, b'%d' % n) for t in types)]
    return min(fits, default=None)


def completed(pieces, s, pairs):
    """The pairs of an insert with the omitted names of the %auto lists before them, or No(31)."""
    added = []
    for name in listed(pieces, s.descriptor, b'%auto'):
        if name not in [n for n, _ in added + pairs]:
            number = next_number(pieces, s, name)
            if number is None:
                raise No(31)
            added.append((name, b'%d' % number))
    return added + pairs


def ask_rules(pieces, sets, raised=0):
    described = [s for s in sets if s.descriptor]
    rules = {id(s): {n: listed(pieces, s.descriptor, b'%' + n.encode()) for n in ('mandatory', 'prohibit', 'allowed', 'unique', 'singular', 'key')} for s in described}

    def no(number):
        raise No(raised + number)
    for s in described:
        for r in s.records:
            if set(names_of(pieces, r)) & set(rules[id(s)]['prohibit']):
                no(8)
    for s in described:
        if values(pieces, s.descriptor, b'%allowed'):
            for r in s.records:
                if not set(names_of(pieces, r)) <= set(rules[id(s)]['allowed']):
                    no(9)
    for s in described:
        for r in s.records:
            if not set(rules[id(s)]['mandatory'] + rules[id(s)]['key']) <= set(names_of(pieces, r)):
                no(10)
    for s in described:
        for r in s.records:
            if any(names_of(pieces, r).count(n) > 1 for n in rules[id(s)]['unique'] + rules[id(s)]['key']):
                no(11)
    for s in described:
        types = read_types(pieces, s.descriptor)
        for r in s.records:
            for i in r.fields:
                if not all(meets(t, pieces[i].value) for names, t in types if pieces[i].name in names):
                    no(12)
    for s in described:
        for k in rules[id(s)]['key']:
            keys = [values(pieces, r, k)[0] for r in s.records]
            if len(set(keys)) != len(keys):
                no(13)
    for s in described:
        for v in values(pieces, s.descriptor, b'%size'):
            order, n = parse_size_rule(v)
            have = len(s.records)
            if not {'==': have == n, '<': have < n, '<=': have <= n, '>': have > n, '>=': have >= n}[order]:
                no(14)
    for s in described:
        for n in rules[id(s)]['singular']:
            have = [v for r in s.records for v in values(pieces, r, n)]
            if len(set(have)) != len(have):
                no(30)


def passed(buf, used):
    """The pieces and sets of a file that passes; No(..) of the first question else."""
    if used > len(buf) or used > FILE:
        raise No(1)
    data = bytes(buf[:used])
    if not set(data) <= ALLOWED or (data and not data.endswith(b'\n')):
        raise No(2)
    pieces = read_pieces(data)
    sets = read_sets(pieces)
    ask_limits(pieces, sets)
    ask_descriptors(pieces, sets)
    ask_rules(pieces, sets)
    return pieces, sets


def check(buf, used):
    try:
        passed(buf, used)
    except No as no:
        return no.number
    return 0


def find_set(sets, name):
    for s in sets:
        if s.name == name:
            return s
    raise No(21)


def find_record(s, row):
    if row >= len(s.records):
        raise No(22)
    return s.records[row]


def find_field(pieces, r, name, occurrence):
    places = [i for i in r.fields if pieces[i].name == name]
    if occurrence >= len(places):
        raise No(23)
    return places[occurrence]


def count(buf, used, name):
    """(number, count)"""
    try:
        pieces, sets = passed(buf, used)
        return 0, len(find_set(sets, name).records)
    except No as no:
        return no.number, 0


def fetch(buf, used, name, row, field, occurrence, out):
    """(number, length, out after it)"""
    try:
        pieces, sets = passed(buf, used)
        value = pieces[find_field(pieces, find_record(find_set(sets, name), row), field, occurrence)].value
        if len(value) > len(out):
            raise No(27)
        return 0, len(value), value + out[len(value):]
    except No as no:
        return no.number, 0, out


def set_name(buf, used, k, out):
    """(number, length, out after it)"""
    try:
        pieces, sets = passed(buf, used)
        if k >= len(sets):
            raise No(21)
        if len(sets[k].name) > len(out):
            raise No(27)
        return 0, len(sets[k].name), sets[k].name + out[len(sets[k].name):]
    except No as no:
        return no.number, 0, out


def view(buf, used, name, row):
    """(number, start, part)"""
    try:
        pieces, sets = passed(buf, used)
        r = find_record(find_set(sets, name), row)
        start = sum(len(p.raw) for p in pieces[:r.fields[0]])
        return 0, start, b''.join(p.raw for p in pieces[r.fields[0]:r.fields[-1] + 1])
    except No as no:
        return no.number, 0, b''


def request_field(request, at, tag, contents):
    """(place behind the field, request after it)"""
    end = at + 3 + len(contents)
    if len(contents) > 65535 or end > len(request):
        return len(request) + 1, request
    return end, request[:at] + bytes([tag]) + len(contents).to_bytes(2, 'big') + contents + request[end:]


def parse_request(req):
    """(kind, {tag: contents}, pairs) or No(20)."""
    if len(req) > FILE:
        raise No(20)
    fields, at = [], 0
    while at < len(req):
        if at + 3 > len(req):
            raise No(20)
        n = req[at + 1] * 256 + req[at + 2]
        if at + 3 + n > len(req):
            raise No(20)
        fields.append((req[at], bytes(req[at + 3:at + 3 + n])))
        at += 3 + n
    tags = [t for t, _ in fields]
    if tags[:2] != [1, 2] or len(fields[0][1]) != 1:
        raise No(20)
    kind = fields[0][1][0]
    shapes = {2: [3], 3: [3, 4, 6], 4: [3, 4, 5, 6], 5: [3, 4, 5], 6: [3, 4, 5, 7]}
    if kind == 1:
        rest = fields[2:]
        if not rest or len(rest) % 2 or tags[2:] != [4, 6] * (len(rest) // 2):
            raise No(20)
        return 1, {2: fields[1][1]}, [(rest[i][1], rest[i + 1][1]) for i in range(0, len(rest), 2)]
    if kind not in shapes or tags[2:] != shapes[kind]:
        raise No(20)
    got = dict(fields)
    for t in (3, 5):
        if t in got:
            if len(got[t]) != 2:
                raise No(20)
            got[t] = got[t][0] * 256 + got[t][1]
    return kind, got, []


def legal_name(name):
    return NAME_RE.match(name) and len(name) <= NAME and not name.startswith(b'%')


def legal_value(value):
    return len(value) <= VALUE and set(value) <= ALLOWED and not any(line.endswith(b'\\') for line in value.split(b'\n'))


def written(name, value):
    return name + b': ' + value.replace(b'\n', b'\n+ ') + b'\n'


def write(req, out):
    """(number, length, out after it)"""
    try:
        kind, got, pairs = parse_request(req)
        if kind != 1:
            raise No(20)
        if not all(legal_name(n) and legal_value(v) for n, v in pairs):
            raise No(25)
        text = b''.join(written(n, v) for n, v in pairs)
        if len(text) > FILE:
            raise No(26)
        if len(pairs) > FIELDS:
            raise No(104)
        if len(text) > len(out):
            raise No(27)
        return 0, len(text), text + out[len(text):]
    except No as no:
        return no.number, 0, out


def to_fill(buf, used, req):
    """(number, how many of the set's mandatory names and its key neither the draft nor an %auto list names)"""
    try:
        pieces, sets = passed(buf, used)
        kind, got, pairs = parse_request(req)
        if kind != 1:
            raise No(20)
        d = find_set(sets, got[2]).descriptor
        wanted = set(listed(pieces, d, b'%mandatory')) | set(listed(pieces, d, b'%key'))
        return 0, len(wanted - {n for n, _ in pairs} - set(listed(pieces, d, b'%auto')))
    except No as no:
        return no.number, 0


def edited(pieces, sets, req):
    """The new file's bytes, or No(20 to 25 or 31)."""
    kind, got, pairs = parse_request(req)
    s = find_set(sets, got[2])
    raws = [p.raw for p in pieces]
    if kind == 1:
        if not all(legal_name(n) and legal_value(v) for n, v in pairs):
            raise No(25)
        text = b''.join(written(n, v) for n, v in completed(pieces, s, pairs))
        last = s.records[-1] if s.records else s.descriptor
        if last is None:
            return text + (b'\n' if pieces else b'') + b''.join(raws)
        end = last.block[1]
        return b''.join(raws[:end]) + b'\n' + text + b''.join(raws[end:])
    r = find_record(s, got[3])
    if kind == 2:
        return b''.join(raw for i, raw in enumerate(raws) if i not in r.fields)
    if kind == 3:
        if not (legal_name(got[4]) and legal_value(got[6])):
            raise No(25)
        end = r.fields[-1] + 1
        return b''.join(raws[:end]) + written(got[4], got[6]) + b''.join(raws[end:])
    i = find_field(pieces, r, got[4], got[5])
    if kind == 4:
        if not legal_value(got[6]):
            raise No(25)
        raws[i] = written(got[4], got[6])
    elif kind == 5:
        if len(r.fields) == 1:
            raise No(24)
        raws[i] = b''
    else:
        if not legal_name(got[7]):
            raise No(25)
        raws[i] = got[7] + raws[i][len(got[4]):]
    return b''.join(raws)


def edit(buf, used, req):
    """(number, length, buffer after it)"""
    try:
        pieces, sets = passed(buf, used)
        new = edited(pieces, sets, req)
        if len(new) > len(buf) or len(new) > FILE:
            raise No(26)
        pieces = read_pieces(new)
        sets = read_sets(pieces)
        ask_limits(pieces, sets, 104)
        ask_rules(pieces, sets, 100)
    except No as no:
        return no.number, used, buf
    return 0, len(new), new + bytes(max(0, used - len(new))) + buf[max(used, len(new)):]


def requests_in(run):
    """The requests of a run, each after its length (two bytes, high first), or No(29) where the lengths don't add up to it."""
    out = []
    while run:
        end = 2 + int.from_bytes(run[:2], 'big')
        if len(run) < 2 or len(run) < end:
            raise No(29)
        out.append(run[2:end])
        run = run[end:]
    return out


def edit_run(buf, used, run, answers):
    """(number, length, buffer after it, answers after it). The run is read before the file is looked at."""
    try:
        requests = requests_in(run)
        if len(requests) > RUN or len(requests) > len(answers):
            raise No(29)
    except No as no:
        return no.number, used, buf, answers
    numbers = []
    for request in requests:
        number, used, buf = edit(buf, used, request)
        numbers.append(number)
    return 0, used, buf, numbers + answers[len(numbers):]


def entries_of(pieces, sets):
    """An entry for each set, the default set first: the place of its descriptor's block, how many records it has, the byte behind its last record's block."""
    places = list(itertools.accumulate((len(p.raw) for p in pieces), initial=0))
    out = []
    for s in sets:
        last = s.records[-1] if s.records else s.descriptor
        out.append((places[s.descriptor.block[0]] if s.descriptor else 0, len(s.records), places[last.block[1]] if last else 0))
    return out


def fill(buf, used, entries):
    """(number, how many sets, entries after it)"""
    try:
        new = entries_of(*passed(buf, used))
        if len(new) > len(entries):
            raise No(28)
        return 0, len(new), new + entries[len(new):]
    except No as no:
        return no.number, 0, entries


def edit_listed(buf, used, req, entries):
    """(number, length, buffer after it, entries after it)"""
    number, _, _ = fill(buf, used, entries)
    if number:
        return number, used, buf, entries
    number, used, buf = edit(buf, used, req)
    refused, _, entries = fill(buf, used, entries)
    assert not refused
    return number, used, buf, entries


def count_at(entries, position):
    """(number, count)"""
    return (0, entries[position][1]) if position < len(entries) else (21, 0)


def amount(value):
    """What a value adds to a total, exactly; None where it doesn't count."""
    bare = value.strip(b' \t\n')
    return fractions.Fraction(bare.decode()) if re.match(rb'-?[0-9]{1,8}(\.[0-9]{1,6})?\Z', bare) else None


def hundredths(exact):
    """The nearest whole number of hundredths, a half away from zero."""
    size = math.floor(abs(exact) * 100 + fractions.Fraction(1, 2))
    return -size if exact < 0 else size


def total(buf, used, name, field):
    """(number, hundredths, millionths, how many values)"""
    try:
        pieces, sets = passed(buf, used)
        amounts = [amount(v) for r in find_set(sets, name).records for v in values(pieces, r, field)]
        if None in amounts:
            raise No(32)
        exact = sum(amounts, fractions.Fraction(0))
        assert (exact * 1000000).denominator == 1 and abs(exact) < 10 ** 12
        return 0, hundredths(exact), int(exact * 1000000), len(amounts)
    except No as no:
        return no.number, 0, 0, 0


def find(buf, used, name, expression, records):
    """(number, how many, records after it)"""
    import expressions
    return expressions.find(buf, used, name, expression, records)


def merge(buf, used, spare, spare_used):
    """(number, length, buffer after it)"""
    import merging
    return merging.merge(buf, used, spare, spare_used)
