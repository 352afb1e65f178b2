#!/usr/bin/env python3
"""The places in src/ that could be written in a newer form, by point (docs/DESIGN-PASS.md).

  python3 tools/places.py            how many there are of each point
  python3 tools/places.py 3          the places of one point, one a line

A place is counted by its form alone, from the text of the sources: what a place of that form means is for a reader to say.
"""
import glob
import os
import re
import sys

TOP = os.path.dirname(os.path.dirname(os.path.abspath(__file__)))
WORDS = {'fn', 'let', 'mut', 'if', 'else', 'while', 'loop', 'for', 'in', 'match', 'return', 'pub', 'struct', 'enum', 'impl', 'self',
         'Self', 'true', 'false', 'as', 'ref', 'break', 'continue', 'usize', 'bool', 'u8', 'u32', 'u64', 'i64', 'crate', 'const', 'extern'}


def sources():
    for path in sorted(glob.glob(os.path.join(TOP, 'crates', '*', 'src', '*.rt'))):
        text = open(path).read()
        # a comment says nothing of the form, and a clause is no code
        text = re.sub(r'//[^\n]*', lambda m: ' ' * len(m.group(0)), text)
        yield os.path.relpath(path, os.path.join(TOP, 'crates')), text


def block(text, at):
    """The text from the brace at or behind a place to the one that closes it."""
    i = text.index('{', at)
    depth = 0
    for j in range(i, len(text)):
        if text[j] == '{':
            depth += 1
        elif text[j] == '}':
            depth -= 1
            if depth == 0:
                return i, j + 1
    return i, len(text)


def line_of(text, at):
    return text.count('\n', 0, at) + 1


def functions(text):
    """Each function's name, the place of its head, its head with the clauses, and its body."""
    for m in re.finditer(r'^( *)(?:pub(?:\(crate\))? )?(?:extern "C" )?fn (\w+)', text, re.M):
        # the body's brace stands at the end of the head's line or alone in a line of the function's own indent
        end = re.compile(r'^' + m.group(1) + r'\}', re.M).search(text, m.end())
        if not end:
            continue
        whole = text[m.start():end.end()]
        own = re.search(r'^' + m.group(1) + r'\{\n', whole, re.M)
        one = re.search(r'\{\n', whole)
        start = own.start() if own else (one.start() if one else len(whole))
        yield m.group(2), m.start(), whole[:start], whole[start:]


def own_enums(path, text):
    """Enums with one variant that holds something and otherwise bare ones (Option), or with a refusal beside a value (Result)."""
    for m in re.finditer(r'\benum (\w+)(?:<[^>]*>)? ', text):
        i, j = block(text, m.end() - 1)
        body = text[i + 1:j - 1]
        variants, depth, part = [], 0, ''
        for c in body + ',':
            if c in '({':
                depth += 1
            if c in ')}':
                depth -= 1
            if c == ',' and depth == 0:
                if part.strip():
                    variants.append(part.strip())
                part = ''
            else:
                part += c
        full = [v for v in variants if re.search(r'[({]', v)]
        bare = [v for v in variants if not re.search(r'[({]', v)]
        refused = [v for v in full if v.startswith(('Refused', 'Err'))]
        if (len(full) == 1 and len(bare) == 1) or (refused and len(variants) == 2):
            yield line_of(text, m.start()), f'enum {m.group(1)} is an Option or a Result'


def numbers_for_kinds(path, text):
    for m in re.finditer(r'\bstruct (\w+) \{\}', text):
        consts = re.search(r'impl ' + m.group(1) + r' \{(.*?)^\}', text, re.S | re.M)
        n = len(re.findall(r'\bconst \w+: \w+ =', consts.group(1))) if consts else 0
        if n >= 3:
            yield line_of(text, m.start()), f'struct {m.group(1)} holds {n} numbers for kinds'


def refusal_numbers(path, text):
    for name, at, head, body in functions(text):
        if 'extern "C"' in head:
            continue
        if re.search(r'-> u32\b', head) and re.search(r'Refusal::|_no\b|check_answer|judge|lesser', head + body) and 'number(' not in head:
            yield line_of(text, at), f'fn {name} answers a refusal by its number'
        if re.search(r'number: &mut u32', head):
            yield line_of(text, at), f'fn {name} answers a value and, beside it, a flag'
    for m in re.finditer(r'^\s*(?:pub )?number: u32,$', text, re.M):
        yield line_of(text, m.start()), 'a field holds the number of a question'


def point_1(path, text):
    yield from own_enums(path, text)
    yield from numbers_for_kinds(path, text)
    yield from refusal_numbers(path, text)


def shape_of(body):
    names, out = {}, []
    for t in re.findall(r'b?"(?:[^"\\]|\\.)*"|b?\'(?:[^\'\\]|\\.)\'|\w+|[^\s\w]', body):
        if t in WORDS:
            out.append(t)
        elif re.match(r'b?["\']|\d', t):
            out.append('L')
        elif re.match(r'\w', t):
            out.append(names.setdefault(t, f'n{len(names)}'))
        else:
            out.append(t)
    return ' '.join(out)


def point_2():
    shapes = {}
    for path, text in sources():
        for name, at, head, body in functions(text):
            if body.count('\n') >= 5:
                shapes.setdefault(shape_of(body), []).append((path, line_of(text, at), name))
    for group in shapes.values():
        if len(group) > 1:
            first = group[0]
            for path, line, name in group[1:]:
                yield path, line, f'fn {name} has the shape of {first[2]} ({first[0]}:{first[1]})'


def point_3(path, text):
    for m in re.finditer(r'\b(while [^{;]*|loop )\{', text):
        i, j = block(text, m.end() - 1)
        body = text[i:j]
        head = m.group(1)
        steps = re.findall(r'\b(\w+) [+-]= 1;', body)
        tested = [v for v in steps if re.search(r'\b' + v + r'\b', head)]
        indexed = [v for v in steps if re.search(r'\[' + v + r'\]', body)]
        if tested or indexed:
            yield line_of(text, m.start()), f'a loop counts {(tested or indexed)[0]} by hand'


def point_4(path, text):
    for name, at, head, body in functions(text):
        if re.search(r'^(same_bytes|are_equal|same_|at_most$|lesser$|least$|narrow$|precedes|compare)', name):
            yield line_of(text, at), f'fn {name} compares or converts by hand'
    for m in re.finditer(r'\benum (\w+) \{\s*Equal,\s*(?:Before|Less)', text):
        yield line_of(text, m.start()), f'enum {m.group(1)} is an order'


FACTS = {}


def gather_facts():
    facts = {}
    for path, text in sources():
        for name, at, head, body in functions(text):
            for m in re.finditer(r'\brequires (?:\w+ )?\{ (.*?) \}$', head, re.M):
                for part in re.split(r' × ', m.group(1)):
                    fact = part.strip()
                    while fact.startswith('(') and fact.endswith(')') and fact.count('(') == fact.count(')'):
                        fact = fact[1:-1]
                    if re.match(r'(is_readable|table|Described|Numberable|IsRules|SetsPass|HeadRows|HeadParts|Sound|InSpan|is_ended)', fact):
                        key = re.match(r'(\w+)', fact).group(1)
                        facts.setdefault(key, []).append((path, line_of(text, at), name))
    return facts


def point_5():
    for key, places in sorted(gather_facts().items()):
        if len(places) >= 3:
            path, line, name = places[0]
            yield path, line, f'the fact {key} stands in the contracts of {len(places)} functions'
    groups = {}
    for path, text in sources():
        for name, at, head, body in functions(text):
            params = re.findall(r'\b(\w+): (&mut \[\w+\]|&\[\w+\]|usize|u64|bool|Head|Span|&\[u8; 256\])', head.split(')')[0])
            names = [p for p, _ in params]
            for group in (('starts', 'ends'), ('entries', 'sets'), ('buf', 'used'), ('text', 'used'), ('request', 'added'), ('req', 'added'), ('copy', 'added')):
                if all(g in names for g in group):
                    groups.setdefault(group, []).append((path, line_of(text, at), name))
    for group, places in sorted(groups.items()):
        if len(places) >= 3:
            path, line, name = places[0]
            yield path, line, f'{" and ".join(group)} travel together through {len(places)} functions'


def point_6(path, text):
    for m in re.finditer(r'\blet mut (\w+) = \[[^;\]]*; [^\]]*\];', text):
        yield line_of(text, m.start()), f'{m.group(1)} is an array with its length kept beside it'
    for name, at, head, body in functions(text):
        if re.search(r'\bwhile \w+ < \w+ \{', body) and re.search(r'/ 2', body):
            yield line_of(text, at), f'fn {name} halves a sorted array by hand'


def point_7(path, text):
    for m in re.finditer(r'\bmatch (\w+) \{', text):
        i, j = block(text, m.end() - 1)
        arms = re.findall(r'\w+::\w+ => \w+(?:::\w+)*\([^()]*\),', text[i:j])
        if len(arms) >= 3:
            yield line_of(text, m.start()), f'a switch on which of {len(arms)} functions to run'


NAMES = {1: 'own enums like Option and Result, flags, numbers for kinds and refusals', 2: 'twins', 3: 'loops that count an index',
         4: 'equality, order and conversion by hand', 5: 'facts and parameters that travel together',
         6: 'buffers with a length beside, arrays searched by hand', 7: 'switches on which step to run'}


def places(point):
    if point in (2, 5):
        yield from {2: point_2, 5: point_5}[point]()
        return
    find = {1: point_1, 3: point_3, 4: point_4, 6: point_6, 7: point_7}[point]
    for path, text in sources():
        for line, what in find(path, text):
            yield path, line, what


def main():
    if len(sys.argv) > 1:
        for path, line, what in places(int(sys.argv[1])):
            print(f'{path}:{line}: {what}')
        return
    for point in sorted(NAMES):
        print(f'{point}  {len(list(places(point))):4}  {NAMES[point]}')


main()
