#!/usr/bin/env python3
"""The names of include/recfile.h, and those of examples/rust/recfile.rs, are the numbers of the library's code and definitions; an entry of a directory has the same fields in all three.

Usage: python3 tests/header/names.py
"""
import os
import re
import sys

ROOT = os.path.dirname(os.path.dirname(os.path.dirname(os.path.abspath(__file__))))

# the home of each name's number in the code: file, struct, constant
HOMES = {
    'MAX_FILE': ('format/src/lib.rt', 'File', 'BYTES'),
    'MAX_NAME': ('format/src/lib.rt', 'Record', 'NAME'),
    'MAX_VALUE': ('format/src/lib.rt', 'Record', 'VALUE'),
    'MAX_FIELDS': ('format/src/lib.rt', 'Record', 'FIELDS'),
    'MAX_DESCRIPTORS': ('format/src/lib.rt', 'Descriptor', 'COUNT'),
    'MAX_TYPEDEFS': ('format/src/lib.rt', 'Descriptor', 'TYPEDEFS'),
    'MAX_TYPES': ('format/src/lib.rt', 'Descriptor', 'TYPES'),
    'MAX_WORDS': ('format/src/lib.rt', 'Descriptor', 'WORDS'),
    'MAX_CONTENTS': ('requests/src/encoding.rt', 'Field', 'CONTENTS'),
    'MAX_REQUESTS': ('editor/src/runs.rt', 'Run', 'REQUESTS'),
    'MAX_EXPRESSION': ('selection/src/programs.rt', 'Expression', 'BYTES'),
    'MAX_OPEN': ('selection/src/programs.rt', 'Expression', 'OPEN'),
}
# refusals of calls that are not there yet
AHEAD = {'SPARE', 'SPARE_SET'}
# refusals that have another name in the code
LACKING = {'SET': 'NO_SET', 'RECORD': 'NO_RECORD', 'FIELD': 'NO_FIELD'}
# the questions of a file, by the row of the definitions that asks each; tests/c/calls.c has a file for each
ASKS = {
    'LENGTH': 'leb f.used f.room', 'BYTE': 'all is_allowed', 'LINE': 'is_some f.reads', 'LIMIT': 'fits_limits', 'REC': 'describes_once',
    'DESCRIPTOR': 'describes_well', 'TYPE': 'types_well', 'PROHIBITED': 'none_prohibited', 'NOT_ALLOWED': 'all_allowed', 'MISSING': 'all_present',
    'REPEATED': 'none_repeated', 'VALUE': 'all_typed', 'KEY': 'keys_distinct', 'SIZE': 'size_met', 'SINGULAR': 'singular_met',
}


def read(*path):
    with open(os.path.join(ROOT, *path), encoding='utf-8') as f:
        return f.read()


def upper(name):
    """`NotAllowed` as `NOT_ALLOWED`."""
    return re.sub(r'(?<!^)(?=[A-Z])', '_', name).upper()


def numbers_of(path, kind):
    """The number that the code gives each variant of an enum."""
    return {upper(name): int(value) for name, value in re.findall(r'\b%s::(\w+) => (\d+),' % kind, read('crates', path))}


def kinds(path):
    """The kinds of an edit, each by the number that it is read from; three of them are ways to change a field."""
    return {upper(name): int(value) for value, name in re.findall(r'(\d+) => Some\((?:Kind::Change\(Means|Kind)::(\w+)\)', read('crates', path))}


def constants(path, struct):
    """The constants of a struct's impl blocks."""
    blocks = re.findall(r'^impl %s \{\n(.*?)^\}' % struct, read('crates', path), flags=re.M | re.S)
    return {name: int(value) for block in blocks for name, value in re.findall(r'const (\w+): \w+ = (\d+);', block)}


def main():
    header = {name: int(value) for name, value in re.findall(r'^\s*RECFILE_(\w+) = (\d+)', read('include', 'recfile.h'), flags=re.M)}
    wanted = {'ACCEPTED': 0}
    for name, (path, struct, constant) in HOMES.items():
        wanted[name] = constants(path, struct)[constant]
    refusals = 'format/src/refusals.rt'
    for name, value in (numbers_of(refusals, 'Question') | numbers_of(refusals, 'Refusal')).items():
        if name not in AHEAD:
            wanted['REFUSED_' + LACKING.get(name, name)] = value
    # a result's question is a hundred above the file's
    wanted['REFUSED_RESULT'] = int(re.search(r'Refusal::Result\(\w+\) => (\d+) \+', read('crates', refusals)).group(1))
    wanted['REFUSED_RESULT_LIMIT'] = wanted['REFUSED_RESULT'] + wanted['REFUSED_LIMIT']
    for name, value in numbers_of('requests/src/fields.rt', 'Tag').items():
        wanted['TAG_' + name] = value
    for name, value in kinds('requests/src/kinds.rt').items():
        wanted['KIND_' + name] = value
    rows = re.findall(r'record \{ number = (\d+); asks = (.*) \}', read('crates', 'format', 'specs', 'Questions.antt'))
    for name, asks in ASKS.items():
        numbers = [int(number) for number, row in rows if asks in row]
        if len(numbers) != 1:
            sys.exit('%d rows of Questions.antt ask %s' % (len(numbers), asks))
        if wanted['REFUSED_' + name] != numbers[0]:
            sys.exit('Question %s is %d, and %d asks %s' % (name, wanted['REFUSED_' + name], numbers[0], asks))
        if numbers[0] >= 8:
            wanted['REFUSED_RESULT_' + name] = wanted['REFUSED_RESULT'] + numbers[0]
    if len(rows) != len(ASKS):
        sys.exit('%d questions, %d names' % (len(rows), len(ASKS)))
    for name in sorted(set(header) | set(wanted)):
        if header.get(name) != wanted.get(name):
            sys.exit('RECFILE_%s is %s in the header, %s in the library' % (name, header.get(name), wanted.get(name)))

    wrapper = read('examples', 'rust', 'recfile.rs')
    for module, prefix in (('tag', 'TAG_'), ('kind', 'KIND_')):
        block = re.search(r'^pub mod %s \{\n(.*?)^\}' % module, wrapper, flags=re.M | re.S).group(1)
        got = {prefix + name: int(value) for name, value in re.findall(r'const (\w+): u8 = (\d+);', block)}
        if got != {name: value for name, value in header.items() if name.startswith(prefix)}:
            sys.exit('the constants of `%s` in examples/rust/recfile.rs are not those of the header' % module)

    for name in ('MAX_FILE', 'MAX_REQUESTS'):
        if int(re.search(r'^pub const %s: usize = (\d+);' % name, wrapper, flags=re.M).group(1)) != header[name]:
            sys.exit('%s in examples/rust/recfile.rs is not the header\'s' % name)

    sets = int(re.search(r'^pub const MAX_SETS: usize = (\d+);', wrapper, flags=re.M).group(1))
    if sets != header['MAX_DESCRIPTORS'] + 1:
        sys.exit('MAX_SETS in examples/rust/recfile.rs is not one more than the header\'s descriptors')

    text = read('include', 'recfile.h')
    entry = re.findall(r'size_t (\w+);', re.search(r'typedef struct \{\n(.*?)\} recfile_entry;', text, flags=re.S).group(1))
    for where, there in (('the library', read('crates', 'format', 'src', 'lib.rt')), ('examples/rust/recfile.rs', wrapper)):
        block = re.search(r'#\[repr\(C\)\]\n(?:#\[.*\]\n)*pub struct Entry \{\n(.*?)^\}', there, flags=re.M | re.S)
        if block is None or re.findall(r'pub (\w+): usize,', block.group(1)) != entry:
            sys.exit('an entry of %s is not the header\'s: %s' % (where, ' '.join(entry)))

    version = '.'.join(re.search(r'define RECFILE_VERSION_%s (\d+)' % part, text).group(1) for part in ('MAJOR', 'MINOR', 'PATCH'))
    if '#define RECFILE_VERSION "%s"' % version not in text:
        sys.exit('RECFILE_VERSION is not ' + version)

    calls = set(re.findall(r'^(?:uint32_t|size_t) (recfile_\w+)\(', text, flags=re.M))
    sources = ''.join(read('crates', 'recfile', 'src', name) for name in sorted(os.listdir(os.path.join(ROOT, 'crates', 'recfile', 'src'))))
    code = set(re.findall(r'^pub extern "C" fn (recfile_\w+)\(', sources, flags=re.M))
    for where, there in (('the library', code), ('examples/rust/recfile.rs', set(re.findall(r'pub fn (recfile_\w+)\(', wrapper)))):
        if calls != there:
            sys.exit('the calls of the header are not those of %s: %s' % (where, ' '.join(sorted(calls ^ there))))
    print('include/recfile.h: %d names and %d calls are as in the library' % (len(header), len(calls)))


main()
