#!/usr/bin/env python3
"""The examples of docs/FORMAT.md: each file, and each request on the receipt book, is refused with the number that stands there.

So are the other things of the page: the commands that cut a damaged file into parts, and what they lead to; the directory of a file; a run of requests; the numbers that inserts get; expressions; totals; drafts of records; what an insert and a delete
leave; the most records of a file and bytes of a set's name; the characters of the name in the section on sizes. Where GNU recutils is there, recfix finds a fault in the files of which the page says so.

Usage: python3 tests/format/examples.py     (after `rt lib` in crates/recfile; needs cc)
"""
import ctypes
import os
import re
import shutil
import subprocess
import sys
import tempfile

ROOT = os.path.dirname(os.path.dirname(os.path.dirname(os.path.abspath(__file__))))
size = ctypes.c_size_t
SILENT = ('2', '4', '5', '6', '12')     # of these examples recfix says nothing


def indented(lines):
    """The first run of indented lines, as a file."""
    out = []
    for line in lines:
        if line.startswith('    '):
            out.append(line[4:])
        elif out and line.strip():
            break
        elif out:
            out.append('')
    while out and not out[-1]:
        out.pop()
    return ('\n'.join(out) + '\n').encode()


def recfix(text):
    """Does GNU recfix find a fault?"""
    with tempfile.TemporaryDirectory() as folder:
        path = os.path.join(folder, 'card.rec')
        with open(path, 'wb') as f:
            f.write(text)
        return subprocess.run(['recfix', path], capture_output=True, check=False).returncode != 0


def sizes(lib, section):
    """The section's file passes; its name has the bytes and characters that stand there; with one character less the file is refused with 12, and recfix takes it from so many bytes on."""
    text = indented(section[section.index('This file passes'):].split('\n'))
    name = bytes.fromhex(re.search(r'its name, `([0-9A-F ]+)`', section).group(1))
    characters, length = map(int, re.search(r'has (\d+) characters in (\d+) bytes', section).groups())
    if not text.endswith(b' ' + name + b'\n') or (len(name.decode()), len(name)) != (characters, length):
        sys.exit('the name of the section on sizes is %r' % name)
    for n in range(1, length + 2):
        sized = text.replace(b'size %d' % characters, b'size %d' % n)
        got = lib.recfile_check(sized, size(len(sized)), size(len(sized)))
        if got != (0 if characters <= n else 12):
            sys.exit('the file of the section on sizes is refused with %d at size %d' % (got, n))
        if shutil.which('recfix') and recfix(sized) == (length <= n):
            sys.exit('recfix finds another fault at size %d than the page says' % n)


# the number of the file on standard input, as the listing program's first line
LISTING = r"""
#include <recfile.h>
#include <stdio.h>

int main(void)
{
    static uint8_t book[RECFILE_MAX_FILE + 1];
    printf("check %u\n", (unsigned)recfile_check(book, sizeof book, fread(book, 1, sizeof book, stdin)));
    return 0;
}
"""


def numbered(lines):
    """Lines as a file, and the numbers of those that are marked by a `!`, which is no part of them."""
    return b''.join(line.removeprefix(b'!') + b'\n' for line in lines), [k + 1 for k, line in enumerate(lines) if line.startswith(b'!')]


def parts(section, archive):
    """The commands of the section on finding a fault print of its file what stands behind them, and lead to the fault of some others."""
    commands = indented(section[section.index('a comment takes on none:'):].split('\n')).decode()
    by_line = re.search(r'`(sed -n .* card\.rec)`', section).group(1)
    sizeless = re.search(r'`(sed .* card\.rec > )sizeless\.rec`', section).group(1)
    file = indented(section[section.index('Of this file'):].split('\n'))
    shown = indented(section[section.index('it prints'):].split('\n')).decode()
    whole = commands.split('\n')[0]

    with tempfile.TemporaryDirectory() as folder:
        os.makedirs(os.path.join(folder, 'crates', 'listing', 'out'))
        listing, card = os.path.join(folder, 'crates', 'listing', 'out', 'listing'), os.path.join(folder, 'card.rec')
        subprocess.run(['cc', '-I' + os.path.join(ROOT, 'include'), '-x', 'c', '-', '-x', 'none', archive, '-o', listing], input=LISTING.encode(), check=True)

        def printed(text, script):
            with open(card, 'wb') as f:
                f.write(text)
            return subprocess.run(['sh', '-c', script], cwd=folder, capture_output=True, check=True).stdout.decode()

        def wanted(text, script, out):
            got = printed(text, script)
            if got != out:
                sys.exit('of the file %r the commands of the page print\n%sand not\n%s' % (text, got, out))

        wanted(file, commands, shown)

        # a comment's backslash takes on nothing, a field's a line of any form; a line of blanks is blank
        text, ends = numbered([b'%rec: S', b'%key: A', b'# a \\', b'!', b'A: 1\\', b'', b'B: 2\\', b'#\\', b'', b'! \t', b'C: 3', b'# \\', b'!', b'!A: 4'])
        wanted(text, commands, ''.join('%d check %d\n' % (k, 10 if k > 10 else 0) for k in ends))
        text, ends = numbered([b'!A: 1', b'!# \\', b'B: 2\\', b'#\\', b'!C: 3', b'+ 3\\', b'!', b'!', b'!D 4'])
        wanted(text, whole + '\n' + by_line, ''.join('%d\n' % k for k in ends))

        # 14 hides 30 in the parts; a `%size:` that is part of a value stays
        text = b'%rec: S\n%size: 3\n%singular: A\n\nA: 1\n\nA: 1\n\nA: 2\n'
        wanted(text, commands, '4 check 14\n6 check 14\n8 check 14\n9 check 30\n')
        wanted(text, whole + '\n' + sizeless + 'parts.rec; mv parts.rec card.rec\n' + commands, '4 check 0\n6 check 0\n8 check 30\n9 check 30\n')
        text = b'# \\\n%size: 1\\\n\nA: 1\\\n%size: 2\n%size: 3\n'
        wanted(text, whole + '\n' + sizeless + 'parts.rec; cat parts.rec', '# \\\n%doc: 1\\\n\nA: 1\\\n%size: 2\n%doc: 3\n')


def filled(lib, text, entries):
    """The number, the number of sets and the list after filling one of so many entries."""
    number, room = ctypes.c_uint32(77), (size * (3 * entries))()
    sets = lib.recfile_fill(text, size(len(text)), size(len(text)), room, size(entries), ctypes.byref(number))
    return number.value, sets, [tuple(room[k:k + 3]) for k in range(0, 3 * entries, 3)]


def directory(lib, section):
    """The directory of the section's file is the one of its table."""
    text = indented(section[section.index('Of this file'):].split('\n'))
    size_said = int(re.search(r'Of this file of (\d+) bytes', section).group(1))
    entries = [tuple(map(int, row)) for row in re.findall(r'^\| .* \| (\d+) \| (\d+) \| (\d+) \|$', section[section.index('the directory is'):], flags=re.M)]
    got = filled(lib, text, len(entries))
    if len(text) != size_said or got != (0, len(entries), entries):
        sys.exit('the directory of a file of %d bytes is %r, and the page says %r' % (len(text), got, entries))


def numbers(section, edit):
    """The requests of the section's table, one after another on its file, are answered as stands there and leave the records that stand there."""
    file = indented(section[section.index('On this file'):].split('\n'))
    if len(file) != int(re.search(r'On this file of (\d+) bytes', section).group(1)):
        sys.exit('the file of the section on numbers has %d bytes' % len(file))
    wanted = file + b'\n' + indented(section[section.index('and the file ends'):].split('\n'))
    for request, answer, length in re.findall(r'^\| `([0-9A-F ]+)` \|.*\| (\d+): (\d+) bytes \|$', section, flags=re.M):
        got, file = edit(file, 65536, bytes.fromhex(request))
        if (got, len(file)) != (int(answer), int(length)):
            sys.exit('request %s: %d and %d bytes, the page says %s and %s' % (request, got, len(file), answer, length))
    if file != wanted:
        sys.exit('the numbered file is %r, the page says %r' % (file, wanted))


def left_behind(section, book, edit):
    """The record that the section inserts into the book and deletes leaves an empty line behind."""
    before, between, after = map(int, re.search(r'the receipt book, (\d+) bytes, .* makes (\d+), and the delete of that record (\d+)\.', section).groups())
    insert, delete = map(bytes.fromhex, ('01 0001 01 02 0004 5363616E 04 0002 4964 06 0001 32 04 0004 50616765 06 0001 70', '01 0001 02 02 0004 5363616E 03 0002 0001'))
    _, longer = edit(book, 65536, insert)
    _, left = edit(longer, 65536, delete)
    if (len(book), len(longer), len(left)) != (before, between, after) or left != book + b'\n':
        sys.exit('an insert and a delete leave %r' % left)
    # into the default set without a record: in front, with an empty line behind it unless the file is empty
    insert, delete = map(bytes.fromhex, ('01 0001 01 02 0000 04 0001 41 06 0001 31', '01 0001 02 02 0000 03 0002 0000'))
    for file, there, left in ((b'', b'A: 1\n', b''), (b'# c\n', b'A: 1\n\n# c\n', b'\n# c\n'), (b'\n', b'A: 1\n\n\n', b'\n\n'), (b'B: 2\n', b'B: 2\n\nA: 1\n', b'\nA: 1\n')):
        if edit(file, 65536, insert) != (0, there) or edit(there, 65536, delete) != (0, left):
            sys.exit('an insert into %r and a delete leave %r' % (file, edit(there, 65536, delete)))


def most(lib, section):
    """A file has at most so many records, and a set's name so many bytes, as the section says."""
    length, records = (int(n.replace(',', '')) for n in re.search(r'one word of a value, of up to ([\d,]+)\..*at most ([\d,]+) records', section).groups())
    file, number = b'A:\n\n' * (records - 1) + b'A:\n', ctypes.c_uint32(77)
    count = lib.recfile_count(file, size(len(file)), size(len(file)), b'', size(0), ctypes.byref(number))
    if (count, number.value) != (records, 0) or len(file) + 4 <= 65536:
        sys.exit('a file of %d bytes has %d records (%d)' % (len(file), count, number.value))
    for n, answer in ((length, 0), (length + 1, 4)):
        file, out = b'%rec: ' + b'S' * n + b'\n', ctypes.create_string_buffer(length)
        got = lib.recfile_set_name(file, size(len(file)), size(len(file)), size(1), out, size(length), ctypes.byref(number))
        if (number.value, got, out.raw) != ((answer, length, b'S' * length) if answer == 0 else (answer, 0, bytes(length))):
            sys.exit('the name of a set, of %d bytes: %d' % (n, number.value))


def finds(lib, section):
    """The expressions of the section's table find the records that stand there, and those below it are not of the form."""
    with open(os.path.join(ROOT, 'samples', 'bills.rec'), 'rb') as f:
        file = f.read()

    def find(expression):
        number, list_ = ctypes.c_uint32(77), (size * 9)()
        n = lib.recfile_find(file, size(len(file)), size(len(file)), b'Bill', size(4), expression, size(len(expression)), list_, size(9), ctypes.byref(number))
        return number.value, list(list_[:n])

    rows = re.findall(r'^\| `(.*)` \| ([\d, ]+|none) \|$', section, flags=re.M)
    for expression, records in rows:
        wanted = (0, [] if records == 'none' else [int(k) for k in records.split(', ')])
        if find(expression.replace('\\|', '|').encode()) != wanted:
            sys.exit('%s finds %r' % (expression, find(expression.replace('\\|', '|').encode())))
    faults = re.findall(r'`([^`]*)`', re.search(r'33 says .*? are not;', section, flags=re.S).group(0)) + ['', '! =', 'A & & B']
    for expression in faults:
        if find(expression.encode())[0] != 33:
            sys.exit('%r is an expression' % expression)
    return len(rows) + len(faults)


def totals(lib, section):
    """The values of the section's table are added up as stands there, and those below it do not count."""
    def total(values):
        file, number, hundredths, millionths = b''.join(b'A: ' + v.encode() + b'\n' for v in values), ctypes.c_uint32(77), ctypes.c_int64(0), ctypes.c_int64(0)
        n = lib.recfile_total(file, size(len(file)), size(len(file)), b'', size(0), b'A', size(1), ctypes.byref(hundredths), ctypes.byref(millionths), ctypes.byref(number))
        return number.value, hundredths.value, millionths.value, n

    rows = re.findall(r'^\| (`.*`) \| (-?\d+) \| (-?\d+) \| (\d+) \|$', section, flags=re.M)
    for values, *sums in rows:
        if total(re.findall(r'`([^`]*)`', values)) != (0, *map(int, sums)):
            sys.exit('the values %s add up to %r' % (values, total(re.findall(r'`([^`]*)`', values))))
    uncounted = re.findall(r'`([^`]*)`', section[section.index('These do not count'):]) + ['']
    for value in uncounted:
        if total([value])[0] != 32:
            sys.exit('the value %r counts' % value)
    return len(rows) + len(uncounted)


def drafts(lib, section, book):
    """The drafts of the section's table on the book are answered as stands there."""
    rows = re.findall(r'^\| `([0-9A-F ]+)` \|.*\| (refused, )?(\d+) \|$', section, flags=re.M)
    for request, refused, answer in rows:
        request, number = bytes.fromhex(request), ctypes.c_uint32(77)
        missing = lib.recfile_to_fill(book, size(len(book)), size(len(book)), request, size(len(request)), ctypes.byref(number))
        if (number.value, missing) != ((int(answer), 0) if refused else (0, int(answer))):
            sys.exit('a draft, %s: %d names, %d; the page says %s%s' % (request.hex(), missing, number.value, refused, answer))
    return len(rows)


def run_of_requests(lib, section, book):
    """The run of the section's table on the book leaves a file of the length that stands there, and these answers; and what is refused there is refused."""
    rows = re.findall(r'^\| `([0-9A-F ]+)` \|.*\| (\d+) \|$', section, flags=re.M)
    run, requests = b''.join(bytes.fromhex(row) for row, _ in rows), len(rows)
    length, held = (int(re.search(said, section).group(1)) for said in (r'leaves a file of (\d+) bytes', r'five answers that all hold (\d+)'))
    answers = [int(n) for n in re.search(r'these are then ([\d, ]+)\.', section).group(1).split(', ')]

    def sent(text, file, list_):
        buf, number, told = ctypes.create_string_buffer(file, 200), ctypes.c_uint32(77), (ctypes.c_uint32 * list_)(*[held] * list_)
        n = lib.recfile_edit_run(buf, size(200), size(len(file)), text, size(len(text)), told, size(list_), ctypes.byref(number))
        return number.value, n, list(told), buf.raw

    got = sent(run, book, len(answers))
    if len(run) != int(re.search(r'A run of (\d+) bytes', section).group(1)) or got[:3] != (0, length, answers) or answers[:requests] != [int(n) for _, n in rows]:
        sys.exit('a run of %d bytes answers %r, and the page says %r' % (len(run), got[:3], (0, length, answers)))
    for file in (book, b'Id: 1'):
        for text, list_ in ((run[:-1], 5), (run + b'\0', 5), (run, 2), (b'\0\0' * 65, 65)):
            if sent(text, file, list_) != (29, len(file), [held] * list_, file + bytes(200 - len(file))):
                sys.exit('a run that the page says is refused is not: %r' % text)
    if sent(b'', b'Id: 1', 1)[:3] != (0, 5, [held]) or sent(b'\0\0' * 64, b'Id: 1', 65)[:3] != (0, 5, [2] * 64 + [held]):
        sys.exit('a run on a file that fails is not answered as the page says')


def main():
    archive, shared = (os.path.join(ROOT, *p) for p in (('crates', 'recfile', 'out', 'librecfile.a'), ('target', 'librecfile.so')))
    os.makedirs(os.path.join(ROOT, 'target'), exist_ok=True)
    subprocess.run(['cc', '-shared', '-o', shared, '-Wl,--whole-archive', archive, '-Wl,--no-whole-archive'], check=True)
    lib = ctypes.CDLL(shared)
    for call in (lib.recfile_count, lib.recfile_set_name, lib.recfile_find, lib.recfile_total, lib.recfile_to_fill, lib.recfile_edit, lib.recfile_edit_run, lib.recfile_fill):
        call.restype = size
    with open(os.path.join(ROOT, 'docs', 'FORMAT.md'), encoding='utf-8') as f:
        page = f.read()

    files = 0
    for number, behind in re.findall(r'^\*\*(\d+)\*\*(.*?)(?=^\*\*\d+\*\*|^## )', page, flags=re.M | re.S):
        if number == '1':
            continue
        text = indented(behind.split('\n'))
        if number == '2':
            text = text[:-1]
        got = lib.recfile_check(text, size(len(text)), size(len(text)))
        if got != int(number):
            sys.exit('the example of %s is refused with %d: %r' % (number, got, text))
        if shutil.which('recfix') and recfix(text) == (number in SILENT):
            sys.exit('recfix finds another fault in the example of %s than the page says' % number)
        files += 1
    sizes(lib, page[page.index('## Sizes'):page.index('## What a file is refused for')])
    parts(page[page.index('## Finding the fault by hand'):], archive)
    directory(lib, page[page.index('## The directory of sets'):page.index('## What a call is refused for')])

    def edit(text, room, request):
        buf, number = ctypes.create_string_buffer(text, room), ctypes.c_uint32(77)
        used = lib.recfile_edit(buf, size(room), size(len(text)), request, size(len(request)), ctypes.byref(number))
        return number.value, buf.raw[:used]

    most(lib, page[page.index('## Records and sets'):page.index('## Sizes')])
    book, requests = indented(page[page.index('## Records and sets'):].split('\n')), 0
    left_behind(page[page.index('## Requests'):page.index('## Numbers for omitted names')], book, edit)
    run_of_requests(lib, page[page.index('## Runs of requests'):page.index('## The directory of sets')], book)
    numbers(page[page.index('## Numbers for omitted names'):page.index('## Expressions')], edit)
    found = finds(lib, page[page.index('## Expressions'):page.index('## Totals of a field')])
    sums = totals(lib, page[page.index('## Totals of a field'):page.index('## Names still to fill')])
    requests += drafts(lib, page[page.index('## Names still to fill'):page.index('## Runs of requests')], book)
    page = page[page.index('## What a call is refused for'):]
    for request, answer in re.findall(r'^\| `([0-9A-F ]+)` \|.*\| (\d+)[^|]*\|$', page, flags=re.M):
        got, _ = edit(book, 65536, bytes.fromhex(request))
        if got != int(answer):
            sys.exit('request %s: %d, the page says %s' % (request, got, answer))
        requests += 1
    for text, request, answer in re.findall(r'^\| `([^`]+)` \| `([0-9A-F ]+)` \|.*\| (\d+) \|$', page, flags=re.M):
        got, _ = edit(text.replace('\\n', '\n').encode(), 65536, bytes.fromhex(request))
        if got != int(answer):
            sys.exit('request %s on %s: %d, the page says %s' % (request, text, got, answer))
        requests += 1
    insert = bytes.fromhex('01 0001 01 02 0004 5363616E 04 0002 4964 06 0001 32 04 0004 50616765 06 0001 70')
    add = bytes.fromhex('01 0001 03 02 0000 03 0002 0000 04 0001 42 06 0001 32')
    number = ctypes.c_uint32(77)
    lib.recfile_fetch(book, size(len(book)), size(len(book)), b'Scan', size(4), size(0), b'Page', size(4), size(0), ctypes.create_string_buffer(4), size(4), ctypes.byref(number))
    numbered = bytes.fromhex('01 0001 01 02 0001 53') + bytes.fromhex('04 0001 41 06 0000') * 256
    if (edit(book, 109, insert)[0], number.value, filled(lib, book, 1)[0], edit(b'A: 1\n' * 256, 65536, add)[0], edit(b'%rec: S\n%auto: Id\n', 65536, numbered)[0]) != (26, 27, 28, 104, 104):
        sys.exit('26, 27, 28 and 104 are not as the page says')
    requests += 5
    print('docs/FORMAT.md: %d files, a directory, a run, numbered inserts, %d expressions, %d totals and %d requests are as the page says' % (files, found, sums, requests))


main()
