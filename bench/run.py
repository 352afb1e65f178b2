#!/usr/bin/env python3
"""Times the library against GNU recutils on the same files in one run: `python3 bench/run.py`.

Makes its files in target/bench, builds bench/time.c over crates/recfile/out/librecfile.a (made by `rt lib` in crates/recfile) and bench/librec.c
over librec, and prints times and ratios, in processes and in memory; growth and instructions of the check and of each edit; instructions of
a directory's calls, of calls that only look, of a run of requests and of inserts that are numbered; the peak stack of each call; and the check of every file of bench/shapes.py, the slowest last. Times are the best of several runs on both sides. Where a
figure has a limit, it stands beside it.
"""
import os
import re
import shutil
import subprocess
import sys
import time

import shapes

ROOT = os.path.dirname(os.path.dirname(os.path.abspath(__file__)))
OUT = os.path.join(ROOT, 'target', 'bench')
TIMER, LIBREC = os.path.join(OUT, 'time'), os.path.join(OUT, 'librec')

EDITS = ('insert', 'delete', 'add', 'set', 'drop', 'rename')
GROWTH, EDIT, KEYS, STACK, WORST = 8.5, 2.2, 1.5, 163840, 25
FILL, LISTED = 1.3, 1.15
REQUESTS, RUN = 64, 0.6
NUMBERED = 1.5
# what calls that only look take at most, as many times the check of the same file
LOOKS = {'to-fill': 1.05, 'total': 1.15, 'find-2': 1.3, 'find-51': 4}
# instructions a byte of the check before `%auto` was known, and how much more a file without it may take
UNNUMBERED, SPARED = {'book 64 KB': 57.5, 'keys 64 KB': 72.0, '64 descriptors of docs': 218.4, '64 descriptors of plain fields': 516.6}, 1.02
LONG_KEYS = {'keys with a common front': True, 'keys with a common end': False}
FASTER = {'book 1 KB': 150, 'book 8 KB': 250, 'book 64 KB': 700}


def run(*words):
    return subprocess.run(words, capture_output=True, text=True, check=False)


def verdict(met):
    return 'met' if met else 'NOT MET'


def build():
    """The two programs; librec's is not there where librec is not."""
    library = os.path.join(ROOT, 'crates', 'recfile', 'out', 'librecfile.a')
    if not os.path.exists(library):
        sys.exit('make the library first: rt lib in crates/recfile')
    subprocess.run(['cc', '-O2', '-I' + os.path.join(ROOT, 'include'), os.path.join(ROOT, 'bench', 'time.c'), library, '-o', TIMER], check=True)
    if os.path.exists(LIBREC):
        os.remove(LIBREC)
    run('cc', '-O2', os.path.join(ROOT, 'bench', 'librec.c'), '-lrec', '-o', LIBREC)


def kept(name, text):
    """The path of a file with this text."""
    path = os.path.join(OUT, re.sub(r'[^A-Za-z0-9]+', '-', name) + '.rec')
    with open(path, 'wb') as f:
        f.write(text)
    return path


def best_of(*words, runs=3):
    """The best of some runs of a timer, in nanoseconds: on a shared machine a whole run may fall into a slow moment. The number behind the time must be 0."""
    best = float('inf')
    for _ in range(runs):
        nanoseconds, number = run(*words).stdout.split()
        if number != '0':
            sys.exit('%s: refused with %s' % (' '.join(words), number))
        best = min(best, float(nanoseconds))
    return best


def ours(path, call, runs=3):
    return best_of(TIMER, path, call, runs=runs)


def theirs(path, *words):
    """The best of three runs of a recutils command on a copy of the file, in nanoseconds, its start-up included."""
    best = float('inf')
    for _ in range(3):
        copy = os.path.join(OUT, 'copy.rec')
        with open(path, 'rb') as a, open(copy, 'wb') as b:
            b.write(a.read())
        begin = time.perf_counter()
        subprocess.run([*words, copy], stdout=subprocess.DEVNULL, stderr=subprocess.DEVNULL, check=False)
        best = min(best, time.perf_counter() - begin)
    return best * 1e9


def instructions(path, call, more=10):
    """Those of one call, or None without valgrind: eleven calls, or so many more than one, less one, so that the start of the program is not counted."""
    def total(calls):
        done = run('valgrind', '--tool=callgrind', '--callgrind-out-file=/dev/null', TIMER, path, call, str(calls))
        if done.stdout != '0\n':
            sys.exit('%s of %s: refused with %s' % (call, path, done.stdout))
        return int(re.search(r'Collected : (\d+)', done.stderr).group(1))

    return (total(1 + more) - total(1)) / more if shutil.which('valgrind') else None


def against_recutils(files):
    """Each call beside the command of recutils that does the like."""
    commands = {
        'check': ['recfix', '--check'],
        'fetch': ['recsel', '-t', 'Scan', '-n', '3', '-P', 'Page'],
        'insert': ['recins', '-t', 'Scan', '-f', 'Id', '-v', '999999', '-f', 'Page', '-v', 'front'],
        'delete': ['recdel', '-t', 'Scan', '-n', '3'],
        'set': ['recset', '-t', 'Scan', '-n', '3', '-f', 'Page', '-s', 'torn'],
    }
    if not shutil.which('recfix'):
        print('beside recutils: it is not here\n')
        return
    print('%-10s %6s %7s  %-6s %12s %8s %13s %9s' % ('file', 'bytes', 'records', 'call', 'library', 'ns/byte', 'recutils', 'ratio'))
    for name, (path, size, count) in files.items():
        for call, command in commands.items():
            if call == 'check' or name.startswith('book'):
                mine, other = ours(path, call), theirs(path, *command)
                print('%-10s %6d %7d  %-6s %9.1f us %8.2f %10.1f ms %8.0fx' % (
                    name, size, count, call, mine / 1000, mine / size, other / 1e6, other / mine), flush=True)
    print()


def in_memory(files):
    """The check beside librec's reading and check of the same bytes, both in one process without its start-up."""
    if not os.path.exists(LIBREC):
        print('in memory: librec is not here\n')
        return
    for name, wanted in FASTER.items():
        mine, other = ours(files[name][0], 'check'), best_of(LIBREC, files[name][0])
        print('in memory, %-10s: library %7.1f us, librec %9.1f us: %4.0f times as fast (wanted: %d): %s' % (
            name, mine / 1000, other / 1000, other / mine, wanted, verdict(other >= wanted * mine)), flush=True)
    print()


def growth(files):
    """How much longer the check and each edit take of the book at 64 KB than at 8 KB, by time and by instructions."""
    for call in ('check', *EDITS):
        ends = [files[name][0] for name in ('book 8 KB', 'book 64 KB')]
        by_time = ours(ends[1], call) / ours(ends[0], call)
        counts = [instructions(path, call) for path in ends]
        print('growth, %-6s: from 8 KB to 64 KB %.2f times the time%s (at most %.1f): %s' % (
            call, by_time, '' if None in counts else ', %.2f times the instructions' % (counts[1] / counts[0]), GROWTH, verdict(by_time <= GROWTH)), flush=True)
    print()


def counted(files):
    """Instructions a byte of a check, of long keys as many times those of the book, and of an insert and a set as many times those of the check."""
    if not shutil.which('valgrind'):
        print('instructions: valgrind is not here\n')
        return
    a_byte = {name: instructions(files[name][0], 'check') / files[name][1] for name in (*UNNUMBERED, *LONG_KEYS)}
    for name, before in UNNUMBERED.items():
        ratio = a_byte[name] / before
        print('instructions, check, %s: %.1f a byte, %.3f times those without a look for `%%auto` (at most %.2f): %s' % (name, a_byte[name], ratio, SPARED, verdict(ratio <= SPARED)), flush=True)
    for name in LONG_KEYS:
        ratio = a_byte[name] / a_byte['book 64 KB']
        print('instructions, check, %s: %.1f a byte, %.2f times the book (at most %.1f): %s' % (name, a_byte[name], ratio, KEYS, verdict(ratio <= KEYS)), flush=True)
    path = files['book 64 KB'][0]
    check = instructions(path, 'check')
    for call in ('insert', 'set'):
        ratio = instructions(path, call) / check
        print('instructions, %-6s: %.2f times those of the check (at most %.1f): %s' % (call, ratio, EDIT, verdict(ratio <= EDIT)), flush=True)
    print()


def directories(files):
    """Instructions of filling a directory as many times those of the check, of an edit with it as many times those without it, and of a count in it, which are the same whatever the file."""
    if not shutil.which('valgrind'):
        return
    for name in ('book 64 KB', 'sets 64 KB'):
        path = files[name][0]
        ratio = instructions(path, 'fill') / instructions(path, 'check')
        print('instructions, fill, %s: %.2f times those of the check (at most %.1f): %s' % (name, ratio, FILL, verdict(ratio <= FILL)), flush=True)
    path = files['book 64 KB'][0]
    for call in ('insert', 'set'):
        ratio = instructions(path, call + '-listed') / instructions(path, call)
        print('instructions, %-6s with a directory: %.2f times those without (at most %.2f): %s' % (call, ratio, LISTED, verdict(ratio <= LISTED)), flush=True)
    counts = {name: round(instructions(files[name][0], 'count-at', 10000)) for name in files}
    print('instructions, count at a position: %s (the same of each): %s\n' % (', '.join('%s %d' % c for c in counts.items()), verdict(len(set(counts.values())) == 1)), flush=True)


def looks(path):
    """Instructions of calls that only look as many times those of the check."""
    if not shutil.which('valgrind'):
        return
    check = instructions(path, 'check')
    for call, most in LOOKS.items():
        ratio = instructions(path, call) / check
        print('instructions, %-7s: %.3f times those of the check (at most %.2f): %s' % (call, ratio, most, verdict(ratio <= most)), flush=True)
    print()


def sendings(path):
    """Instructions of as many inserts as a run may have in one call as many times those of the same sent singly."""
    if not shutil.which('valgrind'):
        return
    ratio = instructions(path, 'inserts-run', 1) / instructions(path, 'inserts-singly', 1)
    print('instructions, %d inserts in one run: %.2f times those of as many single ones (at most %.1f): %s\n' % (REQUESTS, ratio, RUN, verdict(ratio <= RUN)), flush=True)


def numberings(files):
    """Instructions of an insert that gets 64 numbers as many times those of one that has them."""
    if not shutil.which('valgrind'):
        return
    for name, path in files.items():
        ratio = instructions(path, 'insert-omitting') / instructions(path, 'insert-naming')
        print('instructions, an insert that gets 64 numbers, %s: %.2f times those of one that has them (at most %.1f): %s' % (name, ratio, NUMBERED, verdict(ratio <= NUMBERED)), flush=True)
    print()


def stack(paths):
    """The peak stack of each call on any of some files."""
    deepest = {}
    for path in paths:
        for line in run(TIMER, path, 'stack').stdout.splitlines():
            call, depth = line.split()
            deepest[call] = max(deepest.get(call, 0), int(depth))
    for call, depth in deepest.items():
        print('stack, %-14s: %6d bytes (at most %d): %s' % (call, depth, STACK, verdict(depth <= STACK)))
    print()


def slow_shapes(book):
    """The check of every shape as many times that of the book; the slowest are timed again, and its name and ratio come last."""
    base, paths, ratios, deepest = ours(book, 'check'), {}, {}, 0
    for name, text in shapes.shapes().items():
        paths[name] = kept(name, text)
        took = ours(paths[name], 'check', 1)
        ratios[name] = took / base
        deepest = max(deepest, int(run(TIMER, paths[name], 'depth').stdout))
        print('shape, %-57s %5d bytes %11.1f us %9.2f times the book' % (name + ':', len(text), took / 1000, ratios[name]), flush=True)
    base = min(base, ours(book, 'check'))
    for name in sorted(ratios, key=ratios.get)[-5:]:
        ratios[name] = ours(paths[name], 'check') / base
        print('again, %-57s %s %9.2f times the book' % (name + ':', ' ' * 26, ratios[name]), flush=True)
    insert = ours(book, 'insert')
    slowest = {name: ours(paths[name], 'insert-omitting') / insert for name in shapes.autos()}
    worst = max(slowest, key=slowest.get)
    print('an insert that is numbered: %.2f times an insert into the 64 KB book (%s) (at most %d): %s' % (slowest[worst], worst, WORST, verdict(slowest[worst] <= WORST)), flush=True)
    print('\nstack, check of any shape: %d bytes (at most %d): %s' % (deepest, STACK, verdict(deepest <= STACK)))
    worst = max(ratios, key=ratios.get)
    print('worst: %.2f times the check of the 64 KB book (%s) (at most %d): %s' % (ratios[worst], worst, WORST, verdict(ratios[worst] <= WORST)))


def main():
    os.makedirs(OUT, exist_ok=True)
    build()
    files = {}
    for name, (text, count) in {
        'book 1 KB': shapes.book(1024), 'book 8 KB': shapes.book(8192), 'book 64 KB': shapes.book(65000), 'keys 64 KB': shapes.only_keys(65536),
        **{name: shapes.long_keys(65536, last) for name, last in LONG_KEYS.items()},
    }.items():
        files[name] = (kept(name, text), len(text), count)
    against_recutils(files)
    in_memory(files)
    growth(files)
    sets = shapes.sets()
    counted({**files, **{name: (kept(name, text), len(text), 64) for name, text in sets.items() if name in UNNUMBERED}})
    text = sets['64 sets of few records']
    directories({**files, 'sets 64 KB': (kept('sets', text), len(text), 64)})
    looks(files['book 64 KB'][0])
    room = REQUESTS * len(b'\nId: 999900\nPage: front\n')
    sendings(kept('book with room', shapes.book(shapes.LIMIT - room)[0]))
    numbered = {name: kept('numbered ' + name, shapes.numbered(shapes.LIMIT - shapes.INSERTED, there)) for name, there in (('they are in each record', True), ('they are in none', False))}
    numberings(numbered)
    stack([files['book 64 KB'][0], kept('aliases', shapes.aliases()), *numbered.values(), *(kept(name, text) for name, text in shapes.autos().items())])
    slow_shapes(files['book 64 KB'][0])


main()
