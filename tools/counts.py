#!/usr/bin/env python3
"""counts.py [PROGRAM]: counts what says how large the code is: crates, lines, edges of crates.txt, and the functions that a step enters.

An edge is for contracts alone where no line of the crate's code names the library. Paths are those from boost_main down, by all edges
and by those of code. With a program in which each function has its own entry, as `tools/build.py unproved` builds it, and gdb, it
counts how often functions of our crates are entered: by one more line of a client of `listen`, as the difference of two runs, and by an
opening with a transaction to undo. That takes some minutes.
"""
import collections
import functools
import glob
import json
import os
import re
import subprocess
import sys
import tempfile

TOP = os.path.dirname(os.path.dirname(os.path.realpath(__file__)))


def crates():
    """Each crate with the libraries that it names."""
    found = {}
    with open(os.path.join(TOP, 'crates.txt'), encoding='utf-8') as file:
        for line in file:
            name, colon, libraries = line.partition('#')[0].partition(':')
            if colon:
                found[name.split()[0]] = libraries.split()
    return found


def files(crate, folder, ending):
    return glob.glob(os.path.join(TOP, 'crates', crate, folder, '**', f'*{ending}'), recursive=True)


def lines(paths):
    total = 0
    for path in paths:
        with open(path, encoding='utf-8') as file:
            total += sum(1 for _ in file)
    return total


def code_of(crate):
    """The code of a crate, without comments and what stands for contracts alone."""
    text = ''
    for path in files(crate, 'src', '.rt'):
        with open(path, encoding='utf-8') as file:
            text += ''.join(line for line in file if not line.lstrip().startswith(('//', 'ghost ', 'requires', 'ensures')))
    return text


def edges(named):
    """The edges between our crates, and those of them that code names."""
    found = [(crate, library) for crate, libraries in named.items() for library in libraries if library in named]
    code = {crate: code_of(crate) for crate in named}
    return found, [(crate, library) for crate, library in found if re.search(rf'\b{library}::', code[crate])]


def paths(named, found):
    """How many paths lead down from boost_main."""
    below = collections.defaultdict(list)
    for crate, library in found:
        below[crate].append(library)

    @functools.lru_cache(None)
    def count(crate):
        return 1 + sum(count(library) for library in below[crate])
    return count('boost_main')


# What gdb runs: it stops at the entry of each function, counts that, and goes on.
GDB = """
import collections, gdb, json
class Entry(gdb.Breakpoint):
    def stop(self):
        found[self.name] += 1
        return False
found, points = collections.Counter(), json.loads(POINTS)
gdb.execute('set pagination off')
gdb.execute('starti ' + WORDS)
maps = gdb.execute('info proc mappings', to_string=True).splitlines()
base = next(int(line.split()[0], 16) for line in maps if line.endswith(PROGRAM))
for at, name in points:
    entry = Entry(f'*{base + at}', internal=True)
    entry.name = name
gdb.execute('continue')
json.dump(found, open(FOUND, 'w'))
"""


def entries(program, named):
    """Where each function of our crates begins in the program, but for closures and what is derived."""
    symbols = subprocess.run(['nm', program], capture_output=True, text=True, check=True).stdout
    found = re.findall(rf'^([0-9a-f]+) [tT] ((?:{"|".join(named)})::[^+\n]*)$', symbols, re.M)
    return [(int(at, 16), name) for at, name in found]


def entered(program, points, room, words, lines):
    """How often a run of the program on these lines of input enters each of them."""
    typed, found, script = (os.path.join(room, name) for name in ('typed', 'found', 'script.py'))
    with open(typed, 'w', encoding='utf-8') as file:
        file.write(lines)
    run = f'{" ".join(words)} < {typed} > {room}/told'
    with open(script, 'w', encoding='utf-8') as file:
        file.write(f'POINTS, WORDS, PROGRAM, FOUND = {json.dumps(points)!r}, {run!r}, {program!r}, {found!r}\n{GDB}')
    subprocess.run(['gdb', '-q', '-batch', '-x', script, program], capture_output=True, check=True, timeout=1200,
                   env={**os.environ, 'ASAN_OPTIONS': 'detect_leaks=0'})
    with open(found, encoding='utf-8') as file:
        return collections.Counter(json.load(file))


def on_new_disk(program, points, before, words, lines):
    """The same of a command on a new disk, on which a script was played."""
    with tempfile.TemporaryDirectory() as room:
        disk, script = os.path.join(room, 'disk'), os.path.join(room, 'script')
        subprocess.run([program, 'format', disk, '--area', '1M'], check=True)
        with open(script, 'w', encoding='utf-8') as file:
            file.write(before)
        subprocess.run([program, 'play', disk, script], check=True, stdout=subprocess.DEVNULL)
        return entered(program, points, room, [words[0], disk, *words[1:]], lines)


def tell(what, fewer, more, times):
    """Tells what so many steps more enter, each."""
    gone = {name: (more[name] - fewer[name]) / times for name in more if more[name] > fewer[name]}
    print(f'entered by {what}: {sum(gone.values()):.0f}, of them different: {len(gone)},',
          f'searches of a transaction: {gone.get("undo_log::live::place_of", 0):.0f}', flush=True)


def walks(program, named):
    points = entries(program, named)
    made = 'c1 make counter hits\nturn\n'
    def listens(count):
        return on_new_disk(program, points, made, ['listen'], 'c1 do hits bump 1\n' * (count + 2) + 'c1 keep hits bump 1\nend\n')
    tell('a line of a client, and the committer meanwhile', listens(0), listens(10), 10)
    left = made + 'c1 begin\n' + 'c1 call hits bump 1\n' * 6 + 'turn\n'
    tell('an opening with 8 records, and a transaction to undo', collections.Counter(),
         on_new_disk(program, points, left, ['show'], ''), 1)


def main():
    named = crates()
    for folder, ending in (('src', '.rt'), ('specs', '.antt'), ('proofs', '.antt')):
        print(f'{folder}:', sum(lines(files(crate, folder, ending)) for crate in named), 'lines')
    found, by_code = edges(named)
    print('crates:', len(named))
    print('edges:', len(found), 'of them for contracts alone:', len(found) - len(by_code))
    print('paths from boost_main:', paths(named, found), 'by code:', paths(named, by_code))
    if len(sys.argv) > 1:
        walks(os.path.realpath(sys.argv[1]), named)


if __name__ == '__main__':
    main()
