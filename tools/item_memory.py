#!/usr/bin/env python3
"""item_memory.py [ITEMS]: how many bytes of memory, and of an image, an item takes in each kind of collection.

A server of the program of `./boost` gets so many items of scattered keys, a million if no number is named, in areas so large that no
checkpoint comes between. Memory is what its resident memory (VmRSS) grew by, an image what `boost stat` tells of the collection, each
divided by the items. Nothing is asserted: it prints what it saw.
"""
import os
import random
import subprocess
import sys
import tempfile

TOP = os.path.dirname(os.path.dirname(os.path.realpath(__file__)))
ITEMS = int(sys.argv[1]) if sys.argv[1:] else 1_000_000
# How many calls stand in one line, with numbers of 19 digits, and with values of 100 bytes; and lines that are sent before answers are read.
CALLS, CALLS_WITH_VALUES, LINES = 60, 15, 20

KINDS = {
    'set': ('set', CALLS, 'add {0}'),
    'map, empty values': ('map', CALLS, 'put {0} -'),
    'map, values of 100 bytes': ('map', CALLS_WITH_VALUES, 'put {0} ' + '78' * 100),
    'queue': ('queue', CALLS, 'add {1} {0}'),
    'pool': ('pool', CALLS, 'draw'),
    'quotas': ('quotas', CALLS, 'fill {0} 100'),
}


def resident(pid):
    """The resident memory of a process, in bytes."""
    with open(f'/proc/{pid}/status', encoding='utf-8') as file:
        return next(int(line.split()[1]) * 1024 for line in file if line.startswith('VmRSS'))


def lines_of(calls, call):
    """The lines that put the items in."""
    chance = random.Random(7)
    for begun in range(0, ITEMS, calls):
        parts = ('c ' + call.format(chance.randrange(2 ** 63), chance.randrange(2 ** 40)) for _ in range(min(calls, ITEMS - begun)))
        yield 'c1 do ' + '; '.join(parts) + '\n'


def ask(server, lines):
    """Sends lines, and reads as many answers, none of which may refuse."""
    server.stdin.write(''.join(lines))
    server.stdin.flush()
    for _ in lines:
        answer = server.stdout.readline()
        assert 'place' in answer or 'kept' in answer, answer


def measure(program, name, folder):
    """Prints what an item of a kind takes."""
    kind, calls, call = KINDS[name]
    disk, lines = os.path.join(folder, 'disk'), []
    subprocess.run([program, 'format', disk, '--area', '1G'], check=True)
    server = subprocess.Popen([program, 'listen', disk], stdin=subprocess.PIPE, stdout=subprocess.PIPE, text=True)
    server.stdout.readline()
    ask(server, [f'c1 make {kind} c\n', 'c1 wait\n'])
    before = resident(server.pid)
    for line in lines_of(calls, call):
        lines.append(line)
        if len(lines) == LINES:
            ask(server, lines)
            lines = []
    ask(server, [*lines, 'c1 wait\n'])
    grown = resident(server.pid) - before
    server.communicate('end\n')
    told = subprocess.run([program, 'stat', disk], stdout=subprocess.PIPE, text=True, check=True).stdout
    items, size = (int(word) for word in next(line for line in told.splitlines() if line.startswith('collection')).split()[3:])
    print(f'{name}: {items} items, memory {grown / items:.0f} bytes an item, image {size / items:.1f}', flush=True)


def main():
    program = subprocess.run([os.path.join(TOP, 'boost'), 'which'], stdout=subprocess.PIPE, text=True, check=True).stdout.strip()
    for name in KINDS:
        with tempfile.TemporaryDirectory() as folder:
            measure(program, name, folder)


if __name__ == '__main__':
    main()
