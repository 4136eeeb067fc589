#!/usr/bin/env python3
"""many_stores.py [PROGRAM] [--servers N] [--items N]: what many stores take, each with a server of its own.

It measures servers at rest, each with so many jobs in its store: memory (what is a server's own, and what all share), threads, processor
time, the time until the first client is answered, and the room on the disk. From these figures it reckons and simulates 10, 1,000 and
100,000 stores over machines of 64 GB: how many machines they want, and how long the stores of a machine that dies are away, until
others have opened them. PROGRAM is `./boost`'s if none is named.
"""
import argparse
import heapq
import os
import random
import re
import statistics
import subprocess
import sys
import tempfile
import time

TOP = os.path.dirname(os.path.dirname(os.path.realpath(__file__)))
AREA = 1 << 20
# A machine: its bytes of memory, of which a part is for stores, its threads, and how many stores it opens at once.
MEMORY, PART, THREADS, AT_ONCE = 64 << 30, 0.75, 250000, 4
STACK = 16 << 10                                   # what the kernel holds for a thread
NOTICED = 10                                       # seconds until it is known that a machine is dead
REST = 5


class Server:
    def __init__(self, program, disk):
        self.process = subprocess.Popen([program, 'listen', disk], stdin=subprocess.PIPE, stdout=subprocess.PIPE, bufsize=0)
        self.hears('- hello boost 1')

    def hears(self, wanted):
        line = self.process.stdout.readline().decode().strip()
        if line != wanted:
            raise SystemExit(f'many_stores: {line!r}')

    def measure(self):
        folder = f'/proc/{self.process.pid}'
        with open(f'{folder}/smaps_rollup', encoding='utf-8') as file:
            found = dict(re.findall(r'^(\w+):\s+(\d+) kB', file.read(), re.M))
        with open(f'{folder}/stat', encoding='utf-8') as file:
            words = file.read().rpartition(')')[2].split()
        own = (int(found['Private_Dirty']) + int(found['Private_Clean'])) * 1024
        return own, int(found['Rss']) * 1024 - own, len(os.listdir(f'{folder}/task')), (int(words[11]) + int(words[12])) / os.sysconf('SC_CLK_TCK')

    def end(self):
        self.process.stdin.close()
        self.process.stdout.close()
        self.process.wait()


def fill(program, disk, items):
    """A store with so many jobs, of a life in which as many were done."""
    subprocess.run([program, 'format', disk, '--area', str(AREA)], check=True)
    lines = ['c1 make queue jobs'] + ['c1 do ' + '; '.join(f'jobs add {number % 5} {number + more}' for more in range(100))
                                      for number in range(0, items, 100)] + ['c1 wait', 'end', '']
    subprocess.run([program, 'listen', disk], input='\n'.join(lines).encode(), stdout=subprocess.DEVNULL, check=True)


def measured(asked, room):
    """The figures of a server at rest, and the times of openings."""
    disks, opened, servers = [os.path.join(room, f'disk-{number}') for number in range(asked.servers)], [], []
    for disk in disks:
        fill(asked.program, disk, asked.items)
    for disk in disks:
        began = time.monotonic()
        servers.append(Server(asked.program, disk))
        opened.append(time.monotonic() - began)
    before = [server.measure() for server in servers]
    time.sleep(REST)
    after = [server.measure() for server in servers]
    for server in servers:
        server.end()
    middle = lambda at: statistics.median(found[at] for found in after)  # noqa: E731
    busy = sum(one[3] - other[3] for one, other in zip(after, before)) / REST / len(servers)
    return {'own': middle(0), 'shared': middle(1), 'threads': middle(2), 'busy': busy, 'opened': opened,
            'file': os.path.getsize(disks[0]), 'blocks': os.stat(disks[0]).st_blocks * 512}


def machines_for(stores, found):
    """How many machines so many stores want, with one to spare."""
    each = found['own'] + found['threads'] * STACK
    by_memory = int(MEMORY * PART // each)
    by_threads = int(THREADS // found['threads'])
    at_most = min(by_memory, by_threads)
    return -(-stores // at_most) + 1, at_most


def away(stores, machines, found, chance):
    """A machine dies: for how long its stores are away, as the others open them, each some at once."""
    lost = -(-stores // max(1, machines - 1))
    free = [NOTICED] * (AT_ONCE * max(1, machines - 1))
    heapq.heapify(free)
    back = []
    for _ in range(lost):
        at = heapq.heappop(free) + chance.choice(found['opened'])
        back.append(at)
        heapq.heappush(free, at)
    return statistics.median(back), max(back), lost


def main():
    asked = argparse.ArgumentParser(description='What many stores take.')
    asked.add_argument('program', nargs='?')
    asked.add_argument('--servers', type=int, default=20)
    asked.add_argument('--items', type=int, default=1000)
    asked = asked.parse_args()
    asked.program = os.path.realpath(asked.program or subprocess.run([os.path.join(TOP, 'boost'), 'which'], stdout=subprocess.PIPE, text=True,
                                                                     check=True).stdout.strip())
    with tempfile.TemporaryDirectory() as room:
        found = measured(asked, room)
    print(f'{asked.servers} servers at rest, each with {asked.items} jobs: {found["own"] / 2**20:.2f} MB of its own and {found["shared"] / 2**20:.2f} MB '
          f'that all share, {found["threads"]:.0f} threads, {found["busy"]:.5f} processors; opened within {statistics.median(found["opened"]):.3f} s '
          f'in the middle and {max(found["opened"]):.3f} s at most; a file of {found["file"]} bytes, {found["blocks"]} on the disk')
    chance = random.Random(1)
    for stores in (10, 1000, 100000):
        machines, at_most = machines_for(stores, found)
        middle, longest, lost = away(stores, machines, found, chance)
        print(f'{stores} stores: {stores * found["own"] / 2**30:.2f} GB, {stores * found["threads"]:,.0f} threads, {stores * found["busy"]:.2f} '
              f'processors at rest, {stores * found["file"] / 2**30:.1f} GB of files; {machines} machines, one of them to spare ({at_most} stores '
              f'on each at most); where one dies {lost} stores are away for {middle:.1f} s in the middle, {longest:.1f} s at most')


if __name__ == '__main__':
    sys.exit(main())
