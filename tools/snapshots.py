#!/usr/bin/env python3
"""snapshots.py [PROGRAM [TIMES]]: takes snapshots of the file system of a store while clients commit, and opens each of them.

A snapshot is taken as LVM takes one: the file system is frozen, the bytes of its device are copied, and it goes on. The copy is mounted in
another place, where the store has to hold all that was told kept before the snapshot, and nothing that was not asked for before its end.
The file system is ext4 in a file of a new folder. It wants root, a loop device, mkfs.ext4 and fsfreeze: where one is wanting it says so.
"""
import contextlib
import os
import shutil
import subprocess
import sys
import tempfile
import threading
import time

TOP = os.path.dirname(os.path.dirname(os.path.realpath(__file__)))
sys.path.insert(0, os.path.join(TOP, 'clients/python'))
sys.dont_write_bytecode = True
import boost  # noqa: E402

PROGRAM = os.path.abspath(sys.argv[1]) if len(sys.argv) > 1 else os.path.join(TOP, 'boost')
TIMES = int(sys.argv[2]) if len(sys.argv) > 2 else 10
CLIENTS = 8
TOOLS = ('mkfs.ext4', 'fsfreeze', 'mount', 'umount')


def run(*words):
    return subprocess.run(words, check=True, stdout=subprocess.PIPE, text=True).stdout


@contextlib.contextmanager
def mounted(image, place):
    os.makedirs(place, exist_ok=True)
    run('mount', '-o', 'loop', image, place)
    try:
        yield place
    finally:
        run('umount', place)


class Clients:
    """Clients that bump one counter each, again and again: how often each has asked, and how often it was told that it is kept."""

    def __init__(self, disk):
        self.asked, self.told = [0] * CLIENTS, [0] * CLIENTS
        self.store, self.is_over = boost.start(PROGRAM, disk), threading.Event()
        for number in range(CLIENTS):
            self.store.make('counter', f'n{number}')
        self.threads = [threading.Thread(target=self.bump, args=(number,)) for number in range(CLIENTS)]
        for thread in self.threads:
            thread.start()

    def bump(self, number):
        while not self.is_over.is_set():
            self.asked[number] += 1
            self.store.do((f'n{number}', 'bump', 1), keep=True)
            self.told[number] += 1

    def end(self):
        self.is_over.set()
        for thread in self.threads:
            thread.join()
        assert self.store.close() == 0


def counted(disk):
    """What the counters of a store hold, by `show`."""
    words = run(PROGRAM, 'show', disk).split()
    return [int(words[words.index(f'n{number}') + 1]) for number in range(CLIENTS)]


def take(image, place, copy, clients):
    """A snapshot. What was told before it, and what was asked for before its end."""
    told = list(clients.told)
    run('fsfreeze', '-f', place)
    try:
        asked = list(clients.asked)                # (who asks from now on is not told before it goes on)
        run('cp', '--sparse=always', image, copy)
    finally:
        run('fsfreeze', '-u', place)
    return told, asked


def lacking():
    if os.geteuid() != 0:
        return 'root'
    return next((name for name in TOOLS if not shutil.which(name)), None if os.path.exists('/dev/loop-control') else 'a loop device')


def main():
    if lacking():
        print(f'not tried: it wants {lacking()}')
        return 0
    with tempfile.TemporaryDirectory() as room:
        image, copy = os.path.join(room, 'image'), os.path.join(room, 'copy')
        with open(image, 'wb') as file:
            file.truncate(64 << 20)
        run('mkfs.ext4', '-q', image)
        with mounted(image, os.path.join(room, 'here')) as place:
            disk = os.path.join(place, 'disk')
            run(PROGRAM, 'format', disk, '--area', '1M')
            clients = Clients(disk)
            try:
                for _ in range(TIMES):
                    time.sleep(0.2)
                    told, asked = take(image, place, copy, clients)
                    with mounted(copy, os.path.join(room, 'there')) as other:
                        found = counted(os.path.join(other, 'disk'))
                    assert all(low <= at <= high for low, at, high in zip(told, found, asked)), (told, found, asked)
            finally:
                clients.end()
            assert counted(disk) == clients.told
    print(f'{TIMES} snapshots, the last of {sum(found)} transactions: each has all that was told kept before it')
    return 0


if __name__ == '__main__':
    sys.exit(main())
