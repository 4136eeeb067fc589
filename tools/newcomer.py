#!/usr/bin/env python3
"""newcomer.py: goes the way of a newcomer through a fresh clone of the repository, and tells how long each step takes.

The steps are those of the README and of docs/LIBRARY.md: the demo, which builds the program; a dialogue by hand over `listen`;
a program in Python; a crate of one's own from the template. Each has to write what it must, else the status is 1. What is not
committed is no part of a clone.
"""
import os
import subprocess
import sys
import tempfile
import time

TOP = os.path.dirname(os.path.dirname(os.path.realpath(__file__)))
# What a step is called, its folder, its command, and a line that it has to write.
STEPS = (
    ('the demo, which builds the program', '.', './boost demo', None),
    ('a store, and a dialogue over `listen`', '.',
     "./boost format my.store --area 1048576 && "
     "printf 'c1 make counter hits\\nc1 keep hits bump 5\\nend\\n' | ./boost listen my.store", 'c1 done; kept 2'),
    ('a program in Python', '.',
     "PYTHONPATH=clients/python python3 -c \"import boost; store = boost.start('./boost', 'my.store'); "
     "print(store.do(('hits', 'read'))); store.close()\"", '[5]'),
    ('a crate of one\'s own, its first try', '.',
     "cp -r crates/template crates/mine && echo 'mine: anyhow fizgaloms' >> crates.txt && cd crates/mine && rt try",
     'run 1 of this store'),
)


def main():
    with tempfile.TemporaryDirectory() as room:
        clone = os.path.join(room, 'clone')
        subprocess.run(['git', 'clone', '--quiet', TOP, clone], check=True)
        for name, folder, command, line in STEPS:
            begun = time.monotonic()
            ended = subprocess.run(['bash', '-c', command], cwd=os.path.join(clone, folder), stdin=subprocess.DEVNULL,
                                   stdout=subprocess.PIPE, text=True, check=False)
            seconds = time.monotonic() - begun
            if ended.returncode != 0 or line not in (None, *ended.stdout.splitlines()):
                print(f'{name}: status {ended.returncode}: {ended.stdout}', file=sys.stderr)
                return 1
            print(f'{name}: {seconds:.1f} s', flush=True)
    return 0


if __name__ == '__main__':
    sys.exit(main())
