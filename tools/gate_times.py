#!/usr/bin/env python3
"""gate_times.py [COMMAND ..]: runs a command, `.ci/run` if none is named, and tells what each crate took of it.

Twice a second it looks at the processes that the command has started, and at the end prints a row for each crate: processor seconds
of its proof and programs, of its edits, and the most memory that one process took; then the minutes of the clock and of all processors.
What runs beside it on the machine is not counted, but makes it slower.
"""
import os
import re
import subprocess
import sys
import time
from collections import defaultdict

TICKS = os.sysconf('SC_CLK_TCK')
PAGE = os.sysconf('SC_PAGE_SIZE')
CRATE = re.compile(r'--crate-name (\w+)')


def processes():
    """Yields (number, parent, beginning, processor seconds, bytes) of each process."""
    for number in filter(str.isdigit, os.listdir('/proc')):
        try:
            with open(f'/proc/{number}/stat', encoding='utf-8', errors='replace') as file:
                rest = file.read().rpartition(')')[2].split()
        except OSError:
            continue
        yield int(number), int(rest[1]), rest[19], (int(rest[11]) + int(rest[12])) / TICKS, int(rest[21]) * PAGE


def what_of(number, parent):
    """What a process works on: (crate, whether for an edit); that of its parent where it does not say."""
    try:
        with open(f'/proc/{number}/cmdline', 'rb') as file:
            words = file.read().replace(b'\0', b' ').decode(errors='replace')
    except OSError:
        return parent
    found = CRATE.search(words)
    # (what is proved is built, and an edit is checked)
    return (found[1], ' check ' in words) if found else parent


def look(root, seen, below):
    """Notes what the processes below the root have taken so far."""
    rows = sorted(processes())
    below.add(root)
    for number, parent, began, seconds, size in rows:
        if parent in below or number in below:
            below.add(number)
            key = number, began
            what = seen.get(key, (None,))[0] or what_of(number, seen.get(parent, (('', False),))[0])
            seen[key] = what or ('', False), seconds, max(size, seen.get(key, (None, 0, 0))[2])


def main(*words):
    words, seen, below = words or ('.ci/run',), {}, set()
    began = time.monotonic()
    before = os.times()
    run = subprocess.Popen(words)
    while run.poll() is None:
        look(run.pid, seen, below)
        time.sleep(0.5)
    after = os.times()
    rows = defaultdict(lambda: [0.0, 0.0, 0])
    for (crate, is_edit), seconds, size in seen.values():
        rows[crate or 'all else'][is_edit] += seconds
        rows[crate or 'all else'][2] = max(rows[crate or 'all else'][2], size)
    for crate, (proof, edits, size) in sorted(rows.items(), key=lambda row: -row[1][0] - row[1][1]):
        print(f'{crate:16} {proof:7.0f} {edits:7.0f} {size / 1e9:6.1f} GB')
    spent = after.children_user + after.children_system - before.children_user - before.children_system
    print(f'{(time.monotonic() - began) / 60:.0f} minutes, {spent / 60:.0f} of a processor')
    return run.returncode


if __name__ == '__main__':
    sys.exit(main(*sys.argv[1:]))
