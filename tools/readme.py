#!/usr/bin/env python3
"""readme.py [PROGRAM]: runs each command of the README, and of the page of patterns, as it stands, and compares what it
writes with what stands there.

The blocks marked `console` of a page are run one after another, in a new folder that has `boost` (a link to PROGRAM, or to the script
`boost`), `clients` and `contrib`. A line `$ COMMAND` is a command, up to END where it has `<<END`; what follows is what it
writes to both outputs, but for the lines of the script `boost` on a program that is not proved. A block marked `python`
is written into the file that its first line names. Blocks of other marks are not run. The status is 0 where all is as it
stands, else 1.
"""
import os
import re
import subprocess
import sys
import tempfile

TOP = os.path.dirname(os.path.dirname(os.path.abspath(__file__)))
PAGES = ('README.md', 'docs/PATTERNS.md')
BLOCK = re.compile(r'^```(\w*)\n(.*?)^```$', re.MULTILINE | re.DOTALL)
# What a run of a program that was never built may need.
SECONDS = 600


def commands(text):
    """Yields each command of a block, with what it is to write."""
    lines = text.splitlines()
    at = 0
    while at < len(lines):
        command = [lines[at][2:]]
        at += 1
        if '<<END' in command[0]:
            end = lines.index('END', at) + 1
            command += lines[at:end]
            at = end
        wanted = []
        while at < len(lines) and not lines[at].startswith('$ '):
            wanted.append(lines[at])
            at += 1
        yield '\n'.join(command), wanted


def run(command, folder):
    """What a command writes, line by line."""
    ended = subprocess.run(['bash', '-c', command], cwd=folder, stdin=subprocess.DEVNULL, stdout=subprocess.PIPE,
                           stderr=subprocess.STDOUT, timeout=SECONDS, check=False)
    lines = ended.stdout.decode().splitlines()
    return [line for line in lines if not line.startswith('boost: not proved yet')]


def check(page, folder):
    """Runs a page's commands in a folder. The number of those that were run, and of those that wrote something else."""
    ran = wrong = 0
    for mark, text in BLOCK.findall(page):
        if mark == 'python':
            name = text.splitlines()[0].lstrip('# ')
            with open(os.path.join(folder, name), 'w', encoding='utf-8') as file:
                file.write(text)
        if mark != 'console':
            continue
        for command, wanted in commands(text):
            found = run(command, folder)
            ran += 1
            if found != wanted:
                wrong += 1
                print(f'readme: {command}\n  wanted {wanted}\n  found  {found}', file=sys.stderr)
    return ran, wrong


def check_page(path, program):
    """Runs the commands of the page at a path in a new folder, and says whether all wrote what stands there."""
    with open(os.path.join(TOP, path), encoding='utf-8') as file:
        page = file.read()
    with tempfile.TemporaryDirectory() as folder:
        os.symlink(program, os.path.join(folder, 'boost'))
        for name in ('clients', 'contrib'):
            os.symlink(os.path.join(TOP, name), os.path.join(folder, name))
        ran, wrong = check(page, folder)
    print(f'{path}: {ran} commands run, {wrong} wrong')
    return ran and not wrong


def main():
    program = os.path.abspath(sys.argv[1]) if len(sys.argv) > 1 else os.path.join(TOP, 'boost')
    are_right = [check_page(path, program) for path in PAGES]
    return 0 if all(are_right) else 1


if __name__ == '__main__':
    sys.exit(main())
