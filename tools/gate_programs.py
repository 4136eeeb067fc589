#!/usr/bin/env python3
"""gate_programs.py [PROGRAM]: runs the programs of docs/GATE.md at a gate, in each language that is installed, and looks at what they print.

A block marked `go`, `js` or `python` is a program that its first line names, and gets the path of the socket as its argument. The
program of the store is the script `boost`, unless one is named. The status is 1 where one does not print what it has to.
"""
import os
import re
import shutil
import subprocess
import sys
import tempfile
import time

TOP = os.path.dirname(os.path.dirname(os.path.realpath(__file__)))
PROGRAM = os.path.abspath(sys.argv[1]) if sys.argv[1:] else os.path.join(TOP, 'boost')
BLOCK = re.compile(r'^```(go|js|python)\n(.*?)^```$', re.MULTILINE | re.DOTALL)
# How a program of a language is run, by its command.
RUN = {'go': ['go', 'run'], 'js': ['node'], 'python': [sys.executable]}
# What each line that a program prints has to contain: those of other languages print answers as they come.
LINES = ['make counter hits -> ', 'begin -> begun ', 'call hits bump 1 -> done', 'call hits read -> total %d', 'keep -> kept ']
LINES_OF = {'python': ['in the transaction %d', 'kept ']}
SECONDS = 300


def programs():
    """Yields the language, the name and the text of each program."""
    with open(os.path.join(TOP, 'docs', 'GATE.md'), encoding='utf-8') as file:
        page = file.read()
    for language, text in BLOCK.findall(page):
        yield language, text.splitlines()[0].lstrip('/# '), text


def wait_for(path):
    end = time.monotonic() + 60
    while not os.path.exists(path):
        assert time.monotonic() < end, 'no ' + path
        time.sleep(0.05)


def check(room, path, which, program):
    """Runs a program, and says what it comes to."""
    language, name, text = program
    if not shutil.which(RUN[language][0]):
        return None, 'not run: %s is not installed' % RUN[language][0]
    source = os.path.join(room, name)
    with open(source, 'w', encoding='utf-8') as file:
        file.write(text)
    environment = {**os.environ, 'PYTHONPATH': os.path.join(TOP, 'clients', 'python'), 'GOCACHE': os.path.join(room, 'cache'),
                   'GOFLAGS': '-mod=mod', 'GO111MODULE': 'off'}
    ran = subprocess.run([*RUN[language], source, path], stdout=subprocess.PIPE, stderr=subprocess.STDOUT, text=True, cwd=room,
                         env=environment, timeout=SECONDS, check=False)
    wanted = [line % which if '%d' in line else line for line in LINES_OF.get(language, LINES)]
    found = ran.stdout.splitlines()
    is_well = ran.returncode == 0 and len(found) == len(wanted) and all(line in told for line, told in zip(wanted, found))
    return is_well, 'as it has to be' if is_well else 'status %d, %s' % (ran.returncode, ran.stdout)


def main():
    wrong = ran = 0
    with tempfile.TemporaryDirectory() as room:
        folder, disk, path, gate = (os.path.join(room, name) for name in ('run', 'disk', 'socket', 'gate'))
        os.mkdir(folder, 0o700)
        os.mkfifo(os.path.join(folder, 'door'), 0o600)
        sources = os.path.join(TOP, 'clients', 'gate')
        subprocess.run(['cc', '-std=c11', '-O2', '-o', gate] + [os.path.join(sources, name) for name in sorted(os.listdir(sources))
                                                               if name.endswith('.c')], check=True)
        subprocess.run([PROGRAM, 'format', disk, '--area', '65536'], check=True)
        running = [subprocess.Popen(words, stdin=subprocess.DEVNULL) for words in
                   ([PROGRAM, 'listen', disk, folder], [gate, folder, path])]
        try:
            wait_for(path)
            for program in programs():
                is_well, told = check(room, path, ran + 1, program)
                ran += is_well is not None
                wrong += is_well is False
                print('%s: %s' % (program[1], told), flush=True)
        finally:
            for each in reversed(running):
                each.terminate()
                each.wait(20)
    return 1 if wrong else 0


if __name__ == '__main__':
    sys.exit(main())
