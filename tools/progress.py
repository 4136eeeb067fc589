#!/usr/bin/env python3
"""progress.py [PROGRAM]: a command that takes long says on standard error how far it is, and one that does not says nothing; and the
`status` of a server says since when its device stands still.

Each read of a block of the store is made to take half a second, and each sync of a server two, by a small library of C that is loaded
before the program. The program is crates/boost_main/out/boost_main, proved and built, unless another one is named. The last line tells
what was said.
"""
import os
import re
import shutil
import subprocess
import sys
import tempfile
import time

TOP = os.path.dirname(os.path.dirname(os.path.realpath(__file__)))
PROGRAM = sys.argv[1] if len(sys.argv) > 1 else os.path.join(TOP, 'crates/boost_main/out/boost_main')
AREA = '8M'
VALUES = 2400

SLOW = r"""
#define _GNU_SOURCE
#include <dlfcn.h>
#include <stdlib.h>
#include <unistd.h>

ssize_t pread(int file, void *bytes, size_t count, off_t at)
{
    ssize_t (*real)(int, void *, size_t, off_t) = (ssize_t (*)(int, void *, size_t, off_t))dlsym(RTLD_NEXT, "pread");
    if (count > 1000)
        usleep(500000);
    return real(file, bytes, count, at);
}

static int slow_sync(const char *name, int file)
{
    int (*real)(int) = (int (*)(int))dlsym(RTLD_NEXT, name);
    if (getenv("SLOW_SYNCS"))
        sleep(2);
    return real(file);
}

int fsync(int file) { return slow_sync("fsync", file); }
int fdatasync(int file) { return slow_sync("fdatasync", file); }
"""
OPENING = re.compile(r'boost: opening, (\d+) MB read')
COPYING = re.compile(r'boost: copying, (\d+) MB read, (\d+) MB written')
UPGRADING = re.compile(r'boost: upgrading, (\d+) MB read, (\d+) MB written')


def make_store(path):
    """A store with a journal of some 40 blocks."""
    subprocess.run([PROGRAM, 'format', path, '--area', AREA, '--format', '2'], check=True)
    lines = ['c1 make map m']
    for number in range(VALUES):
        lines += ['c1 begin'] if number % 800 == 0 else []
        lines.append(f'c1 call m put {number} {"5a" * 1000}')
        lines += ['c1 commit'] if number % 800 == 799 else []
    subprocess.run([PROGRAM, 'play', path, '-'], input='\n'.join(lines + ['turn'] * 80) + '\n', text=True, check=True,
                   stdout=subprocess.DEVNULL)


def check_said(words, form, said):
    """Lines of the form alone, whose numbers of bytes that were read rise."""
    lines = said.splitlines()
    numbers = [form.fullmatch(line) for line in lines]
    assert lines and all(numbers), (words, said)
    read = [int(number[1]) for number in numbers]
    assert read == sorted(read) and read[-1] > 0, (words, said)


def check_stands_still(slow, disk):
    """A server whose device stands still says since when, and no more once it goes on."""
    subprocess.run([PROGRAM, 'format', disk, '--area', AREA], check=True)
    with subprocess.Popen([PROGRAM, 'listen', disk], stdin=subprocess.PIPE, stdout=subprocess.PIPE, text=True, bufsize=1,
                          env={**os.environ, 'LD_PRELOAD': slow, 'SLOW_SYNCS': '1'}) as server:
        def ask(line):
            server.stdin.write(f'c1 {line}\n')
            return server.stdout.readline()
        assert server.stdout.readline() == '- hello boost 1\n', 'hello'
        assert ask('make counter n').startswith('c1 place'), 'make'
        time.sleep(1.5)
        seen = re.search(r'; writing_since (\d+)$', ask('status'))
        assert seen and 0 <= time.time() - int(seen[1]) < 4, seen
        assert ask('wait') == 'c1 kept\n', 'wait'
        time.sleep(0.5)
        assert 'writing_since' not in ask('status')
        server.stdin.close()
    assert server.returncode == 0, server.returncode


def main():
    with tempfile.TemporaryDirectory() as room:
        slow, disk = os.path.join(room, 'slow.so'), os.path.join(room, 'disk')
        subprocess.run(['cc', '-shared', '-fPIC', '-o', slow, '-x', 'c', '-', '-ldl'], input=SLOW, text=True, check=True)
        check_stands_still(slow, f'{disk}.still')
        make_store(disk)
        began = time.monotonic()
        quick = subprocess.run([PROGRAM, 'check', disk], stdout=subprocess.DEVNULL, stderr=subprocess.PIPE, text=True, check=True)
        assert quick.stderr == '' or time.monotonic() - began > 10, quick.stderr
        commands = {
            ('check',): OPENING, ('stat',): OPENING, ('show', '--read-only'): OPENING, ('show',): OPENING, ('listen',): OPENING,
            ('copy',): COPYING, ('upgrade',): UPGRADING, ('play',): OPENING, ('serve',): OPENING,
        }
        running = {}
        for at, words in enumerate(commands):
            own = shutil.copy(disk, f'{disk}{at}')
            more = {'copy': [f'{own}.new'], 'play': ['/dev/null'], 'serve': ['/dev/null']}.get(words[0], [])
            running[words] = subprocess.Popen([PROGRAM, words[0], own, *more, *words[1:]], stdin=subprocess.DEVNULL,
                                              stdout=subprocess.DEVNULL, stderr=subprocess.PIPE, text=True,
                                              env={**os.environ, 'LD_PRELOAD': slow})
        told = 0
        for words, run in running.items():
            said = run.communicate(timeout=600)[1]
            assert run.returncode == 0, (words, run.returncode, said)
            check_said(words, commands[words], said)
            told += said.count('\n')
        print(f'{len(commands)} commands said {told} lines, and a status since when the device stands still')


main()
