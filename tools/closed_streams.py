#!/usr/bin/env python3
"""closed_streams.py [PROGRAM [LIBRARY_PROGRAM]]: runs each command with each of standard input, output and error closed, and all
of them, on a store whose content is known, and looks at the content afterwards.

A file that is opened where a stream is closed gets its number, and what is printed is written into it, unless the program sees
to it. The program is the proved one of crates/boost_main, or the one that is named. The second one is that of crates/template,
which has a store by the library; without it none is tried. The last line tells how many runs there were.
"""
import errno
import itertools
import os
import shutil
import subprocess
import sys
import tempfile
import time

TOP = os.path.dirname(os.path.dirname(os.path.realpath(__file__)))
PROGRAM = os.path.join(TOP, 'crates/boost_main/out/boost_main')
AREA = '65536'
# The lines that a server would carry out that took the bytes of its store for its input.
LINES = b'\nc1 do hits bump 100\nend\n'.hex()
MAKING = f'c1 make counter hits\nc1 make map m\nc1 begin\nc1 call hits bump 4\nc1 call m put 1 {LINES}\nc1 commit\nturn\n'
BUMP = 'c1 begin\nc1 call hits bump 1\nc1 commit\nturn\n'
CLOSINGS = [closed for count in range(4) for closed in itertools.combinations((0, 1, 2), count)]


def content(hits):
    return f'counter hits\n  {hits}\nmap m\n  1 {LINES}\n'


class Room:
    """A folder with a store `disk`, and what was seen in it that is not as it must be."""

    def __init__(self, path, program):
        self.path, self.program, self.runs, self.wrong = path, program, 0, []
        self.write_scripts()
        self.sure('format', 'good', '--area', AREA)
        self.sure('play', 'good', 'making')
        os.mkdir(os.path.join(path, 'folder'), 0o700)
        os.mkfifo(os.path.join(path, 'folder', 'door'), 0o600)
        self.names = set(os.listdir(path))

    def write_scripts(self):
        for name, text in (('making', MAKING), ('bump', BUMP)):
            with open(os.path.join(self.path, name), 'w', encoding='utf-8') as file:
                file.write(text)

    def sure(self, *words):
        return subprocess.run([self.program, *words], cwd=self.path, check=True, stdout=subprocess.PIPE).stdout

    def start(self, closed, program, *words):
        """Starts a program with these streams closed. Those that are not are pipes."""
        def close():
            for stream in closed:
                os.close(stream)
        pipes = {'stdin': subprocess.PIPE, 'stdout': subprocess.PIPE, 'stderr': subprocess.PIPE}
        self.runs += 1
        return subprocess.Popen([program, *words], cwd=self.path, preexec_fn=close, **pipes)

    def shown(self, name):
        done = subprocess.run([self.program, 'show', name], cwd=self.path, stdout=subprocess.PIPE, stderr=subprocess.STDOUT, check=False)
        return done.stdout.decode(errors='replace')

    def look(self, what, closed, status, statuses, holds):
        """Looks at the status, at what each store of `holds` shows, and at all other files, which must be as they were."""
        seen = []
        if status not in statuses:
            seen.append(f'status {status} in place of {statuses}')
        for name, wanted in holds.items():
            shown = self.shown(name)
            if shown not in wanted:
                seen.append(f'{name} shows {shown[:60]!r}')
        for name, text in (('making', MAKING), ('bump', BUMP)):
            with open(os.path.join(self.path, name), encoding='utf-8') as file:
                if file.read() != text:
                    seen.append(f'{name} was written')
        more = set(os.listdir(self.path)) - self.names - set(holds)
        if more:
            seen.append(f'left {sorted(more)}')
        if seen:
            self.wrong.append(f'{what}, closed {closed}: ' + ', '.join(seen))

    def anew(self):
        for name in set(os.listdir(self.path)) - self.names:
            os.remove(os.path.join(self.path, name))
        shutil.copyfile(os.path.join(self.path, 'good'), os.path.join(self.path, 'disk'))
        self.write_scripts()


def try_commands(room, closed):
    """Each command that ends by itself: status 4 where it prints and cannot."""
    printed = {4} if 1 in closed else {0}
    same, one_more, empty = {'disk': [content(4)]}, {'disk': [content(5)]}, ['']
    for words, statuses, holds in (
        (('format', 'new', '--area', AREA), {0}, {**same, 'new': empty}),
        (('format', 'new', '--area', AREA, '--reserve'), {0}, {**same, 'new': empty}),
        (('play', 'disk', 'bump'), printed, one_more), (('serve', 'disk', 'bump'), printed, one_more),
        (('serve', '--why', 'disk', 'bump'), printed, one_more), (('show', 'disk'), printed, same),
        (('show', '--read-only', 'disk'), printed, same), (('check', 'disk'), printed, same), (('stat', 'disk'), printed, same),
        (('stat', '--json', 'disk'), printed, same), (('copy', 'disk', 'new'), printed, {**same, 'new': [content(4)]}),
        (('upgrade', 'disk'), printed, same), (('lint', 'bump'), printed, same), (('demo',), printed, same),
        (('play', 'disk', 'good'), {3}, same), (('show', 'bump'), {1}, same), (('show', 'missing'), {4}, same),
    ):
        room.anew()
        run = room.start(closed, room.program, *words)
        run.communicate(timeout=120)
        room.look(' '.join(words), closed, run.returncode, statuses, holds)


def try_pipes(room, closed):
    """A server of a parent: it carries out no line that the parent did not write, and tells what cannot be told by its status."""
    room.anew()
    run = room.start(closed, room.program, 'listen', 'disk')
    told = b''
    if 0 not in closed:
        try:
            told = run.communicate(b'c1 keep hits bump 1\nend\n', timeout=120)[0] or b''
        except BrokenPipeError:
            pass
    run.wait(120)
    if 0 in closed:
        holds, statuses = [content(4)], {4}
    elif 1 in closed:
        holds, statuses = [content(4), content(5)], {4}
    else:
        holds, statuses = [content(5)], {0}
        if told != b'- hello boost 1\nc1 done; kept 1\n':
            room.wrong.append(f'listen, closed {closed}: told {told[:60]!r}')
    room.look('listen', closed, run.returncode, statuses, {'disk': holds})


def say(door, text, run):
    """Writes a line at the door, once a server is there."""
    while run.poll() is None:
        try:
            end = os.open(door, os.O_WRONLY | os.O_NONBLOCK)
        except OSError as error:
            if error.errno != errno.ENXIO:
                raise
            time.sleep(0.02)
            continue
        os.write(end, text)
        os.close(end)
        return


def try_door(room, closed):
    """A server at a door, where somebody says hello who is not there: that is told on standard error alone."""
    room.anew()
    run = room.start(closed, room.program, 'listen', 'disk', 'folder')
    door = os.path.join(room.path, 'folder', 'door')
    say(door, b'hello nobody\n', run)
    time.sleep(0.5)
    say(door, b'\nend\n', run)
    run.communicate(timeout=120)
    room.look('listen folder', closed, run.returncode, {0}, {'disk': [content(4)]})


def try_library(room, program, closed):
    """The program of the template, on a new store and on the one that it left. Its status is its own."""
    room.anew()
    for number in (1, 2):
        run = room.start(closed, program)
        run.communicate(timeout=120)
        holds = {'disk': [content(4)], 'template.disk': [f'counter runs\n  {number}\n']}
        room.look('template', closed, run.returncode, {run.returncode}, holds)


def main():
    program = os.path.realpath(sys.argv[1]) if len(sys.argv) > 1 else PROGRAM
    with tempfile.TemporaryDirectory() as path:
        room = Room(path, program)
        for closed in CLOSINGS:
            for attempt in (try_commands, try_pipes, try_door):
                attempt(room, closed)
            if len(sys.argv) > 2:
                try_library(room, os.path.realpath(sys.argv[2]), closed)
    for wrong in room.wrong:
        print(wrong)
    print(f'{room.runs} runs, {len(room.wrong)} not as written')
    return 1 if room.wrong else 0


if __name__ == '__main__':
    sys.exit(main())
