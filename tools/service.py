#!/usr/bin/env python3
"""service.py [PROGRAM]: follows contrib/boost.service step by step, as systemd.service(5) says that systemd does, and tries boost-attach.

The unit's commands run with /run/boost and /var/lib/boost in a folder that is gone at the end, as the user who calls; `PROGRAM` stands
for /usr/local/bin/boost, `./boost` if none is named. Each check prints what it saw; the status is 1 where one fails.
"""
import os
import re
import shutil
import signal
import subprocess
import sys
import tempfile
import time

TOP = os.path.dirname(os.path.dirname(os.path.realpath(__file__)))
PROGRAM = os.path.realpath(sys.argv[1]) if sys.argv[1:] else os.path.join(TOP, 'boost')
ATTACH = os.path.join(TOP, 'clients', 'shell', 'boost-attach')


def words_of(line):
    """The words of a command of a unit: quotes are taken away, `\\\\n` is a line feed's two characters, and `$$` is a dollar."""
    words = [quoted if quoted is not None else plain
             for quoted, plain in ((m[1], m[2]) for m in re.finditer(r"'([^']*)'|(\S+)", line))]
    return [word.replace('$$', '$').replace('\\\\', '\\') for word in words]


class Unit:
    """The unit over a folder, with what systemd does of it: start, stop, and the kill of what is left behind a stop."""

    def __init__(self, room):
        self.run, self.state = os.path.join(room, 'run'), os.path.join(room, 'state')
        self.commands = {}
        with open(os.path.join(TOP, 'contrib', 'boost.service'), encoding='utf-8') as file:
            for line in file:
                name, mark, text = line.strip().partition('=')
                if mark and not line.startswith('#'):
                    self.commands[name] = text.replace('/run/boost', self.run).replace('/var/lib/boost', self.state)
        os.makedirs(self.run, mode=0o770, exist_ok=True)
        os.chmod(self.run, int(self.commands['RuntimeDirectoryMode'], 8))
        os.makedirs(self.state, exist_ok=True)
        self.main = None

    def environment(self):
        """The environment of a command: the program and boost-attach are found, and the main process is named while it is known."""
        found = {**os.environ, 'PATH': os.path.dirname(ATTACH) + ':' + os.environ['PATH']}
        return {**found, 'MAINPID': str(self.main.pid)} if self.main and self.main.poll() is None else found

    def command(self, name, seconds):
        """Runs a control command to its end, while a main process that ends is noticed, as systemd does."""
        running, end = subprocess.Popen(words_of(self.commands[name]), env=self.environment()), time.monotonic() + seconds
        while running.poll() is None and time.monotonic() < end:
            if self.main:
                self.main.poll()
            time.sleep(0.02)
        running.kill()
        return running.wait()

    def start(self):
        os.umask(int(self.commands['UMask'], 8))
        assert self.command('ExecStartPre', 10) == 0
        main = words_of(self.commands['ExecStart'])
        main[0] = PROGRAM
        self.main = subprocess.Popen(main, stdin=subprocess.DEVNULL, stderr=subprocess.PIPE, start_new_session=True)
        return self.command('ExecStartPost', 300)

    def stop(self):
        """Stops as systemd does: ExecStop, also where the main process has ended, and then a signal for what is left."""
        began = time.monotonic()
        status = self.command('ExecStop', 40)
        is_left = self.main.poll() is None
        if is_left:
            os.killpg(self.main.pid, signal.SIGTERM)
        return status, is_left, self.main.wait(30), time.monotonic() - began


def attached(unit, lines):
    """What a client of boost-attach is answered."""
    ran = subprocess.run([ATTACH, unit.run, '20'], input=lines, stdout=subprocess.PIPE, text=True, timeout=40, check=False)
    return ran.returncode, ran.stdout


def a_start_is_over_once_the_store_is_open(unit):
    assert unit.start() == 0
    assert attached(unit, 'make counter hits\nkeep hits bump 5\nbye\n') == (0, 'hello boost 1\nplace 1\ndone; kept 2\nbye\n')
    return 'the first client is answered'


def a_stop_waits_for_the_end(unit):
    status, is_left, ended, _ = unit.stop()
    assert (status, is_left, ended) == (0, False, 0), (status, is_left, ended)
    return 'the server had ended, with status 0'


def a_stop_of_a_dead_server_waits_for_nothing(unit):
    assert unit.start() == 0
    os.killpg(unit.main.pid, signal.SIGKILL)
    unit.main.wait()
    status, is_left, _, seconds = unit.stop()
    assert status == 0 and not is_left and seconds < 2, (status, is_left, seconds)
    return f'{seconds:.1f} s'


def attach_ends_with_the_server(unit):
    assert unit.start() == 0
    client = subprocess.Popen([ATTACH, unit.run], stdin=subprocess.PIPE, stdout=subprocess.PIPE, text=True)
    assert client.stdout.readline() == 'hello boost 1\n'
    os.killpg(unit.main.pid, signal.SIGKILL)
    unit.main.wait()
    client.wait(10)
    client.stdin.close()
    return f'status {client.returncode}, with its input open'


def attach_that_is_killed_keeps_no_lock(unit):
    assert unit.start() == 0
    client = subprocess.Popen([ATTACH, unit.run], stdin=subprocess.PIPE, stdout=subprocess.PIPE, text=True)
    client.stdin.write('begin\ncall hits bump 1\n')
    client.stdin.flush()
    while client.stdout.readline() != 'done\n':
        pass
    assert attached(unit, 'do hits read\nbye\n')[1].startswith('hello boost 1\nrefused 9 Busy')
    client.kill()
    client.wait()
    for _ in range(50):
        answer = attached(unit, 'do hits read\nbye\n')[1]
        if 'Busy' not in answer:
            break
        time.sleep(0.1)
    client.stdin.close()
    unit.stop()
    assert answer.startswith('hello boost 1\ntotal 5; place '), answer
    return 'its transaction was taken back'


def a_plain_file_is_no_door(_):
    with tempfile.TemporaryDirectory() as folder:
        open(os.path.join(folder, 'door'), 'w', encoding='utf-8').close()
        ran = subprocess.run([ATTACH, folder], stdin=subprocess.DEVNULL, stderr=subprocess.PIPE, text=True, timeout=10, check=False)
        assert ran.returncode == 1 and 'no door' in ran.stderr, ran
        assert os.listdir(folder) == ['door']
    return 'told, and nothing made'


def attach_writes_into_no_other_file(_):
    """Somebody of the folder's group puts links to a file in the place of the FIFOs as these are made."""
    with tempfile.TemporaryDirectory() as room:
        folder, precious, mkfifo = (os.path.join(room, name) for name in ('run', 'precious', 'mkfifo'))
        for path, text in ((precious, 'precious'), (mkfifo, f'#!/bin/sh\nln -s {precious} "$3"\nln -s {precious} "$4"\n')):
            with open(path, 'w', encoding='utf-8') as file:
                file.write(text)
        os.chmod(precious, 0o600)
        os.chmod(mkfifo, 0o755)
        os.mkdir(folder)
        os.chmod(folder, 0o2770)
        os.mkfifo(os.path.join(folder, 'door'))
        if os.geteuid() == 0:
            os.chown(folder, 0, 61234)
        before = os.stat(precious)
        door = os.open(os.path.join(folder, 'door'), os.O_RDWR)
        ran = subprocess.run([ATTACH, folder, '1'], input='do hits read\n', stdout=subprocess.PIPE, stderr=subprocess.PIPE, text=True,
                             env={**os.environ, 'PATH': room + ':' + os.environ['PATH']}, timeout=20, check=False)
        os.close(door)
        after = os.stat(precious)
        same = ('st_size', 'st_mode', 'st_gid', 'st_mtime_ns')
        assert all(getattr(before, name) == getattr(after, name) for name in same), (before, after)
        assert ran.returncode == 1 and 'no FIFO' in ran.stderr and os.listdir(folder) == ['door'], (ran, os.listdir(folder))
    return 'told, and the file is as it was'


def as_user(user, groups, *words):
    """A command as another user, of a group of its own number and of these groups."""
    return ['setpriv', f'--reuid={user}', f'--regid={user}', f'--groups={groups}' if groups else '--clear-groups', *words]


def three_users(_):
    """Root, a member of the folder's group and a stranger, at a server of another user."""
    if os.geteuid() != 0 or not shutil.which('setpriv'):
        return 'not tried: it wants root and setpriv'
    server, member, stranger = 61234, 61235, 61236
    with tempfile.TemporaryDirectory() as room:
        os.chmod(room, 0o755)
        which = [PROGRAM, 'which'] if os.path.basename(PROGRAM) == 'boost' and os.path.dirname(PROGRAM) == TOP else ['echo', PROGRAM]
        program, attach = os.path.join(room, 'boost'), os.path.join(room, 'boost-attach')
        shutil.copy(subprocess.run(which, stdout=subprocess.PIPE, text=True, check=True).stdout.strip(), program)
        shutil.copy(ATTACH, attach)
        folder, state = os.path.join(room, 'run'), os.path.join(room, 'state')
        for path, mode in ((folder, 0o2770), (state, 0o750)):
            os.mkdir(path)
            os.chown(path, server, server)
            os.chmod(path, mode)
        disk, door = os.path.join(state, 'disk'), os.path.join(folder, 'door')
        subprocess.run(as_user(server, '', program, 'format', disk, '--area', '65536'), check=True)
        subprocess.run(as_user(server, '', 'mkfifo', '-m', '660', door), check=True)
        assert os.stat(disk).st_mode & 0o777 == 0o600
        run = subprocess.Popen(as_user(server, '', program, 'listen', disk, folder), stdin=subprocess.DEVNULL)
        told = {}
        for name, words in (('root', [attach, folder, '20']), ('member', as_user(member, str(server), attach, folder, '20')),
                            ('stranger', as_user(stranger, '', attach, folder, '5'))):
            ran = subprocess.run(words, input='bye\n', stdout=subprocess.PIPE, stderr=subprocess.PIPE, text=True, timeout=60, check=False)
            told[name] = ran.returncode, ran.stdout
        with open(door, 'w', encoding='utf-8') as file:
            file.write('\nend\n')
        assert run.wait(30) == 0
    assert told['root'] == told['member'] == (0, 'hello boost 1\nbye\n'), told
    assert told['stranger'][0] == 1 and not told['stranger'][1], told
    return 'root and a member are served, and a stranger is not'


def main():
    with tempfile.TemporaryDirectory() as room:
        unit = Unit(room)
        disk = os.path.join(unit.state, 'disk')
        subprocess.run([PROGRAM, 'format', disk, '--area', '1048576'], check=True)
        for check in (a_start_is_over_once_the_store_is_open, a_stop_waits_for_the_end, a_stop_of_a_dead_server_waits_for_nothing,
                      attach_ends_with_the_server, attach_that_is_killed_keeps_no_lock, a_plain_file_is_no_door,
                      attach_writes_into_no_other_file, three_users):
            print(f'{check.__name__}: {check(unit)}', flush=True)


main()
