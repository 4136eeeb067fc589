#!/usr/bin/env python3
"""standby.py [PROGRAM]: tries contrib/boost-standby on the local disk: who waits takes over what was kept, one that hangs is shut out
where that was asked for, and each ends as it is told. PROGRAM is `./boost` if none is named. A line tells each check."""
import contextlib
import os
import shlex
import signal
import socket
import subprocess
import sys
import tempfile
import time

TOP = os.path.dirname(os.path.dirname(os.path.realpath(__file__)))
sys.dont_write_bytecode = True
sys.path.insert(0, os.path.join(TOP, 'clients', 'python'))
import boost  # noqa: E402

PROGRAM = os.path.realpath(sys.argv[1]) if sys.argv[1:] else os.path.join(TOP, 'boost')
STANDBY = os.path.join(TOP, 'contrib', 'boost-standby')
SOON = 15


class Machine:
    """A machine with a standby: its folder, and what it says to systemd and on standard error."""

    def __init__(self, room, name, *options, disk='disk'):
        self.folder, self.errors = os.path.join(room, name), os.path.join(room, name + '.errors')
        os.mkdir(self.folder)
        os.mkfifo(os.path.join(self.folder, 'door'))
        self.told = socket.socket(socket.AF_UNIX, socket.SOCK_DGRAM)
        self.told.bind(os.path.join(room, name + '.notify'))
        self.told.settimeout(SOON)
        words = [sys.executable, STANDBY, '--program', PROGRAM, '--every', '0.1', *options, os.path.join(room, disk), self.folder]
        with open(self.errors, 'wb') as errors:
            self.process = subprocess.Popen(words, stdin=subprocess.DEVNULL, stderr=errors, start_new_session=True,
                                            env={**os.environ, 'NOTIFY_SOCKET': os.path.join(room, name + '.notify')})

    def said(self):
        with open(self.errors, encoding='utf-8') as file:
            return file.read()

    def hears(self, word):
        return self.told.recv(200).decode() == word

    def end(self):
        self.process.terminate()
        return self.process.wait(SOON)

    def kill(self, number=signal.SIGKILL):
        with contextlib.suppress(ProcessLookupError):
            os.killpg(self.process.pid, number)


@contextlib.contextmanager
def two(*options):
    """Two machines on one disk, of which the first one serves and the second one waits."""
    with tempfile.TemporaryDirectory() as room:
        subprocess.run([PROGRAM, 'format', os.path.join(room, 'disk'), '--area', '65536'], check=True)
        machines = [Machine(room, 'a')]
        try:
            assert machines[0].hears('READY=1\nSTATUS=waits') and machines[0].hears('STATUS=serves')
            machines.append(Machine(room, 'b', *[option.replace('A', str(machines[0].process.pid)) for option in options]))
            assert machines[1].hears('READY=1\nSTATUS=waits')
            with boost.join(machines[0].folder) as store:
                store.make('counter', 'hits')
                store.do(('hits', 'bump', 5), keep=True)
            yield machines
        finally:
            for machine in machines:
                machine.kill()
                machine.process.wait()
                machine.told.close()


def taken_over(machine):
    """What the other machine finds once it serves."""
    assert machine.hears('STATUS=serves')
    with boost.join(machine.folder) as store:
        return store.do(('hits', 'read'))


def one_that_dies():
    with two() as (first, second):
        time.sleep(1)
        began = time.monotonic()
        first.kill()
        assert taken_over(second) == [5]
        took = time.monotonic() - began
        assert second.said() == 'boost-standby: waits\nboost-standby: serves\n', second.said()
        assert second.end() == 0
    return f'taken over within {took:.2f} s, with what was kept, and not a word of the tries before'


def one_that_hangs():
    """Without a probe nobody takes over from one that hangs; with one it is shut out, here by a kill."""
    with two() as (first, second):
        first.kill(signal.SIGSTOP)
        time.sleep(1.5)
        assert second.said() == 'boost-standby: waits\n', second.said()
        first.kill(signal.SIGCONT)
    probe = 'test "$(cut -d" " -f3 /proc/A/stat)" != T'
    with two('--probe', probe, '--after', '0.5', '--evict', 'kill -9 -A') as (first, second):
        time.sleep(1)
        assert 'shut out' not in second.said() and first.process.poll() is None, second.said()
        first.kill(signal.SIGSTOP)
        assert taken_over(second) == [5]
        assert second.said().count('shut out') == 1, second.said()
    return 'shut out once, and not while it answers'


def both_end():
    """At SIGTERM one that waits ends at once, and one that serves ends its server by the line `end`."""
    with two() as (first, second):
        began = time.monotonic()
        assert second.end() == 0 and time.monotonic() - began < 3
        with boost.join(first.folder) as store:
            store.do(('hits', 'bump', 1))                       # in effect, and told no more than its place
            assert first.end() == 0
        room = os.path.dirname(first.folder)
        found = subprocess.run([PROGRAM, 'show', os.path.join(room, 'disk')], stdout=subprocess.PIPE, text=True, check=True).stdout
        assert found == 'counter hits\n  6\n', found
    return 'with all that was committed'


def one_that_cannot():
    """What is wrong besides is told, and ends it with the status of the server."""
    with tempfile.TemporaryDirectory() as room:
        machine = Machine(room, 'a', disk='none')
        status = machine.process.wait(SOON)
        machine.told.close()
        assert status == 4 and 'cannot open' in machine.said() and 'No such file' in machine.said(), (status, machine.said())
    return 'status 4, and why'


def the_unit():
    """The command of the unit gives boost-standby the words that are told for it, and the disk and the folder."""
    with open(os.path.join(TOP, 'contrib', 'boost-standby.service'), encoding='utf-8') as file:
        lines = file.read().splitlines()
    words = shlex.split(next(line for line in lines if line.startswith('ExecStart=')).partition('=')[2].replace('$$', '$'))
    told = next(line for line in lines if 'STANDBY=' in line and line.startswith('#')).partition('STANDBY=')[2].strip('"')
    with tempfile.TemporaryDirectory() as room:
        printer = os.path.join(room, 'boost-standby')
        with open(printer, 'w', encoding='utf-8') as file:
            file.write('#!/bin/sh\nprintf "%s\\n" "$@"\n')
        os.chmod(printer, 0o755)
        words[-1] = words[-1].replace('/usr/local/bin/boost-standby', printer)
        found = {value: subprocess.run(words, stdout=subprocess.PIPE, text=True, check=True, env={**os.environ, 'STANDBY': value}).stdout
                 for value in ('', told)}
    rest = ['/srv/boost/disk', '/run/boost']
    assert found[''].splitlines() == ['--program', '/usr/local/bin/boost', *rest], found
    wanted = ['--probe', 'ping -c 1 -W 1 HOST', '--after', '10', '--evict', '/usr/local/sbin/evict-boost HOST', *rest]
    assert found[told].splitlines()[2:] == wanted, found
    return 'with and without a probe'


def main():
    for check in (one_that_dies, one_that_hangs, both_end, one_that_cannot, the_unit):
        print(f'{check.__name__}: {check()}', flush=True)


if __name__ == '__main__':
    main()
