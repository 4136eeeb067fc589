#!/usr/bin/env python3
"""full_store.py [PROGRAM] [ATTACK..]: a store that clients fill, each attack a function below.

Whoever would leave no room for the next image is refused 18 Full. The server serves on: what is open can be aborted, reads and
removes go on, others' commits are kept, a kill leaves a store that opens, and has what was kept. The program is the one that
`./boost` runs, unless one is named. It prints a line for each attack, and ends with status 1 where one succeeds.
"""
import contextlib
import os
import resource
import subprocess
import sys
import tempfile
import threading
import time

TOP = os.path.dirname(os.path.dirname(os.path.realpath(__file__)))

PROGRAM = os.path.abspath(sys.argv[1]) if len(sys.argv) > 1 else os.path.join(TOP, 'boost')
FULL = 'Full'
VALUE = b'v' * 200
ROWS = []


def attack(function):
    ROWS.append(function)
    return function


class Server:
    """`boost listen DISK` with its standard streams, asked a line at a time."""

    def __init__(self, folder, area=65536):
        self.disk = os.path.join(folder, 'disk')
        self.errors = os.path.join(folder, 'errors')
        if not os.path.exists(self.disk):
            subprocess.run([PROGRAM, 'format', self.disk, '--area', str(area)], check=True, stdout=subprocess.DEVNULL)
        self.start()

    def start(self):
        with open(self.errors, 'ab') as errors:
            self.process = subprocess.Popen([PROGRAM, 'listen', self.disk], stdin=subprocess.PIPE, stdout=subprocess.PIPE,
                                            stderr=errors, restore_signals=False)
        self.waiting, self.lock = {}, threading.Lock()
        self.reader = threading.Thread(target=self.read, args=(self.process,), daemon=True)
        self.reader.start()

    def read(self, process):
        for line in process.stdout:
            tag, _, text = line.decode().rstrip('\n').partition(' ')
            with self.lock:
                answers = self.waiting.get(tag)
            if answers is not None:
                answers.append(text)
                answers.came.release()

    def client(self, number):
        return Client(self, f'c{number}')

    def said(self):
        with open(self.errors, encoding='utf-8') as errors:
            return errors.read()

    def end(self):
        """Ends the server, which is to have served on; and looks that the store opens."""
        assert self.process.poll() is None, f'the server has ended: {self.said()}'
        self.process.stdin.write(b'end\n')
        self.process.stdin.flush()
        assert self.process.wait(60) == 0, self.said()
        self.opens()

    def kill(self):
        assert self.process.poll() is None, f'the server has ended: {self.said()}'
        self.process.kill()
        self.process.wait()

    def opens(self):
        shown = subprocess.run([PROGRAM, 'show', self.disk], capture_output=True, text=True, timeout=120)
        assert shown.returncode == 0, f'the store does not open: {shown.stderr}'
        return shown.stdout


class Answers(list):
    def __init__(self):
        super().__init__()
        self.came = threading.Semaphore(0)


class Client:
    def __init__(self, server, tag):
        self.server, self.tag, self.answers = server, tag, Answers()
        with server.lock:
            server.waiting[tag] = self.answers

    def ask(self, line, seconds=60):
        stdin = self.server.process.stdin
        with self.server.lock:
            stdin.write(f'{self.tag} {line}\n'.encode())
            stdin.flush()
        assert self.answers.came.acquire(timeout=seconds), f'no answer to {line[:40]!r} in {seconds} seconds: {self.server.said()}'
        return self.answers.pop(0)

    def ask_or_end(self, line, seconds):
        """The answer, or none where the server ends."""
        end = time.monotonic() + seconds
        with contextlib.suppress(BrokenPipeError):
            self.server.process.stdin.write(f'{self.tag} {line}\n'.encode())
            self.server.process.stdin.flush()
        while not self.answers.came.acquire(timeout=0.05):
            if self.server.process.poll() is not None:
                return None
            assert time.monotonic() < end, f'no answer to {line[:40]!r} in {seconds} seconds, and no end'
        return self.answers.pop(0)

    def need(self, line, wanted=None):
        told = self.ask(line)
        assert FULL not in told and not told.startswith(('refused', 'error')), f'{line[:40]!r}: {told}'
        assert wanted is None or wanted in told, f'{line[:40]!r}: {told}'
        return told

    def status(self):
        return {name: int(text) for name, text in (part.split(' ')[:2] for part in self.need('status').split('; '))
                if text.lstrip('-').isdigit()}


def put(key, value=VALUE):
    return f'put {key} {value.hex()}'


def fill(client, name='m', first=0, most=100_000):
    """Puts values, a transaction each, until it is refused Full. How many."""
    for key in range(first, first + most):
        told = client.ask(f'do {name} {put(key)}')
        if FULL in told:
            return key - first
        assert told.endswith(f'place {told.split(" ")[-1]}') or 'kept' in told or 'nothing' in told or 'done' in told, told
    raise AssertionError('it was never refused Full')


@attack
def a_map_that_grows(folder):
    """One client puts values until it is refused. Reads, removes and others' work go on, and behind removes it may put again."""
    server = Server(folder)
    one, two = server.client(1), server.client(2)
    one.need('make map m')
    one.need('make counter hits')
    count = fill(one)
    assert count > 100, f'refused behind {count} values in an area of 64 KiB'
    two.need('begin')
    two.need('call hits bump 1')
    two.need('keep', 'kept')
    one.need('do m get 0', VALUE.hex())
    for key in range(count // 2):
        one.need(f'do m remove {key}')
    for key in range(count // 4):
        one.need(f'do m {put(key + 1000)}')
    one.need('wait')
    server.end()


@attack
def an_open_transaction(folder):
    """One transaction puts until it is refused; it can be aborted, and others' work goes on meanwhile."""
    server = Server(folder)
    one, two = server.client(1), server.client(2)
    one.need('make map m')
    one.need('make counter hits')
    one.need('begin')
    calls = 0
    while calls < 1024:
        told = one.ask(f'call m {put(calls)}')
        if FULL in told:
            break
        calls += 1
    assert 30 < calls < 1024, calls
    for _ in range(200):
        two.need('begin')
        two.need('call hits bump 1')
        two.need('keep', 'kept')
    one.need('abort')
    for key in range(calls // 2):
        one.need(f'do m {put(key)}')
    server.end()


@attack
def sixty_four_together(folder):
    """64 clients have open transactions, and each asks for as much as it gets. All can be aborted, and the store opens."""
    server = Server(folder, 1 << 18)
    first = server.client(1)
    first.need('make map m')
    clients = [first] + [server.client(number) for number in range(2, 65)]
    got, wrong = [0] * 64, []

    def work(at):
        try:
            client = clients[at]
            client.need('begin')
            for call in range(1024):
                if FULL in client.ask(f'call m {put(at * 2000 + call)}'):
                    break
                got[at] += 1
        except AssertionError as error:
            wrong.append(error)

    threads = [threading.Thread(target=work, args=(at,)) for at in range(64)]
    for thread in threads:
        thread.start()
    for thread in threads:
        thread.join()
    assert not wrong, wrong[0]
    assert 60 < sum(got) < 2000, got
    for client in clients[32:]:
        client.need('abort')
    for client in clients[:32]:
        client.need('commit')
    first.need('wait')
    server.end()


@attack
def killed_while_full(folder):
    """A server whose store is full, with a transaction open, is killed. The store opens, and has what was kept."""
    server = Server(folder)
    one, two = server.client(1), server.client(2)
    one.need('make map m')
    one.need('make set done')
    count = fill(one)
    one.need('wait')
    two.need('begin')
    removed = 0
    while removed < count and FULL not in two.ask(f'call m remove {removed}'):
        removed += 1
    assert removed > 4, removed
    server.kill()
    shown = server.opens()
    assert shown.count(VALUE.hex()) == count, (shown.count(VALUE.hex()), count)
    server.start()
    one = server.client(1)
    one.need('do m remove 0')
    one.need('wait')
    server.end()


@attack
def collections_without_end(folder):
    """A store that is full is made collections of, with the longest names."""
    server = Server(folder)
    one = server.client(1)
    one.need('make map m')
    fill(one)
    refused = 0
    for number in range(255):
        told = one.ask(f'make counter {"n" * 60}{number:04}')
        refused += FULL in told
    assert refused, 'none was refused'
    one.need('do m remove 0')
    one.need('wait')
    server.end()


@attack
def queues_sets_and_pools(folder):
    """Each kind that grows is refused Full, and goes on behind what it took away."""
    grows = {'queue': ('q', 'add {0} {0}', 'take'), 'set': ('s', 'add {0}', 'remove {0}'), 'pool': ('p', 'draw', None),
             'quotas': ('k', 'fill {0} 5', None)}
    for kind, (name, add, take) in grows.items():
        with tempfile.TemporaryDirectory(dir=folder) as inner:
            server = Server(inner)
            one = server.client(1)
            one.need(f'make {kind} {name}')
            one.need('make counter hits')
            for number in range(100_000):
                if number % 100 == 0:
                    if number:
                        one.need('commit')
                    one.need('begin')
                told = one.ask(f'call {name} {add.format(number)}')
                if FULL in told:
                    break
                assert not told.startswith(('refused', 'error')), (kind, told)
            else:
                raise AssertionError(f'{kind} was never refused Full')
            assert number > 500, (kind, number)
            one.need('commit')
            one.need('begin')
            one.need('call hits bump 1')
            if take:
                one.need(f'call {name} {take.format(1)}')
            one.need('keep', 'kept')
            server.end()


@attack
def asked_again_and_again(folder):
    """Calls that do not fit are asked 500 times. No checkpoint is taken for them, as nothing was taken out meanwhile."""
    server = Server(folder)
    one, two = server.client(1), server.client(2)
    one.need('make map m')
    one.need('make counter hits')
    count = fill(one)
    one.need('wait')
    before = written(server)
    for key in range(500):
        assert FULL in one.ask(f'do m {put(key + 10_000)}')
    assert written(server) - before < 2 * 65536, written(server) - before
    for key in range(count // 8):
        two.need(f'do m remove {key}')
    for key in range(count // 16):
        two.need(f'do m {put(key + 20_000)}')
    server.end()


@attack
def the_disk_fails_meanwhile(folder):
    """The disk fails under the checkpoint for which a call waits. It is answered, and the server ends: no file takes its words then."""
    server = Server(folder)
    one = server.client(1)
    one.need('make map m')
    count = fill(one)
    for key in range(count // 8):
        one.need(f'do m remove {key}')
    one.need('wait')
    resource.prlimit(server.process.pid, resource.RLIMIT_FSIZE, (0, 0))
    told, key = one.ask_or_end('begin', 10), 30_000
    while told is not None and not told.startswith('refused'):
        told, key = one.ask_or_end(f'call m {put(key)}', 10), key + 1
    assert told is None or told.startswith(('refused 18 Full', 'refused 23 Lost')), told
    status = server.process.wait(10)
    assert status == 1, status
    assert server.opens().count(VALUE.hex()) == count - count // 8


def written(server):
    """How many bytes the server has written."""
    with open(f'/proc/{server.process.pid}/io', encoding='ascii') as counts:
        return int(next(line for line in counts if line.startswith('wchar')).split()[1])


@attack
def it_is_told(folder):
    """`status` says how full the store is, and standard error says it once from 80 and once from 95 hundredths on."""
    server = Server(folder, 1 << 17)
    one = server.client(1)
    one.need('make map m')
    assert one.status()['full'] < 5, one.status()
    count = fill(one)
    status = one.status()
    assert status['full'] >= 95 and status['checkpoint'] <= status['area'], status
    for key in range(count):
        one.need(f'do m remove {key}')
    fill(one, first=5000)
    said = server.said().splitlines()
    told = [line for line in said if 'full' in line]
    assert 1 <= len(told) <= 2 and 'of 100 full' in told[-1], said
    assert int(told[-1].split(' of 100 full')[0].split(' ')[-1]) >= 95, told
    server.end()


def main():
    wanted = sys.argv[2:]
    failed = 0
    for function in ROWS:
        if wanted and function.__name__ not in wanted:
            continue
        with tempfile.TemporaryDirectory(prefix='full-') as folder:
            try:
                function(folder)
                print(f'{function.__name__}: withstood', flush=True)
            except (AssertionError, OSError, subprocess.TimeoutExpired) as error:
                failed += 1
                print(f'{function.__name__}: FAILED: {error}', flush=True)
    print(f'{failed} failed')
    return 1 if failed else 0


if __name__ == '__main__':
    sys.exit(main())
