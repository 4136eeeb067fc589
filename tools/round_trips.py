#!/usr/bin/env python3
"""round_trips.py PROGRAM [--redis SERVER] [--seconds S] [--rounds N] [--into FILE]: how many transactions a second clients of
`boost listen` make, and clients of Redis beside it.

Each transaction bumps one counter. Clients in C, threads of one process, and in Python, a process each, come by the door; threads
of one Python parent talk over its pipes. A transaction is waited for until it is kept, or not; or each client sends sixteen lines
at once, and waits for the last. Redis keeps each answer before it gives it (`appendfsync always`), over a socket of this machine;
its clients send one command, or sixteen at once. All are measured in turns, so many rounds: the middle round is told, with the
least and the greatest. At the end the counters are compared with what was answered. PROGRAM is proved and built, and nothing else
is at work.
"""
import argparse
import json
import multiprocessing
import os
import queue
import socket
import subprocess
import sys
import tempfile
import threading
import time

TOP = os.path.dirname(os.path.dirname(os.path.realpath(__file__)))
sys.path.insert(0, os.path.join(TOP, 'clients/python'))
sys.dont_write_bytecode = True
import boost  # noqa: E402

CLIENTS = (1, 8, 64)
DEPTH = 16
KEEP, DO, INCREMENT = 'keep hits bump 1', 'do hits bump 1', 'INCR hits'


# ---- servers


class Served:
    """A store with one counter, and a server at its door."""

    def __init__(self, program, folder):
        self.program, self.disk, self.place = program, os.path.join(folder, 'disk'), os.path.join(folder, 'clients')
        subprocess.run([program, 'format', self.disk, '--area', str(1 << 26)], check=True)
        with boost.start(program, self.disk) as store:
            store.make('counter', 'hits')
        os.mkdir(self.place, 0o700)
        os.mkfifo(os.path.join(self.place, 'door'), 0o600)

    def start(self):
        self.server = subprocess.Popen([self.program, 'listen', self.disk, self.place])
        while True:
            try:
                return boost.join(self.place).session().connection.close()
            except boost.Gone:
                time.sleep(0.01)

    def end(self):
        with open(os.path.join(self.place, 'door'), 'wb', buffering=0) as door:
            door.write(b'end\n')
        assert self.server.wait() == 0

    def count(self):
        words = subprocess.run([self.program, 'show', self.disk], check=True, stdout=subprocess.PIPE, text=True).stdout.split()
        return int(words[words.index('hits') + 1])


class Redis:
    """A server of Redis at a socket of its own."""

    def __init__(self, program, folder):
        self.program, self.folder, self.place = program, folder, os.path.join(folder, 'socket')

    def start(self):
        words = ['--port', '0', '--unixsocket', self.place, '--appendonly', 'yes', '--appendfsync', 'always', '--save', '',
                 '--auto-aof-rewrite-percentage', '0', '--dir', self.folder, '--daemonize', 'no']
        self.server = subprocess.Popen([self.program, *words], stdout=subprocess.DEVNULL)
        while not self.is_ready():
            time.sleep(0.01)

    def is_ready(self):
        """Whether it answers, which it does not while it reads its log."""
        try:
            return Plain(self.place).line('PING') == b'+PONG\r\n'
        except OSError:
            return False

    def end(self):
        self.server.terminate()
        assert self.server.wait() == 0

    def count(self):
        self.start()
        answer = Plain(self.place).line('GET hits', 2)
        self.end()
        return int(answer)


class Plain:
    """A client of Redis."""

    def __init__(self, path):
        self.socket = socket.socket(socket.AF_UNIX)
        self.socket.connect(path)
        self.answers = self.socket.makefile('rb')

    def line(self, command, lines=1):
        """Sends a command, and gives the last of so many lines of its answer."""
        self.socket.sendall(command.encode() + b'\n')
        return [self.answers.readline() for _ in range(lines)][-1]


# ---- clients


def told(times, answers, seconds):
    """What is told of so many answers in so many seconds, and of how many seconds each batch took."""
    times.sort()
    half, most = times[len(times) // 2], times[len(times) * 99 // 100]
    return {'rate': round(answers / seconds), 'answers': answers, 'half_us': round(half * 1e6), 'most_us': round(most * 1e6)}


def act_while(come_in, barrier, seconds, results):
    """Comes in, and once all are there acts for so many seconds. How long each act took is put into the results."""
    act = come_in()
    barrier.wait()
    times, begun = [], time.monotonic()
    end = begun + seconds
    while begun < end:
        act()
        done = time.monotonic()
        times.append(done - begun)
        begun = done
    results.put(times)


def crowd(kind, primitives, clients, seconds, come_in):
    """So many threads or processes that act for so many seconds."""
    barrier, results = primitives.Barrier(clients + 1), queue.Queue() if kind is threading.Thread else multiprocessing.Queue()
    members = [kind(target=act_while, args=(come_in, barrier, seconds, results)) for _ in range(clients)]
    for member in members:
        member.start()
    barrier.wait()
    begun = time.monotonic()
    times = [time for _ in members for time in results.get()]
    elapsed = time.monotonic() - begun
    for member in members:
        member.join()
    return told(times, len(times), elapsed)


def bump(store, line):
    """What does as the line does, by the store's own call."""
    return lambda: store.do(('hits', 'bump', 1), keep=line == KEEP)


def in_python(server, line, clients, seconds):
    """Processes that come by the door, or to the socket."""
    def come_in():
        if isinstance(server, Redis):
            own = Plain(server.place)
            return lambda: own.line(line)
        return bump(boost.join(server.place), line)
    return crowd(multiprocessing.Process, multiprocessing, clients, seconds, come_in)


def over_pipes(server, line, clients, seconds):
    """Threads of a parent, whose child is the server."""
    store = boost.start(server.program, server.disk)
    answer = crowd(threading.Thread, threading, clients, seconds, lambda: bump(store, line))
    assert store.close() == 0
    return answer


class InC:
    """Threads of one process, in C."""

    def __init__(self, folder):
        self.program = os.path.join(folder, 'load')
        subprocess.run(['cc', '-O2', '-o', self.program, os.path.join(TOP, 'tools/load.c'), '-lpthread'], check=True)

    def __call__(self, depth, last):
        def measure(server, line, clients, seconds):
            kind = 'redis' if isinstance(server, Redis) else 'boost'
            words = [self.program, kind, server.place, str(clients), str(seconds), str(depth), line, last]
            return json.loads(subprocess.run(words, check=True, stdout=subprocess.PIPE).stdout)
        return measure


# ---- measuring


def rows_of(store, apart, redis, in_c):
    """What is measured: the words for it, the server, how, and the line."""
    yield 'C, by the door, waited for', store, in_c(1, KEEP), KEEP
    yield 'C, by the door, sixteen at once, the last waited for', store, in_c(DEPTH, KEEP), DO
    yield 'C, by the door, not waited for', store, in_c(1, DO), DO
    yield 'Python, by the door, waited for', store, in_python, KEEP
    yield 'Python, by the door, not waited for', store, in_python, DO
    yield 'Python, threads over pipes, waited for', apart, over_pipes, KEEP
    yield 'Python, threads over pipes, not waited for', apart, over_pipes, DO
    if redis is not None:
        yield 'C, Redis', redis, in_c(1, INCREMENT), INCREMENT
        yield 'C, Redis, sixteen at once', redis, in_c(DEPTH, INCREMENT), INCREMENT
        yield 'Python, Redis', redis, in_python, INCREMENT


def measure(rows, rounds, seconds):
    """Measures all rows with each number of clients, in turns; what came of each, by its words and the number."""
    found, answered = {}, {}
    for _ in range(rounds):
        for words, server, how, line in rows:
            for clients in CLIENTS:
                one = how(server, line, clients, seconds)
                found.setdefault((words, clients), []).append(one)
                answered[server] = answered.get(server, 0) + one['answers']
                print('%-54s %2d clients %8d a second' % (words, clients, one['rate']), file=sys.stderr)
    return found, answered


def summary(words, clients, rounds):
    """The middle round of a row, with the least and the greatest."""
    rounds = sorted(rounds, key=lambda one: one['rate'])
    middle = rounds[(len(rounds) - 1) // 2]
    return {'who': words, 'clients': clients, **middle, 'least': rounds[0]['rate'], 'greatest': rounds[-1]['rate']}


def main():
    arguments = argparse.ArgumentParser(description=__doc__, formatter_class=argparse.RawDescriptionHelpFormatter)
    arguments.add_argument('program')
    arguments.add_argument('--redis')
    arguments.add_argument('--seconds', type=float, default=2)
    arguments.add_argument('--rounds', type=int, default=3)
    arguments.add_argument('--into')
    given = arguments.parse_args()
    with tempfile.TemporaryDirectory() as room:
        folders = [os.path.join(room, name) for name in ('door', 'pipes', 'redis', 'c')]
        for folder in folders:
            os.mkdir(folder)
        store, apart = (Served(os.path.realpath(given.program), folder) for folder in folders[:2])
        redis = Redis(given.redis, folders[2]) if given.redis else None
        running = [server for server in (store, redis) if server is not None]
        for server in running:
            server.start()
        found, answered = measure(list(rows_of(store, apart, redis, InC(folders[3]))), given.rounds, given.seconds)
        for server in running:
            server.end()
        for server, count in answered.items():
            assert server.count() == count, 'the counter is not what was answered'
    rows = [summary(*key, rounds) for key, rounds in found.items()]
    text = json.dumps(rows, indent=1)
    print(text)
    if given.into:
        with open(given.into, 'w', encoding='utf-8') as file:
            file.write(text + '\n')


main()
