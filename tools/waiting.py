#!/usr/bin/env python3
"""waiting.py [PROGRAM] [CHECK..]: clients of `boost listen` that wait for work, by lines `within SECONDS do ..`.

Each check is a function below, and says what it is for. The program is the one that `./boost` runs, unless another one is named; all
checks are run, unless some are named. It prints a line for each check, with the figure that it measured, and ends with status 1 at the
first that fails. A figure fails at a coarse limit alone, as other work may be on the machine.
"""
import atexit
import glob
import multiprocessing
import os
import random
import select
import shutil
import signal
import statistics
import subprocess
import sys
import tempfile
import threading
import time

TOP = os.path.dirname(os.path.dirname(os.path.realpath(__file__)))
sys.path.insert(0, os.path.join(TOP, 'clients/python'))
sys.dont_write_bytecode = True
import boost  # noqa: E402

PROGRAM = os.path.abspath(sys.argv[1]) if len(sys.argv) > 1 else os.path.join(TOP, 'boost')
AREA = 1 << 24
WAITERS = 60
# How many seconds a wake-up may take, and what of one processor those who wait may burn.
SLOW, MOST_BURNT = 1.0, 0.05
# How many seconds pass at most until the server sees that who waits has gone.
SEEN = 1.5
CHECKS = []


def check(function):
    CHECKS.append(function)
    return function


class Place:
    """A folder with a store that has the set `jobs`, and a server at its door."""

    def __init__(self, *options):
        self.room = tempfile.TemporaryDirectory()
        self.disk, self.door = os.path.join(self.room.name, 'disk'), os.path.join(self.room.name, 'clients')
        subprocess.run([PROGRAM, 'format', self.disk, '--area', str(AREA)], check=True, stdout=subprocess.DEVNULL)
        os.mkdir(self.door, 0o700)
        os.mkfifo(os.path.join(self.door, 'door'), 0o600)
        self.server = subprocess.Popen([PROGRAM, 'listen', self.disk, self.door, *options], stdin=subprocess.DEVNULL)
        atexit.register(self.server.kill)
        self.putter = self.client()
        assert self.putter.ask(['make set jobs'])[0].startswith('place ')

    def client(self):
        """A client, once the server is there."""
        while True:
            client = boost.Pipes(self.door)
            try:
                client.come_in(20)
                return client
            except boost.Gone:
                assert self.server.poll() is None, 'the server ended'
                time.sleep(0.01)

    def put(self, *jobs):
        """Puts jobs, each again while somebody who looks for one is in the way."""
        while jobs:
            answers = self.putter.ask([f'do jobs add {job}' for job in jobs])
            for answer in answers:
                assert answer.startswith(('yes; place ', 'refused 9 ')), answer
            jobs = [job for job, answer in zip(jobs, answers) if answer.startswith('refused ')]

    def left(self):
        """How many jobs are in the set."""
        return next(each.items for each in boost.lines.reply_of(self.putter.ask(['status'])[0], 'status').collections)

    def burnt(self):
        """How many seconds of a processor the server has used."""
        with open(f'/proc/{self.server.pid}/stat', encoding='ascii') as stat:
            fields = stat.read().rpartition(')')[2].split()
        return (int(fields[11]) + int(fields[12])) / os.sysconf('SC_CLK_TCK')

    def end(self):
        door = os.open(os.path.join(self.door, 'door'), os.O_WRONLY)
        os.write(door, b'end\n')
        os.close(door)
        began = time.monotonic()
        assert self.server.wait(20) == 0
        return time.monotonic() - began


def job_of(answer):
    """The job that a `do jobs pick` was told, or None."""
    word, _, rest = answer.partition('; place ')
    assert rest.isdigit(), answer
    if word == 'nothing':
        return None
    assert word.startswith('id '), answer
    return int(word[3:])


@check
def one_who_waits_is_woken():
    """How long it takes until a job that is put has come to the one who waits."""
    place = Place()
    waiter, times = place.client(), []
    for job in range(200):
        waiter.send('within 30 do jobs pick\n')
        time.sleep(0.01)
        began = time.monotonic()
        place.put(job)
        assert job_of(waiter.receive(20)) == job
        times.append(time.monotonic() - began)
    place.end()
    times.sort()
    assert times[len(times) // 2] < SLOW, times
    return f'in {statistics.median(times) * 1e6:.0f} microseconds, 99 of 100 in {times[-len(times) // 100] * 1e6:.0f}'


@check
def the_time_is_over():
    """Who finds nothing is told so once the time is over, and what is done then is done as by `do`."""
    place = Place()
    waiter = place.client()
    began = time.monotonic()
    assert waiter.ask(['within 0 do jobs pick'])[0].startswith('nothing; place ')
    at_once = time.monotonic() - began
    assert place.putter.ask(['make counter asked'])[0].startswith('place ')
    began = time.monotonic()
    assert waiter.ask(['within 0.7 keep asked bump 1; jobs pick'])[0].startswith('done; nothing; kept ')
    late = time.monotonic() - began
    assert at_once < SLOW and 0.7 <= late < 0.7 + SLOW, (at_once, late)
    assert waiter.ask(['do asked read'])[0].startswith('total 1;')
    for line in ('within 86400.001 do jobs pick', 'within 1.2345 do jobs pick', 'within -1 do jobs pick', 'within do jobs pick',
                 'within 1 begin', 'within 1. do jobs pick', 'within 01 do jobs pick'):
        assert waiter.ask([line])[0].startswith('error NotUnderstood'), line
    assert waiter.ask(['within 20 do jobs bump 1'])[0] == 'refused 7 WrongKind'
    waiter.ask(['begin'])
    assert waiter.ask(['within 20 do jobs pick'])[0] == 'refused 25 AlreadyLive'
    waiter.ask(['abort'])
    place.end()
    return f'0.7 seconds take {late:.3f}'


@check
def one_who_is_in_the_way():
    """Who finds another transaction in its way has what it asked for as soon as that has ended."""
    place = Place()
    waiter = place.client()
    place.put(7)
    place.putter.ask(['begin', 'call jobs remove 7'])
    waiter.send('within 30 do jobs contains 7\n')
    time.sleep(0.2)
    assert not waiter.readable.poll(0), 'it did not wait'
    began = time.monotonic()
    place.putter.ask(['abort'])
    assert waiter.receive(20).startswith('yes; place ')
    taken = time.monotonic() - began
    assert taken < SLOW
    place.putter.ask(['begin', 'call jobs remove 7'])
    began = time.monotonic()
    assert waiter.ask(['within 0.3 do jobs contains 7'])[0].startswith('refused 9 Busy')
    assert 0.3 <= time.monotonic() - began < 0.3 + SLOW
    place.end()
    return f'{taken * 1e6:.0f} microseconds behind the abort'


@check
def those_who_wait_burn_nothing():
    """What 60 who wait take of a processor, by the clock of the server's process, and that all are woken."""
    place = Place()
    waiters = [place.client() for _ in range(WAITERS)]
    for waiter in waiters:
        waiter.send('within 60 do jobs pick\n')
    time.sleep(1)
    before = place.burnt()
    time.sleep(5)
    burnt = (place.burnt() - before) / 5
    place.put(*range(WAITERS))
    assert sorted(job_of(waiter.receive(20)) for waiter in waiters) == list(range(WAITERS))
    place.end()
    assert burnt < MOST_BURNT, burnt
    return f'{burnt * 100:.2f} % of a processor'


@check
def an_end_waits_for_nobody():
    """The line `end` ends a server at once in which many wait, each of which is answered."""
    place = Place()
    waiters = [place.client() for _ in range(WAITERS)]
    for waiter in waiters:
        waiter.send('within 3600 do jobs pick\n')
    time.sleep(0.5)
    took = place.end()
    told = [waiter.receive(5) for waiter in waiters]
    assert all(answer.startswith('nothing; place ') for answer in told), told
    assert took < 5
    return f'in {took:.2f} seconds'


def wait_forever(door):
    client = boost.Pipes(door)
    client.come_in(20)
    client.ask(['within 3600 do jobs pick'], 4000)


@check
def who_waits_is_killed():
    """What waits is killed, and then jobs are put: none of them is lost with who has gone, and its client is free."""
    place = Place()
    workers = [multiprocessing.Process(target=wait_forever, args=(place.door,)) for _ in range(40)]
    for worker in workers:
        worker.start()
    time.sleep(2)
    for worker in workers:
        worker.kill()
        worker.join()
    time.sleep(SEEN)
    jobs = list(range(100))
    place.put(*jobs)
    assert place.left() == len(jobs), 'one who has gone took a job'
    waiters = [place.client() for _ in range(WAITERS)]
    found = []
    for round_of in range(0, len(jobs), 50):
        for waiter in waiters[:50]:
            waiter.send('within 20 do jobs pick\n')
        found += [job_of(waiter.receive(30)) for waiter in waiters[:50]]
    place.end()
    assert sorted(found) == jobs, found
    return f'{len(workers)} of them, and {len(jobs)} jobs'


def work(door, pipe):
    """Waits for jobs, and tells each to the pipe, to its end."""
    client = boost.Pipes(door)
    client.come_in(20)
    while True:
        job = job_of(client.ask(['within 20 do jobs pick'], 60)[0])
        if job is not None:
            os.write(pipe, b'%d\n' % job)


@check
def workers_are_killed_at_work():
    """Workers are killed at any time while jobs come: none is told to two, and none is lost but those that were told to who died."""
    place = Place()
    heard, pipe = os.pipe()
    begin = lambda: multiprocessing.Process(target=work, args=(place.door, pipe))    # noqa: E731
    workers, deaths, jobs = [begin() for _ in range(8)], 0, 3000
    for worker in workers:
        worker.start()

    def put():
        for at in range(0, jobs, 10):
            place.put(*range(at, at + 10))
            time.sleep(0.002)
    putting = threading.Thread(target=put)
    putting.start()
    while putting.is_alive():
        time.sleep(0.05)
        at = random.randrange(len(workers))
        os.kill(workers[at].pid, signal.SIGKILL)
        workers[at].join()
        workers[at] = begin()
        workers[at].start()
        deaths += 1
    putting.join()
    end = time.monotonic() + 20
    while place.left() > 0 and time.monotonic() < end:
        time.sleep(0.05)
    time.sleep(0.5)
    assert place.left() == 0, 'jobs are left, and workers wait'
    for worker in workers:
        worker.kill()
        worker.join()
    os.close(pipe)
    with os.fdopen(heard) as lines:
        told = [int(line) for line in lines]
    place.end()
    assert len(set(told)) == len(told), 'a job was told to two'
    lost = jobs - len(told)
    assert lost <= deaths, (lost, deaths)
    return f'{deaths} deaths, {jobs} jobs, {lost} of them told to nobody but the dead'


@check
def how_many_jobs_a_second():
    """How many jobs go through 60 who wait, each of which waits again behind its job."""
    place = Place()
    waiters = {}
    look = select.poll()
    for _ in range(WAITERS):
        waiter = place.client()
        waiters[waiter.answers] = waiter
        look.register(waiter.answers, select.POLLIN)
        waiter.send('within 60 do jobs pick\n')
    over = threading.Event()

    def put():
        job = 0
        while not over.is_set():
            place.put(*range(job, job + 20))
            job += 20
            while place.left() > 1000 and not over.is_set():
                time.sleep(0.0005)
    putting = threading.Thread(target=put)
    began = time.monotonic()
    putting.start()
    counts = dict.fromkeys(waiters, 0)
    seen = set()
    while time.monotonic() < began + 5:
        for number, _ in look.poll(1000):
            job = job_of(waiters[number].receive(20))
            assert job is not None and job not in seen, job
            seen.add(job)
            counts[number] += 1
            waiters[number].send('within 60 do jobs pick\n')
    seconds = time.monotonic() - began
    over.set()
    putting.join()
    place.server.kill()
    place.server.wait()
    least, most = min(counts.values()), max(counts.values())
    assert least > 0, 'one who waits was starved'
    return f'{len(seen) / seconds:.0f} a second, each {least} to {most} of them'


@check
def at_a_gate():
    """A hundred programs wait at a gate of 60 seats, of which 45 may wait at once, and who puts jobs in has its turn. Those that go while
    they wait take no job along."""
    if not shutil.which('cc'):
        return 'not run: no cc'
    place = Place()
    program, path = os.path.join(place.room.name, 'boost-gate'), os.path.join(place.room.name, 'socket')
    subprocess.run(['cc', '-std=c11', '-O1', '-o', program, *glob.glob(os.path.join(TOP, 'clients/gate/*.c'))], check=True)
    gate = subprocess.Popen([program, place.door, path], stdin=subprocess.DEVNULL)
    atexit.register(gate.kill)
    while not os.path.exists(path):
        assert gate.poll() is None, 'the gate ended'
        time.sleep(0.01)

    def join():
        joined = boost.Socket(path)
        joined.come_in(20)
        return joined
    waiters, putter = [join() for _ in range(100)], join()
    for waiter in waiters:
        waiter.send('within 60 do jobs pick\n')
    time.sleep(1)
    began = time.monotonic()
    for job in range(100):
        while putter.ask([f'do jobs add {job}'], 20)[0].startswith('refused 9 '):
            pass
    taken = time.monotonic() - began
    assert sorted(job_of(waiter.receive(30)) for waiter in waiters) == list(range(100))
    for waiter in waiters[:60]:
        waiter.send('within 60 do jobs pick\n')
    time.sleep(1)
    for waiter in waiters[:30]:
        waiter.close()
    time.sleep(SEEN)
    place.put(*range(200, 230))
    assert sorted(job_of(waiter.receive(30)) for waiter in waiters[30:60]) == list(range(200, 230))
    gate.terminate()
    assert gate.wait(20) == 0
    place.end()
    return f'100 jobs put in {taken:.2f} seconds, 30 of 60 went'


def main(names):
    for function in CHECKS:
        if not names or function.__name__ in names:
            print(f'{function.__name__}: ', end='', flush=True)
            print(function(), flush=True)
    return 0


if __name__ == '__main__':
    sys.exit(main(sys.argv[2:]))
