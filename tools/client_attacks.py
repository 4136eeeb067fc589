#!/usr/bin/env python3
"""client_attacks.py [PROGRAM] [ATTACK..]: ways in which a program may hurt itself through the Python client, and servers that do.

Each attack is a function below, and says what must not be. Each is run in a process of its own, which has two minutes and is killed
then, over a door, over the pipes of a child, and over the socket of a gate where there is `cc`, where these differ. The program is the
script `boost`, unless another one is named;
all attacks are run, unless some are named. It prints a line for each attack, with what it saw, and ends with status 1 if one fails.
CLIENT in the environment names the folder of another client.
"""
import contextlib
import gc
import multiprocessing
import os
import random
import resource
import shutil
import signal
import subprocess
import sys
import tempfile
import threading
import time

TOP = os.path.dirname(os.path.dirname(os.path.realpath(__file__)))
CLIENT = os.environ.get('CLIENT', os.path.join(TOP, 'clients/python'))
sys.path.insert(0, CLIENT)
sys.dont_write_bytecode = True
import boost  # noqa: E402

PROGRAM = os.path.abspath(sys.argv[1]) if len(sys.argv) > 1 else os.path.join(TOP, 'boost')
SECONDS = 120
GATE = os.environ.get('GATE', '')
WAYS = ('door', 'pipes', 'gate') if GATE else ('door', 'pipes')


# ---- places


class Place:
    """A folder with a store and the collections of the attacks, and a server at a door."""

    def __init__(self, room, *options, mode=0o700):
        self.room = room
        self.options = options
        self.disk = os.path.join(room, 'disk')
        self.folder = os.path.join(room, 'clients')
        self.door = os.path.join(self.folder, 'door')
        subprocess.run([PROGRAM, 'format', self.disk, '--area', '4194304', '--format', '2'], check=True, stderr=subprocess.DEVNULL)
        os.mkdir(self.folder)
        os.chmod(self.folder, mode)
        os.mkfifo(self.door)
        with boost.start(PROGRAM, self.disk) as store:
            for kind, name in (('counter', 'n'), ('counter', 'other'), ('map', 'm'), ('set', 's'), ('queue', 'jobs')):
                store.make(kind, name)
            store.do(('n', 'bump', 5), ('other', 'bump', 1000), keep=True)

    def serve(self):
        self.server = subprocess.Popen([PROGRAM, 'listen', self.disk, self.folder, *self.options], stderr=subprocess.DEVNULL)
        while True:
            try:
                os.close(os.open(self.door, os.O_WRONLY | os.O_NONBLOCK))
                return self.server
            except OSError:
                time.sleep(0.02)

    def end(self):
        """Ends the server in good order: so nobody left anything that hinders it."""
        door = os.open(self.door, os.O_WRONLY | os.O_NONBLOCK)
        os.write(door, b'\nend\n')
        os.close(door)
        assert self.server.wait(20) == 0
        assert os.listdir(self.folder) == ['door'], os.listdir(self.folder)

    def pid_of(self, store):
        """The process that serves a store."""
        if getattr(self, 'server', None) is not None:
            return self.server.pid
        words = subprocess.run(['pgrep', '-P', str(os.getpid()), '-f', 'listen'], stdout=subprocess.PIPE, text=True).stdout.split()
        return int(words[0])


@contextlib.contextmanager
def gate_of(place):
    """The path of the socket of a gate at a place, which has to end in good order."""
    path = os.path.join(place.room, 'socket')
    gate = subprocess.Popen([GATE, place.folder, path, '--seats', '64'], stderr=subprocess.DEVNULL)
    try:
        while not os.path.exists(path):
            time.sleep(0.02)
        yield path
        gate.terminate()
        assert gate.wait(20) == 0
    finally:
        gate.kill()


@contextlib.contextmanager
def opened(way, *options, **how):
    """A place, and a store of it by a door, by the socket of a gate or by the pipes of a child."""
    with tempfile.TemporaryDirectory() as room:
        place = Place(room, *options)
        if way == 'door':
            place.serve()
            try:
                with boost.join(place.folder, **how) as store:
                    yield place, store
                place.end()
            finally:
                place.server.kill()
        elif way == 'gate':
            place.serve()
            try:
                with gate_of(place) as path, boost.join('unix:' + path, **how) as store:
                    yield place, store
                place.end()
            finally:
                place.server.kill()
        else:
            with boost.start(PROGRAM, place.disk, *options, **how) as store:
                yield place, store


def in_each_way(attack):
    """An attack that is made over a door, over pipes and over a gate."""
    def made():
        told = []
        for way in WAYS:
            with opened(way) as (place, store):
                told.append(attack(place, store))
        return ', '.join(sorted(set(map(str, told))))
    made.__name__, made.__doc__ = attack.__name__, attack.__doc__
    return made


def raised(kind, call, *words, **how):
    """What a call raises, which has to be of the kind."""
    try:
        answer = call(*words, **how)
    except kind as error:
        return error
    raise AssertionError('%r in place of %s' % (answer, kind))


class Interrupted(BaseException):
    pass


def interrupt_in(seconds):
    """Has a signal raise within so many seconds, and each second from then on: Python passes over what is raised in a finalizer."""
    def stop(*_):
        raise Interrupted
    signal.signal(signal.SIGALRM, stop)
    signal.setitimer(signal.ITIMER_REAL, seconds, 1)


def interrupt_no_more():
    signal.setitimer(signal.ITIMER_REAL, 0)


def halt(pid):
    """Stops a process, and waits until each of its threads stands."""
    os.kill(pid, signal.SIGSTOP)
    while not all(state_of(pid, task) == 'T' for task in os.listdir('/proc/%d/task' % pid)):
        time.sleep(0.005)


def state_of(pid, task):
    with open('/proc/%d/task/%s/stat' % (pid, task), encoding='utf-8') as file:
        return file.read().rpartition(')')[2].split()[0]


def descriptors():
    return len(os.listdir('/proc/self/fd'))


# ---- attacks


def with_all_held(store):
    """How many descriptors there are while all 64 clients of a store have a transaction."""
    gc.collect()
    with contextlib.ExitStack() as held:
        for _ in range(64):
            held.enter_context(store.transaction(timeout=20))
        return descriptors()


@in_each_way
def interrupted(place, store):
    """An exception at any moment of a call gives no later call the answer of another one, and costs no client and no descriptor."""
    store.do(('n', 'read'))
    before = with_all_held(store)
    random.seed(1)
    hit = 0
    for turn in range(300):
        try:
            interrupt_in(random.uniform(0.00002, 0.003))
            while True:
                with store.transaction(keep=False) as t:
                    assert t.call('n', 'read') == 5
                assert store.do(('n', 'read'), ('other', 'read')) == [5, 1000]
        except Interrupted:
            interrupt_no_more()
            hit += 1
        assert store.do(('other', 'read')) == [1000] and store.do(('n', 'read')) == [5], turn
        assert store.keep(lambda t: (t.call('n', 'bump', 0), t.call('other', 'read'))) == (None, 1000)
    assert store.status().live == 0
    assert with_all_held(store) == before
    return '%d interrupts' % hit


def living_children():
    """The children of this process that have not ended, those of `subprocess` that were given up too."""
    words = subprocess.run(['ps', '--ppid', str(os.getpid()), '-o', 'stat=,comm='], stdout=subprocess.PIPE, text=True, check=False).stdout
    return [line for line in words.splitlines() if not line.startswith('Z') and not line.endswith(' ps')]


def interrupted_starts():
    """An exception at any moment of a start and of a close leaves no server, no thread and no descriptor, and holds nobody up."""
    random.seed(2)
    hit = 0
    with tempfile.TemporaryDirectory() as room:
        place = Place(room)
        before, began = (descriptors(), threading.active_count()), time.monotonic()
        with boost.start(PROGRAM, place.disk) as store:
            store.do(('n', 'read'))
        usual = time.monotonic() - began
        for _ in range(150):
            began = time.monotonic()
            try:
                try:
                    interrupt_in(random.uniform(0.001, 1.2 * usual))
                    with boost.start(PROGRAM, place.disk, patience=20) as store:
                        store.do(('n', 'read'))
                finally:
                    interrupt_no_more()
            except Interrupted:
                interrupt_no_more()
                hit += 1
            except boost.Gone as error:
                assert 'another run has the file' in str(error), error           # that of one whose start was broken off
            assert time.monotonic() - began < usual + 5
            store = None
            gc.collect()
        end = time.monotonic() + 10
        while living_children() and time.monotonic() < end:
            time.sleep(0.1)
        assert (living_children(), descriptors(), threading.active_count()) == ([], *before), (living_children(), descriptors(), before)
        with boost.start(PROGRAM, place.disk) as store:
            assert store.do(('n', 'read'), ('other', 'read')) == [5, 1000]
    return '%d interrupts' % hit


def stopped_while_it_waits():
    """An alarm while an answer is awaited: the client comes back by itself, and a transaction says that it is gone."""
    told = []
    for way in WAYS:
        with opened(way) as (place, store):
            store.do(('n', 'read'))
            pid = place.pid_of(store)
            halt(pid)
            interrupt_in(0.2)
            raised(Interrupted, store.do, ('n', 'read'))
            interrupt_no_more()
            os.kill(pid, signal.SIGCONT)
            assert store.do(('other', 'read')) == [1000]
            with contextlib.suppress(boost.Gone), store.transaction() as t:
                t.call('other', 'bump', 7)
                halt(pid)
                interrupt_in(0.2)
                raised(Interrupted, t.call, 'n', 'read')
                interrupt_no_more()
                os.kill(pid, signal.SIGCONT)
                told.append(type(raised(boost.Error, t.call, 'n', 'read')).__name__)
            assert store.do(('other', 'read'), ('n', 'read'), patience=5) == [1000, 5]
    return ', '.join(told)


@in_each_way
def used_when_closed(place, store):
    """A call behind the end writes into no other file of the program."""
    session = store.session()
    session.line('kept')
    store.do(('n', 'read'))
    before = descriptors()
    store.close()
    files = [open(os.path.join(place.room, 'precious%d' % n), 'w+b') for n in range(20)]
    told = {type(raised(boost.Error, call)).__name__ for call in (
        lambda: store.do(('n', 'bump', 1)), lambda: session.line('kept'), lambda: store.make('counter', 'x'), store.wait, store.status,
        store.session, store.transaction().__enter__)}
    assert [os.path.getsize(file.name) for file in files] == [0] * 20
    assert descriptors() <= before + 20
    for file in files:
        file.close()
    assert store.close() == 0
    return ', '.join(sorted(told))


@in_each_way
def closed_beside_calls(place, store):
    """A store that is closed while other threads call writes into no file that is opened meanwhile, and each thread is told."""
    opened_on = lambda: boost.join(place.folder) if getattr(place, 'server', None) else boost.start(PROGRAM, place.disk)  # noqa: E731
    if not getattr(place, 'server', None):
        store.close()
    told = []
    for turn in range(10):
        other = opened_on()

        def calls():
            try:
                while True:
                    other.do(('n', 'bump', 0))
            except boost.Error as error:
                told.append(type(error).__name__)
        threads = [threading.Thread(target=calls) for _ in range(8)]
        for thread in threads:
            thread.start()
        time.sleep(0.05)
        other.close()
        files = [tempfile.TemporaryFile(buffering=0) for _ in range(40)]
        for thread in threads:
            thread.join(10)
        assert not any(thread.is_alive() for thread in threads)
        assert all(os.fstat(file.fileno()).st_size == 0 for file in files)
        for file in files:
            file.close()
    assert len(told) == 80
    return '%d threads told %s' % (len(told), ' or '.join(sorted(set(told))))


@in_each_way
def waits_for_a_job(place, store):
    """Workers that wait get each job soon and once, nothing else is left of their waiting, and each wait has its end."""
    got, late = [], []

    def works():
        while True:
            item = store.keep_when(lambda t: t.call('jobs', 'take'), 10)
            if item[1] == 0:
                return
            got.append(item[1])
            late.append(time.monotonic() - added[item[1]])
    added, workers = {}, [threading.Thread(target=works) for _ in range(8)]
    for worker in workers:
        worker.start()
    for job in range(1, 101):
        added[job] = time.monotonic()
        store.do(('jobs', 'add', 1, job), keep=True)
        time.sleep(random.random() * 0.05)
    for _ in workers:
        store.do(('jobs', 'add', 2, 0))
    for worker in workers:
        worker.join(20)
    assert sorted(got) == list(range(1, 101)), got
    assert max(late) < 2, max(late)
    began = time.monotonic()
    assert store.keep_when(lambda t: (t.call('n', 'bump', 1), t.call('jobs', 'take'))[1], 0.5) is None
    assert 0.5 <= time.monotonic() - began < 3 and store.do(('n', 'read')) == [5]
    raised(boost.Refused, store.keep_when, lambda t: t.call('nothing', 'take'), 5)
    assert store.status().live == 0
    return '100 jobs, each soon'


@in_each_way
def long_lines(place, store):
    """A line that is longer than the server takes is refused before it is sent, at the very byte, and what is long otherwise is done."""
    session = store.session()
    most = 4095 if getattr(place, 'server', None) else 4091
    for length in (most + 1, 4095, 4096, 100_000):
        if length > most:
            raised(ValueError, session.line, 'x' * length)
    raised(boost.Misunderstood, session.line, 'x' * most)
    assert session.line('kept') is None
    raised(ValueError, store.do, ('n' * 5000, 'read'))
    assert store.do(('m', 'put', 1, b'x' * 1024), ('m', 'put', 2, b'y' * 1024)) == [None, None]
    assert store.do(*[('m', 'put', key, bytes([key]) * 100) for key in range(10, 200)], keep=True) == [None] * 190
    found = store.do(*[('m', 'get', key) for key in range(10, 200)])
    assert found == [bytes([key]) * 100 for key in range(10, 200)]
    assert store.do(*[('m', 'get', 1)] * 400) == [b'x' * 1024] * 400
    raised(boost.Refused, store.do, *[('m', 'put', key, b'z' * 1024) for key in range(300, 304)], ('nothing', 'read'))
    assert store.do(*[('m', 'get', key) for key in range(300, 304)]) == [None] * 4
    assert store.status().live == 0
    return 'up to %d bytes' % most


@in_each_way
def many_lines(place, store):
    """Any number of lines may be sent at once."""
    answers = store.session().lines(['do n bump 0; m get 7'] * 50 + ['call n read'] * 20_000)
    assert len(answers) == 20_050 and all(answer.startswith('done; nothing; place ') for answer in answers[:50])
    assert set(answers[50:]) == {'refused 10 NoSuchTxn'}
    return '20050 lines'


def answers_for_nobody():
    """An answer that names no client makes none wait for ever."""
    with tempfile.TemporaryDirectory() as room:
        program = os.path.join(room, 'program')
        with open(program, 'w', encoding='utf-8') as file:
            file.write('#!/bin/sh\necho "- hello boost 1"\nread line\necho "- error LineTooLong"\nread line\necho "c1 bye"\nread line\n')
        os.chmod(program, 0o755)
        with boost.start(program, room) as store:
            began = time.monotonic()
            error = raised(boost.Error, store.do, ('n', 'read'))
            assert time.monotonic() - began < 5
    return repr(error)


@in_each_way
def threads_that_come_and_go(place, store):
    """A thousand threads use one store, one after another and side by side, and other programs are served too."""
    done = []

    def one():
        store.keep(lambda t: t.call('n', 'bump', 1), patience=50)
        store.do(('s', 'contains', 4))
        done.append(1)
    for _ in range(200):
        thread = threading.Thread(target=one)
        thread.start()
        thread.join()
    threads = [threading.Thread(target=one) for _ in range(800)]
    for thread in threads:
        thread.start()
    if getattr(place, 'server', None):
        time.sleep(0.05)
        with boost.join(place.folder) as other:
            assert other.do(('s', 'contains', 5)) == [False]
    for thread in threads:
        thread.join()
    assert len(done) == 1000 and store.do(('n', 'read')) == [1005]
    return '1000 threads'


@in_each_way
def no_client_is_free(place, store):
    """Where all 64 clients are taken a call waits its turn, up to its time-out, and goes on once one is given back."""
    held = [store.transaction() for _ in range(64)]
    for block in held:
        block.__enter__()
    began = time.monotonic()
    raised(boost.NotServed, store.do, ('n', 'read'), timeout=1)
    assert 0.9 < time.monotonic() - began < 3
    answers = []
    thread = threading.Thread(target=lambda: answers.append(store.do(('n', 'read'))))
    thread.start()
    time.sleep(0.2)
    assert not answers
    held.pop().__exit__(None, None, None)
    thread.join(10)
    assert answers == [[5]]
    for block in held:
        block.__exit__(None, None, None)
    return '65th served once one of 64 was given back'


@in_each_way
def died_in_a_transaction(place, store):
    """A thread that ends inside a transaction leaves no lock, and its client is given back."""
    def dies():
        block = store.transaction()
        block.__enter__().call('n', 'bump', 1)

    def dies_by_session():
        session = store.session()
        session.line('begin')
        session.line('call n bump 1')
    for turn in range(70):
        thread = threading.Thread(target=dies if turn % 2 else dies_by_session)
        thread.start()
        thread.join()
    gc.collect()
    assert store.do(('n', 'read'), patience=5) == [5]
    return '70 threads'


def dropped_stores():
    """A store that nobody closes leaves no descriptor, no client at the door and no process."""
    with opened('door') as (place, store):
        store.do(('n', 'read'))
        before = descriptors()
        for _ in range(150):
            boost.join(place.folder).do(('n', 'read'))
        gc.collect()
        assert descriptors() == before, (descriptors(), before)
    with tempfile.TemporaryDirectory() as room:
        place = Place(room)
        before = descriptors()
        for _ in range(10):
            boost.start(PROGRAM, place.disk).do(('n', 'read'))
        gc.collect()
        assert descriptors() == before, (descriptors(), before)
    children = subprocess.run(['pgrep', '-P', str(os.getpid()), '-f', 'listen'], stdout=subprocess.PIPE, text=True, check=False)
    assert children.stdout == '', children.stdout
    return '160 stores'


def stands_still():
    """A server that stands still makes no call wait longer than its time-out, and behind it each answer is the right one."""
    told = []
    for way in WAYS:
        with opened(way, timeout=1.0) as (place, store):
            store.do(('n', 'read'))
            pid = place.pid_of(store)
            halt(pid)
            for call, seconds in ((lambda: store.do(('n', 'read')), 1), (lambda: store.do(('n', 'read'), timeout=0.3), 0.3),
                                  (lambda: store.status(timeout=0.3), 0.3), (lambda: store.transaction(timeout=0.3).__enter__(), 0.3)):
                began = time.monotonic()
                told.append(type(raised(boost.TimedOut, call)).__name__)
                assert seconds <= time.monotonic() - began < seconds + 1, (seconds, time.monotonic() - began)
            os.kill(pid, signal.SIGCONT)
            assert store.do(('other', 'read'), timeout=20) == [1000] and store.do(('n', 'read')) == [5]
    return ', '.join(sorted(set(told)))


def hello_that_never_comes():
    """Neither `start` nor the first call of `join` waits for ever for a server that says nothing."""
    with tempfile.TemporaryDirectory() as room:
        program = os.path.join(room, 'program')
        with open(program, 'w', encoding='utf-8') as file:
            file.write('#!/bin/sh\nexec sleep 1000\n')
        os.chmod(program, 0o755)
        before = descriptors()
        began = time.monotonic()
        told = [raised(boost.TimedOut, boost.start, program, room, timeout=0.5)]
        os.mkfifo(os.path.join(room, 'door'))
        reader = os.open(os.path.join(room, 'door'), os.O_RDONLY | os.O_NONBLOCK)
        told.append(raised(boost.NotServed, boost.join(room, timeout=0.5).do, ('n', 'read')))
        assert time.monotonic() - began < 5
        os.close(reader)
        assert sorted(os.listdir(room)) == ['door', 'program'] and descriptors() == before
    return ', '.join(type(error).__name__ for error in told)


def comes_back():
    """Behind a restart of the server the next call of each thread is carried out, and none that was answered is lost or done twice."""
    with tempfile.TemporaryDirectory() as room:
        place = Place(room)
        place.serve()
        told, gone, stop = [], [], threading.Event()

        def calls(number):
            while not stop.is_set():
                try:
                    store.keep(lambda t: t.call('n', 'bump', 1))
                    told.append(1)
                except boost.Gone:
                    gone.append(1)
                    time.sleep(0.02)
        with boost.join(place.folder) as store:
            threads = [threading.Thread(target=calls, args=(number,)) for number in range(6)]
            for thread in threads:
                thread.start()
            for _ in range(4):
                time.sleep(0.5)
                place.server.kill()
                place.server.wait()
                place.serve()
            time.sleep(0.5)
            stop.set()
            for thread in threads:
                thread.join()
            there = store.do(('n', 'read'))[0] - 5
            assert len(told) <= there <= len(told) + len(gone), (len(told), there, len(gone))
            place.server.kill()
            place.server.wait()
            assert type(raised(boost.Gone, store.do, ('n', 'read'))).__name__ == 'Gone'
            place.serve()
            assert store.do(('n', 'read')) == [5 + there]
        place.end()
    return '%d told, %d there, %d times gone' % (len(told), there, len(gone))


def joins_as_a_server_starts():
    """Who comes in the very moment in which a server starts is served by it, and is not passed over."""
    longest = 0.0
    with tempfile.TemporaryDirectory() as room:
        place = Place(room)
        for _ in range(40):
            with boost.join(place.folder, patience=10) as store:
                place.server = subprocess.Popen([PROGRAM, 'listen', place.disk, place.folder], stderr=subprocess.DEVNULL)
                while True:
                    began = time.monotonic()
                    with contextlib.suppress(boost.Gone):
                        assert store.do(('n', 'read')) == [5]
                        break
                    longest = max(longest, time.monotonic() - began)
                    if longest > 5:
                        place.server.kill()
                    assert longest <= 5, longest
            place.end()
    return '40 starts'


def comes_back_as_a_child():
    """A child that was killed is started again where that was asked for, and not where it was not."""
    with tempfile.TemporaryDirectory() as room:
        place = Place(room)
        for comes_back in (True, False):
            with boost.start(PROGRAM, place.disk, comes_back=comes_back) as store:
                for _ in range(3):
                    with contextlib.suppress(boost.Gone), store.transaction() as t:
                        os.kill(place.pid_of(store), signal.SIGKILL)
                        raised(boost.Gone, t.call, 'n', 'bump', 1)
                        raised(boost.Gone, t.call, 'n', 'bump', 1)
                    if not comes_back:
                        error = raised(boost.Gone, store.do, ('n', 'read'))
                        break
                    assert store.do(('n', 'read')) == [5]
    return 'three times; else %r' % error


def cut_lines():
    """A line without its line feed at the end is no answer."""
    with tempfile.TemporaryDirectory() as room:
        program = os.path.join(room, 'program')
        with open(program, 'w', encoding='utf-8') as file:
            file.write('#!/bin/sh\necho "- hello boost 1"\nread line\nprintf "c1 total 123"\n')
        os.chmod(program, 0o755)
        with boost.start(program, room) as store:
            error = raised(boost.Gone, store.session().line, 'do n read')
    return repr(error)


@in_each_way
def words_that_are_none(place, store):
    """No argument brings a word, a call or a line of its own with it."""
    for call in (('n', 'read\ndo n bump 1000'), ('m', 'put', 1, 'aa; n bump 100'), ('n', 'bump 1'), ('n', ''), ('', 'read'),
                 ('n', 'read\r'), ('n', 'bump', 2 ** 64), ('n', 'bump', 2 ** 63), ('s', 'add', -1), ('s', 'add', 2 ** 64),
                 ('n;', 'read'), ('n', 'read\0'),
                 ('n', 'räd'), ('m', 'get', '1\nc1 do m get 2'), ('n', 'read; n', 'bump', '7'), ('n', 'read\u2028'), ('n', ' read')):
        raised(ValueError, store.do, call)
        with store.transaction() as t:
            raised(ValueError, t.call, *call)
            raised(ValueError, t.later, *call)
    for call in (('s', 'add', True), ('s', 'add', 1.0), ('s', 'add', None), ('s', 'add', [1])):
        raised(TypeError, store.do, call)
    raised(ValueError, store.make, 'counter', 'x\nmake counter y')
    raised(ValueError, store.do)
    for line in ('', '# a remark', 'kept\n', 'kept\nkept', 'do n read\r', 'do \0'):
        raised(ValueError, store.session().line, line)
    assert store.do(('n', 'bump', -3), ('n', 'bump', 3), ('n', 'read'), ('other', 'read')) == [None, None, 5, 1000]
    assert store.do(('m', 'put', 2 ** 64 - 1, b''), ('m', 'get', 2 ** 64 - 1)) == [None, b'']
    assert [each.name for each in store.status().collections] == ['n', 'other', 'm', 's', 'jobs']
    return 'all refused'


FORK = multiprocessing.get_context('fork')


def lives_on(store, t, answers):
    """In a process that was forked off: tries each call, and lives on for half a minute."""
    for call in (lambda: store.do(('n', 'read')), lambda: t.call('n', 'read'), store.status, store.session, store.wait):
        try:
            call()
            answers.put('answered')
        except boost.Error as error:
            answers.put(type(error).__name__)
    store.close()
    time.sleep(30)


def forked_from_a_parent():
    """A process that was forked off does not hold the input of its parent's child, and can use neither store nor transaction."""
    with tempfile.TemporaryDirectory() as room:
        place = Place(room)
        answers = FORK.Queue()
        store = boost.start(PROGRAM, place.disk)
        with store.transaction() as t:
            child = FORK.Process(target=lives_on, args=(store, t, answers))
            child.start()
            assert {answers.get(timeout=20) for _ in range(5)} == {'Closed'}
            t.call('n', 'bump', 0)
        began = time.monotonic()
        assert store.close() == 0
        took = time.monotonic() - began
        child.kill()
        assert took < 5, took
    return 'ended within %.1f s' % took


def forked_from_a_client():
    """A process that was forked off holds none of the locks of a client that is killed."""
    with tempfile.TemporaryDirectory() as room:
        place = Place(room)
        place.serve()
        answers, orphans = FORK.Queue(), FORK.Queue()

        def dies():
            block = boost.join(place.folder).transaction()
            t = block.__enter__()
            t.call('n', 'bump', 1)
            child = FORK.Process(target=lives_on, args=(t._store, t, answers))
            child.start()
            orphans.put(child.pid)
            time.sleep(0.3)
            os.kill(os.getpid(), signal.SIGKILL)
        parent = FORK.Process(target=dies)
        parent.start()
        orphan = orphans.get(timeout=20)
        assert {answers.get(timeout=20) for _ in range(5)} == {'Closed'}
        parent.join()
        with boost.join(place.folder) as store:
            assert store.do(('n', 'read'), patience=5) == [5]
        os.kill(orphan, signal.SIGKILL)
        place.end()
    return 'no lock held'


def ctrl_c_at_a_terminal():
    """A Ctrl-C reaches the program and not its child: what it does behind that is kept."""
    program = '''
import os, sys, signal, time
sys.path.insert(0, %r)
import boost
os.setpgid(0, 0)
signal.signal(signal.SIGINT, signal.default_int_handler)        # also where this tool runs in the background of a shell
store = boost.start(%r, sys.argv[1])
try:
    with store.transaction() as t:
        t.call('n', 'bump', 1)
        os.killpg(0, signal.SIGINT)
        time.sleep(5)
except KeyboardInterrupt:
    time.sleep(0.3)
    print(store.do(('n', 'bump', 10), ('n', 'read'), keep=True), store.close())
''' % (CLIENT, PROGRAM)
    with tempfile.TemporaryDirectory() as room:
        place = Place(room)
        ended = subprocess.run([sys.executable, '-c', program, place.disk], stdout=subprocess.PIPE, stderr=subprocess.PIPE, text=True)
        assert ended.stdout == '[None, 15] 0\n', ended
    return ended.stdout.strip()


def nothing_is_left():
    """No descriptor and no thread is left behind rounds of start and close, and of join and close."""
    with tempfile.TemporaryDirectory() as room:
        place = Place(room)
        rounds = 200 if os.path.realpath(PROGRAM).endswith('boost_main') else 20
        before = descriptors(), threading.active_count()
        for _ in range(rounds):
            with boost.start(PROGRAM, place.disk) as store:
                store.do(('n', 'read'))
        assert (descriptors(), threading.active_count()) == before, (descriptors(), threading.active_count(), before)
        place.serve()
        for _ in range(200):
            with boost.join(place.folder) as store:
                store.do(('n', 'read'))
        assert (descriptors(), threading.active_count()) == before, (descriptors(), threading.active_count(), before)
        place.end()
    return '%d and 200 rounds' % rounds


def ways_of_being_away():
    """Each way in which a server is not there is a `Gone` with its cause."""
    told = {}
    with tempfile.TemporaryDirectory() as room:
        asked = lambda: boost.join(os.path.join(room, 'clients'), 1).do(('n', 'read'))  # noqa: E731
        told['no program'] = raised(boost.Gone, boost.start, os.path.join(room, 'none'), room)
        told['no folder'] = raised(boost.Gone, boost.join(os.path.join(room, 'none')).do, ('n', 'read'))
        os.mkdir(os.path.join(room, 'clients'))
        told['no door'] = raised(boost.Gone, asked)
        door = os.path.join(room, 'clients', 'door')
        open(door, 'w').close()
        told['a file for a door'] = raised(boost.Gone, asked)
        assert os.path.getsize(door) == 0
        os.unlink(door)
        os.mkfifo(door)
        told['no server'] = raised(boost.Gone, asked)
        full = os.open(door, os.O_RDWR | os.O_NONBLOCK)
        with contextlib.suppress(BlockingIOError):
            while os.write(full, b'\n' * 4096):
                pass
        told['a full door'] = raised(boost.Gone, asked)
        os.close(full)
        limits = resource.getrlimit(resource.RLIMIT_NOFILE)
        resource.setrlimit(resource.RLIMIT_NOFILE, (descriptors() + 1, limits[1]))
        told['no descriptors'] = raised(boost.Gone, asked)
        resource.setrlimit(resource.RLIMIT_NOFILE, limits)
        assert os.listdir(os.path.join(room, 'clients')) == ['door']
        told['no disk'] = raised(boost.Gone, boost.start, PROGRAM, os.path.join(room, 'none', 'disk'))
    for name, error in told.items():
        assert isinstance(error, boost.Error)
        assert error.__cause__ is not None or name in ('a file for a door', 'a full door', 'no disk'), (name, error)
    return '; '.join('%s: %s' % (name, type(error.__cause__).__name__) for name, error in told.items())


def last_words_of_a_child():
    """Who is told that a child is gone is told what that wrote to its standard error, which this program's own has too; also where nobody
    reads that, where its reader is gone, and where it is closed."""
    program = '''
import os, signal, sys
sys.path.insert(0, %r)
import boost
if sys.argv[2] == 'closed':
    os.close(2)
if sys.argv[2] == 'gone':
    signal.signal(signal.SIGPIPE, signal.SIG_DFL)
with boost.start(%r, sys.argv[1]) as store:
    try:
        boost.start(%r, sys.argv[1])
    except boost.Gone as error:
        print(error, flush=True)
    print(store.do(('n', 'read')))
''' % (CLIENT, PROGRAM, PROGRAM)
    words = 'boost: another run has the file'
    with tempfile.TemporaryDirectory() as room:
        place = Place(room)
        for how in ('read', 'full', 'closed', 'gone'):
            reader, writer = os.pipe()
            if how == 'gone':
                os.close(reader)
                reader = os.open('/dev/null', os.O_RDONLY)
            if how == 'full':
                os.set_blocking(writer, False)
                with contextlib.suppress(BlockingIOError):
                    while True:
                        os.write(writer, b'x' * 4096)
                os.set_blocking(writer, True)
            ended = subprocess.run([sys.executable, '-c', program, place.disk, how], stdout=subprocess.PIPE, stderr=writer, text=True,
                                   timeout=60)
            os.close(writer)
            told = ended.stdout.splitlines()
            assert ended.returncode == 0 and len(told) == 2 and words in told[0] and told[1] == '[5]', (how, ended)
            with open(reader, 'rb') as file:
                assert (words.encode() in file.read()) == (how == 'read')
    return told[0].replace(room, 'ROOM')


def modes_of_fifos():
    """A client's FIFOs may be used by the group of a folder that the group may write into, and else by nobody else."""
    told = []
    for mode in (0o700, 0o750, 0o2770, 0o775):
        with tempfile.TemporaryDirectory() as room:
            os.chmod(room, mode)
            if os.geteuid() == 0:
                os.chown(room, 0, 1234)
                os.chmod(room, mode)
            os.mkfifo(os.path.join(room, 'door'))
            reader = os.open(os.path.join(room, 'door'), os.O_RDONLY | os.O_NONBLOCK)
            thread = threading.Thread(target=raised, args=(boost.NotServed, boost.join(room, 0.5).do, ('n', 'read')))
            thread.start()
            time.sleep(0.2)
            found = [os.stat(os.path.join(room, name)) for name in os.listdir(room) if name.endswith(('.to', '.from'))]
            assert os.read(reader, 100).startswith(b'\nhello py-')
            thread.join()
            os.close(reader)
            wanted = 0o660 if mode & 0o020 else 0o600
            assert [each.st_mode & 0o777 for each in found] == [wanted] * 2, (oct(mode), found)
            assert not mode & 0o020 or {each.st_gid for each in found} == {os.stat(room).st_gid}
            told.append('%o: %o' % (mode, wanted))
    return ', '.join(told)


def causes():
    """A cause behind a refusal, and the reason why a line is not understood, come to the program."""
    with tempfile.TemporaryDirectory() as room:
        program = os.path.join(room, 'program')
        with open(program, 'w', encoding='utf-8') as file:
            file.write('#!/bin/sh\necho "- hello boost 1"\n'
                       'read line; echo "c1 refused 23 Lost: Fault, No space left; on device (os error 28)"\n'
                       'read line; echo "c1 bye"\n'
                       'read line; echo "c2 error NotUnderstood: bunp: no call of a collection"\n'
                       'read line; echo "c2 refused 9 Busy 12"\nread line; echo "c2 refused 7 WrongKind"\nread line; echo "c2 seven"\n'
                       'read line\n')
        os.chmod(program, 0o755)
        with boost.start(program, room) as store:
            lost = raised(boost.Lost, store.do, ('n', 'bump', 1))
            assert (lost.number, lost.name, lost.cause) == (23, 'Lost', 'Fault, No space left; on device (os error 28)')
            store.session().close()
            not_understood = raised(boost.Misunderstood, store.do, ('n', 'bunp', 1))
            assert 'bunp: no call of a collection' in str(not_understood) and 'do n bunp 1' in str(not_understood)
            busy = raised(boost.Busy, store.do, ('n', 'bump', 1), patience=0)
            assert (busy.number, busy.name, busy.cause) == (9, 'Busy', '12')
            assert raised(boost.Refused, store.do, ('n', 'bump', 1)).cause == ''
            assert type(raised(boost.Error, store.do, ('n', 'bump', 1))) is boost.Error
    return '%s / %s' % (lost, not_understood)


ATTACKS = (interrupted, interrupted_starts, stopped_while_it_waits, used_when_closed, closed_beside_calls, waits_for_a_job, long_lines,
           many_lines, answers_for_nobody, threads_that_come_and_go, no_client_is_free, died_in_a_transaction, dropped_stores,
           stands_still, hello_that_never_comes, comes_back, joins_as_a_server_starts, comes_back_as_a_child, cut_lines, words_that_are_none,
           forked_from_a_parent, forked_from_a_client, ctrl_c_at_a_terminal, nothing_is_left, ways_of_being_away, last_words_of_a_child,
           modes_of_fifos, causes)


def make(attack):
    """Makes an attack in a process of its own, and says whether nothing was hurt."""
    words = [sys.executable, '-B', os.path.realpath(__file__), PROGRAM, '--alone', attack.__name__]
    process = subprocess.Popen(words, stdout=subprocess.PIPE, stderr=subprocess.STDOUT, text=True, start_new_session=True)
    try:
        told = process.communicate(timeout=SECONDS)[0].splitlines()
    except subprocess.TimeoutExpired:
        told = ['it was not done within %d seconds' % SECONDS]
    with contextlib.suppress(ProcessLookupError):
        os.killpg(process.pid, signal.SIGKILL)
    process.wait()
    told = [line for line in told if not line.startswith('boost: ')]
    print('%s %s: %s' % ('held  ' if process.returncode == 0 else 'FAILED', attack.__name__, told[-1] if told else ''), flush=True)
    if process.returncode != 0:
        print('\n'.join('    ' + line for line in told[-8:-1]), flush=True)
    return process.returncode == 0


def build_gate(room):
    """Builds the gate, whose path the attacks find in their environment."""
    sources = os.path.join(TOP, 'clients', 'gate')
    files = [os.path.join(sources, name) for name in sorted(os.listdir(sources)) if name.endswith('.c')]
    os.environ['GATE'] = os.path.join(room, 'boost-gate')
    subprocess.run(['cc', '-std=c11', '-O2', '-o', os.environ['GATE'], *files], check=True)


def main():
    named = sys.argv[2:]
    if named[:1] == ['--alone']:
        print(next(attack for attack in ATTACKS if attack.__name__ == named[1])())
        return 0
    chosen = [attack for attack in ATTACKS if not named or attack.__name__ in named]
    with tempfile.TemporaryDirectory() as room:
        if not GATE and shutil.which('cc'):
            build_gate(room)
        return 0 if all([make(attack) for attack in chosen]) else 1


if __name__ == '__main__':
    sys.exit(main())
