#!/usr/bin/env python3
"""listeners.py [PROGRAM] [TIMES] [CHECK..]: clients of `boost listen` that die, lie, do not read and come in crowds.

Each check is a function below, and says what it is for. The program is crates/boost_main/out/boost_main, proved and built, unless
another one is named; all checks are run, unless some are named. It is no part of the gate. It prints a line for each check, and
ends with status 1 at the first that fails.
"""
import array
import atexit
import doctest
import fcntl
import multiprocessing
import os
import random
import resource
import signal
import subprocess
import sys
import tempfile
import termios
import threading
import time

TOP = os.path.dirname(os.path.dirname(os.path.realpath(__file__)))
sys.path.insert(0, os.path.join(TOP, 'clients/python'))
sys.dont_write_bytecode = True
import boost  # noqa: E402

PROGRAM = sys.argv[1] if len(sys.argv) > 1 else os.path.join(TOP, 'crates/boost_main/out/boost_main')
TIMES = int(sys.argv[2]) if len(sys.argv) > 2 else 20
AREA = 1 << 22
ATTACH = os.path.join(TOP, 'clients/shell/boost-attach')


def run(*words):
    return subprocess.run([PROGRAM, *words], check=True, stdout=subprocess.PIPE, text=True).stdout


class Place:
    """A folder with a store, and with a server at a door where `serve` was called."""

    def __init__(self):
        self.room = tempfile.TemporaryDirectory()
        self.disk = os.path.join(self.room.name, 'disk')
        self.door = os.path.join(self.room.name, 'clients')
        run('format', self.disk, '--area', str(AREA))
        os.mkdir(self.door, 0o700)
        os.mkfifo(os.path.join(self.door, 'door'), 0o600)
        self.server = None

    def serve(self, *options, **how):
        self.server = subprocess.Popen([PROGRAM, 'listen', self.disk, self.door, *options], **how)
        atexit.register(self.server.kill)
        while True:
            try:
                return boost.join(self.door).session().close()
            except boost.Gone:
                assert self.server.poll() is None, 'the server ended'
                time.sleep(0.01)

    def say(self, text):
        door = os.open(os.path.join(self.door, 'door'), os.O_WRONLY)
        os.write(door, text)
        os.close(door)

    def end(self):
        self.say(b'end\n')
        assert self.server.wait(20) == 0
        assert os.listdir(self.door) == ['door']

    def count(self):
        """What the counter `hits` holds, by `boost show`."""
        words = run('show', self.disk).split()
        return int(words[words.index('hits') + 1]) if 'hits' in words else 0


def bumps(door, times):
    with boost.join(door) as store:
        for _ in range(times):
            store.keep(lambda t: t.call('hits', 'bump', 1))


def the_docs_of_the_client():
    place = Place()
    names = {'PROGRAM': PROGRAM, 'DISK': place.disk}
    failed, tried = doctest.testmod(boost, extraglobs=names)
    assert failed == 0 and tried > 5
    return f'{tried} lines'


def threads_of_one_program():
    """Eight threads of a parent that has the server as its child keep a counter and a queue together."""
    place = Place()
    with boost.start(PROGRAM, place.disk) as store:
        store.make('counter', 'hits')
        store.make('queue', 'jobs')
        taken = []

        def put():
            for _ in range(50):
                store.keep(lambda t: (t.call('hits', 'bump', 1), t.call('jobs', 'add', 5, 5)))

        def take():
            while store.keep(lambda t: t.call('jobs', 'take')) is not None:
                taken.append(1)
        for work in (put, take):
            threads = [threading.Thread(target=work) for _ in range(8)]
            for thread in threads:
                thread.start()
            for thread in threads:
                thread.join()
        assert store.do(('hits', 'read')) == [400] and len(taken) == 400
    assert place.count() == 400
    return '400 jobs put and taken'


def programs_that_come_and_go():
    """Eight programs keep a counter, each by FIFOs of its own."""
    place = Place()
    place.serve()
    with boost.join(place.door) as store:
        store.make('counter', 'hits')
    programs = [multiprocessing.Process(target=bumps, args=(place.door, 50)) for _ in range(8)]
    for program in programs:
        program.start()
    for program in programs:
        program.join()
    place.end()
    assert place.count() == 400
    return '400 transactions'


def killed_in_a_transaction():
    """A client that is killed leaves nothing of what it had open, and no lock."""
    place = Place()
    place.serve()

    def dies():
        session = boost.join(place.door).session()
        session.line('begin')
        session.line('call hits bump 1000')
        os.kill(os.getpid(), signal.SIGKILL)
    with boost.join(place.door) as store:
        store.make('counter', 'hits')
        for _ in range(TIMES):
            program = multiprocessing.Process(target=dies)
            program.start()
            program.join()
        assert store.do(('hits', 'read'), patience=5) == [0]
    place.end()
    return f'{TIMES} clients'


def finished_by_a_line():
    """A worker that holds a job writes its result and commits in one line, all or nothing, and the server is killed behind the answer."""
    place = Place()
    place.serve()
    with boost.join(place.door) as store:
        for kind, name in (('set', 'jobs'), ('map', 'results'), ('counter', 'hits')):
            store.make(kind, name)
        store.do(*(('jobs', 'add', job) for job in (7, 8, 9)), keep=True)
        other = boost.join(place.door).session()
        worker = boost.join(place.door).session()
        assert worker.lines(['begin', 'call jobs remove 7', 'call hits bump 1'])[1:] == ['yes', 'done']
        assert worker.lines(['keep results put 7 ab; hits bump 1; later hits bump 1'])[0].startswith('nothing; done; done; kept ')
        assert worker.lines(['commit', 'do hits read'])[0] == 'refused 10 NoSuchTxn'
        assert other.lines(['begin', 'call hits read'])[1] == 'total 3'
        worker.lines(['begin', 'call jobs remove 8'])
        began = time.monotonic()
        assert worker.lines(['keep results put 8 cd; hits bump 1'])[0].startswith('refused 9 Busy')
        assert time.monotonic() - began < 1, 'a line that is in another one\'s way has waited'
        assert worker.lines(['commit', 'do jobs contains 8; results get 8'])[0] == 'refused 10 NoSuchTxn'
        assert worker.line('do jobs contains 8; results get 8')[:2] == [True, None], 'a part of a refused transaction is left'
        worker.lines(['begin', 'call jobs remove 8'])
        assert worker.lines(['within 5 do hits bump 1']) == ['refused 25 AlreadyLive']
        try_in_python(store, other)
        place.server.kill()
        place.server.wait()
    shown = run('show', place.disk)
    assert shown.startswith('set jobs\n  8\nmap results\n  7 ab\n  9 78\n') and shown.endswith('counter hits\n  4\n'), shown
    return 'kept, and taken back where it is refused'


def try_in_python(store, other):
    """The same of the client in Python, while another client has read the counter."""
    with store.transaction() as t:
        t.call('jobs', 'remove', 9)
        connection = t._connection
        try:
            t.finish(('results', 'put', 9, b'x'), ('hits', 'bump', 1))
            raise AssertionError('nobody was in its way')
        except boost.Busy:
            assert not t._is_open and connection.state != boost.connections.CLOSED, 'the client was let go'
    assert store.do(('jobs', 'contains', 9)) == [True]
    other.line('abort')
    with store.transaction() as t:
        assert t.finish(('jobs', 'remove', 9), ('results', 'put', 9, b'x'), ('hits', 'bump', 1)) == [True, None, None]
        assert t.place is not None
    assert store.do(('results', 'get', 9)) == [b'x']
    with store.transaction(keep=False) as t:
        long = [('results', 'put', number, bytes(256)) for number in range(20, 40)]
        assert t.finish(*long) == [None] * 20


def killed_in_a_line():
    """What a client leaves in the middle of a line is never read with a line of the next one."""
    place = Place()
    place.serve()

    def dies():
        session = boost.join(place.door).session()
        session.connection.send('kept\n' * random.randrange(1, 9) + 'do hits bump 1')
        os.kill(os.getpid(), signal.SIGKILL)
    with boost.join(place.door) as store:
        store.make('counter', 'hits')
    for _ in range(TIMES):
        program = multiprocessing.Process(target=dies)
        program.start()
        program.join()
        with boost.join(place.door) as store:
            told = store.session().lines(['5', 'kept'])
            assert told[0].startswith('error NotUnderstood: 5: ') and told[1] == 'no ticket', told
    place.end()
    assert place.count() == 0
    return f'{TIMES} clients, each with another behind it'


def goodbye_behind_lines():
    """What is asked for at once, with the end behind it, is answered to its end."""
    place = Place()
    place.serve()
    with boost.join(place.door) as store:
        asked = ['make counter hits', 'begin', 'call hits bump 1', 'keep', 'do hits read', 'bye']
        assert store.session().lines(asked) == ['place 1', 'begun 1', 'done', 'kept 2', 'total 1; place 3', 'bye']
    told = subprocess.run([ATTACH, place.door], input='kept\ndo hits read\nbye\n', stdout=subprocess.PIPE, text=True)
    assert told.stdout == 'hello boost 1\nno ticket\ntotal 1; place 4\nbye\n', told.stdout
    place.end()
    return '9 lines'


def hostile_at_the_door():
    """Hellos of nobody, of dead FIFOs, of plain files, of paths and of too many bytes leave the others served."""
    place = Place()
    place.serve(stderr=subprocess.DEVNULL)
    store = boost.join(place.door)
    store.make('counter', 'hits')
    inside = lambda name: os.path.join(place.door, name)  # noqa: E731
    for name in ('dead.to', 'dead.from'):
        os.mkfifo(inside(name))
    for name in ('plain.to', 'plain.from'):
        open(inside(name), 'w').close()
    for n in range(100):
        place.say(b'hello nobody%d\n' % n)
    place.say(b'hello dead\nhello plain\nhello ../x\nnonsense\nhello \nhello ' + b'h' * 65 + b'\n' + b'h' * 4000)
    place.say(b'h' * 4000 + b'\n')
    assert store.do(('hits', 'bump', 1), ('hits', 'read')) == [None, 1]
    with boost.join(place.door) as other:
        assert other.do(('hits', 'read')) == [1]
    for name in ('plain.to', 'plain.from'):
        assert os.path.getsize(inside(name)) == 0
        os.unlink(inside(name))
    store.close()
    place.end()
    return '105 hellos'


def deaf_at_the_door():
    """A client that does not read stops itself alone."""
    place = Place()
    place.serve()
    deaf = boost.join(place.door)
    number = deaf.session().connection.to
    os.set_blocking(number, False)
    written = 0
    try:
        while True:
            written += os.write(number, b'kept\n' * 1000)
    except BlockingIOError:
        pass
    with boost.join(place.door) as store:
        store.make('counter', 'hits')
        assert store.do(('hits', 'bump', 1), ('hits', 'read')) == [None, 1]
    deaf.close()
    place.end()
    return f'{written} bytes were taken of it'


COMES_LATE = '''
#include <errno.h>
#include "boost.h"
int main(int count, char **words)
{
    return count == 2 && boost_join_within(words[1], 1) == 0 && errno == ETIMEDOUT ? 0 : 1;
}
'''


class Hidden(boost.Pipes):
    """A client whose FIFOs have lost their names before the server hears of them."""

    def ask_door(self, text):
        for path in self.paths:
            if os.path.exists(path):
                os.unlink(path)
        super().ask_door(text)


def is_late(store, patience):
    """Whether a server does not serve a client in time, and says so when that is."""
    began = time.monotonic()
    try:
        store.session()
    except boost.NotServed:
        return patience <= time.monotonic() - began < patience + 2
    return False


def passed_over():
    """A program whose FIFOs the server cannot open, and one behind 64 others, are not kept waiting. The server says which it was."""
    place = Place()
    place.serve(stderr=subprocess.PIPE)
    with boost.join(place.door) as store:
        store.make('counter', 'hits')
    word = 'py-%d-%d-' % (os.getpid(), next(boost.Pipes.numbers) + 1)
    assert is_late(boost.Store(lambda: Hidden(place.door, 1), lambda _: 0), 1)
    stores = [boost.join(place.door) for _ in range(64)]
    for store in stores:
        store.session()
    assert is_late(boost.join(place.door, 1.5), 1.5)
    attach = [ATTACH, place.door, '1']
    assert subprocess.run(attach, stdin=subprocess.DEVNULL, stderr=subprocess.DEVNULL, check=False).returncode == 1
    comes_late = os.path.join(place.room.name, 'comes_late')
    subprocess.run(['cc', '-x', 'c', '-o', comes_late, '-I', os.path.join(TOP, 'clients/c'), '-', os.path.join(TOP, 'clients/c/boost.c')],
                   input=COMES_LATE, text=True, check=True)
    assert subprocess.run([comes_late, place.door], check=False).returncode == 0
    for store in stores:
        store.close()
    with boost.join(place.door, 20) as store:
        assert store.do(('hits', 'read')) == [0]
    place.end()
    told = place.server.stderr.read().decode()
    place.server.stderr.close()
    assert f'boost: passed over {word}' in told, told
    assert subprocess.run(attach, stdin=subprocess.DEVNULL, stderr=subprocess.DEVNULL, check=False).returncode == 1
    assert os.listdir(place.door) == ['door']
    return '5 clients'


EARLY_IN_C = '''
#include "boost.h"
int main(int count, char **words)
{
    struct boost *store = boost_join_within(words[count - 1], 20);
    return store == 0 || boost_close(store) != 0;
}
'''
EARLY_IN_PYTHON = 'import boost, sys; boost.join(sys.argv[1], 20).session().close()'


def met_as_the_door_opens():
    """Clients in Python, C and shell whose FIFOs lie there as a server opens its door are served. The FIFOs of nobody are removed."""
    place = Place()
    early = os.path.join(place.room.name, 'early')
    subprocess.run(['cc', '-x', 'c', '-o', early, '-I', os.path.join(TOP, 'clients/c'), '-', os.path.join(TOP, 'clients/c/boost.c')],
                   input=EARLY_IN_C, text=True, check=True)
    door = os.open(os.path.join(place.door, 'door'), os.O_RDWR)      # they find one who reads it
    os.mkfifo(os.path.join(place.door, 'nobody.to'), 0o600)
    how = {'stdin': subprocess.DEVNULL, 'stdout': subprocess.DEVNULL,
           'env': {**os.environ, 'PYTHONPATH': os.path.join(TOP, 'clients/python')}}
    clients = [subprocess.Popen([*words, place.door], **how)
               for words in ([early], [ATTACH], [sys.executable, '-c', EARLY_IN_PYTHON])]
    end = time.monotonic() + 20
    while True:                                                      # until the three have said hello
        words = [name[:-3] for name in os.listdir(place.door) if name.endswith('.to') and name != 'nobody.to']
        said = array.array('i', [0])
        fcntl.ioctl(door, termios.FIONREAD, said)
        if len(words) == 3 and said[0] == sum(len(f'\nhello {word}\n') for word in words):
            break
        assert time.monotonic() < end, (words, said)
        time.sleep(0.01)
    server = subprocess.Popen([PROGRAM, 'listen', place.disk, place.door])
    atexit.register(server.kill)
    assert [client.wait(30) for client in clients] == [0, 0, 0]
    assert os.listdir(place.door) == ['door']
    place.say(b'\nend\n')
    assert server.wait(20) == 0
    os.close(door)
    return '3 clients'


def idle_ones(of):
    """What one client's silence does to another: of(number) is a session of its own."""
    idle, other, quiet = of(0), of(1), of(2)
    idle.line('make counter hits')
    assert quiet.line('kept') is None
    idle.line('begin')
    idle.line('call hits bump 1000')
    began = time.monotonic()
    assert other.lines(['do hits read'])[0].startswith('refused 9 Busy')
    while True:
        told = other.lines(['do hits bump 1; hits read'])[0]
        if told.startswith('done; total 1; place '):
            break
        assert told.startswith('refused 9 Busy') and time.monotonic() < began + 10, told
        time.sleep(0.02)
    assert 0.9 < time.monotonic() - began < 2.5, time.monotonic() - began
    asked = ['# a remark', '', 'call hits bump 1000', 'call hits bump 1000', 'commit', 'do hits read']
    idle.connection.send('\n'.join(asked) + '\n')
    told = [idle.connection.receive() for _ in range(4)]
    assert told[:3] == ['error Idle', 'refused 10 NoSuchTxn', 'refused 10 NoSuchTxn'] and told[3].startswith('total 1; '), told
    idle.line('begin')
    idle.line('call hits bump 1')
    time.sleep(0.6)
    assert idle.lines(['call hits bump 1'])[0] == 'done'
    time.sleep(0.6)
    idle.line('commit')
    time.sleep(1.5)
    assert [text.split(';')[0] for text in idle.lines(['kept', 'do hits read'])] == ['kept', 'total 3']
    assert quiet.lines(['do hits read'])[0].startswith('total 3; ')


def idle_over_input():
    """A client of a parent that is silent with a transaction open has it undone, and is told so at its next line."""
    place = Place()
    with boost.start(PROGRAM, place.disk, '--idle', '1') as store:
        sessions = [boost.Session(store._take(None)) for _ in range(3)]
        idle_ones(sessions.__getitem__)
    assert place.count() == 3
    return 'one undone'


def idle_at_the_door():
    """So has one that came by the door; one that is silent in the middle of a line too."""
    place = Place()
    place.serve('--idle', '1')
    stores = [boost.join(place.door) for _ in range(4)]
    idle_ones(lambda number: stores[number].session())
    halved = stores[3].session()
    halved.line('begin')
    halved.connection.send('call hits bu')
    time.sleep(2)
    halved.connection.send('mp 1\nkept\n')
    assert [halved.connection.receive() for _ in range(2)] == ['error Idle', 'no ticket']
    for store in stores:
        store.close()
    place.end()
    assert place.count() == 3
    return 'two undone'


def slow_lines():
    """Lines that come in parts, with silences about as long as the idle time between them, are each answered as if at once. Each
    reader is woken in the middle of lines, also as a part comes, and no byte is lost or added."""
    place = Place()
    place.serve('--idle', '1')
    with boost.join(place.door) as store:
        store.make('counter', 'hits')
    told, woken = [], []

    def says(number):
        chance = random.Random(number)
        with boost.join(place.door) as store:
            connection = store.session().connection
            for turn in range(max(2, TIMES // 4)):
                line = 'do hits bump 1; hits bump 10\n'
                at = chance.randrange(1, len(line))
                connection.send(line[:at])
                time.sleep(chance.uniform(0.99, 1.01) * chance.choice((1, 1.25, 1.5)))
                connection.send(line[at:])
                told.append(connection.receive().startswith('done; done; place '))
                store.session().line('begin')
                time.sleep(chance.choice((0, chance.uniform(0.99, 1.3))))
                connection.send('call hits ')
                connection.send('bump 1\nabort\n')
                answers = [connection.receive(), connection.receive()]
                assert answers in (['done', 'aborted'], ['error Idle', 'refused 10 NoSuchTxn']), answers
                woken.append(answers[0] != 'done')
    threads = [threading.Thread(target=says, args=(number,)) for number in range(60)]
    for thread in threads:
        thread.start()
    for thread in threads:
        thread.join()
    assert len(told) == 60 * max(2, TIMES // 4) and all(told)
    place.end()
    assert place.count() == 11 * len(told)
    return f'{len(told)} lines, {sum(woken)} transactions undone'


def woken_as_lines_come():
    """Readers that are woken at the moment at which the rest of a line comes. The server is stopped just before it would look at who
    is idle, and goes on once the rest of each line is there: so both bytes that wake and bytes of a client are in one read, or the
    former come behind the latter. Each line is answered as if it had come at once."""
    place = Place()
    place.serve('--idle', '1')
    stores = [boost.join(place.door) for _ in range(60)]
    stores[0].make('counter', 'hits')
    sessions = [store.session() for store in stores]
    undone, rounds = 0, max(2, TIMES // 4)
    for turn in range(rounds):
        asked = [['begin', 'call hits bump 1', 'abort'] if number % 2 else ['do hits bump 1'] for number in range(60)]
        for session, lines in zip(sessions, asked):
            text = '\n'.join(lines)
            session.connection.send(text[:-4])
        time.sleep(0.98)
        place.server.send_signal(signal.SIGSTOP)
        for session, lines in zip(sessions, asked):
            session.connection.send(lines[-1][-4:] + '\n')
        time.sleep(0.3)
        place.server.send_signal(signal.SIGCONT)
        for session, lines in zip(sessions, asked):
            told = [session.connection.receive() for _ in lines]
            if len(lines) == 1:
                assert told[0].startswith('done; place '), told
            else:
                assert told[0].startswith('begun ') and told[1] == 'done' and told[2] in ('aborted', 'error Idle'), told
                undone += told[2] == 'error Idle'
    for store in stores:
        store.close()
    place.end()
    assert place.count() == 30 * rounds
    return f'{60 * rounds} lines, {undone} transactions undone'


def a_crowd():
    """64 are served at once, and others wait until one goes."""
    place = Place()
    place.serve()
    stores = [boost.join(place.door) for _ in range(64)]
    stores[0].make('counter', 'hits')
    for store in stores:
        store.do(('hits', 'bump', 1))
    late = []

    def comes_late():
        with boost.join(place.door) as store:
            late.append(store.do(('hits', 'read')))
    thread = threading.Thread(target=comes_late)
    thread.start()
    time.sleep(0.2)
    assert not late
    stores.pop().close()
    thread.join(20)
    assert late == [[64]]
    for store in stores:
        store.close()
    place.end()
    return '65 clients'


def ended_with_clients():
    """The line `end` takes back what clients have open, and each is told that the server is gone."""
    place = Place()
    place.serve()
    store = boost.join(place.door)
    store.make('counter', 'hits')
    store.keep(lambda t: t.call('hits', 'bump', 1))
    store.session().line('begin')
    store.session().line('call hits bump 7')
    place.end()
    try:
        store.session().line('kept')
        raise AssertionError('a server that is gone answers')
    except boost.Gone:
        pass
    store.close()
    assert place.count() == 1
    return 'one client, with a transaction open'


def killed_servers():
    """What was told kept is there, however the server is killed."""
    told_in_all = 0
    for how in (signal.SIGTERM, signal.SIGKILL):
        for turn in range(max(1, TIMES // 4)):
            place = Place()
            place.serve()
            with boost.join(place.door) as store:
                store.make('counter', 'hits')
                store.wait()
            told = [0] * 4

            def load(of):
                try:
                    with boost.join(place.door) as store:
                        while True:
                            store.keep(lambda t: t.call('hits', 'bump', 1))
                            told[of] += 1
                except boost.Gone:
                    pass
            threads = [threading.Thread(target=load, args=(of,)) for of in range(4)]
            for thread in threads:
                thread.start()
            time.sleep(0.2 + 0.05 * turn)
            place.server.send_signal(how)
            place.server.wait()
            for thread in threads:
                thread.join()
            there = place.count()
            assert sum(told) <= there <= sum(told) + 4, (told, there)
            told_in_all += sum(told)
    return f'{told_in_all} transactions told, each there'


TELLS_STATUS = '''
#include <stdio.h>
#include "boost.h"
int main(int count, char **words)
{
    struct boost *store = count == 2 ? boost_join(words[1]) : NULL;
    const char *answer = store == NULL ? NULL : boost_ask(store, "status");
    if (answer == NULL)
        return 1;
    printf("%lld %lld %lld\\n", boost_number(answer, "live"), boost_number(answer, "collection map m"), boost_number(answer, "map"));
    return boost_close(store);
}
'''


def stat(disk):
    """What `boost stat` tells, in the words of `status`."""
    parts = [line.split() for line in run('stat', disk).splitlines()]
    numbers = {words[0]: int(words[1]) for words in parts if words[0] in boost.Status._fields}
    collections = [boost.Collection(words[1], words[2], int(words[3])) for words in parts if words[0] == 'collection']
    return boost.Status(live=0, waiting=0, collections=collections, **numbers)


def how_the_store_stands():
    """`status` is answered while another client holds a transaction open, also to that one, and tells right behind a reopening
    what `boost stat` tells. What is in use grows as commits are kept."""
    place = Place()
    place.serve()
    with boost.join(place.door) as store, boost.join(place.door) as other:
        for kind, name in (('counter', 'hits'), ('map', 'm'), ('queue', 'jobs')):
            store.make(kind, name)
        begun = store.status()
        assert (begun.live, begun.wear, [each.items for each in begun.collections]) == (0, 0, [1, 0, 0]), begun
        assert (begun.commits, begun.aborts, begun.checkpoints, begun.sleeping, begun.busy) == (3, 0, 0, 0, {}), begun
        with other.transaction(keep=False) as t:
            t.call('m', 'put', 1, b'held')
            t.call('jobs', 'add', 1, 1)
            store.do(('hits', 'bump', 1), keep=True)
            for status in (store.status(), other.status()):
                assert (status.live, status.next, [each.items for each in status.collections]) == (1, 3, [1, 1, 1]), status
            c_program = os.path.join(place.room.name, 'tells_status')
            subprocess.run(['cc', '-x', 'c', '-o', c_program, '-I', os.path.join(TOP, 'clients/c'), '-',
                            os.path.join(TOP, 'clients/c/boost.c')], input=TELLS_STATUS, text=True, check=True)
            assert said(c_program, place.door) == '1 1 -1\n'
            assert store.session().lines(['do m get 1']) == ['refused 9 Busy 1']
            t.call('jobs', 'take')
        other.wait()
        time.sleep(1)                              # the committer looks once more, and sleeps
        kept = store.status()
        assert (kept.live, kept.waiting, [each.items for each in kept.collections]) == (0, 0, [1, 1, 0]), kept
        assert (kept.commits, kept.aborts, kept.busy) == (5, 1, {'map': 1}) and kept.blocks > begun.blocks, kept
        assert kept.used > begun.used and kept.syncs > begun.syncs and kept.written > begun.written, (begun, kept)
    place.end()
    # (what the next image takes is told too large while a server runs, and to the byte by `stat`; and each server counts anew)
    anew = dict.fromkeys(('checkpoint', 'commits', 'aborts', 'blocks', 'clients', 'syncs', 'written', 'longest_write',
                          'last_checkpoint'), 0)
    kept = kept._replace(busy={}, **anew)
    assert kept == stat(place.disk)._replace(checkpoint=0), (kept, stat(place.disk))
    place.serve()
    with boost.join(place.door) as store:
        assert store.status()._replace(**anew) == kept, (store.status(), kept)
    place.end()
    return '7 answers'


def deaf_parent():
    """A parent that closes the answers, and one that does not read them until it has written all, end the server."""
    place = Place()
    words = [PROGRAM, 'listen', place.disk]

    def up():
        server = subprocess.Popen(words, stdin=subprocess.PIPE, stdout=subprocess.PIPE, bufsize=0)
        assert server.stdout.readline() == b'- hello boost 1\n'
        return server
    server = up()
    server.stdout.close()
    try:
        for _ in range(2000):
            server.stdin.write(b'c1 kept\nc2 kept\n' * 100)
    except BrokenPipeError:
        pass
    server.stdin.close()
    assert server.wait(20) == 4
    server = up()
    os.set_blocking(server.stdin.fileno(), False)
    written, end = 0, time.time() + 2
    while time.time() < end:
        try:
            written += os.write(server.stdin.fileno(), b'c1 kept\n' * 512)
        except BlockingIOError:
            time.sleep(0.01)
    server.stdin.close()
    answers = server.stdout.read().count(b'\n')
    assert server.wait(20) == 0 and answers == written // 8, (written, answers)
    server = up()
    server.stdin.write(b'c1 make counter hits\nc1 do hits bump 1\nc1 do hits bu')
    server.stdin.close()
    assert server.stdout.read() == b'c1 place 1\nc1 done; place 2\n'
    assert server.wait(20) == 0 and place.count() == 1
    return f'{answers} answers were read late'


def keeping_fails():
    """Where the disk takes no more writes, who waits is told Lost with the system's words, and the server ends at once with status 1
    and the cause, over a pipe while no more input comes, and at the door."""
    place = Place()
    no_writes = (resource.RLIMIT_FSIZE, (0, 0))
    how = {'stderr': subprocess.PIPE, 'restore_signals': False}      # SIGXFSZ stays ignored, so that a write fails
    server = subprocess.Popen([PROGRAM, 'listen', place.disk], stdin=subprocess.PIPE, stdout=subprocess.PIPE, bufsize=0, **how)
    server.stdin.write(b'c1 make counter hits\nc1 wait\nc2 begin\nc2 call hits bump 1\n')
    assert sum(len(server.stdout.readline()) > 0 for _ in range(5)) == 5
    resource.prlimit(server.pid, *no_writes)
    server.stdin.write(b'c1 keep hits bump 1\n')
    assert server.stdout.readline() == b'c1 refused 23 Lost: Fault, File too large (os error 27)\n'
    assert server.wait(20) == 1 and server.stdout.read() == b''
    assert b'too large' in server.stderr.read()
    place.serve(**how)
    with boost.join(place.door) as store:
        store.wait()
        resource.prlimit(place.server.pid, *no_writes)
        try:
            store.keep(lambda t: t.call('hits', 'bump', 1))
            raise AssertionError('a commit is told kept')
        except boost.Lost as lost:
            assert lost.cause == 'Fault, File too large (os error 27)', lost
        assert place.server.wait(20) == 1
    assert b'too large' in place.server.stderr.read()
    for pipe in (server.stdin, server.stdout, server.stderr, place.server.stderr):
        pipe.close()
    assert place.count() == 0
    return '2 servers'


def a_shell():
    """A person at a terminal needs no clients, and is shown a prompt."""
    place = Place()
    shell = subprocess.Popen([PROGRAM, 'listen', place.disk, '--shell'], stdin=subprocess.PIPE, stdout=subprocess.PIPE, bufsize=0)

    def shown():
        text = b''
        while not text.endswith(b'> '):
            more = shell.stdout.read(1)
            assert more, text
            text += more
        return text[:-2]
    assert shown().startswith(b'boost 1. `help`')
    for line, answer in ((b'make counter hits', b'place 1\n'), (b'do hits bump 1; hits read', b'done; total 1; place 2\n'),
                         (b'', b''), (b'# a remark', b''), (b'do hits bunp 1', b'error NotUnderstood: bunp: no call of a collection\n'),
                         (b'c2 begin', b'c2 begun 2\n'), (b'c1 kept', None), (b'bye', b'bye\n'), (b'keep', b'refused 10 NoSuchTxn\n')):
        shell.stdin.write(line + b'\n')
        told = shown()
        assert answer is None or told == answer, (line, told)
    shell.stdin.write(b'help\n')
    assert shown().count(b'\n') > 15
    shell.stdin.write(b'end\n')
    assert shell.stdout.read() == b'' and shell.wait(20) == 0
    shell.stdin.close()
    shell.stdout.close()
    assert place.count() == 1
    return '12 lines'


def said(*words):
    """What a program prints, which has to end with status 0."""
    return subprocess.run(words, check=True, stdout=subprocess.PIPE, stderr=subprocess.DEVNULL, text=True).stdout


# The programs of docs/PATTERNS.md, each of which looks by itself whether all is as it must be, and what it prints last.
PATTERNS = (('priorities', 'then they are taken in the order 1 2 3'), ('retries', 'job 7 is brought back and done: True'),
            ('cancelling', "results None None b'sent'"), ('leases', "job 8 was leased 3 times, and then b'no worker came through'"),
            ('windows', 'and once both are spent 0'), ('ids', 'counted: 200 given, 200 different, 1 kept'))


def the_examples_in_python():
    """Each example prints what it must, though some of its processes die."""
    for name, printed in (('job_queue', '57 of 60 jobs have their result, 3 lie aside\n'),
                          ('quota', f'20 of 120 asks granted, {[20] * 10} left\n'),
                          ('id_service', '100 identifiers drawn, 100 of them different\none given back: True\n')):
        place = Place()
        place.serve()
        assert said(sys.executable, '-B', os.path.join(TOP, f'clients/python/examples/{name}.py'), place.door) == printed
        place.end()
    for name, last in PATTERNS:
        place = Place()
        told = said(sys.executable, '-B', os.path.join(TOP, f'clients/python/examples/{name}.py'), PROGRAM, place.disk)
        assert told.endswith(f'{last}\n'), (name, told)
    return f'{3 + len(PATTERNS)} examples'


def the_examples_in_c():
    """The same of the client in C, with cc and each of its warnings."""
    place = Place()
    client = os.path.join(TOP, 'clients/c/boost.c')
    built = {}
    for name in ('quota', 'id_service', 'job_queue'):
        built[name] = os.path.join(place.room.name, name)
        said('cc', '-Wall', '-Wextra', '-Werror', '-O2', '-o', built[name], client,
             os.path.join(TOP, f'clients/c/examples/{name}.c'))
    place.serve()
    assert said(built['quota'], place.door) == '25 of 40 asks granted, total 0; place 43\n'
    said(built['job_queue'], place.door, 'dies')
    assert said(built['job_queue'], place.door) == '18 jobs done\n'
    place.end()
    assert said(built['id_service'], PROGRAM, place.disk).endswith('given back: queued; kept 5\n')
    return '3 examples'


LONG_VALUE = """
#include "boost.h"
#include <stdio.h>
#include <string.h>
int main(int count, char **words)
{
    char text[2 * BOOST_VALUE + 1], value[BOOST_VALUE], back[BOOST_VALUE];
    struct boost *store = boost_start(words[count - 2], words[count - 1]);
    memset(value, 7, sizeof value);
    boost_ask(store, "make map m");
    boost_ask(store, "do m put 1 %s", boost_hex(text, value, BOOST_VALUE));
    const char *answer = boost_ask(store, "do m get 1");
    strcpy(text, answer + strlen("value "));
    *strchr(text, ';') = '\\0';
    int size = boost_unhex(back, text);
    printf("%d %d\\n", size, memcmp(value, back, sizeof value));
    return boost_close(store);
}
"""


def a_long_value_in_c():
    """A value of 1,024 bytes comes back through the client in C as it was put, of a store in format 2."""
    place = Place()
    run('format', place.disk, '--area', str(AREA), '--format', '2', '--force')
    source, built = (os.path.join(place.room.name, name) for name in ('long.c', 'long'))
    with open(source, 'w', encoding='utf-8') as file:
        file.write(LONG_VALUE)
    folder = os.path.join(TOP, 'clients/c')
    said('cc', '-Wall', '-Wextra', '-Werror', '-I', folder, '-o', built, source, os.path.join(folder, 'boost.c'))
    assert said(built, PROGRAM, place.disk) == '1024 0\n'
    return '1,024 bytes'


TRIED_ONCE = """
#include "boost.h"
#include <stdio.h>
int main(int count, char **words)
{
    struct boost *one = boost_join(words[count - 1]), *other = boost_join(words[count - 1]);
    boost_ask(one, "make counter hits");
    boost_ask(one, "make set jobs");
    boost_ask(one, "keep jobs add 7");
    boost_ask(one, "begin");
    boost_ask(one, "call hits read");
    boost_ask(other, "begin");
    boost_ask(other, "call jobs remove 7");
    printf("%d ", boost_refusal(boost_try(other, 5, "keep hits bump 1")));
    boost_ask(one, "abort");
    printf("%d ", boost_refusal(boost_try(other, 5, "keep hits bump 2")));
    printf("%.3s ", boost_ask(other, "do jobs contains 7"));
    printf("%.7s\\n", boost_ask(other, "do hits read"));
    return boost_close(one) + boost_close(other);
}
"""


def tried_once_in_c():
    """boost_try asks a line once that is to finish a transaction: again it would be one of its own, without the job."""
    place = Place()
    source, built = (os.path.join(place.room.name, name) for name in ('once.c', 'once'))
    with open(source, 'w', encoding='utf-8') as file:
        file.write(TRIED_ONCE)
    folder = os.path.join(TOP, 'clients/c')
    said('cc', '-Wall', '-Wextra', '-Werror', '-I', folder, '-o', built, source, os.path.join(folder, 'boost.c'))
    place.serve()
    began = time.monotonic()
    assert said(built, place.door) == '9 0 yes total 2\n'
    assert time.monotonic() - began < 4
    place.end()
    return 'refused at once'


def main():
    for check in (the_docs_of_the_client, threads_of_one_program, programs_that_come_and_go, killed_in_a_transaction,
                  finished_by_a_line, killed_in_a_line, goodbye_behind_lines, hostile_at_the_door, deaf_at_the_door, passed_over,
                  met_as_the_door_opens, idle_over_input,
                  idle_at_the_door, slow_lines, woken_as_lines_come, a_crowd, ended_with_clients, killed_servers,
                  how_the_store_stands, deaf_parent, keeping_fails, a_shell, the_examples_in_python, the_examples_in_c,
                  a_long_value_in_c, tried_once_in_c):
        if not sys.argv[3:] or check.__name__ in sys.argv[3:]:
            print(f'{check.__name__}: {check()}', flush=True)


main()
