#!/usr/bin/env python3
"""gate_attacks.py [PROGRAM] [ATTACK..]: what boost-gate is to withstand, each attack a function below that says what must be.

The gate is built with the sanitizers of the C compiler, whose reports fail an attack as its own words do; GATE in the environment names
another one. The program is the script `boost`, unless another one is named; all attacks are run, unless some are named. Each is run in a
process of its own, which has two minutes and is killed then. It prints a line for each, and ends with status 1 if one fails.

    gate_attacks.py --wrong [PROGRAM] [ATTACK..]

builds gates that are wrong, each by an edit that stands in WRONG, and runs the attack that is to find it: the status is 1 where one does
not fail.
"""
import asyncio
import contextlib
import grp
import itertools
import multiprocessing
import os
import random
import resource
import select
import shutil
import signal
import socket
import stat
import subprocess
import sys
import tempfile
import threading
import time
import traceback

TOP = os.path.dirname(os.path.dirname(os.path.realpath(__file__)))
sys.path.insert(0, os.path.join(TOP, 'clients', 'python'))
sys.dont_write_bytecode = True
import boost  # noqa: E402
import boost.aio  # noqa: E402

SOURCES = os.path.join(TOP, 'clients', 'gate')
BOOST = os.path.join(TOP, 'boost')
SECONDS = 120
HELLO = 'hello boost 1'
STRICT = ['-std=c11', '-Wall', '-Wextra', '-Werror', '-g', '-O1', '-fsanitize=address,undefined', '-fno-sanitize-recover=all']
PLAIN = ['-std=c11', '-Wall', '-Wextra', '-Werror', '-O2']
NUMBERS = itertools.count()
# The program of the store, and the gates: with sanitizers, and as it is installed.
PROGRAM = GATE = QUICK = ''


def build(folder, flags, sources=SOURCES):
    """Builds a gate, and gives its path."""
    built = os.path.join(folder, 'gate-%d' % next(NUMBERS))
    files = sorted(os.path.join(sources, name) for name in os.listdir(sources) if name.endswith('.c'))
    subprocess.run(['cc', *flags, '-o', built, *files], check=True)
    return built


# ---- programs, gates and servers


class Talk:
    """A program at a gate, with a socket of its own."""

    def __init__(self, path, is_greeted=True, port=0):
        self.socket = socket.socket(socket.AF_INET if port else socket.AF_UNIX)
        self.socket.settimeout(30)
        self.socket.connect(('127.0.0.1', port) if port else path)
        self.text = b''
        if is_greeted:
            expect(self.line(), HELLO, 'hello')

    def send(self, text):
        self.socket.sendall(text if isinstance(text, bytes) else text.encode())

    def ask(self, line, seconds=30):
        self.send(line + '\n')
        return self.line(seconds)

    def line(self, seconds=30):
        """The next line; an empty text at the end, and None where nothing comes in time."""
        end = time.monotonic() + seconds
        while b'\n' not in self.text:
            left = end - time.monotonic()
            if left <= 0 or not is_readable(self.socket, left):
                return None
            try:
                more = self.socket.recv(65536)
            except ConnectionResetError:
                more = b''
            if not more:
                return ''
            self.text += more
        line, self.text = self.text.split(b'\n', 1)
        return line.decode()

    def is_ended(self, seconds):
        """Whether the end comes, and no whole line before it."""
        return self.line(seconds) == ''

    def close(self):
        self.socket.close()


class Place:
    """A folder with a store, its collections, a server at a door, and a gate there."""

    def __init__(self, *options, server=(), is_gated=True, area=1 << 22, gate=None):
        self.room = tempfile.TemporaryDirectory()
        self.folder, self.path = os.path.join(self.room.name, 'run'), os.path.join(self.room.name, 'socket')
        self.disk, self.door = os.path.join(self.room.name, 'disk'), os.path.join(self.folder, 'door')
        self.options, self.server_options, self.gate_program = options, server, gate or GATE
        self.children, self.trouble, self.said = [], [], b''
        os.mkdir(self.folder, 0o700)
        os.mkfifo(self.door, 0o600)
        subprocess.run([PROGRAM, 'format', self.disk, '--area', str(area), '--format', '2'], check=True)
        words = b'c1 make counter n\nc1 make counter other\nc1 make map m\nc1 make set s\nc1 make queue jobs\nc1 wait\n'
        subprocess.run([PROGRAM, 'listen', self.disk], input=words, stdout=subprocess.DEVNULL, check=True)
        self.serve()
        if is_gated:
            self.open_gate()

    def run(self, words, is_gate=False, **how):
        child = subprocess.Popen(words, stdin=subprocess.DEVNULL, stderr=subprocess.PIPE, restore_signals=False, **how)
        self.children.append((child, is_gate))
        return child

    def serve(self):
        self.server = self.run([PROGRAM, 'listen', self.disk, self.folder, *self.server_options])
        wait_until(lambda: has_reader(self.door), 'a server')

    def open_gate(self, *words, **how):
        self.gate = self.run([self.gate_program, self.folder, self.path, *self.options, *words], True, **how)
        wait_until(lambda: is_open(self.path), 'a gate')
        return self.gate

    def talk(self, **how):
        return Talk(self.path, **how)

    def say(self, text):
        door = os.open(self.door, os.O_WRONLY | os.O_NONBLOCK)
        os.write(door, b'\n' + text + b'\n')
        os.close(door)

    def end_server(self):
        self.say(b'end')
        expect(self.server.wait(20), 0, 'status of the server')

    def end_gate(self, status=0):
        """Ends the gate in good order, which has left nothing; and looks for what a sanitizer says."""
        self.gate.send_signal(signal.SIGTERM)
        expect(self.gate.wait(20), status, 'status of the gate')
        assert not os.path.exists(self.path), 'the socket is left'
        self.said = self.gate.stderr.read()
        return self.said.decode()

    def show(self):
        """The content, once no server has the file."""
        return subprocess.run([PROGRAM, 'show', self.disk], stdout=subprocess.PIPE, text=True, check=True).stdout

    def __enter__(self):
        return self

    def __exit__(self, kind, *error):
        for child, is_gate in self.children:
            if child.poll() is None:
                child.kill() if kind or not is_gate else child.terminate()
            status, told = child.wait(20), child.stderr.read() if not child.stderr.closed else b''
            child.stderr.close()
            if is_gate and (status not in (0, 4, -signal.SIGKILL) or b'Sanitizer' in told or b'runtime error' in told):
                self.trouble.append((status, told.decode(errors='replace')[:3000]))
        self.room.cleanup()
        if self.trouble and not kind:
            raise AssertionError('the gate ended so: %s' % self.trouble)
        if self.trouble:
            print('the gate ended so: %s' % self.trouble[0][1], flush=True)


def is_readable(file, seconds):
    """Whether something comes in so many seconds, of a file of whatever number."""
    asked = select.poll()
    asked.register(file, select.POLLIN)
    return bool(asked.poll(seconds * 1000))


def expect(found, wanted, what):
    assert found == wanted, '%s: %r in place of %r' % (what, found, wanted)


def wait_until(is_so, what, seconds=20):
    end = time.monotonic() + seconds
    while not is_so():
        assert time.monotonic() < end, '%s: not within %g seconds' % (what, seconds)
        time.sleep(0.01)


def has_reader(door):
    try:
        os.close(os.open(door, os.O_WRONLY | os.O_NONBLOCK))
        return True
    except OSError:
        return False


def is_open(path):
    with socket.socket(socket.AF_UNIX) as tried:
        return tried.connect_ex(path) == 0


def memory_of(pid):
    """The resident memory of a process, in KiB, and how many files it has open."""
    with open('/proc/%d/status' % pid, encoding='utf-8') as file:
        found = [int(line.split()[1]) for line in file if line.startswith('VmRSS')]
    return found[0], len(os.listdir('/proc/%d/fd' % pid))


def in_threads(number, work):
    """Runs work(i) in so many threads, and gives what each gave."""
    told, failed = [None] * number, []

    def run(index):
        try:
            told[index] = work(index)
        except BaseException as error:                     # of a thread, which would say so and pass
            failed.append(error)
    threads = [threading.Thread(target=run, args=(index,), daemon=True) for index in range(number)]
    for thread in threads:
        thread.start()
    for thread in threads:
        thread.join(SECONDS)
    if failed:
        raise failed[0]
    return told


def value_of(talk, name):
    return int(talk.ask('do %s read' % name).split('; ')[0].split()[1])


# ---- the protocol


def the_same_answers():
    """What is asked line by line, or all at once, is answered as a client of the door is."""
    random.seed(7)
    lines = ['begin', 'commit', 'abort', 'keep', 'call n bump 1', 'call n read', 'call s add 3', 'call s contains 3', 'later n bump 2',
             'do n bump 1; n read', 'keep n bump 1', 'do m put 1 %s; m get 1' % ('ab' * 900), 'call m get 1', 'wait',
             'make counter c', 'foo', 'begin ', ' begin', 'wait x', 'kept ', 'do n', 'do n bump 1;n read', 'call', 'status x', 'end',
             'hello x', 'x' * 4095, 'x' * 4096, '#' * 4095 + '\nwait', '#' * 4096, 'call n read\r', '\r\nwait', '\nwait',
             '# a remark\nwait', 'begin\r', 'x' * 4094 + '\r', 'x' * 4095 + '\r', 'do jobs add 1 2; jobs take',
             'do jobs take; n bump 1; jobs take']
    asked = [random.choice(lines) for _ in range(600)]
    with Place() as place, Place(is_gated=False) as other:
        with contextlib.closing(Door(other)) as door:
            program = place.talk()
            for line in asked:
                expect(program.ask(line), door.ask(line), line[:80])
            program.send('\n'.join(asked) + '\n')
            door.send('\n'.join(asked) + '\n')
            for line in asked:
                expect(program.line(), door.line(), line[:80])
            expect(program.ask('bye'), door.ask('bye'), 'bye')
            assert program.is_ended(5) and door.line() == ''
        place.end_gate()
        place.end_server()
        other.end_server()
        expect(place.show(), other.show(), 'content')
    return '%d lines twice' % len(asked)


class Door(Talk):
    """A client at the door itself."""

    def __init__(self, place):
        self.text, self.word = b'', 'door-%d-%d' % (os.getpid(), random.randrange(1 << 30))
        paths = [os.path.join(place.folder, self.word + end) for end in ('.to', '.from')]
        for path in paths:
            os.mkfifo(path, 0o600)
        held = [os.open(path, os.O_RDWR) for path in paths]
        self.to, self.socket = os.open(paths[0], os.O_WRONLY), self
        self.answers = os.open(paths[1], os.O_RDONLY)
        place.say(b'hello ' + self.word.encode())
        expect(self.line(), HELLO, 'hello')
        for number in held:
            os.close(number)

    def fileno(self):
        return self.answers

    def recv(self, size):
        return os.read(self.answers, size)

    def send(self, text):
        data = text.encode()
        def write():
            with contextlib.suppress(OSError):             # the server is gone, as its answers tell
                for at in range(0, len(data), 4096):
                    os.write(self.to, data[at:at + 4096])
        threading.Thread(target=write, daemon=True).start()

    def close(self):
        os.close(self.to)
        os.close(self.answers)


def lines_in_pieces():
    """Lines that come byte by byte are lines, the half one at the end is passed over, and a program that has said all is answered."""
    with Place() as place:
        program = place.talk()
        for byte in b'begin\ncall n bump 5\nkeep\n':
            program.send(bytes([byte]))
            time.sleep(0.002)
        told = [program.line() for _ in range(3)]
        assert told[0].startswith('begun') and told[1] == 'done' and told[2].startswith('kept '), told
        program.send('do n bump 1\nbegin\ncall n bump 100\ndo n bump 1')
        program.socket.shutdown(socket.SHUT_WR)
        told = [program.line() for _ in range(4)]
        assert told[0].startswith('done; place') and told[1].startswith('begun') and told[2:] == ['done', ''], told
        expect(value_of(place.talk(), 'n'), 6, 'n')
        last = place.talk()
        last.send('do n bump 10\n')                        # and goes at once: it need not wait
        last.close()
        wait_until(lambda: value_of(place.talk(), 'n') == 16, 'what was said before going')
    return 'n is 16'


def long_lines():
    """A line of over 4,095 bytes is answered so, of whatever length, and takes no memory; the next one is carried out."""
    with Place(gate=QUICK) as place:
        program = place.talk()
        before = memory_of(place.gate.pid)[0]
        for size in (4096, 4097, 16383, 16384, 16385, 65536, 1 << 20, 1 << 25):
            program.send(b'x' * size)
            program.send('\ndo n bump 1\n')
            expect(program.line(), 'error LineTooLong', '%d bytes' % size)
            assert program.line().startswith('done; place')
        program.send(b'x' * (1 << 20))
        program.close()
        expect(value_of(place.talk(), 'n'), 8, 'n')
        grown = memory_of(place.gate.pid)[0] - before
        assert grown < 1024, grown
    return '32 MiB in a line, %d KiB more' % max(grown, 0)


def all_at_once():
    """Many lines without a look at an answer: each is answered in its turn, of several programs, whoever waits for a seat."""
    number, programs = 2000, 5
    with Place('--seats', '2') as place:
        def work(index):
            program = place.talk()
            lines = ['do m put %d %04x; m get %d' % (index, turn, index) if turn % 3 else 'foo' for turn in range(number)]
            threading.Thread(target=program.send, args=('\n'.join(lines) + '\n',), daemon=True).start()
            for turn in range(number):
                told = program.line()
                wanted = 'value %04x' % turn if turn % 3 else 'error NotUnderstood: foo: '
                assert wanted in told, (turn, told)
            return number
        told = sum(in_threads(programs, work))
        place.end_gate()
    return '%d answers' % told


def commits_of_one_program():
    """`kept` and `wait` are of the program's own last commit, whoever has used the seat since."""
    with Place('--seats', '1') as place:
        one, other, third = place.talk(), place.talk(), place.talk()
        assert one.ask('do n bump 1').startswith('done; place')
        expect([third.ask('kept'), third.ask('wait')], ['no ticket'] * 2, 'of a program with no commit')
        assert other.ask('begin').startswith('begun')
        expect(one.ask('wait', 5), 'kept', 'while another has the only seat')
        assert other.ask('call other bump 1') == 'done'
        expect(other.ask('kept'), 'no ticket', 'kept of another')
        assert other.ask('commit').startswith('place')
        expect(one.ask('kept'), 'kept', 'kept before the other commit')
        stop = threading.Event()

        def bump():
            busy = place.talk()
            while not stop.is_set():
                assert 'place' in busy.ask('do other bump 1')
        thread = threading.Thread(target=bump, daemon=True)
        thread.start()
        assert one.ask('do n bump 1').startswith('done; place')
        wait_until(lambda: one.ask('kept') == 'kept', 'kept while others commit', 5)
        stop.set()
        thread.join()
        assert one.ask('make counter c').startswith('place')
        expect([one.ask('wait'), third.ask('wait')], ['kept', 'no ticket'], 'wait')
        place.end_gate()
    with Place('--seats', '2') as place:
        one, other = place.talk(), place.talk()
        for _ in range(100):
            assert one.ask('do n bump 1').startswith('done; place')
            assert other.ask('begin').startswith('begun')  # which has the seat of that commit now
            one.send('wait\nstatus\n')
            expect([one.line()[:6], one.line()[:6], other.ask('abort')], ['kept', 'format', 'aborted'], 'the order')
        place.end_gate()
    return 'kept'


class Careful:
    """A program with a key of its own, which knows what each of its lines has to be answered."""

    def __init__(self, place, key, chance):
        self.talk, self.key, self.chance = place.talk(), key, chance
        self.value = self.own = None                       # what is committed, and what its open transaction sees
        self.is_open = self.has_committed = False
        self.wanted = []

    def ask_some(self):
        """Asks some lines at once, and looks at their answers."""
        lines = [self.line() for _ in range(self.chance.choice((1, 1, 1, 2, 5, 40)))]
        self.talk.send(''.join(line + '\n' for line in lines))
        for line in lines:
            told, wanted = self.talk.line(), self.wanted.pop(0)
            assert told is not None and told.startswith(wanted), (self.key, line[:60], told, wanted)

    def line(self):
        """One line, and what its answer begins with."""
        said = lambda value: 'nothing' if value is None else 'value %s' % value
        new = '%08x' % self.chance.randrange(1 << 32)
        choices = [('status', 'format '), ('x' * 4096, 'error LineTooLong'), ('foo', 'error NotUnderstood: foo: '),
                   ('wait', 'kept' if self.has_committed else 'no ticket'),
                   ('kept', ('kept', 'not yet') if self.has_committed else 'no ticket')]
        if self.is_open:
            choices += [('call m put %d %s' % (self.key, new), ('value', 'nothing', 'done')),
                        ('call m get %d' % self.key, said(self.own)), ('begin', 'refused 25'), ('do m get 1', 'refused 25')] * 2
            choices += [('commit', 'place '), ('keep', 'kept '), ('abort', 'aborted')]
        else:
            choices += [('begin', 'begun '), ('begin', 'begun '), ('commit', 'refused 10'), ('call m get 1', 'refused 10'),
                        ('do m get %d' % self.key, said(self.value) + '; place '),
                        ('keep m put %d %s' % (self.key, new), ('value', 'nothing', 'done'))]
        line, wanted = self.chance.choice(choices)
        self.wanted.append(wanted)
        self.note(line, new)
        return line

    def note(self, line, new):
        if line == 'begin' and not self.is_open:
            self.is_open, self.own = True, self.value
        elif line.startswith('call m put'):
            self.own = new
        elif line.startswith('keep m put'):
            self.value, self.has_committed = new, True
        elif line.startswith('do ') and not self.is_open:
            self.has_committed = True
        elif line in ('commit', 'keep') and self.is_open:
            self.is_open, self.value, self.has_committed = False, self.own, True
        elif line == 'abort':
            self.is_open = False


def nobody_is_given_anothers():
    """Of programs that do all that may be done, and go in the middle of it, none sees an answer or a transaction of another."""
    with Place('--seats', '3') as place:
        def work(index):
            chance, keys = random.Random(index), 0
            for _ in range(8):
                program, keys = Careful(place, 1000 * (index + 1) + keys, chance), keys + 1
                for _ in range(25):
                    program.ask_some()
                if program.is_open and chance.random() < 0.5:
                    program.talk.send('call m put %d ff\n' % program.key * chance.randrange(50))
                program.talk.close()
        in_threads(24, work)
        wait_until(lambda: ' live 0;' in place.talk().ask('status'), 'that nothing is open', 10)
        place.end_gate()
    return '192 programs'


# ---- many programs


def a_thousand_programs():
    """1,024 programs are joined at once, and each makes a transaction; one more waits until one goes."""
    number = 1024
    resource.setrlimit(resource.RLIMIT_NOFILE, (4096, max(4096, resource.getrlimit(resource.RLIMIT_NOFILE)[1])))
    with Place() as place:
        programs = [place.talk() for _ in range(number)]
        more = place.talk(is_greeted=False)
        expect(more.line(1), None, 'one more')
        began = time.monotonic()
        for line, wanted in (('begin', 'begun '), ('call n bump 1', 'done'), ('keep', 'kept ')):
            for program in programs if line == 'begin' else ():
                program.send('begin\ncall n bump 1\nkeep\n')
            for program in programs:
                told = program.line()
                assert told.startswith(wanted), (line, told)
        took = time.monotonic() - began
        programs[7].close()
        expect(more.line(), HELLO, 'hello of one more')
        expect(value_of(more, 'n'), number, 'n')
        expect(len([name for name in os.listdir(place.folder) if name != 'door']), 0, 'FIFOs that are left')
        place.end_gate()
    return '%d transactions in %.1f s' % (number, took)


def in_their_turn():
    """Of 200 programs that want 8 seats each has one in the order in which it came."""
    with Place('--seats', '8') as place:
        holders = [place.talk() for _ in range(8)]
        assert all(holder.ask('begin').startswith('begun') for holder in holders)
        waiting = [place.talk() for _ in range(200)]
        for program in waiting:
            program.send('begin\n')
            time.sleep(0.001)
        time.sleep(0.2)
        told = {program.socket: program for program in waiting}
        assert not select.select(list(told), [], [], 0)[0], 'a ninth transaction'
        order = []
        for turn in range(200):
            (holders + waiting)[turn].send('abort\n')
            ready = select.select(list(told), [], [], 10)[0]
            expect(len(ready), 1, 'programs that have their turn')
            program = told.pop(ready[0])
            assert program.line().startswith('begun')
            order.append(waiting.index(program))
        expect(order, list(range(200)), 'the order')
        place.end_gate()
    return '200 in their order'


def finished_by_a_line():
    """The calls of one line that finish a transaction give its seat to the next program, also where they are refused."""
    with Place('--seats', '1') as place:
        program, other = place.talk(), place.talk()
        for line, answer, total in (('keep n bump 2; n read', 'done; total 3; kept ', 3), ('do n bump 4; nobody bump 1', 'refused 6 ', 3)):
            assert program.ask('begin').startswith('begun')
            expect(program.ask('call n bump 1'), 'done', 'a call')
            other.send('do n read\n')
            expect(other.line(0.2), None, 'a second transaction on one seat')
            assert program.ask(line).startswith(answer), line
            assert (other.line(5) or '').startswith('total %d; place ' % total), line
            assert program.ask('commit').startswith('refused 10 '), 'still open'
        expect(program.ask('kept'), 'kept', 'the last commit')
        assert program.ask('begin').startswith('begun')
        assert program.ask('keep n bonp 1').startswith('error NotUnderstood')
        other.send('do n read\n')
        expect(other.line(0.2), None, 'a line that was not understood has ended the transaction')
        expect(program.ask('abort'), 'aborted', 'it is open still')
        assert other.line(5).startswith('total 3; place ')
        place.end_gate()
    return 'by calls that are kept, and by some that are refused'


def none_is_passed_over():
    """A program that asks without an end, and many lines at once, holds up nobody: others have a turn between its transactions."""
    with Place('--seats', '1') as place:
        greedy, stop = place.talk(), threading.Event()

        def ask():
            with contextlib.suppress(OSError):
                while not stop.is_set():
                    greedy.send('begin\ncall other bump 1\ncommit\ndo other bump 1\n' * 50)
        def read():
            while greedy.line(5):
                pass
        threads = [threading.Thread(target=each, daemon=True) for each in (ask, read)]
        for thread in threads:
            thread.start()
        slowest = 0.0
        for _ in range(200):
            program = place.talk()
            began = time.monotonic()
            assert 'kept' in program.ask('keep n bump 1')
            slowest = max(slowest, time.monotonic() - began)
            program.close()
        stop.set()
        greedy.socket.shutdown(socket.SHUT_RDWR)
        assert slowest < 2, slowest
        place.end_gate()
    return 'the slowest of 200 in %.0f ms' % (1000 * slowest)


def who_goes_waits_no_more():
    """A program that goes while it waits for a seat has nothing done, and holds nobody up."""
    with Place('--seats', '1') as place:
        holder, gone, next_one = place.talk(), place.talk(), place.talk()
        assert holder.ask('begin').startswith('begun')
        gone.send('do n bump 100\n')
        time.sleep(0.1)
        next_one.send('do n bump 1; n read\n')
        gone.close()
        time.sleep(0.1)
        assert holder.ask('abort') == 'aborted'
        expect(next_one.line().split(';')[1], ' total 1', 'what was done')
        place.end_gate()
    return 'n is 1'


# ---- programs that end, or do not read


def killed_in_a_transaction():
    """The transaction of a program that is killed is undone at once, at whatever moment."""
    number = 150
    with Place('--seats', '4') as place:
        for turn in range(number):
            ready, say = os.pipe()
            child = os.fork()
            if child == 0:
                program = place.talk()
                program.ask('begin')
                os.write(say, b'.')
                for _ in range(1000):
                    program.ask('call n bump 1000')
                os._exit(0)
            os.read(ready, 1)
            time.sleep(random.uniform(0, 0.01))
            os.kill(child, signal.SIGKILL)
            os.waitpid(child, 0)
            os.close(ready), os.close(say)
            program = place.talk()
            wait_until(lambda: place_is_free(program), 'the lock of a program that was killed', 10)
            program.close()
        program = place.talk()
        expect(value_of(program, 'n'), number, 'n')
        assert ' live 0;' in program.ask('status')
        place.end_gate()
    return '%d killed' % number


def place_is_free(program):
    """Whether nobody holds the counter: a read is in the way of bumps."""
    told = program.ask('do n read; n bump 1')
    assert told.startswith(('total', 'refused 9 Busy')), told
    return told.startswith('total')


def deaf_programs():
    """Programs that read nothing hold up nobody, take no more memory than they may, and are let go with what they have open."""
    with Place('--seats', '4', '--idle', '2', gate=QUICK) as place:
        program = place.talk()
        program.ask('keep m put 1 %s' % ('ab' * 1024))
        before = memory_of(place.gate.pid)[0]
        deaf = [place.talk() for _ in range(3)]
        big = 'do ' + '; '.join(['m get 1'] * 400) + '\n'
        deaf[0].send('begin\ncall n bump 1\n')
        for each in deaf:
            each.socket.setblocking(False)
            with contextlib.suppress(BlockingIOError):
                for _ in range(1000):
                    each.socket.send((('call m get 1\n' * 300) if each is deaf[0] else big).encode())
        most, slowest, end = 0, 0.0, time.monotonic() + 1.5
        while time.monotonic() < end:
            began = time.monotonic()
            assert 'kept' in program.ask('keep other bump 1')
            slowest = max(slowest, time.monotonic() - began)
            most = max(most, memory_of(place.gate.pid)[0] - before)
        assert slowest < 1 and most < 8192, (slowest, most)
        expect(program.ask('do n read')[:14], 'refused 9 Busy', 'a lock of one that is deaf')
        wait_until(lambda: program.ask('do n read').startswith('total 0'), 'that it is let go', 10)
        wait_until(lambda: ' live 0;' in program.ask('status'), 'that all are', 10)
        wait_until(lambda: len(os.listdir('/proc/%d/fd' % place.gate.pid)) < 20, 'their files closed')
        expect(place.end_gate().count('reads nothing'), 3, 'notes')
        assert count_bytes(deaf[1]) > 65536, 'the beginning of what it was told'
    return '%d KiB at most, others within %.0f ms' % (most, 1000 * slowest)


def a_commit_behind_one_that_is_deaf():
    """Who waits for a commit that its seat made is told, also while another program has the seat and does not read."""
    with Place('--seats', '1', '--idle', '3') as place:
        one = place.talk()
        one.ask('keep m put 1 %s' % ('ab' * 1024))
        slowest = 0.0
        for _ in range(5):
            deaf = place.talk()
            assert one.ask('do n bump 1').startswith('done; place')
            assert deaf.ask('begin').startswith('begun')
            deaf.send('call m get 1\n' * 1000)
            time.sleep(0.1)
            began = time.monotonic()
            expect(one.ask('wait', 2), 'kept', 'wait')
            slowest = max(slowest, time.monotonic() - began)
            deaf.close()
        place.end_gate()
    return 'kept within %.0f ms' % (1000 * slowest)


def count_bytes(talk):
    """How many bytes a program finds that it was told, up to the end."""
    talk.socket.setblocking(True)
    count, more = 0, b'.'
    with contextlib.suppress(ConnectionResetError):
        while more:
            more = talk.socket.recv(1 << 20)
            count += len(more)
    return count


def slow_readers():
    """A program that reads slowly is told all, in whole answers."""
    with Place('--seats', '2') as place:
        program = place.talk()
        program.ask('keep m put 1 %s' % ('ab' * 1024))
        big = 'do ' + '; '.join(['m get 1'] * 400)
        threading.Thread(target=program.send, args=((big + '\n') * 20,), daemon=True).start()
        wanted = len('; '.join(['value ' + 'ab' * 1024] * 400) + '; place ')
        for _ in range(20):
            time.sleep(0.02)
            told = program.line()
            assert told.startswith('value abab') and '; place ' in told and abs(len(told) - wanted) < 8, len(told)
        other = place.talk()
        assert 'kept' in other.ask('keep n bump 1')
        place.end_gate()
    return '20 answers of %d bytes' % wanted


def idle_programs():
    """A transaction whose program is silent is undone, by the gate and by the server: its next line is answered so."""
    for options, server in ((('--idle', '1'), ()), ((), ('--idle', '1'))):
        with Place('--seats', '1', *options, server=server) as place:
            idle, other = place.talk(), place.talk()
            idle.ask('begin')
            expect(idle.ask('call n bump 1'), 'done', 'call')
            if options:
                expect(other.ask('do n read; n bump 1', 10)[:9], 'total 0; ', 'another, which waits for the only seat')
            else:
                time.sleep(2.5)
            expect([idle.ask('commit'), idle.ask('commit')], ['error Idle', 'refused 10 NoSuchTxn'], 'told')
            assert idle.ask('keep n bump 1').startswith('done; kept')
            place.end_gate()
    return 'error Idle'


def idle_at_the_server():
    """Where the server undoes what one program has open, no line of another one is answered so, nor of the gate."""
    for is_waiting in (False, True):
        with Place('--seats', '1', server=('--idle', '1')) as place:
            one, other, idle = place.talk(), place.talk(), place.talk()
            assert 'place' in one.ask('do n bump 1')
            assert idle.ask('begin').startswith('begun')
            assert idle.ask('call other bump 1') == 'done'
            place.gate.send_signal(signal.SIGSTOP)         # before it looks at what is kept
            one.send('wait\n' if is_waiting else '# nothing\n')
            time.sleep(2.5)
            place.gate.send_signal(signal.SIGCONT)
            if is_waiting:
                expect(one.line(), 'kept', 'wait of another')
            time.sleep(1)
            expect([idle.ask('call n bump 1'), idle.ask('call n bump 1')], ['error Idle', 'refused 10 NoSuchTxn'], 'the idle one')
            assert 'kept' in other.ask('keep other bump 1')
            place.end_gate()
    return 'error Idle, of the one who was'


def none_keeps_it_busy():
    """A gate that can do nothing does nothing: whoever waits, says much, does not read, or has said all."""
    def used(pid, seconds=1):
        def ticks():
            with open('/proc/%d/stat' % pid, encoding='utf-8') as file:
                return sum(map(int, file.read().rpartition(')')[2].split()[11:13]))
        before = ticks()
        time.sleep(seconds)
        return (ticks() - before) / os.sysconf('SC_CLK_TCK')

    def say_much(talk):
        talk.socket.setblocking(False)
        with contextlib.suppress(BlockingIOError):
            while True:
                talk.socket.send(b'do m get 1\n' * 1000)

    found = {}
    with Place('--seats', '1', '--patience', '0', gate=QUICK) as place:
        place.end_server()
        talks = [place.talk(is_greeted=False) for _ in range(40)]
        for talk in talks[:10]:
            say_much(talk)
        for talk in talks[10:20]:
            talk.send('do n bump 1\nhalf a line')
            talk.socket.shutdown(socket.SHUT_WR)
        found['no server'] = used(place.gate.pid)
        place.serve()
        assert all(talk.line() == HELLO for talk in talks), 'hello'
        holder = place.talk()
        assert holder.ask('begin').startswith('begun')
        waiting = [place.talk() for _ in range(40)]
        for talk in waiting[:20]:
            say_much(talk)
        for talk in waiting[20:]:
            talk.send('do n bump 1\n')
            talk.socket.shutdown(socket.SHUT_WR)
        time.sleep(0.3)
        found['waiting'] = used(place.gate.pid)
        holder.ask('call m put 1 %s' % ('ab' * 900))
        holder.send('call m get 1\n' * 300)
        time.sleep(0.3)
        found['deaf'] = used(place.gate.pid)
        os.kill(place.server.pid, signal.SIGSTOP)
        found['the server stopped'] = used(place.gate.pid)
        os.kill(place.server.pid, signal.SIGCONT)
    assert all(seconds < 0.1 for seconds in found.values()), found
    return ', '.join('%s %.2f s' % each for each in found.items())


# ---- servers and gates that end


def a_server_that_is_killed():
    """Who waits for an answer, has a transaction or a commit that is not kept is told by the end; nothing told kept is lost; others stay
    joined, and the gate comes in at the next server."""
    with Place() as place:
        at_rest, kept, open_one, asking = (place.talk() for _ in range(4))
        assert kept.ask('keep n bump 1').startswith('done; kept')
        assert open_one.ask('begin').startswith('begun') and open_one.ask('call n bump 50') == 'done'
        total = 1
        for turn in range(5):
            stop = threading.Event()
            told = [0] * 8

            def bump(index):
                with contextlib.suppress(OSError):
                    program = place.talk()
                    while not stop.is_set() and program.ask('keep other bump 1').startswith('done; kept'):
                        told[index] += 1
            threads = [threading.Thread(target=bump, args=(index,), daemon=True) for index in range(8)]
            before = value_of(at_rest, 'other')
            assert at_rest.ask('wait') == 'kept'
            for thread in threads:
                thread.start()
            time.sleep(0.2)
            place.server.kill()
            place.server.wait()
            if turn == 0:
                assert open_one.is_ended(5), 'one with a transaction is not told'
                assert asking.ask('kept') == 'no ticket'
            waiting = place.talk(is_greeted=False)
            waiting.send('keep n bump 1\n')
            told_early = waiting.line(0.3)                 # the hello, where the gate has not seen the server's end yet
            assert told_early in (None, HELLO), told_early
            place.serve()
            stop.set()
            for thread in threads:
                thread.join(20)
            if not told_early:
                expect(waiting.line(), HELLO, 'hello once a server is there')
            expect(waiting.line()[:10], 'done; kept', 'the line that waited')
            total += 1
            expect(value_of(at_rest, 'n'), total, 'n of a program that stayed joined')
            now = value_of(at_rest, 'other')
            assert before + sum(told) <= now <= before + sum(told) + len(threads), (before, told, now)
            assert at_rest.ask('wait') == 'kept'
        assert kept.ask('wait') == 'kept' and kept.ask('kept') == 'kept'
        said = place.end_gate()
        assert said.count('nobody reads its door') + said.count('No such') >= 1 and 'a server is at' in said, said
    return 'five times'


def a_commit_that_is_not_kept():
    """A program that was told `place` alone is told by the end that its server is gone, also where it asks nothing."""
    with Place() as place:
        program = place.talk()
        os.kill(place.server.pid, signal.SIGSTOP)
        program.send('do n bump 1\n')
        os.kill(place.server.pid, signal.SIGCONT)
        assert 'place' in program.line()
        place.server.kill()
        told = program.line(5)
        assert told == '' or program.ask('wait') == 'kept', told
        ended = told == ''
    return 'the end' if ended else 'kept'


def a_failed_disk_is_told():
    """`Lost` and its cause come to who waits, and then the end."""
    with Place() as place:
        program, other = place.talk(), place.talk()
        assert 'kept' in program.ask('keep n bump 1')
        assert other.ask('begin').startswith('begun') and other.ask('call other bump 1') == 'done'
        resource.prlimit(place.server.pid, resource.RLIMIT_FSIZE, (0, 0))
        told = program.ask('keep n bump 1')
        assert told.startswith('refused 23 Lost: Fault, File too large'), told
        assert program.is_ended(5) and other.is_ended(5)
        expect(place.server.wait(10), 1, 'status of the server')
    return told


def no_server():
    """Without a server nobody is greeted, and who comes is let go after the patience; the gate says so once, and ends as ever."""
    with Place('--patience', '1', is_gated=False) as place:
        place.end_server()
        place.open_gate()
        program = place.talk(is_greeted=False)
        began = time.monotonic()
        assert program.is_ended(5)
        took = time.monotonic() - began
        assert 0.9 < took < 3, took
        waiting = place.talk(is_greeted=False)
        place.serve()
        expect(waiting.line(), HELLO, 'hello')
        place.end_server()
        shutil.rmtree(place.folder)                        # as systemd does with a RuntimeDirectory
        time.sleep(0.3)
        waiting.send('keep n bump 1\n')
        os.mkdir(place.folder, 0o700)
        os.mkfifo(place.door, 0o600)
        place.serve()
        assert waiting.line().startswith('done; kept')
        said = place.end_gate()
        expect([said.count('no server at'), said.count('a server is at')], [2, 2], said)
    return 'let go after %.1f s' % took


def a_server_with_no_room():
    """Where others have the 64 clients of a server programs wait, and go on as soon as one is let go."""
    with Place(is_gated=False) as place:
        others = [Door(place) for _ in range(64)]
        place.open_gate()
        program = place.talk(is_greeted=False)
        program.send('keep n bump 1\n')
        expect(program.line(1.5), None, 'an answer')
        others.pop().close()
        expect(program.line(), HELLO, 'hello')
        assert program.line().startswith('done; kept')
        more = place.talk()
        assert program.ask('begin').startswith('begun')
        more.send('begin\n')
        expect(more.line(0.5), None, 'a second transaction over one seat')
        assert program.ask('abort') == 'aborted' and more.line().startswith('begun')
        place.end_gate()
    return 'one seat, in turns'


def seats_that_the_server_lets_go():
    """A server with --idle takes clients that are silent for others at its door: so it does with seats, and no program notices."""
    with Place(server=('--idle', '1')) as place:
        programs = [place.talk() for _ in range(30)]
        for line, wanted in (('begin', 'begun'), ('call n bump 1', 'done'), ('keep', 'kept')):
            for program in programs:
                assert program.ask(line).startswith(wanted)
        others, stop = [Door(place) for _ in range(34)], threading.Event()

        def say_something():
            while not stop.is_set():
                assert all(other.ask('kept') == 'no ticket' for other in others)
                time.sleep(0.2)
        thread = threading.Thread(target=say_something, daemon=True)
        thread.start()
        began = time.monotonic()
        more = [Door(place) for _ in range(4)]
        took = time.monotonic() - began
        assert took < 9, took                              # before the gate lets seats go by itself
        for _ in range(2):
            assert all(program.ask('keep n bump 1').startswith('done; kept') for program in programs)
        stop.set()
        thread.join()
        for other in others + more:
            other.close()
        expect(value_of(programs[0], 'n'), 90, 'n')
        place.end_gate()
    return '4 others came in within %.1f s' % took


def seats_that_nobody_wants():
    """After a rush the gate gives all but eight of its clients back to the server, and nobody who is joined notices."""
    with Place() as place:
        programs = [place.talk() for _ in range(60)]
        for line, wanted in (('begin', 'begun'), ('call n bump 1', 'done'), ('commit', 'place')):
            for program in programs:
                assert program.ask(line).startswith(wanted)
        expect(len(os.listdir('/proc/%d/fd' % place.gate.pid)) > 60 + 120, True, 'seats')
        wait_until(lambda: len(os.listdir('/proc/%d/fd' % place.gate.pid)) < 60 + 16 + 12, 'that they are given back', 25)
        others = [Door(place) for _ in range(56)]
        expect([program.ask('wait') for program in programs], ['kept'] * 60, 'wait')
        assert all(program.ask('keep n bump 1').startswith('done; kept') for program in programs)
        for other in others:
            other.close()
        place.end_gate()
    return '8 of 60 are left'


def a_gate_that_is_killed():
    """Nothing that was told kept is lost, what was open is undone, and the next gate takes the socket."""
    with Place() as place:
        told = [0] * 8
        for turn in range(4):
            def bump(index):
                with contextlib.suppress(OSError):
                    program = place.talk()
                    while program.ask('keep n bump 1').startswith('done; kept'):
                        told[index] += 1
            open_one = place.talk()
            assert open_one.ask('begin').startswith('begun') and open_one.ask('call other bump 100') == 'done'
            threads = [threading.Thread(target=bump, args=(index,), daemon=True) for index in range(8)]
            for thread in threads:
                thread.start()
            time.sleep(0.3)
            place.gate.kill()
            place.gate.wait()
            for thread in threads:
                thread.join(20)
            assert open_one.is_ended(2) and os.path.exists(place.path)
            place.open_gate()
            program = place.talk()
            wait_until(lambda: program.ask('do other read').startswith('total 0'), 'that the open one is undone')
            found = value_of(program, 'n')
            assert sum(told) <= found <= sum(told) + 8 * (turn + 1), (told, found)
        place.end_gate()
    return '%d kept' % sum(told)


def two_gates():
    """One gate has a socket: of ten that begin at once one is left, and a later one ends with status 4. Nobody's file is removed."""
    with Place(is_gated=False) as place:
        gates = [place.run([GATE, place.folder, place.path], True) for _ in range(10)]
        wait_until(lambda: sum(gate.poll() is None for gate in gates) == 1, 'that one is left')
        expect(sorted(gate.poll() for gate in gates if gate.poll() is not None), [4] * 9, 'statuses')
        place.gate = next(gate for gate in gates if gate.poll() is None)
        assert 'kept' in place.talk().ask('keep n bump 1')
        late = subprocess.run([GATE, place.folder, place.path], stderr=subprocess.PIPE, text=True, timeout=20, check=False)
        expect((late.returncode, late.stderr), (4, 'boost-gate: another run has %s\n' % place.path), 'a later one')
        os.unlink(place.path)
        place.open_gate()
        first = next(gate for gate in gates if gate.poll() is None)
        first.send_signal(signal.SIGTERM)
        expect(first.wait(20), 0, 'status of the first')
        assert 'kept' in place.talk().ask('keep n bump 1'), 'the socket of the second was removed'
        place.end_gate()
        with open(place.path, 'w', encoding='utf-8') as file:
            file.write('precious')
        late = subprocess.run([GATE, place.folder, place.path], stderr=subprocess.PIPE, text=True, timeout=20, check=False)
        expect(late.returncode, 4, 'status where a file is in the way')
        with open(place.path, encoding='utf-8') as file:
            expect(file.read(), 'precious', 'the file')
    return 'one of ten'


def a_gate_that_is_told_to_end():
    """What was asked is answered before it ends, and what is open is undone."""
    with Place() as place:
        programs, open_one = [place.talk() for _ in range(20)], place.talk()
        assert open_one.ask('begin').startswith('begun') and open_one.ask('call other bump 100') == 'done'
        assert all(program.ask('begin').startswith('begun') for program in programs)
        assert all(program.ask('abort') == 'aborted' for program in programs)
        os.kill(place.server.pid, signal.SIGSTOP)
        for program in programs:
            program.send('keep n bump 1\n')
        time.sleep(0.3)
        place.gate.send_signal(signal.SIGTERM)
        time.sleep(0.3)
        assert place.gate.poll() is None and not os.path.exists(place.path)
        os.kill(place.server.pid, signal.SIGCONT)
        told = [program.line() for program in programs]
        assert all(line.startswith('done; kept') for line in told), told
        assert all(program.is_ended(5) for program in programs + [open_one])
        expect(place.gate.wait(10), 0, 'status')
        place.open_gate()
        program = place.talk()
        expect([value_of(program, 'n'), value_of(program, 'other')], [20, 0], 'n and other')
        place.end_gate()
    return '20 answers'


# ---- the client in Python, and the unit


def threads_of_a_store():
    """A store in Python at a gate is one for any number of threads, and comes back by itself where the gate or the server does."""
    with Place('--seats', '8') as place, boost.join('unix:' + place.path, timeout=20) as store:
        told, gone, stop = [0] * 100, [0] * 100, threading.Event()

        def work(index):
            while not stop.is_set():
                try:
                    store.keep(lambda t: t.call('n', 'bump', 1))
                    told[index] += 1
                except boost.Gone:
                    gone[index] += 1
                    time.sleep(0.05)
        threads = [threading.Thread(target=work, args=(index,), daemon=True) for index in range(100)]
        for thread in threads:
            thread.start()
        for turn in range(4):
            time.sleep(0.4)
            if turn % 2:
                place.server.kill()
                place.server.wait()
                place.serve()
            else:
                place.gate.kill()
                place.gate.wait()
                place.open_gate()
        time.sleep(0.4)
        stop.set()
        for thread in threads:
            thread.join(30)
        found = store.do(('n', 'read'))[0]
        assert sum(told) > 100 and sum(told) <= found <= sum(told) + sum(gone), (sum(told), found, sum(gone))
        with store.transaction(keep=False) as t:
            t.call('n', 'bump', 1)
        store.wait()
        expect(store.status().live, 0, 'live transactions')
        store.close()
        place.end_gate()
    return '%d told, %d there, %d times gone' % (sum(told), found, sum(gone))


def tasks_that_are_cancelled():
    """Tasks of asyncio that are cancelled at any moment leave nothing open, and no other task is given their answer."""
    random.seed(5)
    with Place('--seats', '4') as place:
        async def bump(store, counts):
            async with store.transaction() as t:
                await t.call('n', 'bump', 1)
                counts['asked'] += 1
                assert await t.call('s', 'contains', 1) is False
            counts['told'] += 1
            assert (await store.do(('m', 'get', 7)))[0] is None

        async def main():
            counts = {'asked': 0, 'told': 0}
            async with boost.aio.join('unix:' + place.path, timeout=20) as store:
                for turn in range(20):
                    tasks = [asyncio.ensure_future(bump(store, counts)) for _ in range(100)]
                    for task in random.sample(tasks, 50):
                        await asyncio.sleep(random.choice((0, 0, 0.0001, 0.001)))
                        task.cancel()
                    for told in await asyncio.gather(*tasks, return_exceptions=True):
                        assert told is None or isinstance(told, asyncio.CancelledError), repr(told)
                found = (await store.do(('n', 'read')))[0]
                assert counts['told'] <= found <= counts['asked'], (counts, found)
                expect((await store.status()).live, 0, 'live transactions')
            return counts['told'], found
        told, found = asyncio.run(main())
        place.end_gate()
    return '%d told, %d there' % (told, found)


C_PROGRAM = r"""
#include "boost.h"
#include <errno.h>
#include <stdio.h>
#include <stdlib.h>
#include <string.h>
int main(int count, char **words)
{
    struct boost *store = boost_join_within(words[1], 2);
    if (store == NULL) {
        printf("none: %s", errno == EPIPE ? "EPIPE" : errno == ENOENT ? "ENOENT" : errno == ETIMEDOUT ? "ETIMEDOUT" : "another");
        return 0;
    }
    for (int i = 0; i < atoi(words[2]); i++) {
        const char *answer = boost_try(store, 5, "keep n bump %d", 1);
        if (answer == NULL || strncmp(answer, "done; kept ", 11) != 0)
            return printf("wrong: %s", answer == NULL ? "gone" : answer) > 0;
    }
    printf("%s", strncmp(boost_ask(store, "do m get %d", count), "nothing; place ", 15) == 0 ? "kept" : "another answer");
    return boost_close(store);
}
"""


def the_client_in_c():
    """`unix:PATH` is a gate for the client in C too, and what is wrong is told by errno."""
    with Place('--patience', '3') as place:
        source, built = (os.path.join(place.room.name, name) for name in ('program.c', 'program'))
        with open(source, 'w', encoding='utf-8') as file:
            file.write(C_PROGRAM)
        client = os.path.join(TOP, 'clients', 'c')
        subprocess.run(['cc', '-Wall', '-Wextra', '-Werror', '-g', '-fsanitize=address,undefined', '-I', client, '-o', built, source,
                        os.path.join(client, 'boost.c')], check=True)

        def run(path, number):
            ran = subprocess.run([built, path, str(number)], stdout=subprocess.PIPE, text=True, timeout=60, check=False)
            return ran.stdout if ran.returncode == 0 else 'status %d, %s' % (ran.returncode, ran.stdout)
        told = in_threads(20, lambda _: run('unix:' + place.path, 50))
        expect(told, ['kept'] * 20, 'programs')
        expect(value_of(place.talk(), 'n'), 1000, 'n')
        place.server.send_signal(signal.SIGSTOP)
        place.gate.kill()
        place.gate.wait()
        told = [run('unix:' + place.path + end, 1) for end in ('', '-none')]
        place.open_gate()
        told.append(run('unix:' + place.path, 1))
        place.server.send_signal(signal.SIGCONT)
        place.end_server()
        place.end_gate()
        place.options = ('--patience', '1')
        place.open_gate()
        told.append(run('unix:' + place.path, 1))
        expect(told, ['none: another', 'none: ENOENT', 'none: ETIMEDOUT', 'none: EPIPE'], 'where none serves')
        place.end_gate()
    return ', '.join(told)


def the_unit():
    """The commands of the unit serve who is of the group, as systemd runs them."""
    with open(os.path.join(TOP, 'contrib', 'boost-gate.service'), encoding='utf-8') as file:
        lines = dict(line.strip().split('=', 1) for line in file if line.startswith('Exec'))
    with Place(is_gated=False) as place:
        own = grp.getgrgid(os.getegid()).gr_name
        start, post = (lines[name].replace('/run/boost-gate/socket', place.path).replace('/run/boost ', place.folder + ' ')
                       for name in ('ExecStart', 'ExecStartPost'))
        words = start.replace('/usr/local/bin/boost-gate', GATE).replace('--group boost', '--group ' + own).split()
        place.gate = place.run(words, True)
        script = post.partition(" -c '")[2].rstrip("'").replace('$$', '$')
        assert subprocess.run(['sh', '-c', script], env={**os.environ, 'MAINPID': str(place.gate.pid)}, timeout=20).returncode == 0
        assert 'kept' in place.talk().ask('keep n bump 1')
        expect(oct(stat.S_IMODE(os.stat(place.path).st_mode)), '0o660', 'mode')
        place.end_gate()
        ended = subprocess.run(['sh', '-c', script], env={**os.environ, 'MAINPID': str(place.gate.pid)}, timeout=20, check=False,
                               stderr=subprocess.DEVNULL)
        expect(ended.returncode, 1, 'status of the wait where the gate has ended')
    return 'served'


# ---- access, files


def modes_of_access():
    """The owner may connect, or the group where one is named, and nobody else; and there is no moment at which it is not so."""
    with Place(is_gated=False) as place:
        place.open_gate()
        expect(oct(stat.S_IMODE(os.stat(place.path).st_mode)), '0o600', 'mode')
        place.end_gate()
        late = subprocess.run([GATE, place.folder, place.path, '--group', 'no-such-group'], stderr=subprocess.PIPE, text=True,
                              timeout=20, check=False)
        assert late.returncode == 4 and 'no-such-group' in late.stderr and not os.path.exists(place.path), late
        if os.geteuid() != 0 or not shutil.which('setpriv'):
            return 'mode 600; the group was not tried: it wants root and setpriv'
        os.chmod(place.room.name, 0o755)
        member, stranger, group = 61235, 61236, 'daemon'
        number = grp.getgrnam(group).gr_gid
        os.umask(0)
        place.open_gate('--group', group)
        found = os.stat(place.path)
        expect((oct(stat.S_IMODE(found.st_mode)), found.st_gid), ('0o660', number), 'mode and group')
        told = {}
        words = "import socket; s = socket.socket(socket.AF_UNIX); s.settimeout(5); s.connect('%s'); print(s.recv(99))" % place.path
        for user, groups in ((member, number), (stranger, stranger)):
            ran = subprocess.run(['setpriv', '--reuid=%d' % user, '--regid=%d' % user, '--groups=%d' % groups, '/usr/bin/python3', '-c',
                                  words], stdout=subprocess.PIPE, stderr=subprocess.PIPE, text=True, timeout=30, check=False)
            told[user] = 'hello' in ran.stdout, 'PermissionError' in ran.stderr
        expect(told, {member: (True, False), stranger: (False, True)}, 'who is served')
        place.end_gate()
    return 'mode 600; 660 with the group, whose member is served, and a stranger is not'


def a_gate_of_another_user():
    """A gate whose user is of the group of the server's folder is served as any client there; one of no such user says why not."""
    if os.geteuid() != 0 or not shutil.which('setpriv'):
        return 'not tried: it wants root and setpriv'
    server, member, stranger = 61234, 61235, 61236
    with Place(is_gated=False) as place:
        place.end_server()
        for path, mode in ((place.room.name, 0o755), (place.folder, 0o2770), (place.door, 0o660), (place.disk, 0o600)):
            os.chown(path, server, server)
            os.chmod(path, mode)
        program, gate, socket_room = (os.path.join(place.room.name, name) for name in ('boost', 'gate', 'sockets'))
        shutil.copy(PROGRAM, program)
        shutil.copy(GATE, gate)
        os.mkdir(socket_room)
        os.chmod(socket_room, 0o777)
        def user(number, *groups):
            return ['setpriv', '--reuid=%d' % number, '--regid=%d' % number, '--groups=%s' % ','.join(map(str, groups or (number,)))]
        place.server = place.run([*user(server), program, 'listen', place.disk, place.folder])
        wait_until(lambda: has_reader(place.door), 'a server')
        place.path = os.path.join(socket_room, 'one')
        place.gate = place.run([*user(member, server), gate, place.folder, place.path], True)
        wait_until(lambda: is_open(place.path), 'a gate')
        assert 'kept' in place.talk().ask('keep n bump 1')
        place.end_gate()
        place.path = os.path.join(socket_room, 'other')
        place.gate = place.run([*user(stranger), gate, place.folder, place.path, '--patience', '1'], True)
        wait_until(lambda: is_open(place.path), 'a gate')
        assert place.talk(is_greeted=False).is_ended(5)
        said = place.end_gate()
        assert 'Permission denied' in said, said
    return said.splitlines()[0]


def the_port():
    """The port is one of the loopback alone; a web page that sends what stands in no line is let go, with nothing done."""
    with socket.socket() as free:
        free.bind(('127.0.0.1', 0))
        port = free.getsockname()[1]
    with Place('--port', str(port)) as place:
        program = place.talk(port=port)
        assert 'kept' in program.ask('keep n bump 1')
        with open('/proc/%d/net/tcp' % place.gate.pid, encoding='utf-8') as file:
            local = [line.split()[1] for line in file if line.split()[3] == '0A' and line.split()[1].endswith(':%04X' % port)]
        expect(local, ['0100007F:%04X' % port], 'addresses')
        web = place.talk(port=port)
        web.send('POST / HTTP/1.1\r\nHost: 127.0.0.1\r\nContent-Type: text/plain\r\n\r\nkeep n bump 100\n')
        expect([web.line(), web.line()], ['error NotUnderstood', ''], 'what a web page is told')
        expect(value_of(program, 'n'), 1, 'n')
        late = subprocess.run([GATE, place.folder, place.path + '2', '--port', str(port)], stderr=subprocess.PIPE, text=True, timeout=20,
                              check=False)
        assert late.returncode == 4 and not os.path.exists(place.path + '2'), late
        assert all(place.talk(port=port).ask('kept') == 'no ticket' for _ in range(3))
        program.send('begin\ncall n bump 5\n')
        program.socket.shutdown(socket.SHUT_WR)
        assert program.line().startswith('begun') and [program.line(), program.line()] == ['done', '']
        place.end_gate()
    return '127.0.0.1 alone'


def closed_streams():
    """Closed standard streams become nothing that is written to."""
    with Place(is_gated=False) as place:
        for closed in ((0,), (1,), (2,), (0, 1, 2)):
            words = 'exec "$@" %s' % ' '.join('%d>&-' % number for number in closed)
            place.gate = subprocess.Popen(['sh', '-c', words, 'sh', GATE, place.folder, place.path], stdin=subprocess.DEVNULL)
            wait_until(lambda: is_open(place.path), 'a gate')
            assert 'kept' in place.talk().ask('keep n bump 1')
            found = [os.readlink('/proc/%d/fd/%d' % (place.gate.pid, number)) for number in closed]
            expect(found, ['/dev/null'] * len(closed), 'closed streams')
            place.gate.send_signal(signal.SIGTERM)
            expect(place.gate.wait(20), 0, 'status')
    return '/dev/null'


def few_files():
    """Where the system gives fewer open files the gate says how many programs may be joined, and the others wait."""
    with Place('--seats', '4', is_gated=False) as place:
        hard = resource.getrlimit(resource.RLIMIT_NOFILE)[1]
        place.open_gate(preexec_fn=lambda: resource.setrlimit(resource.RLIMIT_NOFILE, (64, 64)))
        programs = [place.talk() for _ in range(32)]
        more = place.talk(is_greeted=False)
        expect(more.line(0.5), None, 'one more')
        assert all('kept' in program.ask('keep n bump 1') for program in programs)
        programs.pop().close()
        expect(more.line(), HELLO, 'hello')
        said = place.end_gate()
        assert '32 programs' in said, said
        place.open_gate(preexec_fn=lambda: resource.setrlimit(resource.RLIMIT_NOFILE, (64, hard)))
        expect(place.end_gate(), '', 'what is said where the limit may be raised')
    return said.strip()


def nothing_grows():
    """Over 20,000 transactions neither memory nor open files grow."""
    with Place('--seats', '6', gate=QUICK) as place:
        def work(number):
            def run(index):
                program = place.talk()
                for turn in range(number):
                    if turn % 50 == 49:
                        program.close()
                        program = place.talk()
                    program.send('begin\ncall n bump 1\ncommit\n')
                    told = [program.line() for _ in range(3)]
                    assert told[2].startswith('place '), told
                program.close()
            in_threads(10, run)
        work(300)
        before = memory_of(place.gate.pid)
        work(2000)
        after = memory_of(place.gate.pid)
        assert after[0] - before[0] < 512 and after[1] <= before[1] + 12, (before, after)
        expect(value_of(place.talk(), 'n'), 23000, 'n')
    return '%d KiB and %d files, and then %d and %d' % (before + after)


def noise():
    """Bytes of whatever kind, in whatever pieces, from programs that come and go, break nothing."""
    random.seed(3)
    parts = [b'begin\n', b'call n bump 1\n', b'commit\n', b'abort\n', b'keep\n', b'do n bump 1\n', b'wait\n', b'kept\n', b'bye\n', b'\0',
             b'\n', b'\r\n', b'# x\n', b'x' * 5000, b'make set z\n', b'status\n', b'do m get 1\n', b'call s pick\n', bytes(range(256))]
    with Place('--seats', '3', '--idle', '1') as place:
        def work(_):
            for _ in range(60):
                program = place.talk(is_greeted=False)
                with contextlib.suppress(OSError):
                    for _ in range(random.randrange(40)):
                        program.send(random.choice(parts)[:random.choice((9999, 9999, 3))])
                        if random.random() < 0.3:
                            program.socket.settimeout(0.05)
                            program.socket.recv(random.randrange(1, 300))
                    if random.random() < 0.3:
                        program.socket.shutdown(socket.SHUT_WR)
                        while program.socket.recv(4096):
                            pass
                program.close()
        in_threads(12, work)
        program = place.talk()
        wait_until(lambda: ' live 0;' in program.ask('status'), 'that nothing is open', 10)
        assert 'kept' in program.ask('keep other bump 1')
        place.end_gate()
    return '720 programs'


ATTACKS = [
    the_same_answers, lines_in_pieces, long_lines, all_at_once, commits_of_one_program, nobody_is_given_anothers,
    a_thousand_programs, in_their_turn, finished_by_a_line, none_is_passed_over, who_goes_waits_no_more, killed_in_a_transaction, deaf_programs,
    a_commit_behind_one_that_is_deaf, slow_readers, idle_programs, idle_at_the_server, none_keeps_it_busy,
    a_server_that_is_killed, a_commit_that_is_not_kept, a_failed_disk_is_told, no_server, a_server_with_no_room,
    seats_that_the_server_lets_go, seats_that_nobody_wants, a_gate_that_is_killed, two_gates, a_gate_that_is_told_to_end,
    the_client_in_c, threads_of_a_store, tasks_that_are_cancelled, the_unit, modes_of_access, a_gate_of_another_user, the_port,
    closed_streams, few_files, nothing_grows, noise]

# Gates that are wrong: the attack that finds it, the file, what stands there, and what is put into its place.
WRONG = [
    (the_same_answers, 'lines.c', "text[line->size - 1] == '\\r'", "text[line->size - 1] == '\\t'"),
    (the_same_answers, 'lines.c', 'is_apart || own != NULL))', 'is_apart))'),
    (lines_in_pieces, 'programs.c', '        program->is_over = 1;', '        let_go(program);'),
    (long_lines, 'lines.c', 'is_skipping |= size > LONGEST', 'is_skipping |= 0'),
    (all_at_once, 'lines.c', 'return 0;\n        ask(program->seat', 'return program->is_waiting;\n        ask(program->seat'),
    (commits_of_one_program, 'lines.c', 'program->asked > 0 && (program->is_apart ||', 'program->asked > 0 && (0 ||'),
    (commits_of_one_program, 'lines.c', 'ask(program->last, program', 'ask(TAILQ_FIRST(&gate.resting), program'),
    (nobody_is_given_anothers, 'lines.c', 'program->asked == 0 && !program->seat->is_open', 'program->asked == 0'),
    (nobody_is_given_anothers, 'seats.c', "if (program->is_apart)\n            answer", "if (0)\n            answer"),
    (a_thousand_programs, 'gate.h', 'PROGRAMS = 1024', 'PROGRAMS = 1000'),
    (in_their_turn, 'lines.c', 'TAILQ_INSERT_TAIL(&gate.waiting', 'TAILQ_INSERT_HEAD(&gate.waiting'),
    (in_their_turn, 'seats.c', '    if (seat->state != SERVING || seat->holder != NULL', '    if (seat->state != SERVING'),
    (finished_by_a_line, 'seats.c', '(has_calls && !is_of_line)', '(has_calls && !is_refused)'),
    (finished_by_a_line, 'seats.c', 'int is_of_line = begins(head, "error ")', 'int is_of_line = 0'),
    (none_is_passed_over, 'lines.c', 'if (is_through(program) && !TAILQ_EMPTY(&gate.waiting))', 'if (0)'),
    (who_goes_waits_no_more, 'programs.c', 'events & (EPOLLHUP | EPOLLERR)', 'events & EPOLLERR'),
    (killed_in_a_transaction, 'seats.c', '} else if (seat->is_open) {', '} else if (0) {'),
    (deaf_programs, 'seats.c', 'watch_for(&seat->from, is_heard ? EPOLLIN : 0);', 'watch_for(&seat->from, EPOLLIN + 0 * is_heard);'),
    (deaf_programs, 'programs.c', 'gate.now - program->took > deaf', 'gate.now - program->took > 9 * deaf'),
    (a_commit_behind_one_that_is_deaf, 'seats.c', '<= ANSWERS_MOST && is_shared(seat)', '<= ANSWERS_MOST && 0 * is_shared(seat)'),
    (slow_readers, 'programs.c', 'drop(&program->answers, (size_t)size)', 'drop(&program->answers, held(&program->answers))'),
    (idle_programs, 'programs.c', 'gate.now - program->spoke > gate.idle', '0'),
    (idle_programs, 'programs.c', 'program->was_idle = 1;', ''),
    (idle_at_the_server, 'seats.c', 'return asked->program != seat->holder', 'return 0'),
    (none_keeps_it_busy, 'lines.c', '    if (program->is_finishing)\n        return;', '    if (!program->is_greeted)\n        return;'),
    (none_keeps_it_busy, 'programs.c', '!program->is_over && held(&program->lines) < LINES_HELD', '!program->is_over'),
    (a_server_that_is_killed, 'seats.c', '        finish(holder);', ''),
    (a_server_that_is_killed, 'seats.c', '        if (program->number <= seat->kept)', '        if (0)'),
    (a_commit_that_is_not_kept, 'seats.c', '            finish(program);\n        program->last', '            ;\n        program->last'),
    (a_failed_disk_is_told, 'seats.c', 'if (begins(seat->head, "refused 23 "))', 'if (0)'),
    (no_server, 'programs.c', 'if (number_of(SERVING) > 0)', ''),
    (a_server_with_no_room, 'programs.c', 'number_of(SERVING) > 0)\n        greet', 'number_of(COMING) > 0)\n        greet'),
    (seats_that_nobody_wants, 'seats.c', 'number > SEATS_KEPT', '0'),
    (a_gate_that_is_killed, 'boost-gate.c', '    if (is_dead)\n        unlink', '    if (0)\n        unlink'),
    (two_gates, 'boost-gate.c', 'int is_dead = ', 'int is_dead = 1 || '),
    (two_gates, 'boost-gate.c', 'found.st_ino == gate.inode', '1'),
    (a_gate_that_is_told_to_end, 'boost-gate.c', 'if (program->asked > 0 ||', 'if (0 &&'),
    (modes_of_access, 'boost-gate.c', 'umask(0177)', 'umask(0)'),
    (the_port, 'boost-gate.c', 'INADDR_LOOPBACK', 'INADDR_ANY'),
    (the_port, 'lines.c', '|| (verb == OTHER && program->is_on_port))\n        finish', ')\n        finish'),
    (closed_streams, 'boost-gate.c', '    open_streams();', '    if (0)\n        open_streams();'),
    (few_files, 'boost-gate.c', '(int)(files.rlim_cur - others) : PROGRAMS', 'PROGRAMS : PROGRAMS'),
    (nothing_grows, 'seats.c', '    free(asked);\n    settle(seat);', '    settle(seat);'),
    (noise, 'programs.c', 'asked->program = NULL;', ';'),
]


# ---- the run


def attempt(attack, say):
    os.setsid()
    try:
        say.send((True, attack()))
    except BaseException as error:                         # whatever it is, it is told
        line = traceback.extract_tb(error.__traceback__)[1]
        say.send((False, '%s: %s, in line %d: %s' % (type(error).__name__, error, line.lineno, line.line)))


def run(attack, seconds=SECONDS):
    """Whether an attack found nothing, and what it says, in a process of its own."""
    hear, say = multiprocessing.Pipe(False)
    process = multiprocessing.Process(target=attempt, args=(attack, say))
    process.start()
    told = hear.recv() if hear.poll(seconds) else (False, 'not within %d seconds' % seconds)
    with contextlib.suppress(ProcessLookupError):          # with all that it has begun
        os.killpg(process.pid, signal.SIGKILL)
    process.join()
    return told


def wrong_gate(folder, wrong):
    """The sources of a wrong gate, in a folder of their own."""
    _, name, old, new = wrong
    sources = os.path.join(folder, 'sources-%d' % next(NUMBERS))
    shutil.copytree(SOURCES, sources, ignore=shutil.ignore_patterns('boost-gate'))
    path = os.path.join(sources, name)
    with open(path, encoding='utf-8') as file:
        text = file.read()
    assert text.count(old) == 1, '%d times in %s: %s' % (text.count(old), name, old)
    with open(path, 'w', encoding='utf-8') as file:
        file.write(text.replace(old, new))
    return sources


def try_wrong_gates(folder, wanted):
    """How many of the wrong gates are not found by their attack."""
    global GATE, QUICK
    missed = 0
    for wrong in WRONG:
        attack, name, old, _ = wrong
        if wanted and attack.__name__ not in wanted:
            continue
        sources = wrong_gate(folder, wrong)
        GATE, QUICK = build(folder, STRICT + ['-w'], sources), build(folder, PLAIN + ['-w'], sources)
        is_well, told = run(attack, 30)
        missed += is_well
        print('%s: %s: %s: %s' % ('NOT FOUND' if is_well else 'found', name, old.strip().splitlines()[0], str(told)[:200]), flush=True)
    return missed


def main(words):
    global PROGRAM, GATE, QUICK
    is_wrong, words = words[:1] == ['--wrong'], [word for word in words if word != '--wrong']
    names = [each.__name__ for each in ATTACKS]
    wanted = [word for word in words if word in names]
    others = [word for word in words if word not in names]
    named = os.path.abspath(others[0]) if others else BOOST
    assert os.path.exists(named), 'no program and no attack: %s' % named
    which = subprocess.run([named, 'which'], stdout=subprocess.PIPE, text=True, check=True).stdout.strip() if named == BOOST else named
    PROGRAM = which
    failed = 0
    with tempfile.TemporaryDirectory() as folder:
        tempfile.tempdir = folder                          # so that nothing is left of an attack that is killed
        os.chmod(folder, 0o755)                            # for other users, whose gates are tried too
        if is_wrong:
            return 1 if try_wrong_gates(folder, wanted) else 0
        GATE = os.environ.get('GATE') or build(folder, STRICT)
        QUICK = os.environ.get('GATE') or build(folder, PLAIN)
        for attack in ATTACKS:
            if wanted and attack.__name__ not in wanted:
                continue
            began = time.monotonic()
            is_well, told = run(attack)
            failed += not is_well
            print('%s: %s%s (%.1f s)' % (attack.__name__, '' if is_well else 'FAILED: ', told, time.monotonic() - began), flush=True)
    return 1 if failed else 0


if __name__ == '__main__':
    sys.exit(main(sys.argv[1:]))
