#!/usr/bin/env python3
"""door_attacks.py [PROGRAM] [ATTACK..]: what `boost listen` is to withstand, each attack a function below.

The program is crates/boost_main/out/boost_main, proved and built, or the one that is not proved, where there is no other, or `./boost`
where none was built, unless one is named. It prints a line for each attack, and ends with status 1 where one succeeds. It is no part of the gate.
"""
import os
import resource
import select
import signal
import subprocess
import sys
import tempfile
import time

TOP = os.path.dirname(os.path.dirname(os.path.realpath(__file__)))
OUT = os.path.join(TOP, 'crates/boost_main/out')
AREA = 1 << 18
# What is told where the disk takes no more writes.
LOST = 'refused 23 Lost: Fault, File too large (os error 27)'
# A server ends within so many seconds once it is told to, also where it has run-time checks.
SOON = 8


def program():
    if len(sys.argv) > 1:
        return os.path.abspath(sys.argv[1])
    found = [path for path in (os.path.join(OUT, name) for name in ('boost_main', 'unproved')) if os.path.exists(path)]
    return [*found, os.path.join(TOP, 'boost')][0]


PROGRAM = program()


class Client:
    """A client at a door, or nothing but its FIFOs."""
    count = 0

    def __init__(self, place, pipelined=b'', reads=True):
        Client.count += 1
        self.word = f'attack-{os.getpid()}-{Client.count}'
        self.paths = [os.path.join(place.folder, self.word + end) for end in ('.to', '.from')]
        for path in self.paths:
            os.mkfifo(path, 0o600)
        both = [os.open(path, os.O_RDWR) for path in self.paths]
        self.to = os.open(self.paths[0], os.O_WRONLY)
        self.from_ = os.open(self.paths[1], os.O_RDONLY | os.O_NONBLOCK)
        self.text = b''
        self.both = both
        place.say(b'hello %s\n' % self.word.encode())
        if reads:
            self.meet(pipelined)

    def meet(self, pipelined=b''):
        told = self.line(20)
        assert told == 'hello boost 1', told
        for number in self.both:
            os.close(number)
        self.both = []
        if pipelined:
            os.write(self.to, pipelined)

    def ask(self, line, seconds=20):
        os.write(self.to, line.encode() + b'\n')
        return self.line(seconds)

    def line(self, seconds):
        """The next line; an empty text at the end, and none where nothing comes in time."""
        end = time.monotonic() + seconds
        while b'\n' not in self.text:
            left = end - time.monotonic()
            if left <= 0 or not select.select([self.from_], [], [], left)[0]:
                return None
            more = os.read(self.from_, 65536)
            if not more:
                return ''
            self.text += more
        line, self.text = self.text.split(b'\n', 1)
        return line.decode()

    def is_ended(self, seconds):
        """Whether the end comes, behind whatever lines."""
        end = time.monotonic() + seconds
        while time.monotonic() < end:
            if self.line(end - time.monotonic()) == '':
                return True
        return False

    def close(self):
        for number in (self.to, self.from_, *self.both):
            os.close(number)


class Place:
    """A folder with a store and a door, and a server there."""

    def __init__(self, *options, area=AREA, serves=True, **how):
        self.room = tempfile.TemporaryDirectory()
        self.folder = os.path.join(self.room.name, 'run')
        os.mkdir(self.folder, 0o700)
        os.mkfifo(os.path.join(self.folder, 'door'), 0o600)
        self.disk = self.format('disk', area)
        self.server = self.serve(self.disk, *options, **how) if serves else None

    def format(self, name, area=AREA):
        disk = os.path.join(self.room.name, name)
        subprocess.run([PROGRAM, 'format', disk, '--area', str(area)], check=True, stdout=subprocess.DEVNULL)
        return disk

    def serve(self, disk, *options, **how):
        how = {'stderr': subprocess.PIPE, 'restore_signals': False, **how}
        server = subprocess.Popen([PROGRAM, 'listen', disk, self.folder, *options], stdin=subprocess.DEVNULL, **how)
        self.wait_for_door()
        return server

    def wait_for_door(self):
        for _ in range(400):
            try:
                os.close(os.open(os.path.join(self.folder, 'door'), os.O_WRONLY | os.O_NONBLOCK))
                return
            except OSError:
                time.sleep(0.05)

    def say(self, text):
        door = os.open(os.path.join(self.folder, 'door'), os.O_WRONLY | os.O_NONBLOCK)
        try:
            os.write(door, text)
        finally:
            os.close(door)

    def ends(self, seconds=SOON):
        """The status, where the server ends in time."""
        try:
            return self.server.wait(seconds)
        except subprocess.TimeoutExpired:
            return None

    def told(self):
        return self.server.stderr.read().decode()

    def __enter__(self):
        return self

    def __exit__(self, *error):
        if self.server and self.server.poll() is None:
            self.server.kill()
            self.server.wait()
        if self.server and self.server.stderr:
            self.server.stderr.close()
        self.room.cleanup()


def fail_disk(server):
    """The disk takes no more writes: they fail as too large, since the signal for that is ignored."""
    resource.prlimit(server.pid, resource.RLIMIT_FSIZE, (0, 0))


def expect(found, wanted, what):
    assert found == wanted, f'{what}: {found!r} in place of {wanted!r}'


# ---- a disk that fails


def a_failed_disk_ends_the_server():
    """Where nobody waits, the server ends by itself, with status 1 and the cause."""
    with Place() as place:
        client = Client(place)
        client.ask('make counter hits')
        client.ask('wait')
        fail_disk(place.server)
        place.say(b'hello no')                                   # a piece of a line lies at the door
        client.ask('do hits bump 1')
        expect(place.ends(), 1, 'status')
        assert 'too large' in place.told()
        assert client.is_ended(2)
    return 'status 1'


def a_failed_disk_is_told():
    """Once keeping has failed no place is told."""
    lines = ('keep', 'commit', 'kept', 'do hits bump 1', 'keep hits bump 1', 'make counter c', 'status')
    with Place() as place:
        clients = [Client(place) for _ in lines]
        clients[0].ask('make counter hits')
        clients[0].ask('wait')
        for client in clients[:2]:
            client.ask('begin')
            client.ask('call hits bump 1')
        fail_disk(place.server)
        for client, line in zip(clients, lines):
            os.write(client.to, line.encode() + b'\n')
            if line == 'keep':
                expect(client.line(20), LOST, line)
                began = time.monotonic()
        told = [client.line(5) for client in clients[1:]]
        expect(told[:-1], [LOST] * 5, 'those behind it')
        assert told[-1].endswith('; failed'), told
        expect(place.ends(), 1, 'status')
        took = time.monotonic() - began
        assert took < 1, took
    return f'the end in {took:.2f} s'


def a_failed_disk_over_pipes():
    """The same of a parent: also what it asks in one write with what fails."""
    place = Place(serves=False)
    with place:
        server = subprocess.Popen([PROGRAM, 'listen', place.disk], stdin=subprocess.PIPE, stdout=subprocess.PIPE,
                                  stderr=subprocess.PIPE, restore_signals=False, bufsize=0)
        place.server = server
        server.stdin.write(b'c1 make counter hits\nc1 wait\n')
        assert [server.stdout.readline() for _ in range(3)][2] == b'c1 kept\n'
        fail_disk(server)
        server.stdin.write(b'c1 do hits bump 1\n')
        expect(place.ends(), 1, 'status')
        left = server.stdout.read()
        assert b'kept' not in left
        server.stdin.close()
        server.stdout.close()
    return f'{left}'


def a_full_store_is_told():
    """What a client's open transaction makes too large is refused to that client, and what others do is kept."""
    with Place(area=65536) as place:
        client, other = Client(place), Client(place)
        client.ask('make map m')
        client.ask('make counter hits')
        client.ask('begin')
        lines = ''.join(f'call m put {n} {"ab" * 256}\n' for n in range(260))
        told = [client.ask(line) for line in lines.splitlines()]
        assert told[0] == 'nothing' and 'refused 18 Full' in told, told[-1]
        kept = other.ask('keep hits bump 1', 30)
        assert kept.startswith('done; kept '), kept
        expect(client.ask('abort', 30), 'aborted', 'abort')
    return f'{told.count("refused 18 Full")} calls'


# ---- the door


def a_second_server():
    """One server has a folder."""
    with Place() as place:
        other = subprocess.run([PROGRAM, 'listen', place.format('other'), place.folder], stdin=subprocess.DEVNULL,
                               stderr=subprocess.PIPE, timeout=30, check=False)
        expect(other.returncode, 4, 'status')
        expect(other.stderr.decode(), f'boost: another run has {place.folder}\n', 'text')
        expect(Client(place).ask('kept'), 'no ticket', 'the first server')
        place.say(b'end\n')
        expect(place.ends(), 0, 'status')
    return 'status 4'


def a_piece_of_a_line():
    """Who leaves a piece of a line at the door keeps neither a client nor the end from being heard."""
    with Place() as place:
        place.say(b'hello nobody')
        place.say(b'\n')
        place.say(b'nonsense')
        place.say(b'\nend\n')
        expect(place.ends(), 0, 'status')
    return 'status 0'


def standard_error_that_nobody_reads():
    """Hellos of nobody, whose notes nobody reads, hold up neither a client nor the end, nor that of a server whose disk fails."""
    for fails in (False, True):
        with Place() as place:
            for number in range(1500):
                place.say(b'hello %060d\n' % number)
                if number % 50 == 0:
                    time.sleep(0.05)
            client = Client(place)
            expect(client.ask('make counter hits'), 'place 1', 'a client')
            expect(client.ask('wait'), 'kept', 'a client')
            if fails:
                fail_disk(place.server)
                client.ask('do hits bump 1')
            else:
                place.say(b'end\n')
            expect(place.ends(), int(fails), 'status')
    return '3000 hellos'


def too_few_threads():
    """Where the system gives fewer threads than are wanted, the server says so and ends."""
    told = []
    for threads in (20, 40):
        with Place(serves=False) as place:
            os.chmod(place.room.name, 0o755)
            for path, mode in ((place.folder, 0o777), (os.path.join(place.folder, 'door'), 0o666), (place.disk, 0o666)):
                os.chmod(path, mode)
            words = ['prlimit', f'--nproc={threads}', 'setpriv', '--reuid', '12345', '--regid', '12345', '--clear-groups', PROGRAM]
            for folder in ([], [place.folder]):
                server = subprocess.Popen([*words, 'listen', place.disk, *folder], stdin=subprocess.PIPE, stdout=subprocess.DEVNULL,
                                          stderr=subprocess.PIPE)
                place.server = server
                expect(place.ends(30), 1, 'status')
                told.append(place.told())
                assert 'threads are wanted' in told[-1], told
                server.stdin.close()
                server.stderr.close()
            place.server = None
    return told[-1].strip()


def leftovers():
    """As a server starts the FIFOs of clients that lie there are removed, and no other file."""
    with Place(serves=False) as place:
        inside = lambda name: os.path.join(place.folder, name)  # noqa: E731
        for number in range(10):
            os.mkfifo(inside(f'dead-{number}.to'), 0o600)
            os.mkfifo(inside(f'dead-{number}.from'), 0o600)
        os.mkfifo(inside('Other.from'), 0o600)
        for name in ('plain.to', 'plain.from', 'notes'):
            open(inside(name), 'w', encoding='utf-8').close()
        place.server = place.serve(place.disk)
        client = Client(place)
        left = sorted(set(os.listdir(place.folder)))
        expect(left, ['Other.from', 'door', 'notes', 'plain.from', 'plain.to'], 'left')
        client.close()
        place.say(b'end\n')
        expect(place.ends(), 0, 'status')
    return '20 FIFOs'


def a_door_that_is_no_fifo():
    """A door that is a plain file is not written to."""
    with Place(serves=False) as place:
        door = os.path.join(place.folder, 'door')
        os.unlink(door)
        with open(door, 'w', encoding='utf-8') as file:
            file.write('mine')
        server = subprocess.run([PROGRAM, 'listen', place.disk, place.folder], stdin=subprocess.DEVNULL, stderr=subprocess.PIPE,
                                timeout=30, check=False)
        expect(server.returncode, 4, 'status')
        assert 'no FIFO' in server.stderr.decode(), server.stderr
        with open(door, encoding='utf-8') as file:
            expect(file.read(), 'mine', 'the file')
    return server.stderr.decode().strip().replace(place.folder, 'FOLDER')


# ---- clients that do not read, or say nothing


def go_deaf(client):
    """Asks for much, and reads nothing of it, until the server takes no more."""
    os.set_blocking(client.to, False)
    written, end = 0, time.monotonic() + 10
    while time.monotonic() < end:
        try:
            written += os.write(client.to, b'status\n' * 500)
        except BlockingIOError:
            if not select.select([], [client.to], [], 0.5)[1]:
                return written
    return written


def the_end_of_the_deaf():
    """A client that reads nothing does not keep the server from its end."""
    with Place() as place:
        deaf = Client(place)
        deaf.ask('make counter hits')
        go_deaf(deaf)
        place.say(b'end\n')
        expect(place.ends(), 0, 'status')
    return 'status 0'


def the_lock_of_the_deaf():
    """Under --idle what a client that reads nothing has open is taken back, and it finds a beginning of its answers, and the end."""
    with Place('--idle', '1') as place:
        deaf, other = Client(place), Client(place)
        deaf.ask('make counter hits')
        deaf.ask('begin')
        deaf.ask('call hits bump 1000')
        go_deaf(deaf)
        began = time.monotonic()
        told = None
        while time.monotonic() < began + 20:
            told = other.ask('do hits read')
            if told.startswith('total 0'):
                break
            time.sleep(0.1)
        assert told.startswith('total 0'), told
        took = time.monotonic() - began
        assert deaf.is_ended(SOON)
        place.say(b'end\n')
        expect(place.ends(), 0, 'status')
    return f'{took:.1f} s'


def sixty_four_that_say_nothing():
    """Under --idle clients with nothing open that are silent make room where another waits; and not where none does."""
    with Place('--idle', '1') as place:
        quiet = [Client(place) for _ in range(64)]
        time.sleep(4)
        assert all(client.ask('kept') == 'no ticket' for client in quiet)
        began = time.monotonic()
        other = Client(place)
        took = time.monotonic() - began
        expect(other.ask('kept'), 'no ticket', 'the 65th')
        gone = sum(client.is_ended(0.05) for client in quiet)
        assert gone == 1, gone
        place.say(b'end\n')
        expect(place.ends(), 0, 'status')
    return f'the 65th after {took:.1f} s'


# ---- lines


def too_long_lines():
    """Who sends a line that is too long is told so, in its turn."""
    with Place(serves=False) as place:
        lines = b'c2 make counter hits\nc2 do hits bump 1\nc2 ' + b'x' * 4093 + b'\nc2 do hits read\n' + b'y' * 5000 + b'\nc2 kept\r\r\nend\n'
        server = subprocess.run([PROGRAM, 'listen', place.disk], input=lines, stdout=subprocess.PIPE, timeout=60, check=True)
        told = server.stdout.decode().splitlines()
        expect([line for line in told if line[:2] == 'c2'],
               ['c2 place 1', 'c2 done; place 2', 'c2 error LineTooLong', 'c2 total 1; place 3',
                'c2 error NotUnderstood: kept\\r: no request, as make, do, keep, within, begin, call, commit, abort or status'], 'c2')
        assert '- error LineTooLong' in told
    return '6 lines'


ATTACKS = [a_failed_disk_ends_the_server, a_failed_disk_is_told, a_failed_disk_over_pipes, a_full_store_is_told, a_second_server,
           a_piece_of_a_line, standard_error_that_nobody_reads, too_few_threads, leftovers,
           a_door_that_is_no_fifo, the_end_of_the_deaf,
           the_lock_of_the_deaf, sixty_four_that_say_nothing, too_long_lines]


def main():
    signal.signal(signal.SIGXFSZ, signal.SIG_IGN)
    named = [attack for attack in ATTACKS if attack.__name__ in sys.argv[2:]] or ATTACKS
    failed = 0
    for attack in named:
        try:
            print(f'{attack.__name__}: {attack()}', flush=True)
        except (AssertionError, OSError, subprocess.SubprocessError) as error:
            failed += 1
            print(f'{attack.__name__}: SUCCEEDS: {type(error).__name__} {error}', flush=True)
    return 1 if failed else 0


if __name__ == '__main__':
    sys.exit(main())
