#!/usr/bin/env python3
"""mixed_workers.py KIND FOLDER NOTES SLOT TURN SECONDS SHIM [PLANT]: a worker of mixed_attacks.py, a process of its own.

It comes by the door of a folder and keeps transactions there for so many seconds, or until it is told to end (SIGTERM). What it is
about to ask for, and what it was told kept, it notes in a file that outlives it, a line each: a small letter is what was told kept,
its capital what was asked for.

    a ID    ID is in `done`, its amount in `sum`, a job of it in `jobs`, and the last one of its thread in `last`
    t ID    the job of ID is out of `jobs`, and ID in `taken`
    r ID    ID is out of `taken` and `done`, and its amount in `retired_sum`
    s -     one is spent of `quota`, and `spent` is one more
    d ID    ID is drawn of `ids`, and has an owner
    e ID    ID is released, and has none
    F TEXT  how an attempt to fill the area ended
    X NAME  a trick that is played
    ! TEXT  something that must not be

KIND is threads, process, c, raw or fill. A call that takes longer than it may ends the worker with status 99.
"""
import contextlib
import faulthandler
import itertools
import os
import random
import signal
import subprocess
import sys
import threading
import time

TOP = os.path.dirname(os.path.dirname(os.path.realpath(__file__)))
sys.dont_write_bytecode = True
sys.path[:0] = [os.path.join(TOP, 'clients', 'python'), os.path.join(TOP, 'tools')]
import boost  # noqa: E402
from boost.lines import reply_of, words_of  # noqa: E402
from door_attacks import Client, go_deaf  # noqa: E402

# How long an answer is waited for, a lock that is in the way, and an answer of a client that waits longer than it may.
TIMEOUT, PATIENCE, SLACK = 5.0, 2.0, 4.0
# A client that says nothing for so long is told `error Idle` where its server has `--idle 2`.
SILENCE = 7.0
TICK = 0.1
HUNG, WRONG = 99, 98
THREADS = 3
# Refusals that a transaction may have and that take it back.
PASSING = ('Full', 'Backlog', 'TooManyLive', 'NoSuchTxn')
SPENT_AT, FILLED_BY, CUSTOMERS = 10, 30, 8


def amount_of(number):
    return number % 97 + 1


class Wrong(Exception):
    """Something that must not be."""


class Notes:
    """What was asked for and told, a line each, in a file that outlives this process."""

    def __init__(self, path):
        self.file = os.open(path, os.O_WRONLY | os.O_APPEND | os.O_CREAT, 0o600)

    def note(self, letter, words='-'):
        os.write(self.file, f'{letter} {words}\n'.encode())


class Watch:
    """Sees that no call takes longer than it may, by ticks of this process, which do not come while it is stopped."""

    def __init__(self, notes):
        self.notes, self.ticks, self.calls = notes, 0, {}
        threading.Thread(target=self.look, daemon=True).start()

    @contextlib.contextmanager
    def call(self, seconds, what):
        me = threading.get_ident()
        self.calls[me] = (self.ticks + (seconds + SLACK) / TICK, what)
        try:
            yield
        finally:
            del self.calls[me]

    def look(self):
        while True:
            time.sleep(TICK)
            self.ticks += 1
            for last, what in list(self.calls.values()):
                if self.ticks > last:
                    self.notes.note('!', f'a call hangs: {what}')
                    faulthandler.dump_traceback()
                    os._exit(HUNG)


# ---- transactions by each client


class ByStore:
    """Transactions of a thread that uses a `Store`."""

    def __init__(self, folder, watch, timeout):
        self.watch = watch
        self.store = boost.join(folder, patience=2 * timeout, timeout=timeout)

    def keep(self, work):
        with self.watch.call(PATIENCE + 4 * TIMEOUT, 'Store.keep'):
            return self.store.keep(lambda t: work(t.call, t.later), patience=PATIENCE)

    def do(self, *calls):
        with self.watch.call(PATIENCE + 3 * TIMEOUT, 'Store.do'):
            return self.store.do(*calls, keep=True, patience=PATIENCE)

    def close(self):
        with self.watch.call(TIMEOUT, 'Store.close'):
            self.store.close()


class ByLines:
    """Transactions over a client that is asked a line and gives its answer."""

    def __init__(self, ask, watch):
        self.ask, self.watch = ask, watch

    def line(self, text):
        with self.watch.call(2 * TIMEOUT, text[:60]):
            return reply_of(self.ask(text), text)

    def keep(self, work):
        end = time.monotonic() + PATIENCE
        for pause in boost.pauses():
            try:
                return self.attempt(work)
            except boost.Busy:
                if time.monotonic() + pause > end:
                    raise
                time.sleep(pause)

    def attempt(self, work):
        self.line('begin')
        try:
            value = work(lambda *call: self.line(words_of('call', *call)), lambda *call: self.line(words_of('later', *call)))
            self.line('keep')
            return value
        except (boost.Lost, boost.Gone, boost.Idle):
            raise
        except BaseException:
            self.abort()
            raise

    def abort(self):
        """Takes all back, in as many steps as that wants."""
        while True:
            try:
                return self.line('abort')
            except boost.Refused as refused:
                if refused.name != 'Falling':
                    return None
                time.sleep(0.05)

    def do(self, *calls):
        return self.line('keep ' + '; '.join(words_of(*call) for call in calls))[:-1]


class Shim:
    """The client in C, in a process of its own."""

    def __init__(self, program, folder, watch):
        self.process = subprocess.Popen([program, folder, str(int(TIMEOUT))], stdin=subprocess.PIPE, stdout=subprocess.PIPE, bufsize=0)
        self.text, self.watch = b'', watch
        with watch.call(2 * TIMEOUT, 'boost_join_within'):
            if self.answer() != 'hello':
                raise boost.Gone('no hello')

    def answer(self):
        while b'\n' not in self.text:
            more = os.read(self.process.stdout.fileno(), 65536)
            if not more:
                raise boost.Gone('the client in C is gone')
            self.text += more
        line, self.text = self.text.split(b'\n', 1)
        if line.startswith(b'gone '):
            raise boost.Gone(line.decode())
        return line.decode()

    def ask(self, text):
        try:
            self.process.stdin.write(('+' if '; ' in text else '').encode() + text.encode() + b'\n')
        except BrokenPipeError as error:
            raise boost.Gone('the client in C is gone') from error
        return self.answer()

    def close(self):
        self.process.stdin.close()
        self.process.stdout.close()
        with self.watch.call(2 * TIMEOUT, 'boost_close'):
            self.process.wait()


class Door:
    """What a bare client wants of its place."""

    def __init__(self, folder):
        self.folder = folder

    def say(self, text):
        door = os.open(os.path.join(self.folder, 'door'), os.O_WRONLY | os.O_NONBLOCK)
        try:
            os.write(door, text)
        finally:
            os.close(door)


class Bare:
    """A client over FIFOs of its own, with no library."""

    def __init__(self, folder, watch):
        try:
            Door(folder).say(b'\n')                  # whether a server is there, before a FIFO is made
            with watch.call(20, 'hello'):
                self.client = Client(Door(folder))
        except (OSError, AssertionError) as error:
            raise boost.Gone(str(error)) from error

    def ask(self, text):
        try:
            answer = self.client.ask(text, TIMEOUT)
        except OSError as error:
            raise boost.Gone(str(error)) from error
        if not answer:
            self.close()
            raise boost.TimedOut('no answer') if answer is None else boost.Gone('the end')
        return answer

    def close(self):
        with contextlib.suppress(OSError):
            self.client.close()


# ---- what is done


class Deeds:
    """Transactions, each by a client, with the notes of what was asked and told."""

    def __init__(self, worker, thread):
        self.worker, self.notes, self.key = worker, worker.notes, worker.slot * 16 + thread
        self.chance = random.Random(self.key * 65536 + worker.turn)
        self.next = itertools.count(((self.key << 16) + worker.turn) << 24)

    def one(self, by):
        deed = self.chance.choices([self.add, self.add_in_a_line, self.take, self.retire, self.spend, self.draw, self.release],
                                   [3, 2, 6, 7, 3, 2, 3])[0]
        try:
            deed(by)
        except boost.Refused as refused:
            if not isinstance(refused, (boost.Busy, boost.Lost)) and refused.name not in PASSING:
                raise Wrong(f'{deed.__name__}: {refused}') from refused
            if isinstance(refused, boost.Lost):
                raise
        except boost.Idle:
            pass

    def calls(self):
        number = next(self.next)
        self.notes.note('A', number)
        amount = amount_of(number)
        if self.worker.plant == 'halves':
            amount = self.chance.choice([amount, amount, amount + 1])
        return number, [('done', 'add', number), ('hits', 'bump', 1), ('sum', 'bump', amount),
                        ('jobs', 'add', self.chance.randrange(5), number), ('last', 'put', self.key, number.to_bytes(8, 'big'))]

    def was_added(self, number, replies):
        if replies[0] is not True:
            raise Wrong(f'{number} was there before it was added: {replies}')
        self.notes.note('a', number)

    def add(self, by):
        number, calls = self.calls()
        if self.worker.plant == 'claims' and self.chance.random() < 0.05:
            self.notes.note('a', number)
            return
        self.was_added(number, by.keep(lambda call, _: [call(*each) for each in calls]))

    def add_in_a_line(self, by):
        number, calls = self.calls()
        self.was_added(number, by.do(*calls))

    def noted(self, by, letter, work):
        """Keeps what gives the number of a note, or none."""
        def noting(call, later):
            number = work(call, later)
            if number is not None:
                self.notes.note(letter.upper(), number)
            return number
        number = by.keep(noting)
        if number is not None:
            self.notes.note(letter, number)

    def take(self, by):
        def work(call, _):
            item = call('jobs', 'take')
            if item is None:
                return None
            if call('taken', 'add', item[1]) is not True:
                raise Wrong(f'the job of {item[1]} was taken twice')
            return item[1]
        self.noted(by, 't', work)

    def retire(self, by):
        def work(call, later):
            number = call('taken', 'pick')
            if number is None:
                return None
            if call('done', 'remove', number) is not True:
                raise Wrong(f'{number} was taken and not there')
            later('retired', 'bump', 1)
            later('retired_sum', 'bump', amount_of(number))
            return number
        self.noted(by, 'r', work)

    def spend(self, by):
        customer = self.chance.randrange(CUSTOMERS)

        def work(call, later):
            if call('quota', 'spend', customer, 1):
                later('spent', 'bump', 1)
                return '-'
            call('quota', 'fill', customer, FILLED_BY)
            call('filled', 'bump', FILLED_BY)
            return None
        self.noted(by, 's', work)

    def draw(self, by):
        def work(call, _):
            number = call('ids', 'draw')
            if call('owners', 'put', number, self.key.to_bytes(4, 'big')) is not None:
                raise Wrong(f'{number} was drawn twice')
            return number
        self.noted(by, 'd', work)

    def release(self, by):
        def work(call, _):
            entry = call('owners', 'ceiling', 0)
            if entry is None:
                return None
            call('owners', 'remove', entry[0])
            if call('ids', 'release', entry[0]) is not True:
                raise Wrong(f'{entry[0]} had an owner and was not taken')
            return entry[0]
        self.noted(by, 'e', work)


# ---- workers


class Worker:
    """A worker of a kind, until its time is over."""

    def __init__(self, words):
        self.kind, self.folder, notes, slot, turn, seconds, self.shim = words[:7]
        self.plant = words[7] if words[7:] else ''
        self.notes, self.slot, self.turn = Notes(notes), int(slot), int(turn)
        self.end = time.monotonic() + float(seconds)
        self.is_told = threading.Event()
        signal.signal(signal.SIGTERM, lambda *_: self.is_told.set())
        self.watch = Watch(self.notes)
        self.is_strict = self.plant == 'steady'
        self.timeout = 1e9 if self.plant == 'waits' else TIMEOUT

    def goes_on(self):
        return not self.is_told.is_set() and time.monotonic() < self.end

    def pause(self, deeds):
        time.sleep(deeds.chance.random() * 0.04)

    def run(self):
        getattr(self, self.kind)()

    def work(self, thread, come, tricks=()):
        """Comes again and again, and does a deed or plays a trick, until the time is over. `come` gives the client, and what closes
        it."""
        deeds = Deeds(self, thread)
        while self.goes_on():
            by, close = None, lambda: None
            try:
                by, close = come()
                for _ in range(deeds.chance.randrange(20, 400)):
                    if not self.goes_on():
                        break
                    if tricks and deeds.chance.random() < 0.01:
                        trick = deeds.chance.choice(tricks)
                        self.notes.note('X', trick.__name__)
                        if trick(by, deeds) is False:
                            break
                    else:
                        deeds.one(by)
                    self.pause(deeds)
            except (boost.Gone, boost.Lost):
                time.sleep(0.1)
            finally:
                close()

    def guarded(self, *words):
        """The work of a thread; what must not be is noted, and ends the worker."""
        try:
            self.work(*words)
        except Exception as error:                 # pylint: disable=broad-except
            self.notes.note('!', f'{self.kind}: {type(error).__name__} {error}'.replace('\n', ' '))
            faulthandler.dump_traceback()
            os._exit(WRONG)

    # -- Python

    def threads(self):
        by = ByStore(self.folder, self.watch, self.timeout)
        running = [threading.Thread(target=self.guarded, args=(number, lambda: (by, lambda: None))) for number in range(THREADS)]
        for each in running:
            each.start()
        for each in running:
            each.join()
        by.close()

    def process(self):
        def come():
            by = ByStore(self.folder, self.watch, self.timeout)
            return by, by.close
        self.guarded(0, come, [self.fork, self.fork_and_die, self.silent_session])

    def fork(self, by, deeds):
        """A child that uses the store of its parent, in a transaction and without one, is told that it is closed."""
        with self.watch.call(6 * TIMEOUT, 'Store.transaction'), contextlib.suppress(boost.Busy), by.store.transaction() as t:
            t.call('hits', 'bump', 0)
            child = os.fork()
            if child == 0:
                self.live_on(by.store, t)
            os.waitpid(child, 0)

    def live_on(self, store, t):
        told = set()
        for call in (lambda: store.do(('hits', 'bump', 1000)), lambda: t.call('hits', 'bump', 1000), store.status):
            try:
                call()
                told.add('answered')
            except boost.Error as error:
                told.add(type(error).__name__)
        if told != {'Closed'}:
            self.notes.note('!', f'a process that was forked off was told {told}')
        os._exit(0)

    def fork_and_die(self, by, deeds):
        """Dies in a transaction, while a child lives on that was forked off within it."""
        if deeds.chance.random() < 0.8:
            return
        with self.watch.call(6 * TIMEOUT, 'Store.transaction'), contextlib.suppress(boost.Busy), by.store.transaction() as t:
            t.call('sum', 'bump', 1)
            if os.fork() == 0:
                time.sleep(4)
                os._exit(0)
            os.kill(os.getpid(), signal.SIGKILL)

    def silent_session(self, by, deeds):
        with self.watch.call(2 * TIMEOUT, 'Store.session'):
            session = by.store.session()
        with session:
            self.silent(ByLines(lambda text: session.lines([text], self.timeout)[0], self.watch), deeds)

    # -- C and bare FIFOs

    def c(self):
        def come():
            shim = Shim(self.shim, self.folder, self.watch)
            return ByLines(shim.ask, self.watch), shim.close
        self.guarded(0, come, [self.silent])

    def raw(self):
        def come():
            self.bare = Bare(self.folder, self.watch)
            return ByLines(self.bare.ask, self.watch), self.bare.close
        self.guarded(0, come, [self.silent, self.deaf, self.piece, self.pipelined, self.cut, self.litter])

    def silent(self, by, deeds):
        """Says nothing within a transaction, which is taken back."""
        with contextlib.suppress(boost.Idle):
            by.line('begin')
            try:
                by.line('call sum bump 1000')
            except boost.Busy:
                by.line('abort')
                return
            self.is_told.wait(SILENCE)
            by.line('call sum bump 1000')
            if self.is_strict and not self.is_told.is_set():
                raise Wrong('a silent client was not told so')
            by.line('abort')

    def deaf(self, by, deeds):
        """Reads nothing of its answers within a transaction; the server lets it go."""
        by.line('begin')
        with contextlib.suppress(boost.Refused, boost.Idle):
            by.line('call sum bump 1000')
        try:
            go_deaf(self.bare.client)
        except OSError as error:
            raise boost.Gone(str(error)) from error
        self.is_told.wait(SILENCE)
        if self.is_strict and not self.is_told.is_set() and not self.bare.client.is_ended(SILENCE):
            raise Wrong('a deaf client was not let go')
        return False

    def piece(self, by, deeds):
        """Leaves a piece of a line at the door, and one in its own FIFO."""
        with contextlib.suppress(OSError):
            Door(self.folder).say(b'hello nobo')
            os.write(self.bare.client.to, b'keep sum bump 100')
        return False

    def pipelined(self, by, deeds):
        """Many transactions in one write, whose answers come in their order."""
        asked = [deeds.calls() for _ in range(10)]
        lines = ['keep ' + '; '.join(words_of(*call) for call in calls) for _, calls in asked]
        client = self.bare.client
        try:
            os.write(client.to, ('\n'.join(lines) + '\n').encode())
            for number, _ in asked:
                answer = client.line(TIMEOUT)
                if not answer:
                    return False
                if '; kept ' in answer:
                    deeds.was_added(number, reply_of(answer)[:-1])
        except OSError:
            return False

    def cut(self, by, deeds):
        """Goes without an answer, behind a whole transaction and a part of one."""
        _, calls = deeds.calls()
        with contextlib.suppress(OSError):
            os.write(self.bare.client.to, ('keep ' + '; '.join(words_of(*call) for call in calls) + '\nbegin\ncall sum bump 1\n').encode())
        return False

    def litter(self, by, deeds):
        """With a planted fault: leaves FIFOs, as a server would that removes none."""
        if self.plant == 'litters':
            for number in range(100):
                os.mkfifo(os.path.join(self.folder, f'attack-999999999-{number}-{deeds.chance.getrandbits(32)}.to'))

    # -- the area full

    def fill(self):
        """Fills the area once, by an open transaction or by kept ones, and takes it back; notes how that ended."""
        way = self.fill_for_good if self.turn % 2 else self.fill_openly
        try:
            self.bare = Bare(self.folder, self.watch)
            by = ByLines(self.bare.ask, self.watch)
            self.empty(by)
            told = way(by)
            self.notes.note('F', f'{way.__name__}: {told}')
            self.empty(by)
        except boost.Gone as error:
            self.notes.note('F', f'{way.__name__}: gone: {error}')
        except boost.Refused as refused:
            self.notes.note('F', f'{way.__name__}: {refused}')
            if not isinstance(refused, boost.Lost):
                self.notes.note('!', f'the ballast cannot be taken out: {refused}')

    def fill_openly(self, by):
        for key in range(0, 600, 6):
            by.line('keep ' + '; '.join(f'ballast put {key + more} ' + 'cd' * 256 for more in range(6)))
        by.line('begin')
        try:
            for key in range(1000):
                by.line(f'call ballast put {key % 600} ' + 'ab' * 256)
            by.line('keep')
        except boost.Lost:
            raise
        except boost.Refused as refused:
            with contextlib.suppress(boost.Idle):
                by.abort()
            return str(refused)
        return 'fitted'

    def fill_for_good(self, by):
        for key in range(0, 4000, 6):
            try:
                by.line('keep ' + '; '.join(f'ballast put {key + more} ' + 'cd' * 256 for more in range(6)))
            except boost.Busy:
                continue
            except boost.Lost:
                raise
            except boost.Refused as refused:
                return str(refused)
        return 'fitted'

    def empty(self, by):
        """Takes all ballast out."""
        for start in range(0, 4000, 100):
            by.line('keep ' + '; '.join(f'ballast remove {key}' for key in range(start, start + 100)))


if __name__ == '__main__':
    faulthandler.enable()
    Worker(sys.argv[1:]).run()
