"""Clients of a server: lines in, answers out, in their order."""
import contextlib
import errno
import fcntl
import functools
import io
import itertools
import os
import queue
import select
import signal
import socket
import stat
import subprocess
import sys
import threading
import time
import weakref
from _thread import start_new_thread
from typing import Any, Callable, Dict, Iterator, List, Optional, Sequence, Set, Union

from .errors import Closed, Error, Gone, NotServed, TimedOut
from .lines import LONGEST, batches, bytes_of_line

Path = Union[str, 'os.PathLike[str]']

CLIENTS = 64
# What the name of a gate's socket begins with.
GATE = 'unix:'
HELLO = 'hello boost 1'
# How many bytes one read takes at most.
READ = 65536
# How many seconds a call waits, where nobody says.
TIMEOUT = 60.0
# How many seconds pass at most until one that waits looks whether its store was closed.
SLICE = 0.5

FORKED = 'a store is of no use over a fork: join its server anew'
CLOSED_STORE = 'the store was closed'
# How many bytes of a child's last words are kept.
LAST_WORDS = 1000


# ---- forks


# What has descriptors or locks, which are given up in a process that is forked off.
OWNERS: 'weakref.WeakSet[Any]' = weakref.WeakSet()
# Held while descriptors are opened, so that no fork comes between that and their owner's knowing of them.
OPENING = threading.RLock()


def give_up() -> None:
    for owner in list(OWNERS):
        owner.give_up()
    OPENING.release()


os.register_at_fork(before=OPENING.acquire, after_in_parent=OPENING.release, after_in_child=give_up)


# ---- signals


def apart(work: Callable[[], Any]) -> None:
    """Does what opens descriptors or makes a process where no handler of a signal breaks it off between that and its owner's knowing of
    them: handlers run in the main thread alone, which waits meanwhile. The work is short. What it raises is raised here."""
    failed: List[BaseException] = []
    ended: 'queue.SimpleQueue[None]' = queue.SimpleQueue()
    is_over: List[None] = []

    def do() -> None:
        try:
            work()
        except BaseException as error:
            failed.append(error)
        is_over.append(None)
        ended.put(None)

    if threading.current_thread() is not threading.main_thread():
        return work()
    try:
        start_new_thread(do, ())
        ended.get()
    except RuntimeError:                                            # no thread can be had
        return work()
    finally:
        for _ in range(1000):                                       # where the waiting was broken off
            if is_over or failed:
                break
            time.sleep(0.001)
    if failed:
        raise failed[0]


# ---- connections


FRESH, IN_STEP, ASKING, CLOSED = 'fresh', 'in step', 'asking', 'closed'


class Connection:
    """One client of a server. It is fresh until it has come in; then in step, but while it asks; and once it is closed it stays
    so. It is closed by whatever comes between a line and its whole answer: so no line gets the answer of another one. Its
    lock is held while it asks, and who closes it meanwhile leaves that to the one who asks, within half a second."""

    longest = LONGEST

    def __init__(self, timeout: float) -> None:
        self.timeout = timeout
        self.state = FRESH
        self.over = ''                             # why it is of no use any more
        self.is_settled = False                    # whether all that it committed was known to be kept when it was closed
        self.lock = threading.Lock()
        self.asker = 0                             # the thread that has asked last
        OWNERS.add(self)

    def come_in(self, seconds: float) -> None:
        """Comes in. Raises `NotServed` where that takes longer, and `Gone`."""
        self.check()
        with self.lock:
            try:
                self.meet(seconds)
                self.state = IN_STEP
            finally:
                if self.state != IN_STEP or self.over:
                    self.shut()

    def ask(self, lines: Sequence[str], timeout: Optional[float] = None) -> List[str]:
        """Sends lines, and gives the answer of each. Raises ValueError where one is no line, before any is sent; `TimedOut` where the
        next answer does not come in so many seconds, and `Gone`."""
        data = [bytes_of_line(line, self.longest) for line in lines]
        self.check()
        with self.lock:
            self.asker = threading.get_ident()
            self.check()
            self.state = ASKING
            try:
                self.send_lines(data, timeout)
                answers = [self.receive(timeout) for _ in data]
                self.state = IN_STEP
                return answers
            finally:
                if self.state != IN_STEP or self.over:
                    self.shut()

    def check(self) -> None:
        if self.over:
            raise Closed(self.over)
        if self.state == CLOSED:
            raise Gone('this client was closed, as the server or an answer did not come')

    def slices(self, timeout: Optional[float]) -> Iterator[float]:
        """Yields how long to wait, again and again. Raises `TimedOut` once that has been as long as it may."""
        seconds = self.timeout if timeout is None else timeout
        end = time.monotonic() + seconds
        while True:
            left = end - time.monotonic()
            yield max(0.0, min(SLICE, left))
            if self.over:
                raise Closed(self.over)
            if left <= 0:
                raise TimedOut('no answer within %g seconds' % seconds)

    def is_of_use(self) -> bool:
        """Whether it may be asked by this thread, which does not ask it now. If this thread holds its lock all the same, it does so for
        ever: an exception has left a `with` without its end, as that of a signal handler may in Python 3.8 and 3.9."""
        is_stuck = self.lock.locked() and self.asker == threading.get_ident()
        return self.state == IN_STEP and not self.over and not is_stuck

    def close(self, why: str = CLOSED_STORE) -> None:
        """Closes it; what it has open is taken back."""
        self.over = self.over or why
        if self.lock.acquire(blocking=False):
            try:
                self.shut()
            finally:
                self.lock.release()

    def shut(self) -> None:
        self.state = CLOSED
        self.let_go()

    def __del__(self) -> None:
        self.shut()

    def give_up(self) -> None:
        """In a process that was forked off."""
        self.lock = threading.Lock()
        self.over, self.state = FORKED, CLOSED
        self.forget()

    def meet(self, seconds: float) -> None:
        raise NotImplementedError

    def send(self, text: str, timeout: Optional[float] = None) -> None:
        """Sends whole lines, or a part of one at a door. Nothing looks at them."""
        self.send_lines([line.encode() for line in text.splitlines(True)], timeout)

    def send_lines(self, lines: Sequence[bytes], timeout: Optional[float]) -> None:
        raise NotImplementedError

    def receive(self, timeout: Optional[float] = None) -> str:
        """The next answer, without its line feed."""
        raise NotImplementedError

    def is_alive(self) -> bool:
        """Whether the server is there still, and no answer that nobody asked for."""
        raise NotImplementedError

    def let_go(self) -> None:
        """Gives back what it has; nothing the second time."""
        raise NotImplementedError

    def forget(self) -> None:
        """Gives back what it has in a process that was forked off, which tells the server nothing."""
        self.let_go()


class Stream(Connection):
    """A client that writes its lines into one descriptor, and reads its answers from one: which may be the same."""

    open: List[Any] = []

    def __init__(self, timeout: float) -> None:
        self.open = []                             # what is closed once it is let go
        super().__init__(timeout)
        self.to = self.answers = -1
        self.buffer = bytearray()
        self.scanned = 0

    def read_from(self, number: int) -> None:
        self.answers = number
        self.readable = select.poll()
        self.readable.register(number, select.POLLIN)

    def hear_hello(self, seconds: float, place: str) -> None:
        if self.receive(seconds) != HELLO:
            raise Gone('no server of this kind at ' + place)

    def fill(self, seconds: float) -> bool:
        """Reads what has come of answers. Whether anything has in so many seconds."""
        if not self.readable.poll(seconds * 1000):
            return False
        try:
            data = os.read(self.answers, READ)
        except ConnectionResetError as error:
            raise Gone('the server went away') from error
        if not data:
            raise Gone('the server went away')
        self.buffer += data
        return True

    def send_lines(self, lines: Sequence[bytes], timeout: Optional[float]) -> None:
        for batch in batches(lines):
            rest, pauses = self.write(batch), self.slices(timeout)
            while rest:
                self.wait_for_room(next(pauses))
                rest = self.write(rest)

    def write(self, data: bytes) -> bytes:
        """Writes what there is room for, and gives the rest."""
        try:
            return data[os.write(self.to, data):]
        except BlockingIOError:
            return data
        except OSError as error:
            raise Gone('the server went away') from error

    def wait_for_room(self, seconds: float) -> None:
        """Reads answers meanwhile, so that the server goes on with the lines."""
        both = select.poll()
        both.register(self.answers, select.POLLIN)
        both.register(self.to, select.POLLOUT | (select.POLLIN if self.to == self.answers else 0))
        if any(number == self.answers and events != select.POLLOUT for number, events in both.poll(seconds * 1000)):
            self.fill(0)

    def receive(self, timeout: Optional[float] = None) -> str:
        line, pauses = self.next_line(), self.slices(timeout)
        while line is None:
            if self.fill(next(pauses)):
                line = self.next_line()
        return line

    def next_line(self) -> Optional[str]:
        """The next answer of those that were read, and None where none is whole."""
        at = self.buffer.find(b'\n', self.scanned)
        if at < 0:
            self.scanned = len(self.buffer)
            return None
        line = self.buffer[:at].decode(errors='replace')
        del self.buffer[:at + 1]
        self.scanned = 0
        return line

    def is_alive(self) -> bool:
        return self.is_of_use() and not self.buffer and not self.readable.poll(0)

    def let_go(self) -> None:
        self.to = self.answers = -1
        for file in self.open:
            file.close()


class Pipes(Stream):
    """A client with a pair of FIFOs of its own, in a folder with the FIFO `door`. It waits so many seconds to be served."""
    numbers = itertools.count()

    def __init__(self, folder: Path, patience: float = TIMEOUT, timeout: float = TIMEOUT) -> None:
        super().__init__(timeout)
        self.folder, self.patience = os.path.abspath(folder), patience
        self.word = 'py-%d-%d-%s' % (os.getpid(), next(self.numbers), os.urandom(4).hex())
        self.paths = [os.path.join(self.folder, self.word + end) for end in ('.to', '.from')]

    def meet(self, seconds: float) -> None:
        try:
            apart(self.open_fifos)
            self.greet(min(seconds, self.patience))
        except OSError as error:
            why = 'nobody reads its door' if error.errno == errno.ENXIO else error
            raise Gone('no server can be reached at %s: %s' % (self.folder, why)) from error
        finally:
            for path in self.paths:                # the server has removed them, unless it never came
                with contextlib.suppress(OSError):
                    os.unlink(path)

    def open_fifos(self) -> None:
        """Makes and opens the FIFOs. A server removes those without a lock that lie there before it opens its door: so that is looked
        for first."""
        self.ask_door(b'')
        with OPENING:
            held = [self.make_fifo(path) for path in self.paths]
            self.open_both(*held)

    def make_fifo(self, path: str) -> int:
        """Makes a FIFO, and opens it for both ways, which waits for nobody. It is for the group of the folder too where that may
        write there. Nobody's file is opened or changed that another of the group puts in its place."""
        os.mkfifo(path, 0o600)
        number = self.take(path, os.O_RDWR | os.O_NOFOLLOW)
        if not stat.S_ISFIFO(os.fstat(number).st_mode):
            raise Gone('%s is no FIFO' % path)
        with contextlib.suppress(OSError):         # on a file system without locks a server that comes now removes it
            fcntl.flock(number, fcntl.LOCK_EX | fcntl.LOCK_NB)
        folder = os.stat(self.folder)
        if folder.st_mode & stat.S_IWGRP:
            with contextlib.suppress(PermissionError):             # who is not of the group serves its own user alone
                os.fchown(number, -1, folder.st_gid)
                os.fchmod(number, 0o660)
        return number

    def open_both(self, *held: int) -> None:
        """Opens each for its way. The others are held until the hello has come: a FIFO that no writer ever had reads as ended."""
        to, answers = held
        self.to = self.take('/proc/self/fd/%d' % to, os.O_WRONLY)
        self.read_from(self.take('/proc/self/fd/%d' % answers, os.O_RDONLY))

    def take(self, path: str, way: int) -> int:
        number = os.open(path, way | os.O_CLOEXEC | os.O_NONBLOCK)
        self.open.append(io.FileIO(number, 'rb' if way == os.O_RDONLY else 'wb'))
        return number

    def ask_door(self, text: bytes) -> None:
        """Writes at the door. ENXIO says that it has no reader, and BlockingIOError that it is full."""
        door = os.open(os.path.join(self.folder, 'door'), os.O_WRONLY | os.O_NONBLOCK | os.O_CLOEXEC)
        try:
            if not stat.S_ISFIFO(os.fstat(door).st_mode):
                raise Gone('the door of %s is no FIFO' % self.folder)
            os.write(door, text)
        finally:
            os.close(door)

    def greet(self, patience: float) -> None:
        """Says hello, and once that is answered holds no side of the server's: each sees the other's end."""
        self.hear_hello(max(1.0, self.knock(b'hello', patience)), self.folder)
        for file in self.open[:2]:
            file.close()
        with contextlib.suppress(OSError):         # by which the server sees, while this one waits, that it is there
            fcntl.flock(self.answers, fcntl.LOCK_EX | fcntl.LOCK_NB)

    def knock(self, ask: bytes, patience: float) -> float:
        """Asks for this at the door by its word, and waits until an answer comes. The line feed before it ends what another left there
        of a line. Gives how much is left of the patience."""
        line = b'\n%s %s\n' % (ask, self.word.encode())
        end = time.monotonic() + patience
        while True:
            with contextlib.suppress(BlockingIOError):              # the door is full
                apart(lambda: self.ask_door(line))                  # later nothing: has the server died?
                line = b''
            left = end - time.monotonic()
            if self.fill(max(0.0, min(0.05 if line else SLICE, left))):
                return left
            if self.over:
                raise Closed(self.over)
            if left <= 0:
                raise NotServed('the server at %s did not serve this client within %g seconds' % (self.folder, patience))


def path_of_gate(place: Path) -> Optional[str]:
    """The path of a gate's socket, where `unix:PATH` names one."""
    return place[len(GATE):] if isinstance(place, str) and place.startswith(GATE) else None


class Socket(Stream):
    """A client over the socket of a gate. It waits so many seconds to be served."""

    def __init__(self, path: str, patience: float = TIMEOUT, timeout: float = TIMEOUT) -> None:
        super().__init__(timeout)
        self.path, self.patience = os.path.abspath(path), patience

    def meet(self, seconds: float) -> None:
        patience = min(seconds, self.patience)
        end = time.monotonic() + patience
        try:
            apart(self.open_socket)
            connected = self.open[0]
            while not self.is_connected(connected):
                if time.monotonic() >= end:
                    raise NotServed('the gate at %s took nobody within %g seconds' % (self.path, patience))
                time.sleep(0.05)
                self.check()
        except OSError as error:
            raise Gone('no gate can be reached at %s: %s' % (self.path, error)) from error
        self.to = connected.fileno()
        self.read_from(self.to)
        try:
            self.hear_hello(max(0.0, end - time.monotonic()), self.path)
        except TimedOut as error:
            raise NotServed('the gate at %s did not serve this program within %g seconds' % (self.path, patience)) from error
        except Gone as error:
            raise Gone('the gate at %s let this program go: %s' % (self.path, error)) from error

    def open_socket(self) -> None:
        with OPENING:
            self.open.append(socket.socket(socket.AF_UNIX, socket.SOCK_STREAM | socket.SOCK_CLOEXEC | socket.SOCK_NONBLOCK))

    def is_connected(self, connected: socket.socket) -> bool:
        """Connects, but where as many wait already as a socket lets wait."""
        try:
            connected.connect(self.path)
        except BlockingIOError:
            return False
        return True


def write_at_once(lock: Any, file: Any, line: bytes) -> bool:
    """Writes a line into a child's input, whose lock this is. Whether that could be done without waiting; what is closed takes all."""
    if not lock.acquire(blocking=False):
        return False
    try:
        if not file.closed:
            os.write(file.fileno(), line)
        return True
    except BlockingIOError:
        return False
    except OSError:                                                 # it ends
        return True
    finally:
        lock.release()


class Answers:
    """What a child answers, which a thread of its own reads and hands out to the clients by their numbers. 0 hears the hello. A
    client has its number as long as the queue lives into which its answers go. Then the thread says a bye for the number, which is free
    once that is answered: so no client gets an answer to what another one asked. The thread alone does that, as no signal breaks it off;
    it is rung up where it has to look."""

    def __init__(self) -> None:
        self.lock = threading.RLock()
        self.hello: 'queue.SimpleQueue[Optional[str]]' = queue.SimpleQueue()
        self.of: 'weakref.WeakValueDictionary[int, queue.SimpleQueue[Optional[str]]]' = weakref.WeakValueDictionary({0: self.hello})
        self.free: Dict[int, None] = dict.fromkeys(range(1, CLIENTS + 1))    # who was freed first is given first
        self.leaving: Set[int] = set()
        self.bell: List[io.FileIO] = []
        self.is_over = False

    def take(self, answers: 'queue.SimpleQueue[Optional[str]]') -> int:
        """A number for the client of these answers, and 0 where none is free. It is never neither free nor theirs."""
        with self.lock:
            number = next(iter(self.free), 0)
            if number:
                self.of[number] = answers
                self.free.pop(number)
        return number

    def has_gone(self) -> bool:
        """Whether a client seems to be gone for whose number no bye was said."""
        return len(self.free) + len(self.leaving) + len(self.of) < CLIENTS

    def hang_bell(self) -> None:
        for number, mode in zip(os.pipe2(os.O_CLOEXEC | os.O_NONBLOCK), ('rb', 'wb')):
            self.bell.append(io.FileIO(number, mode))

    def ring(self) -> None:
        with self.lock, contextlib.suppress(BlockingIOError):
            if self.bell and not self.bell[1].closed:
                os.write(self.bell[1].fileno(), b'.')

    def close(self) -> None:
        with self.lock:
            for file in self.bell:
                file.close()

    def read(self, output: Any, errors: 'Errors', say: Callable[[bytes], bool]) -> None:
        """Reads up to the end. What stands behind the last line feed is no answer. Byes are said so, where there is room at once."""
        rest = b''
        try:
            with output, contextlib.closing(errors), contextlib.closing(self):
                for data in self.coming(output, errors, say):
                    *lines, rest = (rest + data).split(b'\n')
                    for line in lines:
                        self.hand_out(line.decode(errors='replace'))
        finally:
            self.is_over = True
            self.tell_all()

    def coming(self, output: Any, errors: 'Errors', say: Callable[[bytes], bool]) -> Iterator[bytes]:
        """Yields what comes from the output, up to its end. Meanwhile it hears errors, and says byes."""
        bell, wait = self.bell[0], None
        watched = select.poll()
        for file in (output, errors.read, bell):
            watched.register(file, select.POLLIN)
        while True:
            ready = {number for number, _ in watched.poll(wait)}
            if errors.read.fileno() in ready and not errors.hear():
                watched.unregister(errors.read)
            if output.fileno() in ready:
                data = output.read(READ)
                if not data:
                    break
                yield data
            if bell.fileno() in ready:
                bell.read(READ)
            if wait or bell.fileno() in ready or self.has_gone():
                wait = None if self.say_byes(say) else 10
        errors.hear()

    def say_byes(self, say: Callable[[bytes], bool]) -> bool:
        """Lets the clients go that are gone. Whether there was room to say so."""
        for number in range(1, CLIENTS + 1):
            if number not in self.free and number not in self.leaving and number not in self.of:
                if not say(b'c%d bye\n' % number):
                    return False
                self.leaving.add(number)
        return True

    def hand_out(self, line: str) -> None:
        tag, _, answer = line.partition(' ')
        number = int(tag[1:]) if tag[:1] == 'c' and tag[1:].isdigit() else 0
        answers = self.of.get(number)
        if answers is not None:
            answers.put(answer)
        elif number == 0:
            self.tell_all()                        # one of them misses its answer, and nobody knows which
        elif answer == 'bye' and number in self.leaving:
            with self.lock:
                self.leaving.discard(number)
                self.free[number] = None

    def tell_all(self) -> None:
        """Tells all clients that what they wait for does not come."""
        for answers in list(self.of.values()):
            answers.put(None)


class Errors:
    """The standard error of a child. What comes is written to that of this program, but where there is no room for it at once; and the
    last words are kept, so that who is told that the child is gone is told why."""

    def __init__(self, read: Any) -> None:
        self.read, self.words = read, b''
        self.own: Optional[io.FileIO] = None
        os.set_blocking(read.fileno(), False)
        with contextlib.suppress(OSError):                          # it is closed, or no descriptor is left
            self.own = io.FileIO(os.dup(2), 'wb')

    def hear(self) -> bool:
        """Takes what has come, as much as a pipe holds. Whether more may come."""
        data = self.read.read(READ)
        if data:
            self.words = (self.words + data)[-LAST_WORDS:]
            with contextlib.suppress(OSError):
                self.hand_on(data)
        return data != b''

    def hand_on(self, data: bytes) -> None:
        if self.own is not None:
            room, number = select.poll(), self.own.fileno()
            room.register(number, select.POLLOUT)
            while data and room.poll(0) == [(number, select.POLLOUT)]:         # and not where its reader is gone, which is a signal
                data = data[os.write(number, data[:select.PIPE_BUF]):]

    def last(self) -> str:
        """The lines of the last words, in one."""
        return ' / '.join(line.strip() for line in self.words.decode(errors='replace').splitlines() if line.strip())

    def close(self) -> None:
        self.read.close()
        if self.own is not None:
            self.own.close()


def status_of(number: int) -> Optional[int]:
    """The status with which the child of this number has ended, as `subprocess` tells it, and none while it runs. It is still to be
    waited for. A lock, which an interrupt in the wrong moment would leave taken for ever, is not taken, as it is by `Popen.poll`."""
    try:
        ended = os.waitid(os.P_PID, number, os.WEXITED | os.WNOHANG | os.WNOWAIT)
    except ChildProcessError:                                       # this program is told of no child's end
        return 0
    if ended is None:
        return None
    return ended.si_status if ended.si_code == os.CLD_EXITED else -ended.si_status


class Child:
    """A server that was started as a child, and where it comes back another one behind it. It ends with the store that has it,
    also where nobody closes that. In a session of its own no Ctrl-C of a terminal ends it."""

    process: Optional['subprocess.Popen[bytes]'] = None
    reader: Optional[threading.Thread] = None

    def __init__(self, words: List[str], patience: float, comes_back: bool) -> None:
        self.words, self.patience, self.comes_back = words, patience, comes_back
        self.lock = threading.RLock()
        self.starting = threading.Lock()                            # held by the one who starts it, who put it here
        OWNERS.add(self)
        self.begin()

    def begin(self) -> None:
        self.reader, self.latest = None, Answers()
        try:
            try:
                apart(self.launch)
            except OSError as error:
                raise Gone('no server can be started: %s' % error) from error
            self.hear_hello(self.latest)
            self.answers = self.latest
        except BaseException:
            self.kill()
            raise

    def launch(self) -> None:
        with OPENING:
            self.process = subprocess.Popen(self.words, stdin=subprocess.PIPE, stdout=subprocess.PIPE, stderr=subprocess.PIPE,
                                            bufsize=0, start_new_session=True)
            self.errors = Errors(self.process.stderr)
            self.latest.hang_bell()
        os.set_blocking(self.input.fileno(), False)
        say = functools.partial(write_at_once, self.lock, self.input)
        self.reader = threading.Thread(target=self.latest.read, args=(self.process.stdout, self.errors, say), daemon=True)
        self.reader.start()

    @property
    def input(self) -> Any:
        assert self.process
        return self.process.stdin

    def hear_hello(self, answers: Answers) -> None:
        end = time.monotonic() + self.patience
        hello: Optional[str] = ''
        while not hello:
            left = end - time.monotonic()
            with contextlib.suppress(queue.Empty):
                hello = answers.hello.get(timeout=max(0.0, min(SLICE, left)))
                if hello != HELLO:
                    raise Gone('the server did not start, with %s' % self.status())
            if left <= 0 and not hello:
                raise TimedOut('the server did not say hello within %g seconds' % self.patience)
        del answers.of[0]

    def status(self) -> str:
        """How it ended, where it has or is about to, and its last words."""
        ended, words = self.ended_within(1), self.errors.last()
        return ('no status' if ended is None else 'status %d' % ended) + (words and ': ' + words)

    def ended_within(self, seconds: float) -> Optional[int]:
        """The status with which it ends within so many seconds."""
        end, pause = time.monotonic() + seconds, 0.0005
        while self.process is not None:
            status = status_of(self.process.pid) if self.process.returncode is None else self.process.returncode
            left = end - time.monotonic()
            if status is not None or left <= 0:
                return status
            time.sleep(min(pause, left))
            pause = min(2 * pause, 0.05)
        return None

    def serving(self, seconds: float) -> Answers:
        """What the child answers that serves within so many seconds. One at a time starts it: whoever holds the lock that stands in
        `starting`, and so nobody any more whose work was broken off."""
        turn = threading.Lock()
        with turn:
            end = time.monotonic() + seconds
            while not self.takes_turn(turn):
                if time.monotonic() >= end:
                    raise NotServed('the server did not start within %g seconds' % seconds)
                time.sleep(0.01)
            if self.has_ended(self.answers):
                if not self.comes_back:
                    raise Gone('the server ended, with %s' % self.status())
                self.kill()
                self.begin()
            return self.answers

    def takes_turn(self, turn: threading.Lock) -> bool:
        with self.lock:
            is_free = not self.starting.locked()
            if is_free:
                self.starting = turn
        return is_free

    def has_ended(self, answers: Answers) -> bool:
        """Whether the server has ended that gives these answers, also where their reader has not come to the end of them yet."""
        return answers.is_over or answers is self.answers and self.ended_within(0) is not None

    def write(self, answers: Answers, lines: bytes, pause: float = 0.0) -> bool:
        """Writes lines that go into a pipe at once or not at all. Where there is no room it waits for some, so many seconds."""
        room = select.poll()
        with self.lock:
            if answers is not self.answers or self.input.closed:
                raise Gone('the server ended')
            try:
                return os.write(self.input.fileno(), lines) > 0
            except BlockingIOError:
                room.register(self.input, select.POLLOUT)
            except OSError as error:
                if self.reader and self.reader is not threading.current_thread():
                    self.reader.join(1)                             # then the next call knows that this one is over
                raise Gone('the server ended, with %s' % self.status()) from error
        room.poll(pause * 1000)
        return False

    def end(self, timeout: float) -> int:
        """Says `end`, and waits for the server's end, so many seconds. Then it is killed. Gives its status."""
        assert self.process
        with self.lock:
            if not self.input.closed:
                with contextlib.suppress(OSError):
                    os.write(self.input.fileno(), b'end\n')
                self.input.close()
        if self.reader is threading.current_thread():               # the last that had it was dropped there
            return 0
        self.ended_within(timeout)
        return self.kill()

    def kill(self) -> int:
        """Makes sure that it has ended, and that nothing of it is left; but of one that stands still in the kernel a signal is."""
        if self.process is None:
            return 0
        assert self.process.stdout and self.process.stderr
        status = self.ended_within(0)
        if status is None:
            with contextlib.suppress(ProcessLookupError):
                os.killpg(self.process.pid, signal.SIGKILL)
            status = self.ended_within(1)
        self.input.close()
        if self.reader and self.reader.ident:
            self.reader.join(1)
        else:
            self.process.stdout.close()
            self.process.stderr.close()
            self.latest.close()
        if status is None:
            self.process.returncode = -signal.SIGKILL
            return -signal.SIGKILL
        with self.lock:
            if self.process.returncode is None:
                self.process.returncode = status
                try:
                    os.waitpid(self.process.pid, 0)
                except ChildProcessError:
                    pass
        return status

    def __del__(self) -> None:
        if self.process and self.process.returncode is None and not sys.is_finalizing():
            self.end(TIMEOUT)

    def give_up(self) -> None:
        """In a process that was forked off, whose child it is not."""
        process, self.process = self.process, None
        if process and process.stdin and process.stdout:
            process.stdin.close()
            process.stdout.close()
            self.errors.close()
            for file in self.latest.bell:
                file.close()
            process.returncode = 0


# The answers of no client.
NOBODYS: 'queue.SimpleQueue[Optional[str]]' = queue.SimpleQueue()


class Shared(Connection):
    """One of the clients that share a child's input and output."""

    longest = LONGEST - len('c64 ')
    of: Optional[Answers] = None
    answers = NOBODYS

    def __init__(self, child: Child, timeout: float) -> None:
        super().__init__(timeout)
        self.child = child

    def meet(self, seconds: float) -> None:
        self.of = self.child.serving(seconds)
        self.answers = queue.SimpleQueue()
        end, pause = time.monotonic() + seconds, 0.001
        while True:
            number = self.of.take(self.answers)
            if number:
                break
            if self.of.is_over:
                raise Gone('the server ended')
            if time.monotonic() >= end:
                raise NotServed('all clients are taken, and none was let go within %g seconds' % seconds)
            self.of.ring()
            time.sleep(min(pause, max(0.0, end - time.monotonic())))
            pause = min(2 * pause, 0.05)
        self.tag = b'c%d ' % number

    def send_lines(self, lines: Sequence[bytes], timeout: Optional[float]) -> None:
        assert self.of
        if b'bye\n' in lines:
            raise ValueError('a client of a child says no bye: it is closed')
        for batch in batches([self.tag + line for line in lines]):
            for pause in self.slices(timeout):
                if self.child.write(self.of, batch, pause):
                    break

    def receive(self, timeout: Optional[float] = None) -> str:
        assert self.of
        for pause in self.slices(timeout):
            is_over = self.of.is_over
            with contextlib.suppress(queue.Empty):
                answer = self.answers.get(timeout=0 if is_over else pause)
                if answer is not None:
                    return answer
                raise Gone('the server ended, with %s' % self.child.status() if is_over or self.of.is_over
                           else 'the server did not answer this client')
            if is_over:
                raise Gone('the server ended, with %s' % self.child.status())
        raise AssertionError

    def is_alive(self) -> bool:
        assert self.of
        if self.of.has_gone():
            self.of.ring()
        return self.is_of_use() and not self.child.has_ended(self.of) and self.answers.empty()

    def let_go(self) -> None:
        self.answers = NOBODYS                     # so the queue is gone that had the number
        if self.of:
            self.of.ring()

    def forget(self) -> None:
        self.answers, self.of = NOBODYS, None
