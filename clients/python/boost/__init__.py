"""A client of `boost listen`, for Python 3.8 or later on Linux.

`start` keeps a store open as a child of this program; `join` comes by the door of a server that runs:

    >>> import boost
    >>> store = boost.start(PROGRAM, DISK)
    >>> place = store.make('counter', 'hits')
    >>> with store.transaction() as t:            # commits at the end, and waits until that is kept
    ...     t.call('hits', 'bump', 5)
    >>> store.do(('hits', 'bump', 1), ('hits', 'read'))
    [None, 6]

Its last calls and the commit are one round trip by `finish`:

    >>> with store.transaction() as t:
    ...     seen = t.call('hits', 'read')
    ...     t.finish(('hits', 'bump', -seen), ('hits', 'read'))
    [None, 0]

A function of a transaction is run again while another transaction is in its way:

    >>> place = store.make('queue', 'jobs')
    >>> store.keep(lambda t: t.call('jobs', 'add', 3, 17))
    >>> store.keep(lambda t: t.call('jobs', 'take'))
    (3, 17)

Who waits for something to do sleeps in the server, for so many seconds at most, and is woken as it comes:

    >>> store.do(('jobs', 'take'), keep=True, within=0.1)
    [None]
    >>> store.do(('jobs', 'add', 3, 17))
    [None]
    >>> store.do(('jobs', 'take'), keep=True, within=30)
    [(3, 17)]

How the store stands is told at once, whoever has a transaction open:

    >>> status = store.status()
    >>> status.live, status.used < status.area
    (0, True)
    >>> [(each.kind, each.name, each.items) for each in status.collections]
    [('counter', 'hits', 1), ('queue', 'jobs', 0)]
    >>> store.close()
    0

**Threads.** Any number of threads may use a `Store`. Each call and each transaction takes one of its 64 clients and gives it back;
the next thread in the line gets it. So a call within a transaction of the same thread, but not by its `t`, is another client's.

**Time.** No call waits for ever: each takes `timeout=SECONDS`, and without one the store's own, 60 at first. So long it waits for a
client, and as long again for each answer. Then it raises `TimedOut`. `float('inf')` waits without an end.

**What may have been done.** A call that raises `Gone` (`TimedOut` is one) or `Lost` leaves open whether it was carried out, and
whether that is kept. Nothing is ever sent twice by itself. To do something once all the same, put a number of the request into
a set in the same transaction, and ask the set before it is tried again:

    def once(t):
        if t.call('done', 'add', request):
            t.call('hits', 'bump', 1)
    store.keep(once)

**A server that comes back.** Behind `Gone` the next call or transaction of a store that was joined joins anew. A store that was
started does so where `comes_back=True` asked for it. What a transaction had open is taken back by the server.

**Forks.** In a process that was forked off a store is closed: it joins for itself. What the parent has open is not held there.

What this module raises is an `Error`; but a `ValueError` or a `TypeError` says that what is asked for can be no line, and then nothing
was sent.
"""
import contextlib
import itertools
import os
import random
import threading
import time
from typing import Any, Callable, Iterator, List, Optional, Sequence, Tuple, TypeVar

from .connections import CLIENTS, CLOSED, FORKED, TIMEOUT, Child, Connection, Path, Pipes, Shared, Socket, path_of_gate
from .errors import Busy, Closed, Error, Gone, Idle, Lost, Misunderstood, NotServed, Refused, TimedOut
from .lines import Argument, Collection, Reply, Status, reply_of, seconds_of, words_of
from .pool import Pool

__version__ = '1.1.0'
__all__ = ['start', 'join', 'Store', 'Session', 'Transaction', 'Status', 'Collection', 'Error', 'Refused', 'Busy', 'Lost',
           'Misunderstood', 'Idle', 'Gone', 'TimedOut', 'NotServed', 'Closed', 'Connection', 'Pipes', 'Socket']

T = TypeVar('T')

# How many clients a store keeps at a door while it does not use them, which has places for 64 in all.
AT_DOOR = 8
# How many seconds pass until one that waits for something in the store asks again, at first and at last.
ASK_AGAIN, ASK_AGAIN_AT_LAST = 0.005, 0.2
# What a line of a transaction is answered where none is open.
NOTHING_OPEN = 'refused 10 NoSuchTxn'


class Session:
    """One client by itself, for lines of the protocol as they stand: one transaction at a time, used by one thread at a time. It is
    let go by `close`, or once nobody has it any more."""

    def __init__(self, connection: Connection) -> None:
        self.connection = connection

    def line(self, text: str, timeout: Optional[float] = None) -> Reply:
        """Sends a line of the protocol, and gives its answer as a value."""
        return reply_of(self.connection.ask([text], timeout)[0], text)

    def lines(self, texts: Sequence[str], timeout: Optional[float] = None) -> List[str]:
        """Sends any number of lines, and gives their answers as text. It reads while it writes."""
        return self.connection.ask(texts, timeout)

    def close(self) -> None:
        """Lets the client go; what it has open is taken back."""
        self.connection.close('this client was let go')

    def __enter__(self) -> 'Session':
        return self

    def __exit__(self, *_: Any) -> None:
        self.close()


class Transaction:
    """`with store.transaction() as t:` begins, and commits at the end; an exception in the block takes all back. `place` is
    that of the commit, once there is one. It has a client of its own as long."""

    def __init__(self, store: 'Store', keep: bool, timeout: Optional[float]) -> None:
        self.place: Optional[int] = None
        self._store, self._keep, self._timeout = store, keep, timeout
        self._connection: Optional[Connection] = None
        self._is_open = False

    def call(self, name: str, *call: Argument, timeout: Optional[float] = None) -> Reply:
        """Makes a call on the collection of the name: its words as a script has them, `bytes` for a value. Behind a refused one
        the transaction goes on."""
        return self._line(words_of('call', name, *call), timeout)

    def later(self, name: str, *call: Argument, timeout: Optional[float] = None) -> None:
        """Puts a call off to the commit."""
        self._line(words_of('later', name, *call), timeout)

    def commit(self, timeout: Optional[float] = None) -> None:
        """Commits before the end of the block. Where that is refused, all is taken back."""
        connection = self._connection
        try:
            self.place = self._line('keep' if self._keep else 'commit', timeout)
        except Lost:                               # it is in effect, and the server ends
            raise
        except Refused:                            # it is open still
            self.abort()
            raise
        self._is_open = False
        self._store._note(connection, self._keep)

    def finish(self, *calls: Tuple[Argument, ...], timeout: Optional[float] = None) -> List[Reply]:
        """Makes these calls, each a name with its call, or `'later'` before that, and commits, before the end of the block: all in one
        round trip. The replies of the calls. Where one of them is refused, or the commit, all is taken back, and so what was called
        before. What is too long for one line is sent as several."""
        if not calls:
            raise ValueError('no call')
        parts = [words_of(*call) for call in calls]
        line = ('keep ' if self._keep else 'do ') + '; '.join(parts)
        if len(line) > Shared.longest:
            return self._finish_in_lines(parts, timeout)
        connection = self._connection
        try:
            answer = self._lines([line], timeout)[0]
            if answer.startswith(('refused ', 'error ')):
                reply_of(answer, line)
        except Lost:                               # it is in effect, and the server ends
            raise
        except Refused:                            # nothing is open but where memory was wanting for the line itself
            self.abort()
            raise
        *replies, self.place = [reply_of(part, line) for part in answer.split('; ')]
        self._is_open = False
        self._store._note(connection, self._keep)
        return replies

    def _finish_in_lines(self, parts: List[str], timeout: Optional[float]) -> List[Reply]:
        lines = lines_of(parts)
        try:
            replies = [reply_of(answer, line) for answer, line in zip(self._lines(lines, timeout), lines)]
        except Refused:
            self.abort()
            raise
        self.commit(timeout)
        return replies

    def abort(self, timeout: Optional[float] = None) -> None:
        """Takes all back before the end of the block."""
        if self._is_open:
            with contextlib.suppress(Error):       # else the client is closed, which takes it back
                self._line('abort', timeout)
                self._is_open = False

    def _line(self, text: str, timeout: Optional[float]) -> Reply:
        return reply_of(self._lines([text], timeout)[0], text)

    def _lines(self, texts: Sequence[str], timeout: Optional[float]) -> List[str]:
        if self._connection is None or not self._is_open:
            raise Refused(NOTHING_OPEN)
        answers = self._connection.ask(texts, self._timeout if timeout is None else timeout)
        if any(answer == 'error Idle' or answer.startswith(NOTHING_OPEN) for answer in answers):
            self._is_open = False
        return answers

    def _begin(self) -> None:
        self._connection = self._store._take(self._timeout)
        self._is_open = True
        try:
            self._line('begin', None)
        except Refused:
            self._is_open = False
            raise

    def _let_go(self) -> None:
        connection, self._connection = self._connection, None
        if connection is not None:
            if self._is_open:
                connection.close('the transaction was not ended')
            self._is_open = False
            self._store._pool.give_back(connection)


class Store:
    """A store that a server keeps open, for any number of threads. `timeout` is for how many seconds a call waits that names none."""

    def __init__(self, make: Callable[[], Connection], end: Callable[[float], int], timeout: float = TIMEOUT,
                 at_rest: int = CLIENTS) -> None:
        self.timeout = timeout
        self._end = end
        self._status = 0
        self._pool = Pool(make, at_rest)
        self._own = threading.local()

    def make(self, kind: str, name: str, timeout: Optional[float] = None) -> int:
        """Makes an empty collection, and gives its place. Raises `Refused`, NameTaken where there is one."""
        line = words_of('make', kind, name)
        with self._client(timeout) as connection:
            place = reply_of(connection.ask([line], timeout)[0], line)
            self._note(connection, False)
        return place

    def open_or_make(self, kind: str, name: str, timeout: Optional[float] = None) -> None:
        """Makes an empty collection, unless there is one of the name, of whatever kind."""
        try:
            self.make(kind, name, timeout)
        except Refused as refused:
            if refused.name != 'NameTaken':
                raise

    @contextlib.contextmanager
    def transaction(self, keep: bool = True, timeout: Optional[float] = None) -> Iterator[Transaction]:
        """A transaction for `with`. It waits at the end until it is kept, unless `keep` is False."""
        t = Transaction(self, keep, timeout)
        try:
            t._begin()
            yield t
            if t._is_open:
                t.commit()
        except BaseException:                      # also where the block is dropped, as its end was interrupted
            t.abort()
            raise
        finally:
            t._let_go()

    def do(self, *calls: Tuple[Argument, ...], keep: bool = False, patience: float = 60,
           timeout: Optional[float] = None, within: Optional[float] = None) -> List[Reply]:
        """A whole transaction at once: a name with its call for each call, and `'later'` before the name to put it off. All of them
        are done, or none. While another transaction is in the way it is tried again, for so many seconds of patience.

        With `within` it waits in the server, for so many seconds at most, until no call is answered None for `nothing` and no other
        transaction is in the way: so a worker waits for a job, as in `store.do(('jobs', 'pick'), within=30)`. Once the time is over
        it is done as it stands, or `Busy` is raised. The time-out of its answer begins behind that.

        Where no answer comes it raises `Gone`, and is not sent again: it may have been carried out. What is too long for one line is
        sent as the lines of a transaction, which cannot wait."""
        if not calls:
            raise ValueError('no call')
        parts = [words_of(*call) for call in calls]
        line = ('keep ' if keep else 'do ') + '; '.join(parts)
        if within is not None:
            return self._do_within(line, keep, timeout, within)
        if len(line) <= Shared.longest:
            return patiently(lambda: self._do(line, keep, timeout), patience)
        return patiently(lambda: self._do_in_lines(parts, keep, timeout), patience)

    def _do_within(self, line: str, keep: bool, timeout: Optional[float], seconds: float) -> List[Reply]:
        seconds_of(seconds)
        end = time.monotonic() + seconds

        def attempt() -> List[Reply]:
            left = max(0.0, end - time.monotonic())
            return self._do('within %s %s' % (seconds_of(left), line), keep, timeout, left)
        return patiently(attempt, seconds)

    def _do(self, line: str, keep: bool, timeout: Optional[float], more: float = 0.0) -> List[Reply]:
        seconds = self._seconds(timeout)
        connection = self._pool.take(seconds)
        try:
            answer = connection.ask([line], seconds + more)[0]
            if answer.startswith(('refused ', 'error ')):
                reply_of(answer, line)
            self._note(connection, keep)
        finally:
            self._pool.give_back(connection)
        return [reply_of(part, line) for part in answer.split('; ')][:-1]

    def _do_in_lines(self, parts: List[str], keep: bool, timeout: Optional[float]) -> List[Reply]:
        lines = lines_of(parts)
        with self.transaction(keep, timeout) as t:
            return [reply_of(answer, line) for answer, line in zip(t._lines(lines, None), lines)]

    def transact(self, work: Callable[[Transaction], T], keep: bool = False, patience: float = 60,
                 timeout: Optional[float] = None) -> T:
        """Runs work(t) in a transaction, and commits. While another transaction is in the way all is taken back and run
        again, for so many seconds of patience."""
        def attempt() -> T:
            with self.transaction(keep, timeout) as t:
                return work(t)
        return patiently(attempt, patience)

    def keep(self, work: Callable[[Transaction], T], patience: float = 60, timeout: Optional[float] = None) -> T:
        """Runs work(t) in a transaction, and waits until it is kept."""
        return self.transact(work, keep=True, patience=patience, timeout=timeout)

    def keep_when(self, work: Callable[[Transaction], Optional[T]], seconds: float, patience: float = 60,
                  timeout: Optional[float] = None) -> Optional[T]:
        """Runs work(t) as `keep` does, again and again until it gives something, for so many seconds. What gave None is taken back, and
        None is the answer where nothing else came. The pauses grow to a fifth of a second: who waits for what the calls of one line
        find waits better by `do(.., within=..)`, which sleeps in the server."""
        def attempt() -> Optional[T]:
            with self.transaction(True, timeout) as t:
                found = work(t)
                if found is None:
                    t.abort()
            return found
        end, pause = time.monotonic() + seconds, ASK_AGAIN
        while True:
            found = patiently(attempt, patience)
            left = end - time.monotonic()
            if found is not None or left <= 0:
                return found
            time.sleep(min(pause * random.uniform(0.5, 1), left))
            pause = min(2 * pause, ASK_AGAIN_AT_LAST)

    def wait(self, timeout: Optional[float] = None) -> None:
        """Waits until what this thread last committed or made is kept. Raises `Gone` where the client that did it is gone."""
        connection: Optional[Connection] = getattr(self._own, 'last', None)
        self._pool.check()
        if connection is not None and not connection.is_settled:
            reply_of(connection.ask(['wait'], self._seconds(timeout))[0], 'wait')
        self._own.last = None

    def status(self, timeout: Optional[float] = None) -> Status:
        """How the store stands. It waits for no transaction and for nothing that is kept."""
        with self._client(timeout) as connection:
            return reply_of(connection.ask(['status'], timeout)[0], 'status')

    def session(self, timeout: Optional[float] = None) -> Session:
        """A client of this thread's own, which it has to its end, or until the session is closed."""
        session: Optional[Session] = getattr(self._own, 'session', None)
        if session is None or session.connection.state == CLOSED:
            self._own.session = session = Session(self._take(timeout))
        return session

    def close(self, timeout: Optional[float] = None) -> int:
        """Lets all clients go, and ends a child: its status is the answer, and 0 that of a server that was joined. What is open is
        taken back. A child that does not end in so many seconds is killed, which loses nothing that was told kept. From now on
        each call raises `Closed`; one that waits for its answer does so within half a second."""
        if self._pool.over != FORKED:
            self._pool.close()
            self._status = self._end(self._seconds(timeout))
        return self._status

    def _seconds(self, timeout: Optional[float]) -> float:
        return self.timeout if timeout is None else timeout

    def _take(self, timeout: Optional[float]) -> Connection:
        return self._pool.take(self._seconds(timeout))

    def _client(self, timeout: Optional[float]) -> 'contextlib.AbstractContextManager[Connection]':
        return self._pool.client(self._seconds(timeout))

    def _note(self, connection: Optional[Connection], is_kept: bool) -> None:
        """Notes whose commit this thread waits for, which keeps all before it."""
        self._own.last = None if is_kept else connection

    def __enter__(self) -> 'Store':
        return self

    def __exit__(self, *_: Any) -> None:
        self.close()


def lines_of(parts: Sequence[str]) -> List[str]:
    """The calls of one line as lines of a transaction."""
    return [part if part.startswith('later ') else 'call ' + part for part in parts]


def patiently(attempt: Callable[[], T], patience: float) -> T:
    """What the attempt gives. While it raises `Busy` it is made again, for so many seconds, and then `Busy` is raised."""
    end = time.monotonic() + patience
    pausing: Optional[Iterator[float]] = None
    while True:
        try:
            return attempt()
        except Busy:
            pausing = pausing or pauses()
            pause = next(pausing)
            if time.monotonic() + pause > end:
                raise
        time.sleep(pause)


def pauses() -> Iterator[float]:
    """Pauses that grow to 50 milliseconds, with a bit of chance, so that two do not meet again and again."""
    for turn in itertools.count():
        yield random.random() * min(0.05, 0.0002 * 2 ** min(turn, 10))


def start(program: Path, disk: Path, *options: str, timeout: Optional[float] = None, patience: Optional[float] = None,
          comes_back: bool = False) -> Store:
    """Starts a server as a child, which keeps the store in the file `disk` open until `Store.close`. The options are words of
    its command line, as `'--idle', '30'`. It is waited for so many seconds of patience until the store is open: as many as the
    time-out where that alone is named, and else 600. Then `TimedOut` is raised, and `Gone` where it does not start. What it writes to
    standard error comes to this program's own, and its last words stand in each `Gone`.

    Each call waits up to the time-out, 60 seconds where none is named. Where the server ended, one that comes back is started again
    by the next call."""
    waited = next((each for each in (patience, timeout) if each is not None), 600.0)
    seconds = TIMEOUT if timeout is None else timeout
    child = Child([os.fspath(program), 'listen', os.fspath(disk), *options], waited, comes_back)
    return Store(lambda: Shared(child, seconds), child.end, seconds)


def join(folder: Path, patience: float = TIMEOUT, timeout: float = TIMEOUT) -> Store:
    """Joins the server of a folder: `boost listen DISK FOLDER`; or by `'unix:PATH'` the gate that has the socket PATH, which serves
    more than 64 programs. It is looked for at the first call, which raises `Gone` where none is there, and `NotServed` where it does
    not serve this program within so many seconds of patience, or of the time-out where that is less. Each call waits up to the
    time-out."""
    path = path_of_gate(folder)
    if path is not None:
        return Store(lambda: Socket(path, patience, timeout), lambda _: 0, timeout, AT_DOOR)
    return Store(lambda: Pipes(folder, patience, timeout), lambda _: 0, timeout, AT_DOOR)
