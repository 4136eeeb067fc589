"""The clients that the threads of a program share."""
import contextlib
import queue
import threading
import time
import weakref
from collections import deque
from typing import Callable, Deque, Iterator, Optional

from .connections import CLIENTS, CLOSED, CLOSED_STORE, FORKED, FRESH, IN_STEP, OWNERS, SLICE, Connection
from .errors import Closed, Error, NotServed


class Turn:
    """One that stands in a line: as long as its lock is held. It is called when it is the first."""

    def __init__(self) -> None:
        self.stands = threading.Lock()
        self.called: 'queue.SimpleQueue[None]' = queue.SimpleQueue()


class Pool:
    """The clients of a store, 64 at most. Who wants one stands in a line. Those that rest are kept, but for the oldest of more
    than so many, of which all commits are kept."""

    def __init__(self, make: Callable[[], Connection], at_rest: int) -> None:
        self.make, self.at_rest = make, at_rest
        self.lock = threading.RLock()
        self.over = ''
        self.idle: Deque[Connection] = deque()
        self.all: 'weakref.WeakSet[Connection]' = weakref.WeakSet()
        self.line: Deque[Turn] = deque()
        OWNERS.add(self)

    def take(self, seconds: float) -> Connection:
        """A client that is in step. Raises `NotServed` where none was free or came in within so many seconds."""
        end = time.monotonic() + seconds
        self.check()
        with self.lock:
            connection = None if self.first() else self.pick()
        connection = connection or self.stand_in_line(end, seconds)
        if connection.state == FRESH:
            try:
                connection.come_in(max(0.0, end - time.monotonic()))
            finally:
                if connection.state == CLOSED:
                    self.call_next()
        return connection

    def stand_in_line(self, end: float, seconds: float) -> Connection:
        turn = Turn()
        try:
            with turn.stands:                      # let go whatever comes, in the middle of a `finally` too
                self.line.append(turn)
                while True:
                    with self.lock:
                        self.check()
                        connection = self.pick() if self.first() is turn else None
                    if connection:
                        return connection
                    left = end - time.monotonic()
                    if left <= 0:
                        raise NotServed('all %d clients of this store were taken for %g seconds' % (CLIENTS, seconds))
                    with contextlib.suppress(queue.Empty):
                        turn.called.get(timeout=min(SLICE, left))
        finally:
            self.call_next()

    def first(self) -> Optional[Turn]:
        """Who is the first in the line, of those that still stand there."""
        while self.line and not self.line[0].stands.locked():
            self.line.popleft()
        return self.line[0] if self.line else None

    def check(self) -> None:
        if self.over:
            raise Closed(self.over)

    def pick(self) -> Optional[Connection]:
        """One that rests and whose server is there still, or where there is room a fresh one."""
        while self.idle:
            connection = self.idle.pop()
            if connection.is_alive():
                return connection
            connection.shut()
        if sum(each.state != CLOSED for each in self.all) >= CLIENTS:
            return None
        connection = self.make()
        self.all.add(connection)
        return connection

    def call_next(self) -> None:
        with self.lock:
            turn = self.first()
        if turn:
            turn.called.put(None)

    def give_back(self, connection: Connection) -> None:
        surplus = None
        with self.lock:
            if self.over:
                connection.close()
            elif not connection.is_of_use():
                connection.shut()
            else:
                self.idle.append(connection)
                if len(self.idle) > self.at_rest and not self.line:
                    surplus = self.idle.popleft()
            if self.line:                          # who joins it later finds the client that rests
                self.call_next()
        if surplus:
            self.settle(surplus)

    def settle(self, connection: Connection) -> None:
        """Closes a client where all that it committed is kept, and else lets it rest on."""
        with contextlib.suppress(Error):
            connection.is_settled = connection.ask(['kept'], 1)[0] != 'not yet'
        with self.lock:
            if connection.is_settled or self.over:
                connection.shut()
            elif connection.state == IN_STEP:
                self.idle.appendleft(connection)

    @contextlib.contextmanager
    def client(self, seconds: float) -> Iterator[Connection]:
        connection = self.take(seconds)
        try:
            yield connection
        finally:
            self.give_back(connection)

    def close(self) -> None:
        with self.lock:
            self.over = self.over or CLOSED_STORE
            self.idle.clear()
            for connection in list(self.all):
                connection.close()
        self.call_next()                           # who leaves the line calls the one behind

    def give_up(self) -> None:
        """In a process that was forked off."""
        self.lock = threading.RLock()
        self.over = FORKED
