"""The client for asyncio, over the socket of a gate: docs/GATE.md.

    import asyncio
    import boost.aio

    async def main():
        async with boost.aio.join('unix:/run/boost-gate/socket') as store:
            await store.open_or_make('counter', 'hits')
            async with store.transaction() as t:         # commits at the end, and waits until that is kept
                await t.call('hits', 'bump', 1)
            print(await store.do(('hits', 'read')))

    asyncio.run(main())

It has the calls of `boost`, with `await`, and raises the same. Any number of tasks of one loop may use a store, which share its 64
connections, each for a transaction; who finds none waits its turn. A call of a task that is cancelled closes its connection, as a
time-out does: so no answer is ever taken for that of another line, and what it had open is rolled back.
"""
import asyncio
import os
import time
import weakref
from collections import deque
from types import TracebackType
from typing import Any, Awaitable, Callable, Deque, List, Optional, Sequence, Set, Tuple, Type, TypeVar

from . import NOTHING_OPEN, lines_of, pauses
from .connections import CLIENTS, CLOSED_STORE, HELLO, TIMEOUT, path_of_gate
from .errors import Busy, Closed, Error, Gone, Lost, NotServed, Refused, TimedOut
from .lines import LONGEST, Argument, Reply, Status, bytes_of_line, reply_of, seconds_of, words_of

__all__ = ['join', 'Store', 'Transaction']

T = TypeVar('T')
# How many bytes an answer may have: that of a line that gets values, and nothing else.
ANSWER = 1 << 22
# How many connections a store keeps while it does not use them, of the 1,024 that all programs of a gate share.
AT_REST = 8


class Connection:
    """One program at a gate. It is closed by whatever comes between a line and its whole answer, and then stays so."""

    def __init__(self, path: str) -> None:
        self.path = path
        self.over: Optional[Error] = None          # why it is of no use any more
        self.lock = asyncio.Lock()                 # held between a line and its answer
        self.reader: Optional[asyncio.StreamReader] = None
        self.writer: Optional[asyncio.StreamWriter] = None

    async def come_in(self, seconds: float) -> None:
        """Comes in. Raises `NotServed` where that takes longer, and `Gone`."""
        late = NotServed('the gate at %s did not serve this program within %g seconds' % (self.path, seconds))
        try:
            self.reader, self.writer = await asyncio.open_unix_connection(self.path, limit=ANSWER)
        except OSError as error:
            raise Gone('no gate can be reached at %s: %s' % (self.path, error)) from error
        if (await self.ask([], seconds, late, 1))[0] != HELLO:
            self.close(Gone('no server of this kind at ' + self.path))
            self.check()

    async def ask(self, lines: Sequence[str], seconds: float, late: Optional[Error] = None, more: int = 0) -> List[str]:
        """Sends lines, and gives the answer of each, and so many more. Each has so many seconds."""
        data = [bytes_of_line(line, LONGEST) for line in lines]
        async with self.lock:
            self.check()
            try:
                assert self.writer
                self.writer.write(b''.join(data))  # with no `drain`: the gate reads on as answers are read, which is now
                answers = [await self.answer(seconds, late) for _ in range(len(data) + more)]
            except BaseException:
                self.close(Gone('this client was closed, as an answer did not come'))
                raise
            return answers

    async def answer(self, seconds: float, late: Optional[Error]) -> str:
        assert self.reader
        timer = None
        if seconds != float('inf'):
            error = late or TimedOut('no answer within %g seconds' % seconds)
            timer = asyncio.get_running_loop().call_later(seconds, self.close, error)
        try:
            return (await self.reader.readuntil(b'\n'))[:-1].decode(errors='replace')
        except (OSError, asyncio.IncompleteReadError, asyncio.LimitOverrunError) as error:
            raise self.over or Gone('the server went away') from error
        finally:
            if timer:
                timer.cancel()

    def check(self) -> None:
        if self.over:
            raise self.over

    def is_alive(self) -> bool:
        return self.over is None and self.reader is not None and not self.reader.at_eof() and not self.lock.locked()

    def close(self, why: Error) -> None:
        """Closes it at once; what it has open is rolled back."""
        self.over = self.over or why
        if self.writer:
            self.writer.transport.abort()


class Line:
    """So many places, and who waits for one, in order."""

    def __init__(self, places: int) -> None:
        self.places = places
        self.waiting: 'Deque[asyncio.Future[None]]' = deque()

    async def enter(self, seconds: float) -> None:
        if self.places > 0:
            self.places -= 1
            return
        loop = asyncio.get_running_loop()
        turn: 'asyncio.Future[None]' = loop.create_future()
        late = NotServed('all %d connections of this store were taken for %g seconds' % (CLIENTS, seconds))
        timer = None if seconds == float('inf') else loop.call_later(seconds, self.fail, turn, late)
        self.waiting.append(turn)
        try:
            await turn
        except BaseException:
            if turn.done() and not turn.cancelled() and not turn.exception():
                self.leave()                       # its turn had come as it was cancelled
            raise
        finally:
            if timer:
                timer.cancel()

    def leave(self) -> None:
        """Gives a place to the first of those who still wait."""
        while self.waiting:
            turn = self.waiting.popleft()
            if not turn.done():
                turn.set_result(None)
                return
        self.places += 1

    def fail(self, turn: 'asyncio.Future[None]', why: Error) -> None:
        if not turn.done():
            turn.set_exception(why)

    def fail_all(self, why: Error) -> None:
        for turn in list(self.waiting):
            self.fail(turn, why)


class Transaction:
    """`async with store.transaction() as t:` begins, and commits at the end; an exception in the block takes all back. `place` is
    that of the commit, once there is one. It has a connection of its own as long."""

    def __init__(self, store: 'Store', keep: bool, timeout: Optional[float]) -> None:
        self.place: Optional[int] = None
        self._store, self._keep, self._timeout = store, keep, timeout
        self._connection: Optional[Connection] = None
        self._is_open = False

    async def call(self, name: str, *call: Argument, timeout: Optional[float] = None) -> Reply:
        """Makes a call on the collection of the name. After a refused one the transaction goes on."""
        return await self._line(words_of('call', name, *call), timeout)

    async def later(self, name: str, *call: Argument, timeout: Optional[float] = None) -> None:
        """Puts a call off to the commit."""
        await self._line(words_of('later', name, *call), timeout)

    async def commit(self, timeout: Optional[float] = None) -> None:
        """Commits before the end of the block. Where that is refused, all is taken back."""
        connection = self._connection
        try:
            self.place = await self._line('keep' if self._keep else 'commit', timeout)
        except Lost:                               # it is in effect, and the server ends
            raise
        except Refused:                            # it is open still
            await self.abort()
            raise
        self._is_open = False
        self._store._note(connection, self._keep)

    async def finish(self, *calls: Tuple[Argument, ...], timeout: Optional[float] = None) -> List[Reply]:
        """Makes these calls and commits, before the end of the block: all in one round trip. The replies of the calls. Where one of them
        is refused, or the commit, all is taken back, and so what was called before. What is too long for one line is sent as
        several."""
        if not calls:
            raise ValueError('no call')
        parts = [words_of(*call) for call in calls]
        line = ('keep ' if self._keep else 'do ') + '; '.join(parts)
        if len(line) > LONGEST:
            return await self._finish_in_lines(parts, timeout)
        connection = self._connection
        try:
            answer = (await self._lines([line], timeout))[0]
            if answer.startswith(('refused ', 'error ')):
                reply_of(answer, line)
        except Lost:                               # it is in effect, and the server ends
            raise
        except Refused:                            # nothing is open but where memory was wanting for the line itself
            await self.abort()
            raise
        *replies, self.place = [reply_of(part, line) for part in answer.split('; ')]
        self._is_open = False
        self._store._note(connection, self._keep)
        return replies

    async def _finish_in_lines(self, parts: List[str], timeout: Optional[float]) -> List[Reply]:
        lines = lines_of(parts)
        try:
            replies = [reply_of(answer, line) for answer, line in zip(await self._lines(lines, timeout), lines)]
        except Refused:
            await self.abort()
            raise
        await self.commit(timeout)
        return replies

    async def abort(self, timeout: Optional[float] = None) -> None:
        """Takes all back before the end of the block."""
        if self._is_open:
            try:
                await self._line('abort', timeout)
                self._is_open = False
            except Error:                          # the connection is closed, which takes it back
                pass

    async def _line(self, text: str, timeout: Optional[float]) -> Reply:
        return reply_of((await self._lines([text], timeout))[0], text)

    async def _lines(self, texts: Sequence[str], timeout: Optional[float]) -> List[str]:
        if self._connection is None or not self._is_open:
            raise Refused(NOTHING_OPEN)
        seconds = self._store._seconds(self._timeout if timeout is None else timeout)
        answers = await self._connection.ask(texts, seconds)
        if any(answer == 'error Idle' or answer.startswith(NOTHING_OPEN) for answer in answers):
            self._is_open = False
        return answers

    async def __aenter__(self) -> 'Transaction':
        self._connection = await self._store._take(self._store._seconds(self._timeout))
        self._is_open = True
        try:
            await self._line('begin', None)
        except BaseException as error:
            self._is_open = self._is_open and not isinstance(error, Refused)
            self._let_go()
            raise
        return self

    async def __aexit__(self, kind: Optional[Type[BaseException]], error: Optional[BaseException],
                        trace: Optional[TracebackType]) -> None:
        try:
            if kind is None and self._is_open:
                await self.commit()
            elif kind is not None and issubclass(kind, Exception):
                await self.abort()
        finally:
            self._let_go()

    def _let_go(self) -> None:
        connection, self._connection = self._connection, None
        if connection is not None:
            if self._is_open:
                connection.close(Gone('the transaction was not ended'))
            self._is_open = False
            self._store._give_back(connection)


class Store:
    """A store that a gate serves, for any number of tasks of one loop. `timeout` is for how many seconds a call waits that names
    none: so long for a connection, and as long again for each answer."""

    def __init__(self, path: str, patience: float = TIMEOUT, timeout: float = TIMEOUT) -> None:
        self.path, self.patience, self.timeout = path, patience, timeout
        self._line: Optional[Line] = None
        self._resting: List[Connection] = []
        self._all: Set[Connection] = set()
        self._last: 'weakref.WeakKeyDictionary[Any, Connection]' = weakref.WeakKeyDictionary()
        self._over = False

    async def make(self, kind: str, name: str, timeout: Optional[float] = None) -> int:
        """Makes an empty collection, and gives its place. Raises `Refused`, NameTaken where there is one."""
        line = words_of('make', kind, name)
        return int(reply_of(await self._ask(line, timeout, False), line))

    async def open_or_make(self, kind: str, name: str, timeout: Optional[float] = None) -> None:
        """Makes an empty collection, unless there is one of the name, of whatever kind."""
        try:
            await self.make(kind, name, timeout)
        except Refused as refused:
            if refused.name != 'NameTaken':
                raise

    def transaction(self, keep: bool = True, timeout: Optional[float] = None) -> Transaction:
        """A transaction for `async with`. It waits at the end until it is kept, unless `keep` is False."""
        return Transaction(self, keep, timeout)

    async def do(self, *calls: Tuple[Argument, ...], keep: bool = False, patience: float = 60,
                 timeout: Optional[float] = None, within: Optional[float] = None) -> List[Reply]:
        """A whole transaction at once: a name with its call for each call, and `'later'` before the name to put it off. All of them
        are done, or none. While another transaction is in the way it is tried again, for so many seconds of patience. Where no
        answer comes it raises `Gone`, and is not sent again: it may have been carried out.

        With `within` it waits in the server, for so many seconds at most, until no call is answered None for `nothing` and no other
        transaction is in the way. Once the time is over it is done as it stands, or `Busy` is raised. The time-out of its answer
        begins behind that. A task that is cancelled meanwhile closes its connection, and then nothing is done, or all was."""
        if not calls:
            raise ValueError('no call')
        parts = [words_of(*call) for call in calls]
        line = ('keep ' if keep else 'do ') + '; '.join(parts)
        if within is not None:
            return await self._do_within(line, timeout, keep, within)

        async def at_once() -> List[Reply]:
            answer = await self._ask(line, timeout, keep)
            return [reply_of(part, line) for part in answer.split('; ')][:-1]

        async def in_lines() -> List[Reply]:
            lines = lines_of(parts)
            async with self.transaction(keep, timeout) as t:
                return [reply_of(answer, line) for answer, line in zip(await t._lines(lines, None), lines)]
        return await patiently(at_once if len(line) <= LONGEST else in_lines, patience)

    async def _do_within(self, line: str, timeout: Optional[float], keep: bool, seconds: float) -> List[Reply]:
        seconds_of(seconds)
        end = time.monotonic() + seconds

        async def attempt() -> List[Reply]:
            left = max(0.0, end - time.monotonic())
            answer = await self._ask('within %s %s' % (seconds_of(left), line), timeout, keep, left)
            return [reply_of(part, line) for part in answer.split('; ')][:-1]
        return await patiently(attempt, seconds)

    async def transact(self, work: Callable[[Transaction], Awaitable[T]], keep: bool = False, patience: float = 60,
                       timeout: Optional[float] = None) -> T:
        """Awaits work(t) in a transaction, and commits. While another transaction is in the way all is taken back and run again,
        for so many seconds of patience."""
        async def attempt() -> T:
            async with self.transaction(keep, timeout) as t:
                return await work(t)
        return await patiently(attempt, patience)

    async def keep(self, work: Callable[[Transaction], Awaitable[T]], patience: float = 60, timeout: Optional[float] = None) -> T:
        """Awaits work(t) in a transaction, and waits until it is kept."""
        return await self.transact(work, True, patience, timeout)

    async def wait(self, timeout: Optional[float] = None) -> None:
        """Waits until what this task last committed or made is kept. Raises `Gone` where the connection that did it is gone."""
        connection = self._last.get(asyncio.current_task())
        if connection is not None:
            reply_of((await connection.ask(['wait'], self._seconds(timeout)))[0], 'wait')

    async def status(self, timeout: Optional[float] = None) -> Status:
        """How the store stands. It waits for no transaction and for nothing that is kept."""
        found: Status = reply_of(await self._ask('status', timeout, True), 'status')
        return found

    async def close(self) -> None:
        """Closes all connections, and what is open is rolled back. From now on each call raises `Closed`."""
        self._over = True
        for connection in list(self._all):
            connection.close(Closed(CLOSED_STORE))
        self._resting.clear()
        if self._line:
            self._line.fail_all(Closed(CLOSED_STORE))
        await asyncio.sleep(0)                     # in which the loop closes them

    async def __aenter__(self) -> 'Store':
        return self

    async def __aexit__(self, *_: Any) -> None:
        await self.close()

    async def _ask(self, line: str, timeout: Optional[float], is_kept: bool, more: float = 0.0) -> str:
        """Asks one line over a connection, whose answer may take so many seconds more. Raises what its answer refuses."""
        seconds = self._seconds(timeout)
        connection = await self._take(seconds)
        try:
            answer = (await connection.ask([line], seconds + more))[0]
        finally:
            self._give_back(connection)
        if answer.startswith(('refused ', 'error ')):
            reply_of(answer, line)
        if line != 'status':
            self._note(connection, is_kept)
        return answer

    async def _take(self, seconds: float) -> Connection:
        """A connection that is in step. Raises `NotServed` where none was free or came in within so many seconds."""
        end = time.monotonic() + seconds
        self._check()
        self._line = self._line or Line(CLIENTS)
        await self._line.enter(seconds)
        try:
            self._check()
            return self._rested() or await self._fresh(max(0.0, min(end - time.monotonic(), self.patience)))
        except BaseException:
            self._line.leave()
            raise

    def _rested(self) -> Optional[Connection]:
        """One that rests and whose gate is there still."""
        while self._resting:
            connection = self._resting.pop()
            if connection.is_alive():
                return connection
            self._forget(connection)
        return None

    async def _fresh(self, seconds: float) -> Connection:
        connection = Connection(self.path)
        self._all.add(connection)
        try:
            await connection.come_in(seconds)
            self._check()
        except BaseException:
            self._forget(connection)
            raise
        return connection

    def _forget(self, connection: Connection) -> None:
        connection.close(Gone('this client was closed'))
        self._all.discard(connection)

    def _give_back(self, connection: Connection) -> None:
        if connection.over or self._over:
            self._forget(connection)
        else:
            self._resting.append(connection)
        assert self._line
        self._line.leave()
        if len(self._resting) > AT_REST:           # the oldest whose last commit no task may wait for
            waited = set(self._last.values())
            surplus = next((each for each in self._resting if each not in waited), None)
            if surplus:
                self._resting.remove(surplus)
                self._forget(surplus)

    def _note(self, connection: Optional[Connection], is_kept: bool) -> None:
        """Notes whose commit this task waits for, which keeps all before it."""
        task = asyncio.current_task()
        self._last.pop(task, None)
        if connection is not None and not is_kept:
            self._last[task] = connection

    def _check(self) -> None:
        if self._over:
            raise Closed(CLOSED_STORE)

    def _seconds(self, timeout: Optional[float]) -> float:
        return self.timeout if timeout is None else timeout


async def patiently(attempt: Callable[[], Awaitable[T]], patience: float) -> T:
    """What the attempt gives. While it raises `Busy` it is made again, for so many seconds, and then `Busy` is raised."""
    end = time.monotonic() + patience
    for pause in pauses():
        try:
            return await attempt()
        except Busy:
            if time.monotonic() + pause > end:
                raise
            await asyncio.sleep(pause)
    raise AssertionError


def join(place: str, patience: float = TIMEOUT, timeout: float = TIMEOUT) -> Store:
    """Joins the gate of the socket that `'unix:PATH'` names. It is looked for at the first call, which raises `Gone` where none is
    there, and `NotServed` where it does not serve this program within so many seconds of patience, or of the time-out where that is
    less."""
    path = path_of_gate(place)
    if path is None:
        raise ValueError("asyncio wants the socket of a gate, 'unix:PATH', and no folder: %r" % (place,))
    return Store(os.path.abspath(path), patience, timeout)
