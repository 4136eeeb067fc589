"""Tests of the client for asyncio without a store: a gate of a few lines answers."""
import asyncio
import contextlib
import os
import sys
import tempfile
import unittest

sys.path.insert(0, os.path.join(os.path.dirname(os.path.abspath(__file__)), '..'))
import boost  # noqa: E402
import boost.aio  # noqa: E402


class Gate:
    """Counts bumps that are committed. `later` answers after a while, `never` not at all, `cut` with half a line and the end."""

    def __init__(self, path):
        self.path, self.total, self.live, self.most, self.ended, self.lines = path, 0, 0, 0, 0, []

    async def __aenter__(self):
        self.server = await asyncio.start_unix_server(self.serve, self.path)
        return self

    async def __aexit__(self, *_):
        self.server.close()

    async def serve(self, reader, writer):
        with contextlib.suppress(asyncio.CancelledError, ConnectionError):      # as the loop ends
            await self.answer(reader, writer)
        writer.close()

    async def answer(self, reader, writer):
        bumps, is_open = 0, False
        self.live += 1
        self.most = max(self.most, self.live)
        writer.write(b'hello boost 1\n')
        async for data in reader:
            line = data.decode().strip()
            self.lines.append(line)
            answer = 'done'
            if line == 'begin':
                bumps, is_open, answer = 0, True, 'begun 1'
            elif line.startswith('call hits bump '):
                bumps += int(line.split()[-1])
            elif line.startswith(('keep hits bump ', 'do hits bump ')) and is_open:
                more = sum(int(part.split()[-1]) for part in line.split('; '))
                self.total, is_open = self.total + bumps + more, False
                answer = 'done; ' * len(line.split('; ')) + ('kept ' if line.startswith('keep') else 'place ') + str(self.total)
            elif line == 'keep busy bump 1':
                is_open, answer = False, 'refused 9 Busy 1'
            elif line in ('keep', 'commit'):
                self.total, is_open = self.total + bumps, False
                answer = ('kept ' if line == 'keep' else 'place ') + str(self.total)
            elif line == 'abort':
                is_open, answer = False, 'aborted' if is_open else 'refused 10 NoSuchTxn'
            elif line == 'do hits read':
                answer = 'total %d; place 1' % self.total
            elif line == 'do hits cut':
                writer.write(b'total 12')
                break
            elif line == 'do hits never':
                continue
            elif line.startswith('within '):
                answer = 'id 7; place 9'
            elif line == 'do busy read':
                answer = 'refused 9 Busy 1'
            elif line == 'wait':
                answer = 'kept'
            await asyncio.sleep(0.001)
            writer.write(answer.encode() + b'\n')
        self.ended += is_open
        self.live -= 1


def at_a_gate(test):
    """A test that is a coroutine, with a gate and a store."""
    def made(self):
        async def run():
            with tempfile.TemporaryDirectory() as room:
                async with Gate(os.path.join(room, 'socket')) as gate:
                    async with boost.aio.join('unix:' + gate.path, timeout=10) as store:
                        await asyncio.wait_for(test(self, gate, store), 30)
        asyncio.run(run())
    made.__name__ = test.__name__
    return made


class Aio(unittest.TestCase):
    @at_a_gate
    async def test_a_transaction(self, gate, store):
        async with store.transaction() as t:
            self.assertIsNone(await t.call('hits', 'bump', 5))
        self.assertEqual(t.place, 5)
        self.assertEqual(await store.do(('hits', 'read')), [5])
        with self.assertRaises(KeyError):
            async with store.transaction() as t:
                await t.call('hits', 'bump', 100)
                raise KeyError
        self.assertEqual((gate.total, gate.lines[-1], gate.live), (5, 'abort', 1))
        with self.assertRaises(boost.Refused):
            await t.call('hits', 'bump', 1)
        async with store.transaction(keep=False) as t:
            await t.call('hits', 'bump', 1)
        await store.wait()
        self.assertEqual(gate.lines[-2:], ['commit', 'wait'])

    @at_a_gate
    async def test_finished_in_one_round_trip(self, gate, store):
        async with store.transaction() as t:
            await t.call('hits', 'bump', 5)
            self.assertEqual(await t.finish(('hits', 'bump', 1), ('hits', 'bump', 2)), [None, None])
        self.assertEqual((t.place, gate.total), (8, 8))
        self.assertEqual(gate.lines, ['begin', 'call hits bump 5', 'keep hits bump 1; hits bump 2'])
        with self.assertRaises(boost.Refused):
            await t.finish(('hits', 'bump', 1))
        with self.assertRaises(boost.Busy):
            async with store.transaction() as t:
                await t.call('hits', 'bump', 100)
                await t.finish(('busy', 'bump', 1))
        self.assertEqual((gate.total, gate.lines[-1], gate.live), (8, 'abort', 1))
        async with store.transaction(keep=False) as t:
            await t.finish(*[('hits', 'bump', 1)] * 500)   # longer than a line
        self.assertEqual((gate.total, gate.lines[-1]), (508, 'commit'))

    @at_a_gate
    async def test_who_waits_says_how_long(self, gate, store):
        self.assertEqual(await store.do(('jobs', 'pick'), within=30), [7])
        self.assertRegex(gate.lines[-1], r'^within (30\.000|29\.9\d\d) do jobs pick$')
        with self.assertRaises(ValueError):
            await store.do(('jobs', 'pick'), within=-1)

    @at_a_gate
    async def test_many_tasks_share_64_connections(self, gate, store):
        async def work(t):
            await t.call('hits', 'bump', 1)
            return 7
        told = await asyncio.gather(*[store.keep(work) for _ in range(500)])
        self.assertEqual((told, gate.total), ([7] * 500, 500))
        self.assertEqual(gate.most, 64)
        await asyncio.sleep(0.1)
        self.assertEqual(gate.live, boost.aio.AT_REST)

    @at_a_gate
    async def test_a_cancelled_task_closes_its_connection(self, gate, store):
        async def never():
            await store.do(('hits', 'never'))

        async def sleeps():
            async with store.transaction() as t:
                await t.call('hits', 'bump', 100)
                await asyncio.sleep(100)
        for work in (never, sleeps):
            task = asyncio.ensure_future(work())
            await asyncio.sleep(0.1)
            task.cancel()
            with self.assertRaises(asyncio.CancelledError):
                await task
            self.assertEqual(await store.do(('hits', 'read')), [0])
        await asyncio.sleep(0.1)
        self.assertEqual((gate.live, gate.ended), (1, 1))

    @at_a_gate
    async def test_cancelled_at_any_moment(self, gate, store):
        """No answer comes to another line, and no place in the line is lost."""
        async def work(number):
            async with store.transaction() as t:
                await t.call('hits', 'bump', 0)
            self.assertEqual(await store.do(('hits', 'read')), [0])
        for turn in range(80):
            tasks = [asyncio.ensure_future(work(number)) for number in range(100)]
            for _ in range(turn % 20):
                await asyncio.sleep(0.0002)
            for task in tasks[::2] if turn % 2 else tasks:
                task.cancel()
            told = await asyncio.gather(*tasks, return_exceptions=True)
            self.assertTrue(all(each is None or isinstance(each, asyncio.CancelledError) for each in told), told)
        self.assertEqual((store._line.places, list(store._line.waiting)), (64, []))
        self.assertEqual(await store.do(('hits', 'read')), [0])

    @at_a_gate
    async def test_times(self, gate, store):
        with self.assertRaises(boost.TimedOut) as found:
            await store.do(('hits', 'never'), timeout=0.1)
        self.assertNotIsInstance(found.exception, boost.NotServed)
        self.assertEqual(await store.do(('hits', 'read'), timeout=float('inf')), [0])
        held = [await store._take(1) for _ in range(64)]
        with self.assertRaises(boost.NotServed):
            await store.do(('hits', 'read'), timeout=0.1)
        order = []

        async def waits(number):
            connection = await store._take(10)
            order.append(number)
            store._give_back(connection)
        tasks = [asyncio.ensure_future(waits(number)) for number in range(20)]
        await asyncio.sleep(0.05)
        tasks[3].cancel()
        store._give_back(held.pop())
        await asyncio.gather(*tasks, return_exceptions=True)
        self.assertEqual(order, [number for number in range(20) if number != 3])
        for connection in held:
            store._give_back(connection)

    @at_a_gate
    async def test_what_is_raised(self, gate, store):
        with self.assertRaises(boost.Gone):
            await store.do(('hits', 'cut'))
        with self.assertRaises(boost.Busy):
            await store.do(('busy', 'read'), patience=0.05)
        with self.assertRaises(ValueError):
            await store.do(('hits', 'x\ny'))
        with self.assertRaises(ValueError):
            await store.do()
        with self.assertRaises(ValueError):
            boost.aio.join('/run/boost')
        none = boost.aio.join('unix:/nowhere')
        with self.assertRaises(boost.Gone):
            await none.status()
        await store.close()
        with self.assertRaises(boost.Closed):
            await store.do(('hits', 'read'))

    @at_a_gate
    async def test_closed_while_tasks_wait(self, gate, store):
        tasks = [asyncio.ensure_future(store.do(('hits', 'never'))) for _ in range(100)]
        await asyncio.sleep(0.1)
        await store.close()
        told = await asyncio.gather(*tasks, return_exceptions=True)
        self.assertEqual({type(each) for each in told}, {boost.Closed})

    @at_a_gate
    async def test_who_does_not_serve(self, gate, store):
        async def silent(reader, writer):
            await reader.read()
            writer.close()
        path = gate.path + '-silent'
        server = await asyncio.start_unix_server(silent, path)
        other = boost.aio.join('unix:' + path, patience=0.1)
        with self.assertRaises(boost.NotServed):
            await other.do(('hits', 'read'))
        self.assertEqual((other._line.places, len(other._all)), (64, 0))
        server.close()


if __name__ == '__main__':
    unittest.main()
