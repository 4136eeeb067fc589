"""Tests of the client without a server of a store: `python3 -m unittest discover -s clients/python/tests`.

A program of a few lines stands for a child, and a thread of this process for a server at a door.
"""
import fcntl
import os
import pickle
import random
import signal
import socket
import sys
import tempfile
import threading
import time
import unittest

sys.path.insert(0, os.path.join(os.path.dirname(os.path.abspath(__file__)), '..'))
import boost  # noqa: E402
from boost.connections import IN_STEP, Connection  # noqa: E402
from boost.lines import AT_ONCE, batches, bytes_of_line, reply_of, seconds_of, words_of  # noqa: E402
from boost.pool import Pool  # noqa: E402

# A server that answers as often as a line asks: `say WORDS`, twice where it is `twice WORDS`; `nothing`, and `end`.
ECHO = '''#!%s
import sys
print('- hello boost 1', flush=True)
for line in sys.stdin:
    if line == 'end\\n':
        break
    tag, verb, *words = line.split()
    if verb == 'bye':
        words = ['bye']
    if verb != 'nothing':
        sys.stdout.write((tag + ' ' + ' '.join(words) + '\\n') * (2 if verb == 'twice' else 1))
        sys.stdout.flush()
''' % sys.executable


class Words(unittest.TestCase):
    def test_arguments_are_words(self):
        self.assertEqual(words_of('call', 'm', 'put', 1, b'\xc0\xff'), 'call m put 1 c0ff')
        self.assertEqual(words_of('m', 'put', 2 ** 64 - 1, b''), 'm put 18446744073709551615 -')
        self.assertEqual(words_of('m', 'put', 1, bytearray(b'a'), memoryview(b'b')), 'm put 1 61 62')

    def test_only_a_bump_has_a_sign(self):
        self.assertEqual(words_of('hits', 'bump', -2 ** 63), 'hits bump -9223372036854775808')
        self.assertEqual(words_of('later', 'hits', 'bump', -1), 'later hits bump -1')
        for call in (('hits', 'bump', 2 ** 63), ('ids', 'add', -1), ('ids', 'add', 2 ** 64), ('credit', 'spend', 1, -1)):
            with self.assertRaises(ValueError):
                words_of(*call)

    def test_no_word_brings_another_one(self):
        for word in ('', ' ', 'a b', 'a;', ';', 'a\n', '\r', '\t', '\0', '\x7f', 'ä', '\u2028', '\ud800'):
            with self.assertRaises(ValueError, msg=repr(word)):
                words_of('m', word)
        for word in (True, False, 1.0, None, [], {}):
            with self.assertRaises(TypeError, msg=repr(word)):
                words_of('m', word)

    def test_seconds_are_a_word(self):
        for seconds, word in ((0, '0.000'), (30, '30.000'), (0.5, '0.500'), (0.0004, '0.000'), (1.9999, '2.000'), (86400, '86400.000')):
            self.assertEqual(seconds_of(seconds), word)
        for seconds in (-0.001, 86400.001, float('inf'), float('nan')):
            with self.assertRaises(ValueError, msg=repr(seconds)):
                seconds_of(seconds)

    def test_a_line_is_one_and_is_answered(self):
        self.assertEqual(bytes_of_line('do hits read', 20), b'do hits read\n')
        self.assertEqual(bytes_of_line('x' * 20, 20), b'x' * 20 + b'\n')
        for line in ('', '#', '# a remark', 'a\nb', 'a\n', 'a\r', '\0', 'x' * 21, 'ä' * 11, '\ud800'):
            with self.assertRaises(ValueError, msg=repr(line)):
                bytes_of_line(line, 20)

    def test_batches_are_whole_lines(self):
        lines = [b'x' * length + b'\n' for length in range(1, 4096, 7)]
        found = list(batches(lines))
        self.assertEqual(b''.join(found), b''.join(lines))
        self.assertTrue(all(len(batch) <= AT_ONCE and batch.endswith(b'\n') for batch in found))
        self.assertEqual(list(batches([])), [])


class Answers(unittest.TestCase):
    def test_values(self):
        for answer, value in (('yes', True), ('no', False), ('nothing', None), ('done', None), ('kept', True), ('kept 7', 7),
                              ('not yet', False), ('no ticket', None), ('total -5', -5), ('id 0', 0), ('place 3', 3), ('begun 2', 2),
                              ('item 3 17', (3, 17)), ('value c0ff', b'\xc0\xff'), ('value -', b''), ('entry 4 -', (4, b'')),
                              ('queued', True), ('absent', False), ('done; total 6; place 3', [None, 6, 3])):
            self.assertEqual(reply_of(answer), value, answer)

    def test_status(self):
        text = 'format 1; area 1048576; in_use 0; used 5123; live 1; waiting 3; next 12; wear 40; commits 9; '\
            'sleeping 2; busy map 3; busy queue 1; collection map m 3; new 7'
        status = reply_of(text)
        self.assertEqual((status.area, status.wear, status.failed, status.collections), (1048576, 40, False, [('map', 'm', 3)]))
        self.assertEqual((status.commits, status.aborts, status.sleeping, status.busy), (9, 0, 2, {'map': 3, 'queue': 1}))
        self.assertEqual(reply_of('format 1; area 1; in_use 0; used 1; live 0; waiting 0; next 1; wear 0').busy, {})
        self.assertTrue(reply_of('failed; ' + text).failed)
        self.assertTrue(reply_of(text + '; failed').failed)

    def test_refusals(self):
        for answer, kind, number, name, cause in (
                ('refused 7 WrongKind', boost.Refused, 7, 'WrongKind', ''), ('refused 9 Busy 12', boost.Busy, 9, 'Busy', '12'),
                ('refused 12 TooManyLive', boost.Busy, 12, 'TooManyLive', ''), ('refused 23 Lost', boost.Lost, 23, 'Lost', ''),
                ('refused 23 Lost: Full', boost.Lost, 23, 'Lost', 'Full'), ('refused 17 Damaged 96', boost.Refused, 17, 'Damaged', '96'),
                ('refused 23 Lost: Fault, No space left on device (os error 28)', boost.Lost, 23, 'Lost',
                 'Fault, No space left on device (os error 28)')):
            with self.assertRaises(kind) as found:
                reply_of(answer)
            refused = found.exception
            self.assertEqual((type(refused), refused.number, refused.name, refused.cause), (kind, number, name, cause))
            self.assertEqual(str(refused), answer)

    def test_errors(self):
        with self.assertRaises(boost.Idle):
            reply_of('error Idle')
        for reason in ('NotUnderstood', 'NotUnderstood: bunp: no call of a collection', 'LineTooLong'):
            with self.assertRaises(boost.Misunderstood) as found:
                reply_of('error ' + reason, 'do hits bunp 1')
            self.assertEqual(found.exception.reason, reason)
            self.assertIn(reason, str(found.exception))
            self.assertIn('do hits bunp 1', str(found.exception))

    def test_unknown_answers(self):
        for answer in ('', 'seven', 'total', 'total x', 'item 1', 'value xy', 'format 1'):
            with self.assertRaises(boost.Error, msg=answer):
                reply_of(answer)

    def test_one_base(self):
        kinds = [getattr(boost, name) for name in boost.__all__ if isinstance(getattr(boost, name), type)]
        raised = [kind for kind in kinds if issubclass(kind, Exception)]
        self.assertGreaterEqual(len(raised), 9)
        self.assertTrue(all(issubclass(kind, boost.Error) for kind in raised))
        for error in (boost.Busy('refused 9 Busy 1'), boost.Misunderstood('NotUnderstood', 'x'), boost.TimedOut('late')):
            again = pickle.loads(pickle.dumps(error))
            self.assertEqual((type(again), str(again), vars(again)), (type(error), str(error), vars(error)))


class OverPipes(unittest.TestCase):
    def start(self, text=ECHO, **how):
        room = tempfile.TemporaryDirectory()
        self.addCleanup(room.cleanup)
        program = os.path.join(room.name, 'program')
        with open(program, 'w', encoding='utf-8') as file:
            file.write(text)
        os.chmod(program, 0o755)
        store = boost.start(program, room.name, **how)
        self.addCleanup(store.close)
        return store

    def test_answers_come_to_who_asked(self):
        store = self.start()
        self.assertEqual(store.session().lines(['say total %d' % n for n in range(3000)]), ['total %d' % n for n in range(3000)])
        wrong = []

        def asks(number):
            with boost.Session(store._take(None)) as session:
                wrong.extend(n for n in range(100) if session.line('say total %d' % (1000 * number + n)) != 1000 * number + n)
        threads = [threading.Thread(target=asks, args=(number,)) for number in range(20)]
        for thread in threads:
            thread.start()
        for thread in threads:
            thread.join()
        self.assertEqual(wrong, [])
        self.assertEqual(store.close(), 0)

    def test_late_answers_come_to_nobody(self):
        store = self.start()
        session = boost.Session(store._take(None))
        with self.assertRaises(boost.TimedOut):
            session.line('nothing', timeout=0.1)
        with self.assertRaises(boost.Gone):
            session.line('say total 1')
        for n in range(130):                       # each number of a client is used again, behind its bye
            with boost.Session(store._take(None)) as other:
                self.assertEqual(other.line('say total %d' % n), n)

    def test_answers_that_nobody_asked_for(self):
        store = self.start()
        with store._client(None) as connection:
            self.assertEqual(connection.ask(['twice total 1']), ['total 1'])
        time.sleep(0.2)
        with store._client(None) as other:
            self.assertEqual(other.ask(['say total 2']), ['total 2'])

    def test_a_cut_line_is_no_answer(self):
        for text in ('c1 total 123', 'c1 total 1\nc1 total 23'):
            store = self.start('#!/bin/sh\necho "- hello boost 1"\nread line\nprintf "%s"\n' % text.replace('\n', '\\n'))
            with self.assertRaises(boost.Gone):
                store.session().lines(['say x', 'say y'])
            with self.assertRaises(boost.Gone):
                store.session()

    def test_other_hellos(self):
        for text in ('echo "- hello boost 2"', 'echo hello', 'exit 4', 'printf "%s" "- hello boost 1"'):
            with self.assertRaises(boost.Gone):
                self.start('#!/bin/sh\n%s\n' % text)

    def test_a_child_that_does_not_end_is_killed(self):
        store = self.start('#!/bin/sh\necho "- hello boost 1"\nwhile true; do sleep 1; done\n')
        began = time.monotonic()
        self.assertEqual(store.close(timeout=0.2), -9)
        self.assertLess(time.monotonic() - began, 5)
        self.assertEqual(store.close(), -9)

    def test_it_comes_back_where_it_was_asked_to(self):
        text = ECHO.replace("    if verb == 'bye'", "    if verb == 'die':\n        break\n    if verb == 'bye'")
        store = self.start(text, comes_back=True)
        for n in range(3):
            with self.assertRaises(boost.Gone):
                store.session().line('die')
            self.assertEqual(store.session().line('say total %d' % n), n)

    def test_it_comes_back_before_its_end_was_read(self):
        store = self.start(ECHO, comes_back=True)
        session = store.session()
        self.assertEqual(session.line('say total 1'), 1)
        child = session.connection.child
        os.killpg(child.process.pid, signal.SIGKILL)
        child.process.wait()
        child.reader.join()
        child.answers.is_over = False              # as where the thread that reads has not come to it yet
        with self.assertRaises(boost.Gone):
            session.line('say total 2')
        self.assertEqual(store.session().line('say total 3'), 3)


class AtTheDoor(unittest.TestCase):
    def setUp(self):
        room = tempfile.TemporaryDirectory()
        self.addCleanup(room.cleanup)
        self.folder = room.name
        os.mkfifo(os.path.join(self.folder, 'door'))
        self.door = os.open(os.path.join(self.folder, 'door'), os.O_RDWR)
        self.addCleanup(os.close, self.door)

    def serve(self, answers):
        """Serves one client: gives it these bytes behind its hello, and then goes away. The lines that it reads are given."""
        read = []

        def serves():
            hello = b''
            while not hello.startswith(b'\nhello ') or not hello.endswith(b'\n'):
                hello += os.read(self.door, 100)
            path = os.path.join(self.folder, hello.split()[1].decode())
            with open(path + '.from', 'wb', buffering=0) as out, open(path + '.to', 'rb', buffering=0) as lines:
                out.write(b'hello boost 1\n')
                read.append(lines.read(100))
                out.write(answers)
        thread = threading.Thread(target=serves)
        thread.start()
        self.addCleanup(thread.join)
        return read

    def test_one_answer(self):
        read = self.serve(b'total 6; place 3\n')
        with boost.join(self.folder) as store:
            self.assertEqual(store.do(('hits', 'read')), [6])
        self.assertEqual(read, [b'do hits read\n'])
        self.assertEqual(os.listdir(self.folder), ['door'])

    def test_who_waits_says_how_long(self):
        read = self.serve(b'id 7; kept 3\n')
        with boost.join(self.folder) as store:
            self.assertEqual(store.do(('jobs', 'pick'), keep=True, within=30), [7])
            for seconds in (-1, 86401):
                with self.assertRaises(ValueError):
                    store.do(('jobs', 'pick'), within=seconds)
        word, seconds, *calls = read[0].split()
        self.assertEqual((word, calls), (b'within', [b'keep', b'jobs', b'pick']))
        self.assertTrue(29 < float(seconds) <= 30)

    def test_who_waits_is_not_late_meanwhile(self):
        held = []

        def answers():
            hello = b''
            while not hello.endswith(b'\n') or hello == b'\n':
                hello += os.read(self.door, 100)
            path = os.path.join(self.folder, hello.split()[1].decode())
            with open(path + '.from', 'wb', buffering=0) as out, open(path + '.to', 'rb', buffering=0) as lines:
                out.write(b'hello boost 1\n')
                lines.read(100)
                try:
                    fcntl.flock(out, fcntl.LOCK_SH | fcntl.LOCK_NB)
                except BlockingIOError:
                    held.append(True)                               # the client holds the lock of its answers while it waits
                time.sleep(0.6)
                out.write(b'refused 9 Busy 1\n')
        thread = threading.Thread(target=answers)
        thread.start()
        with boost.join(self.folder) as store, self.assertRaises(boost.Busy):
            store.do(('jobs', 'pick'), timeout=0.3, within=0.5)
        thread.join()
        self.assertEqual(held, [True])

    def test_a_cut_line_is_no_answer(self):
        self.serve(b'total 6; place 3')
        with boost.join(self.folder) as store, self.assertRaises(boost.Gone):
            store.do(('hits', 'read'))

    def test_it_comes_back_by_itself(self):
        with boost.join(self.folder) as store:
            for n in range(3):
                self.serve(b'total %d; place 1\n' % n)
                self.assertEqual(store.do(('hits', 'read')), [n])
                while store._pool.idle[0].is_alive():               # the server goes away
                    time.sleep(0.01)

    def test_nobody_serves(self):
        with boost.join(self.folder, patience=0.2) as store:
            with self.assertRaises(boost.NotServed):
                store.do(('hits', 'read'))
        self.assertEqual(os.listdir(self.folder), ['door'])


class AtAGate(unittest.TestCase):
    def setUp(self):
        room = tempfile.TemporaryDirectory()
        self.addCleanup(room.cleanup)
        self.path = os.path.join(room.name, 'socket')
        self.listener = socket.socket(socket.AF_UNIX)
        self.addCleanup(self.listener.close)
        self.listener.bind(self.path)
        self.listener.listen()

    def serve(self, answers, hello=b'hello boost 1\n'):
        """Serves one program: gives it these bytes after its first line, and then goes away. What it reads is given."""
        read = []

        def serves():
            one, _ = self.listener.accept()
            with one:
                one.sendall(hello)
                while hello and b'\n' not in b''.join(read) and b'' not in read:
                    read.append(one.recv(100))
                if answers:
                    one.sendall(answers)
        thread = threading.Thread(target=serves)
        thread.start()
        self.addCleanup(thread.join)
        return read

    def join(self, **how):
        store = boost.join('unix:' + self.path, **how)
        self.addCleanup(store.close)
        return store

    def test_one_answer(self):
        read = self.serve(b'total 6; place 3\n')
        self.assertEqual(self.join().do(('hits', 'read')), [6])
        self.assertEqual(read, [b'do hits read\n'])

    def test_a_cut_line_is_no_answer(self):
        self.serve(b'total 6; place 3')
        with self.assertRaises(boost.Gone):
            self.join().do(('hits', 'read'))

    def test_it_comes_back_by_itself(self):
        store = self.join()
        for n in range(3):
            self.serve(b'total %d; place 1\n' % n)
            self.assertEqual(store.do(('hits', 'read')), [n])
            while store._pool.idle[0].is_alive():
                time.sleep(0.01)

    def test_more_lines_than_a_socket_holds(self):
        """Answers are read while lines are written: the gate here reads none of these before its answers are read."""
        def serves():
            one, _ = self.listener.accept()
            with one, one.makefile('rb') as lines:
                one.sendall(b'hello boost 1\n')
                for line in lines:
                    one.sendall(line[5:])
        thread = threading.Thread(target=serves)
        thread.start()
        texts = ['echo total %d' % n for n in range(50000)]
        with self.join().session() as session:
            self.assertEqual(session.lines(texts), [text[5:] for text in texts])
        thread.join()

    def test_a_late_answer_comes_to_nobody(self):
        store = self.join()
        self.serve(b'')
        with self.assertRaises(boost.Gone):
            store.do(('hits', 'read'), timeout=5)
        with self.assertRaises(boost.NotServed):   # nobody says hello
            store.do(('hits', 'read'), timeout=0.2)
        one, _ = self.listener.accept()
        with one, self.assertRaises(BrokenPipeError):
            one.sendall(b'hello boost 1\n')
        self.serve(b'total 7; place 1\n')
        self.assertEqual(store.do(('hits', 'read')), [7])

    def test_no_gate(self):
        self.serve(b'', hello=b'')
        with self.assertRaises(boost.Gone) as found:
            self.join().do(('hits', 'read'))
        self.assertIn('let this program go', str(found.exception))
        self.serve(b'', hello=b'hello redis\n')
        with self.assertRaises(boost.Gone):
            self.join().do(('hits', 'read'))
        self.listener.close()
        for path in (self.path, self.path + '-none'):
            with self.assertRaises(boost.Gone) as found:
                boost.join('unix:' + path).do(('hits', 'read'))
            self.assertNotIsInstance(found.exception, boost.TimedOut)
            self.assertIsInstance(found.exception.__cause__, OSError)

    def test_full(self):
        """As many wait already as the socket lets wait."""
        self.listener.listen(0)
        waiting = [socket.socket(socket.AF_UNIX) for _ in range(3)]
        for one in waiting:
            one.setblocking(False)
            one.connect_ex(self.path)
        with self.assertRaises(boost.NotServed):
            self.join(patience=0.2).do(('hits', 'read'))
        for one in waiting:
            one.close()


class Rests(Connection):
    """A client that answers each line with how often it was asked."""
    count = 0

    def meet(self, seconds):
        pass

    def send_lines(self, lines, timeout):
        self.count += len(lines)

    def receive(self, timeout=None):
        return 'total %d' % self.count

    def is_alive(self):
        return self.state == IN_STEP

    def let_go(self):
        pass

    def forget(self):
        pass


class Pools(unittest.TestCase):
    def test_64_are_given_and_no_more(self):
        pool = Pool(lambda: Rests(1), 64)
        held = [pool.take(1) for _ in range(64)]
        self.assertEqual(len(set(map(id, held))), 64)
        with self.assertRaises(boost.NotServed):
            pool.take(0.1)
        pool.give_back(held.pop())
        held.append(pool.take(1))
        held.pop()                                 # one that is dropped makes room
        held.append(pool.take(2))
        self.assertEqual(len(pool.all), 64)

    def test_who_waits_is_served_in_the_order_of_coming(self):
        pool = Pool(lambda: Rests(1), 64)
        held = [pool.take(1) for _ in range(64)]
        served = []

        def waits(number):
            with pool.client(10):
                served.append(number)
        threads = []
        for number in range(20):
            threads.append(threading.Thread(target=waits, args=(number,)))
            threads[-1].start()
            while len(pool.line) <= number:
                time.sleep(0.001)
        pool.give_back(held.pop())
        for thread in threads:
            thread.join()
        self.assertEqual(served, list(range(20)))

    def test_those_that_rest_are_few_at_a_door(self):
        pool = Pool(lambda: Rests(1), 3)
        held = [pool.take(1) for _ in range(10)]
        for connection in held:
            pool.give_back(connection)
        self.assertEqual([len(pool.idle), sum(each.is_settled for each in held)], [3, 7])

    def test_closed(self):
        pool = Pool(lambda: Rests(1), 64)
        held = [pool.take(1) for _ in range(64)]
        told = []

        def waits():
            try:
                pool.take(10)
            except boost.Closed:
                told.append(1)
        threads = [threading.Thread(target=waits) for _ in range(5)]
        for thread in threads:
            thread.start()
        time.sleep(0.1)
        pool.close()
        for thread in threads:
            thread.join(5)
        self.assertEqual(len(told), 5)
        for connection in held:
            with self.assertRaises(boost.Closed):
                connection.ask(['kept'])
            pool.give_back(connection)

    def test_whatever_comes_between_closes_the_client(self):
        for kind in (KeyboardInterrupt, ValueError, boost.TimedOut, SystemExit):
            connection = Rests(1)
            connection.come_in(1)
            self.assertEqual(connection.ask(['kept']), ['total 1'])

            def fails(timeout=None, kind=kind):
                raise kind('between')
            connection.receive = fails
            with self.assertRaises(kind):
                connection.ask(['kept'])
            with self.assertRaises(boost.Gone):
                connection.ask(['kept'])


class Interrupted(BaseException):
    pass


class Marked(Rests):
    """A client that answers each line with its number, a little later."""

    def send_lines(self, lines, timeout):
        self.answer = 'total %s; place 1' % lines[0].split()[3].decode()

    def receive(self, timeout=None):
        time.sleep(0.0005)
        return self.answer


class Interrupts(unittest.TestCase):
    def interrupt(self, *_):
        if self.is_armed:
            raise Interrupted

    def test_at_any_moment_they_hinder_nobody(self):
        """Also of one that stands in the line: 80 others want a client."""
        store = boost.Store(lambda: Marked(1), lambda _: 0)
        wrong, is_over, raised = [], threading.Event(), []

        def call():
            number = random.randrange(10 ** 6)
            if store.do(('hits', 'bump', number), timeout=10) != [number]:
                wrong.append(number)

        def calls():
            while not is_over.is_set():
                call()
        threads = [threading.Thread(target=calls) for _ in range(80)]
        self.is_armed = False
        self.addCleanup(signal.signal, signal.SIGALRM, signal.signal(signal.SIGALRM, self.interrupt))
        for thread in threads:
            thread.start()
        end = time.monotonic() + 2
        while time.monotonic() < end:
            try:
                self.is_armed = True
                signal.setitimer(signal.ITIMER_REAL, random.uniform(0.00001, 0.02))
                call()
                self.is_armed = False
            except Interrupted as error:
                self.is_armed = False
                raised.append(error)
        signal.setitimer(signal.ITIMER_REAL, 0)
        is_over.set()
        for thread in threads:
            thread.join()
        self.assertEqual(wrong, [])
        self.assertGreater(len(raised), 5)
        self.assertIsNone(store._pool.first())


if __name__ == '__main__':
    unittest.main()
