#!/usr/bin/env python3
"""move_attacks.py [PROGRAM] [--plant]: moves a part of customers and jobs from one store to another and back (move_part.py of the
examples), while clients work on it, with the mover killed behind each of its steps, killed at any moment, with two movers at once, and
with the servers killed. Each job that was told added is there or done once, and no amount is lost or doubled.

With `--plant` the mover notes nothing in `arrived`: then this must fail. PROGRAM is `./boost`'s if none is named.
"""
import collections
import contextlib
import itertools
import os
import random
import signal
import subprocess
import sys
import threading
import time

import door_attacks

TOP = os.path.dirname(os.path.dirname(os.path.realpath(__file__)))
sys.dont_write_bytecode = True
sys.path[:0] = [os.path.join(TOP, 'clients', 'python'), os.path.join(TOP, 'clients', 'python', 'examples')]
import boost  # noqa: E402
import move_part  # noqa: E402

PART, CUSTOMERS, CLIENTS = 5, 30, 4
STEPS = ('opened', 'closed', 'taken', 'arrived', 'sent', 'ended', 'cleaned')
AREA = 1 << 20


def mover(words):
    """A mover, which dies behind a step, at the time that is told."""
    names, step, left, fault = words[:2], words[2], int(words[3]), words[4]

    def watch(name):
        nonlocal left
        left -= name == step
        if name == step and left == 0:
            os.kill(os.getpid(), signal.SIGKILL)
    with boost.join(names[0], timeout=20) as old, boost.join(names[1], timeout=20) as new:
        move = move_part.Move(old, new, PART, names[1], watch)
        if fault:
            forget_what_arrived(move)
        with contextlib.suppress(move_part.Stale, boost.Gone, boost.Lost):
            print(move.run())
            return 0
    return 1


def forget_what_arrived(move):
    """A wrong mover, which takes all that is sent for new."""
    receive = move.receive

    class Wrong:
        def __init__(self, t):
            self.t = t

        def call(self, name, *call):
            return None if name.startswith('arrived.') else self.t.call(name, *call)
    move.receive = lambda t, kind, leaving: receive(Wrong(t), kind, leaving)


class Clients:
    """Clients that add and do jobs, and fill and spend amounts, in whichever store has the part."""

    def __init__(self, folders):
        self.stores = {folder: boost.join(folder, timeout=20) for folder in folders}
        self.at, self.count, self.is_over = folders[0], itertools.count(1), threading.Event()
        self.asked, self.added, self.done, self.wrongs, self.moves = set(), set(), collections.Counter(), [], 0
        self.threads = [threading.Thread(target=self.work, args=(number,)) for number in range(CLIENTS)]
        for each in self.threads:
            each.start()

    def work(self, number):
        chance = random.Random(number)
        try:
            while not self.is_over.is_set():
                with contextlib.suppress(boost.Gone, boost.Lost, boost.Busy):
                    chance.choices([self.add, self.take, self.fill, self.spend], [5, 4, 1, 4])[0](chance)
                time.sleep(chance.random() * 0.004)
        except Exception as error:                 # pylint: disable=broad-except
            self.wrongs.append(repr(error))

    def keep(self, work):
        """Keeps work in the store that has the part, which the one that has had it tells."""
        while True:
            folder = self.at

            def attempt(t):
                move_part.state_of(t.call, PART)
                return work(t)
            try:
                return self.stores[folder].keep(attempt, patience=20)
            except move_part.Moved as moved:
                self.moves += 1
                self.at = str(moved) or folder
                time.sleep(0.01)

    def add(self, chance):
        key = PART << move_part.SHIFT | next(self.count)
        self.asked.add(key)
        self.keep(lambda t: t.call(f'jobs.{PART}', 'add', chance.randrange(4), key))
        self.added.add(key)

    def take(self, _):
        def work(t):
            item = t.call(f'jobs.{PART}', 'take')
            if item and not t.call('done', 'add', item[1]):
                raise AssertionError('a job was done twice')
            return item
        item = self.keep(work)
        if item:
            self.done[item[1]] += 1

    def customer(self, chance):
        return PART << move_part.SHIFT | chance.randrange(CUSTOMERS)

    def fill(self, chance):
        key = self.customer(chance)

        def work(t):
            t.call('customers', 'put', key, b'name')
            t.call('quota', 'fill', key, 5)
            t.later('filled', 'bump', 5)
        self.keep(work)

    def spend(self, chance):
        key = self.customer(chance)

        def work(t):
            if t.call('quota', 'spend', key, 1):
                t.later('spent', 'bump', 1)
        self.keep(work)

    def stop(self):
        self.is_over.set()
        for each in self.threads:
            each.join()
        for store in self.stores.values():
            store.close()


class Stage:
    """Two stores with their servers, and what is moved between them."""

    def __init__(self, places, fault):
        self.places, self.fault = places, fault
        self.folders = [place.folder for place in places]
        for place in places:
            with boost.join(place.folder) as store:
                move_part.make_collections(store)
                for kind, name in (('set', 'done'), ('counter', 'filled'), ('counter', 'spent')):
                    store.make(kind, name)
                store.wait()
        with boost.join(self.folders[0]) as store:
            move_part.create(store, PART)
        self.clients, self.killed = Clients(self.folders), 0

    def begin(self, way, step='none', left=0):
        words = [self.folders[way], self.folders[1 - way], step, str(left), self.fault]
        return subprocess.Popen([sys.executable, os.path.realpath(__file__), '--mover', *words], stdout=subprocess.DEVNULL)

    def finish(self, way):
        """Moves until it is done: whoever was killed is followed by another one."""
        for _ in range(100):
            if self.begin(way).wait(120) == 0:
                return
        raise AssertionError('the part does not get there')

    def move_and_die_behind(self, way, step, left):
        status = self.begin(way, step, left).wait(120)
        self.killed += status == -signal.SIGKILL
        self.finish(way)

    def move_and_die_somewhere(self, way, chance):
        """Two movers at once, each killed at any moment, and one of the servers too."""
        movers = [self.begin(way) for _ in range(2)]
        time.sleep(0.1 + chance.random() * 0.5)
        if chance.random() < 0.4:
            place = chance.choice(self.places)
            place.server.kill()
            place.server.wait()
            place.server.stderr.close()
            place.server = place.serve(place.disk)
        for each in movers:
            self.killed += each.poll() is None
            each.kill()
            each.wait()
        self.finish(way)

    def end(self):
        self.clients.stop()
        if self.clients.wrongs:
            raise AssertionError(f'a client: {self.clients.wrongs[:3]}')
        for place in self.places:
            place.say(b'\nend\n')
            door_attacks.expect(place.ends(), 0, 'status')
        self.check([self.content(place) for place in self.places])

    def content(self, place):
        shown = subprocess.run([door_attacks.PROGRAM, 'show', place.disk], stdout=subprocess.PIPE, text=True, check=True).stdout
        found, at = collections.defaultdict(list), None
        for line in shown.splitlines():
            if line.startswith('  '):
                found[at].append(line.split())
            else:
                at = line.split()[1]
        return found

    def check(self, contents):
        all_of = lambda name: [words for content in contents for words in content[name]]  # noqa: E731
        jobs = [int(words[1]) for words in all_of(f'jobs.{PART}')]
        done = [int(words[0]) for words in all_of('done')]
        counts = collections.Counter(jobs + done)
        twice = [key for key, count in counts.items() if count > 1]
        lost = self.clients.added - set(counts)
        assert not twice, f'{len(twice)} jobs are there twice'
        assert not lost, f'{len(lost)} of {len(self.clients.added)} jobs are lost'
        assert set(counts) <= self.clients.asked, 'a job that nobody added'
        assert set(self.clients.done) <= set(done) and max(self.clients.done.values()) == 1
        total = lambda name: sum(int(words[0]) for words in all_of(name))  # noqa: E731
        level = sum(int(words[1]) for words in all_of('quota'))
        assert level == total('filled') - total('spent'), f'{level} are left of {total("filled")} behind {total("spent")}'
        for name in ('leaving.jobs', 'leaving.quota', 'arrived.jobs', 'arrived.quota'):
            assert not all_of(name), f'{name} is not empty'
        self.told = f'{len(jobs)} jobs are there and {len(done)} done; {level} of {total("filled")} are left'


def main():
    words = sys.argv[1:]
    if words[:1] == ['--mover']:
        return mover(words[1:])
    fault = 'forgets' if '--plant' in words else ''
    named = [word for word in words if word != '--plant']
    found = named[0] if named else subprocess.run([os.path.join(TOP, 'boost'), 'which'], stdout=subprocess.PIPE, text=True,
                                                  check=True).stdout.strip()
    door_attacks.PROGRAM = os.path.realpath(found)
    chance, ways = random.Random(1), itertools.cycle((0, 1))
    with door_attacks.Place(area=AREA) as one, door_attacks.Place(area=AREA) as other:
        stage = Stage([one, other], fault)
        try:
            time.sleep(1)
            for step, left in itertools.product(STEPS, (1, 2)):
                stage.move_and_die_behind(next(ways), step, left)
            behind = stage.killed
            for _ in range(12):
                stage.move_and_die_somewhere(next(ways), chance)
            stage.end()
        except AssertionError as wrong:
            print(f'WRONG: {wrong}')
            return 1
        finally:
            stage.clients.is_over.set()
    print(f'26 moves, {behind} movers killed behind a step and {stage.killed - behind} at any moment; {stage.clients.moves} times a client '
          f'was sent to the other store; {stage.told}')
    return 0


if __name__ == '__main__':
    sys.exit(main())
