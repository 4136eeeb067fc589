#!/usr/bin/env python3
"""mixed_attacks.py [SECONDS] [PROGRAM] [--full-serves-on] [--workers N] [--seed N] [--plant FAULT | --planted]: all that may happen to
a server and its clients, at once and for a long time.

Two servers run side by side, each `boost listen DISK FOLDER --idle 2` with workers of its own (tools/mixed_workers.py): the client in
Python in threads and in a process that forks, the client in C, and bare FIFOs, which are deaf, silent, cut and pipelined now and then. They
are killed, stopped and continued, end and come back. One server is killed, stopped, and ended by `end` now and then, and its
area is filled; the other one is steady: it runs from the first second to the last.

After each end of a server its store is looked at: each transaction that was told kept is there, none by halves, none that nobody asked
for, no job twice; counters have the sums of what is there. No call of a client takes longer than it may. The memory and the
descriptors of the steady server do not grow past a limit, FIFOs do not pile up, and the end leaves nothing.

With `--full-serves-on` an area that is full has to be refused to the client (18 Full) while the server goes on, the steady one too; else
a server may also end there, and is started again. `--plant FAULT` plants a fault, which has to be found: a worker that claims what it
never sent or does it by halves, a store that forgets what was kept since its server began, a server that leaks, clients without a
time-out, a folder that is littered. `--planted` plants each of them for a while, and fails where one is not found.

An hour if no number is given. PROGRAM is `./boost`'s if none is named. The status is 1 where something was wrong.
"""
import argparse
import collections
import os
import random
import re
import shutil
import signal
import stat
import subprocess
import sys
import tempfile
import time

import door_attacks
import mixed_workers
from mixed_workers import HUNG, WRONG, amount_of

TOP = os.path.dirname(os.path.dirname(os.path.realpath(__file__)))
WORKERS = os.path.join(TOP, 'tools', 'mixed_workers.py')
# Small, so that a transaction fills it.
AREA = 524288
COLLECTIONS = {'done': 'set', 'hits': 'counter', 'sum': 'counter', 'jobs': 'queue', 'last': 'map', 'taken': 'set',
               'retired': 'counter', 'retired_sum': 'counter', 'quota': 'quotas', 'spent': 'counter', 'filled': 'counter',
               'ids': 'pool', 'owners': 'map', 'ballast': 'map'}
KINDS = ('threads', 'process', 'c', 'raw', 'raw', 'process')
# How many seconds pass between two acts, and for how long at most nothing may be kept while a server serves.
ACT, STILL = 0.5, 40
# How many seconds a server whose area is full is left to end by itself.
ENDING = 3
# What the steady server may grow by from its first part (ten minutes of an hour) to its last: bytes in memory, descriptors; and how
# many descriptors more it may have once all clients are gone than it had before they came.
MORE_BYTES, MORE_DESCRIPTORS, LEFT_DESCRIPTORS = 16 << 20, 24, 0
# How many FIFOs whose maker is gone may lie in a folder.
ORPHANS = 24
FAULTS = ('claims', 'halves', 'forgets', 'leaks', 'waits', 'litters')


class Wrong(Exception):
    """Something that must not be."""


# ---- what was told


class Told:
    """What the workers of a place noted, as far as it was read."""

    def __init__(self, room):
        self.room, self.at = room, collections.Counter()
        self.ids = collections.defaultdict(set)
        self.counts, self.tricks, self.fills, self.wrongs = collections.Counter(), collections.Counter(), [], []

    def path(self, slot):
        return os.path.join(self.room, f'notes-{slot}')

    def read(self):
        for name in os.listdir(self.room):
            if name.startswith('notes-'):
                self.read_from(os.path.join(self.room, name))
        if self.wrongs:
            raise Wrong('; '.join(self.wrongs))

    def read_from(self, path):
        with open(path, 'rb') as file:
            file.seek(self.at[path])
            lines = file.read()
        lines = lines[:lines.rfind(b'\n') + 1]     # the rest of the last one is still on its way
        self.at[path] += len(lines)
        for line in lines.decode().splitlines():
            letter, _, words = line.partition(' ')
            self.counts[letter] += 1
            if letter == '!':
                self.wrongs.append(f'{os.path.basename(path)}: {words}')
            elif letter == 'F':
                self.fills.append(words)
            elif letter == 'X':
                self.tricks[words] += 1
            elif words != '-':
                self.note(letter, int(words))

    def note(self, letter, number):
        if letter in ('t', 'r') and number in self.ids[letter]:
            self.wrongs.append(f'{number} was told {letter} twice')
        self.ids[letter].add(number)

    def kept(self):
        return sum(self.counts[letter] for letter in 'atrsde')


# ---- what is there


def parsed(text):
    """The items of each collection of what `show` prints, as lists of words."""
    found, at = {}, None
    for line in text.splitlines():
        if line.startswith('  '):
            found[at].append(line.split())
        else:
            at = line.split()[1]
            found[at] = []
    return found


class Content:
    """What a store holds."""

    def __init__(self, text):
        found = parsed(text)
        missing = set(COLLECTIONS) - set(found)
        if missing:
            raise Wrong(f'collections are lost: {missing}')
        numbers = lambda name: [int(words[0]) for words in found[name]]  # noqa: E731
        self.done, self.taken, self.pool = (set(numbers(name)) for name in ('done', 'taken', 'ids'))
        self.jobs = [int(words[1]) for words in found['jobs']]
        self.totals = {name: sum(numbers(name)) for name, kind in COLLECTIONS.items() if kind == 'counter'}
        self.last = {int(key): int(value, 16) for key, value in found['last']}
        self.owners = {int(words[0]) for words in found['owners']}
        self.quota = sum(int(words[1]) for words in found['quota'])

    def wrongs(self, told):
        """What is wrong of it, by itself and beside what was told."""
        ids, totals, both = told.ids, self.totals, set(self.jobs) | self.taken
        lost = ids['a'] - self.done - ids['R']
        retired = sorted(ids['a'] & ids['R'] - self.done)
        yield lost, f'{len(lost)} of {len(ids["a"])} that were told kept are lost: {sorted(lost)[:4]}'
        yield self.done - ids['A'], 'in `done` is what nobody asked for'
        yield ids['r'] & (self.done | both), 'what was told retired is there'
        yield ids['t'] - self.taken - ids['R'], f'what was told taken is not in `taken`: {sorted(ids["t"] - self.taken - ids["R"])[:4]}'
        yield len(self.jobs) != len(set(self.jobs)), 'a job is there twice'
        yield both ^ self.done, '`jobs` and `taken` together are not `done`'
        yield set(self.jobs) & self.taken, 'a job was taken and is there'
        yield totals['hits'] != len(self.done) + totals['retired'], f'hits: {totals}, {len(self.done)} in `done`'
        yield (totals['sum'] != sum(map(amount_of, self.done)) + totals['retired_sum'],
               f'sum: {totals}, of `done` {sum(map(amount_of, self.done))}')
        yield self.quota != totals['filled'] - totals['spent'], f'quota: {self.quota}, {totals}'
        yield not told.counts['s'] <= totals['spent'] <= told.counts['S'], f'spent: {totals["spent"]}, {told.counts}'
        yield self.pool ^ self.owners, 'the identifiers that are taken are not those with an owner'
        yield ids['d'] - ids['E'] - self.pool, 'an identifier that was drawn is free'
        yield len(retired) > totals['retired'], f'{len(retired)} are retired, and the counter says {totals["retired"]}'
        yield from self.wrong_last(ids)

    def wrong_last(self, ids):
        """The last one of a thread is one that was asked for, and none that was told kept before another one was asked for."""
        newest = {}
        for number in ids['a']:
            newest[number >> 40] = max(number, newest.get(number >> 40, 0))
        for key, number in self.last.items():
            yield number not in ids['A'], f'the last one of {key} was not asked for'
            yield number < newest.get(key, 0) and number in ids['a'], f'the last one of {key} is an old one'
        yield set(newest) - set(self.last), 'a thread has no last one'

    def check(self, told):
        wrong = [text for is_wrong, text in self.wrongs(told) if is_wrong]
        if wrong:
            raise Wrong('; '.join(wrong))


# ---- a place


class Running:
    """A worker that runs: whether it is stopped, and until when."""

    def __init__(self, slot, kind, turn, process):
        self.slot, self.kind, self.turn, self.process = slot, kind, turn, process
        self.stopped_until = None

    def signal(self, number):
        try:
            os.killpg(self.process.pid, number)
        except ProcessLookupError:
            pass

    def stop(self, seconds):
        self.signal(signal.SIGSTOP)
        self.stopped_until = time.monotonic() + seconds

    def go_on(self):
        self.signal(signal.SIGCONT)
        self.stopped_until = None


class Stage(door_attacks.Place):
    """A server with its workers, and what is done to them."""

    def __init__(self, asked, is_steady, seed):
        self.asked, self.is_steady, self.chance = asked, is_steady, random.Random(seed)
        self.running, self.turns, self.done = {}, collections.Counter(), collections.Counter()
        self.filler, self.full_at, self.samples, self.rest = None, -1e9, [], None
        super().__init__(area=AREA, serves=False)
        self.told = Told(self.room.name)
        self.make_collections()
        self.errors = os.path.join(self.room.name, 'server-errors')
        self.began = time.monotonic()
        self.start()
        self.rest = self.measured()
        self.next = {what: self.began + at for what, at in (('kill', 12), ('end', 31), ('stop', 22), ('fill', 6))}

    def carry_out(self, lines):
        text = '\n'.join([*lines, 'c1 wait', 'end', ''])
        ran = subprocess.run([self.asked.program, 'listen', self.disk], input=text, stdout=subprocess.PIPE, stderr=subprocess.PIPE,
                             text=True, check=False, timeout=120)
        if ran.returncode or 'refused' in ran.stdout:
            raise Wrong(f'{lines[0]}..: status {ran.returncode}, {ran.stdout[-200:]} {ran.stderr}')

    def make_collections(self):
        self.carry_out([f'c1 make {kind} {name}' for name, kind in COLLECTIONS.items()])

    # -- the server

    def start(self):
        if self.asked.plant == 'forgets' and not self.is_steady:
            shutil.copyfile(self.disk, self.disk + '.before')
        words = [sys.executable, os.path.realpath(__file__), '--leak'] if self.asked.plant == 'leaks' else []
        with open(self.errors, 'ab') as errors:
            began = time.monotonic()
            self.server = subprocess.Popen([*words, self.asked.program, 'listen', self.disk, self.folder, '--idle', '2'],
                                           stdin=subprocess.DEVNULL, stderr=errors, start_new_session=True)
            self.wait_for_door()
        self.opened, self.moved, self.was_kept = time.monotonic() - began, time.monotonic(), -1
        self.stopped_until = None
        if self.server.poll() is not None:
            raise Wrong(f'the server does not start: status {self.server.returncode}, {self.what_it_said()}')

    def what_it_said(self):
        """What stands on standard error, but for what is passed over, and that the store is nearly full."""
        with open(self.errors, encoding='utf-8') as file:
            lines = [line for line in file.read().splitlines()
                     if not line.startswith('boost: passed over ') and not line.endswith(' of 100 full')]
        return '; '.join(lines)

    def kill_server(self):
        self.done['server killed'] += 1
        os.killpg(self.server.pid, signal.SIGKILL)
        self.server.wait()
        if self.asked.plant == 'forgets':
            os.replace(self.disk + '.before', self.disk)
        self.look_and_start()

    def end_server(self):
        """Ends it in good order, with its clients at work."""
        try:
            self.say(b'\nend\n')
        except OSError as error:                   # it is ending by itself
            if self.ends(5) is None:
                raise Wrong(f'a server that does not read its door: {error}') from error
            return self.server_has_ended()
        status = self.ends(20)
        if status == 1 and 'Full' in self.what_it_said():
            return self.server_has_ended()
        self.done['server ended'] += 1
        if status != 0 or self.what_it_said():
            raise Wrong(f'at `end` the server has status {status}, and says {self.what_it_said()!r}')
        return self.look_and_start()

    def stop_server(self):
        self.done['server stopped'] += 1
        os.killpg(self.server.pid, signal.SIGSTOP)
        self.stopped_until = time.monotonic() + (100 if self.asked.plant == 'waits' else self.chance.uniform(0.5, 8))

    def look_and_start(self):
        self.look()
        self.start()

    def server_has_ended(self):
        """It may have where the area was full, unless it has to go on then."""
        said, is_full = self.what_it_said(), time.monotonic() - self.full_at < 60
        if self.asked.full_serves_on or not is_full or self.server.returncode != 1 or 'Full' not in said:
            raise Wrong(f'the server has ended by itself: status {self.server.returncode}, {said!r}')
        self.done['server ended by a full area'] += 1
        os.truncate(self.errors, 0)
        self.end_filler()
        self.look()
        self.carry_out(['c1 keep ' + '; '.join(f'ballast remove {key}' for key in range(at, at + 100)) for at in range(0, 4000, 100)])
        self.start()

    # -- what is there

    def command(self, *words):
        return subprocess.run([self.asked.program, *words], stdin=subprocess.DEVNULL, stdout=subprocess.PIPE, stderr=subprocess.PIPE,
                              text=True, check=False, timeout=120)

    def look(self):
        """Looks at the store, which no server has. What the workers were told is read after it: they asked for it before."""
        shown = self.command('show', '--read-only', self.disk)
        if shown.returncode != 0:
            raise Wrong(f'the store does not open: status {shown.returncode}, {shown.stderr}')
        self.told.read()
        content = Content(shown.stdout)
        content.check(self.told)
        self.done['looks'] += 1

    def measured(self):
        """The bytes in memory and the descriptors of the server."""
        with open(f'/proc/{self.server.pid}/status', encoding='utf-8') as file:
            found = re.search(r'VmRSS:\s+(\d+) kB', file.read())
        return int(found[1]) * 1024, len(os.listdir(f'/proc/{self.server.pid}/fd'))

    def sample(self):
        now = time.monotonic()
        fifos = [name for name in os.listdir(self.folder) if name.endswith(('.to', '.from'))]
        orphans = sum(not is_alive(name) for name in fifos)
        try:
            self.samples.append((now - self.began, *self.measured(), len(fifos), orphans))
        except (OSError, TypeError):               # it has ended this moment
            return
        if orphans > ORPHANS + 2 * len(self.running):
            raise Wrong(f'{orphans} FIFOs of clients that are gone pile up')
        self.told.read()
        kept = self.told.kept()
        is_held_up = self.filler is not None or self.stopped_until is not None or all(
            each.stopped_until for each in self.running.values())
        if kept != self.was_kept or is_held_up:
            self.was_kept, self.moved = kept, now
        elif now - self.moved > STILL:
            raise Wrong(f'nothing was kept for {STILL} seconds')

    # -- workers

    def put(self, slot, kind, seconds):
        turn = self.turns[slot]
        self.turns[slot] += 1
        plant = self.asked.plant or ('steady' if self.is_steady else '')
        words = [sys.executable, '-B', WORKERS, kind, self.folder, self.told.path(slot), str(slot), str(turn), str(seconds), self.asked.shim]
        with open(os.path.join(self.room.name, f'errors-{slot}'), 'ab') as errors:
            process = subprocess.Popen([*words, plant] if plant else words, stdin=subprocess.DEVNULL, stderr=errors,
                                       start_new_session=True)
        self.done['workers begun'] += 1
        return Running(slot, kind, turn, process)

    def keep_workers(self):
        """Each worker that has ended is followed by another one of its kind."""
        for slot in range(self.asked.workers // 2):
            running = self.running.get(slot)
            if running and running.process.poll() is None:
                if running.stopped_until and time.monotonic() > running.stopped_until:
                    running.go_on()
                continue
            if running:
                self.see_end(running)
            self.running[slot] = self.put(slot, KINDS[slot % len(KINDS)], self.chance.uniform(5, 120))

    def see_end(self, running):
        status = running.process.returncode
        running.signal(signal.SIGKILL)             # what it forked off
        if status in (HUNG, WRONG) or status not in (0, -signal.SIGKILL, -signal.SIGTERM):
            self.told.read()
            with open(os.path.join(self.room.name, f'errors-{running.slot}'), encoding='utf-8', errors='replace') as file:
                raise Wrong(f'a worker of kind {running.kind} ended with status {status}: {file.read()[-1500:]}')

    def hurt_a_worker(self):
        running = self.chance.choice(list(self.running.values()))
        if running.process.poll() is not None or running.stopped_until:
            return
        act = self.chance.random()
        if act < 0.04:
            self.done['workers killed'] += 1
            running.signal(signal.SIGKILL)
        elif act < 0.055:                          # what it forked off, and its client in C, live on
            self.done['workers killed alone'] += 1
            os.kill(running.process.pid, signal.SIGKILL)
        elif act < 0.14:
            self.done['workers stopped'] += 1
            running.stop(self.chance.uniform(0.2, 6))
        elif act < 0.16:
            self.done['workers told to end'] += 1
            running.signal(signal.SIGTERM)

    # -- the area full

    def begin_filler(self):
        self.done['areas filled'] += 1
        self.filler = self.put(90, 'fill', 60)
        self.full_at = time.monotonic()

    def see_filler(self):
        if self.filler is None:
            return
        self.full_at = time.monotonic()
        if self.filler.process.poll() is not None:
            self.see_end(self.filler)
            self.filler = None
            self.told.read()
            last = self.told.fills[-1] if self.told.fills else ''
            if self.asked.full_serves_on and 'refused 18 Full' not in last:
                raise Wrong(f'a full area was not refused Full: {last!r}')

    def end_filler(self):
        if self.filler:
            self.filler.signal(signal.SIGKILL)
            self.filler.process.wait()
            self.filler = None

    # -- all of it

    def act(self):
        """What happens at a moment."""
        now = time.monotonic()
        if self.server.poll() is not None:
            self.server_has_ended()
        self.keep_workers()
        self.see_filler()
        self.hurt_a_worker()
        if self.stopped_until:
            if now > self.stopped_until:
                os.killpg(self.server.pid, signal.SIGCONT)
                self.stopped_until, self.moved = None, now
            return
        if (not self.is_steady or self.asked.full_serves_on) and self.filler is None and self.is_due('fill', 75):
            self.begin_filler()
        elif not self.is_steady and self.filler is None and now - self.full_at > ENDING:
            for what, act, seconds in (('kill', self.kill_server, 25), ('end', self.end_server, 90), ('stop', self.stop_server, 70)):
                if self.is_due(what, seconds):
                    act()
                    break
        if self.server.poll() is None:
            self.sample()

    def is_due(self, what, seconds):
        now = time.monotonic()
        if now < self.next[what]:
            return False
        self.next[what] = now + self.chance.uniform(0.5, 1.5) * seconds
        return True

    def finish(self):
        """Tells all to end, and looks at what is left."""
        if self.stopped_until:
            os.killpg(self.server.pid, signal.SIGCONT)
        self.end_filler()
        for running in self.running.values():
            running.go_on()
            running.signal(signal.SIGTERM)
        for running in self.running.values():
            try:
                running.process.wait(60)
            except subprocess.TimeoutExpired as error:
                raise Wrong(f'a worker of kind {running.kind} does not end') from error
            self.see_end(running)
        if self.server.poll() is not None:
            self.server_has_ended()
        self.check_rest()
        self.end_server_for_good()

    def check_rest(self):
        """Once all clients are gone the server has as many descriptors as it had before they came."""
        for _ in range(50):
            self.last = self.measured()
            if self.last[1] <= self.rest[1] + LEFT_DESCRIPTORS:
                break
            time.sleep(0.2)
        else:
            raise Wrong(f'{self.rest[1]} descriptors at rest have become {self.last[1]}')

    def end_server_for_good(self):
        self.say(b'\nend\n')
        status = self.ends(20)
        said = self.what_it_said()
        if status != 0 or said:
            raise Wrong(f'at its end the server has status {status}, and says {said!r}')
        self.look()
        found = self.command('check', self.disk)
        if found.returncode != 0 or ', 0 unfinished' not in found.stdout:
            raise Wrong(f'at the end: {found.stdout} {found.stderr}')
        self.start()                               # what FIFOs were left are removed
        self.say(b'\nend\n')
        left = sorted(name for name in os.listdir(self.folder)) if self.ends(20) == 0 else ['a server']
        if left != ['door']:
            raise Wrong(f'in the folder is left {left[:10]}')

    def check_growth(self):
        """What the steady server had in memory and open at first and at last."""
        whole = self.samples[-1][0]
        part = 600 if whole >= 1800 else whole / 3
        first = [sample for sample in self.samples if sample[0] <= part]
        last = [sample for sample in self.samples if sample[0] >= whole - part]
        most = lambda samples, at: max(sample[at] for sample in samples)  # noqa: E731
        self.growth = {name: (most(first, at), most(last, at)) for name, at in (('bytes', 1), ('descriptors', 2))}
        for name, more in (('bytes', MORE_BYTES), ('descriptors', MORE_DESCRIPTORS)):
            before, after = self.growth[name]
            if self.is_steady and after > before + more:
                raise Wrong(f'the {name} of the server grew from {before} to {after}')

    def report(self):
        name = 'the steady server' if self.is_steady else 'the server that is killed'
        kept = {what: self.told.counts[letter] for letter, what in
                (('a', 'added'), ('t', 'taken'), ('r', 'retired'), ('s', 'spent'), ('d', 'drawn'), ('e', 'released'))}
        print(f'{name}: told kept {sum(kept.values())} ({", ".join(f"{count} {what}" for what, count in kept.items())}); '
              f'{", ".join(f"{count} {what}" for what, count in sorted(self.done.items()))}')
        print(f'    tricks: {", ".join(f"{count} {trick}" for trick, count in sorted(self.told.tricks.items()))}')
        print(f'    at rest {self.rest[0] >> 20} MB and {self.rest[1]} descriptors before, {self.last[0] >> 20} MB and {self.last[1]} after; '
              f'at most at first and at last {[value >> 20 for value in self.growth["bytes"]]} MB and '
              f'{list(self.growth["descriptors"])} descriptors; at most {max(sample[3] for sample in self.samples)} FIFOs, '
              f'{max(sample[4] for sample in self.samples)} of clients that are gone')
        for text, count in collections.Counter(re.sub(r'\d{6,}', 'N', fill) for fill in self.told.fills).items():
            print(f'    {count} times {text}')

    def leave(self):
        """Leaves no process."""
        self.end_filler()
        for running in self.running.values():
            running.signal(signal.SIGKILL)
            running.process.wait()
        if self.server and self.server.poll() is None:
            os.killpg(self.server.pid, signal.SIGKILL)
            self.server.wait()
        self.room.cleanup()


def is_alive(name):
    """Whether the process lives that made a FIFO, whose number stands in its name."""
    found = re.match(r'[a-z]+-(\d+)-', name)
    return bool(found) and os.path.exists(f'/proc/{found[1]}')


# ---- faults that are planted


def leak(words):
    """A server that leaks descriptors and memory: it starts the true one as a child, and does no more for it."""
    import ctypes
    ctypes.CDLL(None).prctl(1, signal.SIGKILL)
    true = subprocess.Popen(words, stdin=subprocess.DEVNULL, preexec_fn=lambda: ctypes.CDLL(None).prctl(1, signal.SIGKILL))
    kept = []
    while true.poll() is None:
        time.sleep(0.05)
        kept.append((os.open('/dev/null', os.O_RDONLY), bytearray(os.urandom(1024)) * 50))
    return true.returncode


def planted(asked):
    """Plants each fault, which has to be found."""
    missed = []
    for fault in FAULTS:
        words = [sys.executable, os.path.realpath(__file__), '70' if fault == 'waits' else '40', asked.program, '--plant', fault, '--workers', '12']
        ran = subprocess.run(words, stdout=subprocess.PIPE, stderr=subprocess.STDOUT, text=True, timeout=300, check=False)
        told = ran.stdout.strip().splitlines() or ['']
        is_found = ran.returncode == 1 and any(line.startswith('WRONG: ') for line in told)
        print(f'{fault}: {"found" if is_found else "NOT FOUND"}: {next((line for line in told if line.startswith("WRONG")), told[-1])[:200]}',
              flush=True)
        missed += [] if is_found else [fault]
    return 1 if missed else 0


# ---- the command


def build_shim(folder):
    """The client in C, with what looks for its mistakes."""
    shim = os.path.join(folder, 'mixed_worker')
    sources = [os.path.join(TOP, 'tools', 'mixed_worker.c'), os.path.join(TOP, 'clients', 'c', 'boost.c')]
    subprocess.run(['cc', '-std=gnu11', '-Wall', '-Wextra', '-Werror', '-O1', '-fsanitize=address,undefined', '-o', shim, *sources], check=True)
    return shim


def run(asked):
    stages, end = [], time.monotonic() + asked.seconds
    try:
        for is_steady in (False, True):
            stages.append(Stage(asked, is_steady, asked.seed * 2 + is_steady))
        told_at = time.monotonic()
        while time.monotonic() < end:
            for stage in stages:
                stage.act()
            if time.monotonic() - told_at > 600:
                told_at = time.monotonic()
                print(f'{int(end - told_at)} s to go; told kept: {", ".join(str(stage.told.kept()) for stage in stages)}', flush=True)
            time.sleep(ACT)
        for stage in stages:
            stage.check_growth()
        for stage in stages:
            stage.finish()
        for stage in stages:
            stage.report()
    except Wrong as wrong:
        print(f'WRONG: {wrong}', flush=True)
        print(f'    done until then: {[dict(stage.done) for stage in stages]}', flush=True)
        return 1
    finally:
        for stage in stages:
            stage.leave()
    return 0


def main():
    if sys.argv[1:2] == ['--leak']:
        return leak(sys.argv[2:])
    asked = argparse.ArgumentParser(description='All that may happen to a server and its clients, at once.')
    asked.add_argument('seconds', type=float, nargs='?', default=3600)
    asked.add_argument('program', nargs='?')
    asked.add_argument('--full-serves-on', action='store_true')
    asked.add_argument('--workers', type=int, default=12)
    asked.add_argument('--seed', type=int, default=1)
    asked.add_argument('--plant', choices=FAULTS)
    asked.add_argument('--planted', action='store_true')
    asked = asked.parse_args()
    found = asked.program or subprocess.run([os.path.join(TOP, 'boost'), 'which'], stdout=subprocess.PIPE, text=True, check=True).stdout.strip()
    asked.program = door_attacks.PROGRAM = os.path.realpath(found)
    if asked.planted:
        return planted(asked)
    with tempfile.TemporaryDirectory() as folder:
        asked.shim = build_shim(folder)
        return run(asked)


if __name__ == '__main__':
    sys.exit(main())
