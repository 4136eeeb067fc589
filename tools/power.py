#!/usr/bin/env python3
"""power.py [CUTS [SEED [PROGRAM]]]: cuts the power of a machine on which the store is at work, again and again, and looks what is there.

The disk is a file system in memory (FUSE, by Debian's python3-fusepy; to be run by root) that forgets what was not synced: at a cut each
write since the file's last sync is lost, is kept, or is torn in a byte, each by itself, and so is each name since the folder's last sync.
PROGRAM, `./boost` if none is named, serves eight clients there, until it is killed at a random moment, which is the cut; now and
then it opens, copies or upgrades at that moment. Behind each cut the store must open, and hold each transaction that was told as kept, no
transaction by halves, and nothing that was never asked. What a cut left of a copy must be no store, the old one, or the copy.

With `--deaf` in front the file system syncs nothing once the store is made, which is what a program whose sync does nothing would
leave: then this must fail.
100 cuts are made if no number is given. The status is 1 where something was lost.
"""
import errno
import os
import random
import re
import select
import signal
import stat
import subprocess
import sys
import tempfile
import time

TOP = os.path.dirname(os.path.dirname(os.path.realpath(__file__)))
CONTROL = '/.power'
CLIENTS = 8
AREA = 524288
KEYS = 16
MOST = 1000


# ---- the file system


class File:
    """A file: what each read gives, what a cut leaves, and the writes and sizes between the two."""

    def __init__(self, mode):
        self.mode, self.now, self.synced, self.since = mode, bytearray(), bytearray(), []

    def change(self, at, data):
        place(self.now, at, data)
        self.since.append((at, bytes(data)))

    def resize(self, size):
        resize(self.now, size)
        self.since.append((size, None))

    def sync(self):
        self.synced, self.since = bytearray(self.now), []

    def cut(self, chance):
        left = self.synced
        for at, data in self.since:
            fate = chance.random()
            if data is None:
                if fate < 0.5:
                    resize(left, at)
            elif fate < 0.4:
                place(left, at, data)
            elif fate < 0.7:
                torn = chance.randrange(len(data) + 1)
                place(left, at, data[:torn] + bytes([chance.randrange(256)])[: len(data) - torn])
        self.now, self.synced, self.since = bytearray(left), bytearray(left), []


def resize(content, size):
    del content[size:]
    content.extend(bytes(size - len(content)))


def place(content, at, data):
    if len(content) < at + len(data):
        resize(content, at + len(data))
    content[at: at + len(data)] = data


def file_system(operations, failure):
    """The operations of the file system: one folder of files."""

    class Forgetful(operations):
        def __init__(self):
            self.files, self.synced, self.names, self.is_deaf = {}, {}, [], False

        def find(self, path):
            if path not in self.files:
                raise failure(errno.ENOENT)
            return self.files[path]

        def name(self, change):
            """Changes the names, now, and behind a cut perhaps."""
            change(self.files)
            self.names.append(change)

        def getattr(self, path, fh=None):
            if path == '/':
                return {'st_mode': stat.S_IFDIR | 0o755, 'st_nlink': 2}
            if path == CONTROL:
                return {'st_mode': stat.S_IFREG | 0o600, 'st_nlink': 1}
            found = self.find(path)
            return {'st_mode': stat.S_IFREG | found.mode, 'st_nlink': 1, 'st_size': len(found.now)}

        def readdir(self, path, fh):
            return ['.', '..', *[name[1:] for name in self.files]]

        def create(self, path, mode, fi=None):
            made = File(stat.S_IMODE(mode))
            self.name(lambda names: names.__setitem__(path, made))
            return 0

        def open(self, path, flags):
            return 0 if path == CONTROL else (self.find(path), 0)[1]

        def read(self, path, size, offset, fh):
            return bytes(self.find(path).now[offset: offset + size])

        def write(self, path, data, offset, fh):
            if path == CONTROL and data == b'deaf':
                self.is_deaf = True
            elif path == CONTROL:
                self.cut(random.Random(int(data)))
            else:
                self.find(path).change(offset, data)
            return len(data)

        def truncate(self, path, length, fh=None):
            if path != CONTROL:
                self.find(path).resize(length)

        def fsync(self, path, datasync, fh):
            if not self.is_deaf and path != CONTROL:
                self.find(path).sync()
            return 0

        def fsyncdir(self, path, datasync, fh):
            if not self.is_deaf:
                self.synced, self.names = dict(self.files), []
            return 0

        def unlink(self, path):
            self.find(path)
            self.name(lambda names: names.pop(path, None))

        def rename(self, old, new):
            self.find(old)
            self.name(lambda names: old in names and names.__setitem__(new, names.pop(old)))

        def chmod(self, path, mode):
            self.find(path).mode = stat.S_IMODE(mode)

        def chown(self, path, uid, gid):
            return 0

        def utimens(self, path, times=None):
            return 0

        def cut(self, chance):
            for change in self.names[: chance.randrange(len(self.names) + 1)]:
                change(self.synced)
            self.files, self.names = dict(self.synced), []
            for file in set(self.files.values()):
                file.cut(chance)

    return Forgetful()


def serve(folder):
    """Serves the file system, in a process of its own, until it is unmounted."""
    sys.path.insert(0, '/usr/lib/python3/dist-packages')
    from fusepy import FUSE, FuseOSError, Operations
    FUSE(file_system(Operations, FuseOSError), folder, foreground=True, nothreads=True, direct_io=True, attr_timeout=0, entry_timeout=0)


class Disk:
    """The file system at a folder."""

    def __init__(self, folder):
        self.folder = folder
        self.server = subprocess.Popen([sys.executable, os.path.realpath(__file__), '--serve', folder])
        while not os.path.ismount(folder):
            assert self.server.poll() is None, 'no file system: it wants root, /dev/fuse and python3-fusepy'
            time.sleep(0.02)

    def path(self, name):
        return os.path.join(self.folder, name)

    def tell(self, word):
        """Cuts the power, with the chance of a number, or has nothing synced from now on, at the word `deaf`."""
        with open(self.folder + CONTROL, 'r+b', buffering=0) as control:
            control.write(str(word).encode())

    def sync_names(self):
        folder = os.open(self.folder, os.O_RDONLY)
        os.fsync(folder)
        os.close(folder)

    def end(self):
        subprocess.run(['fusermount', '-u', '-z', self.folder], check=False)
        self.server.wait(10)


# ---- the store at work


class Store:
    """The store on a disk, and what its clients were told."""

    def __init__(self, disk, program, chance):
        self.disk, self.program, self.chance = disk, program, chance
        self.path = disk.path('store')
        self.asked, self.kept, self.next, self.removed, self.told = set(), set(), 1, 0, 0
        self.run('format', self.path, '--area', str(AREA))
        self.carry_out(['c1 make set ids', 'c1 make counter hits', 'c1 make map last', 'c1 wait'])
        disk.sync_names()

    def run(self, *words):
        return subprocess.run([self.program, *words], stdin=subprocess.DEVNULL, stdout=subprocess.PIPE, stderr=subprocess.PIPE,
                              text=True, check=False, timeout=600)

    def carry_out(self, lines):
        text = '\n'.join([*lines, 'end', ''])
        ran = subprocess.run([self.program, 'listen', self.path], input=text, stdout=subprocess.PIPE, text=True, check=True, timeout=600)
        assert 'refused' not in ran.stdout, ran.stdout

    def line(self, client):
        """A transaction: an identifier in the set, one in the counter, and the value of a key."""
        number = self.next
        self.next += 1
        self.asked.add(number)
        value = f'{number:016x}' * self.chance.randrange(1, 12)
        return number, f'c{client} keep ids add {number}; hits bump 1; last put {number % KEYS} {value}\n'

    def work_until_killed(self, seconds):
        """Eight clients commit, one behind another each, until the server is killed."""
        server = subprocess.Popen([self.program, 'listen', self.path], stdin=subprocess.PIPE, stdout=subprocess.PIPE,
                                  stderr=subprocess.DEVNULL, start_new_session=True)
        end, waiting, text = time.monotonic() + seconds, {}, b''
        try:
            for client in range(1, CLIENTS + 1):
                waiting[client], line = self.line(client)
                server.stdin.write(line.encode())
            server.stdin.flush()
            while time.monotonic() < end:
                if not select.select([server.stdout], [], [], max(0, end - time.monotonic()))[0]:
                    continue
                more = os.read(server.stdout.fileno(), 65536)
                if not more:
                    break
                *lines, text = (text + more).split(b'\n')
                for line in lines:
                    self.hear(server, waiting, line.decode())
        except BrokenPipeError:
            pass
        os.killpg(server.pid, signal.SIGKILL)
        server.wait()
        for line in (text + server.stdout.read()).split(b'\n')[:-1]:
            self.hear(None, waiting, line.decode())

    def hear(self, server, waiting, line):
        """Notes what a client was told, and has it go on."""
        found = re.match(r'c(\d+) (.*)', line)
        if not found:
            return
        client = int(found[1])
        if re.match(r'yes; done; (done|value \S+|nothing); kept \d+$', found[2]):
            self.kept.add(waiting[client])
            self.told += 1
        if server:
            waiting[client], asked = self.line(client)
            server.stdin.write(asked.encode())
            server.stdin.flush()

    def kill_in(self, seconds, *words):
        """Runs a command, which is killed after so many seconds."""
        ran = subprocess.Popen([self.program, *words], stdin=subprocess.DEVNULL, stdout=subprocess.DEVNULL, stderr=subprocess.DEVNULL,
                               start_new_session=True)
        try:
            ran.wait(seconds)
        except subprocess.TimeoutExpired:
            os.killpg(ran.pid, signal.SIGKILL)
            ran.wait()

    def shown(self, path):
        """The three collections of a store, or none where it is no store; and whether it was opened at all."""
        ran = self.run('show', path)
        if ran.returncode != 0:
            return None, ran.stderr
        ids, hits, last, at = set(), None, {}, None
        for line in ran.stdout.split('\n'):
            words = line.split()
            if line.startswith('  ') and at == 'ids':
                ids.add(int(words[0]))
            elif line.startswith('  ') and at == 'hits':
                hits = int(words[0])
            elif line.startswith('  ') and at == 'last':
                last[int(words[0])] = words[1]
            elif len(words) == 2:
                at = words[1]
        return (ids, hits or 0, last), ''

    def check(self):
        """Looks whether all that was told is there, and nothing by halves. What is not there is no more asked for."""
        found, why = self.shown(self.path)
        assert found, f'the store does not open: {why}'
        ids, hits, last = found
        lost = self.kept - ids
        assert not lost, f'{len(lost)} of {len(self.kept)} transactions that were told as kept are lost: {sorted(lost)[:5]}'
        assert ids <= self.asked, 'an identifier that nobody added'
        assert hits == len(ids) + self.removed, f'{len(ids)} identifiers behind {self.removed}, and {hits} in the counter'
        for key, value in last.items():
            number = int(value[:16], 16)
            assert value == value[:16] * (len(value) // 16) and number % KEYS == key and number in self.asked, f'the value of key {key}'
        self.kept = set(ids)

    def make_room(self):
        """Takes all identifiers out, where there are many."""
        if len(self.kept) < MOST:
            return
        calls = [f'ids remove {number}' for number in sorted(self.kept)]
        self.carry_out(['c1 keep ' + '; '.join(calls[at: at + 100]) for at in range(0, len(calls), 100)])
        self.removed += len(calls)
        self.kept = set()

    def check_copy(self, path, before):
        """What a cut left of a copy: nothing, no store, an empty one as before, or the copy."""
        if os.path.exists(path):
            found, why = self.shown(path)
            assert found in (None, before, self.shown(self.path)[0]), f'a copy is neither: {why}'


def cut_once(store, disk, number, chance):
    """One cut, in what the number says."""
    moment = chance.random() ** 2 * 2
    kind = chance.choice(['work', 'work', 'work', 'work', 'open', 'copy', 'upgrade'])
    if kind == 'work':
        store.work_until_killed(0.1 + moment)
    elif kind == 'open':
        store.work_until_killed(0.1 + moment)
        disk.tell(chance.getrandbits(60))
        store.kill_in(moment / 10, 'show', store.path)
    elif kind == 'copy':
        store.kill_in(moment / 10, 'copy', store.path, disk.path('copy'), '--area', str(2 * AREA))
    else:
        store.kill_in(moment / 10, 'upgrade', store.path)
    disk.tell(chance.getrandbits(60))
    store.check()
    if kind == 'copy':
        store.check_copy(disk.path('copy'), None)
        if os.path.exists(disk.path('copy')):
            os.unlink(disk.path('copy'))
            disk.sync_names()
    return kind


def main():
    words = sys.argv[1:]
    if words[:1] == ['--serve']:
        serve(words[1])
        return 0
    is_deaf = words[:1] == ['--deaf']
    words = words[1:] if is_deaf else words
    cuts, seed = (int(word) for word in (words + ['100', '1'][len(words):])[:2])
    program = os.path.realpath(words[2]) if words[2:] else os.path.join(TOP, 'boost')
    chance, kinds = random.Random(seed), {}
    with tempfile.TemporaryDirectory() as folder:
        disk = Disk(folder)
        try:
            store = Store(disk, program, chance)
            if is_deaf:
                disk.tell('deaf')
            for number in range(cuts):
                kind = cut_once(store, disk, number, chance)
                kinds[kind] = kinds.get(kind, 0) + 1
                store.make_room()
                if (number + 1) % 50 == 0:
                    print(f'{number + 1} cuts, {store.told} transactions were told as kept', flush=True)
        except AssertionError as lost:
            print(f'behind {sum(kinds.values())} cuts, of seed {seed}: {lost}')
            return 1
        finally:
            disk.end()
    print(f'{cuts} cuts ({", ".join(f"{count} {kind}" for kind, count in sorted(kinds.items()))}), seed {seed}: '
          f'{store.told} transactions were told as kept, and each was there')
    return 0


if __name__ == '__main__':
    sys.exit(main())
