#!/usr/bin/env python3
"""replicated.py ceph|gluster [up|test|measure|down|all] [--unsafe] [--folder FOLDER] [--program PROGRAM]: a store on a replicated file system, whose
server dies and whose standby takes over. To be run before a release, by root on Debian with /dev/fuse; it is no part of the gate.

It installs what it wants by apt, brings three replicas up on this machine with two mounts A and B, each as that of a machine,
tries them and takes them down again: `up`, `test` and `down` by themselves, or `all` of it where none is named. `measure` prints how
many transactions a second are kept, on the local disk too.

In a test both mounts have a contrib/boost-standby, and eight clients keep transactions by whichever serves. Replicas and machines are
killed, cut off and restarted. Never may two serve; what was told kept has to be there after each test, and nothing by halves. The status
is 1 where it is not. With `--unsafe` the engine is brought up with settings that lose a store: then a test must fail.
"""
import argparse
import contextlib
import json
import os
import shutil
import signal
import subprocess
import sys
import tempfile
import threading
import time
import uuid

TOP = os.path.dirname(os.path.dirname(os.path.realpath(__file__)))
sys.dont_write_bytecode = True
sys.path.insert(0, os.path.join(TOP, 'clients', 'python'))
import boost  # noqa: E402

STANDBY = os.path.join(TOP, 'contrib', 'boost-standby')
AREA, CLIENTS, ROUNDS = 4 << 20, 8, 4
OSDS, BRICKS = 3, 3
SIDES = ('A', 'B')


class Wrong(Exception):
    """Something that must not be."""


def wait_until(is_so, seconds, what):
    end = time.monotonic() + seconds
    while not is_so():
        if time.monotonic() > end:
            raise Wrong(f'not within {seconds} seconds: {what}')
        time.sleep(0.1)


def output_of(*words, seconds=60):
    return subprocess.run(words, stdin=subprocess.DEVNULL, stdout=subprocess.PIPE, stderr=subprocess.PIPE, text=True, check=False, timeout=seconds)


def is_there(pid):
    """Whether a process is there, and more than what its parent has to bury."""
    try:
        with open(f'/proc/{pid}/stat', encoding='utf-8') as file:
            return file.read().rpartition(')')[2].split()[0] != 'Z'
    except OSError:
        return False


# ---- the file systems


class Engine:
    """A replicated file system in a folder, all of it on this machine: its processes by their names, and its mounts."""
    packages, commands = (), ()

    def __init__(self, folder, is_unsafe=False):
        self.folder, self.is_unsafe, self.children = folder, is_unsafe, {}

    def path(self, *names):
        return os.path.join(self.folder, *names)

    def write(self, name, text):
        with open(self.path(name), 'w', encoding='utf-8') as file:
            file.write(text)

    def make_folders(self, *names):
        for name in ('pids', 'log', *names):
            os.makedirs(self.path(name), exist_ok=True)

    def install(self):
        """Installs what is wanted, and lets none of its services start by itself."""
        if all(shutil.which(command) for command in self.commands):
            return
        policy = '/usr/sbin/policy-rc.d'
        is_mine = not os.path.exists(policy)
        if is_mine:
            with open(policy, 'w', encoding='utf-8') as file:
                file.write('#!/bin/sh\nexit 101\n')
            os.chmod(policy, 0o755)
        try:
            environment = {**os.environ, 'DEBIAN_FRONTEND': 'noninteractive'}
            subprocess.run(['apt-get', 'install', '-y', '--no-install-recommends', *self.packages], check=True, env=environment)
        finally:
            if is_mine:
                os.unlink(policy)

    def daemon(self, name, *words):
        with open(self.path('log', name + '.out'), 'ab') as log:
            self.children[name] = subprocess.Popen(['nice', '-n', '5', *words], stdin=subprocess.DEVNULL, stdout=log, stderr=log,
                                                   start_new_session=True)
        self.write('pids/' + name, str(self.children[name].pid))

    def pid(self, name):
        with open(self.path('pids', name), encoding='utf-8') as file:
            return int(file.read())

    def kill(self, name, number=signal.SIGKILL):
        with contextlib.suppress(ProcessLookupError):
            os.kill(self.pid(name), number)
        self.bury(name)

    def bury(self, name):
        if name in self.children:
            with contextlib.suppress(subprocess.TimeoutExpired):
                self.children[name].wait(10)
        wait_until(lambda: not is_there(self.pid(name)), 10, f'the end of {name}')

    def is_mounted(self, side):
        with open('/proc/mounts', encoding='utf-8') as file:
            return any(line.split()[1] == self.path(side) for line in file)

    def mount(self, side):
        os.makedirs(self.path(side), exist_ok=True)
        self.daemon('mount.' + side, *self.mount_words(side))
        wait_until(lambda: self.is_mounted(side), 30, f'the mount {side}')

    def unmount(self, side):
        subprocess.run(['umount', '-l', self.path(side)], stderr=subprocess.DEVNULL, check=False)

    def kill_mount(self, side):
        """The machine of a side is dead."""
        self.kill('mount.' + side)
        self.unmount(side)

    def mount_words(self, side):
        raise NotImplementedError

    def evict_command(self, side):
        """A command that shuts a side out, or none where there is none."""
        return None

    def down(self):
        for side in SIDES:
            self.unmount(side)
        for number in (signal.SIGTERM, signal.SIGKILL):
            for pid in self.mine():
                with contextlib.suppress(ProcessLookupError):
                    os.kill(pid, number)
            end = time.monotonic() + 5
            while self.mine() and time.monotonic() < end:
                time.sleep(0.1)
        shutil.rmtree(self.folder, ignore_errors=True)

    def mine(self):
        """The engine's processes that work in this folder, those too that others of them started."""
        found = []
        for pid in filter(str.isdigit, os.listdir('/proc')):
            with contextlib.suppress(OSError), open(f'/proc/{pid}/cmdline', encoding='utf-8', errors='replace') as file:
                words = file.read().split('\0')
                if os.path.basename(words[0]).startswith(('ceph', 'gluster')) and any(self.folder + '/' in word for word in words):
                    found.append(int(pid))
        return found


CEPH = """[global]
fsid = {fsid}
mon host = {hosts}
mon initial members = a
public addr = 127.0.0.1
cluster addr = 127.0.0.1
keyring = {folder}/keyring
run dir = {folder}/run
admin socket = {folder}/run/$name.$pid.asok
pid file = {folder}/run/$name.pid
log file = {folder}/log/$name.log
crash dir = {folder}/crash
ms bind msgr2 = false
osd pool default size = 3
osd pool default min size = 2
osd pool default pg autoscale mode = off
osd crush chooseleaf type = 0
mon data avail crit = 1
mon data avail warn = 2
mon warn on insecure global id reclaim allowed = false
osd memory target = 939524096
bluestore block size = 2147483648
bluestore cache size = 67108864
[mon]
mon data = {folder}/mon.$id
[osd]
osd data = {folder}/osd.$id
osd objectstore = bluestore
[mgr]
mgr data = {folder}/mgr.$id
[mds]
mds data = {folder}/mds.$id
"""
MONITOR = '[v1:127.0.0.1:6789]'


class Ceph(Engine):
    """CephFS: a monitor, a manager, a metadata server, and three OSDs on files of 2 GB that are sparse; the mounts by ceph-fuse."""
    packages = ('ceph-mon', 'ceph-osd', 'ceph-mgr', 'ceph-mds', 'ceph-fuse', 'ceph-common', 'fuse3')
    commands = ('ceph-mon', 'ceph-osd', 'ceph-mgr', 'ceph-mds', 'ceph-fuse', 'ceph')

    def ceph(self, *words):
        done = output_of('ceph', '-c', self.path('ceph.conf'), '-k', self.path('keyring'), *words)
        return done.stdout if done.returncode == 0 else ''

    def tool(self, *words):
        subprocess.run(words, check=True, stdout=subprocess.DEVNULL, stderr=subprocess.DEVNULL)

    def start(self, kind, name):
        words = ['-c', self.path('ceph.conf'), '-i', name, '-f']
        if kind != 'mon':
            words += ['--keyring', self.path(f'{kind}.{name}', 'keyring')]
        self.daemon(f'{kind}.{name}', 'ceph-' + kind, *words)

    def up(self):
        self.make_folders('run', 'mon.a', 'mgr.x', 'mds.m', *(f'osd.{number}' for number in range(OSDS)))
        fsid, keyring, configuration = str(uuid.uuid4()), self.path('keyring'), self.path('ceph.conf')
        self.write('ceph.conf', CEPH.format(fsid=fsid, hosts=MONITOR, folder=self.folder))
        everything = ['--cap', 'osd', 'allow *', '--cap', 'mds', 'allow *', '--cap', 'mgr', 'allow *']
        self.tool('ceph-authtool', '--create-keyring', keyring, '--gen-key', '-n', 'mon.', '--cap', 'mon', 'allow *')
        self.tool('ceph-authtool', keyring, '--gen-key', '-n', 'client.admin', '--cap', 'mon', 'allow *', *everything)
        self.tool('monmaptool', '--create', '--clobber', '--addv', 'a', MONITOR, '--fsid', fsid, self.path('monmap'))
        self.tool('ceph-mon', '-c', configuration, '--mkfs', '-i', 'a', '--monmap', self.path('monmap'), '--keyring', keyring)
        self.start('mon', 'a')
        wait_until(lambda: self.ceph('-s'), 60, 'the monitor')
        self.authorize('mgr.x', 'mon', 'allow profile mgr', 'osd', 'allow *', 'mds', 'allow *')
        self.start('mgr', 'x')
        for number in map(str, range(OSDS)):
            self.make_osd(number, configuration)
        for words in (('osd', 'pool', 'create', 'data', '8', '8'), ('osd', 'pool', 'create', 'meta', '8', '8'),
                      ('fs', 'new', 'cephfs', 'meta', 'data')):
            self.ceph(*words)
        self.authorize('mds.m', 'mon', 'allow profile mds', 'osd', 'allow rwx', 'mds', 'allow *', 'mgr', 'allow profile mds')
        self.start('mds', 'm')
        wait_until(lambda: 'active' in self.ceph('fs', 'status'), 60, 'the metadata server')
        self.settle()
        if self.is_unsafe:
            for name in ('mds_session_blocklist_on_evict', 'mds_session_blocklist_on_timeout'):
                self.ceph('config', 'set', 'mds', name, 'false')
        for side in SIDES:
            self.mount(side)

    def authorize(self, name, *rights):
        self.ceph('auth', 'get-or-create', name, *rights, '-o', self.path(name, 'keyring'))

    def make_osd(self, number, configuration):
        name = str(uuid.uuid4())
        self.ceph('osd', 'new', name)
        self.authorize('osd.' + number, 'mon', 'allow profile osd', 'mgr', 'allow profile osd', 'osd', 'allow *')
        self.tool('ceph-osd', '-c', configuration, '-i', number, '--mkfs', '--osd-uuid', name, '--keyring', self.path('osd.' + number, 'keyring'))
        self.start('osd', number)

    def settle(self):
        def is_clean():
            told = self.ceph('-s')
            return 'active+clean' in told and not any(word in told for word in ('degraded', 'undersized', 'peering', 'unknown', 'inactive'))
        wait_until(is_clean, 120, 'all placement groups clean')

    def mount_words(self, side):
        return ['ceph-fuse', '-f', '-c', self.path('ceph.conf'), '-n', 'client.admin', '-k', self.path('keyring'), self.path(side)]

    def evict(self, side):
        """Shuts a side's mount out for good: what it sends from now on is refused by each OSD."""
        sessions = json.loads(self.ceph('tell', 'mds.m', 'client', 'ls') or '[]')
        for session in sessions:
            if session['client_metadata'].get('mount_point') == self.path(side):
                self.ceph('tell', 'mds.m', 'client', 'evict', f'id={session["id"]}')

    def evict_command(self, side):
        return f'{sys.executable} {os.path.realpath(__file__)} ceph evict {side} --folder {self.folder}'

    def checks(self):
        return (one_replica_dies, self.metadata_server_dies, machines_die, self.a_living_one_is_evicted, self.two_replicas_die)

    def kill_replica(self, number):
        self.kill(f'osd.{number}')

    def start_replica(self, number):
        self.start('osd', str(number))

    def metadata_server_dies(self, trial):
        """The metadata server is restarted while A serves: the lock stays A's."""
        trial.serve('A')
        self.kill('mds.m')
        time.sleep(1)
        self.start('mds', 'm')
        trial.goes_on(60)
        trial.is_fenced('B')
        return trial.verify()

    def a_living_one_is_evicted(self, trial):
        """A is evicted while it lives: it ends with status 1, and B takes over."""
        trial.serve('A', 'B')
        self.evict('A')
        trial.ended('A', 1, 30)
        trial.goes_on(60)
        assert trial.serving() == ['B'], trial.serving()
        told = trial.verify()
        self.kill_mount('A')
        self.mount('A')
        return told

    def two_replicas_die(self, trial):
        """Two OSDs of three die: all waits, and goes on once they are back."""
        trial.serve('A')
        for number in (0, 1):
            self.kill_replica(number)
        time.sleep(5)
        before = len(trial.load.kept)
        time.sleep(2)
        if len(trial.load.kept) > before + CLIENTS:
            raise Wrong('transactions are told kept with one replica of three')
        for number in (0, 1):
            self.start_replica(number)
        trial.goes_on(90)
        self.settle()
        return trial.verify()


GLUSTERD = """volume management
    type mgmt/glusterd
    option working-directory {folder}/wd
    option run-directory {folder}/run
    option transport-type socket
    option transport.address-family inet
    option transport.socket.bind-address {host}
    option transport.socket.listen-port 24007
    option ping-timeout 0
    option event-threads 1
    option base-port 49152
    option max-port 60999
end-volume
"""
# 127.0.0.1 is refused as the name of a host, and this is not.
HOST, VOLUME = '127.0.0.2', 'st'
SETTINGS = (
    ('client.strict-locks', 'on'),              # a lock that a brick has dropped is never gone on without
    ('cluster.quorum-type', 'auto'),            # the default of three replicas, and never `none`
    ('network.ping-timeout', '5'),              # a brick that hangs stops all for 42 seconds else
)


class Gluster(Engine):
    """GlusterFS: a daemon, a volume of three bricks, and the mounts by glusterfs."""
    packages = ('glusterfs-server', 'glusterfs-client', 'fuse3')
    commands = ('glusterd', 'glusterfs', 'gluster')

    def gluster(self, *words):
        return output_of('gluster', '--mode=script', *words)

    def up(self):
        self.make_folders('wd', 'run', 'b1', 'b2', 'b3')
        self.write('glusterd.vol', GLUSTERD.format(folder=self.folder, host=HOST))
        self.daemon('glusterd', 'glusterd', '-N', '-f', self.path('glusterd.vol'), '-p', self.path('glusterd.pid'),
                    '-l', self.path('log', 'glusterd.log'))
        wait_until(lambda: self.gluster('volume', 'list').returncode == 0, 30, 'glusterd')
        bricks = [f'{HOST}:{self.path(f"b{number}", "br")}' for number in range(1, BRICKS + 1)]
        # `force`: three bricks of one host, on the file system of the root
        self.need('volume', 'create', VOLUME, 'replica', '3', *bricks, 'force')
        for name, value in () if self.is_unsafe else SETTINGS:
            self.need('volume', 'set', VOLUME, name, value)
        self.need('volume', 'start', VOLUME)
        for side in SIDES:
            self.mount(side)

    def need(self, *words):
        done = self.gluster(*words)
        if done.returncode:
            raise Wrong(f'gluster {" ".join(words)}: {done.stdout}{done.stderr}')

    def mount_words(self, side):
        # A mount that had read the file before opens it with pages that are out of date without --fopen-keep-cache=off.
        return ['glusterfs', '-N', f'--volfile-server={HOST}', f'--volfile-id={VOLUME}', '--log-file=' + self.path('log', side + '.log'),
                '--fopen-keep-cache=off', self.path(side)]

    def brick(self, number):
        folder = self.path('run', 'vols', VOLUME)
        name = next(name for name in os.listdir(folder) if name.endswith(f'-b{number + 1}-br.pid'))
        with open(os.path.join(folder, name), encoding='utf-8') as file:
            return int(file.read())

    def kill_replica(self, number):
        pid = self.brick(number)
        os.kill(pid, signal.SIGKILL)
        # (glusterd takes one that nobody buried for a brick that runs)
        wait_until(lambda: not os.path.exists(f'/proc/{pid}'), 10, 'the end of a brick')

    def start_replica(self, number):
        self.need('volume', 'start', VOLUME, 'force')
        time.sleep(3)

    def settle(self):
        def is_healed():
            self.gluster('volume', 'heal', VOLUME)          # by itself it looks each ten minutes
            return self.gluster('volume', 'heal', VOLUME, 'info').stdout.count('entries: 0') == BRICKS
        wait_until(is_healed, 60, 'all healed')

    def checks(self):
        return (one_replica_dies, machines_die, self.each_brick_is_restarted, self.two_bricks_die)

    def each_brick_is_restarted(self, trial):
        """Each brick is restarted while A serves and B waits: the lock is never lost in silence, and never do two serve."""
        trial.serve('A', 'B')
        for number in range(BRICKS):
            self.kill_replica(number)
            self.start_replica(number)
            time.sleep(1)
            if len(trial.serving()) > 1:
                raise Wrong('two serve')
            trial.restart_ended()
        trial.goes_on(30)
        told = trial.verify()
        self.settle()
        return told

    def two_bricks_die(self, trial):
        """Two bricks of three die: the server ends with status 1, and all is there once they are back."""
        trial.serve('A')
        for number in (0, 2):
            self.kill_replica(number)
        trial.ended('A', 1, 30)
        self.start_replica(0)
        trial.verify()
        self.settle()
        return 'all there once they are back'


ENGINES = {'ceph': Ceph, 'gluster': Gluster}


# ---- the store there


class Load:
    """Clients that keep transactions by whichever side serves, and what they were told."""

    def __init__(self, folders):
        self.folders, self.kept, self.asked, self.is_over = folders, set(), set(), threading.Event()
        self.next, self.lock = 0, threading.Lock()
        self.threads = [threading.Thread(target=self.work) for _ in range(CLIENTS)]

    def start(self):
        for each in self.threads:
            each.start()

    def work(self):
        stores = [boost.join(folder, patience=5, timeout=120) for folder in self.folders]
        while not self.is_over.is_set():
            for store in stores:
                with contextlib.suppress(boost.Gone, boost.Lost, boost.Busy, boost.Refused):
                    while not self.is_over.is_set():
                        self.one(store)
            time.sleep(0.02)
        for store in stores:
            store.close()

    def one(self, store):
        with self.lock:
            self.next += 1
            number = self.next
        self.asked.add(number)
        if store.do(('done', 'add', number), ('hits', 'bump', 1), keep=True) == [True, None]:
            self.kept.add(number)

    def stop(self):
        self.is_over.set()
        for each in self.threads:
            each.join()


class Trial:
    """A store on both mounts, the standbys that run, and the clients."""

    def __init__(self, engine, program):
        self.engine, self.program, self.standbys = engine, program, {}
        self.folders = {side: engine.path('run.' + side) for side in SIDES}
        for folder in self.folders.values():
            os.makedirs(folder, exist_ok=True)
            with contextlib.suppress(FileExistsError):
                os.mkfifo(os.path.join(folder, 'door'), 0o600)
        self.load, self.kept, self.asked = None, set(), set()
        done = output_of(program, 'format', self.disk('A'), '--area', str(AREA), '--force')
        if done.returncode:
            raise Wrong(f'format: {done.stderr}')
        lines = 'c1 make set done\nc1 make counter hits\nc1 wait\nend\n'
        subprocess.run([program, 'listen', self.disk('A')], input=lines, text=True, stdout=subprocess.DEVNULL, check=True)

    def disk(self, side):
        return os.path.join(self.engine.path(side), 'store')

    def start(self, side):
        other = SIDES[1 - SIDES.index(side)]
        words = [sys.executable, STANDBY, '--program', self.program, '--every', '0.2']
        evict = self.engine.evict_command(other)
        if evict:
            words += ['--probe', f'kill -0 {self.engine.pid("mount." + other)}', '--after', '0.5', '--evict', evict]
        with open(self.engine.path('log', 'standby.' + side), 'ab') as log:
            self.standbys[side] = subprocess.Popen([*words, self.disk(side), self.folders[side]], stdin=subprocess.DEVNULL, stderr=log,
                                                   start_new_session=True)

    def serving(self):
        """The sides whose door is read."""
        found = []
        for side, folder in self.folders.items():
            with contextlib.suppress(OSError):
                os.close(os.open(os.path.join(folder, 'door'), os.O_WRONLY | os.O_NONBLOCK))
                found.append(side)
        return found

    def serve(self, *sides):
        """The first side serves, the others wait, and the clients are at work."""
        self.start(sides[0])
        wait_until(lambda: self.serving() == [sides[0]], 60, 'a server')
        for side in sides[1:]:
            self.start(side)
        self.load = Load(list(self.folders.values()))
        self.load.next = max(self.asked, default=0)
        self.load.start()
        self.goes_on(30)

    def goes_on(self, seconds):
        """How long it took until a transaction was kept that was asked for from now on."""
        began, number = time.monotonic(), self.load.next
        wait_until(lambda: any(each > number for each in list(self.load.kept)[-200:]) or max(self.load.kept, default=0) > number,
                   seconds, 'a transaction that is kept')
        return time.monotonic() - began

    def is_fenced(self, side):
        done = output_of(self.program, 'check', self.disk(side))
        if done.returncode != 4 or 'another run' not in done.stderr:
            raise Wrong(f'{side} may read the store while the other one serves: status {done.returncode}')

    def ended(self, side, status, seconds):
        wait_until(lambda: self.standbys[side].poll() is not None, seconds, f'the end of {side}')
        if self.standbys[side].returncode != status:
            raise Wrong(f'{side} ended with status {self.standbys[side].returncode}')

    def restart_ended(self):
        """As systemd does with a unit that ended."""
        for side, standby in list(self.standbys.items()):
            if standby.poll() is not None:
                self.start(side)

    def kill_machine(self, side):
        with contextlib.suppress(ProcessLookupError):
            os.killpg(self.standbys[side].pid, signal.SIGKILL)
        self.engine.kill_mount(side)
        self.standbys.pop(side).wait()

    def stop(self):
        for standby in self.standbys.values():
            if standby.poll() is None:
                standby.terminate()
        for standby in self.standbys.values():
            with contextlib.suppress(subprocess.TimeoutExpired):
                standby.wait(40)
            with contextlib.suppress(ProcessLookupError):
                os.killpg(standby.pid, signal.SIGKILL)
        self.standbys = {}
        if self.load:
            self.load.stop()
            self.kept |= self.load.kept
            self.asked |= self.load.asked
            self.load = None

    def verify(self):
        """Ends all, and looks by B: what was told kept is there, nothing by halves, and nothing that nobody asked for."""
        self.stop()
        text = ''

        def opens():
            nonlocal text
            done = output_of(self.program, 'show', self.disk('B'))
            text = done.stdout
            if done.returncode not in (0, 4):
                raise Wrong(f'the store does not open: {done.stderr}')
            return done.returncode == 0
        wait_until(opens, 90, 'an opening by B')
        there, hits, at = set(), 0, ''
        for line in text.splitlines():
            if line[0] != ' ':
                at = line
            elif at == 'set done':
                there.add(int(line))
            elif at == 'counter hits':
                hits = int(line)
        if self.kept - there or there - self.asked or hits != len(there):
            raise Wrong(f'told kept {len(self.kept)}, lost {len(self.kept - there)}; there {len(there)}, hits {hits}')
        return f'{len(self.kept)} told kept, all there'


def one_replica_dies(trial):
    """One replica of three dies and comes back: the server goes on, and no other one gets in."""
    trial.serve('A')
    trial.is_fenced('B')
    trial.engine.kill_replica(0)
    gap = trial.goes_on(60)
    trial.engine.start_replica(0)
    trial.goes_on(60)
    trial.is_fenced('B')
    told = trial.verify()
    trial.engine.settle()
    return f'{told}; {gap:.1f} s'


def machines_die(trial):
    """The machine that serves dies, server and mount, again and again, and the standby takes over."""
    trial.serve('A', 'B')
    gaps = []
    for number in range(ROUNDS):
        side = SIDES[number % 2]
        time.sleep(0.5 + number * 0.37 % 1)
        trial.kill_machine(side)
        gaps.append(trial.goes_on(120))
        if trial.serving() != [SIDES[1 - number % 2]]:
            raise Wrong(f'{trial.serving()} serve')
        trial.engine.mount(side)
        trial.start(side)
        time.sleep(0.5)
    return f'{trial.verify()}; taken over within {", ".join(f"{gap:.1f}" for gap in gaps)} s'


def test(engine, program):
    trial, failed = Trial(engine, program), 0
    for check in engine.checks():
        try:
            print(f'{check.__name__}: {check(trial)}', flush=True)
        except (Wrong, AssertionError, subprocess.SubprocessError) as wrong:
            failed += 1
            print(f'{check.__name__}: FAILED: {wrong}', flush=True)
            trial.stop()
    return failed


# ---- how fast


def kept_in(program, disk, clients, seconds):
    """How many transactions so many clients of one server keep a second."""
    server = subprocess.Popen([program, 'listen', disk], stdin=subprocess.PIPE, stdout=subprocess.PIPE, bufsize=0)
    server.stdin.write(b'c1 make counter speed\nc1 wait\n')
    output = os.fdopen(os.dup(server.stdout.fileno()), 'rb', 65536)
    for _ in range(3):
        output.readline()
    kept, end = 0, time.monotonic() + seconds
    server.stdin.write(b''.join(b'c%d keep speed bump 1\n' % client for client in range(1, clients + 1)))
    for line in output:
        if time.monotonic() > end:
            break
        kept += b' kept ' in line
        server.stdin.write(line.split(b' ', 1)[0] + b' keep speed bump 1\n')
    server.kill()
    server.wait()
    output.close()
    return kept / seconds


def measure(engine, program):
    with tempfile.TemporaryDirectory() as room:
        for name, folder in (('the local disk', room), (type(engine).__name__, engine.path('A'))):
            found = []
            for clients in (1, 8, 64):
                disk = os.path.join(folder, f'speed-{clients}')
                subprocess.run([program, 'format', disk, '--area', str(AREA), '--force'], check=True)
                found.append(f'{clients} clients {kept_in(program, disk, clients, 5):,.0f}')
            print(f'{name}: kept a second by {", ".join(found)}', flush=True)
    return 0


def main():
    asked = argparse.ArgumentParser(description='A store on a replicated file system.')
    asked.add_argument('engine', choices=ENGINES)
    asked.add_argument('what', nargs='?', default='all', choices=('up', 'test', 'measure', 'down', 'all', 'evict'))
    asked.add_argument('side', nargs='?', help='with evict')
    asked.add_argument('--unsafe', action='store_true')
    asked.add_argument('--folder')
    asked.add_argument('--program')
    asked = asked.parse_args()
    engine = ENGINES[asked.engine](asked.folder or os.path.join(tempfile.gettempdir(), 'boost-' + asked.engine), asked.unsafe)
    if asked.what == 'evict':
        return engine.evict(asked.side)
    found = asked.program or output_of(os.path.join(TOP, 'boost'), 'which', seconds=3600).stdout.strip()
    program, began, failed = os.path.realpath(found), time.monotonic(), 0
    try:
        if asked.what in ('up', 'all'):
            engine.install()
            engine.up()
        if asked.what in ('test', 'all'):
            failed = test(engine, program)
        if asked.what == 'measure' or asked.what == 'all' and not asked.unsafe:
            measure(engine, program)
    finally:
        if asked.what in ('down', 'all'):
            engine.down()
    print(f'{asked.engine} {asked.what}: {time.monotonic() - began:.0f} s', flush=True)
    return 1 if failed else 0


if __name__ == '__main__':
    sys.exit(main())
