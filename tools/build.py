#!/usr/bin/env python3
"""Builds the program for the script `boost`: `build.py proved`, with a line that tells how far it is, or
`build.py unproved`, as the toolchain builds it for a try. What the toolchain prints goes into a log beside
the program. `build.py unproved CRATE [WORD ..]` does that for the program of another crate, which is run once
with these words, and prints where the program is kept. The status is 0, or 5 where nothing was built."""
import errno
import fcntl
import glob
import os
import re
import signal
import subprocess
import sys
import tempfile
import threading
import time

TOP = os.path.dirname(os.path.dirname(os.path.abspath(__file__)))
sys.path.insert(0, os.path.join(TOP, 'tools'))
from crates import crates_up_to, dependencies

CRATE = os.path.join(TOP, 'crates', 'boost_main')
OUT = os.path.join(CRATE, 'out')
LOG = os.path.join(OUT, 'build.log')
# What the toolchain prints at the end of a crate.
NAMED = re.compile(r'crate (\w+): modules ')
COUNTED = re.compile(r'logic=proved functions=(\d+)')


def fail(why):
    print(f'boost: {why}', file=sys.stderr)
    sys.exit(5)


class Clock:
    """Tells each ten seconds how long something has taken: in one line of a terminal, else in a line each time."""

    def __init__(self, what):
        self.what, self.began = what, time.monotonic()
        self.is_terminal = sys.stderr.isatty()
        self.is_over = threading.Event()
        self.thread = threading.Thread(target=self.run, daemon=True)

    def __enter__(self):
        self.thread.start()

    def __exit__(self, *error):
        self.is_over.set()
        self.thread.join()
        if self.is_terminal:
            print('\r\x1b[K', end='', file=sys.stderr, flush=True)

    def run(self):
        while not self.is_over.wait(10):
            line = f'boost: {self.what}, {int(time.monotonic() - self.began)} seconds'
            print(f'\r{line}\x1b[K' if self.is_terminal else line, end='' if self.is_terminal else '\n', file=sys.stderr, flush=True)


def take_turn():
    """Waits until no other build runs here: its lock is held to the end of this process. Whether there was one."""
    lock = os.open(os.path.join(OUT, 'build.lock'), os.O_WRONLY | os.O_CREAT | os.O_CLOEXEC, 0o644)
    try:
        fcntl.flock(lock, fcntl.LOCK_EX | fcntl.LOCK_NB)
        return False
    except BlockingIOError:
        with Clock('another build runs here'):
            fcntl.flock(lock, fcntl.LOCK_EX)
        return True


def is_built_since(began, name):
    """Whether another build has left that program meanwhile."""
    path = os.path.join(OUT, name)
    return os.path.exists(path) and os.path.getmtime(path) >= began


# ---- before any proof


def end_of(pipe, tried):
    """The end of the pipe into which a script is written, once the program reads it; none where it never did."""
    while tried.poll() is None:
        try:
            return os.open(pipe, os.O_WRONLY | os.O_NONBLOCK)
        except OSError as error:
            if error.errno != errno.ENXIO:
                raise
            time.sleep(0.05)
    return None


def build_unproved():
    """A try of the toolchain keeps no file. So the program is given a script that does not come, is linked
    under a name of its own while it waits, and is then told that the script is empty."""
    with tempfile.TemporaryDirectory(prefix='try-', dir=OUT) as room, open(LOG, 'w', encoding='utf-8') as log:
        pipe = os.path.join(room, 'script')
        os.mkfifo(pipe)
        words = ['rt', 'try', '--', 'play', os.path.join(room, 'disk'), pipe]
        environment = {**os.environ, 'TMPDIR': room}
        tried = subprocess.Popen(words, cwd=CRATE, env=environment, stdin=subprocess.DEVNULL, stdout=log, stderr=log)
        end = end_of(pipe, tried)
        found = glob.glob(os.path.join(room, '**', 'program'), recursive=True)
        if end is not None and found:
            kept = os.path.join(room, 'kept')
            os.link(found[0], kept)
            os.chmod(kept, 0o755)
            os.replace(kept, os.path.join(OUT, 'unproved'))
        if end is not None:
            os.close(end)
        tried.wait()
        return bool(end is not None and found)


def keep_tried(room, tried, kept):
    """Links the program of a try as soon as it is there, and once more where another file takes its place, until
    the try has ended: a link stays when the try takes its own away."""
    linked = None
    while True:
        has_ended = tried.poll() is not None
        for path in glob.glob(os.path.join(room, '**', 'program'), recursive=True):
            try:
                number = os.stat(path).st_ino
                if number != linked:
                    if linked is not None:
                        os.unlink(kept)
                    os.link(path, kept)
                    linked = number
            except FileNotFoundError:
                pass
        if has_ended:
            return linked is not None
        time.sleep(0.005)


def build_unproved_of(crate, words):
    """Keeps the program of a crate as `out/unproved`."""
    folder = os.path.join(TOP, 'crates', crate)
    out = os.path.join(folder, 'out')
    if not os.path.isdir(folder):
        fail(f'no crate {crate}')
    os.makedirs(out, exist_ok=True)
    log_path = os.path.join(out, 'build.log')
    with tempfile.TemporaryDirectory(prefix='try-', dir=out) as room, open(log_path, 'w', encoding='utf-8') as log:
        kept = os.path.join(room, 'kept')
        environment = {**os.environ, 'TMPDIR': room}
        how = {'stdin': subprocess.DEVNULL, 'stdout': log, 'stderr': log}
        tried = subprocess.Popen(['rt', 'try', '--', *words], cwd=folder, env=environment, **how)
        if not keep_tried(room, tried, kept):
            fail(f'the program was not built: see {os.path.relpath(log_path)}')
        os.chmod(kept, 0o755)
        os.replace(kept, os.path.join(out, 'unproved'))
    print(os.path.relpath(os.path.join(out, 'unproved')))


# ---- with a proof


class Progress:
    """How far a build is: in one line of a terminal, else in a line for each crate."""

    def __init__(self):
        self.crates = crates_up_to('boost_main', dependencies())
        self.is_terminal = sys.stderr.isatty()
        self.began = time.monotonic()
        self.proved = f'{len(self.crates)} crates to prove'
        self.last, self.functions = None, 0
        if self.is_terminal:
            signal.signal(signal.SIGALRM, lambda number, frame: self.tell())
            signal.setitimer(signal.ITIMER_REAL, 10, 10)
        self.tell()

    def tell(self):
        minutes = int(time.monotonic() - self.began) // 60
        line = f'boost: {self.proved}, {self.functions} functions, {minutes} minutes'
        if self.is_terminal:
            print(f'\r{line}\x1b[K', end='', file=sys.stderr, flush=True)
        else:
            print(line, file=sys.stderr, flush=True)

    def read(self, line):
        """Takes a line of the toolchain's into account."""
        crate, count = NAMED.match(line), COUNTED.match(line)
        if crate:
            self.last = crate[1]
        if count and self.last in self.crates:
            self.functions += int(count[1])
            self.proved = f'crate {self.crates.index(self.last) + 1} of {len(self.crates)} ({self.last}) proved'
            self.tell()

    def end(self):
        signal.setitimer(signal.ITIMER_REAL, 0)
        if self.is_terminal:
            print(file=sys.stderr)


def build_proved():
    progress = Progress()
    how = {'stdin': subprocess.DEVNULL, 'stdout': subprocess.DEVNULL, 'stderr': subprocess.PIPE}
    with open(LOG, 'w', encoding='utf-8') as log:
        run = subprocess.Popen(['rt', 'run', '--', '--help'], cwd=CRATE, text=True, **how)
        for line in run.stderr:
            log.write(line)
            progress.read(line)
    is_built = run.wait() == 0
    progress.end()
    if is_built:
        os.utime(os.path.join(OUT, 'boost_main'))
        print('boost: proved and built', file=sys.stderr)
    return is_built


def build(kind):
    """Builds the program, unless a build that this one waited for has left it."""
    began = time.time()
    if take_turn() and is_built_since(began, 'boost_main' if kind == 'proved' else 'unproved'):
        return True
    if kind == 'proved':
        return build_proved()
    with Clock('building the program'):
        return build_unproved()


def main():
    try:
        os.makedirs(OUT, exist_ok=True)
        if sys.argv[1:2] == ['unproved'] and len(sys.argv) > 2:
            build_unproved_of(sys.argv[2], sys.argv[3:])
            return
        is_built = build(sys.argv[1])
    except OSError as error:
        if isinstance(error, FileNotFoundError) and error.filename == 'rt':
            fail('no toolchain: the command rt is not there')
        fail(f'the program was not built: {error}')
    except KeyboardInterrupt:
        fail('broken off')
    if not is_built:
        fail(f'the program was not built: see {os.path.relpath(LOG)}')


main()
