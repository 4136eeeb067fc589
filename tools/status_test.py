#!/usr/bin/env python3
"""status_test.py [PROGRAM]: tries what a server tells who watches it: `python3 -m boost.status FOLDER` while all its 64 clients are taken, in
each of its forms; one who asks and dies, and one who does not read the answer; an opening that reads its store in large pieces; and the
lines of `listen --log`. The program is that of `./boost which`, unless another one is named. Prints a line for each check.
"""
import contextlib
import fcntl
import json
import os
import re
import subprocess
import sys
import tempfile
import time

TOP = os.path.dirname(os.path.dirname(os.path.realpath(__file__)))
CLIENTS = os.path.join(TOP, 'clients', 'python')
sys.path.insert(0, CLIENTS)
sys.dont_write_bytecode = True
import boost  # noqa: E402
from boost import status  # noqa: E402

PROGRAM = sys.argv[1] if len(sys.argv) > 1 else os.path.join(TOP, 'boost')
METRIC = re.compile(r'# (?:HELP|TYPE) \w+ .+|[a-z_]+(?:\{kind="\w+"(?:,name="[\w.-]+")?\})? -?[0-9.]+')
# How long anything may take, in seconds.
LIMIT = 60


class Place:
    """A store, and a server at the door of a folder."""

    def __init__(self, *words, area='1M'):
        self.room = tempfile.TemporaryDirectory()
        self.disk, self.folder, self.words = os.path.join(self.room.name, 'disk'), os.path.join(self.room.name, 'run'), words
        subprocess.run([PROGRAM, 'format', self.disk, '--area', area], check=True)
        os.mkdir(self.folder, 0o700)
        os.mkfifo(os.path.join(self.folder, 'door'), 0o600)
        self.log = open(os.path.join(self.room.name, 'log'), 'w+', encoding='utf-8')

    def __enter__(self):
        self.server = subprocess.Popen([PROGRAM, 'listen', *self.words, self.disk, self.folder], stdin=subprocess.DEVNULL,
                                       stderr=self.log)
        end = time.monotonic() + LIMIT
        while True:
            try:
                return self.store_that_answers()
            except boost.Gone:
                assert time.monotonic() < end and self.server.poll() is None, 'no server'
                time.sleep(0.02)

    def store_that_answers(self):
        store = boost.join(self.folder)
        try:
            store.status()
        except boost.Gone:
            store.close()
            raise
        return store

    def end(self):
        """Ends the server by its door, and gives the lines of its standard error."""
        with open(os.path.join(self.folder, 'door'), 'w', encoding='utf-8') as door:
            door.write('\nend\n')
        assert self.server.wait(LIMIT) == 0, self.server.returncode
        self.log.seek(0)
        return self.log.read().splitlines()

    def __exit__(self, *_):
        self.server.kill()
        self.server.wait()
        self.log.close()
        self.room.cleanup()


def told(place, *words):
    """What the program tells: its status, and what it printed."""
    ran = subprocess.run([sys.executable, '-B', '-m', 'boost.status', place.folder, *words], stdout=subprocess.PIPE,
                         stderr=subprocess.PIPE, text=True, env={**os.environ, 'PYTHONPATH': CLIENTS}, timeout=LIMIT, check=False)
    return ran.returncode, ran.stdout, ran.stderr


def while_all_are_taken():
    """64 clients have a transaction open, so that a 65th waits. Who asks is answered, in each form, and what is told agrees."""
    place = Place()
    with place as store, contextlib.ExitStack() as stack:
        store.make('counter', 'hits')
        store.make('set', 'jobs')
        store.close()
        taken = [stack.enter_context(boost.join(place.folder)) for _ in range(64)]
        for one in taken:
            stack.enter_context(one.transaction(keep=False)).call('hits', 'bump', 1)
        code, lines, _ = told(place)
        assert code == 0 and 'live 64\n' in lines and 'clients 64\n' in lines and 'collection counter hits 1\n' in lines, lines
        one = json.loads(told(place, '--json')[1])
        assert one['live'] == 64 and not one['failed'] and one['syncs'] >= 4 and one['written'] > 0, one
        assert one['collections'] == [{'kind': 'counter', 'name': 'hits', 'items': 1}, {'kind': 'set', 'name': 'jobs', 'items': 0}], one
        metrics = told(place, '--prometheus')[1]
        assert all(METRIC.fullmatch(line) for line in metrics.splitlines()), metrics
        assert 'boost_up 1\n' in metrics and 'boost_live_transactions 64\n' in metrics and 'boost_syncs_total' in metrics, metrics
        own = status.state_of(status.ask(place.folder))
        assert set(own.numbers) >= {'format', 'syncs', 'written', 'longest_write', 'last_checkpoint'}, own
    return '64 clients, 4 forms'


def as_a_client_is_told():
    """At a store at rest a client and who asks are told the same, and the counts of the disk rise with commits and a checkpoint."""
    place = Place(area='64K')
    with place as store:
        store.make('map', 'm')
        begun = store.status()
        for number in range(300):
            store.do(('m', 'put', number % 5, b'x' * 200), keep=True)
        time.sleep(0.5)
        session = store.session().lines(['status'])[0]
        assert session == status.ask(place.folder), session
        now = store.status()
        assert now.checkpoints > 0 and now.last_checkpoint > 0 and now.longest_write > 0, now
        assert now.syncs >= begun.syncs + 600 and now.written > begun.written + 300 * 200, (begun, now)
        store.close()
    return f'{now.checkpoints} checkpoints, {now.syncs} syncs'


def one_who_does_not_read():
    """Who asks and does not read an answer that its FIFO has no room for holds up nobody but others who ask, and these until eight more
    have. The server is ended meanwhile as ever."""
    place = Place()
    with place as store:
        for number in range(150):
            store.make('counter', 'a' * 50 + str(number))
        deaf = os.path.join(place.folder, 'deaf.from')
        os.mkfifo(deaf, 0o600)
        number = os.open(deaf, os.O_RDWR | os.O_NONBLOCK)
        fcntl.fcntl(number, fcntl.F_SETPIPE_SZ, 4096)
        ask = lambda word: subprocess.run(['sh', '-c', 'printf "\\nstatus %s\\n" "$1" > "$2/door"', 'sh', word, place.folder], check=True)
        ask('deaf')
        time.sleep(0.5)
        assert store.do((('a' * 50 + '0'), 'bump', 1), keep=True) == [None]
        for gone in range(9):
            ask(f'gone{gone}')
        assert status.ask(place.folder, LIMIT).startswith('format 1; ')
        os.close(number)
        os.mkfifo(deaf, 0o600)
        number = os.open(deaf, os.O_RDWR | os.O_NONBLOCK)
        fcntl.fcntl(number, fcntl.F_SETPIPE_SZ, 4096)
        ask('deaf')
        time.sleep(0.5)
        store.close()
        lines = place.end()
        os.close(number)
        assert sum(line.startswith('boost: passed over gone') for line in lines) == 9, lines
    return '1 given up by others, 1 at the end'


def where_no_server_is():
    place = Place()
    with place as store:
        store.close()
        place.end()
        code, lines, why = told(place)
        assert (code, lines) == (1, '') and why.startswith('boost: no server can be reached'), why
        code, lines, why = told(place, '--prometheus')
        assert code == 1 and lines.endswith('boost_up 0\n'), lines
        assert told(place, '--prometheus', '--watch')[0] == 2
        assert os.listdir(place.folder) == ['door']
    return '3 answers'


def watching():
    """It is drawn anew each second, and says so where the server goes away."""
    place = Place()
    with place as store:
        store.make('counter', 'hits')
        words = [sys.executable, '-B', '-m', 'boost.status', place.folder, '--watch']
        environment = {**os.environ, 'PYTHONPATH': CLIENTS}
        with subprocess.Popen(words, stdout=subprocess.PIPE, text=True, env=environment) as drawn, \
                subprocess.Popen([*words, '--json'], stdout=subprocess.PIPE, text=True, env=environment) as lined:
            end = time.monotonic() + 2.5
            while time.monotonic() < end:
                store.do(('hits', 'bump', 1), keep=True)
            store.close()
            place.server.kill()
            time.sleep(1.5)
            for one in (drawn, lined):
                one.kill()
            pictures = drawn.stdout.read().split(status.CLEAR)[1:]
            lines = [json.loads(line) for line in lined.stdout.read().splitlines()]
    rates = [int(found[1].replace(',', '')) for found in (re.search(r'^commits +([0-9,]+) a second$', picture, re.M) for picture in pictures)
             if found]
    assert len(pictures) >= 3 and any(rates) and 'collection' not in pictures[0] and 'counter  hits' in pictures[0], pictures
    assert 'reached' in pictures[-1] or 'away' in pictures[-1], pictures[-1]
    assert lines[0]['collections'][0]['name'] == 'hits' and 'error' in lines[-1], lines
    return f'{len(pictures)} pictures, {len(lines)} lines'


def what_happens_is_logged():
    place = Place('--log', area='64K')
    with place as store:
        store.make('map', 'm')
        for number in range(300):
            store.do(('m', 'put', number % 5, b'x' * 200), keep=True)
        store.close()
        lines = place.end()
    assert re.fullmatch(r'boost: opened in \d+ ms', lines[0]), lines
    came = {line.split()[1] for line in lines if line.endswith(' came')}
    went = {line.split()[1] for line in lines if line.endswith(' went')}
    assert came and came == went, lines
    assert any(re.fullmatch(r'boost: checkpoint in \d+ ms', line) for line in lines), lines
    quiet = Place()
    with quiet as store:
        store.close()
        assert quiet.end() == []
    ran = subprocess.run([PROGRAM, 'listen', '--log', '/dev/null'], stdin=subprocess.DEVNULL, stdout=subprocess.DEVNULL,
                         stderr=subprocess.PIPE, text=True, check=False)
    assert 'opened' not in ran.stderr and ran.returncode != 0, ran
    return f'{len(lines)} lines'


def main():
    for check in (while_all_are_taken, as_a_client_is_told, one_who_does_not_read, where_no_server_is, watching, what_happens_is_logged):
        print(f'{check.__name__}: {check()}', flush=True)


main()
