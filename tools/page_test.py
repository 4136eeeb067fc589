#!/usr/bin/env python3
"""page_test.py [--picture PATH]: tries `python3 -m boost.page` at a server that works, dies and comes back, by what a reader of HTML
and of Prometheus' text finds there, and by headless Chromium where that is installed. Prints a line for each check.

With --picture it has a job queue worked for a minute and a half instead, and has Chromium take a picture of the page. That of docs/page.png
was brought to 256 colours afterwards.
"""
import contextlib
import html.parser
import os
import re
import shutil
import subprocess
import sys
import tempfile
import threading
import time
import urllib.error
import urllib.request

TOP = os.path.dirname(os.path.dirname(os.path.realpath(__file__)))
sys.path.insert(0, os.path.join(TOP, 'clients', 'python'))
sys.dont_write_bytecode = True
import boost  # noqa: E402
from boost import page as pages, status  # noqa: E402

BOOST = os.path.join(TOP, 'boost')
CHROMIUM = shutil.which('chromium') or shutil.which('chromium-browser') or shutil.which('google-chrome')
EVERY = '0.2'
METRIC = re.compile(r'# (?:HELP|TYPE) \w+ .+|[a-z_]+(?:\{kind="\w+",name="[\w.-]+"\})? -?[0-9.]+')


class Place:
    """A store with a server at a door, and a page at it."""

    def __init__(self, every=EVERY):
        self.room = tempfile.TemporaryDirectory()
        self.disk, self.folder = os.path.join(self.room.name, 'disk'), os.path.join(self.room.name, 'run')
        subprocess.run([BOOST, 'format', self.disk, '--area', '1M'], check=True)
        self.serve()
        words = [sys.executable, '-B', '-m', 'boost.page', 'run', '--port', '0', '--every', every]
        self.process = subprocess.Popen(words, stdout=subprocess.PIPE, text=True, cwd=self.room.name,
                                        env={**os.environ, 'PYTHONPATH': os.path.join(TOP, 'clients', 'python')})
        self.url = self.process.stdout.readline().strip()

    def serve(self):
        self.server = subprocess.Popen([BOOST, 'listen', self.disk, self.folder], stdin=subprocess.DEVNULL)
        self.store = boost.join(self.folder)
        for _ in range(500):
            with contextlib.suppress(boost.Gone):
                return self.store.status()
            time.sleep(0.02)
        raise AssertionError('no server')

    def kill(self):
        self.server.kill()
        self.server.wait()

    def get(self, path=''):
        with urllib.request.urlopen(self.url + path, timeout=10) as answer:
            return answer.read().decode()

    def close(self):
        self.process.kill()
        self.process.wait()
        self.process.stdout.close()
        self.kill()
        self.room.cleanup()


class Reader(html.parser.HTMLParser):
    """The words of a page, its rows of cells, and how often each tag stands there. Each tag that opens has to be closed."""

    ALONE = ('meta', 'polyline', 'path')

    def __init__(self, text):
        super().__init__()
        self.open, self.rows, self.words, self.tags = [], [], [], {}
        self.feed(text)
        assert not self.open, self.open

    def handle_starttag(self, tag, attrs):
        self.tags[tag] = self.tags.get(tag, 0) + 1
        if tag == 'tr':
            self.rows.append([])
        elif tag == 'td':
            self.rows[-1].append('')
        if tag not in self.ALONE:
            self.open.append(tag)

    def handle_endtag(self, tag):
        assert tag in self.ALONE or self.open.pop() == tag, tag

    def handle_data(self, data):
        if 'td' in self.open:
            self.rows[-1][-1] += data
        if 'style' not in self.open:
            self.words.append(data)


def metrics_of(text):
    """The numbers of the metrics by name. Each line has to be one of Prometheus' text."""
    assert all(METRIC.fullmatch(line) for line in text.splitlines()), text
    return {name: float(number) for name, _, number in (line.rpartition(' ') for line in text.splitlines() if line[0] != '#')}


def until(found, seconds=15):
    """What is found once it is there."""
    end = time.monotonic() + seconds
    while time.monotonic() < end:
        got = found()
        if got:
            return got
        time.sleep(0.05)
    raise AssertionError('it did not come')


def fill(store):
    for kind, name in (('set', 'jobs'), ('map', 'results'), ('counter', 'hits')):
        store.open_or_make(kind, name)
    store.do(*(('jobs', 'add', job) for job in range(100)), keep=True)


def agreeing(place):
    """The metrics, where they are what `status` tells; `used` is so once the server has written its last block."""
    status, told = place.store.status(), metrics_of(place.get('metrics'))
    wanted = {'boost_up': 1, 'boost_failed': 0, 'boost_area_bytes': status.area, 'boost_used_bytes': status.used,
              'boost_live_transactions': status.live, 'boost_transactions_total': status.next, 'boost_steps_total': status.wear,
              **{f'boost_collection_items{{kind="{each.kind}",name="{each.name}"}}': each.items for each in status.collections}}
    return told if all(told.get(name) == number for name, number in wanted.items()) else None


def the_page_tells_what_status_tells():
    """With a transaction open, which the page neither waits for nor disturbs."""
    place = Place()
    fill(place.store)
    with place.store.transaction() as t:
        t.call('jobs', 'pick')
        told = until(lambda: agreeing(place))
        assert told['boost_live_transactions'] == 1 and told['boost_collection_items{kind="set",name="jobs"}'] == 99, told
        read = Reader(place.get())
    rows = {row[0]: row[1:] for row in read.rows if row}
    assert rows['live transactions'][:2] == ['1', 'of 64'] and rows['in use of the area, bytes'][1] == 'of 1,048,576', rows
    assert ['set', 'jobs', '99'] in read.rows and ['counter', 'hits', '1'] in read.rows, read.rows
    assert read.tags['svg'] == 5 and read.tags['polyline'] >= 3 and 'script' not in read.tags, read.tags
    place.close()
    return f'{len(told)} metrics, {len(read.rows)} rows'


def the_server_goes_and_comes():
    """A page of a server that is away says so, and goes on with the one that comes."""
    place = Place()
    fill(place.store)
    until(lambda: metrics_of(place.get('metrics')).get('boost_collection_items{kind="set",name="jobs"}') == 100)
    place.kill()
    assert until(lambda: metrics_of(place.get('metrics')) == {'boost_up': 0}) and place.process.poll() is None
    away = Reader(place.get())
    assert 'No server answers' in ' '.join(away.words) and ['set', 'jobs', '100'] in away.rows
    assert ' '.join(away.words).count('no answer') == 5
    began = time.monotonic()
    place.serve()
    until(lambda: metrics_of(place.get('metrics'))['boost_up'] == 1)
    seconds, back = time.monotonic() - began, Reader(place.get())
    assert 'The server answers' in ' '.join(back.words) and ['set', 'jobs', '100'] in back.rows
    place.close()
    nobody = pages.Watch(os.path.join(tempfile.gettempdir(), 'no-such-folder'), 0.1)
    nobody.ask()
    assert 'No server answers' in pages.page_of(nobody.seen())
    return f'back {seconds:.1f} s later'


def rates_are_of_the_numbers():
    """A hundred transactions in ten seconds are ten a second; a server that was away leaves a gap, and so does a number that fell."""
    samples = [pages.Sample(1000.0, {'next': 5}), pages.Sample(1010.0, {'next': 105}), pages.Sample(1020.0, {}),
               pages.Sample(1030.0, {'next': 300}), pages.Sample(1040.0, {'next': 7})]
    assert [rate for _, rate in pages.rates_of(samples, 'next')] == [10.0, None, None, None]
    lines = pages.lines_of([(0.0, 1.0), (5.0, 2.0), (5.001, 1.0), (6.0, None), (10.0, 0.0)], 0.0, 10.0, 2.0)
    assert lines == ['0,52.0 280,4.0', '560,100.0 560,100.0'], lines
    return '4 rates'


def a_device_that_stands_still():
    """Where records wait and none is kept the page says since when; and not where one is kept, or none waits."""
    now = time.time()
    told = []
    for rows in ([(0, 50), (3, 80), (4, 80), (9, 80)], [(3, 80), (0, 80), (4, 80)], [(3, 80), (4, 90)], [(3, 80), (0, 90)],
                 [(3, 80), None]):
        watch = pages.Watch('/x', 5)
        watch.state, watch.why = status.state_of('format 1; area 100; used 80; waiting 3'), ''
        watch.samples.extend(pages.Sample(now - 20 + 6 * at, {'waiting': row[0], 'used': row[1], 'in_use': 0} if row else {})
                             for at, row in enumerate(rows))
        seen = watch.seen()
        still = metrics_of(pages.metrics_of(seen))['boost_still_seconds']
        told.append((round(still), 'stands still' in pages.page_of(seen)))
    assert told == [(12, True), (0, False), (0, False), (0, False), (0, False)], told
    return '5 stores'


def parts_that_nobody_knows():
    """An answer of a server to come is shown as it stands, and one with harm in it does none."""
    answer = ('format 3; area 100; used 90; fsyncs 17; lag 0.5; clients 3 of 64; live 2; commits 12; '
              'busy map 5; collection map m 3 55; collection set <b> 4; failed')
    watch = pages.Watch('/x<script>', 5)
    watch.state, watch.why = status.state_of(answer), ''
    watch.samples.extend([pages.Sample(time.time() - 5, {'commits': 2}), pages.Sample(time.time(), watch.state.numbers)])
    seen = watch.seen()
    read = Reader(pages.page_of(seen))
    assert ['fsyncs', '17', '', ''] in read.rows and ['lag', '0.5', '', ''] in read.rows and ['clients 3 of 64', '', '', ''] in read.rows
    assert ['map', 'm', '3', '55'] in read.rows and ['set', '<b>', '4'] in read.rows and 'script' not in read.tags
    assert 'Keeping has failed' in ' '.join(read.words) and read.tags['svg'] == 5
    told = pages.metrics_of(seen)
    assert 'boost_fsyncs 17\n' in told and 'boost_lag 0.5\n' in told and 'boost_failed 1\n' in told and 'boost_commits_total 12\n' in told
    assert 'boost_busy_total{kind="map"} 5\n' in told and ['calls on a map that were refused Busy', '5', '', ''] in read.rows
    return f'{len(read.rows)} rows'


def status_of(place, path, **headers):
    request = urllib.request.Request(place.url + path, headers=headers)
    try:
        with urllib.request.urlopen(request, timeout=10) as answer:
            return answer.status
    except urllib.error.HTTPError as error:
        return error.code


def it_is_for_this_machine_alone():
    """It listens at 127.0.0.1, answers nobody who asks by another name, and knows two pages. A second one is told that the port is taken."""
    place = Place()
    told = [status_of(place, ''), status_of(place, 'metrics'), status_of(place, 'x'), status_of(place, '', Host='evil.example'),
            status_of(place, '', Host='localhost:1')]
    assert told == [200, 200, 404, 403, 200], told
    port = int(place.url.rstrip('/').rpartition(':')[2])
    with open('/proc/net/tcp', encoding='utf-8') as file:
        at = [line.split()[1] for line in file if line.split()[1].endswith(f':{port:04X}') and line.split()[3] == '0A']
    assert at == [f'0100007F:{port:04X}'], at
    second = subprocess.run([sys.executable, '-B', '-m', 'boost.page', 'run', '--port', str(port)], stderr=subprocess.PIPE, text=True,
                            env={**os.environ, 'PYTHONPATH': os.path.join(TOP, 'clients', 'python')}, timeout=30, check=False)
    assert second.returncode == 1 and second.stderr.startswith(f'boost.page: port {port}: ') and second.stderr.count('\n') == 1, second
    place.close()
    return f'{len(told)} requests'


WIDTH, HEIGHT = 1000, 800


def chromium(place, *options):
    with tempfile.TemporaryDirectory() as profile:
        ran = subprocess.run([CHROMIUM, '--headless=new', '--no-sandbox', '--disable-gpu', '--hide-scrollbars', f'--user-data-dir={profile}',
                              f'--window-size={WIDTH},{HEIGHT}', *options, place.url], stdout=subprocess.PIPE, stderr=subprocess.DEVNULL,
                             text=True, timeout=120, check=True)
    return ran.stdout


def chromium_shows_it():
    """A browser finds the same rows, and draws four plots that have a width."""
    if not CHROMIUM:
        return 'not tried: no chromium'
    place = Place()
    fill(place.store)
    until(lambda: metrics_of(place.get('metrics')).get('boost_collection_items{kind="set",name="jobs"}') == 100)
    read = Reader(re.sub(r'<(/?)tbody>', '', chromium(place, '--dump-dom').replace('<!DOCTYPE html>', '')))
    assert ['set', 'jobs', '100'] in read.rows and read.tags['svg'] == 5, read.rows
    picture = os.path.join(place.room.name, 'page.png')
    chromium(place, f'--screenshot={picture}')
    with open(picture, 'rb') as file:
        data = file.read()
    assert data[:4] == b'\x89PNG' and data[16:24] == WIDTH.to_bytes(4, 'big') + HEIGHT.to_bytes(4, 'big')
    assert len(data) > 10000, len(data)            # an empty page has less than 5,000 bytes
    place.close()
    return f'a picture of {len(data)} bytes'


def work(store, end):
    """Adds and does jobs, in waves."""
    for turn in range(10 ** 9):
        if time.monotonic() > end:
            break
        store.do(*(('jobs', 'add', 1000 * turn + job) for job in range(30)))
        for _ in range(30 if turn % 40 < 30 else 8):
            store.keep(lambda t: (lambda job: job is None or t.call('results', 'put', job, b'done'))(t.call('jobs', 'pick')))
        time.sleep(0.02 if turn % 40 < 20 else 0.2)


def take_picture(path):
    place = Place('1')
    fill(place.store)
    end = time.monotonic() + 90
    threads = [threading.Thread(target=work, args=(place.store, end)) for _ in range(2)]
    for thread in threads:
        thread.start()
    time.sleep(85)
    chromium(place, f'--screenshot={os.path.abspath(path)}')
    for thread in threads:
        thread.join()
    place.close()
    print(f'{path}: {os.path.getsize(path)} bytes')


def main():
    if sys.argv[1:2] == ['--picture']:
        return take_picture(sys.argv[2])
    for check in (the_page_tells_what_status_tells, the_server_goes_and_comes, rates_are_of_the_numbers, a_device_that_stands_still,
                  parts_that_nobody_knows,
                  it_is_for_this_machine_alone, chromium_shows_it):
        print(f'{check.__name__}: {check()}', flush=True)


main()
