"""python3 -m boost.page FOLDER [--port N] [--every SECONDS]: one page to look at, of the server of a folder.

It serves http://127.0.0.1:7300/, or another port, to this machine alone, but to each of its users: how full the store is, what is open and
waits, the names of the collections and how many items they hold, and how that went in the last hour; and /metrics, in the text format
of Prometheus. It only asks how the store stands, every 5 seconds, as boost.status does: it is none of the 64 clients of the server, and
changes nothing. Where the server is away, it says so, and looks again. It wants nothing but Python.
"""
import argparse
import html
import http.server
import itertools
import sys
import threading
import time
from collections import deque
from typing import Any, Deque, Dict, Iterable, List, NamedTuple, Optional, Sequence, Tuple

from . import status
from .errors import Error
from .status import CLIENTS, RECORDS, Number, State, number_of

PORT = 7300
EVERY = 5.0
# For how many seconds samples are kept, and from how many on a plot is as wide as they reach.
HOUR, LEAST = 3600.0, 60.0
# After how many seconds in which records wait and none is kept the device is said to stand still.
STILL = 10.0
# How many columns a plot has, and how many rows.
WIDTH, HEIGHT = 560, 100
AWAY = 'no answer yet'

# What is plotted: pairs of a second and a value, None where there was none.
Points = Sequence[Tuple[float, Optional[float]]]


# ---- what a server tells


class Sample(NamedTuple):
    """What was seen at a second: nothing, where the server was away."""
    second: float
    numbers: Dict[str, Number]


class Watch:
    """Asks the server of a folder again and again, in a thread of its own, and has what it told in the last hour."""

    def __init__(self, folder: str, every: float = EVERY) -> None:
        self.folder, self.every = folder, every
        self.asker = status.Asker(folder, every + 1)
        self.samples: Deque[Sample] = deque()
        self.state: Optional[State] = None
        self.why, self.since = AWAY, time.time()
        self.lock = threading.Lock()

    def ask(self) -> None:
        """Asks once, and notes the answer, or why none came."""
        why, state = '', None
        try:
            state = self.asker.ask()
        except Error as error:
            why = str(error)
        with self.lock:
            if bool(why) != bool(self.why):
                self.since = time.time()
            self.why = why
            self.state = state or self.state
            self.samples.append(Sample(time.time(), state.numbers if state else {}))
            while self.samples[0].second < time.time() - HOUR:
                self.samples.popleft()

    def run(self) -> None:
        """Asks for ever, as often as it was told."""
        while True:
            began = time.monotonic()
            self.ask()
            time.sleep(max(0.05, self.every - (time.monotonic() - began)))

    def seen(self) -> 'Seen':
        with self.lock:
            return Seen(self.folder, self.why, self.since, self.state, list(self.samples))


class Seen(NamedTuple):
    """What a watch has seen: why there is no answer now, or nothing; since when that is so; the last answer; and the samples."""
    folder: str
    why: str
    since: float
    state: Optional[State]
    samples: List[Sample]


def still_since(samples: Sequence[Sample]) -> Optional[float]:
    """The second since which records have waited for the disk and none was kept, as far as the samples tell: the device stands still, or
    no checkpoint makes room. None where that is not so."""
    since: Optional[float] = None
    for sample in reversed(samples):
        told = sample.numbers
        if not told.get('waiting') or any(told.get(name) != samples[-1].numbers.get(name) for name in ('used', 'in_use')):
            break
        since = sample.second
    return since


# ---- plots


def values_of(samples: Iterable[Sample], name: str) -> Points:
    return [(sample.second, sample.numbers.get(name)) for sample in samples]


def rates_of(samples: Sequence[Sample], name: str) -> Points:
    """How much a number that only rises has risen a second, from each sample to the next. None where one of them has it not."""
    rates: List[Tuple[float, Optional[float]]] = []
    for before, after in zip(samples, samples[1:]):
        risen: Optional[float] = None
        if name in before.numbers and name in after.numbers and after.second > before.second:
            risen = (after.numbers[name] - before.numbers[name]) / (after.second - before.second)
        rates.append((after.second, risen if risen is None or risen >= 0 else None))
    return rates


def shares_of(samples: Iterable[Sample], name: str, whole: str) -> Points:
    """A number in hundredths of another one."""
    return [(sample.second, 100 * sample.numbers[name] / sample.numbers[whole] if sample.numbers.get(whole) and name in sample.numbers
             else None) for sample in samples]


def lines_of(points: Points, begin: float, span: float, top: float) -> List[str]:
    """The lines of a plot, each as the places of its corners. A gap ends a line. Of the points of one column the greatest is shown."""
    lines: List[List[str]] = [[]]
    for column, group in itertools.groupby(points, lambda point: int(WIDTH * (point[0] - begin) / span)):
        value = max((value for _, value in group if value is not None), default=None)
        if value is None:
            lines.append([])
        else:
            lines[-1].append('%d,%.1f' % (column, HEIGHT - (HEIGHT - 4) * min(value, top) / top))
    return [' '.join(line * 2 if len(line) == 1 else line) for line in lines if line]


def short(value: float) -> str:
    """A number in few digits."""
    return format(round(value), ',') if value >= 10 or value == round(value) else '%.2g' % value


def plot_of(title: str, points: Points, now: float, least_top: float = 1.0) -> str:
    """A plot as SVG: what the values were from the first of them on, in the last minute at least."""
    values = [value for _, value in points if value is not None]
    top = max([least_top, *values])
    begin = min([now - LEAST, *(second for second, _ in points)])
    lines = ''.join('<polyline points="%s"/>' % line for line in lines_of(points, begin, now - begin, top))
    last = points[-1][1] if points else None
    minutes = (now - begin) / 60
    return ('<figure><figcaption>%s <b>%s</b></figcaption>'
            '<svg viewBox="-2 -2 %d %d" role="img" aria-label="%s"><path d="M0 0V%dH%d"/>%s'
            '<text x="%d" y="10">%s</text><text x="%d" y="%d">0</text><text x="0" y="%d">%s min ago</text><text x="%d" y="%d">now</text>'
            '</svg></figure>\n'
            % (html.escape(title), 'no answer' if last is None else short(last), WIDTH + 80, HEIGHT + 24, html.escape(title), HEIGHT,
               WIDTH, lines, WIDTH + 6, short(top), WIDTH + 6, HEIGHT + 2, HEIGHT + 16, short(minutes), WIDTH - 24, HEIGHT + 16))


def plots_of(seen: Seen) -> str:
    """All plots. A server of an older program counts no commits."""
    now, samples = time.time(), seen.samples
    is_counted = any('commits' in sample.numbers for sample in samples)
    return (plot_of('commits a second', rates_of(samples, 'commits'), now) if is_counted else '') + ''.join((
        plot_of('transactions a second, rolled back ones too', rates_of(samples, 'next'), now),
        plot_of('hundredths of the area in use', shares_of(samples, 'used', 'area'), now, 100.0),
        plot_of('records that wait for the disk', values_of(samples, 'waiting'), now),
        plot_of('live transactions', values_of(samples, 'live'), now)))


# ---- the page


STYLE = '''body{font:15px/1.4 system-ui,sans-serif;margin:1.5em auto;max-width:62em;padding:0 1em;color:#222;background:#fff}
h1{font-size:1.3em}h2{font-size:1.05em;margin:1.4em 0 .3em}table{border-collapse:collapse}td,th{padding:.15em .9em .15em 0;text-align:left}
td.n{text-align:right;font-variant-numeric:tabular-nums}.away{background:#a11;color:#fff;padding:.5em .8em}.old{opacity:.5}
meter{width:14em;height:1em}svg{width:100%;height:auto}svg path{fill:none;stroke:#bbb}polyline{fill:none;stroke:#06c;stroke-width:1.5}
svg text{font-size:11px;fill:#666}figure{margin:0}figcaption{font-size:.9em}.plots{display:grid;grid-template-columns:1fr 1fr;gap:1em 1.5em}
footer{color:#666;font-size:.85em;margin-top:2em}'''
# What a name stands for, where it is none that everybody knows.
MEANINGS = {'next': 'number of the next transaction', 'wear': 'steps of the store\'s life', 'in_use': 'area in use', 'format': 'format'}
SHOWN = ('used', 'area', 'full', 'live', 'waiting', 'failed')


def row(*cells: Any) -> str:
    return '<tr>%s</tr>\n' % ''.join('<td class="n">%s</td>' % format(cell, ',') if isinstance(cell, (int, float)) else
                                    '<td>%s</td>' % cell for cell in cells)


def meter(value: Number, whole: Number) -> str:
    return '<meter min="0" max="%s" high="%s" value="%s"></meter>' % (whole, whole * 3 / 4, value)


def room_of(state: State) -> str:
    """The rows of what has a limit, and of all other numbers, as they are told."""
    numbers = state.numbers
    rows = [row('in use of the area, bytes', numbers[name], 'of %s' % format(numbers['area'], ','), meter(numbers[name], numbers['area']))
            for name in ('used',) if name in numbers and numbers.get('area')]
    rows += [row(title, numbers[name], 'of %s' % format(limit, ','), meter(numbers[name], limit))
             for name, title, limit in (('full', 'full: the last image of what calls may fill, hundredths', 100),
                                        ('live', 'live transactions', CLIENTS), ('waiting', 'records that wait for the disk', RECORDS))
             if name in numbers]
    rows += [row(html.escape(MEANINGS.get(name, name)), number, '', '') for name, number in numbers.items() if name not in SHOWN]
    rows += [row('calls on a %s that were refused Busy' % html.escape(kind), count, '', '') for kind, count in state.busy.items()]
    return ''.join(rows) + ''.join(row(html.escape(other), '', '', '') for other in state.others)


def collections_of(state: State) -> str:
    rows = ''.join(row(html.escape(kind), html.escape(name), *(number_of(word) if number_of(word) is not None else html.escape(word)
                                                               for word in words)) for kind, name, *words in state.collections)
    return '<table><tr><th>kind</th><th>name</th><th>items</th></tr>\n%s</table>\n' % rows if rows else '<p>none</p>\n'


def page_of(seen: Seen, every: float = EVERY) -> str:
    """The page, as HTML that wants no script."""
    folder, since = html.escape(seen.folder), time.strftime('%H:%M:%S', time.localtime(seen.since))
    told = '<p>The server answers, since %s.</p>\n' % since
    if seen.why:
        told = '<p class="away">No server answers at %s, since %s: %s</p>\n' % (folder, since, html.escape(seen.why))
    elif seen.state and seen.state.numbers.get('failed'):
        told = '<p class="away">Keeping has failed: the server ends, and its standard error says why.</p>\n'
    else:
        still = still_since(seen.samples)
        if still is not None and seen.samples[-1].second - still >= STILL:
            told = ('<p class="away">Records wait, and nothing was kept since %s: the device stands still.</p>\n'
                    % time.strftime('%H:%M:%S', time.localtime(still)))
    body = ''
    if seen.state:
        body = ('<div%s><h2>Room</h2>\n<table>%s</table>\n<h2>Collections</h2>\n%s</div>\n'
                % (' class="old"' if seen.why else '', room_of(seen.state), collections_of(seen.state)))
    return ('<!DOCTYPE html>\n<html lang="en"><head><meta charset="utf-8"><meta http-equiv="refresh" content="%d">'
            '<title>boost: %s</title><style>%s</style></head><body>\n<h1>boost at %s</h1>\n%s<div class="plots">\n%s</div>\n%s'
            '<footer>Asked every %g s. <a href="/metrics">/metrics</a></footer></body></html>\n'
            % (max(1, round(every)), folder, STYLE, folder, told, plots_of(seen), body, every))


# ---- metrics


def metrics_of(seen: Seen) -> str:
    """The last answer in the text format of Prometheus, and of a server that is away nothing but that."""
    if seen.why or not seen.state:
        return status.up_metric(False)
    still = still_since(seen.samples)
    return (status.up_metric(True) + status.metrics_of(seen.state)
            + status.metric('boost_still_seconds', 'gauge', 'For how long records have waited and none was kept.',
                            ['boost_still_seconds %.1f' % (0 if still is None else seen.samples[-1].second - still)]))


# ---- the server of the page


class Handler(http.server.BaseHTTPRequestHandler):
    """Answers for the page and the metrics, to who asks by a name of this machine itself: no page of another host can read them."""
    watch: Watch

    def do_GET(self) -> None:
        if (self.headers.get('Host') or 'localhost').rsplit(':', 1)[0] not in ('127.0.0.1', 'localhost'):
            self.send_error(403, 'ask as 127.0.0.1 or localhost')
        elif self.path == '/':
            self.give('text/html; charset=utf-8', page_of(self.watch.seen(), self.watch.every))
        elif self.path == '/metrics':
            self.give('text/plain; version=0.0.4; charset=utf-8', metrics_of(self.watch.seen()))
        else:
            self.send_error(404)

    def give(self, kind: str, text: str) -> None:
        data = text.encode()
        self.send_response(200)
        for name, value in (('Content-Type', kind), ('Content-Length', str(len(data))), ('Cache-Control', 'no-store'),
                            ('Content-Security-Policy', "default-src 'none'; style-src 'unsafe-inline'")):
            self.send_header(name, value)
        self.end_headers()
        self.wfile.write(data)

    def log_message(self, *_: Any) -> None:
        """Says nothing of each request."""


def serving(watch: Watch, port: int) -> http.server.ThreadingHTTPServer:
    """A server of the page of a watch, on this machine's own address."""
    handler = type('WatchHandler', (Handler,), {'watch': watch})
    server = http.server.ThreadingHTTPServer(('127.0.0.1', port), handler)
    server.daemon_threads = True
    return server


def main() -> None:
    words = argparse.ArgumentParser(prog='python3 -m boost.page', description='One page to look at, of the server of a folder. It is none '
                                    'of the 64 clients of the server, and changes nothing.')
    words.add_argument('folder', metavar='FOLDER', help='the folder of `boost listen DISK FOLDER`')
    words.add_argument('--port', type=int, default=PORT, metavar='N', help='the port at 127.0.0.1; 7300 without it, and 0 for a free one')
    words.add_argument('--every', type=float, default=EVERY, metavar='SECONDS', help='how often the server is asked; 5 seconds without it')
    told = words.parse_args()
    watch = Watch(told.folder, max(0.1, told.every))
    try:
        server = serving(watch, told.port)
    except (OSError, OverflowError) as error:
        sys.exit('boost.page: port %d: %s' % (told.port, error))
    threading.Thread(target=watch.run, daemon=True).start()
    print('http://127.0.0.1:%d/' % server.server_address[1], flush=True)
    try:
        server.serve_forever()
    except KeyboardInterrupt:
        pass


if __name__ == '__main__':
    main()
