#!/usr/bin/env python3
"""plots.py: draws the plots of docs/PERFORMANCE.md from the measurements in docs/measurements, into docs/plots.

`engines.json` has a row for each engine, time that is added to a sync, and number of clients: commits a second, and within how many
microseconds half and 99 of 100 were kept. The plots are written anew, the same each time. It needs matplotlib (Debian's
python3-matplotlib, for the system's python3).
"""
import json
import os

import matplotlib

matplotlib.use('svg')
from matplotlib import pyplot  # noqa: E402

TOP = os.path.dirname(os.path.dirname(os.path.realpath(__file__)))
FORM = {'svg.hashsalt': 'boost', 'svg.fonttype': 'none', 'font.size': 10, 'axes.grid': True, 'grid.alpha': 0.3}
SHOWN = {'boost': 'the store', 'hand-1sync': 'log by hand, one sync', 'hand-2sync-gather': 'log by hand, two syncs',
         'sqlite-batch': 'SQLite, gathering', 'lmdb-batch': 'LMDB, gathering', 'rocksdb': 'RocksDB', 'redis': 'Redis',
         'postgres': 'PostgreSQL'}


def engines():
    with open(os.path.join(TOP, 'docs/measurements/engines.json'), encoding='utf-8') as file:
        return json.load(file)['rows']


def look_of(engine):
    """The store is drawn to be seen first."""
    return {'linewidth': 3, 'color': 'black', 'zorder': 3} if engine == 'boost' else {'linewidth': 1.2}


def save(name):
    pyplot.tight_layout()
    pyplot.savefig(os.path.join(TOP, 'docs/plots', name + '.svg'), metadata={'Date': None})
    pyplot.close()


def by_clients(rows, delay, name, title):
    """Commits a second by clients, a line for each engine, where so much is added to each sync."""
    pyplot.figure(figsize=(7, 4.5))
    for engine in dict.fromkeys(row['engine'] for row in rows):
        points = sorted((row['clients'], row['rate']) for row in rows if (row['engine'], row['delay_us']) == (engine, delay))
        if points:
            pyplot.plot(*zip(*points), marker='o', markersize=4, label=SHOWN.get(engine, engine), **look_of(engine))
    pyplot.xscale('log', base=2)
    pyplot.yscale('log')
    pyplot.xticks([1, 8, 64], ['1', '8', '64'])
    pyplot.xlabel('clients that wait for each commit')
    pyplot.ylabel('commits a second')
    pyplot.title(title)
    pyplot.legend(fontsize=8, ncol=2)
    save(name)


def latency(rows, clients):
    """Within which time half and 99 of 100 commits were kept, a pair of bars for each engine."""
    found = [row for row in rows if row['delay_us'] == 0 and row['clients'] == clients]
    found.sort(key=lambda row: row['half_us'])
    names = [SHOWN.get(row['engine'], row['engine']) for row in found]
    places = range(len(found))
    pyplot.figure(figsize=(7, 4.5))
    pyplot.barh([place - 0.2 for place in places], [row['half_us'] for row in found], 0.4, label='half within', color='0.35')
    pyplot.barh([place + 0.2 for place in places], [row['most_us'] for row in found], 0.4, label='99 of 100 within', color='0.7')
    pyplot.yticks(places, names)
    pyplot.xscale('log')
    pyplot.xlabel('microseconds until a commit is kept')
    pyplot.title('%d clients' % clients)
    pyplot.legend(fontsize=8)
    save('latency')


def main():
    rows = engines()
    with matplotlib.rc_context(FORM):
        by_clients(rows, 0, 'commits', 'a quick disk: a sync takes some 40 µs')
        latency(rows, 64)
        by_clients(rows, 1000, 'slow_disk', 'a slow disk: a sync takes a millisecond more')


main()
