"""python3 -m boost.status FOLDER [--json | --prometheus] [--watch]: how the store of a server stands, as `./boost status FOLDER` tells it.

The server of `boost listen DISK FOLDER` is asked at its door. Who asks so is **none of its 64 clients**: it is answered also while all are
taken, and changes nothing. Each line has a name and a value, as docs/LISTEN.md has them; with --json it is one object, with --prometheus
the text format of Prometheus. With --watch the answer is drawn anew each second, with how much the counts rise a second, and what the
numbers are that tell how the disk keeps up; with --json it is then a line each second. It ends with status 1 where no server answers.
It wants nothing but Python.
"""
import argparse
import contextlib
import json
import os
import re
import sys
import time
from typing import Any, Dict, Iterable, List, NamedTuple, Optional, Tuple, Union

from .connections import Pipes, path_of_gate
from .errors import Error

# How long a server is waited for, and how often it is asked by --watch, in seconds.
TIMEOUT, EVERY = 5.0, 1.0
CLIENTS, RECORDS = 64, 16384

Number = Union[int, float]


# ---- asking


class Asking(Pipes):
    """One who asks a server at its door how its store stands. It makes the FIFO of the answer alone, and is no client."""

    def __init__(self, folder: str, timeout: float = TIMEOUT) -> None:
        super().__init__(folder, timeout, timeout)
        self.paths = self.paths[1:]
        self.answer = ''

    def open_both(self, *held: int) -> None:
        self.read_from(self.take('/proc/self/fd/%d' % held[0], os.O_RDONLY))

    def greet(self, patience: float) -> None:
        left = self.knock(b'status', patience)
        self.open[0].close()                       # from here on the end is seen
        self.answer = self.receive(max(1.0, left))


def ask(folder: str, timeout: float = TIMEOUT) -> str:
    """What the server of a folder answers to who asks at its door how its store stands: a line. Raises `Gone` where no server is there,
    and `NotServed` where none answers in so many seconds, as one of an older program."""
    asking = Asking(folder, timeout)
    try:
        asking.come_in(timeout)
        return asking.answer
    finally:
        asking.close()


class Asker:
    """Asks the server of a folder again and again, at its door; and by a gate (`unix:PATH`) as one of its programs."""

    def __init__(self, place: str, timeout: float = TIMEOUT) -> None:
        self.place, self.timeout = place, timeout
        self.store: Any = None
        if path_of_gate(place) is not None:
            from . import join
            self.store = join(place, patience=timeout, timeout=timeout)

    def ask(self) -> 'State':
        """Raises `Error` where it is not told."""
        answer = self.store.session().lines(['status'])[0] if self.store else ask(self.place, self.timeout)
        if answer.startswith(('refused ', 'error ')):
            raise Error(answer)
        return state_of(answer)


# ---- what is told


class State(NamedTuple):
    """An answer to `status`: its numbers by name, its collections as their words, its other parts as they stand, and how many calls
    were refused Busy, by the kind of the collection."""
    numbers: Dict[str, Number]
    collections: List[List[str]]
    others: List[str]
    busy: Dict[str, Number]


def number_of(text: str) -> Optional[Number]:
    """A text as a number, or None where it is none."""
    for kind in (int, float):
        with contextlib.suppress(ValueError):
            return kind(text)
    return None


def state_of(answer: str) -> State:
    """Parses any answer to `status`, also one with parts that this program does not know."""
    state = State({}, [], [], {})
    for part in answer.split('; '):
        name, *words = part.split()
        number = number_of(words[0]) if len(words) == 1 else None
        if name == 'collection' and len(words) >= 3:
            state.collections.append(words)
        elif name == 'busy' and len(words) == 2:
            state.busy[words[0]] = number_of(words[1]) or 0
        elif number is not None:
            state.numbers[name] = number
        elif part == 'failed':
            state.numbers[name] = 1
        else:
            state.others.append(part)
    return state


def lines_of(state: State) -> str:
    """A line for each part."""
    lines = ['%s %s' % part for part in state.numbers.items()]
    lines += ['busy %s %s' % part for part in state.busy.items()]
    lines += ['collection %s' % ' '.join(words) for words in state.collections]
    return ''.join('%s\n' % line for line in lines + state.others)


def object_of(state: State) -> Dict[str, Any]:
    """The parts as one object, for JSON."""
    collections = [{'kind': kind, 'name': name, 'items': number_of(items)} for kind, name, items, *_ in state.collections]
    told: Dict[str, Any] = {**state.numbers, 'busy': state.busy, 'collections': collections}
    told['failed'] = bool(state.numbers.get('failed'))
    return told


# ---- metrics


# The name, the kind and the meaning of each number of which more is known than its name.
METRICS = {
    'area': ('boost_area_bytes', 'gauge', 'The size of each of the two areas.'),
    'used': ('boost_used_bytes', 'gauge', 'What is in use of the area: its image and its journal.'),
    'checkpoint': ('boost_checkpoint_bytes', 'gauge', 'What the next image takes at most, with the undoing of what is live.'),
    'full': ('boost_full_hundredths', 'gauge', 'What the last image took, in hundredths of what calls may fill.'),
    'live': ('boost_live_transactions', 'gauge', 'Transactions that have not ended, of 64.'),
    'waiting': ('boost_waiting_records', 'gauge', 'Records that wait for the disk, of 16384.'),
    'next': ('boost_transactions_total', 'counter', 'The number of the next transaction.'),
    'commits': ('boost_commits_total', 'counter', 'Transactions that committed since the server began, and collections that were made.'),
    'aborts': ('boost_aborts_total', 'counter', 'Transactions that were taken back since the server began.'),
    'blocks': ('boost_blocks_total', 'counter', 'Blocks that were handed to the disk, with two writes and two syncs each.'),
    'checkpoints': ('boost_checkpoints_total', 'counter', 'Checkpoints since the server began.'),
    'sleeping': ('boost_sleeping_clients', 'gauge', 'Clients that wait for work.'),
    'clients': ('boost_clients', 'gauge', 'Clients that are served at the door, of 64.'),
    'wear': ('boost_steps_total', 'counter', 'Steps of the life of the store.'),
    'syncs': ('boost_syncs_total', 'counter', 'Syncs of the disk since the server began.'),
    'written': ('boost_written_bytes_total', 'counter', 'Bytes that were written to the disk since the server began.'),
    'longest_write': ('boost_longest_write_microseconds', 'gauge', 'What the longest write or sync took since the server began.'),
    'last_checkpoint': ('boost_last_checkpoint_microseconds', 'gauge', 'What the last checkpoint took.'),
}


def metric(name: str, kind: str, meaning: str, lines: Iterable[str]) -> str:
    return '# HELP %s %s\n# TYPE %s %s\n%s' % (name, meaning, name, kind, ''.join('%s\n' % line for line in lines))


def label(text: str) -> str:
    return '"%s"' % text.replace('\\', '\\\\').replace('"', '\\"')


def up_metric(is_up: bool) -> str:
    return metric('boost_up', 'gauge', 'Whether the server answers.', ['boost_up %d' % is_up])


def metrics_of(state: State) -> str:
    """The parts in the text format of Prometheus."""
    told = ''
    for part, number in state.numbers.items():
        name = 'boost_' + re.sub(r'\W', '_', part)
        name, kind, meaning = METRICS.get(part, (name, 'gauge', 'The part %s of status.' % part))
        told += metric(name, kind, meaning, ['%s %s' % (name, number)])
    if 'failed' not in state.numbers:
        told += metric('boost_failed', 'gauge', 'The part failed of status.', ['boost_failed 0'])
    busy = ['boost_busy_total{kind=%s} %s' % (label(kind), count) for kind, count in state.busy.items()]
    told += metric('boost_busy_total', 'counter', 'Calls that were refused Busy.', busy) if busy else ''
    items = ['boost_collection_items{kind=%s,name=%s} %s' % (label(kind), label(name), count)
             for kind, name, count, *_ in state.collections if number_of(count) is not None]
    return told + (metric('boost_collection_items', 'gauge', 'How many items a collection holds.', items) if items else '')


# ---- watching


# What rises, as the numbers that are told a second.
RISING = ('commits', 'aborts', 'syncs', 'written')
# What is told as it stands, with what it is of, where that is fixed.
STANDING: Tuple[Tuple[str, Optional[int]], ...] = (('full', 100), ('live', CLIENTS), ('waiting', RECORDS), ('clients', CLIENTS), ('sleeping', CLIENTS),
                                                   ('checkpoints', None))
# Clears a terminal, and begins at its top.
CLEAR = '\033[H\033[J'


class Drawing:
    """Draws how a store stands, again and again, with what has risen since the time before."""

    def __init__(self) -> None:
        self.before: Optional[State] = None
        self.at = 0.0

    def rate(self, name: str, state: State, seconds: float) -> str:
        if self.before is None or name not in self.before.numbers or name not in state.numbers or seconds <= 0:
            return '-'
        return format(round(max(0, state.numbers[name] - self.before.numbers[name]) / seconds), ',')

    def draw(self, place: str, state: State, now: float) -> str:
        """The lines of a picture."""
        seconds = now - self.at
        lines = ['%s  %s' % (place, time.strftime('%H:%M:%S')), '']
        lines += ['%-16s %14s a second' % (name, self.rate(name, state, seconds)) for name in RISING if name in state.numbers]
        lines += ['%-16s %14s%s' % (name, format(state.numbers[name], ','), '' if of is None else ' of %s' % format(of, ','))
                  for name, of in (*STANDING, ('used', int(state.numbers.get('area', 0)))) if name in state.numbers]
        lines += ['%-16s %14s ms' % (name, format(state.numbers[name] / 1000, ',.1f')) for name in ('longest_write', 'last_checkpoint')
                  if name in state.numbers]
        lines += ['%-16s %14s of a %s' % ('busy', format(count, ','), kind) for kind, count in state.busy.items()]
        if 'writing_since' in state.numbers:
            lines.append('a write of the disk goes on for %d s' % max(0, time.time() - state.numbers['writing_since']))
        if state.numbers.get('failed'):
            lines.append('keeping has failed')
        lines += ['', *('%-8s %-32s %14s' % (kind, name, items) for kind, name, items, *_ in state.collections)]
        self.before, self.at = state, now
        return '\n'.join(lines) + '\n'


def watch(asker: Asker, is_json: bool, every: float = EVERY) -> None:
    """Tells how the store stands, each second for ever. Where the server is away it says so, and asks again."""
    drawing = Drawing()
    while True:
        began = time.monotonic()
        try:
            state = asker.ask()
            told = json.dumps(object_of(state)) + '\n' if is_json else CLEAR + drawing.draw(asker.place, state, began)
        except Error as error:
            told = json.dumps({'error': str(error)}) + '\n' if is_json else CLEAR + '%s\n' % error
        sys.stdout.write(told)
        sys.stdout.flush()
        time.sleep(max(0.05, every - (time.monotonic() - began)))


def main() -> int:
    words = argparse.ArgumentParser(prog='boost status', description='Tells how the store of a server stands. It is none of the 64 '
                                    'clients of the server, and changes nothing.')
    words.add_argument('folder', metavar='FOLDER', help='the folder of `boost listen DISK FOLDER`, or `unix:PATH` of a gate')
    form = words.add_mutually_exclusive_group()
    form.add_argument('--json', action='store_true', help='print one JSON object')
    form.add_argument('--prometheus', action='store_true', help='print the text format of Prometheus')
    words.add_argument('--watch', action='store_true', help='print it anew each second')
    told = words.parse_args()
    if told.watch and told.prometheus:
        words.error('--watch draws no metrics: Prometheus asks by itself')
    try:
        asker = Asker(told.folder)
        if told.watch:
            watch(asker, told.json)
        state = asker.ask()
    except Error as error:
        if told.prometheus:
            sys.stdout.write(up_metric(False))
        print('boost: %s' % error, file=sys.stderr)
        return 1
    except KeyboardInterrupt:
        return 0
    sys.stdout.write(up_metric(True) + metrics_of(state) if told.prometheus else
                     json.dumps(object_of(state), indent=2) + '\n' if told.json else lines_of(state))
    return 0


if __name__ == '__main__':
    sys.exit(main())
