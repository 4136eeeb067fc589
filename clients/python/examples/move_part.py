"""move_part.py OLD NEW PART: moves a part of the customers and jobs from one store to another, while both are at work.

OLD and NEW are folders of servers: `boost listen DISK FOLDER`. The part of a key is its top six bits, so there are 64 parts, which are
laid over as many stores as are wanted. A job is a key and a priority in the queue `jobs.PART`, a customer a key with an amount in the
quotas `quota` and a name in the map `customers`.

Each store says of a part in the map `parts` whether it is there, or at which store. Who works on a part asks that in the same
transaction (`state_of`). So once the part is told to be elsewhere nobody works on it here any more.

Each job and each amount goes in three transactions, each of which is all or nothing and kept before the next one:

    OLD  it is taken out, and put into `leaving`
    NEW  it is noted in `arrived`, and added where the note is new
    OLD  it is taken out of `leaving`

Whoever runs this again behind a kill at any moment goes on where it stood. What is in `leaving` is sent again, and the note tells
whether it came already. Two who run it at once do no harm.
"""
import os
import sys

sys.path.insert(0, os.path.join(os.path.dirname(os.path.abspath(__file__)), '..'))
import boost  # noqa: E402

PARTS = 64
SHIFT = 58
AT_ONCE = 20
HERE, ARRIVING, AWAY = b'h', b'a', b'w'
COLLECTIONS = [('map', 'parts'), ('quotas', 'quota'), ('map', 'customers'),
               *(('map', way + kind) for way in ('leaving.', 'arrived.') for kind in ('jobs', 'quota')),
               *(('queue', 'jobs.%d' % part) for part in range(PARTS))]


class Moved(Exception):
    """The part is at another store, whose name this has."""


class Stale(Exception):
    """Another one has moved the part meanwhile."""


def part_of(key):
    return key >> SHIFT


def make_collections(store):
    for kind, name in COLLECTIONS:
        store.open_or_make(kind, name)


def state_of(call, part):
    """The state of a part in a store, and the count of its moves. Raises `Moved` where it is not here: who works on a part asks this
    first, in the same transaction. While it is `ARRIVING` a customer who is not in `customers` may be on the way."""
    state, count, name = read_state(call('parts', 'get', part))
    if state == AWAY:
        raise Moved(name.decode())
    return state, count


def read_state(value):
    """A part that a store knows nothing of is elsewhere, and nobody says where."""
    return (value[:1], int.from_bytes(value[1:9], 'big'), value[9:]) if value else (AWAY, 0, b'')


def state(letter, count, name=b''):
    return letter + count.to_bytes(8, 'big') + name


def create(store, part):
    """Makes a part where it is to be at first."""
    store.keep(lambda t: t.call('parts', 'put', part, state(HERE, 1)))


class Move:
    """A move of a part from one store to another. `step` is called behind each transaction with its name, for those who watch."""

    def __init__(self, old, new, part, name, step=lambda name: None):
        self.old, self.new, self.part, self.name, self.step = old, new, part, name.encode(), step
        self.first, self.end = part << SHIFT, (part + 1) << SHIFT

    def run(self):
        """Moves all that is of the part: how many jobs and amounts."""
        if not self.open():
            return 0
        moved = 0
        while True:
            sent = sum(self.send(kind) for kind in ('jobs', 'quota'))
            self.step('sent')
            taken = sum(self.old.keep(take_out) for take_out in (self.take_jobs, self.take_amounts))
            self.step('taken')
            moved += sent
            if not sent and not taken and self.old.keep(self.is_empty):
                break
        self.close()
        return moved

    # -- which store has the part

    def open(self):
        """NEW takes the part from now on, and then OLD takes it no more. False where it has been moved already."""
        letter, self.count, name = read_state(self.old.do(('parts', 'get', self.part))[0])
        if letter == AWAY and name != self.name:
            raise Stale('the part is not here')
        if letter == ARRIVING:
            raise Stale('the part is arriving still')
        self.count += letter == HERE
        is_open = self.new.keep(self.open_new)
        self.step('opened')
        if is_open:
            self.old.keep(self.close_old)
            self.step('closed')
        else:
            self.clean()
        return is_open

    def open_new(self, t):
        letter, count, _ = read_state(t.call('parts', 'get', self.part))
        if (letter, count) == (HERE, self.count):
            return False
        if (letter, count) != (ARRIVING, self.count):
            if letter != AWAY or count >= self.count:
                raise Stale('the part has been moved on')
            t.call('parts', 'put', self.part, state(ARRIVING, self.count))
        return True

    def close_old(self, t):
        letter, count, name = read_state(t.call('parts', 'get', self.part))
        if (letter, count) == (HERE, self.count - 1):
            t.call('parts', 'put', self.part, state(AWAY, self.count, self.name))
        elif (letter, count, name) != (AWAY, self.count, self.name):
            raise Stale('the part has been moved on')

    def close(self):
        """Nothing of the part arrives any more, and what told what had arrived is taken away."""
        self.new.keep(self.end_arrivals)
        self.step('ended')
        self.clean()

    def end_arrivals(self, t):
        if t.call('parts', 'get', self.part) == state(ARRIVING, self.count):
            t.call('parts', 'put', self.part, state(HERE, self.count))

    def clean(self):
        for kind in ('jobs', 'quota'):
            while self.new.keep(lambda t: self.clean_some(t, kind)):
                self.step('cleaned')

    def clean_some(self, t, kind):
        keys = [key for key, _ in self.some(t, 'arrived.' + kind)]
        for key in keys:
            t.call('arrived.' + kind, 'remove', key)
        return len(keys)

    # -- what it has

    def some(self, t, name):
        """The first entries of the part in a map."""
        found, key = [], self.first
        while len(found) < AT_ONCE:
            entry = t.call(name, 'ceiling', key)
            if entry is None or entry[0] >= self.end:
                break
            found.append(entry)
            if entry[0] + 1 >= self.end:
                break
            key = entry[0] + 1
        return found

    def still_away(self, t):
        if t.call('parts', 'get', self.part) != state(AWAY, self.count, self.name):
            raise Stale('the part has been moved on')

    def take_jobs(self, t):
        """Takes jobs out of the queue of OLD, and puts them into `leaving`."""
        self.still_away(t)
        for taken in range(AT_ONCE):
            item = t.call('jobs.%d' % self.part, 'take')
            if item is None:
                return taken
            t.call('leaving.jobs', 'put', item[1], item[0].to_bytes(8, 'big'))
        return AT_ONCE

    def take_amounts(self, t):
        """The same of amounts, with the customers' names."""
        self.still_away(t)
        customers = self.some(t, 'customers')
        for key, name in customers:
            amount = t.call('quota', 'level', key)
            if amount and not t.call('quota', 'spend', key, amount):
                raise Stale('somebody spends here still')
            t.call('customers', 'remove', key)
            t.call('leaving.quota', 'put', key, amount.to_bytes(8, 'big') + name)
        return len(customers)

    def is_empty(self, t):
        """Whether nothing of the part is in OLD any more, on its way neither: another one may move it too."""
        self.still_away(t)
        kinds = ('customers', 'leaving.jobs', 'leaving.quota')
        return t.call('jobs.%d' % self.part, 'least') is None and not any(self.some(t, name) for name in kinds)

    def send(self, kind):
        """Brings what is in `leaving` to NEW, and takes it out of there: how many."""
        leaving = self.old.keep(lambda t: self.some(t, 'leaving.' + kind))
        if leaving:
            self.new.keep(lambda t: self.receive(t, kind, leaving))
            self.step('arrived')
            self.old.keep(lambda t: [t.call('leaving.' + kind, 'remove', key) for key, _ in leaving])
        return len(leaving)

    def receive(self, t, kind, leaving):
        if t.call('parts', 'get', self.part) != state(ARRIVING, self.count):
            raise Stale('nothing arrives any more')
        for key, value in leaving:
            if t.call('arrived.' + kind, 'get', key) is not None:
                continue
            t.call('arrived.' + kind, 'put', key, b'')
            number = int.from_bytes(value[:8], 'big')
            if kind == 'jobs':
                t.call('jobs.%d' % self.part, 'add', number, key)
            else:
                t.call('customers', 'put', key, value[8:])
                if number:
                    t.call('quota', 'fill', key, number)


def main(words):
    old, new, part = words
    with boost.join(old) as here, boost.join(new) as there:
        make_collections(there)
        try:
            print('%d moved' % Move(here, there, int(part), new).run())
        except Stale as stale:
            sys.exit('move_part: %s' % stale)


if __name__ == '__main__':
    main(sys.argv[1:])
