"""windows.py PROGRAM DISK: each customer may spend 100 in each hour, and what is left of an hour is gone with it.

The key of a quota is made of the customer and the hour. A map has the hour of each customer's last spend: the first one of an hour fills
that hour's quota, and spends what the hour before has left. A quota that is empty takes no room, so a customer takes that of one.
"""
import os
import sys

sys.path.insert(0, os.path.join(os.path.dirname(os.path.abspath(__file__)), '..'))
import boost  # noqa: E402

LIMIT = 100
HOUR = 32


def key_of(customer, hour):
    return customer << HOUR | hour


def spend(t, customer, hour, amount):
    """Whether the customer may spend so much in this hour. Spends of one customer run side by side, but for the first of an hour."""
    before = t.call('hours', 'get', customer)
    if before is None or int(before) != hour:
        t.call('hours', 'put', customer, b'%d' % hour)
        if before is not None:
            old = key_of(customer, int(before))
            t.call('credit', 'spend', old, t.call('credit', 'level', old))
        t.call('credit', 'fill', key_of(customer, hour), LIMIT)
    return t.call('credit', 'spend', key_of(customer, hour), amount)


def main(program, disk):
    with boost.start(program, disk) as store:
        store.open_or_make('quotas', 'credit')
        store.open_or_make('map', 'hours')
        told = [[store.keep(lambda t: spend(t, 77, hour, 40)) for _ in range(3)] for hour in (500000, 500001)]
        print('three spends of 40 in one hour, and in the next:', told)
        for hour in range(500002, 500102):
            store.keep(lambda t: spend(t, 78, hour, 30))
        rooms = {each.name: each.items for each in store.status().collections}
        print('after 102 hours of two customers there are', rooms['credit'], 'quotas')
        empty = store.do(('credit', 'spend', key_of(77, 500001), 20), ('credit', 'spend', key_of(78, 500101), 70), keep=True)
        rooms = {each.name: each.items for each in store.status().collections}
        print('and once both are spent', rooms['credit'])
        assert told == [[True, True, False]] * 2 and empty == [True, True] and (rooms['credit'], rooms['hours']) == (0, 2)


if __name__ == '__main__':
    main(*sys.argv[1:])
