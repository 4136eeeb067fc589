"""ids.py PROGRAM DISK: three ways to identifiers that are never given out twice and take next to no room.

An identifier that is drawn and never released takes 9 bytes of an image for ever. So `blocks` draws one for a thousand; `greatest` releases
all that it drew but the greatest, as a draw gives the number after the greatest that is taken; `counted` bumps a counter and reads it.
"""
import os
import sys
import threading

sys.path.insert(0, os.path.join(os.path.dirname(os.path.abspath(__file__)), '..'))
import boost  # noqa: E402

BLOCK = 1000


def blocks(store, count):
    """Yields identifiers of which a thousand stand for one that is drawn. Those of a block that are left at its end are never given."""
    while count > 0:
        block = store.keep(lambda t: t.call('blocks', 'draw'))
        yield from range(BLOCK * block, BLOCK * block + min(BLOCK, count))
        count -= BLOCK


def greatest(store, count, at_once=50):
    """Yields identifiers that are drawn fifty at once, and keeps the greatest one in hand until it has a greater one."""
    in_hand = []
    while count > 0:
        drawn = store.keep(lambda t: [t.call('ids', 'draw') for _ in range(min(at_once, count))])
        store.keep(lambda t: [t.call('ids', 'release', each) for each in in_hand + sorted(drawn)[:-1]])
        in_hand = [max(drawn)]
        yield from drawn
        count -= len(drawn)


def counted(store, count):
    """Yields identifiers of a counter: the bump keeps others out from the read on, until it is committed."""
    for _ in range(count):
        yield store.do(('numbers', 'bump', 1), ('numbers', 'read'), keep=True)[1]


def given(store, way, count):
    """What four threads are given at once."""
    numbers = []
    threads = [threading.Thread(target=lambda: numbers.extend(way(store, count))) for _ in range(4)]
    for thread in threads:
        thread.start()
    for thread in threads:
        thread.join()
    return numbers


def main(program, disk):
    with boost.start(program, disk) as store:
        for kind, name in (('pool', 'blocks'), ('pool', 'ids'), ('counter', 'numbers')):
            store.open_or_make(kind, name)
        for way, name, count in ((blocks, 'blocks', 5000), (greatest, 'ids', 500), (counted, 'numbers', 50)):
            numbers = given(store, way, count)
            items = next(each.items for each in store.status().collections if each.name == name)
            print(f'{way.__name__}: {len(numbers)} given, {len(set(numbers))} different, {items} kept')
            assert len(set(numbers)) == len(numbers) == 4 * count and items == {'blocks': 20, 'ids': 4, 'numbers': 1}[name]


if __name__ == '__main__':
    main(*sys.argv[1:])
