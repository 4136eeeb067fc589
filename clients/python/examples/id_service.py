"""id_service.py FOLDER: programs draw identifiers side by side, and no two have the same one.

A draw gives the number after the greatest one that is taken. So one that is given back is not drawn again, unless it was the greatest.
Each one that is not given back takes 9 bytes of an image; ids.py shows how to do without.

A server is at FOLDER: `boost listen DISK FOLDER`.
"""
import multiprocessing
import os
import sys

sys.path.insert(0, os.path.join(os.path.dirname(os.path.abspath(__file__)), '..'))
import boost  # noqa: E402


def draw(folder, drawn):
    with boost.join(folder) as store:
        for _ in range(25):
            drawn.put(store.keep(lambda t: t.call('ids', 'draw')))


def main(folder):
    with boost.join(folder) as store:
        store.open_or_make('pool', 'ids')
        drawn = multiprocessing.Queue()
        programs = [multiprocessing.Process(target=draw, args=(folder, drawn)) for _ in range(4)]
        for program in programs:
            program.start()
        ids = [drawn.get(timeout=60) for _ in range(100)]
        for program in programs:
            program.join()
        if any(program.exitcode != 0 for program in programs):
            sys.exit('a program did not end in good order')
        released = store.keep(lambda t: t.call('ids', 'release', ids[0]))
        print(f'{len(ids)} identifiers drawn, {len(set(ids))} of them different')
        print(f'one given back: {released}')


if __name__ == '__main__':
    main(sys.argv[1])
