"""quota.py FOLDER: programs spend from the quotas of customers, and several from the same one side by side. None is told yes for
what is not there.

A server is at FOLDER: `boost listen DISK FOLDER`.
"""
import multiprocessing
import os
import sys

sys.path.insert(0, os.path.join(os.path.dirname(os.path.abspath(__file__)), '..'))
import boost  # noqa: E402

CUSTOMERS = 1000
ASKED = range(0, CUSTOMERS, 100)


def fill(t):
    """Fills the quota of each customer."""
    for customer in range(CUSTOMERS):
        t.call('credit', 'fill', customer, 100)    # raises where it is refused


def spend(folder, granted):
    """Asks ten customers' quotas three times for 40."""
    with boost.join(folder) as store:
        answers = [store.do(('credit', 'spend', customer, 40))[0] for _ in range(3) for customer in ASKED]
    with granted.get_lock():
        granted.value += sum(answers)


def main(folder):
    with boost.join(folder) as store:
        store.open_or_make('quotas', 'credit')
        store.keep(fill)
        granted = multiprocessing.Value('i', 0)
        programs = [multiprocessing.Process(target=spend, args=(folder, granted)) for _ in range(4)]
        for program in programs:
            program.start()
        for program in programs:
            program.join()
        if any(program.exitcode != 0 for program in programs):
            sys.exit('a program did not end in good order')
        left = [store.do(('credit', 'level', customer))[0] for customer in ASKED]
    print(f'{granted.value} of 120 asks granted, {left} left')


if __name__ == '__main__':
    main(sys.argv[1])
