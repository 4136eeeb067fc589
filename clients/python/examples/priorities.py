"""priorities.py PROGRAM DISK: jobs are taken by priority, and those of one priority in the order in which they came.

A job is a number in a set, made of its priority, the second in which it came and its id. `pick` takes the least number that nobody
holds: so workers hold jobs side by side, and the most urgent one goes first.
"""
import os
import sys

sys.path.insert(0, os.path.join(os.path.dirname(os.path.abspath(__file__)), '..'))
import boost  # noqa: E402

# How many bits of the number are of the second and of the id. The four above them are of the priority: 0 is the most urgent.
SECOND, ID = 32, 28


def number_of(priority, second, job):
    assert priority < 2 ** 4 and second < 2 ** SECOND and job < 2 ** ID
    return priority << SECOND + ID | second << ID | job


def parts_of(number):
    return number >> SECOND + ID, number >> ID & (1 << SECOND) - 1, number & (1 << ID) - 1


def taken_by(store):
    """The ids of all jobs, in the order in which they are picked. None is what `pick` gives where no job is left."""
    return [parts_of(number)[2] for number in iter(lambda: store.keep(lambda t: t.call('jobs', 'pick')), None)]


def main(program, disk):
    with boost.start(program, disk) as store:
        store.open_or_make('set', 'jobs')
        for job in ((2, 100, 1), (0, 105, 2), (2, 99, 3), (1, 101, 4)):
            store.do(('jobs', 'add', number_of(*job)), keep=True)
        with store.transaction() as one, store.transaction() as other:
            held = [parts_of(t.call('jobs', 'pick'))[2] for t in (one, other)]
            one.abort()                            # as a worker that dies: its job is in the set again
        print('two workers hold the jobs', *held)
        raised = store.do(('jobs', 'remove', number_of(2, 100, 1)), ('jobs', 'add', number_of(0, 100, 1)), keep=True)
        print('job 1 is urgent now:', raised == [True, True])
        rest = taken_by(store)
        print('then they are taken in the order', *rest)
        assert (held, raised, rest) == ([2, 4], [True, True], [1, 2, 3])


if __name__ == '__main__':
    main(*sys.argv[1:])
