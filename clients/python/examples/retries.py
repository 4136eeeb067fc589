"""retries.py PROGRAM DISK: a job that fails is tried again after 10 seconds and after 60 more, and then it is a dead letter, which can
be listed and brought back.

A job that waits is a number in the set `later`, made of the second in which it is due and its id: the least number is due first. What
happens to a job, and the count of its tries, changes in the one transaction that holds it. The seconds here are given, not waited for.
"""
import os
import sys

sys.path.insert(0, os.path.join(os.path.dirname(os.path.abspath(__file__)), '..'))
import boost  # noqa: E402

ID = 28
# How many seconds pass before the second try, and before the third one, which is the last.
DELAYS = (10, 60)


def wake(t, second):
    """Moves the job that is due first to those that are ready. None where none is due."""
    number = t.call('later', 'pick')
    if number is not None and number >> ID > second:
        t.abort()                                  # not due: all is as it was
        return None
    if number is not None:
        t.call('ready', 'add', number & (1 << ID) - 1)
    return number


def fail(t, job, why, second):
    """Puts the job off, or aside at its last try."""
    tries = int(t.call('tries', 'get', job) or b'0') + 1
    if tries > len(DELAYS):
        t.call('tries', 'remove', job)
        t.call('dead', 'put', job, why)
    else:
        t.call('tries', 'put', job, b'%d' % tries)
        t.call('later', 'add', second + DELAYS[tries - 1] << ID | job)


def work(t, second, can_mail):
    """Takes a job and does it, or has it fail. None where none is ready."""
    job = t.call('ready', 'pick')
    if job is not None and can_mail(job):
        t.call('done', 'add', job)
        t.call('tries', 'remove', job)
    elif job is not None:
        fail(t, job, b'no such address', second)
    return job


def until_none(store, step, *more):
    """What the step gave in one transaction after another, until it gave None."""
    return list(iter(lambda: store.keep(lambda t: step(t, *more)), None))


def entries_of(store, name):
    """Yields the entries of a map, one call an entry."""
    entry = store.do((name, 'ceiling', 0))[0]
    while entry is not None:
        yield entry
        entry = store.do((name, 'ceiling', entry[0] + 1))[0]


def bring_back(t, job):
    """Makes a dead letter a job that is ready again."""
    return t.call('dead', 'remove', job) is not None and t.call('ready', 'add', job)


def main(program, disk):
    with boost.start(program, disk) as store:
        for kind, name in (('set', 'ready'), ('set', 'later'), ('set', 'done'), ('map', 'tries'), ('map', 'dead')):
            store.open_or_make(kind, name)
        store.do(('ready', 'add', 7), ('ready', 'add', 8), ('ready', 'add', 9), keep=True)
        tried = {}
        for second in (1000, 1009, 1010, 1069, 1070):
            until_none(store, wake, second)
            tried[second] = until_none(store, work, second, lambda job: job == 8)
            print('second', second, 'tried', *tried[second])
        dead = list(entries_of(store, 'dead'))
        print('dead letters', dead)
        assert tried == {1000: [7, 8, 9], 1009: [], 1010: [7, 9], 1069: [], 1070: [7, 9]}
        assert dead == [(7, b'no such address'), (9, b'no such address')]
        back = store.keep(lambda t: bring_back(t, 7)), until_none(store, work, 2000, lambda job: True)
        print('job 7 is brought back and done:', back == (True, [7]))
        assert back == (True, [7]) and list(entries_of(store, 'dead')) == dead[1:]


if __name__ == '__main__':
    main(*sys.argv[1:])
