"""leases.py PROGRAM DISK: workers lease jobs for 60 seconds, and have no transaction open meanwhile. A lease that ran out goes back, and who
had it can no longer finish the job. A job whose third lease ran out is a dead letter: it may be what kills its workers.

That is for more workers than a server has clients, for jobs that take minutes, and for workers that come by a web service. The set `leases`
has numbers made of the second in which a lease ends and the job's id. The number is the lease: while it is in the set, the lease
holds. The seconds here are given, not waited for.
"""
import os
import sys

sys.path.insert(0, os.path.join(os.path.dirname(os.path.abspath(__file__)), '..'))
import boost  # noqa: E402

ID = 28
SECONDS = 60
LEASES = 3


def lease(t, second):
    """Leases the next job: its id, and the second in which the lease ends. None where none waits."""
    job = t.call('jobs', 'pick')
    if job is None:
        return None
    end = second + SECONDS
    t.call('leases', 'add', end << ID | job)
    return job, end


def renew(t, job, end, second):
    """Makes the lease last for 60 seconds from this one: its new end, or None where it has run out."""
    if not t.call('leases', 'remove', end << ID | job):
        return None
    t.call('leases', 'add', second + SECONDS << ID | job)
    return second + SECONDS


def finish(t, job, end, result):
    """Writes the result, if the lease still holds. Whether it did."""
    if not t.call('leases', 'remove', end << ID | job):
        return False
    t.call('results', 'put', job, result)
    t.call('tries', 'remove', job)
    return True


def take_back(t, second):
    """Takes back the lease that ends first, and counts it: the job waits again, or is a dead letter. None where no lease has run out."""
    number = t.call('leases', 'pick')
    if number is None:
        return None
    if number >> ID > second:
        t.abort()
        return None
    job = number & (1 << ID) - 1
    tries = int(t.call('tries', 'get', job) or b'0') + 1
    if tries < LEASES:
        t.call('tries', 'put', job, b'%d' % tries)
        t.call('jobs', 'add', job)
    else:
        t.call('tries', 'remove', job)
        t.call('dead', 'put', job, b'no worker came through')
    return job


def main(program, disk):
    with boost.start(program, disk) as store:
        for kind, name in (('set', 'jobs'), ('set', 'leases'), ('map', 'results'), ('map', 'tries'), ('map', 'dead')):
            store.open_or_make(kind, name)
        store.do(('jobs', 'add', 7), keep=True)
        first = store.keep(lambda t: lease(t, 1000))
        early, late = (store.keep(lambda t: take_back(t, second)) for second in (1059, 1061))
        job, end = store.keep(lambda t: lease(t, 1061))
        second = job, store.keep(lambda t: renew(t, job, end, 1100))
        print('leased', first, 'and, as it was not finished, again and renewed', second)
        finished = [store.keep(lambda t: finish(t, *each, result)) for each, result in ((first, b'slow'), (second, b'quick'))]
        result = store.do(('results', 'get', 7))
        print('finished by the first, by the second:', *finished, 'result', *result)
        assert (first, early, late, second) == ((7, 1060), None, 7, (7, 1160))
        assert finished == [False, True] and result == [b'quick']
        store.do(('jobs', 'add', 8), keep=True)
        given = [(store.keep(lambda t: lease(t, second)), store.keep(lambda t: take_back(t, second + 61))) for second in (2000, 2100, 2200)]
        left, dead = store.keep(lambda t: lease(t, 2300)), store.do(('dead', 'get', 8))
        print('job 8 was leased', len(given), 'times, and then', *dead)
        assert given == [((8, 2060), 8), ((8, 2160), 8), ((8, 2260), 8)] and left is None and dead == [b'no worker came through']


if __name__ == '__main__':
    main(*sys.argv[1:])
