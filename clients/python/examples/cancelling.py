"""cancelling.py PROGRAM DISK: a job is cancelled by a `remove` from the set of jobs, which tells surely how far it was.

`yes`: it was waiting, and nobody will take it. `no`: it is done, or never was. `Busy`: a worker holds it, and the answer depends on how that
ends. Then it is put into a set of jobs to be stopped, in which the worker looks before it commits.
"""
import os
import sys

sys.path.insert(0, os.path.join(os.path.dirname(os.path.abspath(__file__)), '..'))
import boost  # noqa: E402


def cancel(store, job):
    """How far the job is: `cancelled`, `gone`, or `running`, and then its worker is told to stop."""
    try:
        return 'cancelled' if store.do(('jobs', 'remove', job), keep=True, patience=0)[0] else 'gone'
    except boost.Busy:
        store.do(('stop', 'add', job), keep=True)
        return 'running'


def end_of(store, job):
    """What became of a job that was running, once its worker has committed or rolled back. No mark of it is left."""
    was_waiting, was_marked = store.do(('jobs', 'remove', job), ('stop', 'remove', job), keep=True)
    return 'cancelled' if was_waiting or not was_marked else 'gone'


def work(t, job):
    """Writes the result, unless the job is to be stopped. From this look on nobody can stop it."""
    if not t.call('stop', 'remove', job):
        t.call('results', 'put', job, b'sent')


def main(program, disk):
    with boost.start(program, disk) as store:
        for kind, name in (('set', 'jobs'), ('set', 'stop'), ('map', 'results')):
            store.open_or_make(kind, name)
        store.do(('jobs', 'add', 1), ('jobs', 'add', 2), ('jobs', 'add', 3), keep=True)
        with store.transaction() as t:
            job = t.call('jobs', 'pick')
            told = {job: cancel(store, job), 2: cancel(store, 2)}
            work(t, job)
        store.keep(lambda t: work(t, t.call('jobs', 'pick')))
        told[3] = cancel(store, 3)
        for job, how in sorted(told.items()):
            print('job', job, how)
        print('and job 1 in the end', end_of(store, 1))
        results = store.do(*(('results', 'get', job) for job in (1, 2, 3)))
        print('results', *results)
        assert told == {1: 'running', 2: 'cancelled', 3: 'gone'} and results == [None, None, b'sent']
        assert [each.items for each in store.status().collections] == [0, 0, 1]


if __name__ == '__main__':
    main(*sys.argv[1:])
