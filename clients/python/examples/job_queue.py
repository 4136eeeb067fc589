"""job_queue.py FOLDER: workers hold jobs side by side while they work, and some of them die at it. No job is lost, none is done
twice, and one that failed three times lies aside.

A server is at FOLDER: `boost listen DISK FOLDER`.
"""
import multiprocessing
import os
import random
import signal
import sys

sys.path.insert(0, os.path.join(os.path.dirname(os.path.abspath(__file__)), '..'))
import boost  # noqa: E402

JOBS = 60
TRIES = 3


def result_of(job):
    """What the work comes to: nothing for every 25th job, which fails. Now and then a worker dies at it."""
    if random.random() < 0.1:
        os.kill(os.getpid(), signal.SIGKILL)     # the job is in the set again, as the server takes all of it back
    return None if job % 25 == 0 else str(job * job).encode()


def expect(is_so, otherwise):
    """Takes the transaction back, and ends, where an answer is another one than there can be."""
    if not is_so:
        raise RuntimeError(otherwise)


def do_one(t):
    """Picks a job, works while it holds it, and writes what came of it in the same transaction. None where all are done."""
    job = t.call('jobs', 'pick')
    if job is None:
        return None
    result = result_of(job)
    if result is not None:
        expect(t.call('results', 'put', job, result) is None, 'a job is done twice')
    else:
        before = t.call('tries', 'get', job)
        failed = int(before or b'0') + 1
        expect(t.call('tries', 'put', job, str(failed).encode()) == before, 'another one counts the tries of this job')
        expect(t.call('jobs' if failed < TRIES else 'failed', 'add', job), 'a job is there twice')
    return job


def work(folder):
    with boost.join(folder) as store:
        while store.keep(do_one) is not None:
            pass


def main(folder):
    with boost.join(folder) as store:
        for kind, name in (('set', 'jobs'), ('set', 'failed'), ('map', 'results'), ('map', 'tries')):
            store.open_or_make(kind, name)
        for job in range(JOBS):
            expect(store.do(('jobs', 'add', job), keep=True) == [True], 'the store had jobs before')
    deaths = 0
    workers = []
    for _ in range(4):
        workers.append(multiprocessing.Process(target=work, args=(folder,)))
        workers[-1].start()
    while workers:
        worker = workers.pop(0)
        worker.join()
        expect(worker.exitcode in (0, -signal.SIGKILL), 'a worker failed')
        if worker.exitcode != 0:
            deaths += 1
            workers.append(multiprocessing.Process(target=work, args=(folder,)))
            workers[-1].start()
    with boost.join(folder) as store:
        done = sum(value is not None for value in store.do(*(('results', 'get', job) for job in range(JOBS))))
        aside = sum(store.do(*(('failed', 'contains', job) for job in range(JOBS))))
    print(f'{done} of {JOBS} jobs have their result, {aside} lie aside')
    print(f'{deaths} workers died', file=sys.stderr)


if __name__ == '__main__':
    main(sys.argv[1])
