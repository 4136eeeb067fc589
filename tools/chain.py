#!/usr/bin/env python3
"""chain.py JOBS [CRATE..]: `rt check` in one crate after another, or in those that are named, each once those below it stand.

So many functions are proved side by side: a crate that is alone has all JOBS, else they share them. A library is built as soon as
it is proved, so that crates above it share it. A line tells of each crate whether it is proved, how long it took and how many
seconds of processors; what a check printed goes into out/chain.log of the crate. A crate that is not proved is tried again once
somebody makes the file out/again in it; the run ends where nothing is left but crates above such ones and nobody makes it within
the seconds of $CHAIN_WAITS (none without it). It has no quick pass over all crates, as `rt all` has. It gives no verdict: `rt ci`
does.
"""
import os
import subprocess
import sys
import time

TOP = os.path.dirname(os.path.dirname(os.path.abspath(__file__)))


def needs_of_all():
    """Each crate of crates.txt with those of the repository that it stands on."""
    with open(os.path.join(TOP, 'crates.txt'), encoding='utf-8') as file:
        rows = [line.split(':') for line in file if ':' in line and not line.startswith('#')]
    names = {name.strip() for name, _ in rows}
    return {name.strip(): [below for below in text.split() if below in names] for name, text in rows}


def path_in(crate, *names):
    return os.path.join(TOP, 'crates', crate, *names)


def is_library(crate):
    return os.path.isfile(path_in(crate, 'src', 'lib.rt'))


def is_proved(crate):
    """What the last verdict in the log of a crate's check says: those before it are of crates below."""
    with open(path_in(crate, 'out', 'chain.log'), encoding='utf-8', errors='replace') as log:
        verdicts = [line for line in log if line.startswith('logic=') and 'functions=' in line]
    return bool(verdicts) and verdicts[-1].startswith('logic=proved')


def start(crate, jobs):
    """Begins the check of a crate, and the build of its library behind it."""
    os.makedirs(path_in(crate, 'out'), exist_ok=True)
    if os.path.exists(path_in(crate, 'out', 'again')):
        os.remove(path_in(crate, 'out', 'again'))
    rt = f'{sys.executable} {os.path.join(TOP, "tools", "remembering_rt.py")}'
    words = f'{rt} check --jobs {jobs}' + (f' && {rt} lib' if is_library(crate) else '')
    with open(path_in(crate, 'out', 'chain.log'), 'w', encoding='utf-8') as log:
        return subprocess.Popen(['bash', '-c', words], cwd=path_in(crate), stdout=log, stderr=log, stdin=subprocess.DEVNULL)


class Chain:
    def __init__(self, jobs, needs, wanted):
        self.jobs, self.needs = jobs, needs
        self.left = [crate for crate in needs if crate in wanted]
        self.running, self.failed = {}, []

    def tell(self, crate, text):
        print(time.strftime('%H:%M:%S'), crate, text, flush=True)

    def ready(self):
        """The crates whose libraries all stand, with none of them left or at work."""
        missing = set(self.left) | set(self.failed) | {crate for crate, _, _ in self.running.values()}
        return [crate for crate in self.left if not missing.intersection(self.needs[crate])]

    def free(self):
        return self.jobs - sum(jobs for _, _, jobs in self.running.values())

    def start_all(self):
        """Begins what can be begun: what is ready shares the jobs that are free."""
        ready = self.ready()
        for at, crate in enumerate(ready):
            free = self.free()
            if free <= 0:
                return
            jobs = max(1, free // (len(ready) - at))
            self.left.remove(crate)
            self.running[start(crate, jobs).pid] = crate, time.time(), jobs

    def end_one(self):
        """Waits a second at most for a check that ends, and says what it came to."""
        pid, status, usage = os.wait4(-1, os.WNOHANG)
        if pid not in self.running:
            return time.sleep(1)
        crate, began, jobs = self.running.pop(pid)
        proved = os.waitstatus_to_exitcode(status) == 0 and is_proved(crate)
        if not proved:
            self.failed.append(crate)
        took = f'{time.time() - began:.0f} s with {jobs}, {usage.ru_utime + usage.ru_stime:.0f} s of processors'
        self.tell(crate, f'{"proved" if proved else "NOT PROVED"}, {took}')

    def try_again(self):
        """Takes up again what somebody asks for."""
        for crate in [crate for crate in self.failed if os.path.exists(path_in(crate, 'out', 'again'))]:
            self.failed.remove(crate)
            self.left.insert(0, crate)

    def run(self, patience):
        waited = 0
        while self.running or self.ready() or (self.failed and waited < patience):
            self.try_again()
            self.start_all()
            if self.running:
                self.end_one()
                waited = 0
            else:
                time.sleep(1)
                waited += 1
        return not self.failed and not self.left


def main():
    needs = needs_of_all()
    chain = Chain(int(sys.argv[1]), needs, sys.argv[2:] or list(needs))
    return 0 if chain.run(int(os.environ.get('CHAIN_WAITS', '0'))) else 1


if __name__ == '__main__':
    sys.exit(main())
