#!/usr/bin/env python3
"""reopen.py [--runs N] [--seed N] [--shim PATH --delay-us N] [--program PATH]: serves scripts that leave an area nearly full
beside an open transaction, and looks whether the store opens again.

In a script one client opens a transaction of many puts of large values, and keeps it open for as long as its lines last. A
second one commits puts on a few keys of another map, so the content stays small. In one half of the runs the second client's
records end just before the end of the area, and the program ends by itself. In the other half it goes on through many checkpoints,
and the program is killed (SIGKILL) at a random moment. Areas have 64 KiB and 1 MiB in turns.

Then `boost check` counts what is unfinished, and `boost show` must open the store with status 0 and print of the first map nothing:
its transaction was never committed. A second `boost check` must find nothing unfinished.

It is no part of the gate. It prints for each sort of run how many there were, in how many of them the transaction was
unfinished, and how many opened; its own status is 1 where one did not. A shim that is preloaded makes the syncs slower, as for
soak.py.
"""
import argparse
import collections
import os
import random
import re
import signal
import subprocess
import sys
import tempfile
import time

TOP = os.path.dirname(os.path.dirname(os.path.realpath(__file__)))
BOOST = os.path.join(TOP, "crates/boost_main/out/boost_main")

AREAS = [1 << 16, 1 << 20]
VALUE = "ab" * 256
# How long a run may take, in seconds.
LIMIT = 300
# The bytes of records: a put of a new value of 256 bytes, one over such a value, a begin with a commit, and what is there before.
PUT, OVER, ENDS, FIRST = 287, 803, 18, 100
# What undoing takes for each call, and for each block of 64 of them.
BACK, BLOCK = 9, 5


def undoing(calls):
    """How many bytes it takes to undo a transaction of so many calls."""
    return BACK * (calls + 1) + BLOCK * (calls // 64 + 1)


def opened(chance, area):
    """How many puts the open transaction makes: a third of the area at most."""
    return chance.randint(min(60, area // (6 * PUT)), min(1024, area // (3 * PUT)))


def holding(puts, count):
    """The lines of the client that holds its transaction open."""
    lines = ["c1 begin", *(f"c1 call held put {key} {VALUE}" for key in range(puts))]
    return lines + ["c1 call none take"] * (6 * count)


def put(name, key, value):
    return ["c2 begin", f"c2 call {name} put {key} {value}", "c2 commit"]


def committing(count):
    """The lines of the client that commits so many puts on eight keys."""
    return [line for number in range(count) for line in put("done", number % 8, VALUE)]


def filling(free):
    """The lines of the client that fills so many bytes with records."""
    puts = [("done", key, VALUE) for key in range(8)]
    free -= 8 * (PUT + ENDS)
    while free >= OVER + ENDS:
        puts.append(("done", len(puts) % 8, VALUE))
        free -= OVER + ENDS
    while free >= PUT - 256 + ENDS:
        size = int(min(256, free - (PUT - 256 + ENDS)))
        puts.append(("done", len(puts), "ab" * size or "-"))
        free -= PUT - 256 + size + ENDS
    return [line for one in puts for line in put(*one)]


def until_full(chance, area):
    """A script whose records end just before the end of the area."""
    puts = opened(chance, area)
    lines = filling(area - FIRST - puts * PUT - ENDS - undoing(puts) * chance.uniform(0.1, 1.1))
    return holding(puts, len(lines) // 3) + lines


def through_checkpoints(chance, area):
    """A script that goes on through many checkpoints."""
    count = 20 * area // OVER
    return holding(opened(chance, area), count) + committing(count)


class Reopening:
    def __init__(self, asked, folder):
        self.asked, self.chance = asked, random.Random(asked.seed)
        self.disk, self.script = os.path.join(folder, "disk"), os.path.join(folder, "script")
        self.counts = collections.Counter()
        self.slow = dict(os.environ)
        if asked.shim:
            self.slow.update(LD_PRELOAD=os.path.abspath(asked.shim), PEERSYNC_DELAY_US=str(asked.delay_us))

    def boost(self, *words):
        return subprocess.run([self.asked.program, *words], stdout=subprocess.PIPE, stderr=subprocess.PIPE, timeout=self.asked.limit,
                              universal_newlines=True)

    def sure(self, *words):
        done = self.boost(*words)
        if done.returncode != 0:
            raise SystemExit(f"reopen: {' '.join(words)}: status {done.returncode}: {done.stderr.strip()}")
        return done.stdout

    def write(self, lines):
        with open(self.script, "w") as file:
            file.write("".join(f"{line}\n" for line in lines))

    def make_disk(self, area):
        """A new disk with both maps."""
        self.sure("format", self.disk, "--area", str(area), "--force")
        self.write(["c1 make map held", "c1 make map done", "turn"])
        self.sure("play", self.disk, self.script)

    def serve(self, longest):
        """Serves the script, and kills the program after so many seconds where it has not ended. Whether it was killed."""
        words = [self.asked.program, "serve", self.disk, self.script]
        with tempfile.TemporaryFile() as out:
            program = subprocess.Popen(words, stdout=out, stderr=out, env=self.slow)
            try:
                program.wait(longest)
            except subprocess.TimeoutExpired:
                program.send_signal(signal.SIGKILL)
                program.wait()
                return True
            out.seek(0)
            self.note_ends(out.read().decode(), program.returncode)
            return False

    def note_ends(self, told, status):
        for end in re.findall(r"^end: (.*)$", told, re.M):
            self.counts[f"clients ended {end}"] += 1
        self.counts[f"runs ended with status {status}"] += 1

    def look(self, sort):
        """Whether the store opens, with nothing of the open transaction."""
        count = re.search(r"(\d+) unfinished", self.boost("check", self.disk).stdout)
        self.counts[f"{sort}: left unfinished"] += bool(count and int(count.group(1)))
        shown = self.boost("show", self.disk)
        if shown.returncode != 0:
            self.counts[f"{sort}: not opened, {shown.stderr.strip()}"] += 1
            return
        if "map held\nmap done\n" not in shown.stdout or " 0 unfinished" not in self.sure("check", self.disk):
            raise SystemExit(f"reopen: {sort}: something of the open transaction is left")
        self.counts[f"{sort}: opened"] += 1

    def run_one(self, number):
        area = AREAS[number // 2 % 2]
        self.make_disk(area)
        if number % 2 == 0:
            sort = f"area {area}, ended by itself"
            self.write(until_full(self.chance, area))
            if self.serve(self.asked.limit):
                raise SystemExit(f"reopen: {sort}: no end after {self.asked.limit} seconds")
        else:
            self.write(through_checkpoints(self.chance, area))
            sort = f"area {area}, killed"
            began = time.time()
            if not self.serve(self.chance.uniform(0, self.lasting.get(area, self.asked.limit))):
                # the first one ends by itself, and tells how long one lasts
                self.lasting[area] = time.time() - began
                sort = f"area {area}, ended before it was killed"
        self.counts[f"{sort}: runs"] += 1
        self.look(sort)

    def run(self):
        self.lasting = {}
        for number in range(self.asked.runs):
            self.run_one(number)
        for name, count in sorted(self.counts.items()):
            print(f"{name}: {count}")
        refused = sum(count for name, count in self.counts.items() if "not opened" in name)
        print(f"{self.asked.runs} runs, {refused} stores were not opened again")
        return 1 if refused else 0


def main():
    asked = argparse.ArgumentParser(description="Serves scripts that leave an area nearly full beside an open transaction.")
    asked.add_argument("--runs", type=int, default=50)
    asked.add_argument("--seed", type=int, default=1)
    asked.add_argument("--shim", help="a library that is preloaded, and makes each sync slower")
    asked.add_argument("--delay-us", type=int, default=1000)
    asked.add_argument("--limit", type=float, default=LIMIT, help="how many seconds a run may take")
    asked.add_argument("--program", default=BOOST)
    asked = asked.parse_args()
    with tempfile.TemporaryDirectory() as folder:
        sys.exit(Reopening(asked, folder).run())


if __name__ == "__main__":
    main()
