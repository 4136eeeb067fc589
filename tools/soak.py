#!/usr/bin/env python3
"""soak.py [--minutes N] [--seed N] [--shim PATH --delay-us N] [--program PATH]: serves random clients for a long time, and
looks at what they were told and at what the store holds.

Each round writes a script for up to 64 clients, serves it by `boost serve`, and reads what the clients were told. Scripts
have calls on collections of all seven kinds; short transactions and long ones of up to 1,024 calls; commits, aborts, and
transactions that are left open; many reads; tries that meet a lock and are taken back, again and again, while another client
holds it; lines that are refused; and pauses, which are many lines that only ask whether a ticket is kept. A disk is kept from
round to round, and now and then made anew, with areas of 64 KiB, 1 MiB or 16 MiB.

A round is wrong where the program does not end in time, ends with another status than 0 or prints an error; where a client
does not end `kept` or `no ticket`; and where a line is refused Backlog. All that was committed is run once more, whole, in the
order of the places, on a plain model: each reply must be the same, and behind each round `boost show` must print what the model
holds, with nothing unfinished.

A shim that is preloaded makes the syncs of the disk slower: it sleeps in each for so many microseconds, which the variable
PEERSYNC_DELAY_US tells it. Rounds leave more records than wait for a disk at most, faster than a slow disk takes them.

It is no part of the gate. It ends at the first round that is wrong, tells why, and keeps the script and the disk. Else it
prints what it did in numbers.
"""
import argparse
import collections
import os
import random
import re
import shutil
import subprocess
import tempfile
import time

import stories

TOP = os.path.dirname(os.path.dirname(os.path.realpath(__file__)))
BOOST = os.path.join(TOP, "crates/boost_main/out/boost_main")

# Names of the collections, by their kinds.
NAMES = {"set": ["s", "t"], "map": ["m", "o"], "queue": ["q"], "counter": ["n", "k"], "pool": ["p"],
         "stock": ["l"], "quotas": ["u"]}
AREAS = [1 << 16, 1 << 20, 1 << 24]
MOST_CALLS = 1024
# How long a round may take, in seconds.
LIMIT = 300
# The bytes that the record of a call takes at most, of a value of 16 bytes.
CALL_SIZE = 128


class Wrong(Exception):
    """A round is not as it must be."""


# ---- scripts


class Round:
    """The script of a round: what each of its clients does, on a disk with areas of so many bytes."""

    def __init__(self, chance, area, model):
        self.chance, self.area, self.model = chance, area, model
        self.clients = chance.choice([1, 2, 2, 4, 8, 8, 16, 64])
        # what is live must fit into an area beside what is held
        self.longest = max(1, min(MOST_CALLS, area // (4 * CALL_SIZE * self.clients)))
        self.keys = max(8, area >> 12) if area < 1 << 20 else 256
        self.lines = []

    def script(self):
        """The lines, each client's in their order, mixed."""
        count = self.chance.choice([200, 2000, 8000, 20000])
        parts = [self.client(f"c{number}", max(8, count // self.clients)) for number in range(1, self.clients + 1)]
        if self.chance.random() < 0.5:
            return [line for part in parts for line in part]
        owners = [part for part in parts for _ in part]
        self.chance.shuffle(owners)
        places = {id(part): iter(part) for part in parts}
        return [next(places[id(part)]) for part in owners]

    def client(self, name, count):
        """The lines of a client, about so many, with a commit at the end or an open transaction."""
        lines = []
        while len(lines) < count:
            lines += [f"{name} {line}" for line in self.step()]
        if self.chance.random() < 0.8:
            lines += [f"{name} {line}" for line in ("abort", "begin", f"call n bump {self.chance.randrange(100)}", "commit")]
        elif self.chance.random() < 0.5:
            lines += [f"{name} {line}" for line in ("abort", "begin", f"call n bump {self.chance.randrange(100)}", "call q take")]
        return lines

    def step(self):
        """What a client does next."""
        kind = self.chance.choice(["short"] * 8 + ["long", "reads", "tries", "hold", "pause", "stray", "bumps"])
        return getattr(self, kind)()

    def end(self):
        return self.chance.choice(["commit"] * 7 + ["abort"] * 2 + ["kept"])

    def short(self):
        return ["begin", *(self.call() for _ in range(self.chance.randrange(7))), self.end()]

    def long(self):
        count = self.chance.randint(1, self.longest)
        return ["begin", *(self.call() for _ in range(count)), self.end()]

    def bumps(self):
        """A long transaction that is taken back whole."""
        return ["begin", *(f"call k bump {self.chance.randrange(-9, 9)}" for _ in range(self.longest)), "abort"]

    def reads(self):
        count = self.chance.randrange(MOST_CALLS)
        return ["begin", *("call n read" for _ in range(count)), self.chance.choice(["commit", "abort"])]

    def tries(self):
        """A client that meets a lock, takes all back and tries again."""
        count = self.chance.choice([1, 10, 100, 1000])
        return ["begin", "call n bump 1", "call q take", "abort"] * count

    def hold(self):
        """A client that has a lock for a while."""
        return ["begin", "call q take", *self.pause(), self.end()]

    def pause(self):
        return ["kept"] * self.chance.choice([10, 100, 1000, 10000])

    def stray(self):
        return [self.chance.choice(["commit", "abort", "begin", "kept", "make counter n", "call none take", "call n take"])]

    def call(self):
        """A call that looks like chance, of one of the collections."""
        key = self.chance.randrange(self.keys)
        one, other = self.chance.choice(NAMES["set"]), self.chance.choice(NAMES["map"])
        counter, by = self.chance.choice(NAMES["counter"]), self.chance.randrange(-1000, 1000)
        value = self.chance.choice(["-", "00", "%032x" % self.chance.getrandbits(128)])
        return self.chance.choice([
            f"call {one} contains {key}", f"call {one} add {key}", f"call {one} remove {key}", f"call {other} get {key}",
            f"call {other} put {key} {value}", f"call {other} remove {key}", f"call {other} ceiling {key}", self.of_queue(key),
            self.of_queue(key), f"call {counter} bump {by}", f"call {counter} bump {by}", f"call {counter} read", self.of_pool(),
            self.of_pool(), f"later {counter} bump {by}", f"call l spend {key}", f"call l spend {key}", "call l level",
            f"later l fill {key}", f"later l fill {key}", f"call {one} pick", f"call u fill {key} {self.chance.randrange(100)}",
            f"call u spend {key} {self.chance.randrange(100)}", f"call u spend {key} {self.chance.randrange(100)}", f"call u level {key}"])

    def of_queue(self, key):
        if len(self.model.held["q"]) > 2 * self.keys:
            return "call q take"
        return self.chance.choice([f"call q add {key} {self.chance.randrange(1000)}", "call q take", "call q least"])

    def of_pool(self):
        taken = self.model.held["p"]
        if taken and (len(taken) > 2 * self.keys or self.chance.random() < 0.5):
            return f"call p release {self.chance.choice(self.taken())}"
        return "call p draw"

    def taken(self):
        if not hasattr(self, "ids"):
            self.ids = sorted(self.model.held["p"])
        return self.ids


# ---- what clients were told


def transcripts(out):
    """What each client was told: its answers by their lines, and its end."""
    told = {}
    for line in out.splitlines():
        if re.fullmatch(r"c\d+:", line):
            answers = told[line[:-1]] = {}
        elif line.startswith("end: "):
            answers["end"] = line[5:]
        else:
            number, answer = line.split(": ", 1)
            answers[int(number)] = answer
    return told


class Transaction:
    """The calls of an open transaction that were answered, and what it deferred."""

    def __init__(self):
        self.calls, self.laters = [], []

    def note(self, words, answer):
        name, what, *args = words[1:]
        call = (what, *((int(args[0]), args[1]) if what == "put" else map(int, args)))
        if words[0] == "later":
            self.laters.append((name, call))
        else:
            self.calls.append((name, call, answer))
            if answer == "queued":
                self.laters.append((name, ("free", call[1])))


def committed(lines, told, counts):
    """The transactions that were committed, by their places, and what was counted of all answers."""
    found, open_ones = {}, {}
    for number, line in enumerate(lines, 1):
        client, *words = line.split(" ")
        answer = told[client].get(number)
        if answer is None:
            raise Wrong(f"line {number} has no answer: {line}")
        counts["lines"] += 1
        if answer.startswith("refused "):
            counts[answer.split(" ")[2]] += 1
        elif words[0] == "begin":
            open_ones[client] = Transaction()
        elif words[0] in ("call", "later"):
            open_ones[client].note(words, answer)
            counts["calls"] += 1
        elif words[0] == "abort":
            del open_ones[client]
            counts["aborted"] += 1
        elif words[0] in ("commit", "make"):
            found[int(answer.split(" ")[1])] = open_ones.pop(client) if words[0] == "commit" else words[1:]
            counts["committed"] += 1
    counts["left open"] += len(open_ones)
    return found


def run_again(model, found):
    """Runs what was committed on the model, each transaction whole, in the order of the places."""
    for place in sorted(found):
        if isinstance(found[place], list):
            model.make(found[place][1], found[place][0])
            continue
        for name, call, answer in found[place].calls:
            reply = model.look(name, call)
            if call[0] == "draw":
                reply = ("id", int(answer.split(" ")[1]))
                if reply[1] in model.held[name]:
                    raise Wrong(f"place {place}: {reply[1]} was drawn twice")
            elif call[0] == "pick" and answer.startswith("id "):
                reply = ("id", int(answer.split(" ")[1]))
                if reply[1] not in model.held[name]:
                    raise Wrong(f"place {place}: {reply[1]} was picked and is not there")
            elif answer != text_of(reply):
                raise Wrong(f"place {place}: {name} {call}: told {answer}, and the model says {text_of(reply)}")
            model.run(name, call, reply)
        for name, call in found[place].laters:
            model.run(name, call, ("done",))


def text_of(reply):
    if reply[0] in ("value", "entry"):
        return " ".join(map(str, (*reply[:-1], stories.hexed(reply[-1]))))
    return " ".join(map(str, reply))


# ---- rounds


class Soak:
    def __init__(self, asked, folder):
        self.asked, self.folder = asked, folder
        self.chance = random.Random(asked.seed)
        self.counts = collections.Counter()
        self.longest = 0.0
        self.disk = os.path.join(folder, "disk")
        self.environment = dict(os.environ)
        if asked.shim:
            self.environment.update(LD_PRELOAD=os.path.abspath(asked.shim), PEERSYNC_DELAY_US=str(asked.delay_us))

    def boost(self, *words):
        """Runs the program; what it printed."""
        began = time.time()
        try:
            done = subprocess.run([self.asked.program, *words], stdout=subprocess.PIPE, stderr=subprocess.PIPE, timeout=self.asked.limit,
                                  env=self.environment, universal_newlines=True)
        except subprocess.TimeoutExpired:
            raise Wrong(f"{words[0]} has not ended after {self.asked.limit} seconds")
        self.longest = max(self.longest, time.time() - began)
        if done.returncode != 0 or done.stderr:
            raise Wrong(f"{words[0]}: status {done.returncode}: {done.stderr.strip()}")
        return done.stdout

    def serve(self, lines):
        """Serves a script, and runs what was committed on the model."""
        with open(os.path.join(self.folder, "script"), "w") as file:
            file.write("".join(f"{line}\n" for line in lines))
        out = self.boost("serve", self.disk, os.path.join(self.folder, "script"))
        with open(os.path.join(self.folder, "told"), "w") as file:
            file.write(out)
        told = transcripts(out)
        before = self.counts["Backlog"]
        found = committed(lines, told, self.counts)
        for client, answers in told.items():
            if answers["end"] not in ("kept", "no ticket"):
                raise Wrong(f"{client} ended {answers['end']}")
        if self.counts["Backlog"] > before:
            raise Wrong(f"{self.counts['Backlog'] - before} lines were refused Backlog")
        run_again(self.model, found)

    def look(self):
        """The store holds what the model does, also once it was opened, with nothing unfinished."""
        shown = self.boost("show", self.disk)
        if shown != self.model.shown():
            raise Wrong("the store shows something else than the model")
        if ", 0 unfinished" not in self.boost("check", self.disk):
            raise Wrong("something is unfinished behind an opening")

    def make_disk(self):
        """A new disk, with all collections."""
        self.area = self.chance.choice(AREAS)
        self.model = stories.Content()
        self.counts["disks"] += 1
        self.boost("format", self.disk, "--area", str(self.area), "--force")
        self.serve([f"c1 make {kind} {name}" for kind, names in NAMES.items() for name in names])

    def round(self, number):
        if number % 20 == 0:
            self.make_disk()
        self.serve(Round(self.chance, self.area, self.model).script())
        self.look()
        self.counts["rounds"] += 1

    def run(self):
        began, number = time.time(), 0
        while time.time() - began < 60 * self.asked.minutes:
            try:
                self.round(number)
            except Wrong as wrong:
                raise SystemExit(f"soak: seed {self.asked.seed}, round {number}: {wrong}; see {keep(self.folder)}\n{self.told()}")
            number += 1
        print(self.told())

    def told(self):
        """What was done, in numbers."""
        main = ("rounds", "disks", "lines", "calls", "committed", "aborted", "left open")
        parts = [f"{self.counts[name]:,} {name}" for name in main]
        refused = [f"{name} {count:,}" for name, count in sorted(self.counts.items()) if name not in main]
        return f"{', '.join(parts)}; refused: {', '.join(refused) or 'none'}; the longest run took {self.longest:.1f} seconds"


def keep(folder):
    """Copies what a wrong round left; where to."""
    kept = tempfile.mkdtemp(prefix="soak-")
    shutil.copytree(folder, os.path.join(kept, "round"))
    return kept


def main():
    asked = argparse.ArgumentParser(description="Serves random clients for a long time.")
    asked.add_argument("--minutes", type=float, default=60)
    asked.add_argument("--seed", type=int, default=1)
    asked.add_argument("--shim", help="a library that is preloaded, and makes each sync slower")
    asked.add_argument("--delay-us", type=int, default=1000)
    asked.add_argument("--limit", type=float, default=LIMIT, help="how many seconds a run may take")
    asked.add_argument("--program", default=BOOST)
    asked = asked.parse_args()
    with tempfile.TemporaryDirectory() as folder:
        Soak(asked, folder).run()


if __name__ == "__main__":
    main()
