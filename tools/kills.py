#!/usr/bin/env python3
"""kills.py [TIMES] [CLIENTS]: kills a program that serves, again and again, and looks at what it leaves.

The program is `workloads bench told counter`, proved and built (`rt run` in crates/workloads builds it): so many clients add 1 to one
counter, each addition a transaction, and a line tells each one that is kept. It is killed (SIGKILL) after a random time. Then
the store is opened by `boost show`: the counter must hold at least what was told, and at most one addition more for each
client. A second `boost show` and a `boost check` must find the same, and nothing unfinished.

It is no part of the gate, which runs each program to its end. It prints how many runs there were, and how many additions were told.
"""
import os
import random
import re
import signal
import subprocess
import sys
import tempfile
import time

TOP = os.path.dirname(os.path.dirname(os.path.realpath(__file__)))
WORKLOADS = os.path.join(TOP, "crates/workloads/out/workloads")
BOOST = os.path.join(TOP, "crates/boost_main/out/boost_main")


def told_before_the_kill(folder, clients, seconds):
    """Runs the program for so long, kills it, and counts what it told."""
    with open(os.path.join(folder, "told"), "w+b") as out:
        words = [WORKLOADS, "bench", "told", "counter", str(clients), "1000000000", "3600", folder]
        program = subprocess.Popen(words, stdout=out)
        time.sleep(seconds)
        program.send_signal(signal.SIGKILL)
        program.wait()
        out.seek(0)
        lines = out.read().split(b"\n")[:-1]
    last = {}
    for line in lines:
        client, count = map(int, line.split())
        last[client] = max(count, last.get(client, 0))
    return sum(last.values())


def boost(*words):
    done = subprocess.run([BOOST, *words], capture_output=True, text=True)
    if done.returncode != 0:
        raise SystemExit(f"kills: boost {' '.join(words)}: status {done.returncode}: {done.stderr.strip()}")
    return done.stdout


def shown(disk):
    """What the counter holds; 0 where its making was not kept."""
    found = re.search(r"^counter hits\n  (-?\d+)$", boost("show", disk), re.M)
    return int(found.group(1)) if found else 0


def main():
    times = int(sys.argv[1]) if len(sys.argv) > 1 else 200
    clients = int(sys.argv[2]) if len(sys.argv) > 2 else 8
    told, torn = 0, 0
    for run in range(times):
        with tempfile.TemporaryDirectory() as folder:
            known = told_before_the_kill(folder, clients, random.uniform(0.02, 0.6))
            disks = [name for name in os.listdir(folder) if name != "told"]
            if not disks:
                continue
            disk = os.path.join(folder, disks[0])
            if known == 0 and boost_is_none(disk):
                continue
            torn += "unfinished" in boost("check", disk) and not re.search(r" 0 unfinished", boost("check", disk))
            first, second = shown(disk), shown(disk)
            if not known <= first <= known + clients or first != second:
                raise SystemExit(f"kills: run {run}: told {known}, shown {first}, then {second}")
            if " 0 unfinished" not in boost("check", disk):
                raise SystemExit(f"kills: run {run}: unfinished behind an opening")
            told += known
    print(f"{times} kills, {told} additions told, each of them there; {torn} left unfinished transactions")


def boost_is_none(disk):
    """Whether the kill came before the file was a store."""
    return subprocess.run([BOOST, "check", disk], capture_output=True).returncode != 0


if __name__ == "__main__":
    main()
