#!/usr/bin/env python3
"""gate_rates.py [PROGRAM] [--seconds S] [--rounds N]: how many transactions a second programs make over a gate, beside clients of the
door.

Each transaction bumps one counter, in C, by threads of one process: not waited for (`do`), and waited for (`keep`). All are measured in
turns, so many rounds, and the middle round is told: transactions a second, and within how many microseconds half and 99 of 100 were
answered. At the end the counter is compared with what was answered. PROGRAM is proved and built; it is the one of `./boost which`,
unless one is named. What else is at work says the load, which is told with it.
"""
import argparse
import json
import os
import subprocess
import tempfile
import time

TOP = os.path.dirname(os.path.dirname(os.path.realpath(__file__)))
LINES = ('do hits bump 1', 'keep hits bump 1')
PROGRAMS = (1, 8, 64, 512)
CLIENTS = (1, 8, 60)


def build(room, name, *words):
    built = os.path.join(room, name)
    subprocess.run(['cc', '-O2', '-o', built, *words], check=True)
    return built


def wait_for(is_so):
    end = time.monotonic() + 60
    while not is_so():
        assert time.monotonic() < end
        time.sleep(0.02)


def has_reader(door):
    try:
        os.close(os.open(door, os.O_WRONLY | os.O_NONBLOCK))
        return True
    except OSError:
        return False


def run(words, gate):
    """What the load tells, over a gate that is there only as long where that is the way: its seats are clients of the server."""
    running = subprocess.Popen(gate, stdin=subprocess.DEVNULL) if gate else None
    try:
        wait_for(lambda: not gate or os.path.exists(gate[-1]))
        return json.loads(subprocess.run(words, check=True, stdout=subprocess.PIPE, text=True).stdout)
    finally:
        if running:
            running.terminate()
            assert running.wait() == 0


def measure(load, places, gate, seconds, rounds):
    """The middle round for each way, number and line; and how many answers there were in all."""
    cases = [(way, number, line) for line in LINES for way, numbers in (('door', CLIENTS), ('gate', PROGRAMS)) for number in numbers]
    found = {case: [] for case in cases}
    for _ in range(rounds):
        for way, number, line in cases:
            words = [load, 'boost', places[way], str(number), str(seconds), '1', line, line]
            found[way, number, line].append(run(words, gate if way == 'gate' else None))
    total = sum(each['answers'] for rounds_of in found.values() for each in rounds_of)
    return {case: sorted(told, key=lambda each: each['rate'])[rounds // 2] for case, told in found.items()}, total


def main():
    parser = argparse.ArgumentParser()
    parser.add_argument('program', nargs='?')
    parser.add_argument('--seconds', type=float, default=1)
    parser.add_argument('--rounds', type=int, default=3)
    asked = parser.parse_args()
    program = asked.program or subprocess.run([os.path.join(TOP, 'boost'), 'which'], check=True, stdout=subprocess.PIPE,
                                              text=True).stdout.strip()
    sources = os.path.join(TOP, 'clients', 'gate')
    with tempfile.TemporaryDirectory() as room:
        load = build(room, 'load', os.path.join(TOP, 'tools', 'load.c'), '-lpthread')
        gate = build(room, 'gate', '-std=c11', *(os.path.join(sources, name) for name in sorted(os.listdir(sources))
                                                 if name.endswith('.c')))
        disk, folder, path = (os.path.join(room, name) for name in ('disk', 'run', 'socket'))
        door = os.path.join(folder, 'door')
        subprocess.run([program, 'format', disk, '--area', str(1 << 26)], check=True)
        subprocess.run([program, 'listen', disk], input=b'c1 make counter hits\n', stdout=subprocess.DEVNULL, check=True)
        os.mkdir(folder, 0o700)
        os.mkfifo(door, 0o600)
        server = subprocess.Popen([program, 'listen', disk, folder], stdin=subprocess.DEVNULL)
        try:
            wait_for(lambda: has_reader(door))
            print('load %.1f, %d processors' % (os.getloadavg()[0], os.cpu_count() or 0))
            found, total = measure(load, {'door': folder, 'gate': 'unix:' + path}, [gate, folder, path], asked.seconds, asked.rounds)
            with open(door, 'wb', buffering=0) as file:
                file.write(b'\nend\n')
            assert server.wait() == 0
        finally:
            server.kill()
            server.wait()
        words = subprocess.run([program, 'show', disk], check=True, stdout=subprocess.PIPE, text=True).stdout.split()
        assert int(words[words.index('hits') + 1]) == total, 'what was answered is not there'
    for (way, number, line), told in found.items():
        print('%-5s %-16s %4d: %7d a second, half within %5d, 99 of 100 within %6d' % (
            way, line, number, told['rate'], told['half_us'], told['most_us']))
    print('load %.1f' % os.getloadavg()[0])


if __name__ == '__main__':
    main()
