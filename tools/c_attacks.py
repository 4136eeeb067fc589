#!/usr/bin/env python3
"""c_attacks.py [PROGRAM]: tries what may happen to a program with the client in C: signals, lines that are none, a server that stands
still, links in the place of FIFOs, a fork, closed streams, descriptors that are left. PROGRAM is the store's, `./boost` if none is named. It wants cc."""
import os
import subprocess
import sys
import tempfile

TOP = os.path.dirname(os.path.dirname(os.path.realpath(__file__)))
PROGRAM = os.path.realpath(sys.argv[1]) if sys.argv[1:] else os.path.join(TOP, 'boost')


def main():
    with tempfile.TemporaryDirectory() as room:
        built, disk = os.path.join(room, 'c_attacks'), os.path.join(room, 'disk')
        sources = [os.path.join(TOP, 'tools', 'c_attacks.c'), os.path.join(TOP, 'clients', 'c', 'boost.c')]
        subprocess.run(['cc', '-Wall', '-Wextra', '-Werror', '-Wno-unused-result', '-O1', '-fsanitize=address,undefined', '-o', built,
                        *sources], check=True)
        subprocess.run([PROGRAM, 'format', disk, '--area', '65536'], check=True)
        return subprocess.run([built, PROGRAM, disk], timeout=300, check=False).returncode


if __name__ == '__main__':
    sys.exit(main())
