#!/usr/bin/env python3
"""test.py [--gate | WORD ..]: runs all tests that need no proof, on the program of `./boost`: the pages, what clients and servers may do
and suffer, the unit's commands, cuts of the power. With words it runs the tests whose names contain one of them; with `--gate` those
with which the gate begins, which are the ones that hang by no time.

Two run side by side. A line tells what each came to and how long it took; what one printed that failed is shown. The status is 1 then.
What a machine has not got (cc, dpkg-deb, FUSE with python3-fusepy, a loop device, another user) its test says, and passes.
"""
import os
import shutil
import subprocess
import sys
import time
from concurrent.futures import ThreadPoolExecutor

TOP = os.path.dirname(os.path.dirname(os.path.realpath(__file__)))
BOOST = os.path.join(TOP, 'boost')
# The program itself, where a test closes the streams that the script `boost` would want.
PROGRAM = 'PROGRAM'

TESTS = {
    'definitions': ['tools/definitions.py', '--check'],
    'crates that pages name': ['tools/crates_cited.py'],
    'the walk through a disk': ['tools/walk.py'],
    'the commands of the pages': ['tools/readme.py'],
    'the examples in Python': ['tools/listeners.py', BOOST, '20', 'the_examples_in_python'],
    'the examples in C': ['tools/listeners.py', BOOST, '20', 'the_examples_in_c', 'a_long_value_in_c',
                          'tried_once_in_c'],
    'listeners': ['tools/listeners.py', BOOST, '20'],
    'the script boost': ['tools/script.py'],
    'the program on files': ['tools/program_cases.py', PROGRAM],
    'long scripts on files': ['tools/program_cases.py', PROGRAM, 'tools/data/long_cases'],
    'closed streams': ['tools/closed_streams.py', PROGRAM],
    'paths and scripts that mean harm': ['tools/attacks.py', PROGRAM],
    'the door': ['tools/door_attacks.py', PROGRAM],
    'who waits for work': ['tools/waiting.py', PROGRAM],
    'a full store': ['tools/full_store.py', PROGRAM],
    'refused syncs and memory': ['tools/refused.py', PROGRAM],
    'what takes long': ['tools/progress.py', PROGRAM],
    'the client in Python': ['-m', 'unittest', 'discover', '-s', 'clients/python/tests'],
    'attacks on the client in Python': ['tools/client_attacks.py', BOOST],
    'the client in C': ['tools/c_attacks.py'],
    'installing it': ['tools/install_test.py'],
    'the page of a server': ['tools/page_test.py'],
    'who watches a server': ['tools/status_test.py', PROGRAM],
    'the unit, and boost-attach': ['tools/service.py'],
    'the gate': ['tools/gate_attacks.py', PROGRAM],
    'the programs at the gate': ['tools/gate_programs.py', PROGRAM],
    'moves of a part': ['tools/move_attacks.py', PROGRAM],
    'the standby': ['tools/standby.py', PROGRAM],
    'cuts of the power': ['tools/power.py', '10'],
    'snapshots of the file system': ['tools/snapshots.py'],
    'all attacks at once': ['tools/mixed_attacks.py', '60', PROGRAM, '--full-serves-on'],
}

# The gate begins with these.
GATE = ('definitions', 'crates that pages name', 'the walk through a disk', 'the commands of the pages', 'the examples in Python',
        'the examples in C', 'the script boost', 'the program on files', 'closed streams', 'a full store', 'refused syncs and memory',
        'the client in Python', 'the client in C', 'the programs at the gate')

# These compile something.
WITH_CC = ('the client in C', 'the examples in C', 'what takes long', 'the gate', 'the programs at the gate', 'all attacks at once')


def lacking(name):
    """What the machine has not got for a test."""
    if name in WITH_CC and not shutil.which('cc'):
        return 'no cc'
    if name == 'cuts of the power' and not (os.path.exists('/dev/fuse') and os.geteuid() == 0 and
                                            os.path.exists('/usr/lib/python3/dist-packages/fusepy.py')):
        return 'no FUSE for Python, or not root'
    return None


def run(name, program):
    """Runs a test: whether it passed, in how many seconds, and what it printed."""
    began = time.monotonic()
    words = [program if word == PROGRAM else word for word in TESTS[name]]
    ran = subprocess.run([sys.executable, *words], cwd=TOP, stdin=subprocess.DEVNULL, stdout=subprocess.PIPE,
                         stderr=subprocess.STDOUT, text=True, errors='replace', timeout=1800, check=False)
    return ran.returncode == 0, time.monotonic() - began, ran.stdout


def main(words):
    names = GATE if words == ['--gate'] else [name for name in TESTS if not words or any(word in name for word in words)]
    # (built here, before the tests that want it)
    program = subprocess.run([BOOST, 'which'], stdout=subprocess.PIPE, text=True, check=True).stdout.strip()
    failed = 0
    with ThreadPoolExecutor(2) as side_by_side:
        begun = {name: side_by_side.submit(run, name, program) for name in names if not lacking(name)}
        for name in names:
            if name not in begun:
                print(f'{name}: not run: {lacking(name)}', flush=True)
                continue
            is_passed, seconds, printed = begun[name].result()
            print(f'{name}: {"passed" if is_passed else "FAILED"}, {seconds:.0f} s', flush=True)
            if not is_passed:
                print(printed, flush=True)
            failed += not is_passed
    return 1 if failed else 0


if __name__ == '__main__':
    sys.exit(main(sys.argv[1:]))
