#!/usr/bin/env python3
"""release.py: packs the proved program with the sum of the sources that it was proved from, for `./boost`.

    release.py make        packs crates/boost_main/out/boost_main into release/, for who has just seen `rt ci` pass
    release.py unpack      leaves the released program as crates/boost_main/out/released, with status 0, where the sources have that
                           sum; else status 1, and 5 where it cannot be written there
    release.py check [PROGRAM]   compares the program that the gate built with the released one, byte for byte, where the sums agree

The sum is over the files of src/, specs/ and proofs/ of each crate that the program stands on, their lines of crates.txt, and HANDLES.
"""
import hashlib
import lzma
import os
import sys

TOP = os.path.dirname(os.path.dirname(os.path.abspath(__file__)))
sys.path.insert(0, os.path.join(TOP, 'tools'))
from crates import crates_up_to, dependencies

PACKED = os.path.join(TOP, 'release', 'boost.xz')
SUM = os.path.join(TOP, 'release', 'sources')
OUT = os.path.join(TOP, 'crates', 'boost_main', 'out')


def files_of(crate):
    """The files that a proof of the crate reads, by rising name."""
    return sorted(os.path.join(at, name) for part in ('src', 'specs', 'proofs')
                  for at, _, names in os.walk(os.path.join(TOP, 'crates', crate, part)) for name in names)


def sum_of_sources():
    """The sum of all that the program is proved from."""
    needs = dependencies()
    whole = hashlib.sha256()
    with open(os.path.join(TOP, 'HANDLES'), 'rb') as file:
        whole.update(file.read())
    for crate in sorted(crates_up_to('boost_main', needs)):
        whole.update(f'{crate}: {" ".join(needs[crate])}\n'.encode())
        for path in files_of(crate):
            with open(path, 'rb') as file:
                whole.update(f'{os.path.relpath(path, TOP)}\n{hashlib.sha256(file.read()).hexdigest()}\n'.encode())
    return whole.hexdigest()


def is_of_these_sources():
    """Whether a program is released that was proved from the sources that are here."""
    if not os.path.exists(SUM) or not os.path.exists(PACKED):
        return False
    with open(SUM, encoding='utf-8') as file:
        return file.read().strip() == sum_of_sources()


def released():
    with lzma.open(PACKED) as file:
        return file.read()


def make():
    with open(os.path.join(OUT, 'boost_main'), 'rb') as file:
        program = file.read()
    os.makedirs(os.path.dirname(PACKED), exist_ok=True)
    with open(PACKED, 'wb') as file:
        file.write(lzma.compress(program, preset=9 | lzma.PRESET_EXTREME))
    with open(SUM, 'w', encoding='utf-8') as file:
        file.write(sum_of_sources() + '\n')
    print(f'{len(program)} bytes, packed {os.path.getsize(PACKED)}')
    return 0


def unpack():
    if not is_of_these_sources():
        return 1
    try:
        os.makedirs(OUT, exist_ok=True)
        whole = os.path.join(OUT, f'released.{os.getpid()}')
        with open(whole, 'wb') as file:
            file.write(released())
        os.chmod(whole, 0o755)
        os.replace(whole, os.path.join(OUT, 'released'))
    except OSError as error:
        print(f'boost: the program cannot be unpacked: {error}: run ./boost once as who may write there', file=sys.stderr)
        return 5
    return 0


def check(program=os.path.join(OUT, 'boost_main')):
    if not is_of_these_sources():
        print('release: none of these sources')
        return 0
    with open(program, 'rb') as file:
        is_same = file.read() == released()
    print('release: the program that was built is the released one' if is_same else 'release: THE PROGRAM THAT WAS BUILT IS ANOTHER ONE')
    return 0 if is_same else 1


if __name__ == '__main__':
    if sys.argv[1:2] not in (['make'], ['unpack'], ['check']):
        sys.exit(__doc__)
    sys.exit({'make': make, 'unpack': unpack, 'check': check}[sys.argv[1]](*sys.argv[2:]))
