#!/usr/bin/env python3
"""adopt.py: puts the library of each crate that `rt ci` has kept on this machine where `rt check` looks for it.

By itself a check proves all crates below anew, though a run of `rt ci`, whole or by names, has proved the same files. It gives
no verdict: `rt ci` reads none of what this leaves.
"""
import os
import sys

sys.path.insert(0, os.path.dirname(os.path.abspath(__file__)))
from remembering_rt import TOP, remember, toolchain


def main():
    rt = toolchain()
    remember(rt.rtlib)
    rt.Crate.allowed = rt.handles_of(TOP)
    crates = rt.crates_of(TOP)
    kept = rt.Kept(crates)
    for crate in crates:
        if crate.is_program or any(below.name not in kept.rlibs for below in crate.below()):
            continue
        is_there = crate.is_built()
        if not is_there and kept.give(crate, False, kept.key(crate)):
            with open(os.path.join(crate.folder, 'out', 'rlib', 'stamp'), 'w', encoding='utf-8') as file:
                file.write(crate.stamp())
            is_there = True
            print(crate.name)
        if is_there:
            kept.is_built(crate)
    return 0


if __name__ == '__main__':
    sys.exit(main())
