#!/usr/bin/env python3
"""remembering_rt.py WORD..: the toolchain's rt, which remembers the sum of each crate's files within one command, and shares
the crates below one that is checked, where they are all built, with other checks.

rt of kit 13b sums the files below a crate anew for each path in the graph of crates, some minutes for a crate high up. With
this a check of one crate takes what its proof does. And rt has one check at a time over a crate below; with this, many. `plant`
as the first word is rt's own plant, which else sums the same files for minutes before its first check. Edit nothing while it
runs. It is no gate: .ci/run calls rt itself.
"""
import fcntl
import importlib.machinery
import importlib.util
import os
import shutil
import sys

TOP = os.path.dirname(os.path.dirname(os.path.abspath(__file__)))


def toolchain():
    """rt as a module."""
    path = os.path.realpath(shutil.which("rt"))
    sys.path.insert(0, os.path.dirname(path))
    sys.dont_write_bytecode = True
    loader = importlib.machinery.SourceFileLoader("rt_of_the_kit", path)
    module = importlib.util.module_from_spec(importlib.util.spec_from_loader(loader.name, loader))
    loader.exec_module(module)
    return module


def remember(rtlib, is_steady=lambda folder: True):
    """Has the sum of a crate's files made once, where the folder is steady."""
    summed, sums = rtlib.Crate.stamp, {}

    def stamp(crate):
        folder = os.path.realpath(crate.folder)
        if not is_steady(folder):
            return summed(crate)
        if folder not in sums:
            sums[folder] = summed(crate)
        return sums[folder]

    rtlib.Crate.stamp = stamp


def plant():
    """Runs rt's plant, which is a script of its own. Its plants stand in the crate's folder, or in a copy elsewhere."""
    here = os.path.realpath(os.getcwd())
    path = os.path.join(os.path.dirname(os.path.realpath(shutil.which('rt'))), 'rt-plant')
    with open(path, encoding='utf-8') as file:
        text = file.read()
    loaded = 'rt, bodies = load("rtlib.py"), load("rt-plant-bodies")'
    if loaded not in text:
        sys.exit('remembering_rt.py: this kit has another plant')
    text = text.replace(loaded, loaded + '\nremember(rt)')
    sys.argv = [path] + sys.argv[2:]
    names = {'__name__': '__main__', '__file__': path,
             'remember': lambda rt: remember(rt, lambda folder: folder != here and folder.startswith(TOP))}
    exec(compile(text, path, 'exec'), names)


def main():
    if sys.argv[1:2] == ['plant']:
        return plant()
    rt = toolchain()
    remember(rt.rtlib)
    locked = rt.rtlib.lock

    def lock(crates):
        """Holds the last crate alone, and those before it together with others, where they are built."""
        if sys.argv[1] == 'all' or not all(crate.is_built() for crate in crates[:-1]):
            return locked(crates)
        held = [os.open(os.path.realpath(crate.folder), os.O_RDONLY) for crate in crates]
        for folder in held[:-1]:
            fcntl.flock(folder, fcntl.LOCK_SH)
        fcntl.flock(held[-1], fcntl.LOCK_EX)
        return held

    rt.rtlib.lock = lock
    return rt.main(sys.argv[1:])


if __name__ == "__main__":
    sys.exit(main())
