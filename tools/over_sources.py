#!/usr/bin/env python3
"""Checks functions of one crate over the sources of the crates below it, of which none has to be proved first.

  tools/over_sources.py CRATE FUNCTION [FUNCTION..]

A FUNCTION is a path as a check prints it, without the crate: keeper::Keeper::hold. What it calls is checked too.
Each open goal is printed with the names in reach. It says nothing of the crate as a whole: rt check and rt ci do.
What was checked is kept in out/over_sources of the crate, for the next call.
"""
import os
import subprocess
import sys

ROOT = os.path.dirname(os.path.dirname(os.path.abspath(__file__)))


def kit():
    """The folder of the toolchain."""
    page = subprocess.run(['rt', 'doc'], capture_output=True, text=True, check=True).stdout
    return os.path.dirname(page.strip())


def crates():
    """Each crate of the repository with the libraries that it names."""
    found = {}
    with open(os.path.join(ROOT, 'crates.txt'), encoding='utf-8') as file:
        for line in file:
            name, colon, libraries = line.partition('#')[0].partition(':')
            if colon:
                found[name.split()[0]] = libraries.split()
    return found


def below(crate, named, found):
    """The crates of the repository below one, the lowest first."""
    for library in named[crate]:
        if library in named and library not in found:
            below(library, named, found)
            found.append(library)
    return found


def words(crate, root, named):
    """How the checker is called."""
    lower = below(crate, named, [])
    of_kit = lambda it: [library for library in named[it] if library not in named]
    own = ['std', *of_kit(crate)]
    more = {'core', *(library for it in lower for library in of_kit(it))} - set(own)
    main = 'src/main.rt' if os.path.exists('src/main.rt') else 'src/lib.rt'
    called = [f'{root}/bin/rattle', 'check', '--crate-name', crate, main]
    for library in [*own, *sorted(more)]:
        called += ['--extern', f'{library}={root}/rlibs/{library}.rlib']
    called += ['-L', f'dependency={root}/rlibs']
    for it in lower:
        uses = dict.fromkeys(['core', 'std', *of_kit(it), *(x for x in named[it] if x in named)])
        called += ['--lib', f'{it}:{",".join(uses)}={ROOT}/crates/{it}/src/lib.rt']
    called += ['--antt-project', f'{root}/rattle/logic/antt-project.json']
    return [*called, '--logic-built', f'{root}/logic_built', '--links', f'{crate}=']


def main(arguments):
    if len(arguments) < 2:
        print(__doc__, file=sys.stderr)
        return 2
    crate, functions = arguments[0], arguments[1:]
    os.chdir(os.path.join(ROOT, 'crates', crate))
    os.makedirs('out/over_sources', exist_ok=True)
    called = words(crate, kit(), crates())
    called += ['--incremental', 'out/over_sources', '--jobs', '2', '--allow-holes']
    for it in functions:
        called += ['--only', it]
    return subprocess.run(called).returncode


if __name__ == '__main__':
    sys.exit(main(sys.argv[1:]))
