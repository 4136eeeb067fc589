#!/usr/bin/env python3
"""install.py install [PREFIX] | uninstall [PREFIX]: what `boost install` and `boost uninstall` do, under /usr/local if no PREFIX is named.

`install` puts the program that `./boost which` names, boost-attach, the client in C (where cc and make are there), manual pages, bash
completion and the unit for systemd where they belong under PREFIX, and keeps a list of them and of the folders that it made for them
in share/fizgaloms/installed. `uninstall` takes away what stands in that list, and nothing else. All goes into the folder $DESTDIR, if one is
named. `install.py stage PREFIX FOLDER` puts the same files into FOLDER, without a list, for tools/package.sh.
"""
import contextlib
import gzip
import os
import re
import shutil
import subprocess
import sys
import tempfile

TOP = os.path.dirname(os.path.dirname(os.path.realpath(__file__)))
sys.path.insert(0, os.path.join(TOP, 'tools'))
sys.dont_write_bytecode = True
from man import attach_page, page_of  # noqa: E402

LIST = 'share/fizgaloms/installed'
UNIT_PREFIX = '/usr/local'


class Failed(Exception):
    """What was asked for cannot be done, and why."""


def read(*path):
    with open(os.path.join(TOP, *path), 'rb') as file:
        return file.read()


def put(path, data, mode=0o644):
    """Makes a file, whole: who runs the one that lies there goes on with that."""
    whole = f'{path}.{os.getpid()}'
    with open(whole, 'wb') as file:
        os.fchmod(file.fileno(), mode)
        file.write(data)
    os.replace(whole, path)


def unit_of(prefix):
    """The unit, with the programs where they are installed."""
    text = read('contrib', 'boost.service').decode()
    text = text.replace(f'{UNIT_PREFIX}/bin/boost', f'{prefix}/bin/boost')
    return text.replace('echo bye | boost-attach ', f'echo bye | {prefix}/bin/boost-attach ').encode()


def stage_library(prefix, room):
    """Has the Makefile of the client in C install it into a room. The sources stay as they are."""
    if not shutil.which('cc') or not shutil.which('make'):
        print('boost: the client in C is left out, as there is no cc or no make', file=sys.stderr)
        return
    with tempfile.TemporaryDirectory() as folder:
        for name in ('boost.c', 'boost.h', 'Makefile'):
            shutil.copy(os.path.join(TOP, 'clients', 'c', name), folder)
        subprocess.run(['make', '-s', '-C', folder, 'install', f'PREFIX={prefix}', f'DESTDIR={room}'], stdout=subprocess.DEVNULL, check=True)


def stage(prefix, room):
    """Puts all files into a room, each where it will lie, and gives their paths there."""
    program = subprocess.run([os.path.join(TOP, 'boost'), 'which'], stdout=subprocess.PIPE, text=True, check=True).stdout.strip()
    files = {
        'bin/boost': (read(program), 0o755),
        'bin/boost-attach': (read('clients', 'shell', 'boost-attach'), 0o755),
        'share/man/man1/boost.1.gz': (gzip.compress(page_of(program).encode(), mtime=0), 0o644),
        'share/man/man1/boost-attach.1.gz': (gzip.compress(attach_page().encode(), mtime=0), 0o644),
        'share/bash-completion/completions/boost': (read('contrib', 'boost.bash'), 0o644),
        'lib/systemd/system/boost.service': (unit_of(prefix), 0o644),
    }
    for name, (data, mode) in files.items():
        path = f'{room}{prefix}/{name}'
        os.makedirs(os.path.dirname(path), exist_ok=True)
        put(path, data, mode)
    stage_library(prefix, room)
    return sorted(os.path.join(at, name)[len(room):] for at, _, names in os.walk(room) for name in names)


def make_folders(root, path):
    """Makes the folders of a path below a root, and gives those that were not there."""
    missing = []
    os.makedirs(root or '/', exist_ok=True)
    while not os.path.isdir(root + path):
        missing.append(path + '/')
        path = os.path.dirname(path)
    for folder in reversed(missing):
        os.mkdir(root + folder)
        os.chmod(root + folder, 0o755)
    return missing


def listed(root, prefix):
    """What the list of an earlier install has: files, and folders with a slash at the end. None where there is no list."""
    try:
        with open(f'{root}{prefix}/{LIST}', encoding='utf-8') as file:
            return file.read().splitlines()
    except FileNotFoundError:
        return None


def take_away(root, lines):
    """Takes files away, and then those of the folders that are empty."""
    for line in lines:
        if not line.endswith('/'):
            with contextlib.suppress(FileNotFoundError):
                os.unlink(root + line)
    for folder in sorted((line for line in lines if line.endswith('/')), key=len, reverse=True):
        with contextlib.suppress(OSError):
            os.rmdir(root + folder)


def install(root, prefix):
    before, with_list = listed(root, prefix) or [], f'{prefix}/{LIST}'
    with tempfile.TemporaryDirectory() as room:
        paths = stage(prefix, room)
        folders = [line for line in before if line.endswith('/')]
        for path in paths + [with_list]:
            folders += make_folders(root, os.path.dirname(path))
        put(root + with_list, ''.join(f'{line}\n' for line in sorted({*folders, *paths, *before, with_list})).encode())
        for path in paths:
            with open(room + path, 'rb') as file:
                put(root + path, file.read(), os.stat(room + path).st_mode & 0o777)
    take_away(root, [line for line in before if not line.endswith('/') and line not in (*paths, with_list)])
    put(root + with_list, ''.join(f'{line}\n' for line in sorted({*folders, *paths, with_list})).encode())
    print(f'{len(paths)} files under {root}{prefix}: boost uninstall takes them away')


def uninstall(root, prefix):
    lines = listed(root, prefix)
    if lines is None:
        raise Failed(f'nothing is installed: there is no {root}{prefix}/{LIST}')
    take_away(root, lines)
    print(f'{sum(not line.endswith("/") for line in lines) - 1} files were taken away under {root}{prefix}')


def main(words):
    if words[:1] not in (['install'], ['uninstall'], ['stage']) or len(words) > (3 if words[0] == 'stage' else 2):
        sys.exit(__doc__)
    prefix = os.path.normpath(words[1] if words[1:] else UNIT_PREFIX)
    if not re.fullmatch(r'(/[\w.+@-]+)+', prefix):
        raise Failed(f'the prefix {prefix} is no path from the root on, of letters, digits and . + @ _ -')
    if words[0] == 'stage':
        stage(prefix, words[2])
    else:
        root = os.environ.get('DESTDIR', '').rstrip('/')
        (install if words[0] == 'install' else uninstall)(os.path.abspath(root) if root else '', prefix)
    return 0


if __name__ == '__main__':
    try:
        sys.exit(main(sys.argv[1:]))
    except (Failed, OSError) as error:
        print(f'boost: {error}', file=sys.stderr)
        sys.exit(4)
