#!/usr/bin/env python3
"""install_test.py: installs by `./boost install` into a folder, tries what lies there, takes it away, and does the same with the Debian
package by dpkg, in a root of its own. It looks whether the manual page and the completion have each command and option that the
program's help has. Prints a line for each check; what a machine has not got (cc, pkg-config, man, dpkg-deb, root) it says.
"""
import gzip
import os
import re
import shutil
import subprocess
import sys
import tempfile

TOP = os.path.dirname(os.path.dirname(os.path.realpath(__file__)))
BOOST = os.path.join(TOP, 'boost')
FILES = {'bin/boost', 'bin/boost-attach', 'share/man/man1/boost.1.gz', 'share/man/man1/boost-attach.1.gz',
         'share/bash-completion/completions/boost', 'lib/systemd/system/boost.service'}
LIBRARY = {'include/boost_client/boost.h', 'lib/libboost_client.a', 'lib/pkgconfig/boost_client.pc'}
WANTED = FILES | LIBRARY if shutil.which('cc') and shutil.which('make') else FILES
LIST = 'share/fizgaloms/installed'
SECONDS = 300
# What dpkg has to know of the machine, so that the package's needs are met in a root where nothing is.
STATUS = 'Package: libc6\nStatus: install ok installed\nArchitecture: amd64\nMaintainer: nobody\nVersion: 2.36-9\nDescription: none\n\n'

USES = r'''
#include <boost.h>
#include <stdio.h>
int main(int count, char **words)
{
    struct boost *store = boost_start(words[count - 2], words[count - 1]);
    return !store || !boost_ask(store, "make counter hits") || puts(boost_ask(store, "keep hits bump 1")) < 0 || boost_close(store);
}
'''


def run(*words, **more):
    """What a command prints, that has to end with status 0."""
    ran = subprocess.run(words, stdout=subprocess.PIPE, stderr=subprocess.PIPE, stdin=subprocess.DEVNULL, text=True,
                         timeout=SECONDS, check=False, **more)
    assert ran.returncode == 0, (words, ran.stdout, ran.stderr)
    return ran.stdout


def boost(room, *words):
    return run(BOOST, *words, env={**os.environ, 'DESTDIR': room})


def tree(room):
    """All that lies in a room: its folders, and its files with what they hold."""
    found = {}
    for at, folders, names in os.walk(room):
        found.update({os.path.relpath(os.path.join(at, name), room): None for name in folders})
        for name in names:
            with open(os.path.join(at, name), 'rb') as file:
                found[os.path.relpath(os.path.join(at, name), room)] = file.read()
    return found


def files_below(room, prefix):
    return {path[len(prefix):] for path, held in tree(room).items() if held is not None and path.startswith(prefix)}


def what_is_installed_is_taken_away():
    """Nothing more lies there than was said, and behind an uninstall all is as it was before, with the files of others."""
    with tempfile.TemporaryDirectory() as room:
        for path in ('usr/local/bin/boosted', 'usr/local/share/man/man1/other.1', 'usr/local/lib/systemd/system/boost.service.d/mine.conf'):
            os.makedirs(os.path.dirname(os.path.join(room, path)), exist_ok=True)
            with open(os.path.join(room, path), 'w', encoding='utf-8') as file:
                file.write('of another one')
        before = tree(room)
        boost(room, 'install')
        others = {'bin/boosted', 'share/man/man1/other.1', 'lib/systemd/system/boost.service.d/mine.conf'}
        assert files_below(room, 'usr/local/') - others == WANTED | {LIST}, files_below(room, 'usr/local/')
        assert os.stat(f'{room}/usr/local/bin/boost').st_mode & 0o777 == 0o755
        boost(room, 'uninstall')
        assert tree(room) == before, set(tree(room)) ^ set(before)
        for words in (['uninstall'], ['install', 'here'], ['install', '/a b'], ['install', '/'], ['install', '/proc/no']):
            ran = subprocess.run([BOOST, *words], env={**os.environ, 'DESTDIR': room if len(words) == 1 else ''}, stderr=subprocess.PIPE,
                                 text=True, check=False)
            told = [line for line in ran.stderr.splitlines() if 'not proved' not in line]
            assert ran.returncode == 4 and len(told) == 1 and told[0].startswith('boost: '), ran
    return f'{len(WANTED)} files'


def an_older_one_is_replaced():
    """What an older install has put there, and this one has not, goes; and all goes with the uninstall."""
    with tempfile.TemporaryDirectory() as room:
        boost(room, 'install', '/srv/it')
        os.mkdir(f'{room}/srv/it/libexec')
        with open(f'{room}/srv/it/libexec/old', 'w', encoding='utf-8') as file:
            file.write('old')
        with open(f'{room}/srv/it/{LIST}', 'a', encoding='utf-8') as file:
            file.write('/srv/it/libexec/\n/srv/it/libexec/old\n')
        boost(room, 'install', '/srv/it')
        assert files_below(room, 'srv/it/') == WANTED | {LIST}
        boost(room, 'uninstall', '/srv/it')
        assert not os.listdir(room), tree(room)
    return 'one file was of another version'


def what_is_installed_runs():
    """The program, boost-attach, the unit's words, and a program in C that pkg-config finds the client for."""
    with tempfile.TemporaryDirectory() as room:
        prefix = os.path.join(room, 'it')
        run(BOOST, 'install', prefix, env={name: value for name, value in os.environ.items() if name != 'DESTDIR'})
        program, disk, built = f'{prefix}/bin/boost', f'{room}/disk', f'{room}/uses'
        run(program, 'format', disk, '--area', '64K')
        with open(f'{prefix}/lib/systemd/system/boost.service', encoding='utf-8') as file:
            named = set(re.findall(r'/[\w/.-]+/bin/boost[\w-]*', ''.join(line for line in file if not line.startswith('#'))))
        assert named == {program, program + '-attach'}, named
        if WANTED == FILES or not shutil.which('pkg-config'):
            return 'not tried in C: no cc, make or pkg-config'
        flags = run('pkg-config', '--cflags', '--libs', 'boost_client', env={**os.environ, 'PKG_CONFIG_PATH': f'{prefix}/lib/pkgconfig'})
        with open(built + '.c', 'w', encoding='utf-8') as file:
            file.write(USES)
        run('cc', '-Wall', '-Wextra', '-Werror', '-o', built, built + '.c', *flags.split())
        assert run(built, program, disk) == 'done; kept 2\n'
    return 'also in C'


def helped(program):
    """The options that the program's help has, by command; '' is for the program without one."""
    of_all = run(program, '--help')
    commands = re.findall(r'^  (\w+) ', of_all, re.MULTILINE)
    assert len(commands) > 10
    options = {command: set(re.findall(r'^ +(?:-\w, )?(--[\w-]+)', run(program, command, '--help'), re.MULTILINE))
               for command in commands if command != 'help'}
    return {'': set(re.findall(r'(--[\w-]+)', of_all)), **options}


def the_manual_has_all_of_the_help():
    program = run(BOOST, 'which').strip()
    with tempfile.TemporaryDirectory() as room:
        boost(room, 'install')
        pages = {name: f'{room}/usr/local/share/man/man1/{name}.1.gz' for name in ('boost', 'boost-attach')}
        with gzip.open(pages['boost'], 'rt', encoding='utf-8') as file:
            page = file.read().replace('\\-', '-')
        options = helped(program)
        for command, names in options.items():
            if command:
                start = page.index(f'\n.SS boost {command}')
                part = page[start:page.find('\n.S', start + 1)]
                assert names - {'--help'} == set(re.findall(r'^\.B (--[\w-]+)', part, re.MULTILINE)), (command, part)
        if not shutil.which('man'):
            return 'not shown: no man'
        for path in pages.values():
            ran = subprocess.run(['man', '--warnings', '-l', path], stdout=subprocess.PIPE, stderr=subprocess.PIPE, check=False)
            assert ran.returncode == 0 and not ran.stderr and len(ran.stdout) > 400, ran
    return f'{len(options) - 1} commands, {sum(map(len, options.values()))} options'


def completed(folder, *words):
    """What bash completes the last word to."""
    script = ('source "$1"; shift; COMP_WORDS=("$@"); COMP_CWORD=$(($# - 1)); _boost; printf "%s\\n" "${COMPREPLY[@]}"; '
              'complete -p boost >/dev/null')
    told = run('bash', '-c', script, 'bash', os.path.join(TOP, 'contrib', 'boost.bash'), *words, cwd=folder)
    return set(told.splitlines()) - {''}


def the_completion_knows_the_help():
    options = helped(run(BOOST, 'which').strip())
    own = {'build', 'test', 'which', 'status', 'install', 'uninstall', '--quiet'}
    with tempfile.TemporaryDirectory() as folder:
        for name in ('my store', 'mine'):
            open(os.path.join(folder, name), 'w', encoding='utf-8').close()
        assert completed(folder, 'boost', '') == set(options) - {''} | {'help'}
        assert completed(folder, BOOST, '') == set(options) - {''} | {'help'} | own
        assert completed(folder, 'boost', '-') == options['']
        for command, names in options.items():
            if command:
                assert completed(folder, 'boost', command, '-') == names, command
                assert completed(folder, 'boost', 'help', command) >= {command}
        assert completed(folder, 'boost', 'listen', '--idle', '30', 'm') == {'my store', 'mine'}
        assert completed(folder, 'boost', 'copy', 'mine', 'my ') == {'my store'}
        assert completed(folder, 'boost', 'format', '--format', '') == {'1', '2'} and not completed(folder, 'boost', 'demo', '')
    return f'{len(options) - 1} commands'


def the_package():
    """The package has what `install` installs, dpkg installs it, and removes all of it."""
    if not shutil.which('dpkg-deb'):
        return 'not tried: no dpkg-deb'
    with tempfile.TemporaryDirectory() as room:
        package = run(os.path.join(TOP, 'tools', 'package.sh'), room).strip()
        root = os.path.join(room, 'root')
        os.makedirs(f'{root}/var/lib/dpkg/info')
        os.mkdir(f'{root}/var/lib/dpkg/updates')
        with open(f'{root}/var/lib/dpkg/status', 'w', encoding='utf-8') as file:
            file.write(STATUS)
        if os.geteuid() != 0:
            return f'{os.path.basename(package)}; not installed: not root'
        dpkg = ('dpkg', f'--root={root}', '--log=/dev/null')
        run(*dpkg, '-i', package)
        assert files_below(root, 'usr/') == WANTED, files_below(root, 'usr/')
        version = run(f'{root}/usr/bin/boost', '--version').split()[1]
        assert run('dpkg-query', f'--admindir={root}/var/lib/dpkg', '-W', 'fizgaloms') == f'fizgaloms\t{version}\n'
        run(*dpkg, '-r', 'fizgaloms')
        assert not files_below(root, 'usr/'), tree(root)
    return f'{os.path.basename(package)} installed and removed'


def main():
    for check in (what_is_installed_is_taken_away, an_older_one_is_replaced, what_is_installed_runs, the_manual_has_all_of_the_help,
                  the_completion_knows_the_help, the_package):
        print(f'{check.__name__}: {check()}', flush=True)


main()
