#!/usr/bin/env python3
"""script.py: tries the script `boost` itself: its words that the program does not know, what it makes of a folder for `listen`, and
where it can unpack and build nothing."""
import os
import shutil
import stat
import subprocess
import sys
import tempfile
import time

TOP = os.path.dirname(os.path.dirname(os.path.realpath(__file__)))
BOOST = os.path.join(TOP, 'boost')


def ran(*words, **how):
    """The status, the output and the errors of the script, which has ten seconds: so it builds nothing."""
    done = subprocess.run([BOOST, *words], stdout=subprocess.PIPE, stderr=subprocess.PIPE, text=True, timeout=10, check=False,
                          **{'stdin': subprocess.DEVNULL, **how})
    return done.returncode, done.stdout, done.stderr


def expect(is_so, found):
    if not is_so:
        raise SystemExit(f'script: {found!r}')


def words_of_the_script():
    for word in ('--help', '-h'):
        found = ran('build', word)
        expect(found[0] == 0 and '\n  build  ' in found[1] and not found[2], found)
    expect(ran('build', 'all')[0] == 2, 'boost build all')
    expect(ran('version') == ran('--version') and ran('version')[1].startswith('boost '), ran('version'))
    expect('\n  build  ' in ran('help')[1], ran('help'))
    expect(os.access(ran('which')[1].strip(), os.X_OK), ran('which'))
    expect(ran('--quiet', 'nonsense')[0] == 2, ran('--quiet', 'nonsense'))


def a_door(room):
    """`listen` makes the folder and its door; a plain file in the place of the door is put aside."""
    disk, folder = os.path.join(room, 'disk'), os.path.join(room, 'run')
    door = os.path.join(folder, 'door')
    expect(ran('format', disk, '--area', '64K')[0] == 0, 'format')
    os.mkdir(folder)
    with open(door, 'w', encoding='utf-8') as file:
        file.write('end\n')
    server = subprocess.Popen([BOOST, 'listen', disk, folder, '--idle', '5'], stdin=subprocess.DEVNULL, stderr=subprocess.PIPE, text=True)
    said = server.stderr.readline()
    expect(said.endswith('it is %s.aside now\n' % door), said)
    while not os.path.exists(door):
        time.sleep(0.01)
    expect(stat.S_ISFIFO(os.stat(door).st_mode), 'a door that is no FIFO')
    with open(door, 'w', encoding='utf-8') as file:
        file.write('\nend\n')
    expect(server.wait(10) == 0 and sorted(os.listdir(folder)) == ['door', 'door.aside'], os.listdir(folder))
    server.stderr.close()


def make_tree(room):
    """A tree as this one, of links, in which nothing was built. Its script."""
    for name in ('tools', 'release', 'crates.txt', 'HANDLES'):
        os.symlink(os.path.join(TOP, name), os.path.join(room, name))
    for name in os.listdir(os.path.join(TOP, 'crates')):
        os.makedirs(os.path.join(room, 'crates', name))
        for part in os.listdir(os.path.join(TOP, 'crates', name)):
            if part != 'out':
                os.symlink(os.path.join(TOP, 'crates', name, part), os.path.join(room, 'crates', name, part))
    return shutil.copy(BOOST, room)


def a_crate_of_ones_own(room):
    """One that stands beside, with its line in crates.txt, has nothing built again."""
    script, out = make_tree(room), os.path.join(room, 'crates', 'boost_main', 'out')
    os.makedirs(out)
    shutil.copy(ran('which')[1].strip(), os.path.join(out, 'released'))
    with open(os.path.join(TOP, 'crates.txt'), encoding='utf-8') as file:
        lines = file.read()
    os.unlink(os.path.join(room, 'crates.txt'))
    with open(os.path.join(room, 'crates.txt'), 'w', encoding='utf-8') as file:
        file.write(lines + 'mine: anyhow fizgaloms\n')
    os.makedirs(os.path.join(room, 'crates', 'mine', 'src'))
    with open(os.path.join(room, 'crates', 'mine', 'src', 'main.rt'), 'w', encoding='utf-8') as file:
        file.write('fn main() {}\n')
    done = subprocess.run([script, 'which'], stdout=subprocess.PIPE, stderr=subprocess.PIPE, text=True, timeout=30, check=False)
    expect((done.returncode, done.stdout, done.stderr) == (0, os.path.join(out, 'released') + '\n', ''), done)


def nothing_can_be_written(room):
    """Where the program cannot be unpacked, as the folder is another user's, that is told in a line, with the status of the script."""
    script = make_tree(room)
    open(os.path.join(room, 'crates', 'boost_main', 'out'), 'w', encoding='utf-8').close()
    unpacked, built = 'boost: the program cannot be unpacked: ', 'boost: the program was not built: '
    for whys in ((unpacked, built), (built,)):     # (the release may be of other sources)
        done = subprocess.run([script, '--quiet', '--version'], stdout=subprocess.PIPE, stderr=subprocess.PIPE, text=True, timeout=30,
                              check=False)
        expect(done.returncode == 5 and done.stderr.startswith(whys) and done.stderr.count('\n') == 1, done)
        if os.path.exists(os.path.join(room, 'release')):
            os.unlink(os.path.join(room, 'release'))


def main():
    words_of_the_script()
    for check in (a_door, a_crate_of_ones_own, nothing_can_be_written):
        with tempfile.TemporaryDirectory() as room:
            check(room)
    print('the words of the script, its door, a crate beside, and a folder that cannot be written')


if __name__ == '__main__':
    sys.exit(main())
