#!/usr/bin/env python3
"""sparse.py PROGRAM: a store of format 2 with areas of 2^33 bytes, in a sparse file.

A script puts values of 1,024 bytes into a map, takes a checkpoint, which writes the image into the second area, and puts one
more behind it, so bytes above 2^33 are written, and read again by each opening. Looks at these bytes, at what the program
shows, and at what it tells of the store; then stops short of the last turn, and looks again. The status is 0 where all is as
it must be, else 1. It needs a file system with sparse files, on which the file takes some pages.
"""
import os
import subprocess
import sys
import tempfile

AREA = 1 << 33
SECOND = 4096 + AREA
VALUE = 'ab' * 1024


def boost(program, *words):
    """What the program prints, where it ends with status 0."""
    done = subprocess.run([program, *words], capture_output=True, text=True, check=False)
    if done.returncode or done.stderr:
        sys.exit(f'{words[0]}: status {done.returncode}: {done.stderr.strip()}')
    return done.stdout


def play(program, folder, disk, lines):
    script = os.path.join(folder, 'script')
    with open(script, 'w', encoding='ascii') as file:
        file.write('\n'.join(lines) + '\n')
    return boost(program, 'play', disk, script)


def bytes_at(disk, place, count):
    with open(disk, 'rb') as file:
        file.seek(place)
        return file.read(count)


def put(key):
    return ['c1 begin', f'c1 call m put {key} {VALUE}', 'c1 commit']


def main():
    program = os.path.abspath(sys.argv[1])
    faults = []

    def look(what, is_so):
        print(f'{what}: {"yes" if is_so else "NO"}')
        if not is_so:
            faults.append(what)

    with tempfile.TemporaryDirectory() as folder:
        disk = os.path.join(folder, 'store')
        boost(program, 'format', disk, '--area', str(AREA), '--format', '2')
        look('the file has its size', os.path.getsize(disk) == 4096 + 2 * AREA)
        play(program, folder, disk, ['c1 make map m', *put(1), 'turn', 'checkpoint', *put(2), 'turn'])
        look('the second area is in use', bytes_at(disk, 512, 1) == b'\1')
        image = bytes_at(disk, SECOND, 4096)
        look('the image and the journal stand above 2^33', image[0] == 0xa7 and image.count(b'\xab') >= 2048)
        shown = f'map m\n  1 {VALUE}\n  2 {VALUE}\n'
        look('both values are shown', boost(program, 'show', disk) == shown)
        told = boost(program, 'stat', disk)
        look('the area is told', str(AREA) in told.split())
        play(program, folder, disk, [*put(3), 'turn', *put(4)])
        look('the third value is shown, and the fourth, behind the last turn, is not',
             boost(program, 'show', disk) == shown + f'  3 {VALUE}\n')
        look('few pages are taken', os.stat(disk).st_blocks * 512 < 1 << 20)
    sys.exit(1 if faults else 0)


if __name__ == '__main__':
    main()
