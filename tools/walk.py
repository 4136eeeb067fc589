#!/usr/bin/env python3
"""walk.py: compares the walk through a disk at the end of docs/FORMAT.md with what the case of this name reads.

Each line of the walk is a place and the bytes that stand there, and one behind it is where those of the line before end. The
case `the walk of docs/FORMAT.md` of crates/cases/stdout reads a disk that the program made. The status is 0 where each byte of
the page is read there, and each byte that is read stands on the page.
"""
import os
import re
import sys

TOP = os.path.dirname(os.path.dirname(os.path.abspath(__file__)))
CASE = '@ the walk of docs/FORMAT.md'
LINE = re.compile(r'^ *(\d+) +((?:[0-9a-f]{2})+(?: (?:[0-9a-f]{2})+)*)(?: {2,}|$)')


def read(*path):
    """The lines of a file of the repository."""
    with open(os.path.join(TOP, *path), encoding='utf-8') as file:
        return file.read().splitlines()


def page():
    """The bytes of the page's last block, by place."""
    lines = read('docs', 'FORMAT.md')
    fences = [number for number, line in enumerate(lines) if line == '```']
    places = {}
    for line in lines[fences[-2] + 1:fences[-1]]:
        match = LINE.match(line)
        if match:
            bytes_there = bytes.fromhex(match[2].replace(' ', ''))
            for place, value in enumerate(bytes_there, int(match[1])):
                if place in places:
                    sys.exit(f'docs/FORMAT.md has byte {place} twice')
                places[place] = value
    return places


def disk():
    """What the case reads, by place."""
    lines = read('crates', 'cases', 'stdout')
    at = lines.index(CASE)
    places = {}
    for line, told in zip(lines[at + 1:], lines[at + 2:]):
        if line.startswith('@ '):
            break
        if line.startswith('read '):
            places.update(enumerate(bytes.fromhex(told), int(line.split()[1])))
    return places


def main():
    told, there = page(), disk()
    unlike = sorted(place for place in told.keys() | there.keys() if told.get(place) != there.get(place))
    for place in unlike:
        print(f'byte {place}: docs/FORMAT.md has {told.get(place)}, the disk {there.get(place)}')
    print(f'docs/FORMAT.md: {len(told)} bytes, {len(unlike)} otherwise')
    sys.exit(1 if unlike else 0)


if __name__ == '__main__':
    main()
