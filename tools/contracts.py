#!/usr/bin/env python3
"""contracts.py OLD NEW: compares the contracts of the public functions of two trees, each a folder of this repository.

It prints which functions are gone, which are new, and of each other one the clauses that it lost and those that it got. A
clause that was only laid out otherwise is the same. It is no part of the gate: run it before a change lands that is to keep
all promises. The status is 1 where a function or a clause is gone.
"""
import glob
import os
import re
import sys

FUNCTION = re.compile(r'( *)pub (?:const )?fn (\w+)')
CLAUSE = re.compile(r'(?:ensures|requires)\b.*?(?= ensures\b| requires\b|$)')


def signature(lines, at, pad):
    """The lines from a function's head up to its body."""
    taken = []
    for line in lines[at:]:
        taken.append(line.strip())
        is_one_line = line.rstrip().endswith((') {', '> {', '{}')) and not taken[-1].startswith('ensures')
        if line.rstrip() in (pad + '{', pad + '{}') or is_one_line:
            break
    text = ' '.join(line for line in taken if not line.startswith('//'))
    return re.sub(r' \{\}?$', '', text)


def contracts(root):
    """Each public function, by its file and name, with the clauses of all that have the name there."""
    found = {}
    for path in sorted(glob.glob(os.path.join(root, 'crates', '*', 'src', '**', '*.rt'), recursive=True)):
        with open(path, encoding='utf-8') as file:
            lines = file.read().split('\n')
        for at, line in enumerate(lines):
            head = FUNCTION.match(line)
            if head:
                key = os.path.relpath(path, root), head[2]
                found.setdefault(key, []).extend(CLAUSE.findall(signature(lines, at, head[1])))
    return found


def main():
    old, new = contracts(sys.argv[1]), contracts(sys.argv[2])
    lost = [key for key in old if key not in new]
    for key in lost:
        print('gone', *key)
    for key in new:
        if key not in old:
            print('new', *key)
            continue
        less = [clause for clause in old[key] if clause not in new[key]]
        more = [clause for clause in new[key] if clause not in old[key]]
        lost += less
        for clause in less:
            print(*key, '-', clause)
        for clause in more:
            print(*key, '+', clause)
    print(f'{len(old)} public functions, and {len(new)}; {len(lost)} functions or clauses gone')
    return 1 if lost else 0


if __name__ == '__main__':
    sys.exit(main())
