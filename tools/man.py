#!/usr/bin/env python3
"""man.py PROGRAM: writes the manual page of the program, boost(1), to standard output. Its text is what `boost --help` and
`boost COMMAND --help` print, so it says of each command and each option what the program says itself.

    man.py --attach        writes boost-attach(1), from the remark at the head of clients/shell/boost-attach
"""
import os
import re
import subprocess
import sys

TOP = os.path.dirname(os.path.dirname(os.path.realpath(__file__)))
SERVING = ('The FOLDER of a server has to have a FIFO that is called door: mkdir -m 700 FOLDER && mkfifo -m 600 FOLDER/door. Who may '
           'write into the folder may read and write the store. Programs come to a server by the library in C, which is called '
           'boost_client, by the package boost for Python, or by boost-attach(1), which speaks line by line.')


def helped(program, *words):
    """What the program prints as its help."""
    return subprocess.run(['boost', *words], executable=program, stdout=subprocess.PIPE, text=True, check=True).stdout


def parts_of(text):
    """A help in parts: what it is about, its usage, and of each list, by name, the pairs of a term and what it means."""
    about, usage, lists, name = [], '', {}, None
    for line in text.splitlines():
        if line.startswith('Usage: '):
            usage = line[len('Usage: '):]
        elif re.fullmatch(r'\w+:', line):
            name = line[:-1]
            lists[name] = []
        elif line.startswith(' ') and name:
            term, gap, meaning = line.strip().partition('  ')
            if gap:
                lists[name].append((term, meaning.strip()))
            else:                                  # it goes on with the line before
                before, said = lists[name].pop()
                lists[name].append((before, said + ' ' + term))
        elif line and not usage:
            about.append(line)
    return ' '.join(about), usage, lists


def escaped(text):
    """A text as roff has it: a backslash and a hyphen are themselves, and no line is a request."""
    text = text.replace('\\', '\\e').replace('-', '\\-')
    return '\\&' + text if text[:1] in ("'", '.') else text


def listed(pairs):
    for term, meaning in pairs:
        yield '.TP'
        yield f'.B {escaped(term)}'
        yield escaped(meaning)


def section_of(program, command, about):
    """The lines of a command: its usage, and its arguments and options but for --help."""
    _, usage, lists = parts_of(helped(program, command, '--help'))
    yield f'.SS {escaped(usage)}'
    yield escaped(about + '.')
    for name in ('Arguments', 'Options'):
        yield from listed(pair for pair in lists.get(name, []) if '--help' not in pair[0])


def page_of(program):
    """The page boost(1) of a program."""
    about, _, lists = parts_of(helped(program, '--help'))
    version = helped(program, '--version').split()[-1]
    lines = [f'.TH BOOST 1 "" "boost {version}" "Fizgaloms"', '.SH NAME', f'boost \\- {escaped(about[0].lower() + about[1:])}',
             '.SH SYNOPSIS', '.B boost', '.I COMMAND', '[', '.I ARGUMENT', '\\&.. ]', '.SH COMMANDS']
    for command, meaning in lists['Commands']:
        if command != 'help':
            lines += section_of(program, command, meaning)
    lines += ['.SH OPTIONS', *listed(lists['Options']), '.SH SERVERS', escaped(SERVING), '.SH SEE ALSO', '.BR boost\\-attach (1)']
    return '\n'.join(lines) + '\n'


def attach_page():
    """The page boost-attach(1)."""
    with open(os.path.join(TOP, 'clients', 'shell', 'boost-attach'), encoding='utf-8') as file:
        lines = file.read().splitlines()[1:]
    remark = ' '.join(line[2:] for line in lines[:next(at for at, line in enumerate(lines) if not line.startswith('#'))])
    usage, _, text = remark.partition(': ')
    first, _, rest = text.partition('. ')
    return '\n'.join(['.TH BOOST-ATTACH 1 "" "boost" "Fizgaloms"', '.SH NAME', f'boost\\-attach \\- {escaped(first)}', '.SH SYNOPSIS',
                      f'.B {escaped(usage)}', '.SH DESCRIPTION', escaped(rest), '.SH SEE ALSO', '.BR boost (1)']) + '\n'


if __name__ == '__main__':
    if len(sys.argv) != 2:
        sys.exit(__doc__)
    sys.stdout.write(attach_page() if sys.argv[1] == '--attach' else page_of(sys.argv[1]))
