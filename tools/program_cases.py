#!/usr/bin/env python3
"""program_cases.py [PROGRAM [FOLDER]]: plays the cases of a folder, tools/data/program_cases without one, with the program itself, each
command line as a process on files, and compares what is told with the file `stdout` there.

The other files of that folder are cases, which docs/CASES.md explains. Each is played in a new folder, one case after another, and what
is left in the folder at its end is told. How far a command is, which it says every ten seconds, is not told. The program is the one that `./boost` runs, unless one is named. A line that is not understood,
or that the system refuses, ends the run. Prints how much was played, and status 0, or the difference, and status 1.
"""
import difflib
import fcntl
import os
import re
import subprocess
import sys
import tempfile

TOP = os.path.dirname(os.path.dirname(os.path.realpath(__file__)))
DATA = os.path.join('tools', 'data', 'program_cases')
WANTED = 'stdout'
# What a command says by the clock.
PROGRESS = re.compile(r'boost: (opening|copying|upgrading), [0-9]+ MB')
# What a command may take.
SECONDS = 300


def not_understood():
    return ValueError('not understood')


def number(text):
    if not re.fullmatch(r'[0-9]+', text):
        raise not_understood()
    return int(text)


def split(text, count):
    """So many words, of which the last is all that stands behind the others."""
    words = text.split(' ', count - 1)
    if len(words) != count:
        raise not_understood()
    return words


def brief(line):
    """A line as it is told: a character that stands more than 16 times on end once, with the count in braces."""
    return re.sub(r'(.)\1{16,}', lambda run: f'{run[1]}{{{len(run[0])}}}', line)


def lines_of(output):
    """The lines that a command wrote."""
    return output.decode(errors='backslashreplace').removesuffix('\n').split('\n') if output else []


def is_of_end(line):
    """Whether a line that was printed names a client, tells its end, or was refused Backlog."""
    return line.startswith(('c', 'end: ')) or line.endswith('Backlog')


class Bench:
    """A folder in which the cases of a file are played, the script that is being written, how many lines of what the next run prints are
    told (all where it is none), whether of these the ends alone, and what was told."""

    def __init__(self, program, folder):
        self.program, self.folder, self.told = program, folder, []
        self.script, self.last, self.ends_alone = [], None, False
        self.cases = self.runs = 0

    def path(self, name):
        return os.path.join(self.folder, name)

    def add_lines(self, text):
        """Adds lines to the script, once for each number, which stands where the first `#` of a line is."""
        first, end, lines = split(text, 3)
        for count in range(number(first), number(end)):
            self.script += [line.replace('#', str(count), 1) for line in lines.split('; ')]

    def play(self, line):
        """Does what a line asks. What is no question is not told."""
        if not line or line.startswith('#'):
            return
        if line.startswith('| '):
            self.script.append(line.removeprefix('| '))
        elif line.startswith('repeat '):
            self.add_lines(line.removeprefix('repeat '))
        elif line.startswith('@ '):
            self.told.append(brief(line))
            self.script, self.last, self.ends_alone = [], None, False
            self.cases += 1
        else:
            word, _, rest = line.partition(' ')
            if word not in QUESTIONS:
                raise not_understood()
            self.told.append(brief(line))
            QUESTIONS[word](self, rest)

    def tell_run(self, ran):
        """Tells a status, the last lines of what was printed, and each line of the errors behind a mark."""
        printed, last, self.last = lines_of(ran.stdout), self.last, None
        if self.ends_alone:
            printed, self.ends_alone = [line for line in printed if is_of_end(line)], False
        before = 0 if last is None else max(0, len(printed) - last)
        self.told.append(f'= {ran.returncode}')
        if before:
            self.told.append(f'({before} lines)')
        self.told += [brief(line) for line in printed[before:]]
        self.told += [f'! {brief(line)}' for line in lines_of(ran.stderr) if not PROGRESS.match(line)]


def run_program(bench, text):
    """Runs the program with these words, the first of which is its name."""
    if not text:
        raise not_understood()
    bench.runs += 1
    bench.tell_run(subprocess.run(text.split(','), executable=bench.program, cwd=bench.folder, stdin=subprocess.DEVNULL,
                                  stdout=subprocess.PIPE, stderr=subprocess.PIPE, timeout=SECONDS, check=False))


def run_beside(bench, text):
    """The same, while another run has a file: this one."""
    name, words = split(text, 2)
    with open(bench.path(name), 'rb') as file:
        fcntl.flock(file, fcntl.LOCK_EX | fcntl.LOCK_NB)
        run_program(bench, words)


def tell_ends(bench, text):
    """Of what the next run prints each client and its end are told, and each line that was refused Backlog."""
    if text:
        raise not_understood()
    bench.ends_alone = True


def tell_last(bench, text):
    """Of what the next run prints only so many lines are told."""
    bench.last = number(text)


def write_script(bench, name):
    """Writes the script to a file."""
    with open(bench.path(name), 'w', encoding='utf-8') as written:
        written.writelines(f'{line}\n' for line in bench.script)
    bench.script = []


def set_size(bench, text):
    """Gives a file a size, which is made where it is not there."""
    name, count = split(text, 2)
    with open(bench.path(name), 'ab') as resized:
        resized.truncate(number(count))


def write_bytes(bench, text):
    """Writes bytes into a file."""
    name, place, digits = split(text, 3)
    with open(bench.path(name), 'r+b') as written:
        written.seek(number(place))
        written.write(bytes.fromhex(digits))


def tell_bytes(bench, text):
    """Tells bytes of a file."""
    name, place, count = split(text, 3)
    with open(bench.path(name), 'rb') as read:
        read.seek(number(place))
        found = read.read(number(count))
    if len(found) != number(count):
        raise not_understood()
    bench.told.append(found.hex())


def tell_whether(bench, name):
    """Tells whether a file is there."""
    bench.told.append('true' if os.path.exists(bench.path(name)) else 'false')


def remove(bench, name):
    os.remove(bench.path(name))


QUESTIONS = {'boost': run_program, 'beside': run_beside, 'last': tell_last, 'ends': tell_ends, 'file': write_script, 'size': set_size,
             'bytes': tell_bytes, 'write_file': write_bytes, 'is_there': tell_whether, 'remove': remove}


def play_file(program, path):
    """Plays the cases of a file. The bench behind them."""
    with open(path, encoding='utf-8') as cases:
        lines = cases.read().splitlines()
    with tempfile.TemporaryDirectory() as folder:
        bench = Bench(program, folder)
        for count, line in enumerate(lines, 1):
            try:
                bench.play(line)
            except (OSError, ValueError, subprocess.SubprocessError) as error:
                sys.exit(f'program_cases: {os.path.basename(path)}: line {count}: {error}')
        bench.told += [f'left {left}' for left in sorted(os.listdir(folder))]
        return bench


def the_program():
    """The program that is named, or else that of `./boost`."""
    if len(sys.argv) > 1:
        return os.path.abspath(sys.argv[1])
    return subprocess.run([os.path.join(TOP, 'boost'), 'which'], stdout=subprocess.PIPE, text=True, check=True).stdout.strip()


def main():
    program, data = the_program(), sys.argv[2] if len(sys.argv) > 2 else DATA
    folder = os.path.join(TOP, data)
    benches = [play_file(program, os.path.join(folder, name)) for name in sorted(os.listdir(folder)) if name != WANTED]
    told = [line for bench in benches for line in bench.told]
    with open(os.path.join(folder, WANTED), encoding='utf-8') as lines:
        wanted = lines.read().splitlines()
    if told != wanted:
        print('\n'.join(difflib.unified_diff(wanted, told, os.path.join(data, WANTED), program, lineterm='')))
        return 1
    print(f'{sum(bench.cases for bench in benches)} cases, {sum(bench.runs for bench in benches)} runs of the program, all as written')
    return 0


if __name__ == '__main__':
    sys.exit(main())
