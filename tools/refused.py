#!/usr/bin/env python3
"""refused.py [PROGRAM]: refuses syncs and memory to each command, and looks at what it tells and at what it leaves.

That a `File` is synced where the disk asks for it no clause can say, so this says it. In the first part each command runs under a filter
of system calls (seccomp), which answers syncs with an error: each sync, or each but `fsync`, which an opening asks for. Then nothing is
told kept, the refusal of docs/COMMANDS.md is told, and the store opens without the filter and is as it was. In the second part a small
library of C, which is compiled here and loaded before the program, fails the sync of a number, alone or with all behind it, for each
number that there is: the command tells that, and nothing behind it is told kept.

In the third part the library refuses an allocation in the same two ways, for each number. A command ends by itself, with a status of
docs/COMMANDS.md, and where the status is 0 its answers are the ordinary ones up to the first that is a refusal. The store opens, and
holds what was told kept: a state that the calls which were answered lead to, one after another. Where a file is made anew, it is the
old one or the new one. Of many allocations some are tried, so that a part of a minute is enough.

The program is the one that `./boost` runs, unless one is named. A program that is built before its proof brings its own allocations,
and is not refused any. A line for each command and part tells how many runs there were; the status is 1 where one was not as it must be. What the machine has not got is told, and passed over.
"""
import collections
import ctypes
import errno
import itertools
import os
import platform
import re
import shutil
import struct
import subprocess
import sys
import tempfile

TOP = os.path.dirname(os.path.dirname(os.path.realpath(__file__)))
AREA = '65536'
# A run that takes longer has not ended by itself.
SECONDS = 30
# Of so many allocations of a command each is refused; of more the first half of so many, and then those of a step.
MOST = 300

# What is done before: two collections, which are kept.
MAKING = ['c1 make counter hits', 'c1 make map m', 'c1 begin', 'c1 call hits bump 4', 'c1 call m put 1 0a0b', 'c1 commit', 'turn']
# What is left open behind it.
OPENING = ['c1 begin', 'c1 call hits bump 100', 'c1 call m put 9 0e', 'turn']
# What is done by two clients, whose calls commute.
SCRIPT = ['c1 make set s', 'c1 begin', 'c1 call m put 2 0c', 'c1 later hits bump 70', 'c1 commit', 'turn', 'c1 kept',
          'c2 begin', 'c2 call m put 3 0d', 'c2 abort', 'c2 begin', 'c2 call hits bump 1', 'c2 commit', 'turn', 'c2 kept', 'checkpoint',
          'c1 begin', 'c1 call m remove 1', 'c1 call s add 5', 'c1 commit', 'turn', 'c1 kept']
# What is asked of a server by one client.
ASKED = ['c1 make set s', 'c1 begin', 'c1 call m put 2 0c', 'c1 later hits bump 70', 'c1 keep', 'c1 begin', 'c1 call m put 3 0d',
         'c1 abort', 'c1 do hits bump 1', 'c1 wait', 'c1 keep m remove 1; s add 5']
# What they change: how often `hits` was bumped, and which keys are put, removed and added.
CHANGES = {'make set s': ('s', None), 'm put 2 0c': ('put', '2 0c'), 'hits bump 70': ('hits', 70), 'm put 3 0d': ('put', '3 0d'),
           'hits bump 1': ('hits', 1), 'm remove 1': ('remove', '1 0a0b'), 's add 5': ('s', '5')}
KEPT = re.compile(r'(?:^|; )kept(?: \d+)?$')

LIBRARY = r"""
#define _GNU_SOURCE
#include <errno.h>
#include <fcntl.h>
#include <stdlib.h>
#include <string.h>
#include <sys/mman.h>
#include <sys/syscall.h>
#include <unistd.h>

void *__libc_malloc(size_t size);
void *__libc_calloc(size_t count, size_t size);
void *__libc_realloc(void *block, size_t size);
void *__libc_memalign(size_t alignment, size_t size);

/* What the tool reads: how many there were, and how many of them were refused. */
struct counted { long counts[2], refused[2]; };
enum { ALLOCATIONS, SYNCS };
static struct counted own, *seen = &own;
static long first[2], last[2];

static int is_refused(int what) {
    long number = __atomic_add_fetch(&seen->counts[what], 1, __ATOMIC_SEQ_CST);
    if (number < first[what] || number > last[what])
        return 0;
    __atomic_add_fetch(&seen->refused[what], 1, __ATOMIC_SEQ_CST);
    return 1;
}

static void *refuse(void) { errno = ENOMEM; return NULL; }
#define REFUSED is_refused(ALLOCATIONS)
void *malloc(size_t size) { return REFUSED ? refuse() : __libc_malloc(size); }
void *calloc(size_t count, size_t size) { return REFUSED ? refuse() : __libc_calloc(count, size); }
void *realloc(void *block, size_t size) { return REFUSED ? refuse() : __libc_realloc(block, size); }
void *memalign(size_t alignment, size_t size) { return REFUSED ? refuse() : __libc_memalign(alignment, size); }
void *aligned_alloc(size_t alignment, size_t size) { return REFUSED ? refuse() : __libc_memalign(alignment, size); }
int posix_memalign(void **out, size_t alignment, size_t size) {
    void *block = REFUSED ? NULL : __libc_memalign(alignment, size);
    if (block != NULL)
        *out = block;
    return block != NULL ? 0 : ENOMEM;
}

static int synced(long call, int file) {
    if (!is_refused(SYNCS))
        return syscall(call, file);
    errno = EIO;
    return -1;
}
int fsync(int file) { return synced(SYS_fsync, file); }
int fdatasync(int file) { return synced(SYS_fdatasync, file); }

static long number_of(const char *name, long other) {
    const char *text = getenv(name);
    return text != NULL ? atol(text) : other;
}

__attribute__((constructor)) static void begin(void) {
    int file = open(getenv("REFUSED_COUNTS"), O_RDWR | O_CLOEXEC);
    first[ALLOCATIONS] = number_of("REFUSED_FIRST", 1L << 60);
    last[ALLOCATIONS] = number_of("REFUSED_LAST", 1L << 60);
    first[SYNCS] = number_of("REFUSED_FIRST_SYNC", 1L << 60);
    last[SYNCS] = number_of("REFUSED_LAST_SYNC", 1L << 60);
    seen = mmap(NULL, sizeof own, PROT_READ | PROT_WRITE, MAP_SHARED, file, 0);
    memset(seen, 0, sizeof own);
    close(file);
}
"""


class Unlike(Exception):
    """A run is not as it must be."""


Ran = collections.namedtuple('Ran', 'status told said counts refused')


# ---- what a filter answers


def filter_of(numbers, error):
    """What a child does before it becomes the program: its calls of these numbers are answered with the error from then on."""
    x86_64, load, equal, give, allow = 0xc000003e, 0x20, 0x15, 0x06, 0x7fff0000
    lines = [(load, 0, 0, 4), (equal, 1, 0, x86_64), (give, 0, 0, allow), (load, 0, 0, 0)]
    for number in numbers:
        lines += [(equal, 0, 1, number), (give, 0, 0, 0x50000 | error)]
    lines.append((give, 0, 0, allow))
    libc = ctypes.CDLL(None, use_errno=True)
    code = ctypes.create_string_buffer(b''.join(struct.pack('=HBBI', *line) for line in lines))
    program = ctypes.create_string_buffer(struct.pack('@HP', len(lines), ctypes.addressof(code)))

    def begin():
        # PR_SET_NO_NEW_PRIVS, and PR_SET_SECCOMP with SECCOMP_MODE_FILTER
        if libc.prctl(38, 1, 0, 0, 0) or libc.prctl(22, 2, program, 0, 0):
            os._exit(97)
    begin.holds = code
    return begin


# fsync, and fdatasync, sync_file_range, msync, sync and syncfs
FSYNC, OTHERS = (74,), (75, 277, 26, 162, 306)


def has_filters():
    """Whether a filter works here: a child of Python is refused its sync."""
    if platform.machine() != 'x86_64' or sys.maxsize < 1 << 32:
        return False
    asks = 'import os\ntry: os.fsync(os.open(".", os.O_RDONLY))\nexcept OSError as error: print(error.errno)'
    ran = subprocess.run([sys.executable, '-c', asks], stdout=subprocess.PIPE, check=False,
                         preexec_fn=filter_of(FSYNC, errno.ENOSPC))
    return ran.stdout.split() == [str(errno.ENOSPC).encode()]


# ---- a room with stores


class Room:
    """A folder with a store `good`, a copy `disk` of it, on which commands run, and the library."""

    def __init__(self, path, program):
        self.path, self.program, self.runs = path, program, 0
        for name, lines in (('making', MAKING), ('script', SCRIPT), ('opening', OPENING)):
            with open(self.at(name), 'w', encoding='utf-8') as file:
                file.writelines(f'{line}\n' for line in lines)
        with open(self.at('counts'), 'wb') as file:
            file.write(bytes(32))
        self.library = None
        self.wrong, self.told_wrong, self.told_runs = [], 0, 0
        self.sure('format', 'good', '--area', AREA)
        self.sure('play', 'good', 'making')
        shutil.copyfile(self.at('good'), self.at('open'))
        self.sure('play', 'open', 'opening')
        self.whole = {name: self.bytes_of(name) for name in ('good', 'open')}
        self.names = set(os.listdir(path)) - {'open'} | {'library.so'}

    def at(self, name):
        return os.path.join(self.path, name)

    def bytes_of(self, name):
        if not os.path.exists(self.at(name)):
            return None
        with open(self.at(name), 'rb') as file:
            return file.read()

    def compile(self):
        self.library = self.at('library.so')
        subprocess.run(['cc', '-O1', '-fno-builtin', '-shared', '-fPIC', '-o', self.library, '-x', 'c', '-'], input=LIBRARY,
                       text=True, check=True)

    def anew(self, words):
        """Makes the stores that the words name."""
        for name in set(os.listdir(self.path)) - self.names:
            os.remove(self.at(name))
        for name in {'disk', 'open', 'old'} & set(words):
            with open(self.at(name), 'wb') as file:
                file.write(self.whole['open' if name == 'open' else 'good'])
        self.made = {name: self.bytes_of(name) for name in set(os.listdir(self.path)) - self.names}

    def anew_and_run(self, words, **refused):
        self.anew(words)
        return self.run(*words, **refused)

    def run(self, *words, begin=None, **refused):
        """Runs the program, under a filter or with the library before it. `listen` is asked its lines, and `end` where there is no
        filter; its input stays open."""
        environment = {**os.environ, 'ASAN_OPTIONS': 'detect_leaks=0'}
        if begin is None and self.library:
            environment |= {'LD_PRELOAD': self.library, 'REFUSED_COUNTS': self.at('counts')}
            environment |= {f'REFUSED_{name}'.upper(): str(number) for name, number in refused.items()}
        self.runs += 1
        reader, writer = os.pipe()
        if 'listen' in words:
            os.write(writer, ''.join(f'{line}\n' for line in [*ASKED, *(['end'] if begin is None else [])]).encode())
        try:
            ran = subprocess.run([self.program, *words], cwd=self.path, env=environment, preexec_fn=begin, stdin=reader,
                                 capture_output=True, text=True, errors='replace', timeout=SECONDS, check=False)
        except subprocess.TimeoutExpired as late:
            raise Unlike(f'no end within {SECONDS} seconds; told {late.stdout!r:.300}, {late.stderr!r:.300}') from None
        finally:
            os.close(reader)
            os.close(writer)
        counts = struct.unpack('4l', self.bytes_of('counts'))
        return Ran(ran.returncode, ran.stdout, ran.stderr, counts[:2], counts[2:])

    def sure(self, *words):
        """What the program prints where nothing is refused."""
        ran = subprocess.run([self.program, *words], cwd=self.path, capture_output=True, text=True, timeout=SECONDS, check=False)
        if ran.returncode:
            raise Unlike(f'{" ".join(words)} behind it: status {ran.returncode}, {ran.stderr}')
        return ran.stdout

    def opens(self, name='disk'):
        """What a store shows, which is sound."""
        if not self.sure('check', name).startswith('sound: '):
            raise Unlike(f'{name} is not sound')
        return self.sure('show', name)


    def makes_none(self):
        """No file is there that was not."""
        more = set(os.listdir(self.path)) - self.names - set(self.made)
        if more:
            raise Unlike(f'it left {sorted(more)}')

    def stays(self):
        """No file was made or changed."""
        self.makes_none()
        for name, held in self.made.items():
            if self.bytes_of(name) != held:
                raise Unlike(f'{name} was changed')

    def expect_shown(self):
        """Each store opens, and shows what it did."""
        for name in self.made:
            if self.opens(name) != content([]):
                raise Unlike(f'{name} shows {self.opens(name)!r}')

    def old_or_new(self, words, is_new=False):
        """A file that is made is not there, or is as before, or is whole; the others show what they did."""
        made = {'format': words[1], 'copy': words[-1]}.get(words[0])
        whole = '' if words[0] == 'format' else content([])
        there = self.bytes_of(made) if made else None
        if made and is_new and there is None:
            raise Unlike(f'{made} was not made')
        if there is not None and (is_new or there != self.made.pop(made, None)) and self.opens(made) != whole:
            raise Unlike(f'{made} shows {self.opens(made)!r}')
        self.made.pop(made, None)
        self.expect_shown()

    def attempt(self, what, check, *how):
        """Looks at a run; what is not as it must be is told, the first ten times."""
        try:
            check(self, *how)
        except Unlike as unlike:
            self.wrong.append(what)
            if len(self.wrong) <= 10:
                print(f'{what}: {unlike}', flush=True)

    def tell(self, what):
        """A line of what was tried since the last one."""
        wrong = len(self.wrong) - self.told_wrong
        how = f'{wrong} NOT as they must be' if wrong else 'all as they must be'
        print(f'{what}: {self.runs - self.told_runs} runs, {how}', flush=True)
        self.told_wrong, self.told_runs = len(self.wrong), self.runs


# ---- what answers lead to


def content(calls):
    """What is shown behind these calls."""
    hits, entries, elements = 4, {'1 0a0b'}, None
    for what, how in (CHANGES[call] for call in calls):
        if what == 'hits':
            hits += how
        elif what == 's' and (how is None or elements is not None):
            elements = (elements or set()) | ({how} if how else set())
        else:
            {'put': entries.add, 'remove': entries.discard, 's': bool}[what](how)
    lines = [f'counter hits\n  {hits}\nmap m\n', *(f'  {entry}\n' for entry in sorted(entries))]
    if elements is not None:
        lines += ['set s\n', *(f'  {element}\n' for element in sorted(elements))]
    return ''.join(lines)


class Chain:
    """The steps that lines with their answers led to, and how many of them were told kept."""

    def __init__(self, told):
        self.steps, self.kept = [], 0
        self.open, self.last = {}, {}
        for line, answer in told:
            client, _, asked = line.partition(' ')
            if client in ('turn', 'checkpoint'):
                seen = re.fullmatch(r'(?:kept|flipped) (\d+)', answer or '')
                self.keep(int(seen[1]) if seen else 0)
            elif asked and not (answer or '').startswith(('refused', 'error')) or (answer or '').startswith('refused 23'):
                self.play(client, asked, answer)

    def keep(self, count):
        if count > len(self.steps):
            raise Unlike(f'place {count} is kept, where {len(self.steps)} were told')
        self.kept = max(self.kept, count)

    def play(self, client, asked, answer):
        """A line that was answered, or not, or Lost: then it may have been done."""
        word, _, rest = asked.partition(' ')
        parts = [part.removeprefix('later ') for part in rest.split('; ')] if rest else []
        if word in ('begin', 'abort'):
            self.open[client] = []
        elif word in ('call', 'later'):
            self.open.setdefault(client, []).append((rest, answer is not None))
        elif word in ('commit', 'keep', 'do', 'make'):
            calls = [(part, answer is not None) for part in ([asked] if word == 'make' else parts)]
            self.steps.append([*(self.open.pop(client, []) if word != 'make' else []), *calls])
            self.last[client] = len(self.steps)
        if KEPT.search(answer or ''):
            self.keep(self.last.get(client, 0))

    def ways(self):
        """The calls that may be found done: what was not answered may have been refused."""
        for count in range(self.kept, len(self.steps) + 1):
            calls = [call for step in self.steps[:count] for call in step]
            for left in itertools.product(*((True,) if is_sure else (True, False) for _, is_sure in calls)):
                yield [call for (call, _), is_done in zip(calls, left) if is_done]


def answers_of(words, told):
    """For each thread of answers the lines with theirs, in order; none where a line was not answered."""
    if 'listen' in words:
        return [list(itertools.zip_longest(ASKED, [line.removeprefix('c1 ') for line in told.splitlines()[1:]]))]
    answers = {int(number): answer for number, answer in re.findall(r'^(\d+): (.*)$', told, re.M)}
    lines = [(line, answers.get(number)) for number, line in enumerate(SCRIPT, 1)]
    if 'play' in words:
        return [lines]
    ends = dict(re.findall(r'^(c\d):\n(?:\d.*\n)*end: (.*)$', told, re.M))
    return [[*(pair for pair in lines if pair[0].startswith(client)), (f'{client} kept', ends.get(client))]
            for client in ('c1', 'c2')]


def check_content(room, words, ran):
    """The store opens, and holds what was told kept and perhaps more of what was answered, or was done and not answered."""
    chains = [Chain(told) for told in answers_of(words, ran.told)]
    shown = room.opens(next(word for word in words if word in room.whole or word == 'disk'))
    if not any(shown == content(sum(way, [])) for way in itertools.product(*(chain.ways() for chain in chains))):
        kept, steps = [chain.kept for chain in chains], [chain.steps for chain in chains]
        raise Unlike(f'the store shows {shown!r}, where {kept} were kept of {steps};'
                     f' status {ran.status}, told {ran.told!r}, {ran.said!r}')


def check_answers(words, ordinary, ran):
    """The answers are the ordinary ones up to the first that is a refusal; places and what is kept yet differ from run to run."""
    def plain(answer):
        return re.sub(r'\d+$|^(?:not yet|kept)$', '', answer)
    for told, wanted in zip(answers_of(words, ran.told), answers_of(words, ordinary.told)):
        for (line, answer), (_, other) in zip(told, wanted):
            if answer is None and ran.status or answer and (answer.startswith('refused') or answer == 'lost'):
                break
            if answer is None or plain(answer) != plain(other):
                raise Unlike(f'{line}: {answer!r} in place of {other!r}, with no refusal before it')


# ---- a device that refuses to sync


FAULT = 'boost: refused 19 Fault\nboost: {}\n'
NEW = ('format', 'new', '--area', AREA)
SCRIPTED = (('play', 'disk', 'script'), ('serve', 'disk', 'script'), ('serve', '--why', 'disk', 'script'), ('listen', 'disk'))
# What only reads. `open` is a store with a transaction that has not ended, which an opening undoes on the disk.
READING = (('show', '--read-only', 'disk'), ('show', '--read-only', 'open'), ('check', 'open'), ('stat', 'disk'), ('show', 'disk'))
WRITING = (NEW, ('copy', 'disk', 'new'), ('upgrade', 'disk'), ('show', 'open'), ('upgrade', 'open'), ('play', 'open', 'script'),
           ('serve', 'open', 'script'), ('listen', 'open'))


def expect(ran, **wanted):
    for name, value in wanted.items():
        if getattr(ran, name) != value:
            raise Unlike(f'{name} is {getattr(ran, name)!r} in place of {value!r}, status {ran.status}, {ran.said!r}')


def check_no_sync(room, words, error):
    """No sync at all: the file cannot be opened, and none is made or changed."""
    ran = room.anew_and_run(words, begin=filter_of(FSYNC + OTHERS, error))
    name = next(word for word in words[1:] if not word.startswith('-'))
    expect(ran, status=4, told='', said=f'boost: cannot open {name}\nboost: {os.strerror(error)} (os error {error})\n')
    room.stays()


def check_no_data_sync(room, words, error):
    """An opening is synced, and nothing behind it is."""
    because = f'{os.strerror(error)} (os error {error})'
    ordinary = room.anew_and_run(words)
    ran = room.anew_and_run(words, begin=filter_of(OTHERS, error))
    if words in READING:
        expect(ran, status=0, told=ordinary.told, said=ordinary.said)
        return room.stays()
    if words in WRITING:
        expect(ran, status=1, told='', said=FAULT.format(because))
        room.makes_none()
        return room.expect_shown()
    if re.search(r'\bkept|flipped', ran.told):
        raise Unlike(f'it is told kept: {ran.told!r}')
    if 'play' in words:
        refused = [answer for line, answer in answers_of(words, ran.told)[0] if line in ('turn', 'checkpoint')]
        expect(ran, status=0, said='')
        if refused != ['refused 19 Fault', *['refused 20 Failed'] * 3]:
            raise Unlike(f'turns are told {refused}')
    elif 'serve' in words:
        expect(ran, status=0, said='boost: keeping ended: refused 19 Fault\nboost: ' + because + '\n' if '--why' in words else '')
        if ran.told.count('end: lost\n') != 2:
            raise Unlike(f'clients are told {ran.told!r}')
    else:
        expect(ran, status=1, said=FAULT.format(because))
        if ran.told.splitlines()[-1] != f'c1 refused 23 Lost: Fault, {because}':
            raise Unlike(f'it told {ran.told!r}')
    check_answers(words, ordinary, ran)
    return check_content(room, words, ran)


def filters(room):
    """Each command under each filter, with two errors."""
    if not has_filters():
        return print('a device that refuses to sync: not tried, as no filter of system calls (seccomp on x86-64) is to be had here')
    for error, words in itertools.product((errno.EIO, errno.ENOSPC), SCRIPTED + READING + WRITING):
        for check in (check_no_sync, check_no_data_sync):
            room.attempt(f'{" ".join(words)}, {check.__doc__.split(":")[0].split(",")[0].lower()}, {error}', check, words, error)
    return room.tell('a device that refuses to sync')


# ---- a sync that fails


def check_failed_sync(room, words, ordinary, first, last):
    """A sync has failed, which is told; nothing behind it is told kept, and the store opens."""
    ran = room.anew_and_run(words, first_sync=first, last_sync=last)
    if not ran.refused[1]:
        # threads of a server take blocks together, or do not
        if ran.status == 0 and ('serve' in words or 'listen' in words) and first > 1:
            return check_content(room, words, ran)
        raise Unlike('it is not asked for')
    if words in WRITING:
        if ran.status not in (1, 4) or not ran.said.endswith('boost: Input/output error (os error 5)\n'):
            raise Unlike(f'status {ran.status}, told {ran.told!r}, {ran.said!r}')
        return room.old_or_new(words)
    check_answers(words, ordinary, ran)
    chain = Chain(answers_of(words, ran.told)[0])
    if 'play' in words and first > 1:
        turns = [answer for line, answer in answers_of(words, ran.told)[0] if line in ('turn', 'checkpoint')]
        at = turns.index('refused 19 Fault') if 'refused 19 Fault' in turns else -1
        if at < 0 or turns[at + 1:] != ['refused 20 Failed'] * (len(turns) - at - 1):
            raise Unlike(f'turns are told {turns}')
    elif not ran.said.endswith('boost: Input/output error (os error 5)\n'):
        raise Unlike(f'standard error: {ran.said!r}, status {ran.status}')
    if ran.status != (4 if first == 1 else 1 if 'listen' in words else 0):
        raise Unlike(f'status {ran.status}, {ran.said!r}, {chain.kept} kept')
    return check_content(room, words, ran)


def syncs(room):
    """Each sync of each command fails, alone or with all behind it."""
    for words in (*SCRIPTED[:1], *SCRIPTED[2:], *WRITING[:5]):
        ordinary = room.anew_and_run(words)
        for first in range(1, ordinary.counts[1] + 1):
            for last in (first, 1 << 60):
                which = 'alone' if last == first else 'and all behind it'
                room.attempt(f'{" ".join(words)}, sync {first} {which}', check_failed_sync, words, ordinary, first, last)
        room.tell(f'{" ".join(words)}: each of {ordinary.counts[1]} syncs fails')


# ---- memory that is refused


MAKES_ANEW = (('format', 'old', '--area', AREA, '--force'), ('copy', 'disk', 'old'))


def check_refused(room, words, ordinary, first, last):
    """An allocation was refused: it is told, or nothing differs, and the store is as told."""
    ran = room.anew_and_run(words, first=first, last=last)
    if not ran.refused[0] and 'serve' not in words:
        raise Unlike('there is no such allocation')
    if ran.status not in (0, 1, 4):
        raise Unlike(f'status {ran.status}, told {ran.told[-200:]!r}, {ran.said!r}')
    # (with status 4 it is the output that could not be written)
    if ran.status and not ran.said and (ran.status != 4 or ran.told == ordinary.told):
        raise Unlike(f'status {ran.status}, and nothing is said')
    if 'script' in words:
        check_answers(words, ordinary, ran)
        return check_content(room, words, ran)
    if ran.status == 0:
        expect(ran, told=ordinary.told)
    if words in READING:
        return room.stays()
    return room.old_or_new(words, ran.status == 0)


def some_of(count, most):
    """Numbers from 1 to the count, at most so many: the first ones, and then those of a step."""
    if count <= most:
        return range(1, count + 1)
    begun = most // 2
    step = -(-(count - begun) // (most - begun))
    return [*range(1, begun + 1), *range(begun + 1, count + 1, step)]


def memory(room):
    """Each allocation of each command is refused, alone or with all behind it."""
    commands = (NEW, *MAKES_ANEW, ('copy', 'disk', 'new'), *SCRIPTED[:2], *READING, ('show', 'open'), ('upgrade', 'disk'),
                ('upgrade', 'open'), ('play', 'open', 'script'))
    for words in commands:
        ordinary = room.anew_and_run(words)
        if not ordinary.counts[0]:
            return print('memory that is refused: not tried, as the program brings its own allocations')
        numbers = some_of(ordinary.counts[0], MOST)
        for first, is_alone in itertools.product(numbers, (True, False)):
            which = 'alone' if is_alone else 'and all behind it'
            last = first if is_alone else 1 << 60
            room.attempt(f'{" ".join(words)}, allocation {first} {which}', check_refused, words, ordinary, first, last)
        room.tell(f'{" ".join(words)}: {len(numbers)} of {ordinary.counts[0]} allocations are refused')


def main():
    program = os.path.realpath(sys.argv[1]) if len(sys.argv) > 1 else \
        subprocess.run([os.path.join(TOP, 'boost'), 'which'], stdout=subprocess.PIPE, text=True, check=True).stdout.strip()
    # (in memory where that is to be had, as a sync takes its time)
    with tempfile.TemporaryDirectory(prefix='refused-', dir='/dev/shm' if os.access('/dev/shm', os.W_OK) else None) as path:
        room = Room(path, program)
        filters(room)
        if not shutil.which('cc'):
            print('syncs that fail, and memory that is refused: not tried, as no cc is here')
        else:
            room.compile()
            syncs(room)
            memory(room)
    return 1 if room.wrong else 0


if __name__ == '__main__':
    sys.exit(main())
