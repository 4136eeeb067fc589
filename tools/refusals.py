#!/usr/bin/env python3
"""refusals.py [SCRIPT..]: refuses each allocation of a script through the store that threads share, and looks at what
that changes.

The program is `cases`, proved and built (`rt run` in crates/cases builds it), with the question `play_shared`. A small
library of C, which is compiled here and loaded before the program, counts the allocations from the opening of the store
to the end of the script. At each of them a child of the program goes on without that memory, in two ways:

- one: this allocation alone is refused. A line that is refused NoMemory is run once more. Then all answers, what is
  shown, and the bytes of the disk must be those of a run with ample memory, as a refusal leaves everything as before.
- rest: this allocation and all behind it are refused, up to the end of the script. All answers before the first
  NoMemory must be the ordinary ones. The lines that were not refused must be answered as the model of tools/stories.py
  answers them alone. Opened with ample memory, the store must show a beginning of what they committed, which holds what
  was told as kept.

All scripts are played, or those that are named. Seven are of this tool: one for each kind, and one over two checkpoints.
Behind each of its lines such a script reads each collection back, in the same session. So a call that was refused and
has changed something all the same shows there, also where the call that is run once more answers as ever and nothing
of it is on the disk. It is run on an empty store, and then the store that it left is opened and read. The others are those
that are failed and stopped at each call of the disk (`sweep`, tools/sweeps.py): eleven by name, and eight generated
stories, two of which have images of two blocks, and one of which has a stock. What a run with ample memory answers is compared with the model of
tools/stories.py.

As many children go side by side as the process may use processors; `taskset -c 0,1 tools/refusals.py` runs it on two.
It prints for each script, and for each store that was opened, how many allocations were refused. It ends at the first
run that is not as it must be, and tells the allocation and the first line that differs. A child that takes ten seconds
of a processor's time, or ten minutes, is stuck.
"""
import os
import re
import subprocess
import sys
import tempfile
from itertools import zip_longest

import stories

TOP = os.path.dirname(os.path.dirname(os.path.realpath(__file__)))
CASES = os.path.join(TOP, "crates/cases/out/cases")

# A line that was refused. It is looked for where a line begins alone: the bytes of a disk are long lines of digits.
REFUSED = re.compile(r"^(\d+): refused 4 NoMemory$", re.M)

# How each collection is read, by its name. A queue tells its least item alone, and a pool what it refuses to release.
READS = {
    "s": [f"call s contains {key}" for key in (1, 2, 3)],
    "m": ["call m get 1", "call m get 2", "call m ceiling 0"],
    "q": ["call q least"],
    "n": ["call n read"],
    "t": ["call t level"],
    "j": [f"call j contains {key}" for key in (1, 2, 3)],
    "u": [f"call u level {key}" for key in (1, 2)],
    "p": [f"call p release {key}" for key in (7, 8)],
}

# What is done on collections, by their names. What a queue and a pool do not tell is taken out at the end.
DONE = {
    "set": ("s", ["call s add 1", "call s add 2", "call s remove 1", "commit", "call s remove 2", "call s add 3",
                  "abort", "turn"]),
    "map": ("m", ["call m put 1 0a", "call m put 2 -", "call m put 1 0b0c", "call m remove 2", "commit",
                  "call m remove 1", "call m put 2 0d", "abort", "turn"]),
    "queue": ("q", ["call q add 5 1", "call q add 3 2", "call q take", "call q add 4 3", "commit", "call q take",
                    "call q add 1 4", "abort", "turn", "call q take", "call q take", "call q take", "commit"]),
    "counter": ("n", ["call n bump 5", "later n bump 70", "commit", "call n bump -200", "later n bump 3000", "abort",
                      "turn"]),
    "stock": ("t", ["later t fill 70", "commit", "call t spend 5", "call t spend 100", "later t fill 3000", "abort",
                    "call t spend 20", "later t fill 1", "commit", "turn"]),
    "picks": ("j", ["call j add 1", "call j add 2", "call j add 3", "commit", "call j pick", "call j pick", "commit", "call j pick",
                    "abort", "call j pick", "call j pick", "commit", "turn"]),
    "quotas": ("u", ["call u fill 1 70", "call u fill 2 9", "commit", "call u spend 1 70", "call u spend 1 1", "call u fill 2 5",
                     "abort", "call u spend 2 4", "commit", "turn"]),
    "pool": ("p", ["call p draw", "call p draw", "call p release 0", "commit", "call p draw", "abort", "turn",
                   "call p draw", "call p draw", "call p draw", "commit"]),
    "checkpoints": ("smqnp", ["call s add 1", "call m put 1 0a", "call q add 5 1", "checkpoint", "call n bump 5",
                              "call p draw", "later n bump 70", "commit", "turn", "checkpoint", "kept",
                              "call s remove 1", "call q take", "abort"]),
}
# What a full area answers, of which the model knows nothing, by the numbers of lines.
FULL = {"room": {160: "refused 18 Full", 161: "not yet", 164: "kept 4"},
        "full": {504: "refused 18 Full", 505: "not yet", 508: "kept 4"},
        "no_image": {514: "refused 18 Full", 515: "refused 18 Full", 516: "not yet", 520: "kept 4"}}

# The stories of the generator, by their seeds.
STORIES = {f"story_{seed}": (stories.EMPTY, stories.story(seed, 40)) for seed in (5, 6, 8)}
STORIES |= {f"story_{seed}": (stories.wide(), stories.story(seed, 20)) for seed in (25, 38)}
STORIES["story_41"] = (stories.EMPTY, stories.story(41, 60, stories.SIX_KINDS))
STORIES["story_44"] = (stories.EMPTY, stories.story(44, 60, stories.WITH_JOBS))
STORIES["story_47"] = (stories.EMPTY, stories.story(47, 60, stories.SEVEN_KINDS))

LIBRARY = r"""
#define _GNU_SOURCE
#include <fcntl.h>
#include <signal.h>
#include <stdio.h>
#include <stdlib.h>
#include <sys/resource.h>
#include <sys/syscall.h>
#include <sys/wait.h>
#include <unistd.h>

void *__libc_malloc(size_t size);
void *__libc_calloc(size_t count, size_t size);
void *__libc_realloc(void *block, size_t size);

enum { MOST = 64 };

/* How often output was written: memory is refused between the first time and the second. */
static int writes;
static int is_child, is_refusing;
static long count;

/* The children that go on, each with the number of its allocation. */
static struct { pid_t child; long number; } going[MOST];
static int goers;

/* One that is stuck is ended. */
static void become_child(void) {
    char name[32];
    struct rlimit seconds = {10, 10};
    is_child = 1;
    setrlimit(RLIMIT_CPU, &seconds);
    alarm(600);
    is_refusing = getenv("REFUSE_REST") != NULL;
    snprintf(name, sizeof name, "refused.%ld", count);
    int file = open(name, O_WRONLY | O_CREAT | O_TRUNC, 0600);
    dup2(file, 1);
    dup2(file, 2);
}

static void give_up(const char *why, long number, int status) {
    for (int at = 0; at < goers; at++)
        kill(going[at].child, SIGKILL);
    while (wait(NULL) > 0) {
    }
    fprintf(stderr, "allocation %ld: %s, status %#x\n", number, why, status);
    _exit(99);
}

/* Waits for the end of a child. */
static void wait_for_one(void) {
    int status = 0, at = 0;
    pid_t child = wait(&status);
    while (at < goers && going[at].child != child)
        at++;
    if (at == goers)
        give_up("an unknown child has ended", count, status);
    long number = going[at].number;
    going[at] = going[--goers];
    if (WIFSIGNALED(status))
        give_up("its child was stuck or crashed", number, status);
}

static int is_refused(void) {
    if (is_child)
        return is_refusing;
    if (writes != 1)
        return 0;
    if (goers == atoi(getenv("REFUSE_SIDE")))
        wait_for_one();
    count++;
    pid_t child = fork();
    if (child == 0) {
        become_child();
        return 1;
    }
    if (child < 0)
        give_up("it has no child", count, 0);
    going[goers].child = child;
    going[goers++].number = count;
    return 0;
}

void *malloc(size_t size) { return is_refused() ? NULL : __libc_malloc(size); }
void *calloc(size_t count, size_t size) { return is_refused() ? NULL : __libc_calloc(count, size); }
void *realloc(void *block, size_t size) { return is_refused() ? NULL : __libc_realloc(block, size); }

ssize_t write(int file, const void *bytes, size_t size) {
    if (file == 1) {
        writes++;
        is_refusing = 0;
        while (!is_child && goers > 0)
            wait_for_one();
    }
    return syscall(SYS_write, file, bytes, size);
}
"""

# So many children go side by side at most.
SIDE = min(len(os.sched_getaffinity(0)), 64)


class Unlike(Exception):
    """A run is not as it must be."""


def brief(text):
    """A text without the ends of its long lines."""
    return "\n".join(line[:400] for line in text.splitlines())


def compiled(folder):
    """The library, compiled into a folder."""
    source, library = os.path.join(folder, "refusals.c"), os.path.join(folder, "refusals.so")
    with open(source, "w", encoding="utf-8") as file:
        file.write(LIBRARY)
    subprocess.run(["cc", "-O1", "-fno-builtin", "-shared", "-fPIC", "-o", library, source], check=True)
    return library


def read_back(names):
    return [f"c1 {read}" for name in names for read in READS[name]]


def script_of(names, done):
    """A script that makes collections and does this, and reads all of them behind each line, in a transaction that is
    begun again once it has ended."""
    lines = [f"c1 make {stories.SEVEN_KINDS[name]} {name}" for name in names] + ["c1 begin"]
    for line in done:
        lines.append(line if line in ("turn", "checkpoint") else f"c1 {line}")
        lines += ["c1 begin"] if line in ("commit", "abort") else []
        lines += read_back(names)
    # where an image covers the first block, the first turn lets that go alone
    return lines + ["turn", "turn"]


def asked(ground, setup, script):
    """The case: what makes its ground, a setup, and a script, allocations of which are refused."""
    before, scripted = ([f"| {line}" for line in lines] for lines in (setup, script))
    looked = ["show", "read 0 520", "read 4096 8192", "read 69632 8192"]
    return ["@ refusals", *ground.lines, *before, "play_shared", *scripted, "play_shared", *looked]


def run(library, sweep, is_rest):
    """What the program prints with ample memory, and what each of its children does."""
    with tempfile.TemporaryDirectory() as folder:
        for name, lines in (("index", ["case"]), ("case", asked(sweep.ground, sweep.setup, sweep.script))):
            with open(os.path.join(folder, name), "w", encoding="utf-8") as file:
                file.write("".join(line + "\n" for line in lines))
        environment = {"LD_PRELOAD": library, "REFUSE_SIDE": str(SIDE), **({"REFUSE_REST": "1"} if is_rest else {})}
        done = subprocess.run([CASES], cwd=folder, env=environment, capture_output=True, text=True)
        if done.returncode != 0:
            raise Unlike(f"status {done.returncode}: {done.stderr.strip() or done.stdout[-200:]}")
        children = []
        while os.path.exists(os.path.join(folder, f"refused.{len(children) + 1}")):
            with open(os.path.join(folder, f"refused.{len(children) + 1}"), encoding="utf-8") as file:
                children.append(file.read())
        if not children:
            raise Unlike("no allocation was met")
        # what the program prints behind the setup
        return done.stdout.split("play_shared\n", 2)[2], [child.removeprefix("play_shared\n") for child in children]


def is_of_the_program(child):
    """Whether memory was refused to the program that plays the cases, and not to the store."""
    return re.search(r"^case: line \d+: ", child, re.M) is not None


def parts(printed):
    """The status, the answers and errors, and what is shown and read behind them."""
    played, _, shown = printed.partition("show\n")
    status, *lines = played.splitlines()
    return status, lines, shown


def content(shown):
    return shown.partition("read 0 520\n")[0].removeprefix("= 0\n")


def compare(ordinary, found):
    """Lines are as they must be, or the first that is not is told."""
    for one, other in zip_longest(ordinary, found, fillvalue="nothing"):
        if one != other:
            raise Unlike(brief(f"{other}\nin place of\n{one}"))


def check_one(ordinary, ground, child):
    """One allocation was refused: all is as ever, or the script was refused and the store stays."""
    status, lines, shown = parts(child)
    if status == "= 1":
        if lines != ["! boost: refused 4 NoMemory"] or content(shown) != ground:
            raise Unlike(brief(child))
        return
    again = []
    for line, following in zip(lines, [*lines[1:], ""]):
        refused = REFUSED.fullmatch(line)
        if refused is None:
            again.append(line)
        elif not following.startswith(f"{refused[1]}: "):
            raise Unlike(brief(child))
    ordinary_status, ordinary_lines, ordinary_shown = parts(ordinary)
    compare([ordinary_status, *ordinary_lines, *ordinary_shown.splitlines()], [status, *again, *shown.splitlines()])


class Rest:
    """The lines of a script that were answered where all memory is refused from some allocation on, and a store of the
    model on which those alone are played that were not refused."""

    def __init__(self, store):
        self.store = store
        # Whether an abort was refused, which may have taken some calls back.
        self.may_fall = False

    def is_left_out(self, line, answer):
        """Whether a line was refused for want of memory, or since an abort was before it, or for want of room."""
        if line in ("turn", "checkpoint") and answer == "refused 18 Full":
            return True
        if answer == "refused 4 NoMemory":
            self.may_fall |= line.endswith(" abort")
            return True
        return answer == "refused 11 Falling" and self.may_fall

    def keep(self, answer):
        """A turn or a checkpoint tells how much is kept, at least what was, or that it did nothing: a turn is held behind a checkpoint
        that was refused memory half-way, whose image its block waits for."""
        told = re.fullmatch(r"(?:kept|flipped) (\d+)", answer)
        if told is None:
            return answer in ("idle", "held")
        is_true = self.store.mark <= int(told[1]) <= self.store.places
        self.store.mark = int(told[1])
        return is_true

    def play(self, line, answer):
        """Plays a line that was answered so."""
        if self.is_left_out(line, answer):
            return
        is_kept = line in ("turn", "checkpoint")
        is_right = self.keep(answer) if is_kept else stories.brief(self.store.line(line)) == answer
        if not is_right:
            raise Unlike(f"{line}: {answer}")


def check_rest(sweep, ordinary, child):
    """All allocations from one on were refused: the lines that were not are answered as they are alone, and what is
    shown is a beginning that has what was kept."""
    status, lines, shown = parts(child)
    if status == "= 1":
        # there is no memory for the words either
        if lines not in ([], ["! boost: refused 4 NoMemory"]) or content(shown) != sweep.contents[0]:
            raise Unlike(brief(child))
        return
    refused = next((at for at, line in enumerate(lines) if REFUSED.search(line)), len(lines))
    compare(parts(ordinary)[1][:refused], lines[:refused])
    # of a line that was run once more the second answer counts
    answers = dict(line.split(": ", 1) for line in lines)
    rest = Rest(sweep.model())
    for number, line in enumerate(sweep.script, 1):
        rest.play(line, answers.get(str(number), "nothing"))
    if content(shown) not in map(sweep.as_printed, rest.store.shown[rest.store.mark : rest.store.places + 1]):
        raise Unlike(brief(child))


class Sweep:
    """A script behind a setup, each of whose allocations is refused in one of the two ways. The answers are those of
    the model, and the contents what is shown after each place."""

    def __init__(self, name, setup, script, ground=stories.EMPTY):
        self.name, self.setup, self.script, self.ground = name, setup, script, ground
        model = self.model()
        full = FULL.get(name, {})
        answers = [full.get(number, model.line(line)) for number, line in enumerate(script, 1)]
        self.answers = [stories.brief(f"{number}: {answer}") for number, answer in enumerate(answers, 1)]
        self.contents = [self.as_printed(text) for text in model.shown]

    def model(self):
        """A store of the model, as it is before the script: the one that the setup left was opened again."""
        store, _ = stories.played(self.ground, self.setup)
        store.reopen()
        return store

    def as_printed(self, shown):
        """What is shown, with the ground, as the program prints it: long runs of one character are cut short."""
        return "".join(stories.brief(line) + "\n" for line in (self.ground.shown + shown).splitlines())

    def check(self, ordinary, child, is_rest):
        if is_rest:
            check_rest(self, ordinary, child)
        else:
            check_one(ordinary, self.contents[0], child)

    def counts(self, library, is_rest):
        """Counts the allocations that were refused, those of the program itself, and the lines that were refused."""
        ordinary, children = run(library, self, is_rest)
        if parts(ordinary)[:2] != ("= 0", self.answers):
            raise Unlike(f"{self.name}: with ample memory:\n{brief(ordinary)}")
        own = [is_of_the_program(child) for child in children]
        for number, (child, is_own) in enumerate(zip(children, own), 1):
            try:
                None if is_own else self.check(ordinary, child, is_rest)
            except Unlike as unlike:
                way = "rest" if is_rest else "one"
                raise Unlike(f"{self.name}: allocation {number} of {len(children)}, {way}:\n{unlike}") from None
        return len(children), sum(own), sum(len(REFUSED.findall(child)) for child in children)


def sweeps_of(name):
    """The script of this name on an empty store. Behind one of DONE the store that it left is opened and read too."""
    if name in stories.SWEPT:
        return [Sweep(name, [], list(stories.expanded(stories.SWEPT[name])))]
    if name in STORIES:
        ground, script = STORIES[name]
        return [Sweep(name, [], script, ground)]
    names, done = DONE[name]
    script = script_of(names, done)
    again = ["c9 make counter y", "turn", "c1 begin", *read_back(names)]
    return [Sweep(name, [], script), Sweep(f"{name}, opened", script, again)]


def main():
    names = sys.argv[1:] or [*DONE, *stories.SWEPT, *STORIES]
    with tempfile.TemporaryDirectory() as folder:
        library = compiled(folder)
        for sweep in [sweep for name in names for sweep in sweeps_of(name)]:
            met, own, refused = map(sum, zip(*(sweep.counts(library, is_rest) for is_rest in (False, True))))
            counted = f"{met} allocations refused, {own} of them the program's own, {refused} lines answered NoMemory"
            print(f"{sweep.name}: {counted}", flush=True)


if __name__ == "__main__":
    try:
        main()
    except Unlike as unlike:
        raise SystemExit(f"refusals: {unlike}") from None
