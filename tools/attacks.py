#!/usr/bin/env python3
"""attacks.py [PROGRAM]: runs the program on paths and scripts that mean harm, and compares what it answers with what is written here.

Paths that are folders, pipes, links, devices, read-only or in use by another run; scripts that are none, endless or much too
long; areas that are no numbers; output that cannot be written; files that are made in the place of others, without room, and
stopped. Each run has a status and a first line on standard error (none where it says nothing), and must leave the bytes of the
disk where that is asked. The program is the proved one of
crates/boost_main, or the one that is named. It runs as nobody where this script runs as root. The last line tells how many
runs there were.
"""
import os
import random
import resource
import signal
import stat
import subprocess
import sys
import tempfile
import time

TOP = os.path.dirname(os.path.dirname(os.path.realpath(__file__)))
BOOST = os.path.join(TOP, "crates/boost_main/out/boost_main")
NOBODY = 65534
AREA = "65536"
HITS = "c1 make counter hits\nc1 begin\nc1 call hits bump 1\nc1 commit\nturn\n"
ANSWERS = "1: place 1\n2: begun 1\n3: done\n4: place 2\n5: kept 2\n"
# an answer for each line that does not fit into a pipe
LONG = "c1 kept\n" * 20000


class Folder:
    """A folder with a store `disk`, a script `hits`, and what an attack puts there."""

    def __init__(self, path, program):
        self.path, self.program, self.runs, self.wrong = path, program, 0, []
        os.chmod(path, 0o777)
        self.write("hits", HITS)
        self.write("long", LONG)
        self.expect(0, "", "format", "disk", "--area", AREA)

    def write(self, name, text):
        with open(os.path.join(self.path, name), "wb") as file:
            file.write(text if isinstance(text, bytes) else text.encode())
        os.chmod(os.path.join(self.path, name), 0o666)

    def write_into_pipe(self, text):
        """A pipe `written`, into which another process writes a text."""
        path = os.path.join(self.path, "written")
        if not os.path.exists(path):
            os.mkfifo(path)
            os.chmod(path, 0o666)
        subprocess.Popen(["sh", "-c", f"printf '{text}' > written"], cwd=self.path)

    def read(self, name):
        with open(os.path.join(self.path, name), "rb") as file:
            return file.read()

    def how(self, memory=None, size=None):
        def before():
            if memory:
                resource.setrlimit(resource.RLIMIT_AS, (memory, memory))
            if size is not None:
                resource.setrlimit(resource.RLIMIT_FSIZE, (size, size))
            if os.getuid() == 0:
                os.setgid(NOBODY)
                os.setuid(NOBODY)

        # (the signal for a file that gets too large is ignored, as Python does, so that the write is refused)
        return {"cwd": self.path, "preexec_fn": before, "restore_signals": size is None}

    def start(self, *words):
        """A run whose output nobody reads but for the first byte: it has the disk then."""
        run = subprocess.Popen([self.program, *words], stdout=subprocess.PIPE, **self.how())
        run.stdout.read(1)
        return run

    def expect(self, status, said, *words, out=None, stdout=subprocess.PIPE, memory=None, size=None, why=None):
        """A run must end so: with this status, this first line of errors and, where they are told, this second one and output."""
        done = subprocess.run([self.program, *words], stdin=subprocess.DEVNULL, stdout=stdout, stderr=subprocess.PIPE, timeout=300,
                              **self.how(memory, size))
        self.runs += 1
        first, second = (done.stderr.decode(errors="replace").split("\n") + [""])[:2]
        printed = (done.stdout or b"").decode(errors="replace")
        is_said = (first.startswith(said[:-1]) if said.endswith("*") else first == said) and why in (None, second)
        if done.returncode != status or not is_said or (out is not None and printed != out):
            shown = [word if len(word) < 60 else word[:60] + ".." for word in words]
            self.wrong.append(f"{shown}: status {done.returncode}, said {first!r}, printed {printed[:200]!r}")


def cannot(path):
    return f"boost: cannot open {path}"


def attack_paths(at):
    """The disk is no file that can be read and written."""
    os.mkdir(os.path.join(at.path, "folder"))
    os.mkfifo(os.path.join(at.path, "pipe"), 0o666)
    os.chmod(os.path.join(at.path, "pipe"), 0o666)
    os.symlink("nowhere/disk", os.path.join(at.path, "dangling"))
    os.symlink("loop", os.path.join(at.path, "loop"))
    for name in ("folder", "pipe", "missing", "dangling", "loop", "/dev/null", "/dev/full", "disk/x", "folder/", "n" * 5000):
        for words in (("play", name, "hits"), ("serve", name, "hits"), ("show", name), ("check", name), ("stat", name),
                      ("show", "--read-only", name), ("copy", name, "made", "--area", AREA)):
            at.expect(4, cannot(name), *words, out="")
    for name in ("folder", "pipe", "dangling", "loop", "/dev/null", "/dev/full", "disk/x", "n" * 5000):
        at.expect(4, cannot(name), "format", name, "--area", AREA, out="")
    at.expect(4, "boost: cannot open *", "show", "", out="")


def attack_rights(at):
    """The file may not be written, or its folder."""
    at.write("kept", at.read("disk"))
    os.chmod(os.path.join(at.path, "kept"), 0o444)
    for words in (("play", "kept", "hits"), ("show", "kept"), ("format", "kept", "--area", AREA), ("copy", "disk", "kept", "--area", AREA)):
        at.expect(4, cannot("kept"), *words, out="")
    for words in (("check", "kept"), ("stat", "kept"), ("show", "--read-only", "kept")):
        at.expect(0, "", *words)
    os.mkdir(os.path.join(at.path, "closed"), 0o555)
    at.expect(4, cannot("closed/disk"), "format", "closed/disk", "--area", AREA, out="")


def attack_links(at):
    """A link to a store is that store; so is another name of its file."""
    at.expect(0, "", "format", "linked", "--area", AREA)
    os.symlink("linked", os.path.join(at.path, "link"))
    os.link(os.path.join(at.path, "linked"), os.path.join(at.path, "other"))
    at.expect(0, "", "play", "link", "hits", out=ANSWERS)
    at.expect(0, "", "show", "other", out="counter hits\n  1\n")


def attack_twice(at):
    """A disk that another run has is not opened, by whatever name, and stays as it is. The lock ends with the run."""
    for name in ("busy", "free"):
        at.expect(0, "", "format", name, "--area", AREA)
    os.symlink("busy", os.path.join(at.path, "busy_link"))
    os.link(os.path.join(at.path, "busy"), os.path.join(at.path, "busy_other"))
    before = at.read("busy")
    first = at.start("play", "busy", "long")
    for name in ("busy", "busy_link", "busy_other"):
        for words in (("play", name, "hits"), ("serve", name, "hits"), ("show", name), ("check", name),
                      ("format", name, "--area", "131072")):
            at.expect(4, cannot(name), *words, out="")
    at.expect(0, "", "play", "free", "hits", out=ANSWERS)
    if at.read("busy") != before:
        at.wrong.append("a refused run changed the disk")
    first.kill()
    first.wait()
    first.stdout.close()
    at.expect(0, "", "play", "busy", "hits", out=ANSWERS)


def attack_scripts(at):
    """The script is none, and the disk stays as it is."""
    before = at.read("disk")
    at.expect(4, cannot("folder"), "play", "disk", "folder", out="")
    at.expect(4, cannot("missing"), "play", "disk", "missing", out="")
    at.expect(4, cannot("missing"), "play", "gone", "missing", out="")
    at.expect(3, "boost: line 1: not understood", "play", "disk", "disk", out="")
    for name, script, line in (
        ("crlf", "turn\r\n", 1), ("bom", "\ufeffturn\n", 1), ("latin", "turn\n# caf\u00e9\n".encode("latin-1"), 1),
        ("zero", "turn\0\n", 1), ("twice", "c1  begin\n", 1), ("tab", "c1\tbegin\n", 1), ("behind", "turn \n", 1),
        ("client", "c65 begin\n", 1), ("none", "c0 begin\n", 1), ("leading", "c01 begin\n", 1), ("large", "turn\n" * 9 + "TURN", 10),
        ("number", "c1 call q take\nc1 call s add 18446744073709551616\n", 2), ("minus", "c1 call n bump -0\n", 1),
        ("odd", "c1 call m put 1 abc\n", 1), ("upper", "c1 call m put 1 AB\n", 1), ("huge", "c1 call s add " + "9" * 1000000, 1),
        ("words", "c1 " * 300000, 1), ("late", "# x\n" * 100000 + "?", 100001),
    ):
        at.write(name, script)
        for command in ("play", "serve"):
            at.expect(3, f"boost: line {line}: not understood", command, "disk", name, out="")
    if at.read("disk") != before:
        at.wrong.append("a script that was not understood changed the disk")
    at.expect(1, "boost: refused 4 NoMemory", "play", "disk", "/dev/zero", out="", memory=1 << 29)


def attack_lines(at):
    """Lines that are understood, and are as long or as many as they can be."""
    at.expect(0, "", "format", "lines", "--area", AREA)
    at.write("empty", "")
    at.expect(0, "", "play", "lines", "empty", out="")
    at.write("blank", "\n" * 1000000)
    at.expect(0, "", "play", "lines", "blank", out="")
    at.write("name", "c1 make set " + "a" * 1000000)
    at.expect(0, "", "play", "lines", "name", out="1: refused 3 TooLong\n")
    at.write("value", "c1 make map m\nc1 begin\nc1 call m put 1 " + "00" * 500000)
    at.expect(0, "", "play", "lines", "value", out="1: place 1\n2: begun 1\n3: refused 3 TooLong\n")
    at.write("strange", "c1 make set \u00e9\nc1 make set /\nc1 make set \x01\nc1 call \u202e take\n")
    at.expect(0, "", "play", "lines", "strange",
              out="1: refused 1 BadName\n2: refused 1 BadName\n3: refused 1 BadName\n4: refused 10 NoSuchTxn\n")
    at.write_into_pipe("turn")
    at.expect(0, "", "play", "lines", "written", out="1: idle\n")
    at.write_into_pipe("c64 kept\\nturn\\n")
    at.expect(0, "", "serve", "lines", "written", out="c64:\n1: no ticket\nend: no ticket\n")


def attack_areas(at):
    """The area is no number, or out of its range: no file is made or touched."""
    before = at.read("disk")
    for area in ("", " ", "-1", "+65536", "065536", "64k", "64KB", "64T", "65536 ",
                 "0x10000", "1e5", "65536.0", "18446744073709551616", "\u0666", "a" * 100000):
        at.expect(2, "error: *", "format", "disk", "--area", area, out="")
        at.expect(2, "error: *", "format", "unmade", "--area", area, out="")
    for area in ("0", "1", "65535", "1073741825", "18446744073709551615"):
        at.expect(1, "boost: refused 2 BadArg", "format", "disk", "--area", area, out="")
        at.expect(1, "boost: refused 2 BadArg", "format", "unmade", "--area", area, out="")
    if at.read("disk") != before or os.path.exists(os.path.join(at.path, "unmade")):
        at.wrong.append("a bad area touched a file")
    for words in ((), ("play",), ("play", "disk"), ("show",), ("show", "disk", "disk"), ("format", "disk"), ("nothing",), ("--",)):
        at.expect(2, "*", *words, out="")


def attack_output(at):
    """Output cannot be written: the status says so, and no text."""
    at.expect(0, "", "format", "told", "--area", AREA)
    for words in (("play", "told", "hits"), ("serve", "told", "hits"), ("show", "told"), ("check", "told"), ("demo",)):
        with open("/dev/full", "wb") as full:
            at.expect(4, "", *words, stdout=full)


def attack_sizes(at):
    """Files that are no stores, and one that is empty of all but its head."""
    whole = at.read("disk")
    for name, bytes_of in (("nothing", b""), ("one", b"B"), ("short", whole[:-1]), ("longer", whole + b"\0"), ("head", whole[:4096]),
                           ("text", b"x" * len(whole))):
        at.write(name, bytes_of)
        for words in (("play", name, "hits"), ("serve", name, "hits"), ("show", name), ("check", name)):
            at.expect(1, "boost: refused 21 NotAStore", *words, out="")
        if at.read(name) != bytes_of:
            at.wrong.append(f"a refused run changed {name}")


def attack_making(at):
    """A file that is made takes the place of another one once it is whole, and not before: where it is refused, finds no room or is
    stopped, that one stays, and no other name is left. It is its owner's alone, or has the mode of the one before."""
    at.write("notes", "precious")
    at.write("no_store", b"x" * 135168)
    puts = "".join(f"c1 call m put {key} {'ab' * 256}\n" for key in range(300))
    at.write("puts", f"c1 make map m\nc1 begin\n{puts}c1 commit\n" + "turn\n" * 9)
    at.expect(0, "", "format", "source", "--area", "131072")
    at.expect(0, "", "play", "source", "puts")
    at.expect(0, "", "format", "target", "--area", AREA)
    at.expect(0, "", "play", "target", "hits", out=ANSWERS)
    mode = lambda name: stat.S_IMODE(os.stat(os.path.join(at.path, name)).st_mode)  # noqa: E731
    if mode("target") != 0o600:
        at.wrong.append(f"a new file has the mode {mode('target'):o}")
    os.chmod(os.path.join(at.path, "target"), 0o640)
    before = {name: at.read(name) for name in ("notes", "target", "source")}
    for name in ("notes", "target"):
        at.expect(1, f"boost: {name} holds bytes: --force empties it", "format", name, "--area", AREA, out="")
    at.expect(1, "boost: refused 21 NotAStore", "copy", "no_store", "target", "--area", "131072", out="")
    at.expect(1, "boost: refused 18 Full", "copy", "source", "target", "--area", AREA, out="")
    at.expect(1, "boost: refused 2 BadArg", "copy", "target", "target", "--area", AREA, out="", why="boost: OLD and NEW are two files")
    at.expect(4, cannot("missing"), "copy", "missing", "target", "--area", AREA, out="")
    too_large = "boost: File too large (os error 27)"
    at.expect(4, cannot("target"), "copy", "source", "target", "--area", "131072", out="", size=100000, why=too_large)
    at.expect(4, cannot("more"), "format", "more", "--area", "131072", "--reserve", out="", size=100000, why=too_large)
    at.expect(1, "boost: refused 19 Fault", "upgrade", "target", out="", size=4096, why=too_large)
    for name, bytes_of in before.items():
        if at.read(name) != bytes_of:
            at.wrong.append(f"a refused run changed {name}")
    at.expect(0, "", "show", "source")
    shown = [subprocess.run([at.program, "show", "--read-only", name], cwd=at.path, stdout=subprocess.PIPE, check=True).stdout
             for name in ("target", "source")]
    for _ in range(30):
        copying = subprocess.Popen([at.program, "copy", "source", "target", "--area", "262144"], stdout=subprocess.DEVNULL, **at.how())
        time.sleep(random.uniform(0, 0.03))
        copying.send_signal(signal.SIGKILL)
        copying.wait()
        at.runs += 1
        found = subprocess.run([at.program, "show", "--read-only", "target"], cwd=at.path, stdout=subprocess.PIPE, check=False).stdout
        if found not in shown:
            at.wrong.append(f"a copy that was stopped left {found[:60]!r}")
    at.expect(0, "", "copy", "source", "target", "--area", "262144", out="copied\n")
    if mode("target") != 0o640:
        at.wrong.append(f"a file in the place of another one has the mode {mode('target'):o}")
    at.expect(0, "", "format", "target", "--area", AREA, "--force", out="")
    left = [name for name in os.listdir(at.path) if name.endswith(".unfinished")]
    if left or os.path.exists(os.path.join(at.path, "more")):
        at.wrong.append(f"left {left}")


def main():
    program = os.path.realpath(sys.argv[1]) if len(sys.argv) > 1 else BOOST
    attacks = (attack_paths, attack_rights, attack_links, attack_twice, attack_scripts, attack_lines, attack_areas, attack_output,
               attack_sizes, attack_making)
    with tempfile.TemporaryDirectory() as path:
        at = Folder(path, program)
        for attack in attacks:
            attack(at)
    for wrong in at.wrong:
        print(wrong)
    print(f"{at.runs} runs, {len(at.wrong)} not as written")
    return 1 if at.wrong else 0


if __name__ == "__main__":
    sys.exit(main())
