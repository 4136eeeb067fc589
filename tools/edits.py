#!/usr/bin/env python3
"""edits.py CRATE [WORD..]: tries the crate's edits (those whose names contain a WORD) as the gate does, and times each: those of
`must-fail/`, which the gate tries too, and those of `edits/`, which it leaves out.

Each is tried over a copy of what the last check kept, so check the crate first. A line tells the processor seconds, the
seconds, the modules that took most of these, and what refused the edit. With --anew as the one WORD it times a check of the
crate from nothing, in processor seconds: the one measure that says whether an answer made a proof cheaper.
"""
import glob
import importlib.machinery
import importlib.util
import os
import resource
import shutil
import sys
import tempfile
import time

RT = os.path.realpath(shutil.which("rt"))


def kit():
    """rt as a module, which holds the gate's own way to try an edit."""
    sys.path.insert(0, os.path.dirname(RT))
    loader = importlib.machinery.SourceFileLoader("rt_of_the_kit", RT)
    module = importlib.util.module_from_spec(importlib.util.spec_from_loader(loader.name, loader))
    loader.exec_module(module)
    module.rtlib.guarded()
    return module


def dearest(folder, began, ended):
    """The modules made since then, each with the seconds since the one before it: the four dearest."""
    made = []
    for at, _, names in os.walk(folder):
        for name in names:
            when = os.path.getmtime(f"{at}/{name}")
            if name.endswith(".oantt") and when > began:
                made.append((when, name.removesuffix(".oantt").split("proofs.")[-1]))
    befores = [began] + [when for when, _ in sorted(made)]
    took = [(when - before, name) for before, (when, name) in zip(befores, sorted(made))]
    took.append((ended - befores[-1], "what is behind"))
    return "; ".join(f"{seconds:.1f} {name}" for seconds, name in sorted(took, reverse=True)[:4])


def used():
    """The processor seconds of the checks so far."""
    so_far = resource.getrusage(resource.RUSAGE_CHILDREN)
    return so_far.ru_utime + so_far.ru_stime


def from_nothing(rt, crate, room):
    """Prints what a check of the crate from nothing takes."""
    ran = rt.checked(crate, {}, ["--jobs", "1"], room)
    print(f"{used():.1f} processor seconds:", ran.stdout.rstrip().split("\n")[-1][:40])


def edits_of(crate):
    """The files of the crate's edits: those that the gate tries, and behind them the others."""
    return [file for folder in ("must-fail", "edits") for file in sorted(glob.glob(f"{crate.folder}/{folder}/*.edit"))]


def edits(rt, crate, words, room):
    """Tries the crate's edits, one after another."""
    for edit in edits_of(crate):
        name = os.path.basename(edit)
        if words and not any(word in name for word in words):
            continue
        over = f"{room}/{name}"
        # (links: a check writes a new file for each module that it makes)
        shutil.copytree(f"{crate.folder}/out/incremental", over, copy_function=os.link)
        began, before = time.time(), used()
        _, said = rt.must_fail(crate, edit, ["--jobs", "1"], over)
        ended = time.time()
        print(f"{used() - before:6.1f} {ended - began:6.1f} {dearest(over, began, ended)}\n       {said[:200]}", flush=True)
        shutil.rmtree(over)


def main(name, *words):
    rt = kit()
    crate = next(it for it in rt.rtlib.crates_below(os.getcwd()) if it.name == name)
    # (beside the crate's own work, so that links can be made)
    with tempfile.TemporaryDirectory(dir=f"{crate.folder}/out") as room:
        if words == ("--anew",):
            from_nothing(rt, crate, room)
        else:
            edits(rt, crate, words, room)


if __name__ == "__main__":
    if len(sys.argv) < 2:
        sys.exit(__doc__)
    main(*sys.argv[1:])
