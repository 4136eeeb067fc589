#!/usr/bin/env python3
"""times.py CRATE [N]: where the seconds of a crate's last check from nothing went.

A check keeps each module in out/incremental as soon as it is checked, so the time between two files is what the second
one took. Prints the sum for each kind of module (Lts: a function's code; Proof: the goals that have no answer; Tie: the
borrow checker's part; theory: definitions and lemmas), and the N dearest modules, 25 if N is not given. Where the check
was not from nothing, or other work stood beside it, the numbers say little.
"""
import os
import re
import sys
from collections import Counter

OF_FUNCTIONS = "Lts Proof Answers Tie Reads Layout Code Mir Met Goals Given Kinds View Statement".split()


def modules(folder):
    """Yields (seconds, name) of each module that was kept, in the order in which they were checked."""
    found = []
    for at, _, names in os.walk(folder):
        if os.path.basename(at) != "records":
            found += [(os.path.getmtime(f"{at}/{name}"), name) for name in names if name.endswith(".oantt")]
    before = None
    for when, name in sorted(found):
        yield (when - before if before else 0.0), name.removesuffix(".oantt")
        before = when


def kind_of(name):
    last = name.rpartition(".")[2]
    if last in OF_FUNCTIONS:
        return last
    return "theory" if re.search(r"-specs\.|-proofs\.[A-Z]", name) else "rest"


def main(crate, count="25"):
    took = list(modules(f"crates/{crate}/out/incremental"))
    kinds = Counter()
    for seconds, name in took:
        kinds[kind_of(name)] += seconds
    print(f"{sum(kinds.values()):.0f} s:", ", ".join(f"{kind} {seconds:.0f}" for kind, seconds in kinds.most_common()))
    for seconds, name in sorted(took, reverse=True)[: int(count)]:
        print(f"{seconds:6.1f}  {name}")


if __name__ == "__main__":
    if len(sys.argv) not in (2, 3):
        sys.exit(__doc__)
    main(*sys.argv[1:])
