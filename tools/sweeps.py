#!/usr/bin/env python3
"""sweeps.py [SEED..]: fails and stops generated stories at each call of the disk and behind the last one, and the opening of what
is left at each of its own.

The program is `cases`, proved and built (`rt run` in crates/cases builds it), with the question `sweep` (docs/CASES.md). The
stories are those of the seeds, on an empty store, with collections of all kinds. Where none is given they are 5, 6 and 8, then 25
and 38 on a store whose image has two blocks, 41, which has a stock, 44 with picks of a set, and 47 with quotas. Then it opens
20,000 areas of bytes of a generator. It prints the figures of each, and ends with status 1 where something was not as the model
of tools/stories.py tells.
"""
import os
import re
import subprocess
import sys
import tempfile
from pathlib import Path

import stories

TOP = os.path.dirname(os.path.dirname(os.path.realpath(__file__)))
CASES = os.path.join(TOP, "crates/cases/out/cases")
AREAS = ["@ areas", *(f"| {line}" for line in stories.HITS), "play", "areas 2 20000"]


def scripts(words):
    """The stories that are swept, each on its ground."""
    if words:
        return {f"story_{word}": (stories.EMPTY, stories.story(int(word), 40, stories.SEVEN_KINDS)) for word in words}
    found = {f"story_{seed}": (stories.EMPTY, stories.story(seed, 40)) for seed in (5, 6, 8)}
    found.update({f"story_{seed}": (stories.wide(), stories.story(seed, 20)) for seed in (25, 38)})
    found["story_41"] = (stories.EMPTY, stories.story(41, 60, stories.SIX_KINDS))
    found["story_44"] = (stories.EMPTY, stories.story(44, 60, stories.WITH_JOBS))
    found["story_47"] = (stories.EMPTY, stories.story(47, 60, stories.SEVEN_KINDS))
    return found


def main():
    with tempfile.TemporaryDirectory() as folder:
        stories.write_sweeps(Path(folder), scripts(sys.argv[1:]))
        Path(folder, "areas").write_text("\n".join(AREAS) + "\n")
        Path(folder, "index").write_text("sweeps\nareas\n")
        done = subprocess.run([CASES], cwd=folder, capture_output=True, text=True)
    print(done.stdout, end="")
    figures = re.findall(r" (\d+) (?:not as told|answered in two ways|answered otherwise)$", done.stdout, re.M)
    if done.returncode != 0 or not figures or any(int(figure) for figure in figures):
        sys.exit(f"sweeps: not as told{done.stderr and ': '}{done.stderr.strip()}")


if __name__ == "__main__":
    main()
