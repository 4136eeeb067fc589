#!/usr/bin/env python3
"""wrong_bodies.py [CRATE..]: tries each edit of the crates, those of `must-fail/`, which the gate tries too, and those of
`edits/`, which it leaves out. With no CRATE it tries those of all crates.

Edits in different functions of a crate are tried in one check, over what the crate's last `rt check` kept, so check the crate
first. An edit is refused where a goal of its own function is open then, or an answer of it is false; that a function it calls is
not proved does not count. Where that is not to be seen the edit is tried by itself, as the gate does. The status is 1 where an edit
is not refused.
"""
import os
import re
import shutil
import sys
import tempfile
import time
from collections import namedtuple

sys.path.insert(0, os.path.dirname(os.path.abspath(__file__)))
from edits import edits_of, kit, used

# An edit: its file, the function that it changes as a check names it, and its pairs of texts by file.
Edit = namedtuple('Edit', 'file function pairs')

HEADER = re.compile(r'^(?:pub(?:\([a-z]+\))? )?(?:unsafe )?(impl|trait|mod)\b(.*)')
FUNCTION = re.compile(r'^\s*(?:pub(?:\([a-z]+\))? )?(?:const )?fn (\w+)')


def pairs_of(text):
    """The (file, old, new) of an edit's text."""
    path, old, found = '', None, []
    for line in text.split('\n'):
        if line.startswith('file: '):
            path = line[len('file: '):].strip()
        elif line.startswith('old: '):
            old = line[len('old: '):]
        elif line.startswith('new:') and old is not None:
            found.append((path, old, line[len('new:'):].removeprefix(' ')))
            old = None
    return found


def owner_of(header):
    """The name under which a check prints the methods of an `impl` or a `trait`: `Type`, or `TypeTrait`."""
    words = re.sub(r'<[^<>]*>', '', re.sub(r'<[^<>]*>', '', re.sub(r'<[^<>]*>', '', header))).replace("'_", '')
    names = [re.findall(r'\w+', part)[-1:] for part in re.split(r'\bfor\b|\bwhere\b', words)[:2]]
    names = [name[0] for name in names if name]
    return ''.join(reversed(names))


def function_at(lines, at):
    """The function in which a line stands, with what it belongs to: (owner, name); none where it is in no function."""
    for number in range(at, -1, -1):
        found = FUNCTION.match(lines[number])
        if found:
            name, indent = found[1], len(lines[number]) - len(lines[number].lstrip())
            break
    else:
        return None
    if not indent:
        return '', name
    for above in range(number, -1, -1):
        header = HEADER.match(lines[above])
        if header:
            whole = ' '.join(lines[above:number]).split('{')[0]
            return owner_of(re.sub(r'^.*?\b(?:impl|trait)\b', '', whole)), name
    return None


def edit_in(crate, file):
    """The edit of a file. Its function is none where it changes no one function."""
    with open(file, encoding='utf-8') as it:
        pairs = pairs_of(it.read())
    functions = set()
    for path, old, _ in pairs:
        with open(f'{crate.folder}/{path}', encoding='utf-8') as it:
            text = it.read()
        inside = path.startswith('src/') and function_at(text.split('\n'), text[:text.find(old)].count('\n'))
        functions.add((path, *inside) if inside else None)
    function = functions.pop() if len(functions) == 1 else None
    return Edit(file, function, pairs)


def applied(crate, edits):
    """The texts that the edits together leave, by file; none where one cannot be made beside the others."""
    texts = {}
    for path, old, new in (pair for edit in edits for pair in edit.pairs):
        if path not in texts:
            with open(f'{crate.folder}/{path}', encoding='utf-8') as it:
                texts[path] = it.read()
        if texts[path].count(old) != 1:
            return None
        texts[path] = texts[path].replace(old, new)
    return texts


def rounds_of(crate, edits):
    """The edits in rounds, in each of which no function is changed twice."""
    rounds = []
    for edit in edits:
        for together in rounds:
            if edit.function not in [it.function for it in together] and applied(crate, [*together, edit]):
                together.append(edit)
                break
        else:
            rounds.append([edit])
    return rounds


def is_verdict_on(line, crate, function):
    """Whether a line of a check is the verdict on the function."""
    path, owner, name = function
    module = [it for it in path.removeprefix('src/').removesuffix('.rt').split('/') if it not in ('lib', 'main')]
    wanted = '::'.join([crate.name, *module, *([owner] if owner else []), name])
    return line.startswith(f'fn {wanted}: ')


def refused_by(said, crate, function):
    """What of the function itself a check did not prove, if that is to be seen."""
    verdict = next((it for it in said if is_verdict_on(it, crate, function)), '')
    of_itself = re.search(r'`search` did not prove `([^`]+)`', verdict)
    if of_itself:
        return of_itself[1]
    _, owner, name = function
    folder = '/'.join([*([owner] if owner else []), name])
    wrong = re.compile(rf'(?:\./)?proofs/(?:\w+/)*{re.escape(folder)}/\w+\.antt:\d+:\d+: error: `([^`]+)`: (?!.*is not in scope)')
    found = next((it for it in map(wrong.match, said) if it), None)
    return found[1] if found and ': not proved' in verdict else None


def try_together(rt, crate, edits, seed):
    """Tries edits in one check: what refused each, or none where that is not to be seen."""
    with tempfile.TemporaryDirectory(dir=f'{crate.folder}/out') as room:
        shutil.copytree(seed, f'{room}/over', copy_function=os.link)
        ran = rt.checked(crate, applied(crate, edits), ['--jobs', '1'], f'{room}/over')
    said = ran.stdout.split('\n')
    return [refused_by(said, crate, it.function) if ran.returncode == 1 else None for it in edits]


def try_alone(rt, crate, edit, seed):
    """Tries an edit by itself, as the gate does: whether it is refused, and what is said."""
    with tempfile.TemporaryDirectory(dir=f'{crate.folder}/out') as room:
        shutil.copytree(seed, f'{room}/over', copy_function=os.link)
        kind, said = rt.must_fail(crate, edit.file, ['--jobs', '1'], f'{room}/over')
    return kind in (rt.REFUSED, rt.AT_LIMIT), said


def try_crate(rt, crate):
    """Tries the edits of a crate, prints what each came to, and answers those that are not refused."""
    edits = [edit_in(crate, file) for file in edits_of(crate)]
    seed = f'{crate.folder}/out/incremental'
    if not edits:
        return []
    if not os.path.isdir(seed):
        print(f'{crate.name}: run rt check there first')
        return [it.file for it in edits]
    began, before = time.time(), used()
    alone, lost = [it for it in edits if it.function is None], []
    rounds = rounds_of(crate, [it for it in edits if it.function])
    for together in rounds:
        for edit, goal in zip(together, try_together(rt, crate, together, seed)):
            if goal:
                print(f'{crate.name}/{os.path.basename(edit.file)}: refused by {goal}', flush=True)
            else:
                alone.append(edit)
    for edit in alone:
        is_refused, said = try_alone(rt, crate, edit, seed)
        print(said, flush=True)
        lost += [] if is_refused else [edit.file]
    print(f'{crate.name}: {len(edits) - len(lost)} of {len(edits)} refused, in {len(rounds)} checks together and {len(alone)} alone,'
          f' {time.time() - began:.0f} seconds, {used() - before:.0f} of a processor', flush=True)
    return lost


def main(*names):
    rt = kit()
    crates = [it for it in rt.rtlib.crates_below(os.getcwd()) if not names or it.name in names]
    lost = [file for crate in crates for file in try_crate(rt, crate)]
    for file in lost:
        print(f'NOT REFUSED: {os.path.relpath(file)}')
    return 1 if lost else 0


if __name__ == '__main__':
    sys.exit(main(*sys.argv[1:]))
