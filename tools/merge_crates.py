#!/usr/bin/env python3
"""merge_crates.py OLD NEW: makes the crate OLD a part of the crate NEW, in the work tree.

Files move with git, paths turn (`Rattle.OLD.` to `Rattle.NEW.`, `use OLD::` to `use NEW::` or `use crate::`), the lists of modules and
crates.txt are put together, and so are pages that name the crate. What lies in OLD's lib.rt becomes a module of its name. No proof changes.
It stops before it moves anything where a file of one name is in both. The head of OLD's lib.rt and its README are printed, to be put into
those of NEW by hand. Behind it come `rt fmt` in NEW, tools/crates_cited.py, tools/definitions.py and a check from NEW on.
"""
import os
import re
import subprocess
import sys

TOP = os.path.dirname(os.path.dirname(os.path.realpath(__file__)))


def read(path):
    with open(path, encoding='utf-8') as file:
        return file.read()


def write(path, text):
    os.makedirs(os.path.dirname(path), exist_ok=True)
    with open(path, 'w', encoding='utf-8') as file:
        file.write(text)


def tracked(folder):
    listed = subprocess.run(['git', 'ls-files', '-co', '--exclude-standard', folder], cwd=TOP, capture_output=True, text=True, check=True)
    return [path for path in listed.stdout.split('\n') if path and os.path.exists(os.path.join(TOP, path))]


def move(path, target):
    os.makedirs(os.path.join(TOP, os.path.dirname(target)), exist_ok=True)
    subprocess.run(['git', 'add', path], cwd=TOP, check=True)
    subprocess.run(['git', 'mv', path, target], cwd=TOP, check=True)


def parts_of(text):
    """The head, the `mod` lines, the `pub use` lines and what else is in a lib.rt."""
    head = re.findall(r'^//!.*$|^#!\[.*$', text, re.M)
    rest = re.sub(r'^//!.*\n|^#!\[.*\n', '', text, flags=re.M)
    modules = re.findall(r'^(?:pub )?mod \w+;$', rest, re.M)
    rest = re.sub(r'^(?:pub )?mod \w+;\n', '', rest, flags=re.M)
    uses = re.findall(r'^pub use [^;]*;$', rest, re.M)
    rest = re.sub(r'^pub use [^;]*;\n', '', rest, flags=re.M)
    return head, modules, uses, rest.strip()


def items_of(rest):
    """The names of the types and of the functions that a lib.rt has."""
    types = re.findall(r'^(?:pub(?:\(crate\))? )?(?:struct|enum|trait|type) (\w+)', rest, re.M)
    functions = re.findall(r'^(?:pub(?:\(crate\))? )?fn (\w+)', rest, re.M)
    public = re.findall(r'^pub (?:struct|enum|trait|type|fn|const|static) (\w+)', rest, re.M)
    return types, functions, public


def merged_lib(new_text, old, modules, uses, public):
    head, its_modules, its_uses, rest = parts_of(new_text)
    its_uses = [use for use in its_uses if not use.startswith(f'pub use {old}::')]
    own = [f'mod {old};'] if public is not None else []
    exported = [f'pub use {old}::{{{", ".join(sorted(public))}}};'] if public else []
    lines = head + [''] + sorted(set(its_modules + modules + own), key=lambda line: line.replace('pub ', ''))
    lines += [''] + sorted(set(its_uses + uses + exported))
    text = '\n'.join(lines) + '\n'
    return text + ('\n' + rest + '\n' if rest else '')


def turned(path, text, old, new, types, functions):
    """The text of a file behind the merge, wherever it lies by then."""
    for name in types:
        text = re.sub(rf'\bRattle\.{old}\.specs\.declared\.{name}\.', f'Rattle.{new}.specs.declared.{old}.{name}.', text)
        text = re.sub(rf'\bRattle\.{old}\.(specs\.contracts|proofs)\.{name}\.', rf'Rattle.{new}.\1.{old}.{name}.', text)
    for name in functions:
        text = re.sub(rf'\bRattle\.{old}\.proofs\.{name}\.', f'Rattle.{new}.proofs.{old}.{name}.', text)
    text = text.replace(f'Rattle.{old}.', f'Rattle.{new}.')
    if path.endswith(('.rt', '.edit')):
        text = re.sub(rf'(?<![\w.:]){old}::', f'{new}::', text)
        if path.startswith(f'crates/{new}/'):
            text = re.sub(rf'^(?! *//)(.*?)(?<![\w.:]){new}::', r'\1crate::', text, flags=re.M)
    elif path.endswith(('.md', '.list', '.py')):
        text = text.replace(f'crates/{old}/', f'crates/{new}/')
        text = re.sub(rf'` of `{old}`', f'` of `{new}`', text)
    return text


def merged_list(text, old, new):
    """crates.txt behind the merge: NEW stands where the later of the two stood."""
    named, order, head = {}, [], []
    for line in text.split('\n'):
        name, colon, libraries = line.partition(':')
        if colon and not line.startswith('#'):
            named[name] = libraries.split()
            order.append(name)
        elif line:
            head.append(line)
    both = sorted(set(named[old] + named[new]) - {old, new})
    order.remove(min(old, new, key=order.index))
    order[order.index(old) if old in order else order.index(new)] = new
    del named[old]
    named[new] = both
    lines = head + [f'{name}: {" ".join(sorted({new if library == old else library for library in named[name]}))}' for name in order]
    return '\n'.join(lines) + '\n'


def main():
    old, new = sys.argv[1:3]
    here, there = f'crates/{old}/', f'crates/{new}/'
    text = read(os.path.join(TOP, here, 'src/lib.rt'))
    head, modules, uses, rest = parts_of(text)
    types, functions, public = items_of(rest)
    skipped = {here + name for name in ('src/lib.rt', 'specs/Lib.antt', 'proofs/Lib.antt', 'README.md')}
    moves = []
    for path in tracked(here):
        inner = path[len(here):]
        folder = inner.split('/')
        if path in skipped:
            continue
        if rest and folder[0] == 'proofs' and folder[1] in types + functions:
            folder.insert(1, old)
        moves.append((path, there + '/'.join(folder)))
    both = [target for _, target in moves if os.path.exists(os.path.join(TOP, target))]
    if both:
        sys.exit('merge_crates.py: in both: ' + ', '.join(both))
    for path, target in moves:
        move(path, target)
    for name in ('specs/Lib.antt', 'proofs/Lib.antt'):
        lists = [read(os.path.join(TOP, folder, name)) for folder in (there, here) if os.path.exists(os.path.join(TOP, folder, name))]
        if lists:
            write(os.path.join(TOP, there, name), '\n'.join(line for text in lists for line in text.split('\n') if line) + '\n')
    if rest:
        write(os.path.join(TOP, there, f'src/{old}.rt'), f'// {head[0][4:] if head else old}\n{rest}\n')
    lib = read(os.path.join(TOP, there, 'src/lib.rt'))
    write(os.path.join(TOP, there, 'src/lib.rt'), merged_lib(lib, old, modules, uses, public if rest else None))
    print('\n'.join(head))
    if os.path.exists(os.path.join(TOP, here, 'README.md')):
        print(read(os.path.join(TOP, here, 'README.md')))
    subprocess.run(['git', 'rm', '-rqf', here], cwd=TOP, check=True)
    for path in tracked('.'):
        if path.endswith(('.rt', '.antt', '.edit', '.md', '.list')) or path.startswith('tools/'):
            before = read(os.path.join(TOP, path))
            after = turned(path, before, old, new, types, functions)
            if after != before:
                write(os.path.join(TOP, path), after)
    write(os.path.join(TOP, 'crates.txt'), merged_list(read(os.path.join(TOP, 'crates.txt')), old, new))


if __name__ == '__main__':
    main()
