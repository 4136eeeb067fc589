#!/usr/bin/env python3
"""unreached.py [CRATE..]: lists the definitions and lemmas that no contract, no function's proof and no code reaches.

A name is reached where a source (src/) or the proof of a function takes it from its file, and where the text of a reached
name has it. Names are told apart by their files. It is no part of the gate: a trait's law may be reached by the prover
alone, so try `rt check` behind each removal.
"""
import glob
import os
import re
import sys

ROOT = os.path.dirname(os.path.dirname(os.path.abspath(__file__)))
USE = re.compile(r'use Rattle\.(\w+)\.(specs|proofs)\.([\w.-]+?)(?:\.\{([^}]*)\}| as (\w+))(?=[;\n]|$)')
DECLARES = re.compile(r'^( *)(?:(?:pub|abbrev|unfoldable) )*(?:(?:record|data|ruleset) ([^\W\d][\w-]*)|([^\W\d][\w-]*)(?= :))')
WORD = re.compile(r"(?<![\w.])([^\W\d][\w-]*)(?:\.([^\W\d][\w-]*))?")


def text_of(path):
    with open(path, encoding='utf-8') as file:
        return file.read()


def file_of(crate, folder, module):
    return f'crates/{crate}/{folder}/{module.replace(".", "/")}.antt'


class Source:
    """A file: what it takes from others, and where each name that it declares is spoken of."""

    def __init__(self, path):
        text = text_of(path)
        self.taken, self.aliases, self.declared = {}, {}, {}
        for crate, folder, module, names, alias in USE.findall(text):
            if alias:
                self.aliases[alias] = file_of(crate, folder, module)
            for name, other in re.findall(r'([^\W\d][\w-]*)(?: as ([^\W\d][\w-]*))?', names):
                self.taken[other or name] = file_of(crate, folder, module), name
        self.text = USE.sub('', text)

    def declarations(self):
        """Notes each declared name with its lines: its own, those that are indented more, and the parameters of the
        blocks that it may stand in."""
        name, indent, blocks = None, 0, ''
        for line in self.text.split('\n'):
            if not line.strip() or line.strip().startswith('--'):
                continue
            depth = len(line) - len(line.lstrip(' '))
            found = DECLARES.match(line)
            if re.match(r' *module ', line):
                name, indent, blocks = None, depth, blocks + line + '\n'
            elif found and (name is None or depth <= indent) and not (name is None and blocks.endswith(' :\n')):
                name, indent = found[2] or found[3], depth
                self.declared.setdefault(name, '')
            if name:
                self.declared[name] += line + '\n'
            elif depth > indent:
                blocks += line + '\n'
        for name in self.declared:
            self.declared[name] += blocks

    def names_in(self, text, path):
        """The names of which a text speaks, each with its file."""
        for first, second in WORD.findall(text):
            if second and first in self.aliases:
                yield self.aliases[first], second
            if first in self.declared:
                yield path, first
            elif first in self.taken:
                yield self.taken[first]


def main():
    os.chdir(ROOT)
    sources = {path: Source(path) for path in glob.glob('crates/*/src/**/*.rt', recursive=True)}
    antt = glob.glob('crates/*/specs/**/*.antt', recursive=True) + glob.glob('crates/*/proofs/**/*.antt', recursive=True)
    lemmas = {}
    for path in antt:
        is_lemma = '/specs/' in path or re.fullmatch(r'crates/\w+/proofs/(Parts/)?\w+\.antt', path)
        source = Source(path)
        if is_lemma:
            source.declarations()
            lemmas[path] = source
        else:
            sources[path] = source
    todo = [name for path, source in sources.items() for name in source.names_in(source.text, path)]
    reached = set()
    while todo:
        node = todo.pop()
        path, name = node
        if node in reached or path not in lemmas:
            continue
        reached.add(node)
        if name in lemmas[path].declared:
            todo += lemmas[path].names_in(lemmas[path].declared[name], path)
    for path in sorted(lemmas):
        if sys.argv[1:] and path.split('/')[1] not in sys.argv[1:]:
            continue
        gone = [name for name in lemmas[path].declared if (path, name) not in reached]
        if gone:
            print(f'{path}: {", ".join(gone)}')


main()
