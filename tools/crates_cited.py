#!/usr/bin/env python3
"""crates_cited.py: looks whether what the pages say of crates is so. Where a page names something of a crate, the crate declares it, or
hands it on, in src/, specs/ or proofs/, or has a file or an edit of that name: "`NAME`, `NAME` of `CRATE`", "in CRATE", "(crate CRATE)",
"CRATE's `NAME`", "`CRATE::NAME`". What stands as a path of the repository is there, and so is what a link to a page or to a heading
leads to. Prints each place where it is not so; the status is 1 then.
"""
import glob
import os
import re
import sys

sys.path.insert(0, os.path.dirname(os.path.abspath(__file__)))
from crates import TOP, dependencies

NAMES = r'`[^`\n]+`(?:(?:,|,? and|,? or)\s+`[^`\n]+`)*'
OF = re.compile(rf'({NAMES})\s+(?:(?:of|in)\s+(?:crates?\s+)?|\(crates?\s+)(`?)([a-z_0-9]+)\2(?![\w:/`])')
OWN = re.compile(rf"(?<![\w`])(?<!\ba )(?<!\bthe )(?<!\beach )(`?)([a-z_0-9]+)\1's\s+({NAMES})")
PATH = re.compile(r'(?<![\w/.])(`?)((?:crates|tools|docs|contrib|clients|release)/[\w/.-]*\w)')
INSIDE = re.compile(r'(?<![\w/.])([a-z_0-9]+)/((?:src|specs|proofs)/[\w/]+\.\w+)')
INNER = re.compile(r'`([a-z_0-9]+)::(\w+)')
LINK = re.compile(r'\]\((?!https?:)([^()\s#]*)(?:#([\w-]+))?\)')
# What a file of code, or of specs and proofs, declares.
DECLARED = {
    '.rt': [r'\b(?:fn|struct|enum|trait|mod|const|static|type|ensures|requires|ghost)\s+(\w+)',
            r'^\s*(?:pub(?:\(crate\))?\s+)?(\w+):\s', r'^\s*([A-Z]\w*)(?:\(|,|\s\{|$)'],
    '.antt': [r'^\s*(?:(?:pub|abbrev|unfoldable|record|data|module)\s+)*([^\s({]+)(?=\s:|\s[({])', r'^\s*(?:pub\s+)?mod\s+(\w+)'],
}
HANDED_ON = re.compile(r'^\s*pub use ([\w:{},\s]+);', re.M)
# What is made, by a tool or by who reads, and so is not there in every clone.
MADE = re.compile(r'/out\b|^docs/DEFINITIONS\.md$|^crates/mine$')


def names_of(crate):
    """What a crate declares or hands on, and the names of its files and edits, each with its folder and without."""
    folder, names = os.path.join(TOP, 'crates', crate), set()
    for path in (path for part in os.listdir(folder) if part != 'out'
                 for path in glob.glob(os.path.join(folder, part, '**', '*.*'), recursive=True)):
        stem, kind = os.path.splitext(os.path.relpath(path, folder))
        parts = stem.split(os.sep)
        for at in range(len(parts)):
            names.update(('/'.join(parts[at:]), '/'.join(parts[at:]) + kind))
        names.update(parts)
        if kind in DECLARED and parts[0] in ('src', 'specs', 'proofs'):
            with open(path, encoding='utf-8') as file:
                text = file.read()
            for declares in DECLARED[kind]:
                names.update(re.findall(declares, text, re.M))
            names.update(word for listed in HANDED_ON.findall(text) for word in re.findall(r'\w+', listed))
    return names


def is_of(name, names):
    """Whether a name as a page has it, as `Type::method(..)` or `name`, is among those of a crate."""
    words = re.sub(r'\(.*|<.*', '', name).strip(' .;').split('::')
    return all(word in names or word.strip('_') in names for word in words)


def said_of_crates(text):
    """Each name that a text says is of a crate: where, the name, and the crate."""
    for found in OF.finditer(text):
        yield from ((found.start(), name, found[3]) for name in re.findall(r'`([^`\n]+)`', found[1]))
    for found in OWN.finditer(text):
        yield from ((found.start(), name, found[2]) for name in re.findall(r'`([^`\n]+)`', found[3]))
    for found in INNER.finditer(text):
        yield found.start(), found[2], found[1]


def headings_of(path):
    """The anchors of a page's headings."""
    with open(path, encoding='utf-8') as file:
        heads = re.findall(r'^#+ (.+)$', re.sub(r'```.*?```', '', file.read(), flags=re.S), re.M)
    return {re.sub(r'[^\w -]', '', head.lower()).replace(' ', '-') for head in heads}


def paths_gone(text, page, crates):
    """What a page names, or links to, that is not there: where, and what."""
    for found in PATH.finditer(text):
        if not MADE.search(found[2]) and not os.path.exists(os.path.join(TOP, found[2])):
            yield found.start(), found[2]
    for found in INSIDE.finditer(text):
        if found[1] in crates and not os.path.exists(os.path.join(TOP, 'crates', found[0])):
            yield found.start(), f'crates/{found[0]}'
    for found in LINK.finditer(text):
        path = os.path.normpath(os.path.join(os.path.dirname(page), found[1])) if found[1] else page
        if not os.path.exists(path) or found[2] and found[2] not in headings_of(path):
            yield found.start(), found[0][2:-1]


def wrong_in(page, crates, known):
    """What a page says that is not so."""
    with open(page, encoding='utf-8') as file:
        text = re.sub(r'```.*?```', lambda code: '\n' * code[0].count('\n'), file.read(), flags=re.S)
    own = os.path.basename(os.path.dirname(page))
    for place, name, crate in said_of_crates(text):
        # (a crate's own page may have its own names in such a list)
        of = [crate, own] if own in crates else [crate]
        if crate in crates and not any(is_of(name, known.setdefault(it, names_of(it))) for it in of):
            yield text.count('\n', 0, place) + 1, f'`{name}` is not of `{crate}`'
    for place, gone in paths_gone(text, page, crates):
        yield text.count('\n', 0, place) + 1, f'{gone} is not there'


def main():
    pages = [os.path.join(TOP, 'README.md'), *sorted(glob.glob(os.path.join(TOP, 'docs', '*.md'))),
             *sorted(glob.glob(os.path.join(TOP, 'crates', '*', 'README.md'))), *sorted(glob.glob(os.path.join(TOP, 'clients', '*', 'README.md')))]
    crates, known, status = set(dependencies()), {}, 0
    for page in pages:
        for line, why in wrong_in(page, crates, known):
            print(f'{os.path.relpath(page, TOP)}:{line}: {why}')
            status = 1
    return status


if __name__ == '__main__':
    sys.exit(main())
