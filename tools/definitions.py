#!/usr/bin/env python3
"""Writes docs/DEFINITIONS.md and docs/THEOREMS.md from docs/definitions.list, docs/theorems.list, the spec files and the
contracts.

In a list a line `@ FILE` names the spec file of the entries behind it. An entry `+ NAME, NAME: SENTENCE`
shows the definitions as their file has them, and `- NAME, NAME: SENTENCE` tells of them in words; an indented
line goes on with its entry. `~ NAME, NAME` shows definitions with the comments that stand above them, in one piece. A line `= CRATE` lists what the contracts of the crate's public items cite. A line
`* FILE FUNCTION: CLAUSE, CLAUSE` shows these clauses of a public function as its source has them, and such lines one after another
show them in one piece. All other lines are text, which is copied. `@@ FILE` names the file in each entry, in the place of a heading. A name or a clause that its file does not have fails, and so does a definition that no
contract reaches. docs/DEFINITIONS.md is not kept in the repository. With --check nothing is written, and a page that is kept and differs
fails too.
"""
import glob
import os
import re
import sys
import textwrap

sys.dont_write_bytecode = True

from cited import CALL, USE, cited, contract, text_of

ROOT = os.path.dirname(os.path.dirname(os.path.abspath(__file__)))
WIDTH = 132
PAGES = {'docs/definitions.list': 'docs/DEFINITIONS.md', 'docs/theorems.list': 'docs/THEOREMS.md'}
MADE = ('docs/DEFINITIONS.md',)
DECLARES = re.compile(r'^(\s*)(?:(?:pub|abbrev|unfoldable) )*(?:record |data )?(\S+)(?= :| \(| \{)')
ENTRY = re.compile(r'([+-]) (\w+(?:, \w+)*): (.+)', re.S)
PIECE = re.compile(r'~ (\w+(?:, \w+)*)')
QUOTE = re.compile(r'\* (\S+\.rt) (\w+): (\w+(?:, \w+)*)')
CLAUSE = re.compile(r'^ *(?:ensures|requires) (\w+) \{')
WORD = re.compile(r'[^\W\d][\w-]*')
# How a piece with the clauses of a function begins.
QUOTED = '```\n-- '


def lines_of(path):
    with open(os.path.join(ROOT, path), encoding='utf-8') as file:
        return file.read().split('\n')


def end_of(lines, place, indent, name):
    """Where the definition that begins at the place ends."""
    inside = (indent + ' ', indent + name + ' ', indent + ')', indent + '}')
    end = place + 1
    while end < len(lines) and (not lines[end].strip() or lines[end].startswith(inside)):
        end += 1
    while not lines[end - 1].strip():
        end -= 1
    return end


def declared(path):
    """The public names that a spec file declares, each with the text of its first definition."""
    found, lines = {}, lines_of(path)
    for place, line in enumerate(lines):
        match = DECLARES.match(line)
        if match and re.search(r'\bpub ', line[: match.start(2)]) and match[2] not in ('use', 'mod', 'module'):
            shown = lines[place : end_of(lines, place, *match.groups())]
            found.setdefault(match[2], '\n'.join(part[len(match[1]) :] for part in shown))
    return found


def blocks_of(text):
    """The list as blocks: a line that names a file or a crate, an entry, or text up to one of these."""
    return re.split(r'\n+(?=@?[@=*] |[+~-] \w)|(?<=\n)\n(?=\S)', text)


def filled(code):
    """A record in lines of the page's width: each field, and what stands before them, in as few lines as it takes."""
    fields = re.split(r'\n  (?=pub )', code)
    return '\n'.join(textwrap.fill(re.sub(r'\s+', ' ', text), WIDTH, initial_indent='  ' if at else '', subsequent_indent='      ',
                                   break_long_words=False, break_on_hyphens=False) for at, text in enumerate(fields))


def shown(block, path, names, gone, is_short):
    """An entry as the page has it."""
    mark, words, sentence = ENTRY.fullmatch(block).groups()
    words = words.split(', ')
    gone += [f'{path} does not declare {word}' for word in words if word not in names]
    title = ', '.join(f'`{word}`' for word in words)
    if mark == '-':
        return f'- {title}: {sentence}'
    code = '\n\n'.join(names.get(word, '') for word in words)
    sentence = re.sub(r'\n  ', '\n', sentence)
    if is_short:
        code = '\n\n'.join(filled(names.get(word, '')) for word in words)
        return f'**{title}** ({path}): {sentence}\n\n```\n{code}\n```'
    return f'**{title}**\n\n```\n{code}\n```\n\n{sentence}'


def citations(crate, files):
    """What the contracts of a crate's public items cite, as the page has it."""
    yield f'### Crate {crate}'
    for item, names in cited(os.path.join(ROOT, 'crates', crate), files).items():
        line = f'- {item}: ' + ', '.join(f'`{name}`' for name in names) + '.'
        yield textwrap.fill(line, 118, subsequent_indent='  ', break_long_words=False, break_on_hyphens=False)


def piece(block, path, names, gone):
    """Definitions with the comments above them, as their file has them."""
    code, lines = [], lines_of(path)
    for word in PIECE.fullmatch(block)[1].split(', '):
        if word not in names:
            gone.append(f'{path} does not declare {word}')
            continue
        first = names[word].split('\n')[0]
        place = next(place for place, line in enumerate(lines) if line.strip() == first)
        begin = place
        while lines[begin - 1].strip().startswith('--'):
            begin -= 1
        code.append('\n'.join([*map(str.strip, lines[begin:place]), names[word]]))
    return '```\n' + '\n\n'.join(code) + '\n```'


def quoted(block, gone):
    """The clauses of a public function that are named, as its source has them, in lines of the page's width."""
    path, name, wanted = QUOTE.fullmatch(block).groups()
    lines, clauses, clause = lines_of(path), {}, None
    calls = [(place, match) for place, match in enumerate(map(CALL.match, lines)) if match and match[3] == name and match[2]]
    for place, match in calls[:1]:
        pad = match[1]
        for line in contract(lines, place, pad).split('\n'):
            begun = CLAUSE.match(line)
            clause = begun[1] if begun else None if line.strip().startswith(('//', 'ensures', 'requires')) else clause
            if clause:
                clauses.setdefault(clause, []).append(line[len(pad) :])
    gone += [f'{path}: {name} has no clause {word}' for word in wanted.split(', ') if word not in clauses]
    texts = (' '.join(map(str.strip, clauses.get(word, []))) for word in wanted.split(', '))
    code = '\n'.join(textwrap.fill(text, WIDTH, subsequent_indent='    ', break_long_words=False, break_on_hyphens=False) for text in texts)
    return f'{QUOTED}{name} ({path[len("crates/") :]})\n{code}\n```'


def reached(files):
    """The names that contracts reach: those that sources take from spec files, and what their definitions have."""
    texts, todo, found = {}, [], set()
    for names in files.values():
        for name, text in names.items():
            texts.setdefault(name, []).append(text)
    for path in glob.glob(os.path.join(ROOT, 'crates', '*', 'src', '**', '*.rt'), recursive=True):
        todo += [name for _, _, names in USE.findall(text_of(path)) for name in WORD.findall(names)]
    while todo:
        name = todo.pop()
        if name not in found and name in texts:
            found.add(name)
            todo += [word for text in texts[name] for word in WORD.findall(text)]
    return found


def page_of(text, files, gone):
    """The page, part by part. What is named and not declared is added to `gone`."""
    path, names, is_short = None, {}, False
    for block in blocks_of(text.strip('\n')):
        block = block.strip('\n')
        if block.startswith('= '):
            yield from citations(block[2:], files)
        elif block.startswith(('@ ', '@@ ')):
            path = block.split(' ', 1)[1]
            names, is_short = files.get(path, {}), block.startswith('@@')
            if not is_short:
                yield f'### {path}'
        elif PIECE.fullmatch(block):
            yield piece(block, path, names, gone)
        elif QUOTE.fullmatch(block):
            yield quoted(block, gone)
        elif ENTRY.fullmatch(block):
            yield shown(block, path, names, gone, is_short)
        else:
            yield block


def joined(parts):
    """The parts with an empty line between two, but for bullets one after another, and clauses of one function after another's."""
    page, before = '', ''
    for part in parts:
        is_list = part.startswith('- ') and before.startswith('- ')
        if part.startswith(QUOTED) and before.startswith(QUOTED):
            page = page[: -len('```')] + part[len('```\n') :]
        else:
            page += part if not page else ('\n' if is_list else '\n\n') + part
        before = part
    return page + '\n'


def unreached(text, known):
    """The names of a list's entries that no contract reaches."""
    blocks = [block.strip('\n') for block in blocks_of(text.strip('\n'))]
    entries = [ENTRY.fullmatch(block) for block in blocks] + [PIECE.fullmatch(block) for block in blocks]
    listed = [name for entry in entries if entry for name in entry[2 if entry.re is ENTRY else 1].split(', ')]
    return [name for name in listed if name not in known]


def main():
    pattern = os.path.join(ROOT, 'crates', '*', 'specs', '**', '*.antt')
    paths = [os.path.relpath(path, ROOT) for path in sorted(glob.glob(pattern, recursive=True))]
    files = {path: declared(path) for path in paths}
    known, has_failed, is_check = reached(files), False, '--check' in sys.argv[1:]
    for listed, path in PAGES.items():
        gone, text = [], '\n'.join(lines_of(listed))
        page = joined(page_of(text, files, gone))
        gone += [f'{listed}: no contract reaches {name}' for name in unreached(text, known)]
        for line in gone:
            print(line)
        has_failed = has_failed or bool(gone)
        is_same = os.path.exists(os.path.join(ROOT, path)) and page == '\n'.join(lines_of(path))
        if is_check and path in MADE:
            continue
        if is_check and not is_same:
            print(f'{path} is not what tools/definitions.py writes: run it')
        elif not is_same:
            with open(os.path.join(ROOT, path), 'w', encoding='utf-8') as file:
                file.write(page)
        has_failed = has_failed or is_check and not is_same
    sys.exit(has_failed)


main()
