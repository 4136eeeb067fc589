#!/usr/bin/env python3
"""wrap.py FILE..: breaks lines over 100 columns in .antt files, and in the contracts and `ghost use`
lines of .rt files, and fills paragraphs of comments. Texts in quotes stay as they are."""
import re
import sys

WIDTH = 100
RANK = {'in': 4, '=': 3, '→': 3, '×': 2, '⊎': 2, '↔': 2, '∙': 2, '≡': 2, '↦': 3, '++': 2, '∷': 2}
NO_BREAK_BEFORE = {'→', '×', '⊎', '↔', '∙', '=', ':', '≡', 'in', 'where', '↦', '++', '∷', '+', '-', '*',
                   '^', '≤', '<', '==', '|', 'as'}
NO_BREAK_AFTER = {'let', 'pub', 'abbrev', 'record', 'data', 'module', '|', 'λ', ':', 'unfoldable', 'rw', 'at'}


def names(line):
    match = re.match(r'(\s*)((?:ghost )?use) ([^\s{]+)\.\{(.*)\}(;?)$', line)
    if not match:
        return None
    pad, word, path, inner, end = match.groups()
    out, run = [], []
    for name in inner.split(', '):
        if run and len(f"{pad}{word} {path}.{{{', '.join(run + [name])}}}{end}") > WIDTH:
            out.append(f"{pad}{word} {path}.{{{', '.join(run)}}}{end}")
            run = []
        run.append(name)
    out.append(f"{pad}{word} {path}.{{{', '.join(run)}}}{end}")
    return out


def filled(pad, mark, words):
    out, run = [], ''
    for word in words:
        if run and len(pad + mark + run + ' ' + word) > WIDTH:
            out.append(pad + mark + run)
            run = word
        else:
            run = f'{run} {word}' if run else word
    return out + [pad + mark + run]


def is_broken(pad, mark, texts):
    """Whether a line is too long, or ends within a sentence before it is full."""
    if any(len(pad + mark + text) > WIDTH for text in texts):
        return True
    return any(
        len(pad + mark + text + ' ' + behind.split(' ')[0]) <= WIDTH
        and text[-1] not in '.:;`' and re.match(r'[\w`("]', behind)
        for text, behind in zip(texts, texts[1:]))


def comments(lines):
    """The lines, with each paragraph of comments filled that is broken."""
    out, run, mark_of = [], [], None
    fenced = False

    def end():
        if run:
            pad, mark = mark_of
            out.extend(filled(pad, mark, ' '.join(run).split(' ')) if is_broken(pad, mark, run)
                       else [pad + mark + text for text in run])
            run.clear()

    for line in lines:
        match = re.match(r'(\s*)(-- |/// |// |//! )(\S.*)$', line)
        plain = match and not re.match(r'([-*#|>]|\d+\.|```|use )', match[3]) and not match[3].endswith('  ')
        if match and match[3].startswith('```'):
            fenced = not fenced
        if not plain or fenced:
            end()
            out.append(line)
            continue
        if run and mark_of != (match[1], match[2]):
            end()
        mark_of = (match[1], match[2])
        run.append(match[3])
    end()
    return out


def breaks(text):
    """The places of spaces where the text may be broken: (place, depth, how good a place)."""
    depth, binder, found = 0, False, []
    tokens = [(m.group(0), m.start()) for m in re.finditer(r'[(){}\[\]]|[^\s(){}\[\]]+|\s+', text)]
    for k, (token, place) in enumerate(tokens):
        if token.isspace():
            if k == 0 or binder or k + 1 == len(tokens):
                continue
            before, behind = tokens[k - 1][0], tokens[k + 1][0]
            if behind in NO_BREAK_BEFORE or before in NO_BREAK_AFTER or before.endswith('λ'):
                continue
            if behind in ')]}' or before in '([{':
                continue
            rank = RANK.get(before, 3 if before[-1] in ';,' else 1)
            if before == '=':
                rank = 1 if ' = ' in text[: place - 1] else 4
            found.append((place, depth, rank))
        elif token in '([{':
            depth += 1
            binder = False
        elif token in ')]}':
            depth -= 1
        elif token.startswith('λ'):
            binder = True
        if binder and token != 'λ' and token.endswith('.'):
            binder = False
    return found


def code(line):
    if line.lstrip().startswith(('//', '--')):
        return [line]
    pad = len(line) - len(line.lstrip(' '))
    out = []
    more = ' ' * (pad + 4)
    while len(line) > WIDTH:
        lead = len(line) - len(line.lstrip(' '))
        near = [b for b in breaks(line) if lead + 30 < b[0] <= WIDTH] or [b for b in breaks(line) if lead < b[0] <= WIDTH]
        if not near:
            break
        least = min(b[1] for b in near)
        # the last of the strongest separators at the least depth
        best = [b for b in near if b[1] == least]
        rank = max(b[2] for b in best)
        place = [b for b in best if b[2] == rank][-1][0]
        out.append(line[:place])
        line = more + line[place + 1:]
    out.append(line)
    return out


def wrap(path):
    text = open(path).read()
    out = []
    rust = path.endswith('.rt')
    inside = False
    for line in comments(text.split('\n')):
        if rust and re.match(r'\s*(ensures|requires|ghost) ', line):
            inside = True
        if len(line) <= WIDTH:
            out.append(line)
        else:
            done = names(line)
            # a text is one text, however long
            if not done and (not rust or inside) and not (rust and '"' in line):
                done = code(line)
            out += done or [line]
        if rust and inside and line.count('{') + 0 and line.rstrip().endswith('}'):
            inside = False
    new = '\n'.join(out)
    if new != text:
        open(path, 'w').write(new)
        print(path)


for path in sys.argv[1:]:
    wrap(path)
