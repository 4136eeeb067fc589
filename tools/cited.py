"""Which definitions of the spec files the contracts of a crate's public items name."""
import os
import re

USE = re.compile(r'ghost use Rattle\.(\w+)\.specs\.([\w.]+)\.\{([^}]*)\};')
EXPORT = re.compile(r'^pub use [\w:]*?(?:::)?(?:\{([^}]*)\}|(\w+));', re.M)
OWNER = re.compile(r'^(pub trait|impl)(?:<.*?>)? (?:([\w:]+)(?:<.*>)? for )?(\w+)(.*)$')
CALL = re.compile(r'^( *)(pub )?fn (\w+)')
# A word of a clause, but for a clause's own name, a part of something, and what the call was given or leaves.
WORD = re.compile(r'(?<![\w.])(?<!requires )(?<!ensures )[^\W\d]\w*\b(?!\.(?:old|new|now|entry)\b)')


def text_of(path):
    with open(path, encoding='utf-8') as file:
        return file.read()


def sources_of(path, folder):
    """The source at the path, and behind it its modules, which stand in the folder."""
    yield path
    for name in re.findall(r'^(?:pub )?mod (\w+);', text_of(path), re.M):
        module = os.path.join(folder, name)
        if os.path.exists(f'{module}.rt'):
            yield from sources_of(f'{module}.rt', module)


def exported(crate_folder):
    """The names that the crate's root hands on, or declares."""
    root = text_of(os.path.join(crate_folder, 'src', 'lib.rt'))
    listed = [word for many, one in EXPORT.findall(root) for word in re.findall(r'\w+', many or one)]
    return {*listed, *re.findall(r'^pub (?:trait|struct|enum|fn) (\w+)', root, re.M)}


def imported(text, files):
    """The names that a source takes from spec files of the repository, each of which declares it."""
    found = set()
    for crate, module, names in USE.findall(text):
        declared = files.get(f'crates/{crate}/specs/{module.replace(".", "/")}.antt', ())
        found.update(name for name in re.findall(r'\w+', names) if name in declared)
    return found


def contract(lines, place, pad):
    """The clauses of the call that begins at the place, as one text."""
    clauses, is_clause = [], False
    for line in lines[place:]:
        if line in (pad + '{', pad + '{}') or not line.strip():
            break
        is_clause = is_clause or line.strip().startswith(('requires', 'ensures'))
        if is_clause:
            clauses.append(line)
        elif line.endswith((' {', ';')):
            break
    return '\n'.join(clauses)


def title_of(match):
    """What the contracts of a block of code are of, as the page has it, and whether each call is named there."""
    kind, trait, name, _ = match.groups()
    if kind == 'pub trait':
        return f'`{name}` (the trait)', False
    if trait == 'Model':
        return f'`{name}` (the type)', False
    return (f'`{name}` as `{trait}`', False) if trait else (f'`{name}', True)


def contracts_of(text, public):
    """Each public item of a source, as it is named on the page, with the text of its contract."""
    lines, title, is_each = text.split('\n'), None, False
    for place, line in enumerate(lines):
        owner, call = OWNER.match(line), CALL.match(line)
        if owner:
            is_public = owner[3] in public or owner[2] in public
            title, is_each = title_of(owner) if is_public else (None, False)
        elif re.match(r'^[^ }]', line) and not line.startswith(('//', '#', ')')) and not call:
            title = title if line.startswith((') ', 'where', '{')) else None
        if call and not call[1]:
            title = None
            if call[2] and call[3] in public:
                yield f'`{call[3]}`', contract(lines, place, '')
        elif call and title and (call[2] or not is_each):
            yield (f'{title}::{call[3]}`' if is_each else title), contract(lines, place, call[1])
        elif title and not is_each and re.match(r' {4}ghost (?!use)', line):
            end = next(at for at in range(place, len(lines)) if lines[at].rstrip().endswith('};'))
            yield title, '\n'.join(lines[place : end + 1])


def cited(crate_folder, files):
    """Each public item of the crate that cites definitions, with their names in the order of the contract."""
    public, found = exported(crate_folder), {}
    source = os.path.join(crate_folder, 'src')
    for path in sources_of(os.path.join(source, 'lib.rt'), source):
        text = text_of(path)
        names = imported(text, files)
        for item, clauses in contracts_of(text, public):
            words = [word for word in WORD.findall(clauses) if word in names]
            found.setdefault(item, {}).update(dict.fromkeys(words))
    return {item: list(names) for item, names in found.items() if names}
