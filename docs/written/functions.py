"""Reads the functions of a crate: their contracts' clauses, where their bodies stand, what they call, and which of them others may call."""

import dataclasses
import re

HEAD = re.compile(r'(?P<indent> *)(?P<pub>pub(?:\(crate\))? )?(?:const )?fn (?P<name>\w+)')
IMPL = r'impl(?:<.*?>)? (?:(?P<trait>[\w:]+)(?:<.*>)? for )?(?:&(?:mut )?)?(?P<type>\w+)'
OWNER = re.compile(rf'(?:pub(?:\(crate\))? )?(?:(?P<kind>trait|struct|enum|mod) (?P<name>\w+)|{IMPL})')
CLAUSE = re.compile(r'(?m)^\s*(requires|ensures)(?: (\w+))? \{')


@dataclasses.dataclass(eq=False)
class Function:
    crate: str
    file: str
    owner: str  # the type or trait that it is of, or nothing
    name: str
    first: int  # the first and the last line
    last: int
    is_public: bool
    of_trait: str  # the trait that it implements, or nothing
    is_trait: bool  # it is a trait's own
    clauses: tuple  # the labels of what it ensures, '' for one without
    words: frozenset  # the words of its body
    contract: str

    @property
    def path(self):
        return f'{self.owner}::{self.name}' if self.owner else self.name


def functions_of(crate, folder):
    """All functions of a crate but tests."""
    files = sorted((folder / 'src').glob('*.rt'))
    texts = {f'src/{path.name}': path.read_text(encoding='utf-8').split('\n') for path in files}
    lib = '\n'.join(texts.get('src/lib.rt', texts.get('src/main.rt', [])))
    shown = exported(lib)
    found = []
    for file, lines in texts.items():
        found.extend(functions_in(crate, file, lines, shown))
    return found, texts


def exported(lib):
    names = set()
    for path, listed in re.findall(r'pub use ([\w:]+?)(?:::\{([^}]*)\})?;', lib):
        names |= {word.strip() for word in listed.split(',')} if listed else {path.rpartition('::')[2]}
    names |= set(re.findall(r'pub mod (\w+);', lib))
    names |= set(re.findall(r'(?m)^pub (?:fn|struct|enum|trait) (\w+)', lib))
    return names


def functions_in(crate, file, lines, shown):
    owner, is_test, is_shown, is_trait, trait = '', False, False, False, ''
    is_open = file.removeprefix('src/').removesuffix('.rt') in shown
    for n, line in enumerate(lines):
        if re.match(r'\S', line):
            at = OWNER.match(line)
            owner, is_trait, trait = '', False, ''
            if at and (at['type'] or at['kind'] == 'trait') and not line.endswith('{}'):
                owner, trait, is_trait = at['type'] or at['name'], at['trait'] or '', at['kind'] == 'trait'
            is_test = is_test or bool(at and at['kind'] == 'mod' and at['name'] == 'tests')
            is_shown = owner in shown or is_open
        head = HEAD.match(line)
        if not head or is_test or (n and '#[test]' in lines[n - 1]):
            continue
        own = owner if head['indent'] else ''
        start, last = body_of(lines, n, head['indent'], bool(own) and is_trait)
        contract = '\n'.join(lines[n:start + 1])
        public = is_public(head, own, is_trait, trait, is_shown, shown, file, is_open)
        clauses = tuple(label or '' for kind, label in CLAUSE.findall(contract) if kind == 'ensures')
        words = frozenset(re.findall(r'\w+', '\n'.join(lines[start:last + 1])))
        of_trait = trait if own else ''
        yield Function(crate, file, own, head['name'], n + 1, last + 1, public, of_trait, bool(own) and is_trait, clauses, words, contract)


def is_public(head, owner, is_trait, trait, is_shown, shown, file, is_open):
    if owner:
        return is_shown and not trait and (is_trait or head['pub'] == 'pub ')
    return head['pub'] == 'pub ' and (head['name'] in shown or is_open or file in ('src/lib.rt', 'src/main.rt'))


def body_of(lines, n, indent, is_trait):
    """Where the body of a function begins, and its last line. One of a trait may have none."""
    for start in range(n, len(lines)):
        line = lines[start]
        is_signature = start == n or line.startswith(indent + ')')
        if line == indent + '{}' or line.endswith(';') and is_signature or is_trait and re.match(indent + r' {4,8}\S.*\};$', line):
            return start, start
        if line == indent + '{' or line.endswith(' {') and is_signature:
            end = next(k for k in range(start + 1, len(lines)) if lines[k].startswith(indent + '}'))
            return start, end
        if line.endswith(' {}') and is_signature:
            return start, start
    return len(lines) - 1, len(lines) - 1


@dataclasses.dataclass(eq=False)
class Edit:
    crate: str
    name: str
    folder: str
    places: tuple  # (file, line)


def edits_of(crate, folder, texts):
    for path in sorted(folder.glob('*/*.edit')):
        places, file, now = [], None, dict()
        for line in path.read_text(encoding='utf-8').splitlines():
            word, _, rest = line.partition(': ')
            if word == 'file':
                file = rest.strip()
                now.setdefault(file, '\n'.join(texts.get(file, [])))
            elif word == 'old':
                old, at = rest, now[file].find(rest)
                places.append((file, now[file].count('\n', 0, at) + 1 if at >= 0 else 0))
            elif word == 'new':
                now[file] = now[file].replace(old, rest, 1)
        yield Edit(crate, path.stem, path.parent.name, tuple(places))
