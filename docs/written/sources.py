"""Reads the repository's sources: the definitions of specs/, the types, traits and contracts of src/, and what each of them names.

A definition is an `Item`. `Sources.items` has all of them, by crate, module and name; `Item.names` are the words that it defines, its own and
those of its constructors. `Sources.reads` tells which items an item names: its words are looked up in its module and in what that module
imports. A word that a binder of the same item hides is none of these.
"""

import dataclasses
import pathlib
import re

TOP = pathlib.Path(__file__).resolve().parent.parent.parent
WORD = re.compile(r"◌[^\s◌(){}\[\];,]+◌|[^\W\d][\w']*(?:[-?][\w']+)*(?:\.[\w']+)*")
BINDERS = (re.compile(r'[({]([\w\' ]+?) :'), re.compile(r'λ ([^.]*?)\. '), re.compile(r'\blet ([\w\' ]+?) ='))
USE = re.compile(r'(?m)^\s*(?:ghost )?use ([\w.?]+?)(?:\.\{([^}]*)\})?(?: as (\w+))?;?$')
KEYWORDS = {'pub', 'data', 'record', 'mutual', 'abbrev', 'unfoldable', 'module', 'where', 'let', 'in', 'if', 'then', 'else'}
# Types of which no contract that is quoted sees anything.
OPAQUE = {('link_reader', 'LinkReader')}
# The operators of the repository's own, and how they are spelled in an import.
OPERATORS = {'>>=': '◌>>=◌', 'answers': '◌answers◌'}


@dataclasses.dataclass(eq=False)
class Item:
    """A definition, a Rust type, a trait, or the contract of a function."""
    crate: str
    module: str  # Lists, or key for src/key.rt
    name: str
    kind: str  # definition, type, trait, function, constant
    text: str  # as it is quoted, with its comment
    line: int
    names: tuple = ()
    head: str = ''  # the line of the module with parameters that it stands in
    section: str = ''  # the comment of the part of the file that it stands in
    file: str = ''

    @property
    def language(self):
        return 'agda' if self.kind == 'definition' else 'rust'

    @property
    def bare(self):
        """The lines of it that are no comment."""
        lines = [re.split(r'(?:^|\s)(?:--|///?) ', line)[0].rstrip() for line in self.text.split('\n')]
        return [line for line in lines if line and line not in ('--', '//', '///')]


@dataclasses.dataclass
class Module:
    """A file of specs/ or src/: its first comment, its items, and what its words stand for."""
    crate: str
    name: str
    about: str
    items: list
    uses: dict  # word: path
    aliases: dict  # alias: path


def uses_of(text):
    uses, aliases = {}, {}
    for path, listed, alias in USE.findall(text):
        if alias:
            aliases[alias] = path
        for word in filter(None, (part.strip() for part in listed.split(','))):
            name, _, other = word.partition(' as ')
            uses[other or name] = f'{path}.{name}'
    return uses, aliases


def blocks(lines, first):
    """The blocks of a file, each with its first line's number: a blank line before a line that isn't indented ends one."""
    block, start = [], first
    for number, line in enumerate(lines + ['', '--'], first):
        if block and not block[-1].strip() and line.strip() and not line.startswith(' '):
            yield start, block
            block = []
        if not block:
            start = number
        block.append(line)


def names_in(code):
    """What a definition defines: its own names, and those of constructors."""
    found = re.findall(r'(?m)^\s*(?:pub )?(?:abbrev |unfoldable )?(?:pub )?(?:record |data )?([^\s:(){}]+)(?= [({].* : Type 0 where| :)', code)
    head = re.match(r'(?:pub )?record (\S+)', code)
    if head:
        return (head[1],)
    heads = re.findall(r'(?:data|abbrev pub|unfoldable pub|^  pub|^abbrev) (\S+)', code, re.M)
    return tuple(name for name in dict.fromkeys(heads + found) if name not in KEYWORDS)


def definitions(crate, module, lines, first=1, head=''):
    section = ''
    for start, block in blocks(lines, first):
        text = '\n'.join(block).strip('\n')
        comment = re.match(r'(?:--.*\n?)*', text)[0].strip('\n')
        code = text[len(comment):].strip('\n')
        if not code:
            section = comment.removeprefix('-- ---- ') if comment.startswith('-- ---- ') else section
        elif code.startswith('use ') or code.startswith('pub mod '):
            continue
        elif code.startswith('module _'):
            line, _, rest = code.partition('\n')
            inner = [row.removeprefix('  ') for row in rest.split('\n')]
            place = start + comment.count('\n') + (1 if comment else 0) + 1
            yield from definitions(crate, module, inner, place, line)
        else:
            names = names_in(code)
            yield Item(crate, module, names[0], 'definition', text, start, names, head, section, f'specs/{module}.antt')


def read_specs(crate, path):
    text = path.read_text(encoding='utf-8')
    comment = re.match(r'(?:--.*\n)*', text)[0]
    about = ' '.join(line.removeprefix('--').strip() for line in comment.strip().split('\n'))
    lines = text.split('\n')
    skipped = comment.count('\n')
    module = path.stem
    return Module(crate, module, about, list(definitions(crate, module, lines[skipped:], skipped + 1)), *uses_of(text))


def closing(lines, start):
    """The number of the line that ends what begins at a line: by the layout, one with the same indentation."""
    indent = lines[start][:len(lines[start]) - len(lines[start].lstrip())]
    if lines[start].rstrip().endswith((';', '{}')):
        return start
    ends = (indent + '}', indent + ')', indent + '{}')
    return next(n for n in range(start + 1, len(lines)) if lines[n].startswith(ends))


def contract_end(lines, start):
    """The number of the line after a function's contract, which is that of its body."""
    indent = lines[start][:len(lines[start]) - len(lines[start].lstrip())]
    for n in range(start, len(lines)):
        if lines[n] in (indent + '{', indent + '{}'):
            return n
        if lines[n].endswith((' {', ';')) and (n == start or lines[n].startswith(indent + ')')):
            return n + 1
        if lines[n].endswith((';', '};')):
            return n + 1
    return len(lines)


def comment_start(lines, n):
    while n > 0 and lines[n - 1].strip().startswith(('///', '#[')):
        n -= 1
    return n


def types_and_laws(crate, path, module, lines):
    """The types, traits and constants of a file, and its functions at the top level, with their comments."""
    for n, line in enumerate(lines):
        found = re.match(r'(?:pub(?:\(crate\))? )?(struct|enum|trait|const|fn) (\w+)', line)
        if not found or (found[1] == 'const' and not line.endswith(';')):
            continue
        kind = {'struct': 'type', 'enum': 'type', 'trait': 'trait', 'const': 'constant', 'fn': 'function'}[found[1]]
        end = contract_end(lines, n) - 1 if kind == 'function' else closing(lines, n)
        comment = [row for row in lines[comment_start(lines, n):n] if not row.startswith('#[')]
        text = '\n'.join(comment + lines[n:end + 1]) + model_of(lines, found[2])
        text = re.sub(r'(?m)^ *ghost use .*\n\n?', '', text)
        text = re.sub(r'(?m)\n\n    ghost inverse = .*(?:\n     .*)*(?:\n    \} \};)?', '', text)
        yield Item(crate, module, found[2], kind, text.rstrip().removesuffix('{').rstrip(), n + 1, (found[2],), file=f'src/{path.name}')


def model_of(lines, name):
    """What contracts see of a type, where that isn't its fields."""
    for n, line in enumerate(lines):
        if re.match(rf'impl(<.*>)? Model for {name}\b', line):
            return '\n\n' + '\n'.join(lines[n:closing(lines, n) + 1])
    return ''


def read_source(crate, path):
    text = path.read_text(encoding='utf-8')
    lines = text.split('\n')
    module = '' if path.stem in ('lib', 'main') else path.stem
    uses, aliases = uses_of(text)
    for found, listed in re.findall(r'(?m)^(?:pub )?use ([\w:]+?)(?:::\{([^}]*)\})?;', text):
        for word in listed.split(',') if listed else [found.rpartition('::')[2]]:
            head = found.split('::')[0]
            uses.setdefault(word.strip(), f'rust.{crate if head == "crate" else head}.{word.strip()}')
    about = ' '.join(line.lstrip('/!').strip() for line in re.match(r'(?://.*\n)*', text)[0].strip().split('\n'))
    return Module(crate, module, about, list(types_and_laws(crate, path, module, lines)), uses, aliases)


class Sources:
    def __init__(self, top=TOP):
        self.top = top
        text = (top / 'crates.txt').read_text(encoding='utf-8')
        self.crates = re.findall(r'(?m)^(\w+)(?: may_wait=\S+)?(?: tests_may=\S+)?:', text)
        self.specs, self.code, self.known = {}, {}, {}
        for crate in self.crates:
            folder = top / 'crates' / crate
            for path in sorted((folder / 'specs').glob('*.antt')):
                self.specs[crate, path.stem] = read_specs(crate, path)
            for path in sorted((folder / 'src').glob('*.rt')):
                module = read_source(crate, path)
                self.code[crate, module.name] = module
        self.index()

    def index(self):
        self.items = {}
        for module in [*self.specs.values(), *self.code.values()]:
            for item in module.items:
                for name in item.names:
                    self.items.setdefault((item.crate, module.name, name), item)
        self.definitions = {name for (_, _, name), item in self.items.items() if item.kind == 'definition'}
        records = [item.text for item in self.items.values() if item.kind == 'definition']
        self.fields = {name for text in records for name in re.findall(r'(?m)^ *pub (\w+) :', text)}
        self.types = {}
        for module in self.code.values():
            for item in module.items:
                if item.kind in ('type', 'trait', 'constant'):
                    self.types.setdefault((item.crate, item.name), item)

    def module_of(self, item):
        return (self.specs if item.kind == 'definition' else self.code)[item.crate, item.module]

    def at(self, path):
        """The item of a path of an import, or the path itself where it leads out of the repository."""
        parts = path.split('.')
        if parts[0] == 'rust':
            return self.types.get((parts[1], parts[-1]))
        if parts[0] != 'Rattle' or parts[1] not in self.crates:
            return path
        crate, rest = parts[1], parts[3:]
        if rest[0] == 'declared':
            rest = [part for part in rest[1:] if part not in ('TheVariants', 'TheConstants', 'Ghosts')]
            return next(self.types[crate, part] for part in rest if (crate, part) in self.types)
        return self.items.get((crate, rest[0], rest[-1])) or self.items.get((crate, rest[0], rest[1]))

    def reads(self, item):
        """The items that an item names, and the paths of the words of libraries."""
        if item not in self.known:
            self.known[item] = self.named_by(item)
        return self.known[item]

    def named_by(self, item):
        module = self.module_of(item)
        code = '\n'.join(item.bare)
        hidden = self.hidden(item, code)
        found = {}
        for word in WORD.findall(item.head + '\n' + without_labels(code)):
            target = self.look(module, item, word, hidden)
            if target is not None and target is not item and not (isinstance(target, Item) and (target.crate, target.name) in OPAQUE):
                found[target] = None
        for sign, word in OPERATORS.items():
            if item.kind == 'definition' and f' {sign} ' in code and word in module.uses:
                found[self.at(module.uses[word])] = None
        return list(found)

    def look(self, module, item, word, hidden):
        name, _, rest = word.partition('.')
        if name in hidden and name not in item.names:
            return None
        if rest and name in module.aliases:
            return self.at(f'{module.aliases[name]}.{rest.split(".")[0]}')
        if name in module.uses:
            return self.at(module.uses[name])
        if item.kind != 'definition':
            return self.types.get((item.crate, name))
        return self.items.get((module.crate, module.name, name))

    def hidden(self, item, code):
        """The words that the binders of an item hide."""
        names = set()
        for binder in BINDERS:
            for group in binder.findall(item.head + '\n' + code):
                names.update(re.sub(r'\(([^:()]*):[^()]*\)', r'\1', group).split())
        if item.kind == 'definition':
            for line in code.split('\n'):
                left = re.match(rf'\s*(?:{"|".join(map(re.escape, item.names))}) ((?:[^=λ→:]|=(?!\s|$))*) =(?:\s|$)', line)
                if left:
                    names.update(word for word in re.findall(r"[a-z_][\w']*", left[1]) if not self.is_constructor(item, word))
        return names

    def is_constructor(self, item, word):
        """Whether a word of a pattern is a constructor that is known there."""
        module = self.module_of(item)
        target = self.at(module.uses[word]) if word in module.uses else self.items.get((item.crate, item.module, word))
        return isinstance(target, Item) and target.kind == 'definition' and word != target.name and ' data ' in f' {target.text} '


def without_labels(code):
    """The code without the names of fields and of clauses, and without texts."""
    code = re.sub(r'"(?:[^"\\\n]|\\.)*"', '', code)
    code = re.sub(r'\)\.[\w.]+', ')', code)
    code = re.sub(r'(?m)^(\s*pub) [^\s:(){}]+ :', r'\1 :', code)
    code = re.sub(r"([{;]\s*)[\w']+ =", r'\1 =', code)
    code = re.sub(r'\b(requires|ensures|ghost) \w+ (?=[{=])', r'\1 ', code)
    return code
