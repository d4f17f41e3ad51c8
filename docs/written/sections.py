"""Writes the sections of the pages: the heading of a module, what is said before its definitions, and these as the sources have them, but for the
words that say nothing of what they mean."""

import collections
import re

import glosses
from sources import WORD, Item

# Words before a name that say who may use a definition, and what a proof unfolds of it.
SILENT = re.compile(r'(?m)^(\s*)(?:abbrev |unfoldable |pub )+')
# An equation or a type that is no longer stands in one line.
WIDTH = 128
# A section of fewer definitions is not divided.
MANY = 10


class Sections:
    """The sections of pages, which are asked for page by page."""

    def __init__(self, sources):
        self.sources, self.library = sources, set()
        self.homes = collections.defaultdict(set)
        self.told_words, self.told_places = {}, collections.defaultdict(list)

    def begin(self, page):
        """The names that a reader of a page knows are those of the pages before it too."""
        self.library |= {word.rpartition('.')[2] for item in page.order for word in self.sources.reads(item) if isinstance(word, str)}
        for item in page.order:
            self.homes[item.name].add((item.crate, item.module))

    def section(self, page, place, group):
        crate, name = place
        module = self.sources.specs.get(place) or self.sources.code.get(place) or self.sources.module_of(group[0])
        title = glosses.HEADINGS.get(place) or first_sentence(module.about) or name.replace('_', ' ').capitalize()
        before = self.told_places[place]
        title += ', continued' if page in before else ''
        text = f'\n## {title}: `{crate}`, `{name}`\n'
        if before and page not in before:
            text += f'\nMore of this module stands in {" and ".join(other.link for other in before)}.\n'
        text += f'\n{glosses.INTRO[place]}\n' if place in glosses.INTRO and not before else ''
        before += [page] if page not in before else []
        glossed = [(item.name, glosses.OWN.get((item.crate, item.module, item.name))) for item in group]
        notes = [f'- `{word}`: {gloss}\n' for word, gloss in glossed if gloss]
        return text + ('\n' + ''.join(notes) if notes else '') + self.other_words(page, group) + self.fences(group)

    def fences(self, group):
        """The code of a section, in a fence for each run of definitions or of types."""
        runs = []
        for item in group:
            if not runs or runs[-1][0].language != item.language:
                runs.append([])
            runs[-1].append(item)
        return ''.join(f'\n```{run[0].language}\n{self.code(run)}```\n' for run in runs)

    def code(self, items):
        """Items one after another. A blank line stands before one that no comment begins."""
        text, head, section = '', '', None
        for item in items:
            if len(items) >= MANY and item.section and item.section != section and section is not None:
                text += f'\n-- ---- {item.section}\n'
            section = item.section if item.language == 'agda' else section
            if item.head and item.head != head:
                text += ('\n' if text else '') + item.head + '\n\n'
            elif text and not item.text.startswith(('--', '///')):
                text += '\n'
            head = item.head
            text += '\n'.join(('  ' if item.head and line else '') + line for line in shown(item).split('\n')) + '\n'
        return text

    def other_words(self, page, group):
        """A line on the words of a section that are imported under other names."""
        notes = [pair for item in group if item.kind == 'definition' for pair in [*renamed(self.sources, item), *self.twofold(item)]]
        key = (page.about.name, group[0].crate, group[0].module)
        words = dict(pair for pair in notes if pair[0] not in self.told_words.get(key, ()))
        self.told_words.setdefault(key, set()).update(words)
        meanings = collections.defaultdict(list)
        for word, meaning in words.items():
            meanings[meaning].append(f'`{word}`')
        said = []
        for meaning, found in meanings.items():
            said.append(f'{" and ".join(found)} {meaning if len(found) == 1 else meaning.replace("is that", "are those")}')
        return '\nHere ' + ', '.join(said) + '.\n' if words else ''

    def twofold(self, item):
        """The words of an item that mean a definition of another module, where the pages have another of the same name."""
        for other in self.sources.reads(item):
            name = other.rpartition('.')[2] if isinstance(other, str) else other.name
            if isinstance(other, str) and name in self.homes:
                yield name, f'is that of the library, `{other.split(".")[1]}`'
            if not isinstance(other, Item) or other.kind != 'definition' or other.module == item.module or other.name in item.names:
                continue
            homes = self.homes[other.name]
            is_alone = len(homes) == 1 and name not in self.library
            is_plain = is_alone or other.crate == item.crate and sum(crate == item.crate for crate, _ in homes) == 1
            if not is_plain and re.search(rf"(?<![\w'.]){re.escape(other.name)}(?![\w'])", '\n'.join(item.bare)):
                yield other.name, f'is that of `{other.crate}::{other.module}`'


def shown(item):
    """An item as a page has it."""
    if item.language == 'agda':
        return one_line_each(SILENT.sub(r'\1', item.text))
    if item.kind != 'type':
        return item.text
    comment = re.match(r'(?:///.*\n)*', item.text)[0]
    declared, _, model = item.text.removeprefix(comment).partition('\n\n')
    short = re.sub(r',? ([})])$', r' \1', ' '.join(declared.split()))
    declared = declared if '//' in declared or len(short) > WIDTH else short
    return comment + declared + re.sub(r'\n+', '\n', f'\n{model}' if model else '')


def one_line_each(text):
    """The same equations, each in one line where it is short."""
    lines = []
    for line in text.split('\n'):
        if lines and line.strip() and indent(line) >= indent(lines[-1][0]) + 4:
            lines[-1].append(line)
        else:
            lines.append([line])
    return '\n'.join('\n'.join(equation) if is_long(equation) else ' '.join([equation[0], *map(str.strip, equation[1:])]) for equation in lines)


def is_long(equation):
    """Whether lines don't fit into one, or tell more by standing apart."""
    apart = any('--' in line or re.search(r'\b(let|in|where)$|\blet ', line) for line in equation[:-1])
    return len(equation) > 1 and (apart or len(equation[0]) + sum(len(line.strip()) + 1 for line in equation[1:]) > WIDTH)


def indent(line):
    return len(line) - len(line.lstrip())


def renamed(sources, item):
    """The words of an item that stand for others: imported under another name, or modules whose words are written after a dot."""
    module = sources.module_of(item)
    words = set(WORD.findall('\n'.join(item.bare)))
    for word, path in module.uses.items():
        name = path.rpartition('.')[2]
        if word in words and word != name and not path.startswith('rust.'):
            yield word, f'is `{name}` of {place_of(path.rpartition(".")[0])}'
    for word, path in module.aliases.items():
        if any(other.startswith(f'{word}.') for other in words):
            yield f'{word}.', f'stands before words of {place_of(path)}'


def place_of(path):
    """The module or the type that a path leads to, with its crate."""
    return f'`{path.split(".")[1]}::' + next(part for part in reversed(path.split('.')) if part not in ('TheVariants', 'Ghosts')) + '`'


def comment_of(item):
    return ' '.join(line.removeprefix('///').strip() for line in item.text.split('\n') if line.startswith('///'))


def first_sentence(text):
    return text.partition('. ')[0].rstrip('.')
