"""Writes the pages docs/STATEMENT*.md: every definition that the law of good jobs, the laws beside it and the contract of `command` reach, once,
on the first page that needs it, and there before it is used. On a page each module has one section."""

import collections
import re

import glosses
import heads
from sections import Sections, comment_of, first_sentence
from sources import Item

# The most lines of the first page.
LONGEST = 1500
# As many definitions more, and itself, a law may have that is named beside a page's.
FEW = 4


class Page:
    """What stands on a page: its laws, its definitions by sections, and the words of the library that come new."""

    def __init__(self, about, laws, order, words):
        self.about, self.laws, self.order, self.words = about, laws, order, words
        self.top, self.sections, self.split = [], [], []

    @property
    def link(self):
        return f'[{self.about.name}]({self.about.name}.md)'


class Statement:
    def __init__(self, sources):
        self.sources = sources
        self.told, self.words = set(), set()
        self.rank = self.ranks()
        self.all_laws = [item for module in sources.code.values() for item in module.items if is_law(sources, item)]
        self.pages = [self.page(about) for about in glosses.PAGES]
        self.at = {item: page for page in self.pages for item in [*page.order, *page.laws]}
        self.texts = dict(self.written())

    def ranks(self):
        """The place of each module: by crates, and within a crate after those that it imports."""
        ranks = {}
        for number, crate in enumerate(self.sources.crates):
            modules = [module for (name, _), module in self.sources.specs.items() if name == crate]
            done = []
            for module in modules:
                self.visit(module, done)
            ranks |= {(crate, module.name): (number, place) for place, module in enumerate(done)}
            code = [name for other, name in self.sources.code if other == crate and (crate, name) not in ranks]
            ranks |= {(crate, name): (number, len(done)) for name in code}
        return ranks

    def visit(self, module, done):
        if module in done:
            return
        paths = [*module.uses.values(), *module.aliases.values()]
        below = sorted({path.split('.')[3] for path in paths if path.startswith(f'Rattle.{module.crate}.specs.')})
        for name in below:
            if (module.crate, name) in self.sources.specs and name != module.name:
                self.visit(self.sources.specs[module.crate, name], done)
        done.append(module)

    def key(self, item):
        return (*self.rank[item.crate, item.module], item.line)

    def laws(self, about):
        """The functions whose contracts a page quotes."""
        for crate, name in about.laws:
            for module in self.sources.code.values():
                for item in module.items:
                    is_meant = item.crate == crate and item.kind == 'function' and name in (item.name, '*')
                    if is_meant and (name != '*' or self.is_free_law(item, about.without)):
                        yield item

    def is_free_law(self, item, without):
        """Whether a law is meant by a page's '*': it is named by none, and reaches nothing that the page is without."""
        named = {law for about in glosses.PAGES for law in about.laws} | glosses.APART
        reached = {(other.crate, other.module, other.name) for other in reach(self.sources, [item])}
        is_free = (item.crate, item.name) not in named and item not in self.told
        return is_law(self.sources, item) and is_free and without not in reached

    def page(self, about):
        laws = list(dict.fromkeys(self.laws(about)))
        roots = laws + [self.sources.items[root] for root in about.roots]
        reached = reach(self.sources, roots)
        order = [item for item in sorted(reached, key=self.key) if item not in self.told and item not in laws]
        words = {word: None for item in order + laws for word in self.sources.reads(item) if isinstance(word, str)}
        page = Page(about, laws, order, [word for word in words if word not in self.words])
        page.top = [self.sources.items[root] for root in about.top]
        page.sections, page.split = self.arranged(about, [item for item in order if item not in page.top])
        self.words |= set(words)
        self.told |= {*laws, *order}
        return page

    def arranged(self, about, items):
        """The sections of a page, each behind those that it reads, as near as can be to the order that is asked for; and those that had to be split."""
        groups, places = self.groups(about, items)
        ahead, sections, split = list(groups), [], []
        while ahead:
            left = {item for place in ahead for item in groups[place]}
            free = {place: self.free(groups[place], left) for place in ahead}
            whole = next((place for place in ahead if len(free[place]) == len(groups[place])), None)
            place = whole or next(place for place in ahead if free[place])
            sections.append((place, self.in_order(free[place])))
            groups[place] = [item for item in groups[place] if item not in free[place]]
            if whole:
                ahead.remove(place)
            else:
                split.append(place)
        return sections, split

    def free(self, group, left):
        """The items of a section that read nothing of the other sections that are left, by whatever way."""
        others = left - set(group)
        bound = {item for item in group if any(below in others for below in self.sources.reads(item))}
        while True:
            more = {item for item in group if item not in bound and any(below in bound for below in self.sources.reads(item))}
            if not more:
                return [item for item in group if item not in bound]
            bound |= more

    def groups(self, about, items):
        """The items by sections: a definition is in its module's, and a type of the code in the first of its crate that reads it, if one does."""
        asked = {place: number for number, place in enumerate(about.order)}

        def place_key(place):
            return (asked.get(place, len(asked)), *self.rank.get(place, (self.sources.crates.index(place[0]), -1)))

        groups = collections.defaultdict(list)
        for item in items:
            if item.kind == 'definition':
                groups[item.crate, item.module].append(item)
        places = sorted(groups, key=place_key)
        for item in items:
            if item.kind != 'definition':
                groups[self.home(item, places, groups)].append(item)
        return {place: groups[place] for place in sorted(groups, key=place_key)}, places

    def home(self, item, places, groups):
        if item.kind == 'trait':
            return item.crate, 'traits'
        own = [place for place in places if place[0] == item.crate]
        reading = [place for place in own if any(item in reach(self.sources, self.sources.reads(other)) for other in groups[place])]
        return (reading or own or [(item.crate, item.module)])[0]

    def in_order(self, group):
        """The items of a section, each behind those that it reads: types of the code first, then by lines."""
        done, begun = [], set()

        def tell(item):
            if item in group and item not in done and item not in begun:
                begun.add(item)
                for below in sorted((below for below in self.sources.reads(item) if isinstance(below, Item)), key=self.key):
                    tell(below)
                done.append(item)

        for item in sorted(group, key=lambda item: (self.is_behind(item, group), self.key(item))):
            tell(item)
        return done

    def is_behind(self, item, group):
        """Whether an item of a section is a definition, or a type that reads one of the section."""
        below = reach(self.sources, self.sources.reads(item))
        return item.kind == 'definition' or any(other.kind == 'definition' and other in group for other in below)

    def written(self):
        """The text of each page, by the name of its file."""
        writer, read = Sections(self.sources), set()
        for page in self.pages:
            writer.begin(page)
            page_sections = ''.join(writer.section(page, place, group) for place, group in page.sections)
            laws = '' if page is self.pages[0] else '\n## What is proved\n' + ''.join(f'\n```rust\n{law.text}\n```\n' for law in page.laws)
            read |= {*page.order, *page.laws}
            beside = '' if page is self.pages[0] else self.beside(page, read)
            yield f'{page.about.name}.md', self.head(page, writer, page_sections) + page_sections + laws + beside

    def head(self, page, writer, rest):
        if page is self.pages[0]:
            return self.first_head(page, writer, rest)
        below = [self.basis(page, other) for other in self.pages[:self.pages.index(page)]]
        below = [part for part in below if part]
        text = heads.FURTHER.format(title=page.about.title, about=page.about.about, below=', '.join(below[:-1]) + (' and ' if below[1:] else '') + below[-1])
        text += heads.ALL + self.page_counts() + self.law_counts(glosses.SENTENCES) if page is self.pages[-1] else ''
        text += heads.NOTATION.get(page.about.name, '')
        words = library(page.words)
        return text + ('\nWords of the library that come new here:\n\n' + words if words else '')

    def basis(self, page, other):
        """What a page reaches of an earlier one: its link, and the names where they are few."""
        names = [f'`{item.name}`' for item in self.reached(page) if self.at.get(item) is other]
        return f'{" and ".join(names)} of {other.link}' if 0 < len(names) < 3 else other.link if names else ''

    def first_head(self, page, writer, rest):
        quotes = f'```agda\n{writer.code(page.top)}```\n' + ''.join(f'\n```rust\n{law.text}\n```\n' for law in page.laws)
        text = heads.FIRST.format(quotes=quotes, lines='{lines}', counts=self.law_counts(glosses.SENTENCES[:glosses.FIRST_SENTENCES]), words=library(page.words).partition('|---|---|\n')[2])
        return text.replace('{lines}', f'{round(text.count(chr(10)) + rest.count(chr(10)), -1):,}')

    def reached(self, page):
        return reach(self.sources, [*page.order, *page.laws])

    def beside(self, page, read):
        """The laws that no page quotes and that speak of a page's definitions, or of the first page's, by them and few others, in a list."""
        order = [item for other in (self.pages[0], page) for item in other.order]
        reached = {law: reach(self.sources, [law]) for law in self.all_laws if law not in self.told}
        near = {law: items for law, items in reached.items() if sum(item not in read for item in items) <= FEW}
        laws = [law for law, items in near.items() if any(item in items for item in order)]
        self.told |= set(laws)
        rows = [f'- `{law.name}` of `{law.crate}`: {first_sentence(comment_of(law))}.\n' for law in laws]
        return '\nLaws beside these definitions, which no page quotes:\n\n' + ''.join(rows) if rows else ''

    def size(self):
        return sum(len(page.order) for page in self.pages)

    def page_counts(self):
        rows = ['| Page | Definitions | Lines | With all before |\n|---|---|---|---|\n']
        all_lines = all_items = 0
        for page in self.pages:
            lines = sum(len(item.bare) for item in page.order)
            all_lines, all_items = all_lines + lines, all_items + len(page.order)
            rows.append(f'| {page.link} | {len(page.order)} | {lines} | {all_items}, {all_lines} lines |\n')
        return ''.join(rows) + '\nWhat each theorem rests on, by itself:\n\n| Theorem | Contract or law | Definitions | Lines |\n|---|---|---|---|\n'

    def law_counts(self, sentences):
        rows = []
        for sentence, name in sentences:
            roots = [item for module in self.sources.code.values() for item in module.items if item.kind == 'function' and (item.crate, item.name) == name]
            below = [item for item in reach(self.sources, roots) if item not in roots]
            rows.append(f'| {sentence} | `{name[1]}` | {len(below)} | {sum(len(item.bare) for item in below)} |\n')
        return ''.join(rows)

    def twofold(self, page):
        """The names of a page that several modules define, on it and the pages that it stands on, with these modules."""
        homes = collections.defaultdict(set)
        for other in {self.at[item] for item in self.reached(page)}:
            for item in other.order:
                for name in names_of(item):
                    homes[name].add(f'{item.crate}::{item.module}')
        own = {name for item in page.order for name in names_of(item)}
        return {name: sorted(homes[name]) for name in sorted(own) if len(homes[name]) > 1}

    def told_twofold(self):
        """Lines that tell how many names of each page several modules define, and which on the first page."""
        for page in self.pages:
            names = self.twofold(page)
            which = ': ' + ', '.join(f'{name} ({", ".join(homes)})' for name, homes in names.items()) if names and page is self.pages[0] else ''
            yield f'docs/{page.about.name}.md has {len(names)} names with several homes{which}'

    def faults(self):
        """What doesn't fit: headings, introductions and glosses whose definitions are gone, sections that are split on the first page, names with several homes there."""
        places = {place for page in self.pages for place, _ in page.sections}
        names = {(item.crate, item.module, item.name) for page in self.pages for item in page.order}
        for place in sorted({*glosses.INTRO, *glosses.HEADINGS} - places):
            yield f'docs/written/glosses.py: no page has a section of {" ".join(place)}'
        for own in sorted(set(glosses.OWN) - names):
            yield f'docs/written/glosses.py: no page has {own[2]} of {own[0]}, {own[1]}'
        for place in self.pages[0].split:
            yield f'docs/{self.pages[0].about.name}.md: the section of {" ".join(place)} must be split'
        length = self.texts[f'{self.pages[0].about.name}.md'].count('\n')
        if length > LONGEST:
            yield f'docs/{self.pages[0].about.name}.md has {length} lines, and may have {LONGEST}'
        found = set(self.twofold(self.pages[0]))
        yield from (f'docs/{self.pages[0].about.name}.md: {name} has several homes' for name in sorted(found - glosses.TWOFOLD))
        yield from (f'docs/written/glosses.py: {name} has one home' for name in sorted(glosses.TWOFOLD - found))


def names_of(item):
    """What an item defines: its name, and those of its constructors, or of the variants of an enum."""
    is_enum = item.kind == 'type' and re.search(r'(?m)^pub enum ', item.text)
    return {*item.names, *(re.findall(r'(?m)^    ([A-Z]\w*)', item.text) if is_enum else ())}


def is_law(sources, item):
    """A public function with an empty body, whose contract is a theorem."""
    if item.kind != 'function' or not re.search(r'(?m)^pub fn \w+\(\)$', item.text):
        return False
    lines = (sources.top / 'crates' / item.crate / item.file).read_text(encoding='utf-8').split('\n')
    length = sum(not line.startswith('///') for line in item.text.split('\n'))
    return lines[item.line - 1 + length] == '{}'


def reach(sources, roots):
    """All items that these items name, and those that these name, and so on."""
    found, ahead = {}, list(roots)
    while ahead:
        item = ahead.pop()
        if isinstance(item, Item) and item not in found:
            found[item] = None
            ahead.extend(sources.reads(item))
    return found


def library(words):
    """A table of the library's words that come new on a page."""
    meanings = {path.rpartition('.')[2]: meaning for path, meaning in glosses.LIBRARY.items()}
    names = sorted({word.rpartition('.')[2] for word in words}, key=str.lower)
    rows = [(name, meanings[name]) for name in names if name in meanings]
    return '| Word | Meaning |\n|---|---|\n' + ''.join(f'| `{name}` | {meaning} |\n' for name, meaning in rows) if rows else ''
