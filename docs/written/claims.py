"""Writes the tables of docs/CLAIMS.md. A row's sentence is kept, and so are the functions that it speaks of, the clauses that it picks where a
function has several rows, and the definitions that it names. All else is made from the sources: how the functions are called, their clauses,
and the edits that change what they do."""

import re

from functions import edits_of, functions_of

HEADER = '| Claim | Function | Clause | Edits |'
COUNTS = {1: 'one clause', 2: 'two clauses', 3: 'three clauses'}


class Row:
    def __init__(self, columns, section):
        self.claim, self.said, self.clause_text, self.edit_text = columns
        self.functions = section.functions_named(self.said)
        self.words = re.findall(r'`([\w:]+)`', self.clause_text)
        self.edits = []


class Section:
    def __init__(self, text, sources):
        self.text = text
        self.definitions, self.fields = sources.definitions, sources.fields
        self.crates = [crate for crate in re.findall(r'`(\w+)`', text.split('\n')[0]) if crate in sources.crates]
        self.functions, self.edits, self.files = [], [], {}
        for crate in self.crates:
            functions, texts = functions_of(crate, sources.top / 'crates' / crate)
            self.functions += functions
            self.files[crate] = texts
            self.edits += edits_of(crate, sources.top / 'crates' / crate, texts)
        self.faults = []
        lines = [line for line in text.split('\n') if line.startswith('| ') and line != HEADER]
        rows = [[column.strip() for column in re.split(r'(?<!\\)\|', line)[1:-1]] for line in lines]
        self.faults += [f'a row has {len(row)} columns: {row[0]}' for row in rows if len(row) != 4]
        self.rows = [Row(row, self) for row in rows if len(row) == 4]
        self.place_edits()

    def functions_named(self, said):
        """The functions of a row: a bare name belongs to the type before it, if that has such a method."""
        found, owner = [], ''
        for word in re.findall(r'`([\w:]+)`', said):
            head, _, name = word.rpartition('::')
            owner = head if head and head not in self.crates else owner
            paths = [word] if head and head not in self.crates else [f'{owner}::{name}', name]
            apt = [function for function in self.functions if head not in self.crates or head == function.crate]
            matches = [function for path in paths for function in apt if function.path == path]
            if not matches:
                matches = [function for function in self.functions if function.name == name and function.is_public]
                matches = matches if len({function.path for function in matches}) == 1 else []
            found += [function for function in matches if function.is_public or function.of_trait][:1] or matches[:1]
        return unique(found)

    def place_edits(self):
        """Puts each edit into the rows that name it, and one that none names into the row of what it changes."""
        for edit in self.edits:
            named = [row for row in self.rows if re.search(rf'`{edit.name}`', row.edit_text)]
            changed = self.changed_by(edit)
            apt = [row for row in self.rows if self.reaches(row, changed, edit.crate)]
            kept = [row for row in named if row in apt or not row.functions]
            if named and not kept:
                paths = ', '.join(function.path for function in changed)
                self.faults.append(f'the edit {edit.name} changes {paths}, on which no row that names it stands')
            if not named:
                apt = [row for row in apt if any(function in changed for function in row.functions)] or apt
                kept = apt[:1]
                if not kept:
                    self.faults.append(f'no row names the edit {edit.name}')
            for row in kept or named:
                row.edits.append(edit)

    def changed_by(self, edit):
        return [function for function in self.functions if function.crate == edit.crate
                for file, line in edit.places if function.file == file and function.first <= line <= function.last]

    def reaches(self, row, changed, crate):
        """Whether a function of a row is one of those changed, or calls one of them, or another of its type does, which makes what it finds."""
        if not changed or any(other.of_trait for other in changed):
            return True
        owners = {(function.crate, function.owner) for function in row.functions} | {(crate, word) for word in re.findall(r'\w+', row.said)}
        seen, ahead = [], row.functions + [other for other in self.functions if other.owner and (other.crate, other.owner) in owners]
        while ahead:
            function = ahead.pop()
            if function in seen:
                continue
            seen.append(function)
            if function in changed:
                return True
            ahead += [other for other in self.functions if other.crate == function.crate and other.name in function.words]
        return False

    def check(self):
        """What the section lacks: clauses without a row, and rows without a function."""
        yield from self.faults
        for row in self.rows:
            if not row.functions and not any(self.is_type(word, row) for word in re.findall(r'`([\w:]+)`', row.said)):
                yield f'a row has no function: {row.claim}'
            strange = [word for word in row.words if not self.is_known(word, row) and any(function.clauses for function in row.functions)]
            yield from (f'a row names a clause {word} that its functions have not: {row.claim}' for word in strange)
        for function in self.functions:
            rows = [row for row in self.rows if function in row.functions]
            if function.is_public and function.clauses and not rows:
                yield f'no row has the function {function.path}'
            if len(rows) > 1:
                missing = [label for label in function.clauses if not any(label in self.picked(row, function) for row in rows)]
                yield from (f'no row has the clause {label} of {function.path}' for label in missing)

    def table(self):
        return [f'| {row.claim} | {self.function_column(row)} | {self.clause_column(row)} | {edit_column(row)} |' for row in self.rows]

    def function_column(self, row):
        if not row.functions:
            return row.said
        types = [f'`{word}`' for word in re.findall(r'`([\w:]+)`', row.said) if self.is_type(word, row)]
        several = len(self.crates) > 1
        crates = [f'{function.crate}::' if several and self.is_twofold(function) else '' for function in row.functions]
        names = [f'`{crate}{function.path}`' for crate, function in zip(crates, row.functions)]
        kind = ' (trait)' if all(function.is_trait for function in row.functions) else ''
        return ', '.join([', '.join(names) + kind, *types])

    def is_type(self, word, row):
        """Whether a word is that of a type of the section, and of no function of the row."""
        named = any(function.name == word for function in row.functions)
        code = '\n'.join(line for texts in self.files.values() for lines in texts.values() for line in lines)
        return not named and bool(re.search(rf'\b(?:struct|enum|trait) {word}\b', code))

    def is_twofold(self, function):
        return sum(other.path == function.path for other in self.functions) > 1

    def clause_column(self, row):
        if not row.functions:
            return row.clause_text
        if not any(function.clauses for function in row.functions):
            return row.clause_text
        picked = [labels for labels in (self.picked(row, function) for function in row.functions) if labels]
        if not any(label for labels in picked for label in labels):
            text = COUNTS[len(picked[0])] if len({len(labels) for labels in picked}) == 1 else 'one or two clauses'
            text += ' each' if len(picked) > 1 else ''
        else:
            labels = unique(label for labels in picked for label in labels if label)
            text = ', '.join(f'`{label}`' for label in labels) + ('; one clause' if any('' in labels for labels in picked) else '')
        more = [word for word in row.words if word not in self.labels(row) and self.is_known(word, row)]
        return ', '.join([text] + [f'`{word}`' for word in unique(more)])

    def labels(self, row):
        return {word for function in row.functions for word in (*function.clauses, function.name)}

    def is_known(self, word, row):
        """Whether a word of a row's clauses is a label of them, a definition, or, where no clause has a label, a field of one."""
        has_labels = any(label for function in row.functions for label in function.clauses)
        return word in self.labels(row) or word in self.definitions or (word in self.fields and not has_labels)

    def picked(self, row, function):
        """The labels of a function's clauses that a row has: those that it names, or else those that no other row names."""
        named = [label for label in function.clauses if label in row.words]
        others = {word for other in self.rows if other is not row and function in other.functions for word in other.words}
        if named and others:
            return tuple(named)
        return tuple(label for label in function.clauses if label not in others) or function.clauses

    def written(self):
        """The section, where each row stands as it is made."""
        table = iter(self.table())
        return '\n'.join(next(table) if line.startswith('| ') and line != HEADER else line for line in self.text.split('\n'))


def edit_column(row):
    order = {word: place for place, word in enumerate(re.findall(r'`(\w+)`', row.edit_text))}
    edits = sorted(row.edits, key=lambda edit: (edit.folder != 'must-fail', order.get(edit.name, len(order)), edit.name))
    names = unique((edit.name, edit.folder) for edit in edits)
    return ', '.join(f'**`{name}`**' if folder == 'must-fail' else f'`{name}`' for name, folder in names) or '-'


def unique(items):
    return list(dict.fromkeys(items))


class Claims:
    def __init__(self, sources, text):
        head, *rest = re.split(r'(?m)^(?=## )', text)
        of_crates = [any(f'`{crate}`' in part.split('\n')[0] for crate in sources.crates) for part in rest]
        self.parts = [head] + [Section(part, sources) if is_of_crates else part for part, is_of_crates in zip(rest, of_crates)]

    def text(self):
        return ''.join(part if isinstance(part, str) else part.written() for part in self.parts)

    def size(self):
        return sum(len(part.rows) for part in self.parts if isinstance(part, Section))

    def faults(self):
        for part in self.parts:
            if isinstance(part, Section):
                yield from (f'docs/CLAIMS.md: {", ".join(part.crates)}: {fault}' for fault in part.check())
