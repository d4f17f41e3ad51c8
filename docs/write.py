#!/usr/bin/env python3
"""Writes what the documents have from the sources: the pages docs/STATEMENT*.md, the tables of docs/CLAIMS.md, and the functions that docs/CALLING.md
quotes. It tells each clause that no row of CLAIMS.md has, each row without a function, each edit that no row names, and how many names of each page
several modules define. With --check it writes nothing, and tells each page that isn't what it would write, or that it wouldn't write at all. Ends with
status 1 where something doesn't fit."""

import pathlib
import sys

HERE = pathlib.Path(__file__).resolve().parent
sys.path[1:1] = [str(HERE / 'written'), str(HERE.parent / 'tests')]

from claims import Claims  # noqa: E402
from quotes import Quotes  # noqa: E402
from sources import Sources  # noqa: E402
from statement import Statement  # noqa: E402
from waits import told  # noqa: E402


def main(words):
    if words not in ([], ['--check']):
        print(__doc__)
        return 2
    sources = Sources()
    statement, claims = Statement(sources), Claims(sources, (HERE / 'CLAIMS.md').read_text(encoding='utf-8'))
    calling = Quotes('CALLING.md', (HERE / 'CALLING.md').read_text(encoding='utf-8'))
    wrong = [*statement.faults(), *claims.faults(), *calling.faults()]
    pages = statement.texts | {'CLAIMS.md': claims.text(), calling.name: calling.text}
    wrong += [f'docs/{page.name} is written by nothing' for page in sorted(HERE.glob('STATEMENT*.md')) if page.name not in pages]
    for page, text in ((HERE / name, text) for name, text in pages.items()):
        if not words:
            page.write_text(text, encoding='utf-8')
        elif not page.exists() or page.read_text(encoding='utf-8') != text:
            wrong.append(f'docs/{page.name} is not what docs/write.py writes{first_difference(page, text)}')
    for line in [*statement.told_twofold(), *wrong]:
        print(f'written: {line}')
    print(f'written: {statement.size()} definitions, {claims.size()} rows, {len(wrong)} places that do not fit')
    return 1 if wrong else 0


def first_difference(page, text):
    """Where a page differs first from what it should be."""
    found = page.read_text(encoding='utf-8').split('\n') if page.exists() else []
    wanted = text.split('\n')
    line = next((n for n, pair in enumerate(zip(found, wanted)) if pair[0] != pair[1]), min(len(found), len(wanted)))
    return f', from line {line + 1} on: it should be {wanted[line][:120]!r}' if line < len(wanted) else f', which ends at line {line}'


if __name__ == '__main__':
    sys.exit(told(lambda words: main(words[1:])))
