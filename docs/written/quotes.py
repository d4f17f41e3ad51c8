"""Functions of the crates that a page quotes as they stand: behind a line '<!-- quote FILE NAME .. -->' comes a block with them."""

import pathlib
import re

TOP = pathlib.Path(__file__).resolve().parent.parent.parent
QUOTE = re.compile(r'(?s)<!-- quote (\S+) ([\w ]+) -->\n```rust\n.*?```\n')


def function(path, name):
    """The text of a function with the comment above it, or nothing."""
    source = (TOP / path).read_text(encoding='utf-8')
    found = re.search(rf'(?ms)^(?://[^\n]*\n|#\[[^\n]*\n)*(?:pub )?fn {name}\b.*?^}}\n', source)
    return found[0] if found else None


class Quotes:
    """A page with its blocks filled in, and what it quotes that isn't there."""

    def __init__(self, name, text):
        self.missing = []
        self.text = QUOTE.sub(self.block, text)
        self.name, self.count = name, len(QUOTE.findall(text))

    def block(self, found):
        functions = [(name, function(found[1], name)) for name in found[2].split()]
        self.missing += [f'{found[1]} has no function {name}' for name, text in functions if text is None]
        body = '\n'.join(text for _, text in functions if text is not None)
        return f'<!-- quote {found[1]} {found[2]} -->\n```rust\n{body}```\n'

    def faults(self):
        yield from (f'docs/{self.name}: {why}' for why in self.missing)
        if not self.count:
            yield f'docs/{self.name} quotes nothing'
