#!/usr/bin/env python3
"""Draws the pictures of the documents: docs/pictures/product.svg, docs/pictures/cost.svg, and the job.svg of each example, as examples/picture.py draws it.
With --check it writes nothing, and tells each picture that isn't what it would draw. Ends with status 1 where there is one."""

import collections
import contextlib
import importlib.util
import io
import itertools
import pathlib
import sys
import tempfile

HERE = pathlib.Path(__file__).resolve().parent
TOP = HERE.parent
EXAMPLES = TOP / 'examples'
sys.path[1:1] = [str(EXAMPLES), str(TOP / 'tests')]

from drawing import BEFORE, DIRECT, FAINT, INK, LINE, PARTIES, PREPARED, SUMMANDS, WHITE, Drawing, count  # noqa: E402
from job_counts import counts_of  # noqa: E402
from job_folder import read_fields, tomllib  # noqa: E402
from picture import JobPicture  # noqa: E402
from summands import Sharing, tolerated_of  # noqa: E402
from waits import told  # noqa: E402

# The jobs that scripts make, and the words of these. What a party gives is in no picture, but for its length.
MADE = {'aes': [32 * '0', 32 * '0'], 'sha256': [40 * '0', 32 * '0']}


# One product among three parties.

Message = collections.namedtuple('Message', 'slot share sender receiver word')


class Product:
    """The job of examples/multiply, worked out: the summands of both numbers, the products of each party and their sums, what it deals, the
    summands of the product, and all messages in order."""

    def __init__(self):
        folder = EXAMPLES / 'multiply'
        fields = read_fields(folder)
        self.names, self.modulus = fields['parties'], 2**fields['ring_bits']
        self.sharing = Sharing(self.names, tolerated_of(fields))
        files = {name: tomllib.loads((folder / f'party_{name}.toml').read_text()) for name in self.names}
        self.tapes = {name: iter(map(int, file['tape'].split())) for name, file in files.items()}
        self.messages = []
        self.numbers = [int(files[name]['inputs'][0]) for name in self.names[:2]]
        self.x, self.y = (self.deal(slot, name, number) for slot, (name, number) in enumerate(zip(self.names, self.numbers)))
        self.formed = {(i, j): self.former(i, j) for i in range(3) for j in range(3)}
        self.sums = {name: sum(self.x[i] * self.y[j] for (i, j), former in self.formed.items() if former == name) % self.modulus for name in self.names}
        self.dealt = {name: self.deal(2, name, total) for name, total in self.sums.items()}
        self.z = [sum(column) % self.modulus for column in zip(*self.dealt.values())]
        reader = self.names[2]
        for share in range(3):
            if self.sharing.lacked(share, reader):
                self.messages.append(Message(3, share, self.sharing.least_holder(share), reader, self.z[share]))

    def former(self, i, j):
        """The first party that holds both summands."""
        return next(name for name in self.names if not self.sharing.lacked(i, name) and not self.sharing.lacked(j, name))

    def deal(self, slot, dealer, number):
        """The summands of a number that a party deals: words of its tape, and what is missing."""
        words = [next(self.tapes[dealer]) for _ in range(2)]
        words.append((number - sum(words)) % self.modulus)
        self.messages += [Message(slot, share, dealer, name, word) for share, word in enumerate(words) for name in self.names
                          if name != dealer and not self.sharing.lacked(share, name)]
        return words


# Where the parties stand in a panel.
PLACES = [(82, 216), (318, 216), (200, 70)]
PANEL_WIDTH, PANEL_HEIGHT, RADIUS = 400, 312, 19

# How far the arrows between two parties are from the line between them, and how far from a party they begin and end, so that those of two others don't cross.
APART, CLEAR = 12, 12


class ProductPicture:
    """Four panels: both numbers are dealt, the parties form products, deal their sums, and one opens the product."""

    def __init__(self, product):
        self.product, self.drawing = product, Drawing(2 * PANEL_WIDTH + 40, 'One product among three parties')

    def corner(self, panel):
        return 10 + (panel % 2) * (PANEL_WIDTH + 20), 64 + (panel // 2) * (PANEL_HEIGHT + 16)

    def frame(self, panel, title, *under):
        x, y = self.corner(panel)
        self.drawing.box(x, y, PANEL_WIDTH, PANEL_HEIGHT)
        self.drawing.text(x + 16, y + 26, f'{panel + 1}', 15, DIRECT, weight='bold')
        self.drawing.text(x + 32, y + 26, title, 14, INK, weight='bold')
        for place, line in enumerate(under):
            self.drawing.text(x + 16, y + PANEL_HEIGHT - 14 - 16 * (len(under) - 1 - place), line, 12, FAINT)
        return x, y

    def sent(self, x, y, messages):
        """Arrows with the words that go along them, each in its summand's colour."""
        ways = collections.defaultdict(list)
        for message in messages:
            ways[message.sender, message.receiver].append(message)
        for (sender, receiver), its_messages in ways.items():
            (from_x, from_y), (to_x, to_y) = (PLACES[self.product.names.index(name)] for name in (sender, receiver))
            length = ((to_x - from_x)**2 + (to_y - from_y)**2)**0.5
            along_x, along_y = (to_x - from_x) / length, (to_y - from_y) / length
            off_x, off_y = along_y * APART, -along_x * APART
            start, end = RADIUS + CLEAR, length - RADIUS - CLEAR
            self.drawing.arrow(x + from_x + along_x * start + off_x, y + from_y + along_y * start + off_y,
                               x + from_x + along_x * end + off_x, y + from_y + along_y * end + off_y)
            for place, message in enumerate(its_messages):
                at = start + (0.22 + 0.36 * place) * (end - start)
                self.drawing.chip(x + from_x + along_x * at + off_x, y + from_y + along_y * at + off_y, str(message.word), SUMMANDS[message.share], 28)

    def parties(self, x, y, notes):
        for number, (name, note) in enumerate(zip(self.product.names, notes)):
            at_x, at_y = PLACES[number]
            self.drawing.dot(x + at_x, y + at_y, RADIUS, PARTIES[number], name, 16)
            side = -1 if number == 0 else 1
            for place, line in enumerate(note):
                self.drawing.text(x + at_x + (side * 27 if number < 2 else 30), y + at_y + (4 if number < 2 else -8) + 16 * place, line, 12, INK,
                                  'end' if side < 0 else 'start')

    def dealing(self):
        x, y = self.frame(0, 'Two numbers are cut into summands', 'a cuts its 5 and b its 7, by words drawn at random.', 'Who lacks one summand of a number knows nothing of it.')
        product = self.product
        self.sent(x, y, [message for message in product.messages if message.slot < 2])
        self.parties(x, y, [[f'x = {product.numbers[0]}'], [f'y = {product.numbers[1]}'], []])

    def forming(self):
        x, y = self.frame(1, 'Who holds both factors multiplies them', 'x · y is the sum of nine products of two summands.', 'The first party that holds both forms it.')
        product, cell, left, top = self.product, 44, x + 92, y + 84
        for place, (words, letter) in enumerate(((product.x, 'x'), (product.y, 'y'))):
            for share, word in enumerate(words):
                at = (left - 30, top + cell * (share + 0.5)) if place == 0 else (left + cell * (share + 0.5), top - 18)
                self.drawing.chip(*at, str(word), SUMMANDS[share], 36)
            self.drawing.text(*((left - 66, top + cell * 1.5 + 4) if place == 0 else (left + cell * 1.5, top - 34)), letter, 13, INK, 'middle', 'bold')
        for (i, j), name in product.formed.items():
            number = product.names.index(name)
            self.drawing.box(left + cell * j, top + cell * i, cell - 3, cell - 3, PARTIES[number], 'none', 5)
            self.drawing.text(left + cell * (j + 0.5) - 1.5, top + cell * (i + 0.5) + 4, name, 14, WHITE, 'middle', 'bold')
        self.drawing.text(x + 252, y + 78, 'holds', 12, FAINT)
        self.drawing.text(x + 332, y + 78, 'its sum', 12, FAINT)
        for number, name in enumerate(product.names):
            at = y + 108 + 42 * number
            self.drawing.dot(x + 256, at, 11, PARTIES[number], name, 12)
            held = [share for share in range(3) if not product.sharing.lacked(share, name)]
            for place, share in enumerate(held):
                self.drawing.chip(x + 284 + 20 * place, at, '', SUMMANDS[share], 16, 16)
            self.drawing.text(x + 350, at + 5, str(product.sums[name]), 13, INK, 'middle')

    def dealing_anew(self):
        x, y = self.frame(2, 'Each deals its sum, as a number of its own',
                          f'{sum(message.slot == 2 for message in self.product.messages)} messages. What a party then has of a colour, it adds up:',
                          'the sum is its summand of x · y.')
        product = self.product
        self.sent(x, y, [message for message in product.messages if message.slot == 2])
        self.parties(x, y, [[str(product.sums[name])] for name in product.names])

    def opening(self):
        product = self.product
        [message] = [message for message in product.messages if message.slot == 3]
        x, y = self.frame(3, 'One reads the product', f'{message.receiver} lacks one summand of x · y, and gets it of {message.sender}.',
                          f'{" + ".join(map(str, product.z))} = {sum(product.z)}, which is {sum(product.z) % product.modulus} modulo {product.modulus}.')
        self.sent(x, y, [message])
        self.parties(x, y, [[], [], []])
        for number, name in enumerate(product.names):
            at_x, at_y = PLACES[number]
            held = [share for share in range(3) if not product.sharing.lacked(share, name)]
            for place, share in enumerate(held):
                self.drawing.chip(x + at_x + (42 if number == 2 else -17) + 34 * place, y + at_y + (0 if number == 2 else 34), str(product.z[share]), SUMMANDS[share])
        self.drawing.text(x + PLACES[2][0] + 116, y + PLACES[2][1] + 5, f'→ {sum(product.z) % product.modulus}', 15, INK, weight='bold')

    def draw(self):
        self.drawing.text(10, 24, 'One product among three parties, none of whom learns more than it reads', 17, INK, weight='bold')
        x = 10
        for share, name in enumerate(self.product.names):
            holders = ' and '.join(other for other in self.product.names if not self.product.sharing.lacked(share, other))
            self.drawing.chip(x + 8, 45, '', SUMMANDS[share], 16, 16)
            self.drawing.text(x + 22, 49, f'summand {share}: {holders} hold it', 12, FAINT)
            x += 230
        self.dealing()
        self.forming()
        self.dealing_anew()
        self.opening()
        return self.drawing.svg(64 + 2 * PANEL_HEIGHT + 28)


# What a job costs.

# Structures: how many parties, and how many of them together must learn nothing.
STRUCTURES = [(3, 1), (4, 1), (5, 1), (5, 2), (7, 2), (7, 3)]
PARTIES_OF = {3: 'three', 4: 'four', 5: 'five', 7: 'seven'}
TOGETHER = {1: 'each alone', 2: 'any two together', 3: 'any three together'}
MOST_PRODUCTS, MOST_DEPTH, SOME_PRODUCTS = 1_000, 50, 45


def of_products(parties, together):
    """The messages of a product: direct; and prepared, before the inputs and once they are there."""
    names = 'abcdefghijkl'[:parties]
    sharing = Sharing(list(names), list(map(list, itertools.combinations(names, together))))
    before, then = sharing.prepared()
    return len(sharing.product()), len(before), len(then)


class Chart:
    """A chart of lines, from 0 up to the most of both axes."""

    def __init__(self, drawing, x, y, width, height, most_x, most_y):
        self.drawing, self.x, self.y, self.width, self.height, self.most_x, self.most_y = drawing, x, y, width, height, most_x, most_y

    def at(self, x, y):
        return self.x + self.width * x / self.most_x, self.y + self.height * (1 - y / self.most_y)

    def axes(self, steps_x, steps_y, name_x, name_y):
        for value in steps_y:
            self.drawing.line(*self.at(0, value), *self.at(self.most_x, value), LINE, 0.7)
            self.drawing.text(self.x - 8, self.at(0, value)[1] + 4, count(value), 11, FAINT, 'end')
        for value in steps_x:
            self.drawing.text(self.at(value, 0)[0], self.y + self.height + 16, count(value), 11, FAINT, 'middle')
        self.drawing.line(*self.at(0, 0), *self.at(self.most_x, 0), FAINT, 1)
        self.drawing.text(self.x + self.width / 2, self.y + self.height + 34, name_x, 12, FAINT, 'middle')
        self.drawing.text(self.x - 40, self.y - 14, name_y, 12, FAINT)

    def draw(self, start, end, colour, dashed=False):
        (from_x, from_y), (to_x, to_y) = self.at(0, start), self.at(self.most_x, end)
        self.drawing.line(from_x, from_y, to_x, to_y, colour, 2.5, **({'stroke_dasharray': '6 4'} if dashed else {}))

    def name(self, y, colour, *lines, above=0):
        """What a line is, behind its end or above that, where another line ends beside it."""
        at_x, at_y = self.at(self.most_x, y)
        at_y -= above
        for place, line in enumerate(lines):
            self.drawing.text(at_x + 8, at_y + 4 + 15 * place, line, 12, colour, weight='bold' if place == 0 else 'normal')

    def point(self, x, y, text):
        at_x, at_y = self.at(x, y)
        self.drawing.dot(at_x, at_y, 4, INK)
        self.drawing.text(at_x - 7, at_y - 6, text, 11, INK, 'end')


def messages_chart(drawing):
    direct, before, then = of_products(3, 1)
    chart = Chart(drawing, 62, 106, 218, 210, MOST_PRODUCTS, 25_000)
    chart.axes([0, 500, 1_000], range(0, 25_001, 5_000), 'products', 'messages, three parties')
    for each, colour, dashed, lines in [(before + then, PREPARED, True, ['prepared or ahead,', f'in all: {before + then} a product']),
                                        (direct, DIRECT, False, ['direct', f'{direct} a product']),
                                        (then, PREPARED, False, ['prepared, of them', f'with the inputs: {then}'])]:
        chart.draw(0, each * MOST_PRODUCTS, colour, dashed)
        chart.name(each * MOST_PRODUCTS, colour, *lines)


def rounds_chart(drawing, points):
    chart = Chart(drawing, 470, 106, 218, 210, MOST_DEPTH, 100)
    chart.axes(range(0, 51, 10), range(0, 101, 20), 'depth: products after one another', 'rounds of nodes, in layers')
    chart.draw(2, MOST_DEPTH + 2, DIRECT)
    chart.draw(3, MOST_DEPTH + 3, BEFORE, True)
    chart.draw(SOME_PRODUCTS + 2, SOME_PRODUCTS + MOST_DEPTH + 2, PREPARED, True)
    chart.name(MOST_DEPTH + 2, DIRECT, 'direct', 'depth + 2, and so', 'many with the inputs', 'where prepared')
    chart.name(MOST_DEPTH + 3, PREPARED, 'ahead, in all', 'one more than direct', above=31)
    chart.name(SOME_PRODUCTS + MOST_DEPTH + 2, PREPARED, 'prepared, in all', 'one more a product', f'(here {SOME_PRODUCTS} products)')
    for depth, found, text in points:
        chart.point(depth, found, f'{text}: {found}')


def product_bars(drawing, top):
    """What a product takes among more parties."""
    drawing.text(10, top, 'Messages of one product, by how many parties there are and who must learn nothing', 14, INK, weight='bold')
    top += 26
    for at, colour, text in [(230, DIRECT, 'direct'), (330, BEFORE, 'prepared: before the inputs'), (560, PREPARED, 'prepared: with the inputs')]:
        drawing.box(at, top - 11, 14, 14, colour, 'none', 3)
        drawing.text(at + 20, top + 1, text, 12, FAINT)
    scale = 480 / max(sum(of_products(*structure)[1:]) for structure in STRUCTURES)
    for row, (parties, together) in enumerate(STRUCTURES):
        y = top + 22 + 38 * row
        direct, before, then = of_products(parties, together)
        drawing.text(10, y + 17, f'{PARTIES_OF[parties]} parties, {TOGETHER[together]}', 12.5)
        drawing.box(230, y, direct * scale, 12, DIRECT, 'none', 2)
        drawing.text(236 + direct * scale, y + 10, count(direct), 11, INK)
        drawing.box(230, y + 15, before * scale, 12, BEFORE, 'none', 2)
        drawing.box(230 + before * scale, y + 15, then * scale, 12, PREPARED, 'none', 2)
        drawing.text(236 + (before + then) * scale, y + 25, f'{count(before)} + {count(then)}', 11, INK)
    return top + 34 + 38 * len(STRUCTURES)


def cost_picture(points):
    """What a job costs, with jobs by their depth and rounds."""
    drawing = Drawing(840, 'What a job costs: messages by products, and rounds by depth')
    drawing.text(10, 24, 'What a job costs', 17, INK, weight='bold')
    drawing.text(10, 46, 'Sums cost nothing. Inputs and outputs come on top: among three parties 4 messages for a word that is given,', 12, FAINT)
    drawing.text(10, 62, 'and one for each reader of a word.', 12, FAINT)
    messages_chart(drawing)
    rounds_chart(drawing, points)
    return drawing.svg(product_bars(drawing, 396))


# All pictures.

# Jobs that stand in the chart of rounds.
POINTS = [('auction', 'auction'), ('aes', 'AES-128')]


def one_session(job):
    """The depth and the rounds of a job of one session."""
    [session] = job.sessions
    return session.depth, session.rounds


def made_job(example, words, top):
    """The folder of a job that a script of an example makes."""
    spec = importlib.util.spec_from_file_location(f'{example}_job', EXAMPLES / example / 'job.py')
    sys.path.insert(1, str(EXAMPLES / example))
    script = importlib.util.module_from_spec(spec)
    spec.loader.exec_module(script)
    folder = str(pathlib.Path(top) / example)
    with contextlib.redirect_stdout(io.StringIO()):
        script.make(folder, words, *([script.Tree()] if example == 'sha256' else []))
    return folder


def pictures():
    """Each picture by its path."""
    yield HERE / 'pictures' / 'product.svg', ProductPicture(Product()).draw()
    counts = {folder.parent.name: counts_of(folder.parent) for folder in sorted(EXAMPLES.glob('*/job.toml'))}
    with tempfile.TemporaryDirectory() as top:
        counts.update((example, counts_of(made_job(example, words, top))) for example, words in MADE.items())
    points = [(*one_session(counts[example]), text) for example, text in POINTS]
    yield HERE / 'pictures' / 'cost.svg', cost_picture(points)
    for example, job in counts.items():
        yield EXAMPLES / example / 'job.svg', JobPicture(example, job).draw()


def main(words):
    if words not in ([], ['--check']):
        print(__doc__)
        return 2
    wrong, found = [], dict(pictures())
    for path, text in found.items():
        if not words:
            path.write_text(text, encoding='utf-8')
        elif not path.exists() or path.read_text(encoding='utf-8') != text:
            wrong.append(f'{path.relative_to(TOP)} is not what docs/pictures.py draws')
    there = [*HERE.glob('pictures/*.svg'), *EXAMPLES.rglob('*.svg')]
    wrong += [f'{path.relative_to(TOP)} is drawn by nothing' for path in there if path not in found]
    for line in wrong:
        print(f'pictures: {line}')
    print(f'pictures: {len(found)} pictures, {len(wrong)} that do not fit')
    return 1 if wrong else 0


if __name__ == '__main__':
    sys.exit(told(lambda words: main(words[1:])))
