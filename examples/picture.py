#!/usr/bin/env python3
"""Draws a job, as a picture in SVG that any browser shows:

    examples/picture.py JOB > my-job.svg

At the top stand its parties, joined by lines as wide as they have messages for each other, and how many messages each party sends to each
other one; below them the groups that must learn nothing; and then its sessions in order: who gives and who reads how many values, what is carried
into later sessions unopened, and what each costs. It reads job.toml and the files of the sessions, and no party's file. What it counts is
what './mpc check' counts; rounds are those of nodes, in the order in which the gates go.
"""

import math
import os
import sys

from by_layers import IN_LAYERS
from doubts import told as listed
from drawing import BOX, DIRECT, FAINT, INK, LINE, PARTIES, PREPARED, WHITE, Drawing, count, short, width_of
from job_counts import counts_of
from job_folder import run_script

WIDTH, MARGIN = 840, 24
LAYOUTS = {'bristol': 'circuit of bits', 'ring': 'circuit of words', 'expr': 'expressions', 'numbers': 'program of numbers'}

# What is said of gates that go in layers, and of products that are prepared, in turn or all masks ahead.
OF_LAYERS = ', gates in layers'
OF_PREPARED = {'prepared': ', products prepared before the inputs', 'ahead': ', products prepared before the inputs, all masks first'}

# So many groups and carrying arrows are drawn, and the others are counted.
MOST_PILLS, MOST_ARROWS = 24, 24

# So wide a name stands above a column of the table.
MOST_TURNED = 150

# Up to so many parties, with names of up to such a width, the table of messages stands beside the parties.
BESIDE, BESIDE_WIDTH = 6, 80


def few(number):
    """A count in few letters."""
    return str(number) if number < 10_000 else f'{number / 1_000:.0f}k' if number < 1_000_000 else f'{number / 1_000_000:.1f}m'


def many(number, word):
    return f'{count(number)} {word}{"" if number == 1 else "s"}'


class JobPicture:
    """A picture of a job, part by part from the top."""

    def __init__(self, name, job):
        self.sharing, self.sessions = job.sharing, job.sessions
        self.names = job.sharing.parties
        self.colours = dict(zip(self.names, PARTIES))
        self.drawing, self.y = Drawing(WIDTH, f'The job {name}'), MARGIN
        self.name = name
        self.messages = {(one, other): sum(session.messages[one, other] for session in self.sessions) for one in self.names for other in self.names}

    def heading(self, text):
        self.y += 22
        self.drawing.text(MARGIN, self.y, text, 15, INK, weight='bold')
        self.y += 14

    def title(self):
        self.y += 6
        self.drawing.text(MARGIN, self.y, short(self.name, 20, WIDTH - 2 * MARGIN), 20, INK, weight='bold')
        sent, kept = sum(self.messages.values()), sum(session.kept for session in self.sessions)
        stay = f' (and {count(kept)} that stay with their party)' if kept else ''
        parts = [many(len(self.names), 'party').replace('partys', 'parties'), many(len(self.sessions), 'session'), many(sent, 'message') + stay,
                 many(sum(session.rounds for session in self.sessions), 'round')]
        self.y += 22
        self.drawing.text(MARGIN, self.y, ' · '.join(parts), 13, FAINT)
        self.y += 8

    def circle(self, x, y, radius):
        """The parties on a circle."""
        places = {}
        for number, name in enumerate(self.names):
            angle, away = 2 * math.pi * number / len(self.names) - math.pi / 2, radius if len(self.names) > 1 else 0
            places[name] = x + away * math.cos(angle), y + away * math.sin(angle)
        most = max([self.messages[one, other] + self.messages[other, one] for one in self.names for other in self.names], default=0) or 1
        for number, one in enumerate(self.names):
            for other in self.names[:number]:
                between = self.messages[one, other] + self.messages[other, one]
                if between:
                    self.drawing.line(*places[one], *places[other], DIRECT, 1 + 5 * between / most, opacity=0.45)
        for name, (at_x, at_y) in places.items():
            self.drawing.dot(at_x, at_y, 15, self.colours[name], name[0].upper())
            side = 0 if abs(at_x - x) < 2 else 1 if at_x > x else -1
            above = 31 if at_y > y + 2 else -22
            self.drawing.text(at_x + 20 * side, at_y + (4 if side else above), name, 12 if len(name) < 12 else 11, INK,
                              {0: 'middle', 1: 'start', -1: 'end'}[side])

    def table(self, x, y, cell):
        """How many messages each party sends to each other one."""
        most = max(self.messages.values()) or 1
        for number, name in enumerate(self.names):
            middle = y + cell * (number + 0.5)
            self.drawing.dot(x - 10, middle, 5, self.colours[name])
            self.drawing.text(x - 20, middle + 4, name, 12 if len(name) < 12 else 10.5, INK, 'end')
            at = x + cell * (number + 0.5)
            self.drawing.dot(at, y - 10, 5, self.colours[name])
            self.drawing.text(at + 2, y - 20, short(name, 11, MOST_TURNED), 11, INK, transform=f'rotate(-35 {at + 2:.1f} {y - 20})')
        for row, one in enumerate(self.names):
            for column, other in enumerate(self.names):
                found = self.messages[one, other]
                shade = 0.06 + 0.5 * found / most if one != other and found else 0
                self.drawing.box(x + cell * column, y + cell * row, cell, cell, BOX if one == other else DIRECT if shade else WHITE, WHITE, 3,
                                 fill_opacity=shade or 1)
                if one != other:
                    self.drawing.text(x + cell * (column + 0.5), y + cell * (row + 0.5) + 4, few(found), min(13, cell * 0.34), INK, 'middle')
        self.drawing.text(x, y + cell * len(self.names) + 18, 'from the party of the row to that of the column', 11, FAINT)

    def parties(self):
        self.heading('Who sends how many messages to whom')
        count_of = len(self.names)
        beside = count_of <= BESIDE and max(width_of(name, 12) for name in self.names) <= BESIDE_WIDTH
        cell = min(48, 220 / count_of) if beside else 44
        height = max(210, cell * count_of + 100) if beside else 290
        self.circle(190 if beside else WIDTH / 2, self.y + (height if beside else 250) / 2, 68 if beside else 90)
        if beside:
            self.table(510, self.y + 72 + max(0, (height - 100 - cell * count_of) / 2), cell)
        else:
            self.table(WIDTH / 2 - cell * count_of / 2 + 40, self.y + height + 72, cell)
            height += 100 + cell * count_of
        self.y += height

    def pills(self):
        groups = [[name for name in self.names if mask >> self.sharing.numbers[name] & 1] for mask in self.sharing.groups]
        self.heading('Who must learn nothing, even together')
        x, height = MARGIN, 28
        for group in groups[:MOST_PILLS]:
            width = sum(24 + width_of(name, 12) for name in group) + 14 if group else 74
            if x + width > WIDTH - MARGIN and x > MARGIN:
                x, self.y = MARGIN, self.y + height + 8
            self.drawing.box(x, self.y, width, height, BOX, LINE, 14)
            at = x + 14
            if not group:
                self.drawing.text(at, self.y + 18, 'nobody', 12, FAINT)
            for name in group:
                self.drawing.dot(at + 4, self.y + height / 2, 5, self.colours[name])
                self.drawing.text(at + 13, self.y + 18, name, 12)
                at += 24 + width_of(name, 12)
            x += width + 8
        self.y += height + 18
        rest = f' and of {len(groups) - MOST_PILLS} more' if len(groups) > MOST_PILLS else ''
        count_of = len(groups)
        self.drawing.text(MARGIN, self.y, f'Each value is cut into {many(count_of, "summand")}, one for each of these groups{rest}, which its members do not get.'
                          if any(groups) else 'So each party by itself may know everything.', 12, FAINT)
        self.y += 8

    def of_names(self, counts, word):
        """Who has how many values."""
        if not counts:
            return 'nobody'
        if len(counts) == len(self.names) > BESIDE and set(counts.values()) == {1}:
            return 'all parties'
        if len(set(counts.values())) == 1 and len(counts) > 1:
            each = next(iter(counts.values()))
            return f'{listed(list(counts))} ({many(each, word)} each)' if each > 1 else listed(list(counts))
        return listed([f'{name} ({many(number, word)})' if number > 1 else name for name, number in counts.items()])

    def session(self, number, session, width):
        top, height = self.y, 92
        self.drawing.box(MARGIN, top, width, height)
        self.drawing.box(MARGIN, top, 6, height, PREPARED if session.way in OF_PREPARED else DIRECT, 'none', 3)
        what = f'{session.file}, {LAYOUTS[session.layout]}{OF_LAYERS * (session.order == IN_LAYERS)}{OF_PREPARED.get(session.way, "")}'
        self.drawing.text(MARGIN + 18, top + 22, f'Session {number}', 13, weight='bold')
        self.drawing.text(MARGIN + 100, top + 22, short(what, 13, width - 120), 13, FAINT)
        carried = [f'session {earlier} ({many(wires, "wire")})' for earlier, wires in session.carries.items()]
        gives = self.of_names(session.gives, 'value') if session.gives or not carried else ''
        lines = ['gives: ' + '; carried from '.join(filter(None, [gives, listed(carried) if carried else ''])) if gives else f'carried from {listed(carried)}',
                 f'reads: {self.of_names(session.reads, "value")}',
                 f'{many(session.gates, "gate")}, {many(session.products, "product")}'
                 + (f' of depth {session.depth}' if session.products > 1 else '') + f' · {many(sum(session.messages.values()), "message")}'
                 + (f' and {count(session.kept)} that stay' if session.kept else '') + f' · {many(session.rounds, "round")}'
                 + (f', {count(session.before)} of them before the inputs' if session.before else '')]
        for place, line in enumerate(lines):
            self.drawing.text(MARGIN + 18, top + 43 + 18 * place, short(line, 12.5, width - 30), 12.5, INK if place < 2 else FAINT)
        self.y += height + 12
        return top + height / 2

    def carry(self, places, width):
        """Arrows from the sessions that are carried from."""
        pairs = [(earlier, later) for later, session in enumerate(self.sessions) for earlier in session.carries]
        for lane, (earlier, later) in enumerate(sorted(pairs, key=lambda pair: pair[1] - pair[0])[:MOST_ARROWS]):
            x, bulge = MARGIN + width, 22 + min(70, 14 * (later - earlier) + 2 * lane)
            start, end = places[earlier] + 10, places[later] - 10
            self.drawing.path(f'M{x} {start:.1f} C{x + bulge} {start:.1f} {x + bulge} {end:.1f} {x + 6} {end:.1f}', FAINT, 1.8)
            self.drawing.head(x, end, math.pi, FAINT)
        if pairs:
            self.y += 6
            self.drawing.text(MARGIN, self.y, 'An arrow: values go on into a later session, shared as they are, and nobody reads them.', 12, FAINT)

    def draw(self):
        self.title()
        self.parties()
        self.pills()
        self.heading('What is computed')
        width = WIDTH - 2 * MARGIN - (100 if any(session.carries for session in self.sessions) else 0)
        places = [self.session(number, session, width) for number, session in enumerate(self.sessions)]
        self.carry(places, width)
        return self.drawing.svg(self.y + MARGIN - 6)


def picture_of(folder, name=None):
    """The picture of a job's folder."""
    return JobPicture(name or os.path.basename(os.path.abspath(folder)), counts_of(folder)).draw()


def main(words):
    if words in (['-h'], ['--help']):
        print(__doc__)
        return 0
    if len(words) != 1:
        print(__doc__.split('\n\n')[1], file=sys.stderr)
        return 2
    sys.stdout.write(picture_of(words[0]))
    return 0


if __name__ == '__main__':
    run_script(main)
