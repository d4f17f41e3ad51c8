#!/usr/bin/env python3
"""Runs a program over jobs of random programs of whole numbers: random_numbers.py PROGRAM COUNT [SEED]

Each of COUNT tries is a job of one to six parties, random groups that must learn nothing, and one to three sessions of the layout 'numbers', whose products are
direct, prepared or ahead, and which may carry on what earlier ones came to. What 'run' writes must be what Python's own integers come to. The same job with the
circuits of bits that examples/programs.py makes of its files, whose gates go in layers, must have the same views, tapes and counts by 'run --view', 'pair' and
'check'. Then a file is changed in some places: the program must refuse it as examples/programs.py does, or take it as the circuit that it makes. Try N of
a SEED (0 where it isn't given) is the same each time. Ends with status 1, and keeps the files, where a try goes wrong.
"""

import pathlib
import random
import re
import shutil
import subprocess
import sys
import tempfile

sys.path.insert(1, str(pathlib.Path(__file__).resolve().parent.parent / 'examples'))

from random_expressions import (CHANGES, PRODUCTS_FIELDS, Wrong, all_tries, call, expect_same, put_piece, put_word, random_groups,  # noqa: E402
                                some_group, write_folder)
from by_layers import IN_LAYERS  # noqa: E402
from in_the_clear import bits_of, out_in_the_clear  # noqa: E402
from job_folder import job_text  # noqa: E402
from number_circuit import compiled  # noqa: E402
from number_programs import input_widths, outputs_of, width_of  # noqa: E402
from number_reader import Fault  # noqa: E402
from waits import told  # noqa: E402

WORDS = ('input', 'let', 'output', 'if', 'then', 'else', 'or', 'and', 'not', 'min', 'max')
OPERATORS = ['or', 'and', '==', '!=', '<', '<=', '>', '>=', *'+++***/%']
MOST_OPEN = 32

# So many gates a session has, at most.
MOST_GATES = 2_500

# What may come into a changed text.
PIECES = [b'(', b')', b'-', b'+', b'*', b'/', b'%', b'=', b'==', b'<', b'<=', b'!', b'>', b',', b' ', b'\t', b'\r', b'\n', b'\r\n', b'#', b'input ', b'let ', b'output ', b'if ',
          b' then ', b' else ', b' or ', b' and ', b'not ', b'min(', b'max(', b'signed ', b'x', b'_', b'0', b'64', b'65', b'9' * 21, b'a' * 17, b'\0', b'\x0b', b'\xff', b'\xc3',
          b'\xc3\xa9', b'(' * 33, b'not ' * 33, b'(not ' * 17, b'18446744073709551615']


class Writer:
    """Writes random lines."""

    def __init__(self, chance):
        self.chance, self.names = chance, []

    def blanks(self, least=0):
        return ''.join(self.chance.choices(' \t\r', [8, 1, 1], k=max(least, self.chance.choice([0, 0, 1, 1, 2]))))

    def new_name(self):
        while True:
            stem = self.chance.choice(['', '', *WORDS, *self.names[-2:]])
            name = (stem + ''.join(self.chance.choices('abcXYZ019_', k=self.chance.choice([0, 1, 1, 2, 16]))))[:16]
            if re.match('[A-Za-z]', name) and name not in (*WORDS, 'signed', *self.names):
                return name

    def number(self):
        return self.chance.choice(['', '', '', '0', '00']) + str(self.chance.choice([0, 1, 2, 3, 7, 10, 100, 2**self.chance.randrange(65) - 1, self.chance.randrange(1000)]))

    def operand(self, room):
        """A name, a number, or what stands in parentheses, where so many signs may be opened."""
        kind = self.chance.random() if room else 1
        if kind < 0.25:
            return f'({self.blanks()}{self.expression(room - 1)}{self.blanks()})'
        if kind < 0.35:
            return f'{self.chance.choice(["min", "max"])}{self.blanks()}({self.expression(room - 1)},{self.blanks()}{self.expression(room - 1)})'
        return self.chance.choice(self.names) if self.names and self.chance.random() < 0.75 else self.number()

    def expression(self, room):
        kind = self.chance.random() if room else 1
        if kind < 0.12:
            condition, first, second = (self.expression(min(room - 1, 3)) for _ in range(3))
            return f'if {condition} then {first} else {second}'
        text = 'not ' * (room > 0 and kind < 0.25) + self.operand(room)
        compared = False
        for _ in range(self.chance.choice([0, 0, 1, 1, 2, 3]) if room > 25 else self.chance.choice([0, 1])):
            sign = self.chance.choice(OPERATORS)
            if compared and sign[0] in '=!<>':
                sign = 'and'
            compared = sign not in ('and', 'or') and (compared or sign[0] in '=!<>')
            blank = self.blanks(1) if sign.isalpha() else self.blanks()
            text += blank + sign + blank + self.operand(min(room, 4))
        return text

    def line(self, kind):
        name = self.new_name() if kind != 'output' else None
        if kind == 'input':
            rest = f'{name}{self.blanks(1)}{self.chance.choice([1, 1, 2, 3, 4, 8, 8, 9, 16, 32, 63, 64])}'
        else:
            rest = f'{name}{self.blanks()}={self.blanks()}' * (kind == 'let') + self.expression(MOST_OPEN)
        return name, f'{self.blanks()}{kind}{self.blanks(1)}{rest}{self.blanks()}{self.chance.choice(["", "", "", "#", "# (a comment"])}'


def random_program(chance):
    """The text of a program that is accepted, and not too large a circuit."""
    kinds = ['input'] * chance.choice([0, 1, 2, 2, 3, 5]) + ['output'] * chance.choice([0, 1, 2, 3]) + ['let'] * chance.randrange(4)
    chance.shuffle(kinds)
    writer, lines, ending = Writer(chance), [], chance.choice(['\n', '\n', '\r\n'])
    for kind in kinds:
        for _ in range(30):
            name, line = writer.line(kind)
            text = ending.join([*lines, line])
            try:
                compiled(text.encode(), MOST_GATES)
            except Fault:
                continue
            lines += [chance.choice(['', ' \t', '# nothing'])] * chance.choice([0, 0, 0, 1]) + [line]
            writer.names += [name] if name else []
            break
    return (ending.join(lines) + chance.choice(['', ending, ending + '#'])).encode()


def some_number(chance, width):
    return chance.choice([0, 1, 2**width - 1, chance.randrange(2**width), chance.randrange(2**width)])


def words_of(number, width, of_bits):
    """The words of a value in a party's file."""
    return ' '.join(map(str, bits_of(number, width))) if of_bits else str(number)


class Job:
    """A random job: its sessions, with what each input comes to, and what it is to write."""

    def __init__(self, chance):
        self.chance, self.out, self.earlier = chance, '', {}
        self.parties = chance.sample(['a', 'b', 'c', 'dora', 'e_5', 'F'], chance.choice([1, 2, 3, 3, 3, 4, 5, 6]))
        self.groups, self.seeds = random_groups(chance, self.parties), {name: chance.randbytes(32).hex() for name in self.parties}
        self.programs, self.sessions, self.given = {}, [], []
        for number in range(chance.choice([1, 1, 2, 3])):
            self.add(number, f'{number}.txt', random_program(chance))

    def add(self, number, name, data):
        """Adds a session."""
        chance, self.programs[name] = self.chance, data
        widths, owners = input_widths(data), []
        for width in widths:
            carried = [owner for owner, output in self.earlier.items() if width_of(output) == width]
            owners.append(chance.choice([*self.parties, *carried]))
        inputs = [self.earlier[owner].value if owner in self.earlier else some_number(chance, width) for owner, width in zip(owners, widths)]
        others = [chance.choice([value, value, some_number(chance, width)]) for value, width in zip(inputs, widths)]
        self.given.append((owners, widths, inputs, others))
        outputs = outputs_of(data, inputs)
        readers = [chance.sample(self.parties, chance.randrange(len(self.parties) + 1)) for _ in outputs]
        self.sessions.append({'circuit': name, 'owners': owners, 'readers': readers, **chance.choice(PRODUCTS_FIELDS)})
        for value, output in enumerate(outputs):
            self.out += ''.join(f'out {number} {value} {name} {output.value}\n' for name in self.parties if name in readers[value])
            self.earlier[f'@{number}.{value}'] = output

    def texts(self, name, place, of_bits):
        """What a party gives in each session, of its inputs or of the other ones."""
        return [' '.join(words_of(value, width, of_bits) for owner, width, value in zip(owners, widths, (inputs, others)[place]) if owner == name)
                for owners, widths, inputs, others in self.given]

    def files(self, of_bits):
        """Its files; of bits, those of the same job whose sessions name circuits."""
        way = {'layout': 'bristol', 'order': IN_LAYERS} if of_bits else {'layout': 'numbers'}
        top = {'version': 2, 'ring_bits': 1, 'parties': self.parties, 'tolerated': self.groups, 'session': [{**session, **way} for session in self.sessions]}
        files = {name: compiled(data).encode() if of_bits else data for name, data in self.programs.items()}
        files['job.toml'] = job_text(top).encode()
        for name in self.parties:
            files[f'party_{name}.toml'] = job_text({'version': 1, 'inputs': self.texts(name, 0, of_bits), 'seed': self.seeds[name], 'session': []}).encode()
        files['other.toml'] = b'version = 1\n[inputs]\n' + job_text({**{name: self.texts(name, 1, of_bits) for name in self.parties}, 'session': []}).encode()
        return files


def but_outputs(answers):
    """An answer without its lines of outputs."""
    status, out, err = answers
    return status, [line for line in out.split('\n') if not line.startswith('out ')], err


def expect_values(program, chance, top, job):
    """That a job writes its outputs, and has the views of its circuits."""
    files = job.files(False)
    if out_in_the_clear(files) != job.out:
        raise Wrong(f'in the clear it writes {out_in_the_clear(files)} in place of {job.out}')
    folders = [write_folder(top, 'numbers', files), write_folder(top, 'circuits', job.files(True))]
    view, workers = ['--view', some_group(chance, job.parties)], chance.choice([[], ['--workers', '3']])
    answer = call(program, 'run', folders[0], *view, *workers)
    if answer[0] != 0 or answer[1].partition('view ')[0] != job.out or answer[2]:
        raise Wrong(f'run: {answer[0]} {answer[1][:2000]} {answer[2]} in place of {job.out}')
    group = some_group(chance, job.parties)
    for words in (['run', *view], ['pair', '--group', group]):
        found, due = (but_outputs(call(program, words[0], folder, *words[1:])) for folder in folders)
        if found != due:
            raise Wrong(f'{words}: {str(found)[:2000]} in place of {str(due)[:2000]}')
    if expect_same(program, folders, 'check')[0] != 0:
        raise Wrong('check is refused')


def refusal_of(data, name):
    """The line that is due for a file that is no program, or nothing."""
    try:
        compiled(data)
    except Fault as fault:
        kind, *keys = re.findall(r'\d+ \w+|\S+', str(fault))
        return f'refused numbers {" ".join([kind, f"file={name}", "session=0", *keys])}\n'
    return ''


def expect_refused(program, chance, top, job):
    """That a changed file is refused where the script refuses it, and taken for its circuit elsewhere."""
    for _ in range(chance.choice([1, 1, 2])):
        change = chance.choice([*8 * [lambda data, chance: put_piece(data, chance, PIECES), put_word], *CHANGES])
        job.programs['0.txt'] = change(job.programs['0.txt'], chance)
    refusal = refusal_of(job.programs['0.txt'], '0.txt')
    folder = write_folder(top, 'changed', job.files(False))
    if not refusal:
        expect_same(program, [folder, write_folder(top, 'changed_circuits', job.files(True))], 'check')
    elif (answer := call(program, 'check', folder)) != (3, '', refusal):
        raise Wrong(f'check: {answer} in place of {refusal}')


def what_is_wrong(program, seed, number):
    """Why a try went wrong, or nothing."""
    chance = random.Random(f'numbers {seed} {number}')
    top = tempfile.mkdtemp(prefix='numbers-')
    try:
        job = Job(chance)
        expect_values(program, chance, top, job)
        expect_refused(program, chance, top, job)
    except (Wrong, subprocess.TimeoutExpired) as wrong:
        return f'try {number} went wrong, its files are in {top}: {wrong}'
    shutil.rmtree(top)
    return None


def main(words):
    return all_tries(words, what_is_wrong, 'of numbers write what Python comes to, and have the views of their circuits')


if __name__ == '__main__':
    sys.exit(told(main))
