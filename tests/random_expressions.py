#!/usr/bin/env python3
"""Runs a program over jobs of random expressions: random_expressions.py PROGRAM COUNT [SEED]

Each of COUNT tries is a job of one to six parties, random groups that must learn nothing, a ring of 1 to 64 bits, and one to three sessions of
the layout 'expr', whose products are direct, prepared or ahead, whose gates go in the order of the file or in layers, and which may carry on what earlier ones came to. What 'run' writes must be what Python's own integers come to. The same job with the circuits that examples/expressions.py
makes of its files must write the same by 'run --view', 'check' and 'pair'. Then a file is changed in some places: the program must refuse it as
examples/expressions.py does, or take it as the circuit that it makes. Try N of a SEED (0 where it isn't given) is the same each time.
Ends with status 1, and keeps the files, where a try goes wrong.
"""

import collections
import concurrent.futures
import importlib.util
import os
import pathlib
import random
import re
import shutil
import string
import subprocess
import sys
import tempfile

TOP = pathlib.Path(__file__).resolve().parent.parent
sys.path[1:1] = [str(TOP / 'examples'), str(TOP / 'fuzz')]

from by_layers import IN_LAYERS, WAYS  # noqa: E402
from in_the_clear import fields, out_in_the_clear  # noqa: E402
from job_folder import job_text  # noqa: E402
from mutate import CHANGES  # noqa: E402
from waits import MOST_SECONDS, told  # noqa: E402

MOST_OPEN = 32
WORDS = ('input', 'let', 'output')

# What may come into a changed text.
PIECES = [b'(', b')', b'-', b'+', b'*', b'=', b' ', b'\t', b'\r', b'\n', b'\r\n', b'input ', b'let ', b'output ', b'x', b'_', b'0', b'9' * 21, b'a' * 17,
          b'#', b'\0', b'\x0b', b'\xff', b'\xc3', b'\xc3\xa9', b'(' * 33, b'-' * 33, b'(-' * 17]


def load_script():
    """The script examples/expressions.py. Beside this file there is a table of rows of the same name."""
    spec = importlib.util.spec_from_file_location('expressions_script', TOP / 'examples/expressions.py')
    script = importlib.util.module_from_spec(spec)
    spec.loader.exec_module(script)
    return script


SCRIPT = load_script()


# Programs.

class Writer:
    """Writes random lines, each a word, the name that it gives or none, and its expression or none."""

    def __init__(self, chance, bits):
        self.chance, self.bits, self.names = chance, bits, []

    def blanks(self, least=0):
        return ''.join(self.chance.choices(' \t\r', [8, 1, 1], k=max(least, self.chance.choice([0, 0, 1, 1, 1, 2]))))

    def new_name(self):
        chance = self.chance
        while True:
            stem = chance.choice(['', '', *WORDS, *self.names[-2:]])
            name = stem + ''.join(chance.choices(string.ascii_letters + string.digits + '_', k=chance.choice([0, 1, 1, 2, 16])))
            name = chance.choice([name, name, name.swapcase()])[:16]
            if re.match('[A-Za-z]', name) and name not in (*WORDS, *self.names):
                return name

    def number(self):
        most = 2**self.bits
        number = self.chance.choice([0, 1, 2, 3, most - 1, most // 2, self.chance.randrange(most), self.chance.randrange(100)]) % most
        return self.chance.choice(['', '', '', '0', '00']) + str(number)

    def operand(self, room):
        """A name, a number, or another operand behind a sign, where so many signs may be opened."""
        kind = self.chance.random() if room else 1
        if kind < 0.15:
            return '-' + self.blanks() + self.operand(room - 1)
        if kind < 0.3:
            return '(' + self.blanks() + self.expression(room - 1, self.chance.randrange(4)) + self.blanks() + ')'
        if kind < 0.32:
            signs = self.chance.randrange(room + 1)
            return '-' * signs + self.operand(room - signs)
        return self.chance.choice(self.names) if self.names and self.chance.random() < 0.8 else self.number()

    def expression(self, room, operators):
        """An expression with so many signs between two operands, besides those in parentheses."""
        text = self.operand(room)
        for _ in range(operators):
            text += self.blanks() + self.chance.choice('+-*') + self.blanks() + self.operand(room)
        return text

    def line(self, kind):
        expression = self.expression(MOST_OPEN, self.chance.choice([0, 1, 2, 3, 5, 12])) if kind != 'input' else None
        name = self.new_name() if kind != 'output' else None
        if name:
            self.names.append(name)
        return kind, name, expression

    def text_of(self, line):
        kind, name, expression = line
        text = self.blanks() + kind
        if name:
            text += self.blanks(1) + name + self.blanks()
        if kind == 'let':
            text += '=' + self.blanks()
        elif expression:
            text += self.blanks(0 if expression[0] in '-(' else 1)
        return text + (expression or '') + self.blanks()

    def file_of(self, lines):
        """The text of the lines, with some blank lines."""
        texts = []
        for line in lines:
            texts += [self.blanks()] * self.chance.choice([0, 0, 0, 1, 2]) + [self.text_of(line)]
        return (self.chance.choice(['\n', '\n', '\r\n']).join(texts) + self.chance.choice(['\n', '\n', '', '\n\r\n\t'])).encode()


def python_values(lines, inputs, bits):
    """The values of the output lines, as Python reads the expressions."""
    values, outputs, inputs = {}, [], iter(inputs)
    for kind, name, expression in lines:
        if kind == 'input':
            values[name] = next(inputs)
            continue
        text = re.sub(r'[A-Za-z]\w*', r'values["\g<0>"]', re.sub(r'(?<!\w)0+(?=\d)', '', re.sub(r'\s', ' ', expression)))
        value = eval(text, {'values': values}) % 2**bits
        if kind == 'let':
            values[name] = value
        else:
            outputs.append(value)
    return outputs


# Jobs.

Program = collections.namedtuple('Program', 'name lines data inputs outputs')


def random_program(chance, name, bits):
    inputs, outputs, lets = chance.choice([0, 1, 2, 2, 3, 5]), chance.choice([0, 1, 1, 2, 4]), chance.randrange(5)
    kinds = ['input'] * inputs + ['output'] * outputs + ['let'] * lets
    chance.shuffle(kinds)
    writer = Writer(chance, bits)
    lines = [writer.line(kind) for kind in kinds]
    return Program(name, lines, writer.file_of(lines), inputs, outputs)


def random_groups(chance, parties):
    """Groups of which no two are together all parties."""
    groups = []
    for _ in range(chance.randrange(5)):
        group = chance.sample(parties, chance.randrange(len(parties)))
        if all(len({*group, *other}) < len(parties) for other in groups):
            groups.append(group)
    return groups


def some_words(chance, bits, count):
    return [chance.choice([0, 1, 2**bits - 1, chance.randrange(2**bits)]) for _ in range(count)]


# How the products of a session are computed.
PRODUCTS_FIELDS = [{}, {}, *({'products': way} for way in WAYS for _ in range(1 + (way != 'direct')))]

# In which order its gates go.
ORDER_FIELDS = [{}, {}, {'order': IN_LAYERS}]


def random_job(chance):
    """The files of a job, and what 'run' is to write."""
    bits = chance.choice([1, 2, 8, 31, 32, 33, 63, 64, chance.randrange(1, 65)])
    parties = chance.sample(['a', 'b', 'c', 'dora', 'e_5', 'F'], chance.choice([1, 2, 3, 3, 3, 4, 5, 6]))
    programs = [random_program(chance, f'{number}.txt', bits) for number in range(chance.choice([1, 1, 2, 3]))]
    sessions, out = [], ''
    words, other, earlier = {name: [] for name in parties}, {name: [] for name in parties}, {}
    for number in range(len(programs)):
        program = chance.choice([programs[number], programs[number], programs[0]])
        owners = chance.choices([*parties, *chance.sample(sorted(earlier), min(len(earlier), 3))], k=program.inputs)
        readers = [chance.sample(parties, chance.randrange(len(parties) + 1)) for _ in range(program.outputs)]
        sessions.append({'circuit': program.name, 'layout': 'expr', 'owners': owners, 'readers': readers, **chance.choice(PRODUCTS_FIELDS),
                         **chance.choice(ORDER_FIELDS)})
        inputs = [earlier.get(owner, word) for owner, word in zip(owners, some_words(chance, bits, program.inputs))]
        for kept, given in ((words, inputs), (other, [chance.choice([word, word, *some_words(chance, bits, 1)]) for word in inputs])):
            for name in parties:
                kept[name].append(' '.join(str(word) for word, owner in zip(given, owners) if owner == name))
        for value, word in enumerate(python_values(program.lines, inputs, bits)):
            out += ''.join(f'out {number} {value} {name} {word}\n' for name in parties if name in readers[value])
            earlier[f'@{number}.{value}'] = word
    job = {'version': 2, 'ring_bits': bits, 'parties': parties, 'tolerated': random_groups(chance, parties), 'session': sessions}
    files = {program.name: program.data for program in programs}
    files['job.toml'] = job_text(job).encode()
    for name in parties:
        files[f'party_{name}.toml'] = job_text({'version': 1, 'inputs': words[name], 'seed': chance.randbytes(32).hex(), 'session': []}).encode()
    files['other.toml'] = b'version = 1\n[inputs]\n' + job_text({**other, 'session': []}).encode()
    return files, out


def with_circuits(files):
    """The same job, with the circuits that the script makes of its expressions."""
    top, sessions = fields(files['job.toml'])
    circuits = {session['circuit']: SCRIPT.compiled(files[session['circuit']], top['ring_bits']).encode() for session in sessions}
    return {**files, **circuits, 'job.toml': files['job.toml'].replace(b'layout = "expr"', b'layout = "ring"')}


# Tries.

class Wrong(Exception):
    """A call that ended otherwise."""


def write_folder(top, name, files):
    folder = os.path.join(top, name)
    os.mkdir(folder)
    for file, data in files.items():
        pathlib.Path(folder, file).write_bytes(data)
    return folder


def call(program, command, folder, *words):
    """The status of a call, and what it wrote on both outputs."""
    done = subprocess.run([program, command, folder, *words], stdin=subprocess.DEVNULL, capture_output=True, timeout=MOST_SECONDS)
    return done.returncode, done.stdout.decode(), done.stderr.decode()


def expect_same(program, folders, command, *words):
    """That a command ends in the same way over each of these folders, which is given back."""
    answers = [call(program, command, folder, *words) for folder in folders]
    if any(answer != answers[0] for answer in answers):
        raise Wrong(f'{command} {words}: {answers}')
    return answers[0]


def some_group(chance, parties):
    return '+'.join(chance.sample(parties, chance.randrange(len(parties) + 1))) or '0'


def expect_values(program, chance, top, files, out):
    """That a job writes its outputs, and the same with its circuits."""
    if out_in_the_clear(files) != out:
        raise Wrong(f'in the clear it writes {out_in_the_clear(files)} in place of {out}')
    folders = [write_folder(top, 'expressions', files), write_folder(top, 'circuits', with_circuits(files))]
    parties = fields(files['job.toml'])[0]['parties']
    workers = chance.choice([[], ['--workers', '3']])
    answer = expect_same(program, folders, 'run', '--view', some_group(chance, parties), *workers)
    if answer[0] != 0 or answer[1].partition('view ')[0] != out or answer[2]:
        raise Wrong(f'run: {answer} in place of {out}')
    answer = expect_same(program, folders, 'check')
    if answer[0] != 0:
        raise Wrong(f'check: {answer}')
    expect_same(program, folders, 'pair', '--group', some_group(chance, parties))


def put_piece(data, chance, pieces=PIECES):
    place = chance.randrange(len(data) + 1)
    return data[:place] + chance.choice(pieces) + data[place:]


def put_word(data, chance):
    """A name, a number or a word of the language stands in the place of another one."""
    words = list(re.finditer(rb'\w+', data)) or [re.match(b'', data)]
    old, new = chance.choices(words, k=2)
    return data[:old.start()] + new[0] + data[old.end():]


def refusal_of(files, name):
    """The line that is due for a file that is no program, or nothing."""
    top, sessions = fields(files['job.toml'])
    number = next((number for number, session in enumerate(sessions) if session['circuit'] == name), None)
    try:
        SCRIPT.compiled(files[name], top['ring_bits'])
    except SCRIPT.Fault as fault:
        kind, *keys = re.findall(r'\d+ \w+|\S+', str(fault))
        return f'refused expr {" ".join([kind, f"file={name}", f"session={number}", *keys])}\n' if number is not None else ''
    return ''


def expect_refused(program, chance, top, files):
    """That a changed file is refused where the script refuses it, and taken for its circuit elsewhere."""
    name = fields(files['job.toml'])[1][0]['circuit']
    for _ in range(chance.choice([1, 1, 2])):
        files = {**files, name: chance.choice([*8 * [put_piece, put_word], *CHANGES])(files[name], chance)}
    folder, refusal = write_folder(top, 'changed', files), refusal_of(files, name)
    if not refusal:
        expect_same(program, [folder, write_folder(top, 'changed_circuits', with_circuits(files))], 'check')
    elif (answer := call(program, 'check', folder)) != (3, '', refusal):
        raise Wrong(f'check: {answer} in place of {refusal}')


def what_is_wrong(program, seed, number):
    """Why a try went wrong, or nothing."""
    chance = random.Random(f'{seed} {number}')
    top = tempfile.mkdtemp(prefix='expressions-')
    try:
        files, out = random_job(chance)
        expect_values(program, chance, top, files, out)
        expect_refused(program, chance, top, files)
    except (Wrong, subprocess.TimeoutExpired) as wrong:
        return f'try {number} went wrong, its files are in {top}: {wrong}'
    shutil.rmtree(top)
    return None


def all_tries(words, wrong_of, what):
    """Makes so many tries as the words say, and tells the first that went wrong, or what all of them came to."""
    name = os.path.basename(words[0]).removesuffix('.py')
    if len(words) not in (3, 4) or not all(word.isdecimal() for word in words[2:]):
        sys.exit(f'usage: {name}.py PROGRAM COUNT [SEED]')
    program, count, seed = shutil.which(os.path.abspath(words[1])), int(words[2]), int(words[3]) if len(words) == 4 else 0
    if not program:
        sys.exit(f'{name}: there is no program {words[1]}')
    with concurrent.futures.ThreadPoolExecutor(4) as pool:
        for wrong in pool.map(lambda number: wrong_of(program, seed, number), range(count)):
            if wrong:
                pool.shutdown(cancel_futures=True)
                sys.exit(f'{name}: {wrong}')
    print(f'{name}: {count} jobs {what}')
    return 0


def main(words):
    return all_tries(words, what_is_wrong, 'write what Python comes to, and the same as their circuits')


if __name__ == '__main__':
    sys.exit(told(main))
