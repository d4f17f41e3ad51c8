#!/usr/bin/env python3
"""Holds the order in which gates go to its definition: orders.py PROGRAM

Random circuits of bits and of words, with wires in any order, are sorted here as slowly and plainly as the definition says. A job with order = "layers" must
write what the job with the sorted files writes, byte by byte, also the view of all parties, and cost the same; its outputs must be what the circuits come to
in the clear. Products are direct, prepared or ahead, and values go on into sessions of the other order. Ends with status 1, and tells why, where
a job writes something else.
"""

import functools
import os
import pathlib
import random
import subprocess
import sys
import tempfile

TOP = pathlib.Path(__file__).resolve().parent.parent
sys.path[1:1] = [str(TOP / 'examples')]

from by_layers import IN_FILE, IN_LAYERS, WAYS  # noqa: E402
from in_the_clear import circuit_of, out_in_the_clear  # noqa: E402
from job_folder import job_text  # noqa: E402
from random_expressions import some_words  # noqa: E402
from waits import MOST_SECONDS, told  # noqa: E402

CIRCUITS = 40
MOST_LINES = 60

# So many of the jobs at least must go otherwise in layers than in the order of the file.
LEAST_MOVED = 35

PRODUCTS = ('AND', 'MUL')
OF_BITS = ['XOR', 'AND', 'AND', 'INV', 'EQ', 'EQW']
OF_WORDS = ['ADD', 'SUB', 'MUL', 'MUL', 'NEG', 'EQ', 'EQW']
ONE_WIRE = {'INV', 'NEG', 'EQW'}

# How the products of a session are computed.
FIELDS = [{}, *({'products': way} for way in WAYS)]


class Wrong(Exception):
    """A job that wrote something else."""


def expect(holds, text):
    if not holds:
        raise Wrong(text)


# The definition.

def sorted_lines(text):
    """The lines of a circuit's file, with its gates sorted by two numbers: of a linear gate the depth of the wire that it sets, and 0; of a product the
    greatest depth of its wires, and 1. Where both are the same the one that stands first in the file goes first."""
    gates = circuit_of(text.encode())[3]
    setters = {output: (operation, operands) for operation, operands, output in gates}

    @functools.cache
    def depth(wire):
        """The most products on a way from an input to this wire."""
        operation, operands = setters.get(wire, ('EQ', []))
        return deepest(operation, operands) + (operation in PRODUCTS)

    def deepest(operation, operands):
        return 0 if operation == 'EQ' else max(map(depth, operands))

    def numbers(place):
        operation, operands, output = gates[place]
        return (deepest(operation, operands), 1, place) if operation in PRODUCTS else (depth(output), 0, place)

    lines = text.splitlines()
    return '\n'.join([*lines[:3], *(lines[3 + place] for place in sorted(range(len(gates)), key=numbers))]) + '\n'


# Random jobs.

def random_wires(chance, inputs, count, outputs):
    """How many wires there are, and those that the gates set, in some order. The last ones are outputs, and of the others some are never set."""
    wires = inputs + count + chance.randrange(4)
    unset = chance.sample(range(inputs, wires - outputs), wires - inputs - count)
    return wires, chance.sample([wire for wire in range(inputs, wires) if wire not in unset], count)


def random_circuit(chance, bits, widths):
    """A circuit of so wide input values, of bits where the ring has one, and its output widths. A gate reads wires that were set lately, or any."""
    count = chance.randrange(6, MOST_LINES)
    outputs = [chance.randrange(4) for _ in range(chance.randrange(1, 4))]
    outputs = outputs if sum(outputs) < count else [1]
    wires, sets = random_wires(chance, sum(widths), count, sum(outputs))
    there, lines = list(range(sum(widths))), []
    for wire in sets:
        operation = chance.choice(OF_BITS if bits == 1 else OF_WORDS) if there else 'EQ'
        if operation == 'EQ':
            operands = some_words(chance, bits, 1)
        else:
            operands = [chance.choice(chance.choice([there, there[-5:]])) for _ in range(1 if operation in ONE_WIRE else 2)]
        lines.append(f'{len(operands)} 1 {" ".join(map(str, operands))} {wire} {operation}')
        there.append(wire)
    head = [[count, wires], [len(widths), *widths], [len(outputs), *outputs]]
    return '\n'.join([*(' '.join(map(str, line)) for line in head), *lines]) + '\n', outputs


def random_job(chance, number):
    """The fields of a job and its files. A second session carries on an output value of the first one, and has another order."""
    bits = chance.choice([1, 1, 1, 2, 8, 32, 64])
    parties = ['a', 'b', 'c', 'd'][:chance.choice([3, 3, 4])]
    files, sessions, words, earlier = {}, [], {name: [] for name in parties}, []
    for place in range(1 + number % 2):
        carried = [f'@0.{chance.randrange(len(earlier))}'] if earlier else []
        widths = [chance.randrange(1, 6)] + [chance.randrange(5) for _ in range(chance.randrange(3))] + [earlier[int(owner[3:])] for owner in carried]
        text, outputs = random_circuit(chance, bits, widths)
        owners = chance.choices(parties, k=len(widths) - len(carried)) + carried
        for name in parties:
            words[name].append(' '.join(str(word) for owner, width in zip(owners, widths) for word in some_words(chance, bits, width) if owner == name))
        files[f'{place}.txt'], earlier = text, outputs
        sessions.append({'circuit': f'{place}.txt', 'layout': 'bristol' if bits == 1 else 'ring', **chance.choice(FIELDS),
                         'order': (IN_LAYERS, IN_FILE)[place], 'owners': owners, 'readers': [chance.sample(parties, chance.randrange(len(parties) + 1)) for _ in outputs]})
    if number % 4 == 3:
        for session, order in zip(sessions, (IN_FILE, IN_LAYERS)):
            session['order'] = order
    job = {'version': 2, 'ring_bits': bits, 'parties': parties, 'tolerated': [[name] for name in parties], 'session': sessions}
    for name in parties:
        files[f'party_{name}.toml'] = job_text({'version': 1, 'inputs': words[name], 'seed': chance.randbytes(32).hex(), 'session': []})
    return job, files


def without_orders(job, files, sort):
    """The same job without the field, and where that is wanted with the files sorted that had it."""
    sessions, texts = [], dict(files)
    for session in job['session']:
        if sort and session['order'] == IN_LAYERS:
            texts[session['circuit']] = sorted_lines(files[session['circuit']])
        sessions.append({name: value for name, value in session.items() if name != 'order'})
    return {**job, 'session': sessions}, texts


# Tries.

def answers(program, job, files):
    """What a run with the view of all parties writes, and what a check does."""
    with tempfile.TemporaryDirectory() as folder:
        for name, text in {**files, 'job.toml': job_text(job)}.items():
            pathlib.Path(folder, name).write_text(text, encoding='utf-8')
        calls = [['run', folder, '--view', '+'.join(job['parties'])], ['check', folder]]
        found = [subprocess.run([program, *words], stdin=subprocess.DEVNULL, capture_output=True, text=True, timeout=MOST_SECONDS) for words in calls]
    for done in found:
        expect(done.returncode == 0 and not done.stderr, f'{job}: status {done.returncode}: {done.stderr}')
    return [done.stdout for done in found]


def try_job(program, number):
    """Compares a job with the one whose files are sorted, and gives whether it goes otherwise than in the order of the files."""
    job, files = random_job(random.Random(number), number)
    found = answers(program, job, files)
    wanted = answers(program, *without_orders(job, files, True))
    expect(found == wanted, f'job {number}: {job} {files}: {found[0][:600]} in place of {wanted[0][:600]}')
    out = out_in_the_clear({name: text.encode() for name, text in {**files, 'job.toml': job_text(job)}.items()})
    expect(found[0].startswith(f'{out}view '), f'job {number}: {found[0][:300]} in place of {out}')
    return found[0] != answers(program, *without_orders(job, files, False))[0]


def main(words):
    if len(words) != 2:
        sys.exit('usage: orders.py PROGRAM')
    program = os.path.abspath(words[1])
    if not os.access(program, os.X_OK):
        sys.exit(f'orders: there is no program {words[1]}')
    try:
        moved = sum(try_job(program, number) for number in range(CIRCUITS))
        expect(moved >= LEAST_MOVED, f'only {moved} jobs go otherwise than in the order of their files')
    except (Wrong, subprocess.TimeoutExpired) as wrong:
        print(f'orders: NOT AS EXPECTED: {wrong}')
        return 1
    print(f'orders: {CIRCUITS} jobs in layers, of which {moved} go otherwise than in the order of their files: as expected')
    return 0


if __name__ == '__main__':
    sys.exit(told(main))
