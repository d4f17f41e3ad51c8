#!/usr/bin/env python3
"""Runs the scripts of examples/: scripts.py PROGRAM

Circuits are compared with Python's numbers, and so is what is written by numbers.py, run and read. Over folders with odd contents a script has to
end with one line on standard error. nodes.py has to find free ports, and to stop all nodes once one fails. Ends with status 1, and
tells why, where a script ends otherwise. It needs Linux.
"""

import collections
import concurrent.futures
import contextlib
import hashlib
import itertools
import os
import pathlib
import random
import re
import shutil
import signal
import socket
import ssl
import subprocess
import sys
import tempfile
import time
import xml.etree.ElementTree

TOP = pathlib.Path(__file__).resolve().parent.parent
EXAMPLES = TOP / 'examples'
sys.path[1:1] = [str(EXAMPLES), str(EXAMPLES / 'aes'), str(EXAMPLES / 'network'), str(TOP / 'fuzz'), str(TOP / 'docs')]

import job_folder  # noqa: E402
from aes_circuit import boxes  # noqa: E402
from circuits import CALLS, Circuit, circuit_of as circuit_file  # noqa: E402
from expressions import EXPRESSIONS, FAULTY_EXPRESSIONS  # noqa: E402
from in_the_clear import bits_of, circuit_of, fields as fields_of, last_wires, number_of, out_in_the_clear  # noqa: E402
from mutate import CHANGES  # noqa: E402
from number_programs import input_widths, outputs_of  # noqa: E402
from number_runs import NUMBER_FAULTS, NUMBER_RUNS  # noqa: E402
from odd_folders import ODD_FOLDERS  # noqa: E402
from orders import sorted_lines  # noqa: E402
from product import SESSION, product_with  # noqa: E402
from random_expressions import SCRIPT, with_circuits  # noqa: E402
from views import lines_with  # noqa: E402
from waits import MOST_SECONDS, told  # noqa: E402
# (it puts the scripts of examples/ before those of this folder)
import drawing  # noqa: E402
import nodes  # noqa: E402
import number_circuit  # noqa: E402
import number_reader  # noqa: E402
import secured  # noqa: E402
import job_counts  # noqa: E402
import pictures  # noqa: E402
import summands  # noqa: E402

NUMBERS, CIRCUITS, EXPRESSIONS_SCRIPT = (EXAMPLES / name for name in ('numbers.py', 'circuits.py', 'expressions.py'))
AUCTION, SPREAD, NODES = EXAMPLES / 'auction/job.py', EXAMPLES / 'statistics/spread.py', EXAMPLES / 'network/nodes.py'
BY_LAYERS, PICTURE, UNPROVED, PROGRAMS = EXAMPLES / 'by_layers.py', EXAMPLES / 'picture.py', EXAMPLES / 'unproved.py', EXAMPLES / 'programs.py'
AES, AES_CIRCUIT = EXAMPLES / 'aes/job.py', EXAMPLES / 'aes/aes_circuit.py'
INPUTS = 2_000
MUTATED = 1_000
LONG = 140_000


class Wrong(Exception):
    """A script that ended otherwise."""


def expect(holds, text):
    if not holds:
        raise Wrong(text)


def call(script, *words, given=''):
    """How a script ended that was given this text."""
    return subprocess.run([sys.executable, '-B', script, *map(str, words)], input=given.encode(), capture_output=True, timeout=MOST_SECONDS)


def wrote(script, *words, given='', doubts=False):
    """What a script wrote that has to end well. On a busy machine it may tell that it waits. Where a job may give it cause, it may have doubts."""
    done = call(script, *words, given=given)
    told = re.sub(rb'nodes\.py: waiting for [^\n]*\n', b'', done.stderr)
    told = re.sub(rb'\w+\.py: warning: [^\n]*\n', b'', told) if doubts else told
    expect(done.returncode == 0 and not told, f'{script.name} {words}: status {done.returncode}: {told[-300:]!r}')
    return done.stdout.decode()


def expect_one_line(done, name, beginning=''):
    """That a script stopped with one line, and with nothing else."""
    line = done.stderr.decode('utf-8', 'replace')
    one = line.endswith('\n') and line[:-1].isprintable() and len(line) < 1_000
    expect(done.returncode == 1 and not done.stdout and one, f'{name}: status {done.returncode}: {done.stdout[:200]!r} {line[-300:]!r}')
    expect(line.startswith(beginning), f'{name}: {line!r}')


def write_folder(top, files):
    folder = os.path.join(top, 'job')
    os.makedirs(folder, exist_ok=True)
    for entry in os.scandir(folder):
        if entry.is_dir(follow_symlinks=False):
            shutil.rmtree(entry)
        else:
            os.unlink(entry)
    for name, data in files.items():
        pathlib.Path(folder, name).write_bytes(data)
    return folder


# Circuits.

def auctioned(*bids):
    return [bids.index(max(bids)), sorted(bids)[-2]]


# What each call comes to, by its words.
IN_NUMBERS = {
    'add': lambda n, bits: lambda *x: [sum(x)],
    'subtract': lambda bits: lambda x, y: [(x - y) % 2**bits],
    'multiply': lambda bits: lambda x, y: [x * y],
    'less': lambda bits: lambda x, y: [int(x < y)],
    'equal': lambda bits: lambda x, y: [int(x == y)],
    'choose': lambda bits: lambda bit, x, y: [x if bit else y],
    'greatest': lambda n, bits: lambda *x: [max(x)],
    'second': lambda n, bits: lambda *x: [sorted(x)[-2]],
    'auction': lambda n, bits: auctioned,
    'count': lambda n: lambda *x: [sum(x)],
}
WORDS = {('N', 'BITS'): [(2, 1), (3, 2), (2, 5), (4, 7), (5, 4), (4, 16), (9, 9), (6, 33)], ('N',): [(1,), (2,), (7,), (8,), (16,), (31,)],
         ('BITS',): [(1,), (2,), (3,), (4,), (5,), (7,), (8,), (9,), (16,), (17,), (32,)]}


def some_inputs(chance, widths):
    """Numbers of these widths: at their limits, equal or near to one another, or any."""
    near = chance.randrange(2**max(widths))
    return [chance.choice([0, 2**width - 1, near, near ^ 1, chance.randrange(2**width)]) % 2**width for width in widths]


# Gates on words of bits, of which each belongs to a run of its own.
ONES = 2**INPUTS - 1
BY_RUNS = {'XOR': lambda x, y: x ^ y, 'AND': lambda x, y: x & y, 'INV': lambda x: x ^ ONES, 'EQW': lambda x: x, 'EQ': lambda bit: bit * ONES}


def wires_of(numbers, widths):
    """From the numbers of each run the word of each wire, which has a bit for each run."""
    words = []
    for value, width in enumerate(widths):
        columns = zip(*(f'{run[value]:0{width}b}' for run in numbers)) if width else []
        words += [int(''.join(bits), 2) for bits in reversed(list(columns))]
    return words


def compare(chance, text, numbers):
    """Compares a circuit of bits with what it should come to, over many inputs."""
    circuit = circuit_of(text.encode())
    runs = [some_inputs(chance, circuit[0]) for _ in range(INPUTS)]
    wanted = [numbers(*run) for run in runs]
    for run, found in zip(runs, wanted):
        expect(all(number < 2**width for number, width in zip(found, circuit[1], strict=True)), f'{run} comes to {found}, which does not fit')
    found = last_wires(circuit, wires_of(runs, circuit[0]), INPUTS, BY_RUNS)
    expect(found == wires_of(wanted, circuit[1]), 'it comes to other numbers')


def circuits_are_their_numbers(program, top):
    chance = random.Random(1)
    expect({*IN_NUMBERS, 'total'} == set(CALLS), 'another list of calls')
    for name, numbers in IN_NUMBERS.items():
        for words in WORDS[tuple(CALLS[name][0])]:
            try:
                compare(chance, circuit_file(name, list(map(str, words))), numbers(*words))
            except Wrong as wrong:
                raise Wrong(f'{name} {words}: {wrong}') from None
    for count in range(1, 20):
        words = [chance.randrange(2**64) for _ in range(count)]
        found = last_wires(circuit_of(circuit_file('total', [str(count)]).encode()), words, 64)
        expect(found == [sum(words) % 2**64], f'total {count}: {words} come to {found}')


def shuffled(chance, text):
    """The same circuit with its gates in some order in which each wire is set before it is read."""
    lines = [line for line in text.split('\n') if line.split()]
    inputs, _, _, gates = circuit_of(text.encode())
    wires, left, order = set(range(sum(inputs))), list(zip(gates, lines[3:])), []
    while left:
        ready = [entry for entry in left if wires.issuperset([] if entry[0][0] == 'EQ' else entry[0][1])]
        gate, line = chance.choice(ready)
        left.remove((gate, line))
        wires.add(gate[2])
        order.append(line)
    return '\n'.join([*lines[:3], *order]) + '\n'


def rounds_in_layers_are_few(program, top):
    """In layers a circuit takes no more rounds than its depth and two more, and no more than in the order of the file. Where its products are prepared there
    are as many rounds more as there are products, or one where all are prepared ahead. Nothing is written."""
    chance = random.Random(2)
    for number, (name, words) in enumerate([('auction', ['3', '4']), ('multiply', ['5']), ('less', ['8']), ('total', ['6'])]):
        text = shuffled(chance, circuit_file(name, words))
        file = os.path.join(top, f'{number}.txt')
        pathlib.Path(file).write_text(text, encoding='utf-8')
        told = wrote(BY_LAYERS, file, program).split()
        products, depth, before, after = (int(told[place]) for place in (1, 3, 5, 7))
        expect(products == len(re.findall('AND|MUL', text)) and depth + 1 <= after <= min(before, depth + 2), f'{name}: {told}')
        expect([told[8], told[17]] == ['prepared', 'ahead'], f'{name}: {told}')
        for first, earlier in ((8, products), (17, min(products, 1))):
            expect([int(told[first + place]) for place in (2, 6, 8)] == [earlier, earlier, after] and int(told[first + 4]) >= before, f'{name}: {told}')
        pathlib.Path(file).write_text(sorted_lines(text), encoding='utf-8')
        again = wrote(BY_LAYERS, file, program).split()
        expect(again[5] == again[7] == told[7], f'{name}: {again}')
    expect(len(os.listdir(top)) == 4, f'{os.listdir(top)}')
    for number, text in enumerate(['', '1 3\n1 2\n1 1\n2 1 0 3 2 AND\n', '1 3\n1 2\n1 1\n2 1 0 1 2 NAND\n', '2 3\n1 2\n1 1\n2 1 0 1 2 AND\n', 'x\n']):
        file = os.path.join(top, f'refused_{number}.txt')
        pathlib.Path(file).write_text(text, encoding='utf-8')
        done = call(BY_LAYERS, file, program)
        expect_one_line(done, f'by_layers.py {text!r}', 'by_layers.py: refused circuit ')
        expect(f' file={file} ' in done.stderr.decode(), f'{done}')
    expect_one_line(call(BY_LAYERS, os.path.join(top, 'none.txt')), 'by_layers.py of no file', 'by_layers.py: ')


def times(a, b):
    """The product of two bytes, as polynomials modulo x^8 + x^4 + x^3 + x + 1."""
    total = 0
    for place in range(8):
        total ^= a if b >> place & 1 else 0
        a = a << 1 ^ (0x11b if a >> 7 else 0)
    return total


def substituted(byte):
    """What the standard's S-box makes of a byte: the sum of five bits of its inverse in the place of each, and 0x63."""
    inverse = next((other for other in range(256) if times(byte, other) == 1), 0)
    sums = sum((sum(inverse >> (place + step) % 8 & 1 for step in (0, 4, 5, 6, 7)) % 2) << place for place in range(8))
    return sums ^ 0x63


def s_boxes_are_the_standards(program, top):
    """By each tower and each root an S-box has 36 products in four layers, and comes to what the standard says."""
    runs = [number % 256 for number in range(INPUTS)]
    table = [substituted(byte) for byte in range(256)]
    wanted = wires_of([[table[byte]] for byte in runs], [8])
    for box in boxes():
        c = Circuit([8])
        text = c.text([box.substitute(c, *c.inputs)])
        name = f'{box.norms} {box.basis}'
        expect(text.count('AND') == 36 and max(c.depths) == 4, f'{name}: {text.count("AND")} products, depth {max(c.depths)}')
        found = last_wires(circuit_of(text.encode()), wires_of([[byte] for byte in runs], [8]), INPUTS, BY_RUNS)
        expect(found == wanted, f'{name}: another S-box')
    expect(len(boxes()) == 128, f'{len(boxes())} S-boxes')


# The examples of FIPS 197 in its appendices B and C.1: a key, a block, and the encrypted block.
ENCRYPTED = [('2b7e151628aed2a6abf7158809cf4f3c', '3243f6a8885a308d313198a2e0370734', '3925841d02dc09fbdc118597196a0b32'),
             ('000102030405060708090a0b0c0d0e0f', '00112233445566778899aabbccddeeff', '69c4e0d86a7b0430d8cdb78070b4c55a')]


def aes_is_the_standards(program, top):
    """A block is encrypted as the standard's examples say, in the clear, by a run and by nodes, with the gates in layers and in the order of the file."""
    for number, (key, block, encrypted) in enumerate(ENCRYPTED):
        made, in_file = (os.path.join(top, f'{number}_{order}') for order in ('layers', 'file'))
        wrote(AES, 'make', made, key, block)
        shutil.copytree(made, in_file)
        fields = job_folder.read_fields(made)
        [session] = fields['session']
        expect(session.pop('order') == 'layers', f'{fields}')
        job_folder.write_new(in_file, 'job.toml', job_folder.job_text(fields).encode(), replace=True)
        told = wrote(BY_LAYERS, os.path.join(made, 'aes.txt'), program)
        expect(told == 'products 7200 depth 40 rounds 2402 rounds_in_layers 42\n'
               'prepared before 7200 rounds 4402 before_in_layers 7200 rounds_in_layers 42\nahead before 1 rounds 4402 before_in_layers 1 rounds_in_layers 42\n', told)
        for folder, rounds in [(made, 42), (in_file, 2402)]:
            files = {file.name: file.read_bytes() for file in pathlib.Path(folder).iterdir()}
            done = subprocess.run([program, 'run', folder], capture_output=True, text=True, timeout=MOST_SECONDS)
            # (both folders have the same seeds)
            for out in (out_in_the_clear(files), done.stdout, wrote(NODES, 'run', folder, program, doubts=True)):
                found = wrote(AES, 'read', folder, given=out)
                expect(found == f'study reads {encrypted}\n', f'{key} {block}: {done.stderr} {found}')
            [counts] = job_counts.counts_of(folder).sessions
            expect(counts.rounds == rounds, f'{folder}: {counts.rounds} rounds are counted')
    expect(wrote(AES_CIRCUIT) == pathlib.Path(made, 'aes.txt').read_text(), 'aes_circuit.py prints another circuit')
    for words in [['0' * 32, '0' * 31], ['0' * 32, '0' * 33], ['x' * 32, '0' * 32], ['-' + '0' * 31, '0' * 32], ['0' * 32, '٣' * 32]]:
        expect_one_line(call(AES, 'make', os.path.join(top, 'none'), *words), f'job.py make {words}', 'job.py: ')
    expect(not os.path.exists(os.path.join(top, 'none')), 'a refused call wrote a folder')
    expect_one_line(call(AES, 'make', made, *ENCRYPTED[0][:2]), 'a folder that has a job', 'job.py: ')
    for out in ['', 'out 0 0 study 1\n', 'out 0 0 hospital ' + '2 ' * 128]:
        expect_one_line(call(AES, 'read', made, given=out), f'job.py read of {out[:20]!r}', 'job.py: ')


def circuits_have_limits(program, top):
    for words in [['add', '1025', '1'], ['multiply', '3000'], ['greatest', '1024', '129'], ['less', '0'], ['less', '-1'],
                  ['less', 'x'], ['less'], ['less', '4', '4'], ['lesser', '4'], ['second', '1', '4'], ['count', '9' * 50],
                  ['job', top, 'less', '4', 'a', 'b'], ['job', top, 'total', '65', 'a', 'b', 'c'], ['job', top, 'less', 'a', 'b', 'c'],
                  ['job', top, 'greatest', '4', 'a', 'b', 'a'], ['job', top, 'greatest', '4', 'a', 'b', 'of'], ['job', top, 'none', '4', 'a']]:
        expect_one_line(call(CIRCUITS, *words), f'circuits.py {words}', 'circuits.py: ')
    wrote(CIRCUITS, 'multiply', '64')
    expect(not os.listdir(top), f'{os.listdir(top)}')


# Numbers.

def write_random_job(chance, folder, of_bits):
    """Writes a job of three parties and one to three sessions, and gives each party's numbers and the lines of the readers. A session of
    words may carry the product of the one before."""
    parties, bits = ['a', 'b', 'c'], 1 if of_bits else chance.choice([2, 8, 32, 33, 64])
    given, lines, sessions = {party: [] for party in parties}, [], []
    os.mkdir(folder)
    for number in range(chance.randrange(1, 4)):
        widths = [chance.choice([1, 5, 16, 70]) for _ in range(2)] if of_bits else [1, 1]
        owners, readers = [chance.choice(parties) for _ in range(2)], [chance.sample(parties, chance.randrange(3)) for _ in range(2)]
        (x_width, x), (y_width, y) = [(width * bits, chance.randrange(-2**(width * bits - 1), 2**(width * bits))) for width in widths]
        if number and not of_bits and chance.randrange(2):
            owners[0], x = f'@{number - 1}.1', found[1]
        else:
            given[owners[0]].append(x)
        given[owners[1]].append(y)
        x, y = x % 2**x_width, y % 2**y_width
        if of_bits:
            circuit = Circuit(widths)
            text = circuit.text([circuit.add(*circuit.inputs), circuit.greatest(circuit.inputs)])
            found = [x + y, max(x, y)]
        else:
            text = '2 4\n2 1 1\n2 1 1\n2 1 0 1 2 ADD\n2 1 0 1 3 MUL\n'
            found = [(x + y) % 2**bits, x * y % 2**bits]
        pathlib.Path(folder, f'{number}.txt').write_text(text)
        sessions.append({'circuit': f'{number}.txt', 'layout': 'bristol' if of_bits else 'ring', 'owners': owners, 'readers': readers})
        lines += [f'session {number} value {value}: {party} reads {found[value]}\n' for value in range(2) for party in parties
                  if party in readers[value]]
    fields = {'version': 2, 'ring_bits': bits, 'parties': parties, 'tolerated': [['a'], ['b'], ['c']], 'session': sessions}
    pathlib.Path(folder, 'job.toml').write_text(job_folder.job_text(fields))
    return given, ''.join(lines)


def numbers_come_back(program, top):
    """What is written, run and read is what Python's numbers come to."""
    for number in range(8):
        folder = os.path.join(top, str(number))
        given, expected = write_random_job(random.Random(number), folder, number % 2 == 0)
        for party, numbers in given.items():
            wrote(NUMBERS, 'write', folder, party, *numbers)
        done = subprocess.run([program, 'run', folder, '--view', 'a'], capture_output=True, text=True, timeout=MOST_SECONDS)
        expect(done.returncode == 0, f'job {number}: {done.stderr}')
        if expected:
            found = wrote(NUMBERS, 'read', folder, given=done.stdout)
            expect(found == expected, f'job {number}: {found} in place of {expected}')


def numbers_are_signed_and_divided(program, top):
    for words, given, expected in [
            (['read', EXAMPLES / 'multiply', '--signed'], 'out 0 0 c 255\n', '-1'), (['read', EXAMPLES / 'multiply', '--signed'], 'out 0 0 c 127\n', '127'),
            (['read', EXAMPLES / 'multiply', '--divide', '4'], 'out 0 0 c 35\n', '8.75'),
            (['read', EXAMPLES / 'multiply', '--divide', '3'], 'out 0 0 c 35\n', '11.67'),
            (['read', EXAMPLES / 'multiply', '--divide', '8', '--signed'], 'out 0 0 c 255\n', '-0.13'),
            (['read', EXAMPLES / 'multiply', '--divide', '999', '--signed'], 'out 0 0 c 255\n', '0.00')]:
        found = wrote(NUMBERS, *words, given=given)
        expect(found == f'session 0 value 0: c reads {expected}\n', f'{words}: {found!r}')


def numbers_that_do_not_fit(program, top):
    folder = write_folder(top, product_with([]))
    for words in [['a', '5'], ['a', '256', '--replace'], ['a', '-129', '--replace'], ['a', '--replace'], ['a', '5', '6', '--replace'],
                  ['c', '1', '--replace'], ['x', '1'], ['a', '0x5', '--replace'], ['a', '5.0', '--replace'], ['a', '٣', '--replace'],
                  ['a', '9' * 50_000, '--replace'], ['a', '9' * 30_000, '--replace'], ['../a', '5']]:
        expect_one_line(call(NUMBERS, 'write', folder, *words), f'numbers.py write {[word[:20] for word in words]}', 'numbers.py: ')
    expect({name: pathlib.Path(folder, name).read_bytes() for name in os.listdir(folder)} == product_with([]), 'a refused call wrote a file')
    wrote(NUMBERS, 'write', folder, 'a', '-1', '--replace')
    first = pathlib.Path(folder, 'party_a.toml').read_text()
    wrote(NUMBERS, 'write', folder, 'a', '-1', '--replace')
    second = pathlib.Path(folder, 'party_a.toml').read_text()
    for text in (first, second):
        expect(re.fullmatch(r'version = 1\ninputs = \["255"\]\nseed = "[0-9a-f]{64}"\n', text), text)
    expect(first != second, 'two seeds are the same')


# Lines that a run of the product does not write.
OTHER_LINES = ['out', 'out 0 0', 'out 0 0 c', 'out 0 0 c 35 36', 'out 1 0 c 35', 'out 0 1 c 35', 'out 0 0 x 35', 'out 0 0 c x', 'out 0 0 c -5',
               'out 0 0 c 256', 'out 0 0 c ' + '9' * 5_000, 'out 0 x c 35', 'out -1 0 c 35', 'out 0 0 c ' + '1 ' * 3_000_000]


def other_lines_are_refused(program, top):
    for line in OTHER_LINES:
        expect_one_line(call(NUMBERS, 'read', EXAMPLES / 'multiply', given=line + '\n'), f'numbers.py read of {line[:40]!r}', 'numbers.py: ')
    for text in ['', 'view c\n0 0 0 a c 10\n', ' \n\0\n', 'output 0 0 c 35\n']:
        for script, words in [(NUMBERS, ['read', EXAMPLES / 'multiply']), (AUCTION, ['read', EXAMPLES / 'auction']), (SPREAD, [])]:
            expect_one_line(call(script, *words, given=text), f'{script.name} of {text!r}', f'{script.name}: ')


def views_are_passed_over(program, top):
    for job, party, script, words, expected in [
            ('multiply', 'a', NUMBERS, ['read', EXAMPLES / 'multiply'], 'session 0 value 0: c reads 35\n'),
            ('statistics', 'north+east', SPREAD, [], 'mean 1102141.0\nstandard deviation 196902.6\nweighted score 77.1\n'),
            ('auction', 'dora', AUCTION, ['read', EXAMPLES / 'auction'],
             ''.join(f'{name} reads: boris wins and pays 2975\n' for name in ('anna', 'boris', 'chen', 'dora')))]:
        done = subprocess.run([program, 'run', EXAMPLES / job, '--view', party], capture_output=True, text=True, timeout=MOST_SECONDS)
        found = wrote(script, *words, given=done.stdout + '\ufeff\n\0 x\n')
        expect(found == expected, f'{script.name}: {found!r}')


def outputs_that_fail(program, top):
    """Standard output that is full, closed, or whose reader has left."""
    with open('/dev/full', 'wb') as full:
        words = [sys.executable, '-B', NUMBERS, 'read', EXAMPLES / 'multiply']
        done = subprocess.run(words, input=b'out 0 0 c 35\n', stdout=full, stderr=subprocess.PIPE, timeout=MOST_SECONDS)
    done.stdout = b''
    expect_one_line(done, 'numbers.py to a full device', 'numbers.py: ')
    for words in ['{} -B {} less 5000 | head -c 10', '{} -B {} less 5 >&-', '{} -B {} less 5 <&-']:
        done = subprocess.run(words.format(sys.executable, CIRCUITS), shell=True, capture_output=True, timeout=MOST_SECONDS)
        expect(done.stderr.count(b'\n') <= ('|' not in words) and b'Traceback' not in done.stderr, f'{words}: {done.stderr[-200:]!r}')


# Some scripts of bench/, fuzz/ and tests/ that are given a program.
OF_A_PROGRAM = ['bench/workers.py', 'bench/network.py', 'fuzz/mutate.py', 'tests/outputs.py']


def programs_that_are_not_there(program, top):
    """No script has a traceback for one, nor for a reader of its output that has left."""
    for script in OF_A_PROGRAM:
        done = call(TOP / script, os.path.join(top, 'none'), *(['1'] if script == 'fuzz/mutate.py' else []))
        expect(done.returncode == 1 and done.stderr.endswith(b'/none: No such file or directory\n') and done.stderr.count(b'\n') == 1, f'{script}: {done}')
    code = f"import sys; sys.path.append('{TOP}/tests'); import waits; sys.exit(waits.told(lambda words: print('x' * 2**20)))"
    done = subprocess.run(f'{sys.executable} -B -c "{code}" | head -c 1', shell=True, capture_output=True, timeout=MOST_SECONDS)
    expect(done.stdout == b'x' and not done.stderr, f'{done}')


# Calls the gate's script with a limit of a second.
LATE_SCRIPT = ('import sys, runpy; sys.path.insert(0, sys.argv[1]); import waits; waits.MOST_SECONDS = 1; '
               'runpy.run_path(sys.argv[2], run_name="__main__")')

# An rt that says what the file says, or never ends.
SLOW_RT = '#!/bin/sh\n[ ! -e "$FAKE/said" ] || exec cat "$FAKE/said"\nsleep 100 &\necho $! > "$FAKE/sleeper"\nwait\n'


def programs_that_are_late(program, top):
    """Each is told in one line, and is ended with what it started; so is the check of the gate that tries what must not compile."""
    code = f"import subprocess, sys; sys.path.append('{TOP}/tests'); import waits; sys.exit(waits.told(lambda _: waits.ended(subprocess.Popen(['sleep', '100']), 1)))"
    done = subprocess.run([sys.executable, '-B', '-c', code], capture_output=True, text=True, timeout=MOST_SECONDS)
    expect((done.returncode, done.stdout, done.stderr) == (1, '', '-c: sleep 100 had not ended after 1 seconds\n'), f'{done}')
    fake, script = pathlib.Path(top, 'rt'), TOP / '.ci/must-not-compile'
    fake.write_text(SLOW_RT)
    fake.chmod(0o755)

    def tried():
        words = [sys.executable, '-B', '-c', LATE_SCRIPT, TOP / 'tests', script]
        return subprocess.run(words, capture_output=True, text=True, timeout=MOST_SECONDS, env={**os.environ, 'PATH': f'{top}:{os.environ["PATH"]}', 'FAKE': top})
    done = tried()
    expect(done.returncode == 1 and not done.stdout and done.stderr.endswith(': rt check had not ended after 1 seconds\n') and done.stderr.count('\n') == 1, f'{done}')
    sleeper = pathlib.Path('/proc', pathlib.Path(top, 'sleeper').read_text().strip(), 'cmdline')
    expect(not sleeper.exists() or not sleeper.read_bytes(), 'what rt started goes on')
    edits = sorted((TOP / 'crates/tape_words/must-not-compile').glob('*.edit'))
    errors = [re.search('(?m)^error: (.*)$', edit.read_text())[1] for edit in edits]
    pathlib.Path(top, 'said').write_text(''.join(f'error[{error}]: no\n' for error in errors))
    wanted = ''.join(f'must-not-compile: {edit.name} is refused with {error}\n' for edit, error in zip(edits, errors))
    expect(((done := tried()).returncode, done.stdout, done.stderr) == (0, wanted, ''), f'{done}')
    pathlib.Path(top, 'said').write_text('proved\n')
    expect((done := tried()).returncode == 1 and done.stdout.count(' is NOT refused with ') == len(edits) > 0, f'{done}')


def a_gate_that_is_late(program, top):
    """What the gate waits for is ended at its limit, which is told in one line, and what it took is told all the same."""
    times, took = TOP / '.ci/times', pathlib.Path(top, 'took')
    shell = f'{times} watch $$ {took} 1 & watch=$!; sleep 100; status=$?; kill $watch; wait $watch; {times} tell $$ {took}; exit $status'
    began = time.monotonic()
    done = subprocess.run(['bash', '-c', shell], capture_output=True, text=True, timeout=MOST_SECONDS)
    told = done.stderr.splitlines()
    expect(done.returncode == 128 + signal.SIGTERM and told.count('gate: rt ci had not ended after 1 seconds') == 1, f'{done}')
    expect('processor-minutes' in done.stdout and time.monotonic() - began < 50, f'{done}')


# Folders.

def odd_folders(program, top):
    """Each is refused by the reader that all scripts have, and some are given to each script."""
    for number, changes in enumerate(ODD_FOLDERS):
        folder, name = write_folder(top, product_with(changes)), f'odd folder {number}'
        try:
            raise Wrong(f'{name}: {job_folder.read_job(folder)}')
        except (job_folder.Refusal, OSError):
            pass
        if number % 12 == 0:
            expect_one_line(call(NUMBERS, 'write', folder, 'a', '5', '--replace'), name, 'numbers.py: ')
            expect_one_line(call(NUMBERS, 'read', folder, given='out 0 0 c 35\n'), name, 'numbers.py: ')
            for script in (AUCTION, AES):
                expect_one_line(call(script, 'read', folder, given='out 0 0 c 35\n'), name, 'job.py: ')
            expect_one_line(call(SPREAD, folder, given='out 0 0 c 35\n'), name, 'spread.py: ')
            done = call(NODES, 'split', folder, os.path.join(top, f'nodes_{number}'))
            if done.returncode != 0:
                expect_one_line(done, name, 'nodes.py: ')


def links_and_folders(program, top):
    for number, (file, target) in enumerate([(file, target) for file in ('job.toml', 'mul.txt') for target in (top, 'none', file, '/dev/zero', '/proc/self/mem')]):
        folder = write_folder(top, product_with([]))
        os.remove(os.path.join(folder, file))
        os.symlink(target.replace(file, os.path.join(folder, file)), os.path.join(folder, file))
        for script, words in [(NUMBERS, ['write', folder, 'a', '5']), (NODES, ['run', folder, program])]:
            done = call(script, *words)
            expect_one_line(done, f'{script.name} with {file} as a link to {target}')
    folder = write_folder(top, product_with([]))
    for file in ('party_a.toml', 'party_b.toml'):
        os.remove(os.path.join(folder, file))
    os.mkdir(os.path.join(folder, 'party_a.toml'))
    os.symlink(os.path.join(top, 'none'), os.path.join(folder, 'party_b.toml'))
    expect_one_line(call(NUMBERS, 'write', folder, 'a', '5'), 'a folder in place of a party', 'numbers.py: ')
    expect_one_line(call(NUMBERS, 'write', folder, 'a', '5', '--replace'), 'a folder in place of a party', 'numbers.py: ')
    expect_one_line(call(NUMBERS, 'write', folder, 'b', '5'), 'a link to nothing in place of a party', 'numbers.py: ')
    expect_one_line(call(NODES, 'split', folder, os.path.join(top, 'nodes')), 'a folder in place of a party', 'nodes.py: ')
    expect_one_line(call(NUMBERS, 'write', '/dev/null', 'a', '5'), 'a device in place of the job', 'numbers.py: ')
    expect_one_line(call(AUCTION, 'make', '/dev/null', 'a=5', 'b=6'), 'a device in place of the job', 'job.py: ')
    expect_one_line(call(AUCTION, 'make', folder, 'a=5', 'b=6'), 'a folder that has a job', 'job.py: ')


def changed_jobs_are_read_or_refused(program, top):
    """Nothing but a refusal comes of changed files."""
    for number in range(MUTATED):
        chance = random.Random(number)
        files = product_with([])
        for name in chance.choices(['job.toml', 'mul.txt'], k=chance.randrange(1, 3)):
            files[name] = chance.choice(CHANGES)(files[name], chance)
        folder = write_folder(top, files)
        with contextlib.suppress(job_folder.Refusal, OSError):
            job = job_folder.read_job(folder)
            job_folder.job_text(job_folder.read_fields(folder))
            list(job_folder.read_outputs(job, ['out 0 0 c 35\n']))
            job_counts.counts_of(folder)


# Texts of expressions in which blanks and words are other ones than they look, and how many inputs and outputs they have.
COUNTED = [(b'input x\ninput y\nlet z = x * y\noutput z\noutput z + x\n', 2, 2), (b' \t\rinput\tx\r\noutput(x)\noutput-x', 1, 2),
           (b'let input1 = 5\nlet output_ = 6\r\n\n\toutput\rinput1', 0, 1), (b'input x\routput x', 1, 0), (b'input x\x0b\noutput\xc2\xa0x', 1, 1),
           (b'\x0cinput x\n\xc2\x85output x', 0, 0), (b'', 0, 0), (b'inputs x\noutput1', 0, 0), (1_024 * b'input\n' + 1_024 * b'\n output', 1_024, 1_024)]


def expressions_are_words(program, top):
    """A text of expressions has a value of one word for each of its lines that begins with 'input' or 'output'."""
    folder = write_folder(top, {})
    for text, inputs, outputs in COUNTED:
        pathlib.Path(folder, 'f.txt').write_bytes(text)
        found = job_folder.read_expressions(folder, 'f.txt')
        expect(found == [[1] * inputs, [1] * outputs], f'{text[:60]!r} has {list(map(len, found))} values')
    folder = write_folder(top, {'f.txt': COUNTED[0][0]})
    session = {'circuit': 'f.txt', 'layout': 'expr', 'owners': ['a', 'b'], 'readers': [['c'], ['a']]}
    fields = {'version': 2, 'ring_bits': 16, 'parties': ['a', 'b', 'c'], 'tolerated': [['a'], ['b'], ['c']], 'session': [session]}
    pathlib.Path(folder, 'job.toml').write_text(job_folder.job_text(fields))
    wrote(NUMBERS, 'write', folder, 'b', '-7')
    expect('inputs = ["65529"]' in pathlib.Path(folder, 'party_b.toml').read_text(), 'another word')
    found = wrote(NUMBERS, 'read', folder, '--signed', given='out 0 0 c 65531\nout 0 1 a 8\n')
    expect(found == 'session 0 value 0: c reads -5\nsession 0 value 1: a reads 8\n', found)


# Expressions.

def refusals_are_those_of_the_rows(program, top):
    for row in FAULTY_EXPRESSIONS:
        files, due = row.files(), re.fullmatch(r'refused expr (.*) file=mul\.txt session=0(.*)\n', row.err)
        if due and len(files['mul.txt']) < LONG:
            try:
                SCRIPT.compiled(files['mul.txt'], fields_of(files['job.toml'])[0]['ring_bits'])
                found = ''
            except job_folder.Refusal as refusal:
                found = str(refusal)
            expect(found == due[1] + due[2], f'{row.name}: {found!r} in place of {row.err!r}')


def circuits_come_to_the_rows(program, top):
    for row in EXPRESSIONS:
        files = row.files()
        if row.out.startswith('out ') and all(session['layout'] == 'expr' for session in fields_of(files['job.toml'])[1]):
            found = out_in_the_clear(with_circuits(files))
            expect(row.out.partition('view ')[0] == found, f'{row.name}: its circuit comes to {found[:100]!r}')


def examples_have_their_circuits(program, top):
    """Beside expressions of an example there is the circuit that they are compiled to."""
    found = 0
    for circuit in EXAMPLES.glob('*/circuit/*.txt'):
        bits = job_folder.read_fields(circuit.parent)['ring_bits']
        expect(wrote(EXPRESSIONS_SCRIPT, 'compile', circuit.parent.parent / circuit.name, bits) == circuit.read_text(), f'{circuit} is another circuit')
        found += 1
    expect(found >= 3, f'{found} circuits')


def expressions_are_refused_in_one_line(program, top):
    path = os.path.join(top, 'e.txt')
    for text, line in [(b'output x', ': 3 UnknownName line=1 at=7\n'), (b'\xff', ': 1 NotUtf8 at=0\n'), (1_025 * b'output 1\n', ': 7 TooLarge\n'),
                       (b'\n' * 16_777_217, ' has more than 16777216 bytes\n')]:
        pathlib.Path(path).write_bytes(text)
        done = call(EXPRESSIONS_SCRIPT, 'compile', path, '8')
        expect_one_line(done, f'expressions.py of {text[:20]!r}', f'expressions.py: {path}')
        expect(done.stderr.decode().endswith(line), f'{done.stderr}')
    for words in [[path, '0'], [path, '65'], [path, 'x'], [path, '-1'], [path, '9' * 50], [top, '8'], [path + '.none', '8'], ['', '8']]:
        expect_one_line(call(EXPRESSIONS_SCRIPT, 'compile', *words), f'expressions.py compile {words}', 'expressions.py: ')


# Programs of numbers.

def refusals_of_numbers_are_those_of_the_rows(program, top):
    for row in NUMBER_FAULTS:
        files, due = row.files(), re.fullmatch(r'refused numbers (.*) file=mul\.txt session=0(.*)\n', row.err)
        if due and len(files['mul.txt']) < LONG:
            try:
                number_circuit.compiled(files['mul.txt'])
                found = ''
            except number_reader.Fault as fault:
                found = str(fault)
            expect(found == due[1] + due[2], f'{row.name}: {found!r} in place of {row.err!r}')


def circuits_of_numbers_come_to_the_rows(program, top):
    """The circuit of each program gives the bits of its outputs."""
    count = 0
    for row in NUMBER_RUNS:
        files = row.files()
        sessions = fields_of(files['job.toml'])[1]
        if len(sessions) == 1 and len(row.out) < LONG:
            texts = {name: iter(fields_of(files[f'party_{name}.toml'])[0]['inputs'][0].split()) for name in 'abc'}
            data, given = files['mul.txt'], [int(next(texts[owner])) for owner in sessions[0]['owners']]
            circuit = circuit_of(number_circuit.compiled(data).encode())
            words = iter(last_wires(circuit, [bit for number, width in zip(given, input_widths(data)) for bit in bits_of(number, width)], 1))
            found = [number_of([next(words) for _ in range(width)]) for width in circuit[1]]
            expect(found == [output.value for output in outputs_of(data, given)], f'{row.name}: its circuit comes to {str(found)[:100]}')
            count += 1
    expect(count > 150, f'{count} circuits')


def programs_are_refused_in_one_line(program, top):
    path = os.path.join(top, 'p.txt')
    for text, line in [(b'output x', ': 3 UnknownName line=1 at=7\n'), (b'\xff', ': 1 NotUtf8 at=0\n'), (1_025 * b'output 1\n', ': 7 TooLarge\n'),
                       (b'output 1 - 1', ': 2 Syntax line=1 at=9\n'), (b'\n' * 16_777_217, ' has more than 16777216 bytes\n')]:
        pathlib.Path(path).write_bytes(text)
        done = call(PROGRAMS, 'compile', path)
        expect_one_line(done, f'programs.py of {text[:20]!r}', f'programs.py: {path}')
        expect(done.stderr.decode().endswith(line), f'{done.stderr}')
    for words in [[top], [path + '.none'], ['']]:
        expect_one_line(call(PROGRAMS, 'compile', *words), f'programs.py compile {words}', 'programs.py: ')
    pathlib.Path(path).write_bytes(b'input x 64\ninput y 64\nlet q = x / y\noutput q % y')
    expect_one_line(call(PROGRAMS, 'compile', path), 'a large program', f'programs.py: {path}: 7 TooLarge')
    expect(wrote(PROGRAMS, 'compile', path, '--large').startswith('119552 119680\n2 64 64\n1 64\n'), 'another large circuit')


def programs_have_numbers(program, top):
    """The words of a session of numbers are one number for each value, written and read as they are."""
    folder = write_folder(top, {'f.txt': b'input x 8 # of a\ninput y 16\ninput z 64\noutput x + y\noutput x < y\n'})
    session = {'circuit': 'f.txt', 'layout': 'numbers', 'owners': ['a', 'b', 'a'], 'readers': [['c'], ['a', 'b']]}
    fields = {'version': 2, 'ring_bits': 1, 'parties': ['a', 'b', 'c'], 'tolerated': [['a'], ['b'], ['c']], 'session': [session]}
    pathlib.Path(folder, 'job.toml').write_text(job_folder.job_text(fields))
    job = job_folder.read_job(folder)
    expect(job.sessions[0].inputs == [8, 16, 64] and job.sessions[0].outputs == [17, 1], f'{job}')
    wrote(NUMBERS, 'write', folder, 'a', '255', 2**64 - 1)
    wrote(NUMBERS, 'write', folder, 'b', '0300')
    wrote(NUMBERS, 'write', folder, 'c')
    for party, text in [('a', '255 18446744073709551615'), ('b', '300'), ('c', '')]:
        expect(f'inputs = ["{text}"]' in pathlib.Path(folder, f'party_{party}.toml').read_text(), f'other words of {party}')
    for words in [['a', '256', '1'], ['a', '-1', '1'], ['a', '1'], ['b', '65536'], ['c', '1']]:
        expect_one_line(call(NUMBERS, 'write', folder, *words, '--replace'), f'numbers.py write {words}', 'numbers.py: ')
    for options in ([], ['--signed']):
        found = wrote(NUMBERS, 'read', folder, *options, given='out 0 0 c 131071\nout 0 1 a 1\nout 0 1 b 1\n')
        expect(found == 'session 0 value 0: c reads 131071\nsession 0 value 1: a reads 1\nsession 0 value 1: b reads 1\n', found)
    for line in ['out 0 0 c 131072', 'out 0 0 c 1 1', 'out 0 0 c', 'out 0 1 a 2', 'out 0 2 a 1']:
        expect_one_line(call(NUMBERS, 'read', folder, given=line + '\n'), line, 'numbers.py: ')
    found = job_counts.counts_of(folder).sessions[0]
    expect((found.layout, found.order, found.gates) == ('numbers', 'layers', int(wrote(PROGRAMS, 'compile', os.path.join(folder, 'f.txt')).split()[0])), f'{found}')


# Whole jobs.

def an_auction_of_two(program, top):
    folder = os.path.join(top, 'auction')
    wrote(AUCTION, 'make', folder, 'anna=40000', 'boris=39999')
    done = subprocess.run([program, 'run', folder], capture_output=True, text=True, timeout=MOST_SECONDS)
    found = wrote(AUCTION, 'read', folder, given=done.stdout)
    expect(found == 'anna reads: anna wins and pays 39999\nboris reads: anna wins and pays 39999\n', f'{done.stderr} {found}')


def jobs_of_calls(program, top):
    parties = ['ann', 'bob', 'cleo', 'dan']
    for name, words, given, expected in [('total', ['32'], [7, 5, 1250, 0], 1262), ('greatest', ['16'], [7, 5, 1250, 0], 1250),
                                         ('count', [], [1, 0, 1, 1], 3), ('choose', ['8'], [0, 3, 4], 4)]:
        folder = os.path.join(top, name)
        wrote(CIRCUITS, 'job', folder, name, *words, *parties)
        for party, numbers in zip(parties, [*([number] for number in given), [], []]):
            wrote(NUMBERS, 'write', folder, party, *numbers)
        done = subprocess.run([program, 'run', folder], capture_output=True, text=True, timeout=MOST_SECONDS)
        expect(done.returncode == 0, f'{name}: {done.stderr}')
        found = wrote(NUMBERS, 'read', folder, given=done.stdout)
        expect(found == ''.join(f'session 0 value 0: {party} reads {expected}\n' for party in parties[:len(given)]), f'{name}: {found}')


def jobs_of_programs(program, top):
    """The folder of a program's job, in which each input is given by the party of its name or by a named one."""
    bids = {'anna': 1250, 'boris': 60000, 'chen': 2975, 'dora': 810, 'emil': 60000}
    wages = [3000, 2999, 4100, 2500, 2400]
    for name, example, options, given, expected in [
            ('bids', 'sealed_bids/bids.txt', [], {name: [bid] for name, bid in bids.items()}, [1, 60000]),
            ('wages', 'survey/wages.txt', ['--owners', 'a,b,a,c,b'], {'a': [3000, 4100], 'b': [2999, 2400], 'c': [2500]}, [sum(wages) // 5, 2, 4100, 0]),
            ('richer', 'richer/richer.txt', ['--helper', 'clerk'], {'ann': [5], 'bob': [5]}, [0])]:
        folder = os.path.join(top, name)
        wrote(PROGRAMS, 'job', folder, EXAMPLES / example, *options)
        for party, numbers in [*given.items(), *([('clerk', [])] if '--helper' in options else [])]:
            wrote(NUMBERS, 'write', folder, party, *numbers)
        done = subprocess.run([program, 'run', folder], capture_output=True, text=True, timeout=MOST_SECONDS)
        found = wrote(NUMBERS, 'read', folder, given=done.stdout)
        due = ''.join(f'session 0 value {value}: {party} reads {number}\n' for value, number in enumerate(expected) for party in given)
        expect(found == due, f'{name}: {done.stderr} {found}')
    for words in [[EXAMPLES / 'richer/richer.txt'], [EXAMPLES / 'richer/richer.txt', '--owners', 'a'], [EXAMPLES / 'tariff/price.txt'], [top], [EXAMPLES / 'none.txt'],
                  [EXAMPLES / 'survey/wages.txt', '--tolerated', 'ann+bob+cleo,dan+eve']]:
        expect_one_line(call(PROGRAMS, 'job', os.path.join(top, 'none'), *words), f'programs.py job {words}', 'programs.py: ')
    expect(not os.path.exists(os.path.join(top, 'none')), 'a folder is left')


def jobs_with_helpers(program, top):
    """A helper gives and reads nothing, and the groups that must learn nothing are those that are named."""
    for number, (words, givers, helpers, tolerated) in enumerate([
            (['auction', '8', 'ann', 'bob', '--helper', 'house'], 2, ['house'], [['ann'], ['bob'], ['house']]),
            (['total', '8', 'ann', '--helper', 'h', '--helper', 'i'], 1, ['h', 'i'], [['ann'], ['h'], ['i']]),
            (['auction', '8', 'a', 'b', 'c', 'd', 'e', '--tolerated', 'a+b,c+d,e'], 5, [], [['a', 'b'], ['c', 'd'], ['e']]),
            (['less', '8', 'a', 'b', '--tolerated', 'a,b', '--helper', 'c', '--helper', 'd'], 2, ['c', 'd'], [['a'], ['b']])]):
        folder = os.path.join(top, str(number))
        done = call(CIRCUITS, 'job', folder, *words)
        fields = job_folder.read_fields(folder)
        [session] = fields['session']
        knows = 'warning: c and d may each know everything: no group that must learn nothing has any of them\n' if number == 3 else ''
        expect(done.stderr.decode() == (f'circuits.py: {knows}' if knows else ''), f'{words}: {done}')
        expect(len(session['owners']) == givers and fields['parties'] == session['owners'] + helpers, f'{words}: {fields}')
        expect(all(readers == session['owners'] for readers in session['readers']) and fields['tolerated'] == tolerated, f'{words}: {fields}')
        expect(fields['version'] == 2 and session['order'] == 'layers', f'{words}: {fields}')
        checked = subprocess.run([program, 'check', folder], capture_output=True, text=True, timeout=MOST_SECONDS)
        expect(checked.returncode == 0, f'{words}: {checked.stderr}')
    for words, text in [(['auction', '8', 'ann', 'bob'], 'auction: where each party alone must learn nothing, a job wants three of them, and 2 are named'),
                        (['auction', '8', 'ann', '--helper', 'h'], 'auction takes a number of each of 2 or more parties, and 1 is named'),
                        (['choose', '8', 'a', 'b', '--helper', 'c'], 'choose takes a bit and two numbers, one each of the first 3 parties, and 2 are named'),
                        (['total', '8', 'a', 'b', 'c', '--tolerated', 'a+b,c'], 'a+b and c are all parties, and both must learn nothing'),
                        (['total', '8', 'a', 'b', 'c', '--tolerated', 'a+x'], "'a+x' is no group of parties")]:
        expect_one_line(call(CIRCUITS, 'job', os.path.join(top, 'none'), *words), f'circuits.py {words}', f'circuits.py: {text}')
    expect(not os.path.exists(os.path.join(top, 'none')), 'a refused call left a folder')


def numbers_are_divided_by_values(program, top):
    session = {'circuit': 'f.txt', 'layout': 'expr', 'owners': [], 'readers': [['a', 'b'], ['a', 'b']]}
    fields = {'version': 2, 'ring_bits': 8, 'parties': ['a', 'b', 'c'], 'tolerated': [['a'], ['b']], 'session': [session, {**session, 'readers': [['a'], []]}]}
    folder = write_folder(top, {'f.txt': b'output 1\noutput 2\n'})
    job = pathlib.Path(folder, 'job.toml')
    job.write_text(job_folder.job_text(fields))
    given = 'out 0 0 a 100\nout 0 1 a 8\nout 0 0 b 100\nout 0 1 b 8\nout 1 0 a 250\n'
    read = [line.partition(': ')[2] for line in wrote(NUMBERS, 'read', folder, '--divide-by', '0.1', '--signed', given=given).splitlines()]
    expect(read == ['a reads 100 / 8 = 12.50', 'a reads 8', 'b reads 100 / 8 = 12.50', 'b reads 8', 'a reads -6 / 8 = -0.75'], f'{read}')
    for words, lines in [(['0.1'], 'out 0 0 a 5\n'), (['0.1'], 'out 0 0 a 5\nout 0 1 a 0\n'), (['0.2'], given), (['1'], given), (['2.0'], given), (['x'], given),
                         (['0.1'], 'out 0 1 a 5\nout 0 0 b 5\n'), (['0.1'], '')]:
        expect_one_line(call(NUMBERS, 'read', folder, '--divide-by', *words, given=lines), f'numbers.py --divide-by {words}', 'numbers.py: ')
    job.write_text(job_folder.job_text({**fields, 'session': [session]}))
    expect(wrote(NUMBERS, 'read', folder, '--divide-by', '1', given='out 0 0 a 1\nout 0 1 a 3\n').startswith('session 0 value 0: a reads 1 / 3 = 0.33\n'), 'no third')


def doubts_are_told(program, top):
    """Of a party that may know everything, and of a seed that isn't its party's own; not of a copy, nor of the examples."""
    def told(*words):
        return call(*words).stderr.decode().replace(os.path.realpath(top), '')

    folder, other = os.path.join(top, 'one'), os.path.join(top, 'two')
    wrote(CIRCUITS, 'job', folder, 'greatest', '8', 'ann', 'bob', 'cleo')
    for party in ('ann', 'bob', 'cleo'):
        wrote(NUMBERS, 'write', folder, party, '5')
    shutil.copytree(folder, other)
    expect(not told(NODES, 'run', folder, program), 'a copy is told of')
    wrote(NUMBERS, 'write', other, 'ann', '6', '--replace')
    ann, bob, cleo = (pathlib.Path(other, f'party_{name}.toml') for name in ('ann', 'bob', 'cleo'))
    cleo.write_text(ann.read_text())
    bob.write_text(re.sub('inputs = .*', 'inputs = ["1 1 1 1 0 0 0 0"]', bob.read_text()))
    lines = ['party_ann.toml and party_cleo.toml have the same seed: each party makes its own, and tells nobody',
             'party_bob.toml has the seed of /one/party_bob.toml: a seed serves one run of one job']
    expect(told(NODES, 'run', other, program) == ''.join(f'nodes.py: warning: {line}\n' for line in lines), told(NODES, 'run', other, program))
    tariff = os.path.join(top, 'tariff')
    shutil.copytree(EXAMPLES / 'statistics', tariff)
    wrote_line = told(NUMBERS, 'write', tariff, 'north', '1', '2', '--replace').splitlines()
    expect(len(wrote_line) == 4 and wrote_line[0] == 'numbers.py: warning: party_east.toml has the seed of examples/statistics/party_east.toml, which everybody can read',
           f'{wrote_line}')
    expect(not told(NODES, 'run', EXAMPLES / 'statistics', program), 'an example is told of')
    job = pathlib.Path(folder, 'job.toml')
    listed = job.read_text().replace('order = "layers"\n', '')
    for version, structure, line in [(1, 'formula = "ann | bob & cleo"', 'ann alone may know everything: no group that must learn nothing has this party'),
                                     (2, 'tolerated = []', 'ann, bob and cleo may each know everything: no group that must learn nothing has any of them')]:
        job.write_text(re.sub('(?m)^tolerated = .*', structure, listed.replace('version = 2', f'version = {version}')))
        found = told(NUMBERS, 'write', folder, 'ann', '5', '--replace')
        expect(found.startswith(f'numbers.py: warning: {line}\n'), f'{structure}: {found}')


def formulas_are_those_of_the_rows(program, top):
    """What the scripts take for the groups that must learn nothing is what 'mpc check' tells."""
    chance = random.Random(5)

    def formula(names, depth):
        parts = [formula(names, depth - 1) for _ in range(chance.randrange(2, 4))] if depth else chance.sample(names, 2)
        return chance.choice([f'({" | ".join(parts)})', f'({" & ".join(parts)})', f'{chance.randrange(1, len(parts) + 1)} of ({", ".join(parts)})'])

    for _ in range(20):
        names = ['a', 'b', 'c', 'd', 'e'][:chance.randrange(3, 6)]
        files = product_with([])
        text = files['job.toml'].decode().replace('"2 of (a, b, c)"', f'"{formula(names, chance.randrange(3))}"')
        text = text.replace('["a", "b", "c"]', str(names).replace("'", '"'), 1)
        folder = write_folder(top, {**files, 'job.toml': text.encode()})
        done = subprocess.run([program, 'check', folder], capture_output=True, text=True, timeout=MOST_SECONDS)
        found = summands.tolerated_of(job_folder.read_fields(folder))
        if done.returncode == 0:
            groups = re.findall('(?m)^group [0-9]+ (.*)', done.stdout)
            expect([summands.told(group) for group in found] == groups, f'{text}: {found} in place of {groups}')
        else:
            covering = re.fullmatch('refused q2 1 Covering first=(.*) second=(.*)\n', done.stderr)
            expect(covering and {*covering.groups()} <= set(map(summands.told, found)), f'{text}: {found} {done.stderr}')


# Pictures.

def pictures_count_what_runs_send(program, top):
    """Of each example the messages between each two parties in each session, those that stay with their party, and what 'mpc check' counts."""
    for job in sorted(EXAMPLES.rglob('job.toml')):
        counts = job_counts.counts_of(job.parent)
        done = subprocess.run([program, 'run', job.parent, '--view', '+'.join(counts.sharing.parties)], capture_output=True, text=True, timeout=MOST_SECONDS)
        sent = collections.Counter((int(match[1]), match[2], match[3]) for match in re.finditer('(?m)^([0-9]+) [0-9]+ [0-9]+ ([^ ]+) ([^ ]+) [0-9]+$', done.stdout))
        found = {(number, *pair): times for number, session in enumerate(counts.sessions) for pair, times in session.messages.items() if times}
        expect({key: times for key, times in sent.items() if key[1] != key[2]} == found, f'{job.parent}: other messages than are drawn')
        kept = [sum(times for (place, one, other), times in sent.items() if place == number and one == other) for number in range(len(counts.sessions))]
        expect(kept == [session.kept for session in counts.sessions], f'{job.parent}: {kept} messages stay')
        checked = subprocess.run([program, 'check', job.parent], capture_output=True, text=True, timeout=MOST_SECONDS).stdout
        told = [tuple(map(int, numbers)) for numbers in re.findall('(?m)^session [0-9]+ gates ([0-9]+) products ([0-9]+) messages ([0-9]+)$', checked)]
        expect(told == [(session.gates, session.products, sum(session.messages.values()) + session.kept) for session in counts.sessions], f'{job.parent}: {told}')


def the_product_is_the_examples(program, top):
    """The picture of one product has the messages of a run."""
    product = pictures.Product()
    done = subprocess.run([program, 'run', EXAMPLES / 'multiply', '--view', 'a+b+c'], capture_output=True, text=True, timeout=MOST_SECONDS)
    messages = [f'0 {message.slot} {message.share} {message.sender} {message.receiver} {message.word}' for message in product.messages]
    wanted = [line for line in done.stdout.splitlines() if line[0].isdigit()]
    expect(sorted(messages) == sorted(wanted), f'{messages}')
    expect(done.stdout.startswith(f'out 0 0 c {sum(product.z) % product.modulus}\n'), f'{product.z}')


def expect_texts_inside(picture, name):
    """No text of a picture goes past its sides, and none that begins in a box without ending in it goes past that: by the widest font."""
    tree = xml.etree.ElementTree.fromstring(picture)
    width, kind = float(tree.get('width')), '{http://www.w3.org/2000/svg}'
    boxes = [tuple(float(box.get(field, 0)) for field in ('x', 'y', 'width', 'height')) for box in tree.iter(f'{kind}rect')]
    for text in tree.iter(f'{kind}text'):
        x, y, wide = float(text.get('x')), float(text.get('y')), drawing.width_of(text.text, float(text.get('font-size')))
        left = x - wide * {'start': 0, 'middle': 0.5, 'end': 1}[text.get('text-anchor')]
        turned = text.get('transform') is not None
        expect(left >= 0 and left + wide * (0.83 if turned else 1) <= width, f'{name}: {text.text!r} goes past the sides')
        around = [box for box in boxes if box[0] <= x <= box[0] + box[2] and box[1] <= y <= box[1] + box[3] and text.get('text-anchor') == 'start']
        expect(turned or all(left + wide <= box[0] + box[2] for box in around), f'{name}: {text.text!r} goes past its box')


def jobs_are_drawn(program, top):
    """Also one of a single party, and those of six and of twelve with the longest names, in layers and prepared; and what isn't a job is refused."""
    names, wide = [f'a{number:015}' for number in range(12)], [f'm{number:02}' + 13 * 'W' for number in range(12)]
    for path in [*EXAMPLES.glob('*/job.svg'), *TOP.glob('docs/pictures/*.svg')]:
        expect_texts_inside(path.read_text(encoding='utf-8'), path.name)
    for parties, tolerated in [(names, [[name] for name in names]), (wide, [[name] for name in wide]), (wide[:6], [wide[:2], wide[2:4]]), (['a'], []), (['a', 'b'], [[]])]:
        sessions = [{'circuit': 'f.txt', 'layout': 'expr', 'owners': ['@0.0' if number else parties[0], parties[-1]], 'readers': [parties],
                     **({'products': 'ahead', 'order': 'layers'} if number % 2 else {})} for number in range(16)]
        fields = {'version': 2, 'ring_bits': 8, 'parties': parties, 'tolerated': tolerated, 'session': sessions}
        folder = write_folder(top, {'f.txt': b'input x\ninput y\noutput x * y\n', 'job.toml': job_folder.job_text(fields).encode()})
        expect_texts_inside(wrote(PICTURE, folder), parties)
    for field in ['products', 'order']:
        text = job_folder.job_text({**fields, 'session': [{**sessions[0], field: 'none'}]})
        job_folder.write_new(folder, 'job.toml', text.encode(), replace=True)
        expect_one_line(call(PICTURE, folder), f'picture.py with other {field}', f'picture.py: {folder}/job.toml: {field} is none of ')
    job_folder.write_new(folder, 'job.toml', job_folder.job_text(fields).encode(), replace=True)
    for name in ['f.txt', 'job.toml']:
        pathlib.Path(folder, name).write_text('output\n')
        expect_one_line(call(PICTURE, folder), f'picture.py with another {name}', 'picture.py: ')


# A run without proofs.

FAKE_RT = r'''#!/bin/sh
printf '%s\n' "$@" > "$FAKE/words"
case $(cat "$FAKE/way") in
    well) echo 'out 0 0 c 35'; printf 'checked: ended status=0\nrun=ended status=0 runners=1 races=unchecked proved=no\n' >&2 ;;
    refused) printf 'refused q2 1 Covering first=a second=b\nrun=ended status=4 runners=1 races=unchecked proved=no\n' >&2; exit 4 ;;
    *) echo 'rt: the crate is refused' >&2; exit 1 ;;
esac
'''


def an_unproved_run(program, top):
    """It gives the job's files to 'rt try', and says that nothing was proved. (What rt does is tried by hand: it takes minutes.)"""
    fake, way = pathlib.Path(top, 'rt'), pathlib.Path(top, 'way')
    fake.write_text(FAKE_RT)
    fake.chmod(0o755)
    folder = write_folder(top, {**product_with([]), 'notes.txt': b''})

    def run(*words):
        return subprocess.run([sys.executable, '-B', UNPROVED, folder, *words], capture_output=True, text=True, timeout=MOST_SECONDS,
                              env={**os.environ, 'PATH': f'{top}:{os.environ["PATH"]}', 'FAKE': top})
    begin = 'unproved.py: compiling the program without its proofs, in some three minutes\n'
    end = 'unproved.py: NOTHING WAS PROVED of this run: ./mpc proves the program, and then builds it\n'
    for what, words, wanted in [('well', ['--view', 'a'], (0, 'out 0 0 c 35\n', begin + end)), ('refused', [], (4, '', f'{begin}refused q2 1 Covering first=a second=b\n{end}')),
                                ('fails', [], (1, '', f'{begin}unproved.py: rt try ended with status 1: rt: the crate is refused\n'))]:
        way.write_text(what)
        done = run(*words)
        expect((done.returncode, done.stdout, done.stderr) == wanted, f'{what}: {done}')
        data = re.findall('(?m)^--data\n(.*)=', pathlib.Path(top, 'words').read_text())
        expect(data == ['job.toml', 'mul.txt', 'party_a.toml', 'party_b.toml', 'party_c.toml'], f'{data}')
        expect(pathlib.Path(top, 'words').read_text().endswith('\n'.join(['', '--', 'run', '.', *words, ''])), f'{words}')


# Nodes.

def ports_of_the_job_are_taken(program, top):
    with contextlib.ExitStack() as stack:
        for port in range(7_400, 7_430):
            listener = stack.enter_context(socket.socket())
            with contextlib.suppress(OSError):
                listener.bind(('127.0.0.1', port))
                listener.listen()
        found = wrote(NODES, 'run', EXAMPLES / 'network', program)
    expect(found == (EXAMPLES / 'network/expected_nodes').read_text(), found)


def nodes_beside_one_another(program, top):
    with concurrent.futures.ThreadPoolExecutor(4) as pool:
        for done in [pool.submit(wrote, NODES, 'run', EXAMPLES / 'multiply', program) for _ in range(6)]:
            expect(done.result() == 'out 0 0 c 35\n', done.result())


def running(program, folder):
    """The calls of a program that name a folder."""
    found = []
    for process in pathlib.Path('/proc').glob('[0-9]*/cmdline'):
        with contextlib.suppress(OSError):
            words = process.read_bytes().split(b'\0')
            if os.fsencode(program) in words and any(os.fsencode(folder) in word for word in words):
                found.append(words)
    return found


def a_node_that_fails_stops_the_others(program, top):
    for name, text in [('b', b''), ('c', b'version = 1\ninputs = ["", ""]\ntape = ""\n')]:
        folder = write_folder(top, {**product_with([]), f'party_{name}.toml': text})
        spare = os.path.join(top, 'spare')
        os.makedirs(spare, exist_ok=True)
        began = time.monotonic()
        done = subprocess.run([sys.executable, '-B', NODES, 'run', folder, program], env={**os.environ, 'TMPDIR': spare}, capture_output=True,
                              timeout=MOST_SECONDS)
        expect_one_line(done, 'a node that fails', f'nodes.py: {name} ended with status 3: refused party ')
        expect(b'; stopped: ' in done.stderr, f'{done.stderr}')
        expect(time.monotonic() - began < 20, 'the others were waited for')
        expect(not os.listdir(spare) and not running(program, spare), f'{os.listdir(spare)} {running(program, spare)}')


def a_node_that_waits_is_told(program, top):
    """A program whose nodes never end. It is ended by the signal that 'timeout' sends."""
    slow = pathlib.Path(top, 'slow')
    slow.write_text('#!/bin/sh\n[ "$1" = check ] || [ "$3" = a ] || exec sleep 100\n')
    slow.chmod(0o755)
    started = subprocess.Popen([sys.executable, '-B', NODES, 'run', EXAMPLES / 'multiply', slow], stdout=subprocess.PIPE, stderr=subprocess.PIPE)
    line = started.stderr.readline()
    started.terminate()
    started.communicate(timeout=MOST_SECONDS)
    expect(line == b'nodes.py: waiting for b, c\n', f'{line}')
    expect(started.returncode == 1, f'status {started.returncode}')


def nodes_are_split(program, top):
    """All folders are written, or none."""
    folder, target = write_folder(top, product_with([])), os.path.join(top, 'nodes')
    hosts = ['--hosts', 'h,i,127.0.0.1', '--port', '4000']
    wrote(NODES, 'split', folder, target, *hosts)
    text = pathlib.Path(target, 'b', 'job.toml').read_text()
    expect('hosts = ["h", "i", "127.0.0.1"]\nport = 4000\n' in text, text)
    expect(sorted(os.listdir(os.path.join(target, 'b'))) == ['job.toml', 'mul.txt', 'party_b.toml'], 'other files')
    shutil.rmtree(os.path.join(target, 'a'))
    for words, name in [([folder, target, *hosts], 'a split into a folder that is there'), ([folder, target + '2'], 'a split without hosts'),
                        ([os.path.join(target, 'b'), target + '2', *hosts], 'hosts twice'), ([folder, target + '2', '--hosts', 'h,i', '--port', '1'], 'too few hosts'),
                        ([folder, target + '2', '--hosts', 'h,i,j', '--port', 'x'], 'no port'), ([folder, target + '2', '--hosts', 'h,,j', '--port', '1'], 'no host')]:
        expect_one_line(call(NODES, 'split', *words), name, 'nodes.py: ')
    os.remove(os.path.join(folder, 'party_c.toml'))
    expect_one_line(call(NODES, 'split', folder, target + '2', *hosts), 'a split without the last file', 'nodes.py: ')
    expect(sorted(os.listdir(top)) == ['job', 'nodes'] and sorted(os.listdir(target)) == ['b', 'c'], 'a refused split left a folder')
    expect_one_line(call(NODES, 'run', folder, os.path.join(top, 'none')), 'no program', 'nodes.py: ')


# The product's job with the hosts and the port that stand in the test, short frames and views of nodes.
JOB_OF_OPTIONS = ('version = 2\nring_bits = 8\nparties = ["a", "b", "c"]\ntolerated = [["a"], ["b"], ["c"]]\nhosts = ["h", "i", "j"]\nport = 4000\n'
                  'frames = "short"\nviews = "own"\n' + SESSION)


def frames_and_views_are_options(program, top):
    """Of a split and of a run: they bring the job into version 2, with the same groups that must learn nothing."""
    folder, target = write_folder(top, product_with([])), os.path.join(top, 'nodes')
    hosts = ['--hosts', 'h,i,j', '--port', '4000']
    wrote(NODES, 'split', folder, target, *hosts, '--frames', 'short', '--views', 'own')
    for name in 'abc':
        expect(pathlib.Path(target, name, 'job.toml').read_text() == JOB_OF_OPTIONS, pathlib.Path(target, name, 'job.toml').read_text())
    views = ''.join(f'{"out 0 0 c 35" + chr(10) if name == "c" else ""}view {name}\n{lines_with(name)}' for name in 'abc')
    for words, wanted in [(['--views', 'own', '--frames', 'short'], views), (['--views', 'own'], views), (['--frames', 'short'], 'out 0 0 c 35\n'),
                          (['--frames', 'named', '--views', 'none'], 'out 0 0 c 35\n')]:
        found = wrote(NODES, 'run', folder, program, *words)
        expect(found == wanted, f'{words}: {found}')
    for words in [['--frames', 'long'], ['--views', 'all'], ['--frames', '']]:
        expect_one_line(call(NODES, 'split', folder, os.path.join(top, 'none'), *hosts, *words), f'split {words}', 'nodes.py: --')
        expect_one_line(call(NODES, 'run', folder, program, *words), f'run {words}', 'nodes.py: --')
    expect(not os.path.exists(os.path.join(top, 'none')), 'a refused split left a folder')
    split_again = os.path.join(top, 'network')
    wrote(NODES, 'split', EXAMPLES / 'network', split_again)
    expect(pathlib.Path(split_again, 'chen', 'job.toml').read_bytes() == (EXAMPLES / 'network/job.toml').read_bytes(), 'a split changed the job')


def services(text):
    """Of each section of a configuration the texts of its fields."""
    return {name: dict(re.findall(r'(?m)^(\w+) = (.*)$', body)) for name, body in re.findall(r'(?ms)^\[(\w+)\]\n(.*?)(?=^\[|\Z)', text)}


def expect_tunnels(port):
    """That what each party starts leads to the node that it is for, by a door of the right computer, and asks for the right certificate."""
    names, computers, used = ['anna', 'boris', 'chen', 'dora'], ['10.0.0.1', '10.0.0.2', '10.0.0.3', 'd.example'], set()
    fields = {'parties': names, 'hosts': 4 * ['127.0.0.1'], 'port': port}
    told = {(name, part): ''.join(lines(secured.Tunnels(fields, name, computers))) for name in names for part, lines in secured.PARTS.items()}
    for p, q in itertools.permutations(range(4), 2):
        place, goes, comes = port + 12 * q + p, services(told[names[p], 'out'])[f'to_{names[q]}'], services(told[names[q], 'in'])[f'from_{names[p]}']
        host, door = goes['connect'].split(':')
        expect(goes['accept'] == comes['connect'] == f'127.0.0.1:{place}' and host == computers[q] and door == comes['accept'], f'{goes} {comes}')
        expect((goes['CAfile'], comes['CAfile']) == (f'{names[q]}.pem', f'{names[p]}.pem'), f'{goes} {comes}')
        expect(f' -L 127.0.0.1:{place}:127.0.0.1:{place} {names[p]}@{computers[q]}\n' in told[names[p], 'ssh'], told[names[p], 'ssh'])
        used |= {place, int(door)}
    expect(len(used) == 24 and 1 <= min(used) and max(used) <= 65_535, f'{sorted(used)}')


def tunnels_are_told(program, top):
    """What is printed is what is expected, whole and in part; and a job whose nodes are reached by other ways is refused."""
    for port in (4_000, 65_248, 65_249, 65_392):
        expect_tunnels(port)
    expected = (EXAMPLES / 'network/expected_tunnels').read_text()
    expect(wrote(NODES, 'tunnels', EXAMPLES / 'network', 'boris') == expected, 'the tunnels of boris are other ones')
    found = wrote(NODES, 'tunnels', EXAMPLES / 'network', 'boris', 'out', '--hosts', '10.0.0.1,b.example,10.0.0.3')
    wanted = expected.split('\n\n; ')[2].replace('computer-of-anna', '10.0.0.1').replace('computer-of-chen', '10.0.0.3')
    expect(found == f'; {wanted}', found)
    wrote(NODES, 'split', EXAMPLES / 'auction', os.path.join(top, 'far'), '--hosts', 'a,b,c,d', '--port', '4000')
    for words in [[os.path.join(top, 'far/anna'), 'anna'], [EXAMPLES / 'multiply', 'a'], [EXAMPLES / 'network', 'x'],
                  [EXAMPLES / 'network', 'anna', '--hosts', 'a,b'], [EXAMPLES / 'network', 'anna', '--hosts', 'a,b,c d']]:
        expect_one_line(call(NODES, 'tunnels', *words), f'nodes.py tunnels {words}', 'nodes.py: ')


def keys_are_made(program, top):
    """A key that its party alone can read, and a certificate, whose fingerprint is told; none where one is there, or where there is no openssl."""
    empty = os.path.join(top, 'empty')
    os.mkdir(empty)
    done = subprocess.run([sys.executable, '-B', NODES, 'keys', top, 'anna'], capture_output=True, timeout=MOST_SECONDS, env={**os.environ, 'PATH': empty})
    expect_one_line(done, 'keys without openssl', 'nodes.py: openssl has to be on the PATH')
    if not shutil.which('openssl'):
        return
    told = wrote(NODES, 'keys', top, 'anna')
    certificate = pathlib.Path(top, 'anna.pem').read_text()
    digest = hashlib.sha256(ssl.PEM_cert_to_DER_cert(certificate)).hexdigest().upper()
    expect(told == f'anna.pem sha256 Fingerprint={":".join(re.findall("..", digest))}\n', told)
    expect(os.stat(os.path.join(top, 'anna.key')).st_mode & 0o777 == 0o600, 'others can read the key')
    expect('PRIVATE' in pathlib.Path(top, 'anna.key').read_text() and 'PRIVATE' not in certificate, 'the key stands in the certificate')
    for words in [[top, 'anna'], [top, 'of'], [top, '../b'], [os.path.join(top, 'none'), 'boris']]:
        expect_one_line(call(NODES, 'keys', *words), f'nodes.py keys {words}', 'nodes.py: ')
    os.remove(os.path.join(top, 'anna.key'))
    expect_one_line(call(NODES, 'keys', top, 'anna'), 'a certificate that is there', 'nodes.py: ')
    expect(sorted(os.listdir(top)) == ['anna.pem', 'empty'] and pathlib.Path(top, 'anna.pem').read_text() == certificate, 'a refused call wrote a file')


def another_job_is_told(program, top):
    """By its digests side by side, and before a node is started."""
    target = os.path.join(top, 'nodes')
    wrote(NODES, 'split', EXAMPLES / 'network', target)
    folders = [os.path.join(target, name) for name in ('anna', 'boris', 'chen')]
    expect(wrote(NODES, 'compare', *folders).endswith('\nall 3 have the same job\n'), 'other folders than were written')
    data = [pathlib.Path(folders[0], name).read_bytes() for name in ('job.toml', 'auction.txt')]
    digest = hashlib.sha256(b''.join(len(part).to_bytes(8, 'big') + part for part in data)).hexdigest()
    expect(f'{digest}\n' in wrote(NODES, 'compare', folders[1]), 'another digest')
    with open(os.path.join(folders[2], 'job.toml'), 'a', encoding='utf-8') as file:
        file.write('# mine\n')
    found = call(NODES, 'compare', *folders)
    last = f'{folders[2]}: job.toml is another one from line 13 on\n'
    expect(found.returncode == 1 and found.stdout.decode().endswith(last) and found.stdout.count(digest[:16].encode()) == 2, f'{found}')
    expect_one_line(call(NODES, 'run', target, program), 'a run of another job', 'nodes.py: not all have the same job: chen: job.toml ')
    shutil.copy(os.path.join(folders[0], 'job.toml'), folders[2])
    done = call(NODES, 'run', target, program)
    warned = re.fullmatch(rb'(nodes.py: warning: party_\w+.toml has the seed of examples/network/.*\n){3}', done.stderr)
    expect(done.stdout.decode() == (EXAMPLES / 'network/expected_nodes').read_text() and warned, f'{done}')
    os.rename(os.path.join(folders[2], 'auction.txt'), os.path.join(folders[2], 'other.txt'))
    expect_one_line(call(NODES, 'compare', *folders), 'a file that is missing', 'nodes.py: ')


def those_who_wait_meet(program, top):
    """Each tells of each peer, also of a host that nobody knows and of a port that another program has."""
    target, port = os.path.join(top, 'nodes'), nodes.free_port(3)
    wrote(NODES, 'split', EXAMPLES / 'auction', target, '--hosts', ','.join(4 * ['127.0.0.1']), '--port', port)
    names = ['anna', 'boris', 'chen', 'dora']
    with concurrent.futures.ThreadPoolExecutor(4) as pool:
        ended = list(pool.map(lambda name: call(NODES, 'wait', os.path.join(target, name), name, 20), names))
    for name, done in zip(names, ended):
        ready = [f'{other}: reached both ways, and it has the same job' for other in names if other != name]
        expect(done.returncode == 0 and set(ready) <= set(done.stdout.decode().split('\n')), f'{name}: {done}')
    job = pathlib.Path(target, 'anna', 'job.toml')
    job.write_text(job.read_text().replace('"127.0.0.1"]', '"no.such.host.invalid"]'))
    with socket.socket() as listener:
        listener.setsockopt(socket.SOL_SOCKET, socket.SO_REUSEADDR, 1)
        listener.bind(('127.0.0.1', port + 1))
        listener.listen()
        done = call(NODES, 'wait', os.path.join(target, 'anna'), 'anna', 1)
    for text in [f'(nobody listens there yet); it does not reach us at 127.0.0.1 port {port + 1} (another program has that port)',
                 f'dora: not reached at no.such.host.invalid port {port + 36} (the host is not known)']:
        expect(text in done.stdout.decode(), f'{done}')
    expect(done.returncode == 1 and done.stderr == b'nodes.py: not ready for a run: boris, chen, dora\n', f'{done}')
    for words in [[target + '/boris', 'x'], [EXAMPLES / 'multiply', 'a'], [target + '/boris', 'boris', 'x'], [target, 'boris']]:
        expect_one_line(call(NODES, 'wait', *words), f'nodes.py wait {words}', 'nodes.py: ')


# Words that are no call of a script.
OTHER_WORDS = [(NUMBERS, words) for words in ([], ['write'], ['write', 'j'], ['read'], ['read', 'j', '--divide'], ['read', 'j', '--divide', 'x'],
                                              ['read', 'j', '--divide', '-4'], ['read', 'j', '--divide-by'],
                                              ['read', 'j', '--divide', '4', '--divide-by', '1'], ['make', 'j'], ['read', 'j', 'k'])] + [
    (CIRCUITS, []), (CIRCUITS, ['job']), (CIRCUITS, ['job', 'f']), (CIRCUITS, ['job', 'f', 'total', '8', 'a', '--helper']),
    (CIRCUITS, ['job', 'f', 'total', '8', 'a', '--tolerated', 'a', '--tolerated', 'b']), (EXPRESSIONS_SCRIPT, []), (EXPRESSIONS_SCRIPT, ['compile', 'f']), (AUCTION, []), (AUCTION, ['read']), (AUCTION, ['make']),
    (BY_LAYERS, []), (BY_LAYERS, ['a', 'b', 'c', 'd']), (PICTURE, []), (UNPROVED, []), (UNPROVED, ['j', '--views', 'a']), (AES, []), (AES, ['make', 'f', '0' * 32]), (AES, ['read']), (AES_CIRCUIT, ['f']),
    (PROGRAMS, []), (PROGRAMS, ['compile']), (PROGRAMS, ['compile', 'f', '--small']), (PROGRAMS, ['job', 'f']), (PROGRAMS, ['job', 'f', 'g', '--owners']),
    (PROGRAMS, ['job', 'f', 'g', '--bits', '8']),
    (NODES, []), (NODES, ['run']), (NODES, ['compare']), (NODES, ['wait', 'j']), (NODES, ['split', 'j']), (NODES, ['split', 'j', 'f', '--hosts', 'h'])] + [
    (NODES, words) for words in (['run', 'j', '--view'], ['run', 'j', '--frames'], ['run', 'j', '--hosts', 'h'], ['run', 'j', '--frames', 'short', '--frames', 'short'],
                                 ['compare', 'j', '--frames', 'short'], ['wait', 'j', 'n', '--views', 'own'], ['split', 'j', 'f', '--port', '1'],
                                 ['split', 'j', 'f', '--frames'], ['keys', 'f'], ['keys', 'f', 'n', 'm'], ['tunnels', 'j'], ['tunnels', 'j', 'n', 'up'],
                                 ['tunnels', 'j', 'n', '--port', '1'], ['tunnels', 'j', 'n', 'in', 'out'])]


def helps_are_there(program, top):
    for script in (NUMBERS, CIRCUITS, BY_LAYERS, PICTURE, UNPROVED, EXPRESSIONS_SCRIPT, PROGRAMS, AUCTION, SPREAD, AES, AES_CIRCUIT, NODES):
        expect(script.name in wrote(script, '--help'), f'no help of {script.name}')
        expect(os.access(script, os.X_OK), f'{script} is no program')
    for script, words in OTHER_WORDS:
        done = call(script, *words)
        expect(done.returncode == 2 and not done.stdout and f'{script.name} '.encode() in done.stderr, f'{script.name} {words}: {done}')


CASES = [circuits_are_their_numbers, rounds_in_layers_are_few, s_boxes_are_the_standards, aes_is_the_standards,
         circuits_have_limits, numbers_come_back, numbers_are_signed_and_divided, numbers_that_do_not_fit, other_lines_are_refused,
         views_are_passed_over, outputs_that_fail, programs_that_are_not_there, programs_that_are_late, a_gate_that_is_late, odd_folders, links_and_folders,
         changed_jobs_are_read_or_refused, expressions_are_words, refusals_are_those_of_the_rows,
         circuits_come_to_the_rows, examples_have_their_circuits, expressions_are_refused_in_one_line, refusals_of_numbers_are_those_of_the_rows,
         circuits_of_numbers_come_to_the_rows, programs_are_refused_in_one_line, programs_have_numbers, an_auction_of_two, jobs_of_calls, jobs_of_programs,
         jobs_with_helpers, numbers_are_divided_by_values, doubts_are_told, formulas_are_those_of_the_rows, pictures_count_what_runs_send,
         the_product_is_the_examples, jobs_are_drawn, an_unproved_run, ports_of_the_job_are_taken,
         nodes_beside_one_another, a_node_that_fails_stops_the_others, a_node_that_waits_is_told, nodes_are_split,
         frames_and_views_are_options, tunnels_are_told, keys_are_made, another_job_is_told, those_who_wait_meet, helps_are_there]


def tried(case, program):
    """Whether a case is as expected, and what is told of it."""
    name, began = case.__name__.replace('_', ' '), time.monotonic()
    try:
        with tempfile.TemporaryDirectory() as top:
            case(program, top)
        return True, f'{name}: as expected ({time.monotonic() - began:.1f} s)'
    except (Wrong, subprocess.TimeoutExpired) as wrong:
        return False, f'{name}: NOT AS EXPECTED: {wrong}'


def run_cases(name, cases, program):
    """Tells under this name how each case ends, and gives the status of all."""
    status = 0
    with concurrent.futures.ThreadPoolExecutor(4) as pool:
        for good, text in pool.map(tried, cases, [program] * len(cases)):
            print(f'{name}: {text}', flush=True)
            status = status if good else 1
    return status


def main(words):
    if len(words) != 2:
        sys.exit('usage: scripts.py PROGRAM')
    program = shutil.which(os.path.abspath(words[1]))
    if not program:
        sys.exit(f'scripts: there is no program {words[1]}')
    return run_cases('scripts', CASES, program)


if __name__ == '__main__':
    sys.exit(told(main))
