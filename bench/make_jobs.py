#!/usr/bin/env python3
"""Makes jobs of several sizes, each in a folder of its own: make_jobs.py FOLDER [limits | cut | numbers]

Ring circuits of 4,096 to 65,536 gates, a quarter of them products, a circuit of bits with as many gates of each kind as a
circuit of AES-128 has, one of products alone that eight sessions compute, another for five parties, and the job that 'mpc sample 65536'
makes. Of the largest ring circuit and of the one of bits there is a job with prepared products, too, and one of eight sessions of which every other one prepares its
products. With 'limits', in their place, jobs as large as the program takes: the most products, the deepest circuit (each gate squares what the one before it set), also with its gates in layers, a mixed one in
layers, and the widest (all wires are inputs or outputs), and a circuit of bits of sixteen times 65,536 gates, which examples/cut.py cuts into sixteen sessions. With 'cut', such circuits of bits and of
words of 8, 32 and 64 bits. With 'numbers', programs of whole numbers that become about 60,000 gates: one quotient of 64 bits, and some hundred lines each of which takes the larger or the smaller of two numbers.
Each folder gets the job, its circuits or its program, three party files with seeds, and 'expected', the text that 'mpc run' must write, computed from the plain circuit, or of a program
by Python's own integers. The same call always makes the same files.

A list of the folders, with a line 'NAME GATES PRODUCTS MESSAGES' for each, goes to standard output.
"""

import hashlib
import itertools
import math
import os
import pathlib
import sys

TOP = pathlib.Path(__file__).resolve().parent.parent
sys.path[1:1] = [str(TOP / 'examples'), str(TOP / 'tests')]
from circuit_reader import read_circuit  # noqa: E402
from cut import Job  # noqa: E402
from job_folder import job_text  # noqa: E402
from number_circuit import compiled  # noqa: E402
from number_programs import input_widths, outputs_of  # noqa: E402
from summands import Sharing as CutSharing  # noqa: E402
from waits import told  # noqa: E402

RING_SIZES = [4096, 8192, 16384, 32768, 65536]
INPUT_WIRES = 16
SESSION_PRODUCTS = 4096
FIVE_PARTIES_PRODUCTS = 1024
SAMPLE_GATES = 65536

# A circuit that is cut has so many gates, of which each multiplies once in so many, and reads one of so many wires before its own.
CUT_GATES = 16 * 65536
CUT_PRODUCTS = 13
CUT_NEAR = 62
CUT_WIDTHS = [32, 32]
CUT_OUTPUTS = 32

# A program has so many inputs of so many bits, and so many lines that take one of two of the last numbers.
PROGRAM_INPUTS = 32
PROGRAM_WIDTH = 16
PROGRAM_LINES = 430
PROGRAM_NEAR = 32

# Gates of the circuit of bits.
BITS = {'AND': 6400, 'XOR': 28176, 'INV': 2087}
BIT_INPUTS = [128, 128]
BIT_OUTPUTS = 128

MOST_MESSAGES = 1048576
MOST_GATES = 65536
MOST_VALUES = 1024
MOST_WIRES = 131072
MOST_BYTES = 16777216

OPERATE = {
    'ADD': lambda x, y: x + y,
    'SUB': lambda x, y: x - y,
    'MUL': lambda x, y: x * y,
    'NEG': lambda x: -x,
    'XOR': lambda x, y: x + y,
    'AND': lambda x, y: x * y,
    'INV': lambda x: x + 1,
}


class Sharing:
    """So many parties, of which so many together may know everything. A value has a summand for each group of one party less, and
    who isn't in the group holds it."""

    def __init__(self, count, qualified):
        self.parties = ['a', 'b', 'c', 'd', 'e'][:count]
        self.formula = f'{qualified} of ({", ".join(self.parties)})'
        summands = math.comb(count, qualified - 1)
        held = math.comb(count - 1, qualified - 1)
        self.tolerated = list(itertools.combinations(self.parties, qualified - 1))
        # Each summand goes to its holders but the dealer. A product is dealt by each party.
        self.deal_messages = summands * (count - qualified + 1) - held
        self.product_messages = count * self.deal_messages
        self.output_messages = count * (summands - held)
        # A prepared product has two masks, of which each summand goes to its holders but one, their product, and two wires opened to all.
        self.prepared_messages = self.product_messages + 2 * summands * (count - qualified) + 2 * self.output_messages


THREE = Sharing(3, 2)
FIVE = Sharing(5, 3)


class Numbers:
    """Numbers that look random and are the same in each run: x becomes 6364136223846793005 x + 1442695040888963407."""

    def __init__(self, seed):
        self.state = seed

    def below(self, limit):
        self.state = (6364136223846793005 * self.state + 1442695040888963407) % 2**64
        return (self.state >> 33) % limit


def operands(operation, wire, numbers):
    """Wires before this one. The first is among the last 64, so that circuits are deep as well as wide."""
    first = wire - 1 - numbers.below(min(64, wire))
    if operation in ('NEG', 'INV'):
        return [first]
    return [first, numbers.below(wire)]


def evaluate(inputs, gates, modulus):
    values = list(inputs)
    for operation, wires in gates:
        values.append(OPERATE[operation](*(values[w] for w in wires)) % modulus)
    return values


def square_the_last(operation, wire, numbers):
    """The wire before this one, twice."""
    return [wire - 1, wire - 1]


def negate_an_input(operation, wire, numbers):
    """Of so many input wires and as many gates, each gate has an input wire of its own."""
    return [wire - MOST_GATES]


def write(folder, name, layout, bits, widths, outputs, operations, numbers, sessions=1, choose=operands, known=None, seeds=None, sharing=THREE, prepared=(),
          order=None):
    """Writes one job: the inputs are given by a, b, .. in turn, the last wires are the output values of these widths, which all read.
    All sessions have the same circuit, and inputs of their own; those of these numbers prepare their products. Their gates go in this order, where one is named.
    The words of the input wires and the parties' seeds are 'known' and 'seeds', where they are there."""
    path = os.path.join(folder, name)
    os.makedirs(path)
    parties = sharing.parties
    wires = sum(widths)
    gates = []
    for operation in operations:
        gates.append((operation, choose(operation, wires, numbers)))
        wires += 1
    owners = [parties[i % len(parties)] for i in range(len(widths))]
    inputs = {party: [] for party in parties}
    expected = ''
    for session in range(sessions):
        values = []
        given = {party: [] for party in parties}
        for owner, width in zip(owners, widths):
            if known:
                words = known[len(values):len(values) + width]
            else:
                words = [numbers.below(min(2**bits, 2**31)) for _ in range(width)]
            given[owner] += words
            values += words
        for party in parties:
            inputs[party].append(' '.join(map(str, given[party])))
        words = evaluate(values, gates, 2**bits)[wires - sum(outputs):]
        for output, width in enumerate(outputs):
            first = sum(outputs[:output])
            value = ' '.join(map(str, words[first:first + width]))
            expected += ''.join(f'out {session} {output} {party} {value}\n' for party in parties)

    products = sum(operation in ('MUL', 'AND') for operation in operations)
    messages = sessions * (sum(widths) * sharing.deal_messages + sum(outputs) * sharing.output_messages)
    messages += products * (len(prepared) * sharing.prepared_messages + (sessions - len(prepared)) * sharing.product_messages)
    if messages > MOST_MESSAGES or len(gates) > MOST_GATES or wires > MOST_WIRES:
        sys.exit(f'make_jobs.py: {name} is past the limits of the program')

    lines = [f'{len(gates)} {wires}', ' '.join(map(str, [len(widths), *widths])), ' '.join(map(str, [len(outputs), *outputs]))]
    for i, (operation, from_wires) in enumerate(gates):
        lines.append(' '.join(map(str, [len(from_wires), 1, *from_wires, sum(widths) + i, operation])))
    circuit = '\n'.join(lines) + '\n'
    if len(circuit) > MOST_BYTES:
        sys.exit(f'make_jobs.py: the circuit of {name} is longer than the program takes')
    texts = lambda items: '[' + ', '.join(f'"{item}"' for item in items) + ']'
    readers = '[' + ', '.join([texts(parties)] * len(outputs)) + ']'
    session_text = (f'[[session]]\ncircuit = "circuit.txt"\nlayout = "{layout}"\nowners = {texts(owners)}\n'
                    f'readers = {readers}\n' + (f'order = "{order}"\n' if order else ''))
    sharing_text = f'formula = "{sharing.formula}"'
    if prepared or order:
        sharing_text = f'tolerated = [{", ".join(map(texts, sharing.tolerated))}]'
    files = {
        'circuit.txt': circuit,
        'job.toml': f'version = {2 if prepared or order else 1}\nring_bits = {bits}\nparties = {texts(parties)}\n{sharing_text}\n'
                    + ''.join(session_text + ('products = "prepared"\n' if session in prepared else '') for session in range(sessions)),
        'expected': expected,
    }
    for party in parties:
        seed = seeds[party] if seeds else hashlib.sha256(f'{name} {party}'.encode()).hexdigest()
        files[f'party_{party}.toml'] = f'version = 1\ninputs = {texts(inputs[party])}\nseed = "{seed}"\n'
    for file, text in files.items():
        with open(os.path.join(path, file), 'w', newline='\n') as out:
            out.write(text)
    print(name, sessions * len(gates), sessions * products, messages)


def write_sample(folder, gates):
    """Writes the job that 'mpc sample' makes of this number: its circuit, inputs and seeds."""
    def both(operation, wire, numbers):
        gate = wire - 4
        wires = [(7 * gate + gates) % wire, (11 * gate + 3) % wire]
        return wires[:1] if operation == 'NEG' else wires

    operations = [['MUL', 'ADD', 'SUB', 'NEG'][(gate + gates) % 4] for gate in range(gates)]
    known = [gates * (wire + 1) for wire in range(4)]
    seeds = {party: f'{number + 1:02x}' * 32 for number, party in enumerate(THREE.parties)}
    write(folder, f'sample_{gates}', 'ring', 32, [2, 2], [1], operations, None, choose=both, known=known, seeds=seeds)


def chain_of(bits, numbers, values):
    """The lines of gates that each read the one before them and one more, where the words on the input wires are the values, which get those of the
    gates."""
    modulus, lines = 2**bits, []
    for gate in range(CUT_GATES):
        wire = len(values)
        last, other = wire - 1, wire - 2 - numbers.below(CUT_NEAR)
        operation = ('AND' if bits == 1 else 'MUL') if gate % CUT_PRODUCTS == 0 else 'XOR' if bits == 1 else ('ADD', 'SUB')[gate % 2]
        lines.append(f'2 1 {last} {other} {wire} {operation}')
        values.append(OPERATE[operation](values[last], values[other]) % modulus)
    return lines


def write_cut(folder, name, bits):
    """Writes a job of a circuit of a million gates, which is cut."""
    path, numbers, parties = os.path.join(folder, name), Numbers(bits), THREE.parties
    inputs = [numbers.below(min(2**bits, 2**31)) for _ in range(sum(CUT_WIDTHS))]
    values = list(inputs)
    lines = chain_of(bits, numbers, values)
    head = [[len(lines), len(values)], [len(CUT_WIDTHS), *CUT_WIDTHS], [1, CUT_OUTPUTS]]
    text = '\n'.join([*(' '.join(map(str, line)) for line in head), *lines]) + '\n'
    circuit = read_circuit(text.encode(), bits, bits == 1)
    job = Job(circuit, CutSharing(parties, [[party] for party in parties]), parties[:2], [parties], None if bits == 1 else bits)
    job.write(path)
    word_texts = [' '.join(map(str, inputs[:CUT_WIDTHS[0]])), ' '.join(map(str, inputs[CUT_WIDTHS[0]:])), '']
    words = ' '.join(map(str, values[-CUT_OUTPUTS:]))
    files = {'expected': ''.join(f'out {len(job.parts) - 1} 0 {party} {words}\n' for party in parties)}
    for party, given in zip(parties, word_texts):
        texts = ', '.join(f'"{given if number == 0 else ""}"' for number in range(len(job.parts)))
        files[f'party_{party}.toml'] = f'version = 1\ninputs = [{texts}]\nseed = "{hashlib.sha256(f"{name} {party}".encode()).hexdigest()}"\n'
    for file, text in files.items():
        with open(os.path.join(path, file), 'w', newline='\n') as out:
            out.write(text)
    print(name, sum(part.size for part in job.parts), sum(job.products), sum(job.messages), flush=True)


def write_program(folder, name, lines, numbers):
    """Writes a job of a program of numbers, whose inputs a, b and c give in turn, and whose outputs all read."""
    path, parties = os.path.join(folder, name), THREE.parties
    os.makedirs(path)
    data = ''.join(f'{line}\n' for line in lines).encode()
    widths = input_widths(data)
    inputs = [numbers.below(2**31) * numbers.below(2**31) % 2**width for width in widths]
    outputs = outputs_of(data, inputs)
    owners = [parties[number % len(parties)] for number in range(len(widths))]
    session = {'circuit': 'program.txt', 'layout': 'numbers', 'owners': owners, 'readers': [parties] * len(outputs)}
    files = {'program.txt': data, 'job.toml': job_text({'version': 2, 'ring_bits': 1, 'parties': parties, 'tolerated': [[party] for party in parties], 'session': [session]}).encode(),
             'expected': ''.join(f'out 0 {value} {party} {output.value}\n' for value, output in enumerate(outputs) for party in parties).encode()}
    for party in parties:
        given = ' '.join(str(number) for number, owner in zip(inputs, owners) if owner == party)
        files[f'party_{party}.toml'] = f'version = 1\ninputs = ["{given}"]\nseed = "{hashlib.sha256(f"{name} {party}".encode()).hexdigest()}"\n'.encode()
    for file, text in files.items():
        with open(os.path.join(path, file), 'wb') as out:
            out.write(text)
    circuit = compiled(data)
    gates, products, ends = int(circuit.partition(' ')[0]), circuit.count(' AND\n'), sum(map(int, circuit.split('\n', 3)[2].split()[1:]))
    print(name, gates, products, sum(widths) * THREE.deal_messages + products * THREE.product_messages + ends * THREE.output_messages)


def chosen_lines(numbers):
    """The lines of a program, each of which takes one of two numbers."""
    names = [f'i{number}' for number in range(PROGRAM_INPUTS)]
    lines = [f'input {name} {PROGRAM_WIDTH}' for name in names]
    for number in range(PROGRAM_LINES):
        one, other = (names[-1 - numbers.below(PROGRAM_NEAR)] for _ in range(2))
        lines.append(f'let n{number} = {("min", "max")[number % 2]}({one}, {other})')
        names.append(f'n{number}')
    return [*lines, *(f'output {name}' for name in names[-PROGRAM_INPUTS:])]


def write_programs(folder):
    write_program(folder, 'quotient', ['input x 64', 'input y 64', 'output x / y'], Numbers(2))
    write_program(folder, 'chosen', chosen_lines(Numbers(16)), Numbers(17))


def write_bench(folder):
    for size in RING_SIZES:
        operations = [['MUL', 'ADD', 'SUB', 'NEG'][i % 4] for i in range(size)]
        write(folder, f'ring_{size}', 'ring', 32, [1] * INPUT_WIRES, [1], operations, Numbers(size))
    write_sample(folder, SAMPLE_GATES)
    # The kinds of gates in a random order.
    numbers = Numbers(128)
    operations = [operation for operation, count in BITS.items() for _ in range(count)]
    for i in range(len(operations) - 1, 0, -1):
        j = numbers.below(i + 1)
        operations[i], operations[j] = operations[j], operations[i]
    write(folder, 'bits_aes', 'bristol', 1, BIT_INPUTS, [BIT_OUTPUTS], operations, numbers)
    write(folder, 'prepared_bits', 'bristol', 1, BIT_INPUTS, [BIT_OUTPUTS], operations, Numbers(129), prepared=[0])
    write(folder, 'prepared_65536', 'ring', 32, [1] * INPUT_WIRES, [1], [['MUL', 'ADD', 'SUB', 'NEG'][i % 4] for i in range(65536)], Numbers(65536), prepared=[0])
    operations = ['MUL'] * SESSION_PRODUCTS
    write(folder, 'eight_sessions', 'ring', 32, [1] * INPUT_WIRES, [1], operations, Numbers(8), sessions=8)
    write(folder, 'every_other_session', 'ring', 64, [1] * INPUT_WIRES, [1], operations, Numbers(9), sessions=8, prepared=range(1, 8, 2))
    operations = ['MUL'] * FIVE_PARTIES_PRODUCTS
    write(folder, 'five_parties', 'ring', 32, [1] * INPUT_WIRES, [1], operations, Numbers(5), sessions=8, sharing=FIVE)


def write_limits(folder):
    products = ['MUL'] * MOST_GATES
    write(folder, 'most_products', 'ring', 32, [1] * INPUT_WIRES, [1], products, Numbers(1))
    write(folder, 'deepest', 'ring', 32, [1], [1], products, Numbers(2), choose=square_the_last)
    write(folder, 'deepest_in_layers', 'ring', 32, [1], [1], products, Numbers(2), choose=square_the_last, order='layers')
    write(folder, 'mixed_in_layers', 'ring', 32, [1] * INPUT_WIRES, [1], [['MUL', 'ADD', 'SUB', 'NEG'][i % 4] for i in range(MOST_GATES)], Numbers(4), order='layers')
    values = [MOST_GATES // MOST_VALUES] * MOST_VALUES
    write(folder, 'widest', 'ring', 32, values, values, ['NEG'] * MOST_GATES, Numbers(3), choose=negate_an_input)
    write_cut(folder, 'cut_bits', 1)


def write_cuts(folder):
    for bits in (1, 8, 32, 64):
        write_cut(folder, 'cut_bits' if bits == 1 else f'cut_words_{bits}', bits)


def main(words):
    writers = {'': write_bench, 'limits': write_limits, 'cut': write_cuts, 'numbers': write_programs}
    if len(words) not in (2, 3) or words[1].startswith('-') or ''.join(words[2:]) not in writers:
        sys.exit('usage: make_jobs.py FOLDER [limits | cut | numbers]')
    writers[''.join(words[2:])](words[1])


if __name__ == '__main__':
    sys.exit(told(main))
