#!/usr/bin/env python3
"""Writes circuits for common tasks:

    examples/circuits.py CALL [N] [BITS] > my-job/circuit.txt
    examples/circuits.py job FOLDER CALL [BITS] PARTY PARTY .. [--helper NAME] [--tolerated GROUP,..]

of bits (layout bristol), where numbers are 0 or more and bits stand least first:
    add N BITS        the sum of N numbers of BITS bits, with all its bits
    subtract BITS     the first of two numbers less the second, modulo 2 to BITS
    multiply BITS     the product of two numbers, with all its bits
    less BITS         1 where the first number is less than the second, or else 0
    equal BITS        1 where two numbers are equal, or else 0
    choose BITS       of a bit and two numbers: the first number where the bit is 1, or else the second
    greatest N BITS   the greatest of N numbers
    second N BITS     the second greatest of N numbers, which is the greatest where two have that
    auction N BITS    which of N numbers is the greatest, from 0, the first of equal ones; and the second greatest
    count N           how many of N bits are 1
of words (layout ring):
    total N           the sum of N words

'job' writes the folder of a whole job, but for the parties' files. Each party gives a number and reads the result, and N is how many they
are. Where a call takes two or three numbers, the first parties give them, and the others give and read nothing; so does a helper, and
'job' may have several. One party alone learns nothing but the result, and any two may know everything. That wants three parties: so two
take a helper. With --tolerated these groups must learn nothing, as ann+bob,cleo, and all others may know everything. For 'count' leave
BITS out; for 'total' they are the ring's.

The gates of a circuit stand in the order in which they are made. Nodes take fewest rounds where they go in layers: the job of 'job' says so, by
order = "layers", which goes into the session's table of any other job of version 2, too.

A session takes 65,536 gates. A circuit that has more, up to sixteen times as many, is written all the same, with a line on standard error:
examples/cut.py makes a job of it, of several sessions.

As a library: c = Circuit([8, 8]) has the numbers c.inputs, each a list of wires; c.text([c.add(*c.inputs)]) is the file.
"""

import heapq
import itertools
import re
import sys

from doubts import doubt_structure
from job_folder import MOST_SESSIONS, MOST_VALUES, MOST_WIRES, need, read_fields, run_script, write_job
from summands import Sharing, groups_of

MOST_GATES = 65_536

# Numbers of so many bits are compared bit by bit, a product after another, and longer ones in two halves at once. With 4, numbers of 16
# bits take 29 products in 6 rounds; bit by bit they would take 16 in 16 rounds, and in halves alone 42 in 5.
SHORT = 4


class Circuit:
    """A circuit of bits. A number is a list of wires, the least bit first, of any length; a wire that it doesn't have is 0. The first
    wires are the inputs, and each gate sets the next wire. A gate that would have the value of a wire that is there is left out. Its file
    has at most so many gates."""

    def __init__(self, widths, most_gates=MOST_GATES):
        need(len(widths) <= MOST_VALUES, f'a circuit has at most {MOST_VALUES} input values')
        need(sum(widths) <= MOST_WIRES, f'a circuit has at most {MOST_WIRES} wires')
        self.widths, self.most_gates = list(widths), most_gates
        self.gates = [None] * sum(widths)
        self.depths = [0] * sum(widths)
        self.known = {}
        wires = iter(range(sum(widths)))
        self.inputs = [list(itertools.islice(wires, width)) for width in widths]
        self.zero, self.one = self.gate('EQ', 0), self.gate('EQ', 1)

    def gate(self, operation, *operands):
        if (operation, operands) not in self.known:
            need(len(self.gates) < self.most_gates + 3 * MOST_GATES, f'the circuit has more than {self.most_gates} gates')
            self.known[operation, operands] = len(self.gates)
            self.gates.append((operation, operands))
            depth = max((self.depths[wire] for wire in operands), default=0) if operation != 'EQ' else 0
            self.depths.append(depth + (operation == 'AND'))
        return self.known[operation, operands]

    # On bits.

    def invert(self, a):
        if a in (self.zero, self.one):
            return self.zero + self.one - a
        operation, operands = self.gates[a] or ('', ())
        return operands[0] if operation == 'INV' else self.gate('INV', a)

    def differ(self, a, b):
        """1 where one of the bits is 1, and the other isn't."""
        a, b = sorted((a, b))
        for constant, other in ((a, b), (b, a)):
            if constant == self.zero:
                return other
            if constant == self.one:
                return self.invert(other)
        return self.zero if a == b else self.gate('XOR', a, b)

    def both(self, a, b):
        a, b = sorted((a, b))
        for constant, other in ((a, b), (b, a)):
            if constant == self.zero:
                return self.zero
            if constant == self.one:
                return other
        return a if a == b else self.gate('AND', a, b)

    def all(self, bits):
        """1 where each of the bits is 1."""
        if len(bits) < 2:
            return bits[0] if bits else self.one
        middle = len(bits) // 2
        return self.both(self.all(bits[:middle]), self.all(bits[middle:]))

    def most(self, a, b, c):
        """1 where two or three of the bits are 1: a where a and b are equal, or else c."""
        return self.differ(self.both(self.differ(a, c), self.differ(b, c)), c)

    # On numbers.

    def constant(self, number, width):
        return [self.one if number >> place & 1 else self.zero for place in range(width)]

    def pairs(self, x, y):
        return list(itertools.zip_longest(x, y, fillvalue=self.zero))

    def add_columns(self, columns, width):
        """The sum of bits, of which those of column i count 2 to i. Three bits of a column, those that are there in the earliest rounds,
        become one bit of it and one of the next column, by one product, until the column has one."""
        total, carried = [], []
        for column in itertools.islice(itertools.chain(columns, itertools.repeat([])), width):
            bits = [(self.depths[wire], wire) for wire in itertools.chain(column, carried)]
            heapq.heapify(bits)
            carried = []
            while len(bits) > 1:
                a, b = heapq.heappop(bits)[1], heapq.heappop(bits)[1]
                c = heapq.heappop(bits)[1] if bits else self.zero
                carried.append(self.most(a, b, c))
                rest = self.differ(self.differ(a, c), b)
                heapq.heappush(bits, (self.depths[rest], rest))
            total.append(bits[0][1] if bits else self.zero)
        return total

    def add(self, *numbers):
        """The sum, of as many bits as it may have."""
        columns = itertools.zip_longest(*numbers, fillvalue=self.zero)
        return self.add_columns(columns, sum(2**len(number) - 1 for number in numbers).bit_length())

    def subtract(self, x, y):
        """The difference, modulo 2 to the bits of the longer one: the sum of x, the inverted y and 1."""
        columns = [[a, self.invert(b)] for a, b in self.pairs(x, y)]
        return self.add_columns([[*column, self.one] if place == 0 else column for place, column in enumerate(columns)], len(columns))

    def multiply(self, x, y):
        """The product, of as many bits as both together."""
        need(len(x) * len(y) <= self.most_gates, f'the circuit has more than {self.most_gates} gates')
        columns = [[] for _ in range(len(x) + len(y))]
        for i, a in enumerate(x):
            for j, b in enumerate(y):
                columns[i + j].append(self.both(a, b))
        return self.add_columns(columns, len(columns))

    def count(self, bits):
        """How many of the bits are 1."""
        return self.add_columns([bits], len(bits).bit_length())

    def equal(self, x, y):
        """1 where the numbers are equal."""
        return self.all([self.invert(self.differ(a, b)) for a, b in self.pairs(x, y)])

    def less(self, x, y):
        """1 where the number x is less than y. In a short one, from the least bit up, the answer so far becomes the bit of y wherever the
        two bits differ; of two halves, the upper ones decide, where they aren't equal."""
        pairs = self.pairs(x, y)
        if len(pairs) <= SHORT:
            answer = self.zero
            for a, b in pairs:
                answer = self.differ(self.both(self.differ(a, answer), self.differ(b, answer)), b)
            return answer
        middle = len(pairs) // 2
        (low_x, low_y), (high_x, high_y) = zip(*pairs[:middle]), zip(*pairs[middle:])
        below = self.both(self.equal(high_x, high_y), self.less(low_x, low_y))
        return self.differ(self.less(high_x, high_y), below)

    def choose(self, bit, x, y):
        """The number x where the bit is 1, or else y, by one product for each bit."""
        return [self.differ(self.both(bit, self.differ(a, b)), b) for a, b in self.pairs(x, y)]

    def ranking(self, numbers, first=0):
        """Which number is the greatest, counted from 'first', the first of equal ones; that number; and the second greatest. The greatest
        of either half meet, and then the one that lost and the second greatest of the half that won."""
        if len(numbers) == 1:
            return self.constant(first, first.bit_length()), numbers[0], []
        middle = (len(numbers) + 1) // 2
        place_a, a, second_a = self.ranking(numbers[:middle], first)
        place_b, b, second_b = self.ranking(numbers[middle:], first + middle)
        later = self.less(a, b)
        greatest = self.choose(later, b, a)
        loser = [self.differ(self.differ(x, y), z) for (x, y), z in zip(self.pairs(a, b), greatest)]
        beaten = self.choose(later, second_b, second_a)
        second = self.choose(self.less(loser, beaten), beaten, loser)
        return self.choose(later, place_b, place_a), greatest, second

    def greatest(self, numbers):
        return self.ranking(numbers)[1]

    def second_greatest(self, numbers):
        return self.ranking(numbers)[2]

    def winner(self, numbers):
        """Which of the numbers is the greatest, from 0, the first of equal ones."""
        return self.ranking(numbers)[0]

    # The file.

    def needed(self, outputs):
        """The gates that the outputs need, in the order in which they were made."""
        needed = set(itertools.chain(*outputs))
        for wire in range(len(self.gates) - 1, sum(self.widths) - 1, -1):
            operation, operands = self.gates[wire]
            if wire in needed and operation != 'EQ':
                needed.update(operands)
        return [wire for wire in sorted(needed) if self.gates[wire]]

    def text(self, outputs):
        """The file, with the gates in the order in which they were made, and a copy of each output wire at the end, where the output values have
        their place."""
        need(len(outputs) <= MOST_VALUES, f'a circuit has at most {MOST_VALUES} output values')
        wires = {wire: wire for wire in range(sum(self.widths))}
        lines = []

        def line(operation, *operands):
            lines.append(f'{len(operands)} 1 {" ".join(map(str, operands))} {sum(self.widths) + len(lines)} {operation}')

        for wire in self.needed(outputs):
            operation, operands = self.gates[wire]
            wires[wire] = sum(self.widths) + len(lines)
            line(operation, *(operands if operation == 'EQ' else (wires[operand] for operand in operands)))
        for wire in itertools.chain(*outputs):
            line('EQW', wires[wire])
        return file_text(self.widths, list(map(len, outputs)), lines, self.most_gates)


def file_text(inputs, outputs, lines, most_gates=MOST_GATES):
    """The file of a circuit with these widths and lines of gates, at most so many, and twice as many wires."""
    need(len(lines) <= most_gates, f'the circuit has more than {most_gates} gates')
    need(sum(inputs) + len(lines) <= 2 * most_gates, f'the circuit has more than {2 * most_gates} wires')
    header = [[len(lines), sum(inputs) + len(lines)], [len(inputs), *inputs], [len(outputs), *outputs]]
    return '\n'.join([*(' '.join(map(str, numbers)) for numbers in header), *lines]) + '\n'


def of_bits(widths, outputs):
    """The file of the outputs that a call makes from a circuit and its inputs."""
    circuit = Circuit(widths, MOST_SESSIONS * MOST_GATES)
    return circuit.text(outputs(circuit, *circuit.inputs))


def total(count):
    """The sum of words."""
    lines = [f'2 1 {count + place - 1 if place else 0} {place + 1} {count + place} ADD' for place in range(count - 1)]
    return file_text([1] * count, [1], lines or ['1 1 0 1 EQW'])


# What each call takes, and its file from that.
CALLS = {
    'add': (['N', 'BITS'], lambda n, bits: of_bits([bits] * n, lambda c, *x: [c.add(*x)])),
    'subtract': (['BITS'], lambda bits: of_bits([bits] * 2, lambda c, x, y: [c.subtract(x, y)])),
    'multiply': (['BITS'], lambda bits: of_bits([bits] * 2, lambda c, x, y: [c.multiply(x, y)])),
    'less': (['BITS'], lambda bits: of_bits([bits] * 2, lambda c, x, y: [[c.less(x, y)]])),
    'equal': (['BITS'], lambda bits: of_bits([bits] * 2, lambda c, x, y: [[c.equal(x, y)]])),
    'choose': (['BITS'], lambda bits: of_bits([1, bits, bits], lambda c, bit, x, y: [c.choose(bit[0], x, y)])),
    'greatest': (['N', 'BITS'], lambda n, bits: of_bits([bits] * n, lambda c, *x: [c.greatest(x)])),
    'second': (['N', 'BITS'], lambda n, bits: of_bits([bits] * n, lambda c, *x: [c.second_greatest(x)])),
    'auction': (['N', 'BITS'], lambda n, bits: of_bits([bits] * n, lambda c, *x: [c.winner(x), c.second_greatest(x)])),
    'count': (['N'], lambda n: of_bits([1] * n, lambda c, *x: [c.count(list(itertools.chain(*x)))])),
    'total': (['N'], total),
}


# The least that N may be.
LEAST = {'second': 2, 'auction': 2}

# Who gives what in a job of a call that doesn't take one number of each party.
GIVERS = {'subtract': (2, 'two numbers'), 'multiply': (2, 'two numbers'), 'less': (2, 'two numbers'), 'equal': (2, 'two numbers'),
          'choose': (3, 'a bit and two numbers')}


def need_call(call):
    need(call in CALLS, f'{call[:40]!r} is none of {", ".join(CALLS)}')


def circuit_of(call, words):
    """The file of a call with these words."""
    need_call(call)
    names, make = CALLS[call]
    need(len(words) == len(names), f'{call} wants {" ".join(names)}')
    least = {'N': LEAST.get(call, 1), 'BITS': 1}
    most = {'N': MOST_VALUES, 'BITS': MOST_WIRES}
    for name, word in zip(names, words):
        fits = re.fullmatch('[0-9]{1,9}', word) and least[name] <= int(word) <= most[name]
        need(fits, f'{call}: {name} is a number from {least[name]} to {most[name]}, and not {word[:40]!r}')
    return make(*map(int, words))


def too_large(circuit):
    """How the gates of a circuit's file are more than a session takes, or nothing."""
    gates = int(circuit.split(maxsplit=1)[0])
    return f'the circuit has {gates} gates, and a session at most {MOST_GATES}' if gates > MOST_GATES else ''


def need_parties(call, givers, helpers, tolerated):
    """Refuses fewer parties than the call takes, or than can compute it."""
    found = f'{len(givers)} {"is" if len(givers) == 1 else "are"} named'
    if call in GIVERS:
        least, given = GIVERS[call]
        need(len(givers) >= least, f'{call} takes {given}, one each of the first {least} parties, and {found}')
    least = LEAST.get(call, 1)
    need(len(givers) >= least, f'{call} takes a number of each of {least} or more parties, and {found}')
    count = len(givers) + len(helpers)
    need(tolerated is not None or count > 2, f'{call}: where each party alone must learn nothing, a job wants three of them, and {count} '
         f'{"is" if count == 1 else "are"} named: --helper NAME adds one that gives and reads nothing')


def make_job(folder, call, words, helpers=(), tolerated=None):
    """Writes the folder of a job of parties that give the inputs of a call, and of helpers."""
    need_call(call)
    names, bits, helpers = CALLS[call][0], [], list(helpers)
    if call == 'total' or 'BITS' in names:
        need(words and re.fullmatch('[0-9]{1,9}', words[0]), f'{call} wants BITS before the parties')
        bits, words = words[:1], words[1:]
    layout, ring_bits = ('ring', int(bits[0])) if call == 'total' else ('bristol', 1)
    need(ring_bits <= 64, 'a ring has at most 64 bits')
    need_parties(call, words, helpers, tolerated)
    if tolerated is not None:
        Sharing(words + helpers, tolerated)
    circuit = circuit_of(call, [str(len(words)) if name == 'N' else bits[0] for name in names])
    inputs = int(circuit.split('\n', 2)[1].split()[0])
    need(not too_large(circuit), f'{too_large(circuit)}: write it without job, and cut it by examples/cut.py')
    write_job(folder, ring_bits, words + helpers, words[:inputs], circuit, f'{call}.txt', layout, tolerated=tolerated)
    doubt_structure(read_fields(folder))


def options_of(words):
    """The helpers, and the tolerated groups where they are named; nothing where the words are others."""
    helpers, tolerated, rest = [], None, iter(words)
    for option, word in itertools.zip_longest(rest, rest):
        if option not in ('--helper', '--tolerated') or word is None or option == '--tolerated' and tolerated is not None:
            return None
        if option == '--helper':
            helpers.append(word)
        else:
            tolerated = groups_of(word)
    return helpers, tolerated


def main(words):
    names = list(itertools.takewhile(lambda word: not word.startswith('--'), words))
    options = options_of(words[len(names):])
    if words in (['-h'], ['--help']):
        print(__doc__)
    elif len(names) >= 3 and names[0] == 'job' and options:
        make_job(names[1], names[2], names[3:], *options)
    elif words and words[0] != 'job':
        circuit = circuit_of(words[0], words[1:])
        print(circuit, end='')
        if too_large(circuit):
            print(f'circuits.py: {too_large(circuit)}: examples/cut.py cuts it', file=sys.stderr)
    else:
        print(__doc__.split('\n\n')[1], file=sys.stderr)
        return 2
    return 0


if __name__ == '__main__':
    run_script(main)
