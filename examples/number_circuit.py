"""Makes the circuit of bits that a program of whole numbers stands for. docs/PROTOCOL.md tells how numbers become gates.

compiled(data) gives the circuit's file, or raises a Fault with what 'mpc' says of the text. A number is a list of bits, least first, and a bit is known, or
is a wire: i of input wire i, and ~g of gate g, since input wires aren't counted before the last line. What is known costs no gate.
"""

import itertools

from circuits import MOST_GATES, file_text
from job_folder import MOST_VALUES
from number_reader import Fault, bits_of, read

ZERO, ONE = 'zero', 'one'


class Full(Exception):
    """There are more gates than a circuit may have."""


class BitGates:
    """The gates so far, and those of bits, of lists of bits and of numbers that are added to them."""

    def __init__(self, most):
        self.gates, self.most = [], most

    def gate(self, operation, *wires):
        if len(self.gates) > self.most:
            raise Full
        self.gates.append((operation, wires))
        return -len(self.gates)

    def opposite(self, a):
        return ONE if a == ZERO else ZERO if a == ONE else self.gate('INV', a)

    def both(self, a, b):
        if ZERO in (a, b):
            return ZERO
        return b if a == ONE else a if b == ONE else self.gate('AND', a, b)

    def differ(self, a, b):
        if ZERO in (a, b):
            return b if a == ZERO else a
        return self.opposite(b) if a == ONE else self.opposite(a) if b == ONE else self.gate('XOR', a, b)

    def both_all(self, a, b):
        return [self.both(x, y) for x, y in zip(a, b)]

    def both_each(self, bit, bits):
        return [self.both(bit, other) for other in bits]

    def differ_all(self, a, b):
        return [self.differ(x, y) for x, y in zip(a, b)]

    def opposite_all(self, bits):
        return [self.opposite(bit) for bit in bits]

    # Carries: each position generates one, or propagates the one that comes in, or does neither.

    def chain(self, a, b):
        generate = self.both_all(a, b)
        return generate, self.differ_all(a, b)

    def total(self, generate, propagate):
        """What all positions together make of a carry, by halves."""
        if len(generate) < 2:
            return (generate or [ZERO])[0], (propagate or [ONE])[0]
        half = len(generate) // 2
        low_generate, low_propagate = self.total(generate[:half], propagate[:half])
        high_generate, high_propagate = self.total(generate[half:], propagate[half:])
        passed = self.both(high_propagate, low_generate)
        return self.differ(high_generate, passed), self.both(high_propagate, low_propagate)

    def scan(self, generate, propagate):
        """What the positions up to each one make of a carry, by halves."""
        if len(generate) < 2:
            return generate, propagate
        half = len(generate) // 2
        low_generate, low_propagate = self.scan(generate[:half], propagate[:half])
        high_generate, high_propagate = self.scan(generate[half:], propagate[half:])
        passed = self.both_each(low_generate[-1], high_propagate)
        high_generate = self.differ_all(high_generate, passed)
        return low_generate + high_generate, low_propagate + self.both_each(low_propagate[-1], high_propagate)

    def all(self, bits):
        return self.total([ZERO] * len(bits), bits)[1]

    # Numbers.

    def some(self, bits):
        """Whether a number isn't 0."""
        return self.opposite(self.all(self.opposite_all(bits)))

    def choose(self, which, a, b):
        """The first number where the bit is 1, and else the second."""
        a, b = of_one_width(a, b)
        return self.differ_all(self.both_each(which, self.differ_all(a, b)), b)

    def equal(self, a, b):
        a, b = of_one_width(a, b)
        return self.all(self.differ_all(self.opposite_all(a), b))

    def less(self, a, b):
        """Whether the first number is less: where the bits of it, turned over, and of the second add up to a carry."""
        a, b = of_one_width(a, b)
        generate, propagate = self.chain(self.opposite_all(a), b)
        return self.total(generate, closed(propagate))[0]

    def sum(self, a, b):
        a, b = of_one_width(a, b)
        generate, propagate = self.chain(a, b)
        return self.differ_all(propagate + [ZERO], [ZERO] + self.scan(generate, closed(propagate))[0])

    def subtract(self, a, b):
        """The bits of a difference of one width, and whether the second number is the larger, so that they tell nothing."""
        found = self.sum(self.opposite_all(a), b)
        return self.opposite_all(found[:len(a)]), found[-1]

    def save(self, width, x, y, z):
        """Two numbers in place of three with the same sum: the bits of it, and the carries."""
        x, y, z = (widened(bits, width) for bits in (x, y, z))
        first, second = self.differ_all(x, z), self.differ_all(y, z)
        bits = self.differ_all(first, y)
        return bits, [ZERO, *self.differ_all(self.both_all(first, second), z)][:width]

    def rows(self, a, b):
        """Two numbers whose sum is the product, by halves of the first number."""
        if len(a) < 2:
            return self.both_each((a or [ZERO])[0], b), []
        half, width = len(a) // 2, len(a) + len(b)
        low, high = self.rows(a[:half], b), self.rows(a[half:], b)
        bits, carries = self.save(width, *low, [ZERO] * half + high[0])
        return self.save(width, bits, carries, [ZERO] * half + high[1])

    def product(self, a, b):
        width = len(a) + len(b)
        return self.sum(*(widened(bits, width) for bits in self.rows(a, b)))[:width]

    def divided(self, a, b):
        """The quotient and the rest, from the highest bit down; by 0 a quotient of 0, and all as the rest."""
        quotient, rest = [], []
        for bit in reversed(a):
            longer, divisor = of_one_width([bit, *rest], b)
            bits, less = self.subtract(longer, divisor)
            quotient = [self.opposite(less), *quotient]
            rest = self.choose(less, longer, bits)[:len(quotient)]
        return self.both_each(self.some(b), quotient), rest


def widened(bits, width):
    return bits + [ZERO] * (width - len(bits))


def of_one_width(a, b):
    width = max(len(a), len(b))
    return widened(a, width), widened(b, width)


def closed(propagate):
    """Without a carry that comes into the first position."""
    return [ZERO, *propagate[1:]]


# What each operator makes of the gates and its operands.
OPERATIONS = {
    'or': lambda gates, a, b: [gates.some(a + b)],
    'and': lambda gates, a, b: [gates.both(gates.some(a), gates.some(b))],
    'not': lambda gates, a: [gates.opposite(gates.some(a))],
    '==': lambda gates, a, b: [gates.equal(a, b)],
    '!=': lambda gates, a, b: [gates.opposite(gates.equal(a, b))],
    '<': lambda gates, a, b: [gates.less(a, b)],
    '<=': lambda gates, a, b: [gates.opposite(gates.less(b, a))],
    '>': lambda gates, a, b: [gates.less(b, a)],
    '>=': lambda gates, a, b: [gates.opposite(gates.less(a, b))],
    '+': BitGates.sum,
    '*': BitGates.product,
    '/': lambda gates, a, b: gates.divided(a, b)[0],
    '%': lambda gates, a, b: gates.divided(a, b)[1],
    'min': lambda gates, a, b: gates.choose(gates.less(a, b), a, b),
    'max': lambda gates, a, b: gates.choose(gates.less(a, b), b, a),
    'if': lambda gates, condition, a, b: gates.choose(gates.some(condition), a, b),
}


class Maker:
    """Makes the bits of a program's values. Past the limit of gates it makes no more of them: the program is too large, whatever follows."""

    def __init__(self, most_gates):
        self.gates, self.wires = BitGates(most_gates), 0

    def input(self, width):
        self.wires += width
        return list(range(self.wires - width, self.wires))

    def number(self, number):
        return [ONE if number >> place & 1 else ZERO for place in range(bits_of(number))]

    def operation(self, sign, *operands):
        try:
            return OPERATIONS[sign](self.gates, *(operand.made for operand in operands))
        except Full:
            return []

    def fitted(self, made, most):
        width = bits_of(most)
        return widened(made, width)[:width]


def copied(bit):
    """The gate of an output's bit."""
    return ('EQ', (int(bit == ONE),)) if bit in (ZERO, ONE) else ('EQW', (bit,))


def compiled(data, most_gates=MOST_GATES):
    """The file of the circuit that the bytes stand for, with at most so many gates."""
    maker = Maker(most_gates)
    inputs, outputs = read(data, maker)
    gates, ends = maker.gates.gates, sum(bits_of(value.most) for value in outputs)
    if max(len(inputs), len(outputs)) > MOST_VALUES or len(gates) + ends > most_gates or maker.wires + len(gates) + ends > 2 * most_gates:
        raise Fault('TooLarge')
    lines = []
    for operation, wires in itertools.chain(gates, (copied(bit) for value in outputs for bit in value.made)):
        if operation != 'EQ':
            wires = [wire if wire >= 0 else maker.wires + ~wire for wire in wires]
        lines.append(f'{len(wires)} 1 {" ".join(map(str, wires))} {maker.wires + len(lines)} {operation}')
    return file_text([width for _, width in inputs], [bits_of(value.most) for value in outputs], lines, most_gates)
