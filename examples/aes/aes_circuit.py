#!/usr/bin/env python3
"""Makes a circuit of AES-128, in Bristol Fashion:

    examples/aes/aes_circuit.py > aes.txt

Two input values of 128 bits, the key and the block, and one output value of 128 bits, the encrypted block, as FIPS 197 (Advanced Encryption
Standard) has them. A value is the number that its 32 hexadecimal digits write, and its bits stand least first: so byte 0 of the standard, whose
digits come first, has bits 120 to 127, and byte 15 has bits 0 to 7.

All but the inverse of a byte, an element of GF(2^8), is linear, and takes no product. The inverse is computed in the tower GF(((2^2)^2)^2), in
which it comes down to products in smaller and smaller fields, as in Satoh, Morioka, Takano and Munetoh, A compact Rijndael hardware architecture
with S-box optimization (2001). It takes 36 products, of which 4 stand on the longest path. There are 16 such towers, and 8 ways into each; the
script tries all 128, and takes the one whose S-box has the fewest gates.
"""

import functools
import itertools
import operator
import pathlib
import sys

sys.path[1:1] = [str(pathlib.Path(__file__).resolve().parent.parent)]
from circuits import Circuit  # noqa: E402
from job_folder import run_script  # noqa: E402

ROUNDS = 10

# A number's bits are the coefficients of a polynomial, the least bit that of 1. Those of a byte are taken modulo this one.
MODULUS = 0x11b

# What the S-box adds last.
ADDED = 0x63


# Elements of a tower as numbers. A tower is told by its norms: each makes the field twice as wide by some t with t * t = t + norm, and the
# upper half of an element's bits goes with t. The tower without norms is the bit.

def multiply(a, b, norms):
    """The product of two elements."""
    if not norms:
        return a & b
    *below, norm = norms
    width = 2**len(below)
    (high_a, low_a), (high_b, low_b) = (divmod(number, 2**width) for number in (a, b))
    high, low = multiply(high_a, high_b, below), multiply(low_a, low_b, below)
    crossed = multiply(high_a ^ low_a, high_b ^ low_b, below)
    return (crossed ^ low) << width | multiply(high, norm, below) ^ low


def square(a, norms):
    return multiply(a, a, norms)


def elements(norms):
    return range(2**2**len(norms))


def towers(levels):
    """The norms of each tower of so many levels: t * t + t + norm has no root in the field below."""
    if levels == 0:
        return [()]
    return [(*below, norm) for below in towers(levels - 1) for norm in elements(below)
            if all(square(a, below) ^ a != norm for a in elements(below))]


def powers(a, norms):
    """The first nine powers of an element, from 1 on."""
    return list(itertools.accumulate([a] * 8, lambda power, a: multiply(power, a, norms), initial=1))


def combined(numbers, bits):
    """The sum of those of the numbers whose bit is 1."""
    return functools.reduce(operator.xor, (number for place, number in enumerate(numbers) if bits >> place & 1), 0)


# Elements on wires, the least bit first.

def add(c, x, y):
    return [c.differ(a, b) for a, b in zip(x, y, strict=True)]


def linear(c, function, x):
    """What a linear function on numbers gives: each of its bits is the sum of those bits of x whose images have it."""
    images = [function(1 << place) for place in range(len(x))]
    return [functools.reduce(c.differ, (a for a, image in zip(x, images) if image >> place & 1), c.zero) for place in range(len(x))]


def halves(x):
    """The lower and the upper half."""
    return x[:len(x) // 2], x[len(x) // 2:]


def product(c, x, y, norms):
    """The product of two elements, by three in the field below: 3, 9 and 27 products of bits in fields of 2, 4 and 8 bits, all at once."""
    if not norms:
        return [c.both(*x, *y)]
    *below, norm = norms
    (low_x, high_x), (low_y, high_y) = halves(x), halves(y)
    low, high = product(c, low_x, low_y, below), product(c, high_x, high_y, below)
    crossed = product(c, add(c, low_x, high_x), add(c, low_y, high_y), below)
    return add(c, linear(c, lambda a: multiply(a, norm, below), high), low) + add(c, crossed, low)


def inverse(c, x, norms):
    """The inverse of an element, and 0 of 0. With the conjugate h * t + (h + l) of x = h * t + l, their product is d = l * (h + l) + norm * h * h
    in the field below, and the inverse is the conjugate divided by d. In the field of four elements it is the square."""
    if len(norms) == 1:
        return linear(c, lambda a: square(a, norms), x)
    *below, norm = norms
    low, high = halves(x)
    conjugate = add(c, low, high)
    divisor = add(c, product(c, low, conjugate, below), linear(c, lambda a: multiply(norm, square(a, below), below), high))
    quotient = inverse(c, divisor, below)
    return product(c, conjugate, quotient, below) + product(c, high, quotient, below)


# The S-box.

def rotated_sum(byte):
    """The sum of a byte and of it turned by one to four bits."""
    return functools.reduce(operator.xor, ((byte << count | byte >> 8 - count) & 0xff for count in range(5)))


class SBox:
    """SubBytes of one byte, by a tower and a root in it of the polynomial of bytes: a byte goes to the sum of powers of the root."""

    def __init__(self, norms, root):
        self.norms = norms
        self.basis = powers(root, norms)[:8]
        self.byte_of = {self.element(byte): byte for byte in range(256)}

    def element(self, byte):
        """The element of the tower that stands for a byte."""
        return combined(self.basis, byte)

    def substitute(self, c, byte):
        inverted = inverse(c, linear(c, self.element, byte), self.norms)
        turned = linear(c, lambda a: rotated_sum(self.byte_of[a]), inverted)
        return [c.invert(bit) if ADDED >> place & 1 else bit for place, bit in enumerate(turned)]

    def gates(self):
        """How many gates it takes."""
        c = Circuit([8])
        return len(c.needed([self.substitute(c, *c.inputs)]))


def boxes():
    """The S-boxes by all towers and all roots."""
    return [SBox(norms, root) for norms in towers(3) for root in elements(norms) if combined(powers(root, norms), MODULUS) == 0]


# The cipher. A word is four bytes, and a state is four words, its columns.

def columns_of(value):
    """The columns of a value, whose bytes stand last first."""
    state = [value[place:place + 8] for place in range(120, -8, -8)]
    return [state[place:place + 4] for place in range(0, 16, 4)]


def value_of(columns):
    return [bit for byte in reversed(list(itertools.chain(*columns))) for bit in byte]


def add_words(c, x, y):
    return [add(c, a, b) for a, b in zip(x, y, strict=True)]


def doubled(byte):
    """A byte times the polynomial x, on numbers."""
    return byte << 1 ^ (MODULUS if byte >> 7 else 0)


def mixed(c, column):
    """MixColumns of a column: each byte becomes twice the sum of it and the next one, and the three others."""
    sums = add_words(c, column, column[1:] + column[:1])
    return [add(c, add(c, column[(row + 1) % 4], sums[(row + 2) % 4]), linear(c, doubled, sums[row])) for row in range(4)]


def round_keys(c, box, words):
    """The key of each round, of which the first is the key itself."""
    constant = 1
    while True:
        yield words
        first, *others = [box.substitute(c, byte) for byte in words[3][1:] + words[3][:1]]
        turned = [add(c, first, c.constant(constant, 8)), *others]
        words = list(itertools.accumulate(words, functools.partial(add_words, c), initial=turned))[1:]
        constant = doubled(constant)


def encrypted(c, box, key, block):
    """The columns of the encrypted block."""
    keys = round_keys(c, box, key)
    state = [add_words(c, *pair) for pair in zip(block, next(keys))]
    for number in range(1, ROUNDS + 1):
        state = [[box.substitute(c, byte) for byte in column] for column in state]
        state = [[state[(place + row) % 4][row] for row in range(4)] for place in range(4)]
        if number < ROUNDS:
            state = [mixed(c, column) for column in state]
        state = [add_words(c, *pair) for pair in zip(state, next(keys))]
    return state


def circuit_text():
    """The file, whose gates stand round by round, and S-box by S-box in each."""
    c = Circuit([128, 128])
    key, block = map(columns_of, c.inputs)
    return c.text([value_of(encrypted(c, min(boxes(), key=SBox.gates), key, block))])


def main(words):
    if words in (['-h'], ['--help']):
        print(__doc__)
    elif words:
        print(__doc__.split('\n\n')[1], file=sys.stderr)
        return 2
    else:
        print(circuit_text(), end='')
    return 0


if __name__ == '__main__':
    run_script(main)
