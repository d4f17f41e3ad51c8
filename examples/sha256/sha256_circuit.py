#!/usr/bin/env python3
"""Makes a circuit of SHA-256 over a message of which each of two parties has a part, in Bristol Fashion:

    examples/sha256/sha256_circuit.py FIRST SECOND [--chain] > sha256.txt

FIRST and SECOND are the bytes of the two parts, which stand one behind the other. Two input values, the parts, and one output value of 256
bits, the digest, as FIPS 180-4 (Secure Hash Standard) has it. A value is the number that its hexadecimal digits write, and its bits stand least
first: so the first byte of a part of n bytes has its bits 8 * n - 8 to 8 * n - 1. What pads the message is constant.

Turns, shifts and sums modulo 2 of words take no product; a choice and a majority take one for each bit, and sums of words the rest. Three words
become two with the same sum by one product for each bit, in one layer, and the last two words are added by a tree of carries, in seven. With
--chain words are added bit by bit, in 31 layers, by a third of the products.
"""

import functools
import itertools
import math
import pathlib
import re
import sys

sys.path[1:1] = [str(pathlib.Path(__file__).resolve().parent.parent)]
from circuits import MOST_GATES, Circuit  # noqa: E402
from job_folder import MOST_SESSIONS, need, run_script  # noqa: E402

BITS = 32
ROUNDS = 64
BLOCK = 64
MOST_BYTES = 1_024


def primes():
    return (number for number in itertools.count(2) if all(number % other for other in range(2, math.isqrt(number) + 1)))


def cube_root(number):
    """The whole part of a cube root."""
    root = 1 << -(-number.bit_length() // 3)
    while root**3 > number:
        root = (2 * root + number // root**2) // 3
    return root


# The first 32 bits behind the point of square roots and of cube roots of the first primes.
START = [math.isqrt(prime << 2 * BITS) % 2**BITS for prime in itertools.islice(primes(), 8)]
CONSTANTS = [cube_root(prime << 3 * BITS) % 2**BITS for prime in itertools.islice(primes(), ROUNDS)]


# Words on wires, the least bit first.

def add_bits(c, *words):
    """The sum modulo 2, bit by bit."""
    return [functools.reduce(c.differ, bits) for bits in zip(*words, strict=True)]


def turned(word, places):
    """The word with its bits so many places further down, where the lowest come in at the top."""
    return word[places:] + word[:places]


def shifted(c, word, places):
    return word[places:] + [c.zero] * places


def mixed(c, word, turns, shift=None):
    """The sum of the word turned by these places, and shifted by some."""
    return add_bits(c, *(turned(word, places) for places in turns), *([shifted(c, word, shift)] if shift else []))


def chosen(c, x, y, z):
    """The bits of y where x is 1, and else those of z."""
    return [c.differ(c.both(a, c.differ(b, d)), d) for a, b, d in zip(x, y, z, strict=True)]


def majority(c, x, y, z):
    return list(map(c.most, x, y, z))


# Sums modulo 2 to 32.

class Chain:
    """Words are added bit by bit, each of which waits for the carry of the one below."""

    def total(self, c, words):
        return c.add_columns(list(map(list, zip(*words, strict=True))), BITS)

    def partial(self, c, words):
        """Words with the same sum, for a sum of which these are a part."""
        return [self.total(c, words)]


class Tree:
    """Three words become two until there are two, which a tree of carries adds."""

    def partial(self, c, words):
        """Two words with the same sum: of the three that are there first, the sum bit by bit, and the majority one place up."""
        def depth(word):
            return max(c.depths[wire] for wire in word)

        words = list(words)
        while len(words) > 2:
            words.sort(key=depth)
            (x, y, z), words = words[:3], words[3:]
            words += [add_bits(c, x, z, y), [c.zero, *majority(c, x, y, z)[:-1]]]
        return words

    def total(self, c, words):
        x, y = self.partial(c, words)
        return add_bits(c, x, y, carries(c, x, y))


def carries(c, x, y):
    """The carry into each bit of a sum. Of two bits, and then of more and more, there is whether they carry by themselves, and whether they pass a carry on."""
    below = [c.both(a, b) for a, b in zip(x[::2], y[::2])]
    alone = [c.most(a, b, carry) for a, b, carry in zip(x[1::2], y[1::2], below)]
    both_differ = list(map(c.differ, x, y))
    passes = [c.both(a, b) for a, b in zip(both_differ[::2], both_differ[1::2])]
    width = 1
    while width < len(alone):
        # The upper half of each block of pairs takes the carry of its lower half.
        for place in range(len(alone)):
            if place & width:
                lower = place // width * width - 1
                alone[place] = c.differ(alone[place], c.both(passes[place], alone[lower]))
                passes[place] = c.both(passes[place], passes[lower])
        width *= 2
    into_pairs = [c.zero, *alone[:-1]]
    return list(itertools.chain(*((carry, c.most(a, b, carry)) for carry, a, b in zip(into_pairs, x[::2], y[::2]))))


# The digest.

def padded(c, message):
    """The words of each block: the bytes, a bit 1, bits 0, and in 64 bits how many bits the bytes have."""
    zeros = -(len(message) + 9) % BLOCK
    end = [c.constant(byte, 8) for byte in b'\x80' + bytes(zeros) + (8 * len(message)).to_bytes(8, 'big')]
    data = message + end
    words = [list(itertools.chain(*reversed(data[place:place + 4]))) for place in range(0, len(data), 4)]
    return [words[place:place + BLOCK // 4] for place in range(0, len(words), BLOCK // 4)]


def schedule(c, adder, words):
    """The word of each round."""
    words = list(words)
    for place in range(len(words), ROUNDS):
        low, high = mixed(c, words[place - 15], (7, 18), 3), mixed(c, words[place - 2], (17, 19), 10)
        words.append(adder.total(c, [words[place - 16], low, words[place - 7], high]))
        yield words[place - 16]
    yield from words[-16:]


def compressed(c, adder, state, words):
    """The state behind a block."""
    a, b, d, e, f, g, h, i = state
    for constant, word in zip(CONSTANTS, schedule(c, adder, words)):
        first = adder.partial(c, [i, c.constant(constant, BITS), word, mixed(c, f, (6, 11, 25)), chosen(c, f, g, h)])
        second = [mixed(c, a, (2, 13, 22)), majority(c, a, b, d)]
        a, b, d, e, f, g, h, i = adder.total(c, first + second), a, b, d, adder.total(c, [e, *first]), f, g, h
    return [adder.total(c, [x, y]) for x, y in zip(state, (a, b, d, e, f, g, h, i))]


def digest(c, adder, message):
    """The bits of the digest, the least first. The message is a list of bytes, each of eight wires."""
    state = [c.constant(word, BITS) for word in START]
    for words in padded(c, message):
        state = compressed(c, adder, state, words)
    return list(itertools.chain(*reversed(state)))


def circuit_text(lengths, adder):
    """The file for parts of so many bytes."""
    c = Circuit([8 * length for length in lengths], MOST_SESSIONS * MOST_GATES)
    message = [value[place:place + 8] for value in c.inputs for place in range(len(value) - 8, -8, -8)]
    return c.text([digest(c, adder, message)])


def length_in(word):
    need(re.fullmatch('[0-9]{1,4}', word) and int(word) <= MOST_BYTES, f'a part has 0 to {MOST_BYTES} bytes, and not {word[:40]!r}')
    return int(word)


def main(words):
    lengths, chain = [word for word in words if word != '--chain'], '--chain' in words
    if words in (['-h'], ['--help']):
        print(__doc__)
    elif len(lengths) == 2 and len(words) <= 3:
        print(circuit_text(list(map(length_in, lengths)), Chain() if chain else Tree()), end='')
    else:
        print(__doc__.split('\n\n')[1], file=sys.stderr)
        return 2
    return 0


if __name__ == '__main__':
    run_script(main)
