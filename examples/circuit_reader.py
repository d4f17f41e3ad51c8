"""Reads the file of a circuit of bits in Bristol Fashion, or of words in the layout 'ring', of any size. docs/FORMATS.md has both.

read_circuit(data, bits, of_bits) gives the circuit, or raises a Fault with what 'mpc' says of a circuit: '13 ReadBeforeSet line=7'. Only that
it is too large is said of other sizes, which no job has.
"""

import array
import collections
import itertools
import re

from job_folder import Refusal

FAULTS = ['NotUtf8', 'BadNumber', 'ShortLine', 'LongLine', 'FewLines', 'ExtraLine', 'TooLarge', 'HeaderWidths', 'UnknownOperation', 'WrongArity',
          'BadConstant', 'WireOutOfRange', 'ReadBeforeSet', 'SetTwice', 'OutputNotSet', 'WrongRing']

# The operations of each layout, with how many wires they read. EQ reads none, but has a constant in the place of one.
OF_BITS = {b'XOR': 2, b'AND': 2, b'INV': 1, b'EQ': 1, b'EQW': 1}
OF_WORDS = {b'ADD': 2, b'SUB': 2, b'MUL': 2, b'NEG': 1, b'EQ': 1, b'EQW': 1}
PRODUCTS = {'AND', 'MUL'}

# What is read at all: gates or wires, values, and bytes. Sixteen sessions take a sixteenth of these gates, and all of these values.
MOST_READ = 2**24
MOST_READ_VALUES = 16 * 1_024
MOST_READ_BYTES = 2**28

# What Python takes for blanks, and the program does not.
OTHER_BLANKS = bytes.maketrans(b'\x0b\x0c', b'\0\0')


class LargeCircuit(collections.namedtuple('LargeCircuit', 'inputs outputs operations firsts seconds constants results gates wires')):
    """A circuit whose wires have new numbers: those of the inputs come first, and then one for each gate, in the order of the file, but that a copy
    is the wire which it copies, and that equal constants are one wire. It has the widths of its input and its output values; the operation
    of each wire, '' for an input; the wires that it reads, -1 for none; the constants by their wires; the wires of the output values, one
    value after another; and how many gates and wires the file has."""

    def input_wires(self, values):
        """The wires of these input values, in order."""
        ends = list(itertools.accumulate(self.inputs, initial=0))
        return [wire for value in values for wire in range(ends[value], ends[value + 1])]

    def output_wires(self, values):
        """The wires of these output values, in order."""
        ends = list(itertools.accumulate(self.outputs, initial=0))
        return [wire for value in values for wire in self.results[ends[value]:ends[value + 1]]]


class Fault(Refusal):
    """Why a text is no circuit."""

    def __init__(self, name, **keys):
        super().__init__(' '.join([str(1 + FAULTS.index(name)), name, *(f'{key}={value}' for key, value in keys.items())]))


def number_of(token):
    """The number below 2^64 that the digits stand for, or nothing."""
    if not token.isdigit() or len(token) > 19 and len(token := token.lstrip(b'0') or b'0') > 20:
        return None
    number = int(token)
    return number if number < 2**64 else None


def usual_lines(arities):
    """A pattern of lines as nearly all gates have them: the wires and the operation, of two wires or of one."""
    number = rb'([0-9]{1,9}) '
    two, one = (b'|'.join(name for name, reads in arities.items() if reads == count and name[:2] != b'EQ') for count in (2, 1))
    return re.compile(rb'2 1 %s%s%s(%s)\r?|1 1 %s%s(%s)\r?' % (number, number, number, two, number, number, one))


class Reader:
    """The lines of a text, and the circuit that those so far have made."""

    def __init__(self, data, bits, of_bits):
        self.bits, self.arities = bits, OF_BITS if of_bits else OF_WORDS
        self.usual = usual_lines(self.arities)
        self.lines = data.translate(OTHER_BLANKS).split(b'\n')
        self.found, self.line = 0, 0
        self.names = {name: name.decode() for name in self.arities}
        self.operations, self.firsts, self.seconds, self.constants = [], array.array('i'), array.array('i'), {}

    def need(self, holds, name):
        if not holds:
            raise Fault(name, line=self.line)

    def pass_blanks(self):
        """Whether there is another line with tokens, to which it goes."""
        while self.line < len(self.lines) and not self.lines[self.line].split():
            self.line += 1
        return self.line < len(self.lines)

    def tokens(self):
        """The tokens of the next line that has some."""
        if not self.pass_blanks():
            raise Fault('FewLines', found=self.found)
        self.line += 1
        self.found += 1
        return self.lines[self.line - 1].split()

    def numbers(self, tokens):
        numbers = [number_of(token) for token in tokens]
        self.need(None not in numbers, 'BadNumber')
        return numbers

    def need_count(self, tokens, count):
        self.need(len(tokens) >= count, 'ShortLine')
        self.need(len(tokens) <= count, 'LongLine')

    def head(self):
        """The first line: how many gates and wires there are."""
        tokens = self.tokens()
        self.need_count(tokens, 2)
        sizes = self.numbers(tokens)
        self.need(max(sizes) <= MOST_READ, 'TooLarge')
        return sizes

    def widths(self, wires):
        """The widths of the second or of the third line."""
        tokens = self.tokens()
        [count] = self.numbers(tokens[:1])
        self.need(count <= MOST_READ_VALUES, 'TooLarge')
        self.need_count(tokens, count + 1)
        widths = self.numbers(tokens[1:])
        self.need(sum(widths) <= wires, 'HeaderWidths')
        return widths

    def gate(self):
        """The operation of a gate, the wires that it reads or its constant, and the wire that it sets."""
        tokens = self.tokens()
        self.need(len(tokens) >= 2, 'ShortLine')
        reads, sets = self.numbers(tokens[:2])
        self.need_count(tokens, reads + sets + 3)
        wires, operation = self.numbers(tokens[2:-1]), tokens[-1]
        self.need(operation in self.arities, 'UnknownOperation')
        self.need(reads == self.arities[operation] and sets == 1, 'WrongArity')
        self.need(operation != b'EQ' or wires[0] < 2**self.bits, 'BadConstant')
        return operation, wires[:-1], wires[-1]

    def add(self, new, operation, reads, sets):
        """Adds a gate, where 'new' has the new number of each wire that is set, and -1 for the others."""
        if operation != b'EQ':
            self.need(max(reads) < len(new) and sets < len(new), 'WireOutOfRange')
            reads = [new[wire] for wire in reads]
            self.need(min(reads) >= 0, 'ReadBeforeSet')
            known = reads[0] if operation == b'EQW' else None
        else:
            self.need(sets < len(new), 'WireOutOfRange')
            known = self.constants.setdefault(reads[0], len(self.operations))
            known = known if known < len(self.operations) else None
            reads = []
        self.need(new[sets] < 0, 'SetTwice')
        new[sets] = len(self.operations) if known is None else known
        if known is None:
            self.operations.append(self.names[operation])
            self.firsts.append(reads[0] if reads else -1)
            self.seconds.append(reads[1] if len(reads) > 1 else -1)

    def add_usual(self, new, most):
        """Adds the next gates, so many at most, as far as they stand in usual lines and have no fault."""
        first, lines, usual, names = self.line, self.lines, self.usual.fullmatch, self.names
        operations, firsts, seconds = self.operations, self.firsts, self.seconds
        for place in range(first, min(first + most, len(lines))):
            found = usual(lines[place])
            if not found:
                break
            one, two, sets, operation, only, sets_of_one, of_one = found.groups()
            try:
                one, two = new[int(one or only)], new[int(two or only)]
                sets = int(sets or sets_of_one)
                if one < 0 or two < 0 or new[sets] >= 0:
                    break
            except IndexError:
                break
            new[sets] = len(operations)
            operations.append(names[operation or of_one])
            firsts.append(one)
            seconds.append(two if operation else -1)
            self.line += 1
        self.found += self.line - first
        return self.line - first

    def circuit(self):
        """The whole circuit."""
        gates, count = self.head()
        inputs, outputs = self.widths(count), self.widths(count)
        new, width = array.array('i', [-1]) * count, sum(inputs)
        new[:width] = array.array('i', range(width))
        self.operations += [''] * width
        self.firsts, self.seconds = array.array('i', [-1]) * width, array.array('i', [-1]) * width
        left = gates
        while left := left - self.add_usual(new, left):
            self.add(new, *self.gate())
            left -= 1
        if self.pass_blanks():
            raise Fault('ExtraLine', line=self.line + 1)
        results = new[count - sum(outputs):]
        if -1 in results:
            raise Fault('OutputNotSet', wire=count - sum(outputs) + results.index(-1))
        constants = {wire: constant for constant, wire in self.constants.items()}
        return LargeCircuit(inputs, outputs, self.operations, self.firsts, self.seconds, constants, results, gates, count)


def read_circuit(data, bits, of_bits):
    """The circuit that the bytes stand for, of bits or of words of so many bits."""
    if of_bits and bits != 1:
        raise Fault('WrongRing', bits=bits)
    try:
        data.decode()
    except UnicodeDecodeError as error:
        raise Fault('NotUtf8', at=error.start) from None
    return Reader(data, bits, of_bits).circuit()
