"""Reads a program of whole numbers, line by line. docs/FORMATS.md has the language.

read(data, maker) gives the program's values, or raises a Fault with what 'mpc' says of the text: '8 TooWide line=3 at=9'. What the program
computes is left to the maker: each of its calls is given what it made of the operands before. So one reading serves circuits and widths.
"""

import collections
import io
import re

MOST_OPEN = 32
MOST_NAME = 16
MOST_WIDTH = 64
MOST = 2**64 - 1
FAULTS = ['NotUtf8', 'Syntax', 'UnknownName', 'BadConstant', 'TooDeep', 'TwiceNamed', 'TooLarge', 'TooWide', 'BadWidth']

# A word, a number, a run of the bytes of comparisons, or any other byte; blanks before it are passed over.
TOKEN = re.compile(rb'[ \t\r]*(?:([A-Za-z][A-Za-z0-9_]*)|([0-9]+)|([=!<>]+)|([^ \t\r]))')
WORDS = {b'input', b'let', b'output', b'if', b'then', b'else', b'or', b'and', b'not', b'min', b'max', b'signed'}
COMPARISONS = {b'==', b'!=', b'<', b'<=', b'>', b'>='}
SIGNS = {b'=', b'+', b'*', b'/', b'%', b'(', b',', b')', *COMPARISONS}

# A number up to 'most', as the maker has it; 'constant' is the number itself, where it is one of the text.
Value = collections.namedtuple('Value', 'most made constant', defaults=[None])

# The names and widths of a program's inputs, and its outputs.
Program = collections.namedtuple('Program', 'inputs outputs')

# The most that an operator makes of operands up to these.
BOUNDS = {b'+': lambda a, b: a + b, b'*': lambda a, b: a * b, b'/': lambda a, b: a, b'%': lambda a, b: a, b'min': min, b'max': max}


class Fault(Exception):
    """Why a text is no program."""

    def __init__(self, name, **keys):
        super().__init__(' '.join([str(1 + FAULTS.index(name)), name, *(f'{key}={value}' for key, value in keys.items())]))


class NothingMade:
    """Makes nothing of a program. Others have the same calls."""

    def input(self, width):
        """Makes an input value."""

    def number(self, number):
        """Makes a number of the text."""

    def operation(self, sign, *operands):
        """Makes what an operator does with its operands: 'not', 'if' (the condition first), 'min', 'max', or one between two. Each
        operand is a Value."""

    def fitted(self, made, most):
        """Makes of an operation's value one that is known to be so much at most."""
        return made


def bits_of(most):
    """How many bits a value has that is so much at most."""
    return max(most.bit_length(), 1)


def tokens_of(line):
    """The tokens of a line: what each is, its text, and its place. Last comes the line's end, or its comment."""
    line, at = line.partition(b'#')[0], 0
    while match := TOKEN.match(line, at):
        at = match.end()
        text = match[match.lastindex]
        if match[1]:
            kind = text if text in WORDS else b'name' if len(text) <= MOST_NAME else None
        else:
            kind = b'number' if match[2] else text if text in SIGNS else None
        yield kind, text, at - len(text)
    yield b'end', b'', len(line)


class Line:
    """A line with tokens, read from left to right. What isn't in the grammar is found at the first token that no line has there. What is computed goes
    to 'reader', operands first."""

    def __init__(self, number, tokens, reader):
        self.number, self.tokens, self.reader = number, tokens, reader
        self.kind, self.text, self.at = next(tokens)

    def fault(self, name):
        return Fault(name, line=self.number, at=self.at)

    def take(self, *kinds):
        """The token, which must be one of these, and goes on to the next."""
        if self.kind not in kinds:
            raise self.fault('Syntax')
        taken = self.kind, self.text, self.at
        self.kind, self.text, self.at = next(self.tokens, (b'end', b'', self.at))
        return taken

    def opened(self, signs):
        """How many signs are open with the token, which opens one more."""
        if signs == MOST_OPEN:
            raise self.fault('TooDeep')
        self.take(self.kind)
        return signs + 1

    def expression(self, signs=0):
        """An expression, where so many signs are open."""
        if self.kind != b'if':
            return self.chain(self.both, (b'or',), signs)
        signs = self.opened(signs)
        condition = self.expression(signs)
        self.take(b'then')
        first = self.expression(signs)
        self.take(b'else')
        return self.reader.operation(b'if', None, condition, first, self.expression(signs))

    def chain(self, operand, operators, signs):
        """Operands with these operators between them, the left ones first."""
        value = operand(signs)
        while self.kind in operators:
            sign, _, at = self.take(*operators)
            value = self.reader.operation(sign, at, value, operand(signs))
        return value

    def both(self, signs):
        return self.chain(self.inverse, (b'and',), signs)

    def inverse(self, signs):
        if self.kind != b'not':
            return self.comparison(signs)
        return self.reader.operation(b'not', None, self.inverse(self.opened(signs)))

    def comparison(self, signs):
        """Two sums with a comparison between them, or one sum: a comparison is no operand of another one."""
        value = self.sum(signs)
        if self.kind in COMPARISONS:
            sign, _, at = self.take(*COMPARISONS)
            value = self.reader.operation(sign, at, value, self.sum(signs))
        return value

    def sum(self, signs):
        return self.chain(self.product, (b'+',), signs)

    def product(self, signs):
        return self.chain(self.unary, (b'*', b'/', b'%'), signs)

    def unary(self, signs):
        if self.kind == b'(':
            return self.closed(self.expression(self.opened(signs)))
        if self.kind in (b'min', b'max'):
            sign, signs = self.kind, self.opened(signs)
            self.take(b'(')
            first = self.expression(signs)
            self.take(b',')
            return self.closed(self.reader.operation(sign, None, first, self.expression(signs)))
        kind, text, at = self.take(b'name', b'number')
        return self.reader.name(text, at) if kind == b'name' else self.reader.number(text, at)

    def closed(self, value):
        self.take(b')')
        return value


class Reader:
    """The lines so far. The first fault of a line's names, numbers and operators waits for the end of the line: a fault of the grammar comes first,
    wherever it stands."""

    def __init__(self, maker):
        self.maker, self.names, self.program = maker, {}, Program([], [])
        self.line, self.fault = 0, None

    def refuse(self, name, at):
        self.fault = self.fault or Fault(name, line=self.line, at=at)
        return Value(0, None)

    def name(self, text, at):
        return self.names[text] if text in self.names else self.refuse('UnknownName', at)

    def number(self, text, at):
        digits = text.lstrip(b'0') or b'0'
        if len(digits) > 20 or int(digits) > MOST:
            return self.refuse('BadConstant', at)
        return Value(int(digits), None if self.fault else self.maker.number(int(digits)), int(digits))

    def operation(self, sign, at, *operands):
        """The value of an operation. A rest is less than a number of the text by which is divided."""
        most = BOUNDS[sign](*(operand.most for operand in operands)) if sign in BOUNDS else 1
        if sign == b'if':
            most = max(operand.most for operand in operands[1:])
        if sign == b'%' and operands[1].constant:
            most = min(most, operands[1].constant - 1)
        if most > MOST:
            return self.refuse('TooWide', at)
        return Value(most, None if self.fault else self.maker.fitted(self.maker.operation(sign.decode(), *operands), most))

    def width(self, text, at):
        digits = text.lstrip(b'0') or b'0'
        width = int(digits) if len(digits) <= 2 else 0
        return width if 1 <= width <= MOST_WIDTH else self.refuse('BadWidth', at).most

    def add(self, number, tokens):
        """Adds a line."""
        self.line, line = number, Line(number, tokens, self)
        kind = line.take(b'input', b'let', b'output')[0]
        name = line.take(b'name')[1] if kind != b'output' else None
        if kind == b'input':
            width = self.width(*line.take(b'number')[1:])
        else:
            if name:
                line.take(b'=')
            value = line.expression()
        line.take(b'end')
        if self.fault:
            raise self.fault
        if name in self.names:
            raise Fault('TwiceNamed', line=number)
        if kind == b'input':
            self.program.inputs.append((name.decode(), width))
            value = Value(2**width - 1, self.maker.input(width))
        if kind == b'output':
            self.program.outputs.append(value)
        else:
            self.names[name] = value._replace(constant=None)


def read(data, maker=NothingMade()):
    """The program that the bytes stand for."""
    try:
        data.decode()
    except UnicodeDecodeError as error:
        raise Fault('NotUtf8', at=error.start) from None
    reader = Reader(maker)
    for number, line in enumerate(io.BytesIO(data), 1):
        line = line.removesuffix(b'\n')
        if line.partition(b'#')[0].strip(b' \t\r'):
            reader.add(number, tokens_of(line))
    return reader.program
