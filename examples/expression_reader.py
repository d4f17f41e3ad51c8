"""Reads a text of expressions, and makes the circuit that it stands for, in the layout 'ring'. docs/FORMATS.md has the language.

compiled(data, bits) gives the circuit's file, or raises a Fault with what 'mpc' says of the text: '3 UnknownName line=1 at=7'.
"""

import io
import itertools
import re

from circuits import MOST_GATES, file_text
from job_folder import MOST_VALUES, Refusal

MOST_OPEN = 32
MOST_NAME = 16
MOST_BITS = 64
FAULTS = ['NotUtf8', 'Syntax', 'UnknownName', 'BadConstant', 'TooDeep', 'TwiceNamed', 'TooLarge']

# A word, a number, or any other byte; blanks before it are passed over.
TOKEN = re.compile(rb'[ \t\r]*(?:([A-Za-z][A-Za-z0-9_]*)|([0-9]+)|([^ \t\r]))')
WORDS = (b'input', b'let', b'output')
SIGNS = (b'=', b'+', b'-', b'*', b'(', b')')

# The operation of each sign between two operands. A minus before an operand is NEG.
OPERATIONS = {b'+': 'ADD', b'-': 'SUB', b'*': 'MUL'}
STRENGTHS = {'ADD': 1, 'SUB': 1, 'MUL': 2, 'NEG': 3}
OPEN = '('


class Fault(Refusal):
    """Why a text is no program."""

    def __init__(self, name, **keys):
        super().__init__(' '.join([str(1 + FAULTS.index(name)), name, *(f'{key}={value}' for key, value in keys.items())]))


def tokens_of(line):
    """The tokens of a line: what each is, its text, and its place. Last comes the line's end."""
    at = 0
    while match := TOKEN.match(line, at):
        at = match.end()
        text = match[match.lastindex]
        if match[1]:
            kind = text if text in WORDS else b'name' if len(text) <= MOST_NAME else None
        else:
            kind = b'number' if match[2] else text if text in SIGNS else None
        yield kind, text, at - len(text)
    yield b'end', b'', len(line)


class Line:
    """A line with tokens, read from left to right: the first of them says what it is, and then come a name, an expression, or both. The
    names, numbers and operations of an expression go to 'use', each after its operands. What isn't in the grammar is found at the first
    token that no line has there."""

    def __init__(self, number, line, use):
        self.number, self.tokens, self.use = number, tokens_of(line), use
        self.kind = self.take(*WORDS)[0]
        self.name = self.take(b'name')[1] if self.kind != b'output' else None
        if self.kind == b'let':
            self.take(b'=')
        if self.kind == b'input':
            self.take(b'end')
        else:
            self.read_expression()

    def take(self, *kinds):
        """The next token, which must be one of these."""
        token = next(self.tokens)
        if token[0] not in kinds:
            raise Fault('Syntax', line=self.number, at=token[2])
        return token

    def read_expression(self):
        """Reads to the end of the line. 'signs' are those whose last operand hasn't ended, as operations, and open parentheses."""
        signs = []
        while True:
            kind, text, at = self.take(b'name', b'number', b'-', b'(')
            if kind in (b'-', b'('):
                signs.append('NEG' if kind == b'-' else OPEN)
                if sum(sign in ('NEG', OPEN) for sign in signs) > MOST_OPEN:
                    raise Fault('TooDeep', line=self.number, at=at)
            else:
                self.use(kind.decode(), text, at)
                if self.read_operator(signs) == b'end':
                    return

    def read_operator(self, signs):
        """Reads what follows an operand: parentheses that close, and then an operator or the end of the line."""
        while True:
            self.close(signs, STRENGTHS['NEG'])
            inside = OPEN in signs
            kind = self.take(*OPERATIONS, b')' if inside else b'end')[0]
            if kind in OPERATIONS:
                self.close(signs, STRENGTHS[OPERATIONS[kind]])
                signs.append(OPERATIONS[kind])
                return kind
            self.close(signs, 0)
            if kind == b'end':
                return kind
            signs.pop()

    def close(self, signs, least):
        """Ends the operations that bind as strongly, back to a parenthesis."""
        while signs and signs[-1] != OPEN and STRENGTHS[signs[-1]] >= least:
            self.use(signs.pop())


class Program:
    """What the lines so far have made. Wire i is the input i, and wire ~g that of gate g, since the inputs aren't counted before the last
    line. Past a limit gates and outputs are counted, and no longer kept. The first fault of a line's names and numbers waits for the end of
    the line: a fault of the grammar comes first, wherever it stands."""

    def __init__(self, bits):
        self.bits = bits
        self.names = {}
        self.inputs = self.outputs = self.count = 0
        self.gates, self.output_wires = [], []
        self.number, self.wires, self.fault = 0, [], None

    def gate(self, operation, *operands):
        if self.count <= MOST_GATES:
            self.gates.append((operation, operands))
        self.count += 1
        return -self.count

    def refuse(self, name, at):
        self.fault = self.fault or Fault(name, line=self.number, at=at)
        return 0

    def wire(self, kind, text, at):
        """The wire of a name, a number or an operation. Those of its operands are the last ones, and are taken off."""
        if kind == 'name':
            return self.names[text] if text in self.names else self.refuse('UnknownName', at)
        if kind == 'number':
            digits = text.lstrip(b'0') or b'0'
            fits = len(digits) <= 20 and int(digits) < 2**self.bits
            return self.gate('EQ', int(digits)) if fits else self.refuse('BadConstant', at)
        last = self.wires.pop()
        return self.gate(kind, last) if kind == 'NEG' else self.gate(kind, self.wires.pop(), last)

    def use(self, kind, text=b'', at=0):
        self.wires.append(self.wire(kind, text, at))

    def add(self, number, data):
        """Adds a line."""
        self.number, self.wires = number, []
        line = Line(number, data, self.use)
        if self.fault:
            raise self.fault
        if line.name in self.names:
            raise Fault('TwiceNamed', line=number)
        if line.kind == b'output':
            self.output_wires += self.wires[:self.outputs <= MOST_VALUES]
            self.outputs += 1
        else:
            self.names[line.name] = self.wires.pop() if self.wires else self.inputs
            self.inputs += line.kind == b'input'

    def text(self):
        """The file of the circuit, which ends with a copy of each output."""
        if max(self.inputs, self.outputs) > MOST_VALUES or self.count + self.outputs > MOST_GATES:
            raise Fault('TooLarge')
        lines = []
        for operation, operands in itertools.chain(self.gates, (('EQW', (wire,)) for wire in self.output_wires)):
            if operation != 'EQ':
                operands = [wire if wire >= 0 else self.inputs + ~wire for wire in operands]
            lines.append(f'{len(operands)} 1 {" ".join(map(str, operands))} {self.inputs + len(lines)} {operation}')
        return file_text([1] * self.inputs, [1] * self.outputs, lines)


def compiled(data, bits):
    """The file of the circuit that the bytes stand for."""
    try:
        data.decode()
    except UnicodeDecodeError as error:
        raise Fault('NotUtf8', at=error.start) from None
    program = Program(bits)
    for number, line in enumerate(io.BytesIO(data), 1):
        line = line.removesuffix(b'\n')
        if line.strip(b' \t\r'):
            program.add(number, line)
    return program.text()
