"""What the circuits, the expressions and the programs of a job come to in the clear, from the words that its parties give: a reading of the files of its
own, which has nothing of the program, and nothing of the readers of examples/."""

import json
import re

from number_programs import outputs_of, width_of

OPERATE = {
    'ADD': lambda x, y: x + y,
    'SUB': lambda x, y: x - y,
    'MUL': lambda x, y: x * y,
    'NEG': lambda x: -x,
    'XOR': lambda x, y: x + y,
    'AND': lambda x, y: x * y,
    'INV': lambda x: x + 1,
    'EQW': lambda x: x,
    'EQ': lambda constant: constant,
}


def fields(data):
    """The fields of a file's top table, and those of each session."""
    top, sessions = {}, []
    table = top
    for line in data.decode().splitlines():
        if line == '[[session]]':
            table = {}
            sessions.append(table)
        elif re.match(r'\w+ *= *[\["\d]', line):
            name, _, value = line.partition('=')
            table[name.strip()], _ = json.JSONDecoder().raw_decode(value.strip())
    return top, sessions


def circuit_of(data):
    """The widths of a circuit's input values and of its output values, and its gates: each an operation, its operands and its wire."""
    lines = [line.split() for line in data.decode().splitlines() if line.split()]
    gates = []
    for *numbers, operation in lines[3:]:
        count = int(numbers[0])
        gates.append((operation, [int(number) for number in numbers[2:2 + count]], int(numbers[2 + count])))
    return [int(width) for width in lines[1][1:]], [int(width) for width in lines[2][1:]], int(lines[0][1]), gates


def last_wires(circuit, words, bits, operate=OPERATE):
    """The words on the wires of a circuit's output values, where its input wires have these words."""
    _, outputs, count, gates = circuit
    wires = dict(enumerate(words))
    for operation, operands, output in gates:
        value = operate[operation](*(operands if operation == 'EQ' else (wires[wire] for wire in operands)))
        wires[output] = value % 2**bits
    return [wires[wire] for wire in range(count - sum(outputs), count)]


def unary_in(tokens, of, modulus):
    """The value of an operand that the tokens begin with; the last of the list comes first, and those that were read are taken off."""
    token = tokens.pop()
    if token == '-':
        return -unary_in(tokens, of, modulus)
    if token == '(':
        value = sum_in(tokens, of, modulus)
        tokens.pop()
        return value
    return int(token) if token.isdigit() else of[token]


def product_in(tokens, of, modulus):
    value = unary_in(tokens, of, modulus)
    while tokens and tokens[-1] == '*':
        tokens.pop()
        value = value * unary_in(tokens, of, modulus) % modulus
    return value


def sum_in(tokens, of, modulus):
    value = product_in(tokens, of, modulus)
    while tokens and tokens[-1] in ('+', '-'):
        sign = 1 if tokens.pop() == '+' else -1
        value = (value + sign * product_in(tokens, of, modulus)) % modulus
    return value


def expression_values(data, given, bits):
    """The words of the output lines of a text of expressions, where each input line takes the next word that its owner gives."""
    of, outputs, given = {}, [], iter(given)
    for line in data.decode().split('\n'):
        tokens = re.findall(r'[A-Za-z]\w*|\d+|[-=+*()]', line, re.ASCII)[::-1]
        kind = tokens.pop() if tokens else None
        name = tokens.pop() if kind in ('input', 'let') else None
        if kind == 'input':
            of[name] = int(next(next(given)))
        elif kind == 'let':
            tokens.pop()
            of[name] = sum_in(tokens, of, 2**bits) % 2**bits
        elif kind == 'output':
            outputs.append(sum_in(tokens, of, 2**bits) % 2**bits)
    return outputs


def number_of(bits):
    """The number that has these bits, least first."""
    return sum(bit << place for place, bit in enumerate(bits))


def bits_of(number, width):
    return [number >> place & 1 for place in range(width)]


def program_values(data, given):
    """The bits of the output values of a program of numbers, where each input takes the next number that its owner gives, or all the bits of a value that goes on."""
    inputs = [number_of(words) if carried else int(next(words)) for words, carried in given]
    return [bits_of(output.value, width_of(output)) for output in outputs_of(data, inputs)]


def values_of(data, layout, given, bits):
    """The words of each output value of a session's file, where each input value takes the next words of its owner, which is a party or a value that goes on."""
    if layout == 'numbers':
        return program_values(data, given)
    given = [words for words, _ in given]
    if layout == 'expr':
        return [[word] for word in expression_values(data, given, bits)]
    circuit = circuit_of(data)
    words = iter(last_wires(circuit, [int(next(owner)) for owner, width in zip(given, circuit[0]) for _ in range(width)], bits))
    return [[next(words) for _ in range(width)] for width in circuit[1]]


def words_from(owner, words, earlier):
    """The words of an input value, those that a party gives, or an output value of one of the earlier sessions; and whether it is that."""
    if not owner.startswith('@'):
        return words[owner], False
    session, _, value = owner[1:].partition('.')
    return iter(earlier[int(session)][int(value)]), True


def out_in_the_clear(files):
    """What a run over these files, by their names, is to write."""
    top, sessions = fields(files['job.toml'])
    inputs = {name: fields(files[f'party_{name}.toml'])[0]['inputs'] for name in top['parties']}
    out, earlier = '', []
    for number, session in enumerate(sessions):
        words = {name: iter(texts[number].split()) for name, texts in inputs.items()}
        given = [words_from(owner, words, earlier) for owner in session['owners']]
        earlier.append(values_of(files[session['circuit']], session['layout'], given, top['ring_bits']))
        for value, (its_words, readers) in enumerate(zip(earlier[-1], session['readers'])):
            text = ''.join(f' {word}' for word in ([number_of(its_words)] if session['layout'] == 'numbers' else its_words))
            out += ''.join(f'out {number} {value} {name}{text}\n' for name in top['parties'] if name in readers)
    return out
