"""What programs of whole numbers come to, by Python's own integers: a reading of their texts of its own, which has nothing of the program, and nothing of
examples/number_reader.py. It takes a text to be a program."""

import collections
import re

TOKEN = re.compile(r'[A-Za-z]\w*|\d+|[=!<>]+|[+*/%(),]', re.ASCII)

# A number, the most that it can be, and whether it stands in the text.
Number = collections.namedtuple('Number', 'value most written', defaults=[False])

# How tightly each operator between two operands binds.
STRENGTHS = {'or': 1, 'and': 2, **dict.fromkeys(['==', '!=', '<', '<=', '>', '>='], 4), '+': 5, **dict.fromkeys('*/%', 6)}

COMPUTE = {
    'or': lambda a, b: a != 0 or b != 0,
    'and': lambda a, b: a != 0 and b != 0,
    '==': lambda a, b: a == b,
    '!=': lambda a, b: a != b,
    '<': lambda a, b: a < b,
    '<=': lambda a, b: a <= b,
    '>': lambda a, b: a > b,
    '>=': lambda a, b: a >= b,
    '+': lambda a, b: a + b,
    '*': lambda a, b: a * b,
    '/': lambda a, b: a // b if b else 0,
    '%': lambda a, b: a % b if b else a,
}


def most_of(sign, a, b):
    """The most that an operator comes to."""
    if sign in '+*':
        return COMPUTE[sign](a.most, b.most)
    if sign == '%' and b.written and b.value:
        return min(a.most, b.value - 1)
    return a.most if sign in '/%' else 1


def operand_in(tokens, of):
    """The operand that the tokens begin with; the last of the list comes first, and those that were read are taken off."""
    token = tokens.pop()
    if token == 'if':
        condition, first, second = (expression_in(tokens, of, ending) for ending in ('then', 'else', None))
        return Number((first if condition.value else second).value, max(first.most, second.most))
    if token == 'not':
        return Number(int(expression_in(tokens, of, None, 3).value == 0), 1)
    if token == '(':
        return expression_in(tokens, of, ')')
    if token in ('min', 'max'):
        tokens.pop()
        (a, its_most, _), (b, other_most, _) = (expression_in(tokens, of, ending) for ending in (',', ')'))
        return Number(min(a, b), min(its_most, other_most)) if token == 'min' else Number(max(a, b), max(its_most, other_most))
    return Number(int(token), int(token), True) if token.isdigit() else of[token]


def expression_in(tokens, of, ending=None, least=0):
    """The expression that the tokens begin with, of operators that bind at least so tightly, and the token that ends it, if there is one."""
    value = operand_in(tokens, of)
    while tokens and STRENGTHS.get(tokens[-1], -1) >= least:
        sign = tokens.pop()
        other = expression_in(tokens, of, None, STRENGTHS[sign] + 1)
        value = Number(int(COMPUTE[sign](value.value, other.value)), most_of(sign, value, other))
    if ending:
        tokens.pop()
    return value


def width_of(number):
    """How many bits a value has that can be so much."""
    return len(f'{number.most:b}')


def lines_of(data):
    """The tokens of each line that has some, the last one first."""
    for line in data.decode().split('\n'):
        tokens = TOKEN.findall(line.partition('#')[0])[::-1]
        if tokens:
            yield tokens


def input_widths(data):
    """The widths of a program's inputs."""
    return [int(tokens[0]) for tokens in lines_of(data) if tokens[-1] == 'input']


def outputs_of(data, inputs):
    """The outputs of a program, where its inputs have these values."""
    of, outputs, inputs = {}, [], iter(inputs)
    for tokens in lines_of(data):
        kind = tokens.pop()
        name = tokens.pop() if kind != 'output' else None
        if kind == 'input':
            of[name] = Number(next(inputs), 2**int(tokens[0]) - 1)
            continue
        if kind == 'let':
            tokens.pop()
            of[name] = expression_in(tokens, of)._replace(written=False)
        else:
            outputs.append(expression_in(tokens, of))
    return outputs
