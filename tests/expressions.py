"""Sessions whose files are expressions, accepted and refused."""

import json

from accepted_runs import COUNTS_OF_A_PRODUCT
from product import CHECK, Edit, RUN, Row, SEED, SESSION, TAPE_A, TAPE_B, TAPE_C, VERSION_2, Whole, Without

EXPR = [*VERSION_2, Edit('job.toml', '"ring"', '"expr"')]

SEEDS = [Edit('party_a.toml', TAPE_A, SEED), Edit('party_b.toml', TAPE_B, SEED.replace('0', '1')), Edit('party_c.toml', TAPE_C, SEED.replace('0', '2'))]

# The square of a sum, less 3: of a's 5 and b's 7.
SQUARE_OF_A_SUM = b'input x\ninput y\nlet s = x + y\noutput s * s - 3\n'

CIRCUIT_OF_IT = b'5 7\n2 1 1\n1 1\n2 1 0 1 2 ADD\n2 1 2 2 3 MUL\n1 1 3 4 EQ\n2 1 3 4 5 SUB\n1 1 5 6 EQW\n'

# What c sees of the square: x + y in summands 40, 60 and 168, whose products are 16 for a, and 192 for b and for c each; 3 is taken from summand 0.
SEEN_BY_C = ('out 0 0 c 141\n'
             'view c\n'
             '0 0 0 a c 10\n'
             '0 0 1 a c 20\n'
             '0 1 0 b c 30\n'
             '0 1 1 b c 40\n'
             '0 3 0 a c 1\n'
             '0 3 1 a c 2\n'
             '0 3 0 b c 3\n'
             '0 3 1 b c 4\n'
             '0 3 0 c b 5\n'
             '0 3 1 c a 6\n'
             '0 3 2 c a 181\n'
             '0 3 2 c b 181\n'
             '0 7 2 a c 123\n')

# The product of -5 and 7, where a gives 5, and then 5. b gives nothing, and draws two words.
NEGATIVES = b'let a=7\r\ninput x\r\noutput -x*--a\r\noutput x'

CIRCUIT_OF_NEGATIVES = (b'7 8\n1 1\n2 1 1\n1 1 7 1 EQ\n1 1 0 2 NEG\n1 1 1 3 NEG\n1 1 3 4 NEG\n2 1 2 4 5 MUL\n'
                        b'1 1 5 6 EQW\n1 1 0 7 EQW\n')

WITHOUT_B = [Edit('job.toml', '["a", "b"]', '["a"]'), Edit('job.toml', '[["c"]]', '[["c"], ["c"]]'), Edit('party_b.toml', '"7"', '""'),
             Edit('party_b.toml', '30 40 3 4', '3 4')]

# What c sees of them: -x in summands 246, 236 and 25, and 7 in summand 0 alone. Of their products 0 is a's, 105 b's and 116 c's.
NEGATIVES_SEEN_BY_C = ('out 0 0 c 221\n'
                       'out 0 1 c 5\n'
                       'view c\n'
                       '0 0 0 a c 10\n'
                       '0 0 1 a c 20\n'
                       '0 5 0 a c 1\n'
                       '0 5 1 a c 2\n'
                       '0 5 0 b c 3\n'
                       '0 5 1 b c 4\n'
                       '0 5 0 c b 5\n'
                       '0 5 1 c a 6\n'
                       '0 5 2 c a 105\n'
                       '0 5 2 c b 105\n'
                       '0 8 2 a c 200\n'
                       '0 9 2 a c 231\n')

# The largest word of 64 bits, which stands in summand 0; and nothing.
LARGEST = b' \t\r\n\noutput 000018446744073709551615'

CIRCUIT_OF_LARGEST = b'2 2\n0\n1 1\n1 1 18446744073709551615 0 EQ\n1 1 0 1 EQW\n'

LARGEST_SEEN_BY_C = 'out 0 0 c 18446744073709551615\nview c\n0 2 2 a c 0\n'

NOBODY = [Edit('job.toml', '["a", "b"]', '[]'), Edit('party_a.toml', '"5"', '""'), Edit('party_b.toml', '"7"', '""')]


def counts(gates, products, messages, words):
    """What the check writes of a session of three parties of which none alone must learn anything."""
    drawn = ''.join(f'words {name} {count}\n' for name, count in zip('abc', words))
    session = f'session 0 gates {gates} products {products} messages {messages}\n'
    return f'{COUNTS_OF_A_PRODUCT.partition("session")[0]}{session}{drawn}messages {messages}\n'


def worked(name, text, circuit, seen, counted, changes=()):
    """A text of expressions, and the circuit that it stands for, which come to the same."""
    for form, layout, data in [(name, EXPR, text), (f'the_circuit_of_{name}', VERSION_2, circuit)]:
        files = [*layout, *changes, Whole('mul.txt', data)]
        yield Row(form, RUN, files, out=seen.partition('view')[0])
        yield Row(f'view_of_{form}', ['run', 'd', '--view', 'c'], files, out=seen)
        yield Row(f'check_of_{form}', CHECK, files, out=counted)


WORKED = [
    *worked('expressions', SQUARE_OF_A_SUM, CIRCUIT_OF_IT, SEEN_BY_C, counts(5, 1, 21, [4, 4, 2])),
    *worked('negatives', NEGATIVES, CIRCUIT_OF_NEGATIVES, NEGATIVES_SEEN_BY_C, counts(7, 1, 18, [4, 2, 2]), WITHOUT_B),
    *worked('the_largest_word', LARGEST, CIRCUIT_OF_LARGEST, LARGEST_SEEN_BY_C, counts(2, 0, 1, [0, 0, 0]), [*NOBODY, Edit('job.toml', '8', '64')]),
    *worked('no_expressions', b'', b'0 0\n0\n0\n', 'view c\n', counts(0, 0, 0, [0, 0, 0]), [*NOBODY, Edit('job.toml', '[["c"]]', '[]')]),
]


def lines_for_c(words):
    return ''.join(f'out 0 {value} c {word}\n' for value, word in enumerate(words))


def ran(name, text, words, changes=()):
    """A run whose outputs, which c reads, are these words. a gives 5 and b 7, unless that is changed."""
    changes = [*EXPR, *SEEDS, Edit('job.toml', '[["c"]]', json.dumps(len(words) * [['c']])), *changes, Whole('mul.txt', text)]
    return Row(name, RUN, changes, out=lines_for_c(words))


def of_bits(bits, x, y):
    return [Edit('job.toml', '8', str(bits)), Edit('party_a.toml', '"5"', f'"{x}"'), Edit('party_b.toml', '"7"', f'"{y}"')]


XY = b'input x\ninput y\n'

# Single expressions over x, which is 5, and y, which is 7, and their values modulo 256.
SINGLE = [
    (b'2 + 3 * x', 17), (b'2 * 3 + x', 11), (b'(2 + 3) * x', 25), (b'2 * (3 + x)', 16), (b'10 - 3 - 2', 5), (b'10 - (3 - 2)', 9), (b'10 - 3 + 2', 9),
    (b'x - y', 254), (b'y - x', 2), (b'-x * y', 221), (b'-(x * y)', 221), (b'-x + y', 2), (b'-(x + y)', 244), (b'--x', 5), (b'x--y', 12), (b'x - - - y', 254),
    (b'2*-x', 246), (b'-x*-y', 35), (b'x*y*x*y', 201), (b'x*(y*(x*y))', 201), (b'255 + 1', 0), (b'0 - 255', 1), (b'255 * 255', 1), (b'000255', 255),
    (b'0', 0), (b'00', 0), (b'x', 5), (b'((((x))))', 5), (b'\tx\t+\ty\t', 12), (b'x\r+\ry', 12), (b'x+y-(x-y)*(x+y)', 36), (1000 * b'0' + b'7', 7),
    (32 * b'-' + b'1 - 1 - (1)', 255),
    (32 * b'-' + b'x', 5), (31 * b'-' + b'x', 251), (32 * b'(' + b'x' + 32 * b')', 5), (16 * b'(-' + b'x' + 16 * b')', 5), (32 * b'-' + b'x' + 40 * b' - 1' + b'-(y)', 214),
    (40 * b'(x)*' + b'-' + 31 * b'(' + b'y' + 31 * b')', -7 * 5**40 % 256), (31 * b'-' + b'(x) * ' + 32 * b'-' + b'y', 221), (b'(' * 31 + b'-x' + b')' * 31 + b'*-(-(y))', 221),
]

ACCEPTED_TEXTS = [
    ran('no_line_feed_at_its_end', XY + b'output x - y', [254]),
    ran('lines_that_end_with_cr_lf', SQUARE_OF_A_SUM.replace(b'\n', b'\r\n'), [141]),
    ran('no_blanks', b'input x\ninput y\nlet s=x+y\noutput(s*s-3)\noutput-s', [141, 244]),
    ran('blanks_everywhere', b'\r\n \tinput\tx \r\n\n\n\tinput \r y\t\n let  s\t=\r x  + y\n\n  output\ts * s - 3  \n \t\r\n', [141]),
    ran('an_input_line_after_gates', b'let a = 7\ninput x\noutput -x * a\ninput y\noutput y - x', [221, 2]),
    ran('an_unused_input', XY + b'output y\n', [7]),
    ran('operators_of_whole_numbers_are_names', b'input if\ninput then\nlet min = if - then\nlet not = min * min\nlet or = -not\noutput not\noutput or\noutput min', [4, 252, 254]),
    ran('no_output_line', XY, []),
    ran('an_unused_name', XY + b'let s = x * y\noutput x\n', [5]),
    ran('an_output_twice', XY + b'output x\noutput x\noutput 3\noutput x\n', [5, 5, 3, 5]),
    ran('names_of_names', XY + b'let a = x\nlet b = a\nlet c = b * b\noutput c + a\n', [30]),
    ran('names_that_begin_with_words', b'input inputs\ninput output1\nlet lets = inputs - output1\nlet let_ = lets\nlet Let = 2\noutput let_ * Let', [252]),
    ran('names_of_16_bytes', b'input abcdefghijklmno1\ninput abcdefghijklmno2\nlet a_______________ = abcdefghijklmno1\nlet A = 1\nlet a = 2\n'
        b'output abcdefghijklmno2 - a_______________ + A - a', [1]),
    ran('no_lines', b'', [], NOBODY),
    ran('blank_lines_alone', b' \t\r\n\n', [], NOBODY),
    ran('constants_alone', b'let a = 250\noutput a + 10\noutput a', [4, 250], NOBODY),
    ran('bits', XY + b'output x + y\noutput x * y\noutput x - y\noutput -x\noutput 1 + x\noutput 1', [0, 1, 0, 1, 0, 1], of_bits(1, 1, 1)),
    ran('words_of_64_bits', XY + b'output x * y\noutput x + y\noutput x - y\noutput 18446744073709551615 - x\noutput -y * 18446744073709551615',
        [(2**64 - 1) * (2**63 + 5) % 2**64, 2**63 + 4, 2**63 - 6, 0, 2**63 + 5], of_bits(64, 2**64 - 1, 2**63 + 5)),
    ran('words_of_33_bits', XY + b'output x * y + 8589934591\noutput -x', [(8589934591 * 123456789 + 8589934591) % 2**33, 1], of_bits(33, 2**33 - 1, 123456789)),
    ran('as_many_gates_as_there_may_be', XY + b'output x' + 65_535 * b'+y', [254]),
    ran('many_brackets', XY + b'output ' + 9_000 * b'(x)+-(y)-' + b'1', [(5 - 8_999 * 5 - 9_000 * 7 - 1) % 256]),
]


def many_values():
    """1,024 inputs of a, and as many outputs, of which one is their sum."""
    lines = [f'input i{number}' for number in range(1024)]
    lines += [*(f'output i{number}' for number in range(1023)), 'output ' + ' + '.join(f'i{number}' for number in range(1024))]
    words = [number * 7 % 256 for number in range(1024)]
    changes = [Edit('job.toml', '["a", "b"]', json.dumps(1024 * ['a'])), Edit('party_a.toml', '"5"', f'"{" ".join(map(str, words))}"'),
               Edit('party_b.toml', '"7"', '""')]
    return ran('as_many_values_as_there_may_be', '\n'.join(lines).encode(), [*words[:1023], sum(words) % 256], changes)


# The faults of texts in a ring of 8 bits: the first one, and its place.
FAULTY = [
    (b'output 1 # \xff', '1 NotUtf8', 'at=11'),
    (b'input x\noutput x\n\xc3', '1 NotUtf8', 'at=17'),
    (b'output x\n\xc0\x80', '1 NotUtf8', 'at=9'),
    (b'\xed\xa0\x80', '1 NotUtf8', 'at=0'),
    # What a line begins with.
    (b'x', '2 Syntax', 'line=1 at=0'),
    (b'5', '2 Syntax', 'line=1 at=0'),
    (b'= 5', '2 Syntax', 'line=1 at=0'),
    (b'(output 1)', '2 Syntax', 'line=1 at=0'),
    (b'Output 1', '2 Syntax', 'line=1 at=0'),
    (b'output1', '2 Syntax', 'line=1 at=0'),
    (b'  outputs 1', '2 Syntax', 'line=1 at=2'),
    (b'# a sum', '2 Syntax', 'line=1 at=0'),
    (b'\xef\xbb\xbfinput x', '2 Syntax', 'line=1 at=0'),
    # Where it ends.
    (b'input', '2 Syntax', 'line=1 at=5'),
    (b'input \t', '2 Syntax', 'line=1 at=7'),
    (b'let', '2 Syntax', 'line=1 at=3'),
    (b'let x', '2 Syntax', 'line=1 at=5'),
    (b'let x =', '2 Syntax', 'line=1 at=7'),
    (b'output', '2 Syntax', 'line=1 at=6'),
    (b'output\r\n', '2 Syntax', 'line=1 at=7'),
    (b'output 1 + \r\noutput 1', '2 Syntax', 'line=1 at=12'),
    (b'output 1 +\n2', '2 Syntax', 'line=1 at=10'),
    (b'output (1\n+ 1)', '2 Syntax', 'line=1 at=9'),
    (b'output (1', '2 Syntax', 'line=1 at=9'),
    (b'output -', '2 Syntax', 'line=1 at=8'),
    # A name and what follows it.
    (b'input let', '2 Syntax', 'line=1 at=6'),
    (b'input 5', '2 Syntax', 'line=1 at=6'),
    (b'input _x', '2 Syntax', 'line=1 at=6'),
    (b'input \xc3\xa9', '2 Syntax', 'line=1 at=6'),
    (b'input x\xc3\xa9', '2 Syntax', 'line=1 at=7'),
    (b'input x y', '2 Syntax', 'line=1 at=8'),
    (b'input x = 5', '2 Syntax', 'line=1 at=8'),
    (b'input a-b', '2 Syntax', 'line=1 at=7'),
    (b'input x\routput x', '2 Syntax', 'line=1 at=8'),
    (b'let = 5', '2 Syntax', 'line=1 at=4'),
    (b'let let = 5', '2 Syntax', 'line=1 at=4'),
    (b'let x + 1', '2 Syntax', 'line=1 at=6'),
    (b'let x == 5', '2 Syntax', 'line=1 at=7'),
    (b'input abcdefghijklmnopq', '2 Syntax', 'line=1 at=6'),
    (b'\ninput abcdefghijklmnopq', '2 Syntax', 'line=2 at=6'),
    (b'let abcdefghijklmnopq = 1', '2 Syntax', 'line=1 at=4'),
    (b'output 1 + abcdefghijklmnopq', '2 Syntax', 'line=1 at=11'),
    (b'output ' + 1_000_000 * b'a', '2 Syntax', 'line=1 at=7'),
    # Expressions.
    (b'output ()', '2 Syntax', 'line=1 at=8'),
    (b'output 1)', '2 Syntax', 'line=1 at=8'),
    (b'output (1))', '2 Syntax', 'line=1 at=10'),
    (b'output + 1', '2 Syntax', 'line=1 at=7'),
    (b'output 2 * * 3', '2 Syntax', 'line=1 at=11'),
    (b'output 2 - + 3', '2 Syntax', 'line=1 at=11'),
    (b'output 1 / 2', '2 Syntax', 'line=1 at=9'),
    (b'output 2 ^ 3', '2 Syntax', 'line=1 at=9'),
    (b'output 1 # one', '2 Syntax', 'line=1 at=9'),
    (b'output 1 2', '2 Syntax', 'line=1 at=9'),
    (b'output 2 (3)', '2 Syntax', 'line=1 at=9'),
    (b'output (2)(3)', '2 Syntax', 'line=1 at=10'),
    (b'output 2x', '2 Syntax', 'line=1 at=8'),
    (b'output 0x10', '2 Syntax', 'line=1 at=8'),
    (b'output 1.5', '2 Syntax', 'line=1 at=8'),
    (b'output 1 = 1', '2 Syntax', 'line=1 at=9'),
    # What only whole numbers have.
    (b'output 1 == 1', '2 Syntax', 'line=1 at=9'),
    (b'output 1 < 2', '2 Syntax', 'line=1 at=9'),
    (b'output 1 % 2', '2 Syntax', 'line=1 at=9'),
    (b'output 1 and 2', '2 Syntax', 'line=1 at=9'),
    (b'output not 1', '2 Syntax', 'line=1 at=11'),
    (b'output (1, 2)', '2 Syntax', 'line=1 at=9'),
    (b'output min(1, 2)', '2 Syntax', 'line=1 at=10'),
    (b'output if 1 then 2 else 3', '2 Syntax', 'line=1 at=10'),
    (b'input x 8', '2 Syntax', 'line=1 at=8'),
    # Words and blanks.
    (b'output input', '2 Syntax', 'line=1 at=7'),
    (b'output 1 + let', '2 Syntax', 'line=1 at=11'),
    (b'output\xc2\xa01', '2 Syntax', 'line=1 at=6'),
    (b'output\x0b1', '2 Syntax', 'line=1 at=6'),
    (b'output 1\x0c', '2 Syntax', 'line=1 at=8'),
    (b'output 1\0', '2 Syntax', 'line=1 at=8'),
    (b'output x x', '2 Syntax', 'line=1 at=9'),
    (b'output 256 +', '2 Syntax', 'line=1 at=12'),
    (b'input x\nlet x = x +', '2 Syntax', 'line=2 at=11'),
    (b'\n\n \t\r\noutput', '2 Syntax', 'line=4 at=6'),
    (1_000_000 * b'\n' + b'x', '2 Syntax', 'line=1000001 at=0'),
    # Names that aren't known.
    (b'output x', '3 UnknownName', 'line=1 at=7'),
    (b'output x\ninput x', '3 UnknownName', 'line=1 at=7'),
    (b'let x = x', '3 UnknownName', 'line=1 at=8'),
    (b'let y = x\nlet x = 1', '3 UnknownName', 'line=1 at=8'),
    (b'input x\noutput X', '3 UnknownName', 'line=2 at=7'),
    (b'input x\nlet x = y', '3 UnknownName', 'line=2 at=8'),
    (b'input x\nlet x = y\noutput (', '3 UnknownName', 'line=2 at=8'),
    (b'output (1 + -(y))', '3 UnknownName', 'line=1 at=14'),
    (b'output x + 256', '3 UnknownName', 'line=1 at=7'),
    (b'input abcdefghijklmno1\noutput abcdefghijklmno2', '3 UnknownName', 'line=2 at=7'),
    # Numbers that aren't in the ring.
    (b'output 256', '4 BadConstant', 'line=1 at=7'),
    (b'output 000256', '4 BadConstant', 'line=1 at=7'),
    (b'output 255 + 256 + 257', '4 BadConstant', 'line=1 at=13'),
    (b'output 256 + x', '4 BadConstant', 'line=1 at=7'),
    (b'output -256', '4 BadConstant', 'line=1 at=8'),
    (b'input x\nlet x = 256', '4 BadConstant', 'line=2 at=8'),
    (b'output ' + 1_000 * b'9', '4 BadConstant', 'line=1 at=7'),
    (b'output ' + 1_000_000 * b'1', '4 BadConstant', 'line=1 at=7'),
    (b'output 18446744073709551616', '4 BadConstant', 'line=1 at=7'),
    # Open signs.
    (b'output ' + 33 * b'(', '5 TooDeep', 'line=1 at=39'),
    (b'output ' + 33 * b'(' + b')', '5 TooDeep', 'line=1 at=39'),
    (b'output ' + 33 * b'(' + b'1' + 33 * b')', '5 TooDeep', 'line=1 at=39'),
    (b'output ' + 33 * b'-' + b'1', '5 TooDeep', 'line=1 at=39'),
    (b'output ' + 40 * b'-', '5 TooDeep', 'line=1 at=39'),
    (b'output ' + 32 * b'-' + b'(1)', '5 TooDeep', 'line=1 at=39'),
    (b'output ' + 16 * b'(-' + b'-1', '5 TooDeep', 'line=1 at=39'),
    (b'output ' + 1_000_000 * b'-' + b'x', '5 TooDeep', 'line=1 at=39'),
    (b'output ' + 1_000_000 * b'(', '5 TooDeep', 'line=1 at=39'),
    (b'let x = ' + 1_000_000 * b'(1+', '5 TooDeep', 'line=1 at=104'),
    (b'output ' + 32 * b'(' + b'1' + 32 * b')' + b'+' + 33 * b'(', '5 TooDeep', 'line=1 at=105'),
    (b'output x + ' + 33 * b'-' + b'1', '5 TooDeep', 'line=1 at=43'),
    (b'output ' + 33 * b'-' + b'1\noutput', '5 TooDeep', 'line=1 at=39'),
    (b'output ' + 32 * b'(' + b')', '2 Syntax', 'line=1 at=39'),
    (b'output ' + 32 * b'-', '2 Syntax', 'line=1 at=39'),
    (b'output ' + 32 * b'-' + b'1 (', '2 Syntax', 'line=1 at=41'),
    # Names that are given twice.
    (b'input x\ninput x', '6 TwiceNamed', 'line=2'),
    (b'input x\nlet x = 1', '6 TwiceNamed', 'line=2'),
    (b'let x = 1\nlet x = x', '6 TwiceNamed', 'line=2'),
    (b'let x = 1\n\ninput x\noutput y', '6 TwiceNamed', 'line=3'),
    (b'input x\ninput x\noutput', '6 TwiceNamed', 'line=2'),
    (b'input x\nlet x = 1\noutput (', '6 TwiceNamed', 'line=2'),
]


def many(kind, count):
    """The number of lines of a kind."""
    return b''.join(b'%s i%d\n' % (kind, number) for number in range(count))


# Limits of the circuit, after the last line.
LARGE = [
    (XY + b'output x' + 65_536 * b'+y', '7 TooLarge', ''),
    (XY + b'let s = x' + 65_537 * b'*y', '7 TooLarge', ''),
    (XY + b'let s = x' + 65_536 * b'*y' + b'\noutput s', '7 TooLarge', ''),
    (XY + b'output ' + 32_768 * b'1+' + b'1', '7 TooLarge', ''),
    (b'input x\n' + 65_536 * b'output x\n', '7 TooLarge', ''),
    (many(b'input', 1_025), '7 TooLarge', ''),
    (b'input i0\n' + 1_025 * b'output i0\n', '7 TooLarge', ''),
    (b'input x\n' + 1_025 * b'output x\n' + b'output y', '3 UnknownName', 'line=1027 at=7'),
    (XY + b'output x' + 65_536 * b'+y' + b'\noutput z', '3 UnknownName', 'line=4 at=7'),
    (XY + b'output x' + 65_536 * b'+y' + b'\ninput x', '6 TwiceNamed', 'line=4'),
    (XY + b'output x' + 65_536 * b'+y' + b'+', '2 Syntax', f'line=3 at={8 + 2 * 65_536 + 1}'),
    (XY + b'output x' + 65_536 * b'+y' + b'+z', '3 UnknownName', f'line=3 at={8 + 2 * 65_536 + 1}'),
    (many(b'input', 1_025) + b'input i7', '6 TwiceNamed', 'line=1026'),
    (XY + b'output x' + 200_000 * b'+y', '7 TooLarge', ''),
]


def line_of(fault, place, session=0):
    return f'refused expr {fault} file=mul.txt session={session}{" " if place else ""}{place}\n'


def refused(text, fault, place, changes=()):
    return Row(f'{text[:60]!r}', CHECK, [*EXPR, *changes, Whole('mul.txt', text)], status=3, err=line_of(fault, place))


def counted(text, fault):
    """A text that is accepted, in a session with other owners or readers than it has values."""
    return Row(f'{text[:60]!r}', CHECK, [*EXPR, Whole('mul.txt', text)], status=3, err=f'refused session {fault}\n')


# The product in the first session, and expressions in the second.
AFTER_A_PRODUCT = [*VERSION_2, Edit('job.toml', SESSION, SESSION + SESSION.replace('"ring"', '"expr"'))]

OTHER_REFUSALS = [
    refused(b'output 2', '4 BadConstant', 'line=1 at=7', [Edit('job.toml', '8', '1')]),
    refused(b'output 18446744073709551616', '4 BadConstant', 'line=1 at=7', [Edit('job.toml', '8', '64')]),
    refused(b'output 8589934592', '4 BadConstant', 'line=1 at=7', [Edit('job.toml', '8', '33')]),
    counted(b'', '1 OwnersDiffer session=0 wanted=0 found=2'),
    counted(b'input x\noutput x\noutput x', '1 OwnersDiffer session=0 wanted=1 found=2'),
    counted(XY + b'let s = x' + 65_536 * b'*y', '2 ReadersDiffer session=0 wanted=0 found=1'),
    counted(XY, '2 ReadersDiffer session=0 wanted=0 found=1'),
    counted(XY + b'output x\noutput x', '2 ReadersDiffer session=0 wanted=2 found=1'),
    counted(many(b'input', 1_024), '1 OwnersDiffer session=0 wanted=1024 found=2'),
    counted(XY + 1_024 * b'output x\n', '2 ReadersDiffer session=0 wanted=1024 found=1'),
    Row('expressions_in_version_1', RUN, [Edit('job.toml', '"ring"', '"expr"'), Whole('mul.txt', SQUARE_OF_A_SUM)], status=3,
        err='refused job 11 BadLayout session=0\n'),
    Row('another_layout_in_version_2', RUN, [*VERSION_2, Edit('job.toml', '"ring"', '"Expr"')], status=3, err='refused job 11 BadLayout session=0\n'),
    Row('a_circuit_as_expressions', RUN, EXPR, status=3, err=line_of('2 Syntax', 'line=1 at=0')),
    Row('expressions_as_a_circuit', RUN, [*VERSION_2, Whole('mul.txt', SQUARE_OF_A_SUM)], status=3,
        err='refused circuit 2 BadNumber file=mul.txt session=0 line=1\n'),
    Row('no_file_of_expressions', RUN, [*EXPR, Without('mul.txt')], status=5, err='fault files file=mul.txt\n'),
    Row('expressions_past_the_limit', RUN, [*EXPR, Whole('mul.txt', 16_777_217 * b'\n')], status=3,
        err='refused files 1 TooLong file=mul.txt limit=16777216\n'),
    Row('a_circuit_as_expressions_in_the_second_session', CHECK, AFTER_A_PRODUCT, status=3, err=line_of('2 Syntax', 'line=1 at=0', 1)),
    Row('expressions_before_their_owners', RUN, [*EXPR, Edit('job.toml', '["a", "b"]', '[]'), Whole('mul.txt', b'input x\noutput z')], status=3,
        err=line_of('3 UnknownName', 'line=2 at=7')),
    Row('expressions_before_the_parties', RUN, [*EXPR, Without('party_a.toml'), Whole('mul.txt', b'input x\noutput z')], status=3,
        err=line_of('3 UnknownName', 'line=2 at=7')),
]

BESIDE_A_PRODUCT = Row('expressions_beside_a_circuit', RUN,
                       [*VERSION_2, *SEEDS, Edit('job.toml', SESSION, SESSION + SESSION.replace('"ring"', '"expr"').replace('mul', 'square')),
                        Whole('square.txt', SQUARE_OF_A_SUM), Edit('party_a.toml', '["5"]', '["5", "2"]'),
                        Edit('party_b.toml', '["7"]', '["7", "3"]'), Edit('party_c.toml', '[""]', '["", ""]')],
                       out='out 0 0 c 35\nout 1 0 c 22\n')

EXPRESSIONS = [
    *WORKED,
    *(ran(f'{text[:60]!r}', XY + b'output ' + text, [word]) for text, word in SINGLE),
    *ACCEPTED_TEXTS,
    many_values(),
    BESIDE_A_PRODUCT,
]

FAULTY_EXPRESSIONS = [*(refused(*fault) for fault in [*FAULTY, *LARGE]), *OTHER_REFUSALS]
