"""Sessions whose files are programs of whole numbers, accepted and refused."""

import json

from carried_runs import TOLERATING, party
from expressions import SEEDS
from pairs import FROM_A, FROM_C
from product import CHECK, Edit, RUN, Row, SESSION, VERSION_2, Whole, Without

NUMBERS = [*VERSION_2, *SEEDS, Edit('job.toml', 'ring_bits = 8', 'ring_bits = 1'), Edit('job.toml', '"ring"', '"numbers"')]
NOBODY = [Edit('job.toml', '["a", "b"]', '[]'), Edit('party_a.toml', '"5"', '""'), Edit('party_b.toml', '"7"', '""')]

XY = b'input x 8\ninput y 8\n'
LARGEST = 2**64 - 1


def given(a, b):
    """What a and b give in place of 5 and 7."""
    return [Edit('party_a.toml', '"5"', f'"{a}"'), Edit('party_b.toml', '"7"', f'"{b}"')]


def files_of(text, outputs, changes=()):
    """The changes that make a job of a program with so many outputs, all of which c reads."""
    return [*NUMBERS, Edit('job.toml', '[["c"]]', json.dumps(outputs * [['c']])), *changes, Whole('mul.txt', text)]


def ran(name, text, numbers, changes=()):
    """A run whose outputs come to these numbers. a gives 5 and b 7, unless that is changed."""
    return Row(name, RUN, files_of(text, len(numbers), changes), out=''.join(f'out 0 {value} c {number}\n' for value, number in enumerate(numbers)))


# Single expressions over x, which is 5, and y, which is 7, and their values.
SINGLE = [
    # What binds how tightly, and that the left one of equals comes first.
    (b'x + y * 2', 19), (b'(x + y) * 2', 24), (b'x * y + 2', 37), (b'y / 2 * 2', 6), (b'y % 4 * 2', 6), (b'y * 4 % 5', 3), (b'100 / y / 3', 4), (b'100 / (y / 3)', 50),
    (b'100 / 7 % 5', 4), (b'100 % 7 / 2', 1), (b'100 % (7 / 2)', 1), (b'x + y < y * 2', 1), (b'x * 2 < y + 4', 1), (b'x + 2 == y', 1), (b'x and y < 6', 0),
    (b'(x and y) < 6', 1), (b'1 or 1 and 0', 1), (b'(1 or 1) and 0', 0), (b'not 0 == 5', 1), (b'(not 0) == 5', 0), (b'not 1 or 1', 1), (b'not (1 or 1)', 0),
    (b'not 0 and 0', 0), (b'not (0 and 0)', 1), (b'not x + y', 0), (b'not not x', 1), (b'not not not x', 0), (b'0 and 1 or 1', 1), (b'0 and (1 or 1)', 0),
    # Comparisons.
    (b'x < y', 1), (b'y < x', 0), (b'x < 5', 0), (b'x <= 5', 1), (b'x <= 4', 0), (b'x > 4', 1), (b'x > 5', 0), (b'x >= 5', 1), (b'x >= 6', 0), (b'x == 5', 1), (b'x == y', 0),
    (b'x != 5', 0), (b'x != y', 1), (b'x < 1000', 1), (b'1000 < x', 0), (b'x == 261', 0), (b'3 < 4', 1), (b'(x < y) < 2', 1), (b'(x < y) == (y > x)', 1), (b'0 == 0', 1),
    # What is true is any number but 0.
    (b'x and y', 1), (b'x and 0', 0), (b'0 and 0', 0), (b'x or 0', 1), (b'0 or 0', 0), (b'256 or 0', 1), (b'not 256', 0), (b'not 0', 1), (b'not x', 0), (b'2 and 4', 1),
    # min, max and if.
    (b'min(x, y)', 5), (b'max(x, y)', 7), (b'min(y, x)', 5), (b'max(y, x)', 7), (b'min(x, y) + max(x, y)', 12), (b'min(x, x)', 5), (b'max(0, 0)', 0), (b'min(max(x, 6), y)', 6),
    (b'max(x * 100, y)', 500), (b'min(x or y, 2)', 1), (b'max(if x then 3 else 4, 2)', 3), (b'min(1, 1 + 1) * 3', 3), (b'max (x , y)', 7),
    (b'if x < y then x else y', 5), (b'if 0 then x else y', 7), (b'if x > y then 1 else if x == 5 then 2 else 3', 2), (b'if x > y then 1 else if x == y then 2 else 3', 3),
    (b'if 1 then if 0 then 2 else 3 else 4', 3), (b'if if 0 then 1 else 0 then 2 else 3', 3), (b'if x then 1 else 2 + 3', 1), (b'(if x then 1 else 2) + 3', 4),
    (b'if 0 then 1 else 2 + 3', 5), (b'if 0 or x then y else x', 7), (b'if 256 then 1 else 0', 1), (b'if not y == 5 and x then 10 else 20', 10),
    (b'if 1 then 2 or 0 else 3', 1), (b'if 0 then 1 else 0 or 0', 0), (b'not (if 0 then 1 else 0)', 1),
    # Quotients and rests.
    (b'y / x', 1), (b'y % x', 2), (b'x / y', 0), (b'x % y', 5), (b'x / x', 1), (b'x % x', 0), (b'x / 0', 0), (b'x % 0', 5), (b'0 / 0', 0), (b'0 % 0', 0), (b'y / (x / 6)', 0),
    (b'y % (x / 6)', 7), (b'x / 1', 5), (b'x % 1', 0), (b'255 / x', 51), (b'1000 % y', 6), (b'1000 / y', 142), (b'(255 + x) % 10', 0), (b'x % (3)', 2), (b'1000000007 % 1000', 7),
    # No modulus, and no number below 0.
    (b'255 + x', 260), (b'x * x * x * x * y', 4375), (b'x * 0', 0), (b'18446744073709551615', LARGEST), (b'18446744073709551614 + 1', LARGEST),
    (b'4294967296 * 4294967295', 2**32 * (2**32 - 1)), (b'18446744073709551615 / x', 3689348814741910323), (b'18446744073709551615 % y', 1),
    (b'18446744073709551615 * 1', LARGEST), (b'min(18446744073709551615, x)', 5), (b'x < 18446744073709551615', 1), (b'0 * 18446744073709551615', 0),
    # Numbers in the text.
    (b'0', 0), (b'00', 0), (b'000255', 255), (200 * b'0' + b'7', 7), (b'12', 12), (b'\tx\t+\r y\t', 12), (b'x+y', 12), (b'x<=y', 1), (b'((((x))))', 5), (b'not(x)', 0),
    # As many signs as may be open, and signs that are no longer open.
    (32 * b'(' + b'x' + 32 * b')', 5), (32 * b'not ' + b'x', 1), (31 * b'not ' + b'x', 0), (32 * b'min(' + b'x' + 32 * b', y)', 5), (32 * b'max(x, ' + b'y' + 32 * b')', 7),
    (32 * b'if 0 then 1 else ' + b'x', 5), (32 * b'if 1 then ' + b'x' + 32 * b' else y', 5), (32 * b'if ' + b'x' + 32 * b' then 1 else 0', 1), (16 * b'not (' + b'x' + 16 * b')', 1),
    (40 * b'(x) + ' + b'y', 207), (40 * b'min(x, y) + ' + b'1', 201), (40 * b'not x or ' + b'y', 1), (40 * b'(if x then 1 else 2) + ' + b'1', 41),
    (31 * b'(' + b'not x' + 31 * b')' + b' or ' + 32 * b'not ' + b'y', 1), (b'if ' + 31 * b'not ' + b'x then ' + 31 * b'(' + b'x' + 31 * b')' + b' else ' + 31 * b'max(y, ' + b'0' + 31 * b')', 7),
]

SECOND_PRICE = b'''# A sealed bid of each of two parties.
input x 16   # a's
input y 16   # b's

\t\r
let winner = if x >= y then 0 else 1
#
output winner # who wins
output min(x, y) # and what is to be paid
  # no line feed follows'''

ACCEPTED_TEXTS = [
    ran('products_quotients_and_rests', XY + b'output x * y\noutput y / x\noutput y % x\noutput x < y', [35, 1, 2, 1]),
    ran('a_second_price', SECOND_PRICE, [1, 5]),
    ran('numbers_on_lines_that_end_with_cr_lf', SECOND_PRICE.replace(b'\n', b'\r\n'), [1, 5]),
    ran('numbers_without_blanks', b'input x 8\ninput y 8\nlet s=x+y\noutput(s*s)/2\noutput s<=12\noutput not(s)', [72, 1, 0]),
    ran('blanks_everywhere_among_numbers', b'\r\n \tinput\tx \r 8\n\n\n\tinput \r y\t8 \n let  s\t=\r x  + y\n\n  output\ts * s   \n \t\r\n', [144]),
    ran('comments_with_any_text', '# \0 ü ((((\ninput x 8# ü\ninput y 8 ##\noutput x#+ y\noutput y # # =!<\n'.encode(), [5, 7]),
    ran('an_input_line_after_operators', b'let a = 7 % 4\ninput x 8\noutput x * a\ninput y 8\noutput y + x', [15, 12]),
    ran('an_unused_input_of_numbers', XY + b'output y\n', [7]),
    ran('no_output_of_numbers', XY + b'let s = x * y\n', []),
    ran('an_output_of_numbers_twice', XY + b'output x\noutput x\noutput 300\noutput x\n', [5, 5, 300, 5]),
    ran('names_of_names_of_numbers', XY + b'let a = x\nlet b = a\nlet c = b * b\noutput c + a\n', [30]),
    ran('names_that_begin_with_words_of_numbers', b'input inputs 8\ninput output1 8\nlet lets = inputs + output1\nlet iff = lets\nlet not_ = iff\nlet android = not_\nlet min1 = android\n'
        b'let maximum = min1\nlet thenx = maximum\nlet elsewhere = thenx\nlet order = elsewhere\nlet signed_ = order\noutput signed_', [12]),
    ran('words_in_capitals_are_names', b'input IF 8\ninput Then 8\nlet Min = IF + Then\nlet NOT = Min\nlet Signed = NOT\noutput Signed', [12]),
    ran('names_of_numbers_of_16_bytes', b'input abcdefghijklmno1 8\ninput abcdefghijklmno2 8\nlet a_______________ = abcdefghijklmno1\nlet A = 1\nlet a = 2\n'
        b'output abcdefghijklmno2 + a_______________ + A * a', [14]),
    ran('no_lines_of_numbers', b'', [], NOBODY),
    ran('comments_alone', b' \t\r\n# output 1\n\n#', [], NOBODY),
    ran('numbers_of_the_text_alone', b'let a = 250\noutput a + 10\noutput a\noutput 3 / 2 < a % 7', [260, 250, 1], NOBODY),
    ran('widths_with_leading_zeros', b'input x 008\ninput y ' + 100 * b'0' + b'3\noutput x * y', [35]),
    ran('numbers_of_1_bit', b'input x 1\ninput y 1\noutput x + y\noutput x * y\noutput x < y\noutput x / y\noutput x % y\noutput max(x, y)\noutput 7 / (x + y)',
        [1, 0, 1, 0, 0, 1, 7], given(0, 1)),
    *(ran(f'numbers_of_64_bits: {text}', b'input x 64\ninput y 64\noutput ' + text, [number], given(LARGEST, 2**63 + 5)) for text, number in [
        (b'x / y', 1), (b'x % y', 2**63 - 6), (b'x / 10', LARGEST // 10), (b'x % 10', 5)]),
    ran('numbers_of_64_bits', b'input x 64\ninput y 64\noutput x > y\noutput min(x, y)\noutput if x == y then x else y\noutput x\noutput not x or y',
        [1, 2**63 + 5, 2**63 + 5, LARGEST, 1], given(LARGEST, 2**63 + 5)),
    ran('a_sum_of_64_bits', b'input x 63\ninput y 63\noutput x + y + 1', [LARGEST], given(2**63 - 1, 2**63 - 1)),
    ran('a_product_of_64_bits', b'input x 32\ninput y 32\noutput x * y\noutput x * y / x', [(2**32 - 1) * (2**32 - 2), 2**32 - 2], given(2**32 - 1, 2**32 - 2)),
    ran('a_sum_of_many', XY + b'output x' + 300 * b' + y', [2105]),
    ran('a_rest_is_below_a_number_of_the_text', b'input x 64\ninput y 8\noutput x % 10 * 2049638230412172401', [(LARGEST - 10) % 10 * 2049638230412172401], given(LARGEST - 10, 7)),
    ran('a_line_of_10_000_bytes', XY + b'output' + 9_900 * b' ' + b'x + y' + 500 * b'#', [12]),
    *(Row(f'numbers_in_the_order_of_{order}', RUN, [*files_of(XY + b'output x * y / 2', 1), Edit('job.toml', '"numbers"', f'"numbers"\norder = "{order}"')],
          out='out 0 0 c 17\n') for order in ['file', 'layers']),
    *(Row(f'numbers_with_products_{way}', RUN, [*files_of(XY + b'output x * y / 2', 1), Edit('job.toml', '"numbers"', f'"numbers"\nproducts = "{way}"')], out='out 0 0 c 17\n')
      for way in ['direct', 'prepared', 'ahead']),
    Row('numbers_by_workers', [*RUN, '--workers', '4'], files_of(XY + b'output x * y / 2', 1), out='out 0 0 c 17\n'),
    Row('numbers_that_several_read', RUN, [*files_of(XY + b'output x + 256 * y\noutput 2', 2), Edit('job.toml', '[["c"], ["c"]]', '[["c", "a"], ["b"]]')],
        out='out 0 0 a 1797\nout 0 0 c 1797\nout 0 1 b 2\n'),
]


def many_values():
    """1,024 inputs of a, of 64 bits, and as many outputs: as many values, gates and wires as there may be."""
    text = ''.join([*(f'input i{number} 64\n' for number in range(1024)), *(f'output i{1023 - number}\n' for number in range(1024))])
    numbers = [number * 0x9e3779b97f4a7c15 % 2**64 for number in range(1024)]
    changes = [Edit('job.toml', '["a", "b"]', json.dumps(1024 * ['a'])), Edit('job.toml', '[["a"], ["b"], ["c"]]', '[]')]
    return ran('as_many_numbers_as_there_may_be', text.encode(), numbers[::-1], [*changes, *given(' '.join(map(str, numbers)), '')])


# The first fault of a text, and its place.
FAULTY = [
    (b'output 1 # \xff', '1 NotUtf8', 'at=11'),
    (b'output ((\n\xc3', '1 NotUtf8', 'at=10'),
    (b'output x # \xe2\x82\n', '1 NotUtf8', 'at=11'),
    (b'output 1\n\xc0\x80', '1 NotUtf8', 'at=9'),
    # What a line begins with.
    (b'x', '2 Syntax', 'line=1 at=0'),
    (b'5', '2 Syntax', 'line=1 at=0'),
    (b'= 5', '2 Syntax', 'line=1 at=0'),
    (b'(output 1)', '2 Syntax', 'line=1 at=0'),
    (b'Output 1', '2 Syntax', 'line=1 at=0'),
    (b'  outputs 1', '2 Syntax', 'line=1 at=2'),
    (b'if 1 then 2 else 3', '2 Syntax', 'line=1 at=0'),
    (b'\xef\xbb\xbfinput x 8', '2 Syntax', 'line=1 at=0'),
    (b'\0', '2 Syntax', 'line=1 at=0'),
    (b'# one\n\n! # two', '2 Syntax', 'line=3 at=0'),
    # Where it ends: at its last byte, or at a comment.
    (b'input', '2 Syntax', 'line=1 at=5'),
    (b'input \t', '2 Syntax', 'line=1 at=7'),
    (b'input x', '2 Syntax', 'line=1 at=7'),
    (b'input x\r\n', '2 Syntax', 'line=1 at=8'),
    (b'input x # 8', '2 Syntax', 'line=1 at=8'),
    (b'let x =', '2 Syntax', 'line=1 at=7'),
    (b'output', '2 Syntax', 'line=1 at=6'),
    (b'output#1', '2 Syntax', 'line=1 at=6'),
    (b'output 1 + \r\noutput 1', '2 Syntax', 'line=1 at=12'),
    (b'output (1  # + 1)', '2 Syntax', 'line=1 at=11'),
    (b'output (1\n+ 1)', '2 Syntax', 'line=1 at=9'),
    # A name, its width and what follows.
    (b'input 8 x', '2 Syntax', 'line=1 at=6'),
    (b'input x y', '2 Syntax', 'line=1 at=8'),
    (b'input x 8 8', '2 Syntax', 'line=1 at=10'),
    (b'input x = 8', '2 Syntax', 'line=1 at=8'),
    (b'input x (8)', '2 Syntax', 'line=1 at=8'),
    (b'input x 4 + 4', '2 Syntax', 'line=1 at=10'),
    (b'input min 8', '2 Syntax', 'line=1 at=6'),
    (b'input if 8', '2 Syntax', 'line=1 at=6'),
    (b'let then = 8', '2 Syntax', 'line=1 at=4'),
    (b'let or = 8', '2 Syntax', 'line=1 at=4'),
    (b'let let = 5', '2 Syntax', 'line=1 at=4'),
    (b'let x == 5', '2 Syntax', 'line=1 at=6'),
    (b'let x =! 5', '2 Syntax', 'line=1 at=6'),
    (b'let x : 5', '2 Syntax', 'line=1 at=6'),
    (b'input abcdefghijklmnopq 8', '2 Syntax', 'line=1 at=6'),
    (b'let abcdefghijklmnopq = 1', '2 Syntax', 'line=1 at=4'),
    (b'output 1 + abcdefghijklmnopq', '2 Syntax', 'line=1 at=11'),
    (b'input _x 8', '2 Syntax', 'line=1 at=6'),
    (b'input \xc3\xa9 8', '2 Syntax', 'line=1 at=6'),
    (b'output ' + 10_000 * b'a', '2 Syntax', 'line=1 at=7'),
    # Minus, and the word of numbers with signs.
    (b'output 2 - 1', '2 Syntax', 'line=1 at=9'),
    (b'output -1', '2 Syntax', 'line=1 at=7'),
    (b'input x signed 8', '2 Syntax', 'line=1 at=8'),
    (b'input signed 8', '2 Syntax', 'line=1 at=6'),
    (b'output signed', '2 Syntax', 'line=1 at=7'),
    (b'let signed = 1', '2 Syntax', 'line=1 at=4'),
    # Comparisons.
    (XY + b'output x < y < 9', '2 Syntax', 'line=3 at=13'),
    (XY + b'output x == y != 9', '2 Syntax', 'line=3 at=14'),
    (b'output 1 < not 2', '2 Syntax', 'line=1 at=11'),
    (b'output 1 = 1', '2 Syntax', 'line=1 at=9'),
    (b'output 1 =< 2', '2 Syntax', 'line=1 at=9'),
    (b'output 1 => 2', '2 Syntax', 'line=1 at=9'),
    (b'output 1 <> 2', '2 Syntax', 'line=1 at=9'),
    (b'output 1 === 2', '2 Syntax', 'line=1 at=9'),
    (b'output 1 < = 2', '2 Syntax', 'line=1 at=11'),
    (b'output 1 <! 2', '2 Syntax', 'line=1 at=9'),
    (b'output !1', '2 Syntax', 'line=1 at=7'),
    (b'output !', '2 Syntax', 'line=1 at=7'),
    (b'output < 1', '2 Syntax', 'line=1 at=7'),
    (b'output 1 <', '2 Syntax', 'line=1 at=10'),
    # Logic.
    (b'output 1 + not 2', '2 Syntax', 'line=1 at=11'),
    (b'output 1 not 2', '2 Syntax', 'line=1 at=9'),
    (b'output not', '2 Syntax', 'line=1 at=10'),
    (b'output and 1', '2 Syntax', 'line=1 at=7'),
    (b'output 1 or or 1', '2 Syntax', 'line=1 at=12'),
    (b'output 1 && 1', '2 Syntax', 'line=1 at=9'),
    (b'output 1 | 1', '2 Syntax', 'line=1 at=9'),
    # if, min and max.
    (b'output if 1 then 2', '2 Syntax', 'line=1 at=18'),
    (b'output if 1 else 2', '2 Syntax', 'line=1 at=12'),
    (b'output if then 1 else 2', '2 Syntax', 'line=1 at=10'),
    (b'output if 1 then 2 else', '2 Syntax', 'line=1 at=23'),
    (b'output if 1 then 2 else 3 else 4', '2 Syntax', 'line=1 at=26'),
    (b'output 1 then 2', '2 Syntax', 'line=1 at=9'),
    (b'output 1 + if 1 then 2 else 3', '2 Syntax', 'line=1 at=11'),
    (b'output not if 1 then 2 else 3', '2 Syntax', 'line=1 at=11'),
    (b'output (if 1 then 2) else 3', '2 Syntax', 'line=1 at=19'),
    (b'output min', '2 Syntax', 'line=1 at=10'),
    (b'output min 1, 2', '2 Syntax', 'line=1 at=11'),
    (b'output min(1)', '2 Syntax', 'line=1 at=12'),
    (b'output min(1, 2, 3)', '2 Syntax', 'line=1 at=15'),
    (b'output max(1, 2', '2 Syntax', 'line=1 at=15'),
    (b'output max(, 2)', '2 Syntax', 'line=1 at=11'),
    (b'output (1, 2)', '2 Syntax', 'line=1 at=9'),
    (b'output 1, 2', '2 Syntax', 'line=1 at=8'),
    # Other expressions.
    (b'output ()', '2 Syntax', 'line=1 at=8'),
    (b'output 1)', '2 Syntax', 'line=1 at=8'),
    (b'output (1))', '2 Syntax', 'line=1 at=10'),
    (b'output 2 * * 3', '2 Syntax', 'line=1 at=11'),
    (b'output 2 / % 3', '2 Syntax', 'line=1 at=11'),
    (b'output 2 // 3', '2 Syntax', 'line=1 at=10'),
    (b'output 2 ^ 3', '2 Syntax', 'line=1 at=9'),
    (b'output 1 2', '2 Syntax', 'line=1 at=9'),
    (b'output 2 (3)', '2 Syntax', 'line=1 at=9'),
    (b'output 2x', '2 Syntax', 'line=1 at=8'),
    (b'output 1.5', '2 Syntax', 'line=1 at=8'),
    (b'output input', '2 Syntax', 'line=1 at=7'),
    (b'output\xc2\xa01', '2 Syntax', 'line=1 at=6'),
    (b'output\x0b1', '2 Syntax', 'line=1 at=6'),
    (b'output 1\0', '2 Syntax', 'line=1 at=8'),
    (b'output 1 \0# 2', '2 Syntax', 'line=1 at=9'),
    (10_000 * b'\n' + b'output', '2 Syntax', 'line=10001 at=6'),
    (b'output 1' + 9_990 * b' ' + b')', '2 Syntax', 'line=1 at=9998'),
    # Syntax comes before all else of its line.
    (b'output x +', '2 Syntax', 'line=1 at=10'),
    (b'output 18446744073709551616 )', '2 Syntax', 'line=1 at=28'),
    (b'output 18446744073709551615 + 1 (', '2 Syntax', 'line=1 at=32'),
    (b'input x 65 65', '2 Syntax', 'line=1 at=11'),
    # Names that aren't known.
    (b'output x', '3 UnknownName', 'line=1 at=7'),
    (b'output x#', '3 UnknownName', 'line=1 at=7'),
    (b'output x\ninput x 8', '3 UnknownName', 'line=1 at=7'),
    (b'let x = x', '3 UnknownName', 'line=1 at=8'),
    (b'input x 8\noutput X', '3 UnknownName', 'line=2 at=7'),
    (b'input x 8\nlet x = y', '3 UnknownName', 'line=2 at=8'),
    (b'input x 8\nlet x = y\noutput (', '3 UnknownName', 'line=2 at=8'),
    (b'output if 1 then 2 else min(3, y)', '3 UnknownName', 'line=1 at=31'),
    (b'output z * (x + y)', '3 UnknownName', 'line=1 at=7'),
    # Numbers of 2^64 or more.
    (b'output 18446744073709551616', '4 BadConstant', 'line=1 at=7'),
    (b'output ' + 200 * b'9', '4 BadConstant', 'line=1 at=7'),
    (b'output 1 + ' + 9_000 * b'1', '4 BadConstant', 'line=1 at=11'),
    (b'output not (1 < 18446744073709551616)', '4 BadConstant', 'line=1 at=16'),
    # Open signs.
    (b'output ' + 33 * b'(', '5 TooDeep', 'line=1 at=39'),
    (b'output ' + 33 * b'(' + b'1' + 33 * b')', '5 TooDeep', 'line=1 at=39'),
    (b'output ' + 33 * b'not ' + b'1', '5 TooDeep', 'line=1 at=135'),
    (b'output ' + 33 * b'min(', '5 TooDeep', 'line=1 at=135'),
    (b'output ' + 32 * b'(' + b'max', '5 TooDeep', 'line=1 at=39'),
    (b'output ' + 33 * b'if ', '5 TooDeep', 'line=1 at=103'),
    (b'output ' + 33 * b'if 0 then 1 else ' + b'2', '5 TooDeep', 'line=1 at=551'),
    (b'output ' + 32 * b'if 0 then 1 else ' + b'(2)', '5 TooDeep', 'line=1 at=551'),
    (b'output ' + 32 * b'if 1 then ' + b'(2)', '5 TooDeep', 'line=1 at=327'),
    (b'output ' + 16 * b'not (' + b'not 1', '5 TooDeep', 'line=1 at=87'),
    (b'output ' + 32 * b'(' + b'1' + 32 * b')' + b'+' + 33 * b'(', '5 TooDeep', 'line=1 at=105'),
    (b'output x + ' + 33 * b'(' + b'1', '5 TooDeep', 'line=1 at=43'),
    (b'output ' + 10_000 * b'(', '5 TooDeep', 'line=1 at=39'),
    (b'output ' + 32 * b'(' + b')', '2 Syntax', 'line=1 at=39'),
    (b'output ' + 32 * b'(' + b'1 + not', '2 Syntax', 'line=1 at=43'),
    (b'output ' + 32 * b'not ', '2 Syntax', 'line=1 at=135'),
    # Names that are given twice.
    (b'input x 8\ninput x 8', '6 TwiceNamed', 'line=2'),
    (b'input x 8\nlet x = 1', '6 TwiceNamed', 'line=2'),
    (b'let x = 1\nlet x = x', '6 TwiceNamed', 'line=2'),
    (b'let x = 1\n\n# x\ninput x 8\noutput y', '6 TwiceNamed', 'line=4'),
    # Operators that would pass 2^64 - 1, after both their operands.
    (b'input x 33\ninput y 33\noutput x * y', '8 TooWide', 'line=3 at=9'),
    (b'input x 64\noutput x + 1', '8 TooWide', 'line=2 at=9'),
    (b'input x 64\noutput x + 0\noutput x*2', '8 TooWide', 'line=3 at=8'),
    (b'output 18446744073709551615 + 1', '8 TooWide', 'line=1 at=28'),
    (b'output 4294967296 * 4294967296', '8 TooWide', 'line=1 at=18'),
    (b'input x 64\nlet y = 3 * (x / 2)', '8 TooWide', 'line=2 at=10'),
    (b'input x 64\nlet y = x % 10\noutput y * 2049638230412172401\noutput y * 2049638230412172402', '8 TooWide', 'line=4 at=9'),
    (b'input x 64\nlet ten = 10\noutput x % ten * 2', '8 TooWide', 'line=3 at=15'),
    (b'input x 64\noutput x % 0 + 1', '8 TooWide', 'line=2 at=13'),
    (b'input x 64\noutput 0 * (x + 1)', '8 TooWide', 'line=2 at=14'),
    (b'input x 64\noutput if 0 then x else 1 + x', '8 TooWide', 'line=2 at=26'),
    (b'input x 64\noutput max(x, 1) + min(x, 1)', '8 TooWide', 'line=2 at=17'),
    (b'input x 64\noutput y + (x + 1)', '3 UnknownName', 'line=2 at=7'),
    (b'input x 64\noutput (x + 1) + y', '8 TooWide', 'line=2 at=10'),
    (b'input x 64\noutput x + y', '3 UnknownName', 'line=2 at=11'),
    (b'input x 64\nlet x = x + 1', '8 TooWide', 'line=2 at=10'),
    # Widths.
    (b'input x 0', '9 BadWidth', 'line=1 at=8'),
    (b'input x 8\ninput y 65', '9 BadWidth', 'line=2 at=8'),
    (b'input x ' + 200 * b'9', '9 BadWidth', 'line=1 at=8'),
    (b'input x 000', '9 BadWidth', 'line=1 at=8'),
    (b'input x 8\ninput x 65', '9 BadWidth', 'line=2 at=8'),
    (b'input x 18446744073709551617', '9 BadWidth', 'line=1 at=8'),
]


# Limits of the circuit, after the last line. A quotient of 64 bits makes 59,744 gates, and each bit of an output one.
LARGE = [
    (b'input x 64\ninput y 64\nlet q = x / y\nlet r = x / y', '7 TooLarge', ''),
    (b'input x 64\n' + 1_025 * b'output x\n', '7 TooLarge', ''),
    (b'input x 1\n' + 1_025 * b'output x\n', '7 TooLarge', ''),
    (b''.join(b'input i%d 1\n' % number for number in range(1_025)), '7 TooLarge', ''),
    (b'input x 64\n' + 1_024 * b'output x\n' + b'output not x', '7 TooLarge', ''),
    (b'input x 64\ninput y 64\nlet q = x / y\nlet r = x / y\noutput z', '3 UnknownName', 'line=5 at=7'),
    (b'input x 1\n' + 1_025 * b'output x\n' + b'output x + 18446744073709551615', '8 TooWide', 'line=1027 at=9'),
    (b''.join(b'input i%d 1\n' % number for number in range(1_025)) + b'input i7 1', '6 TwiceNamed', 'line=1026'),
]


def line_of(fault, place, session=0):
    return f'refused numbers {fault} file=mul.txt session={session}{" " if place else ""}{place}\n'


def refused(text, fault, place):
    return Row(f'{text[:60]!r}', CHECK, [*NUMBERS, Whole('mul.txt', text)], status=3, err=line_of(fault, place))


def counted(text, fault):
    """A program in a session with other owners or readers than it has values."""
    return Row(f'{text[:60]!r}', CHECK, [*NUMBERS, Whole('mul.txt', text)], status=3, err=f'refused session {fault}\n')


OTHER_REFUSALS = [
    counted(b'', '1 OwnersDiffer session=0 wanted=0 found=2'),
    counted(b'input x 8\noutput x\noutput x', '1 OwnersDiffer session=0 wanted=1 found=2'),
    counted(XY, '2 ReadersDiffer session=0 wanted=0 found=1'),
    counted(XY + b'output x\noutput x', '2 ReadersDiffer session=0 wanted=2 found=1'),
    Row('numbers_in_version_1', RUN, [Edit('job.toml', '"ring"', '"numbers"'), Whole('mul.txt', XY)], status=3, err='refused job 11 BadLayout session=0\n'),
    Row('numbers_in_capitals', RUN, [*NUMBERS, Edit('job.toml', '"numbers"', '"Numbers"')], status=3, err='refused job 11 BadLayout session=0\n'),
    *(Row(f'numbers_in_a_ring_of_{bits}_bits', RUN, [*NUMBERS, Edit('job.toml', 'ring_bits = 1', f'ring_bits = {bits}'), Whole('mul.txt', b'\xff')], status=3,
          err=f'refused circuit 16 WrongRing file=mul.txt session=0 bits={bits}\n') for bits in [2, 8, 64]),
    Row('a_circuit_as_numbers', RUN, NUMBERS, status=3, err=line_of('2 Syntax', 'line=1 at=0')),
    Row('no_file_of_numbers', RUN, [*NUMBERS, Without('mul.txt')], status=5, err='fault files file=mul.txt\n'),
    Row('numbers_past_the_limit', RUN, [*NUMBERS, Whole('mul.txt', 16_777_217 * b'\n')], status=3, err='refused files 1 TooLong file=mul.txt limit=16777216\n'),
    Row('numbers_before_the_parties', RUN, [*NUMBERS, Without('party_a.toml'), Whole('mul.txt', b'input x 8\noutput z')], status=3,
        err=line_of('3 UnknownName', 'line=2 at=7')),
    Row('numbers_in_the_second_session', CHECK, [*NUMBERS, Edit('job.toml', SESSION.replace('"ring"', '"numbers"'), (2 * SESSION.replace('"ring"', '"numbers"')).replace('mul', 'xy', 1)),
                                                 Whole('xy.txt', XY + b'output 1'), Whole('mul.txt', b'output -1')], status=3, err=line_of('2 Syntax', 'line=1 at=7', 1)),
]


def of_a(fault):
    """The line of a fault of a's file: its number, its name, the file and its keys."""
    number, name, *keys = fault.split()
    return f'refused party {" ".join([number, name, "file=party_a.toml", *keys])}\n'


# Texts that a gives for x and z, of 3 and of 64 bits, and the fault.
FAULTY_WORDS = [
    ('8 1', '8 WordOutOfRing session=0 at=0'),
    ('7 18446744073709551616', '7 BadWords session=0 at=1 cause=TooLarge'),
    ('18446744073709551615 1', '8 WordOutOfRing session=0 at=0'),
    ('-7 1', '7 BadWords session=0 at=0 cause=NotNumber'),
    ('+7 1', '7 BadWords session=0 at=0 cause=NotNumber'),
    ('7 1.5', '7 BadWords session=0 at=1 cause=NotNumber'),
    ('8 x', '7 BadWords session=0 at=1 cause=NotNumber'),
    ('1 1 1', '6 CountDiffers session=0 wanted=2 found=3'),
    ('1 0 1 0', '6 CountDiffers session=0 wanted=2 found=4'),
    ('1', '6 CountDiffers session=0 wanted=2 found=1'),
    ('', '6 CountDiffers session=0 wanted=2 found=0'),
    ('8', '8 WordOutOfRing session=0 at=0'),
    ('8 1 1', '8 WordOutOfRing session=0 at=0'),
]
XYZ = b'input x 3\ninput y 8\ninput z 64\noutput x + y\noutput z'
OF_XYZ = [*files_of(XYZ, 2), Edit('job.toml', '["a", "b"]', '["a", "b", "a"]')]


def other(text):
    """Other inputs, in which these lines stand."""
    return Whole('other.toml', f'version = 1\n[inputs]\n{text}\n'.encode())


# Pairs that can't be hidden. Faults name wires, which have the bits of numbers.
PAIR_FAULTS = [
    (FROM_A, XY + b'output x + y', 'a = ["4"]', '2 InputDiffers session=0 wire=0 first=1 second=0'),
    (FROM_A, XY + b'output x + y', 'a = ["69"]', '2 InputDiffers session=0 wire=6 first=0 second=1'),
    (FROM_C, XY + b'output y', 'b = ["9"]', '3 OutputDiffers session=0 wire=17 recipient=c first=1 second=0'),
]

FAULTY_PARTIES = [
    *(Row(f'numbers_of_a: {text!r}', RUN, [*OF_XYZ, Edit('party_a.toml', '"5"', f'"{text}"')], status=3, err=of_a(fault)) for text, fault in FAULTY_WORDS),
    Row('numbers_with_leading_zeros', RUN, [*OF_XYZ, Edit('party_a.toml', '"5"', r'" 0007\t\r\n000018446744073709551615 "')], out='out 0 0 c 14\nout 0 1 c 18446744073709551615\n'),
    Row('a_number_past_its_width', RUN, files_of(b'input x 3\ninput y 2\noutput x', 1), status=3, err='refused party 8 WordOutOfRing file=party_b.toml session=0 at=0\n'),
    *(Row(f'other_numbers_of_a: {text!r}', FROM_C, [*OF_XYZ, Edit('party_a.toml', '"5"', '"5 6"'), other(f'a = ["{text}"]')], status=3,
          err=f'refused other {" ".join([*fault.split()[:2], "party=a", *fault.split()[2:]])}\n') for text, fault in FAULTY_WORDS),
    *(Row(f'pair_of_numbers: {text}', words, [*files_of(program, 1), other(text)], status=3, err=f'refused pair {fault}\n') for words, program, text, fault in PAIR_FAULTS),
]


def sessions_of(*rows):
    """The lines of sessions, each with its file, its layout, its owners and the readers of each output."""
    return TOLERATING.replace('ring_bits = 8', 'ring_bits = 1') + ''.join(
        f'[[session]]\ncircuit = "{file}"\nlayout = "{layout}"\nowners = {json.dumps(owners)}\nreaders = {json.dumps(readers)}\n' for file, layout, owners, readers in rows)


def carrying(name, sessions, files, a, b, out='', status=0, err=''):
    """A job of these sessions, where a and b give these texts."""
    return Row(name, RUN if status == 0 else CHECK, [Whole('job.toml', sessions_of(*sessions)), party('a', a), party('b', b), party('c', len(sessions) * ['']),
                                                     *(Whole(file, text) for file, text in files)], status, out, err)


SUM, HALF = ('sum.txt', XY + b'output x + y'), ('half.txt', b'input s 9\noutput s / 2\noutput s % 2')
TURNED = ('turned.txt', b'9 18\n1 9\n1 9\n' + b''.join(b'1 1 %d %d INV\n' % (wire, 9 + wire) for wire in range(9)))

# The sum of 200 and 101, which is 301, and half of it; and the bits of 301 turned over, which are those of 210.
CARRIED = [
    carrying('a_number_goes_on', [('sum.txt', 'numbers', ['a', 'b'], [['a']]), ('half.txt', 'numbers', ['@0.0'], [['c'], ['b']])], [SUM, HALF], ['200', ''], ['101', ''],
             'out 0 0 a 301\nout 1 0 c 150\nout 1 1 b 1\n'),
    carrying('a_number_goes_on_as_bits', [('sum.txt', 'numbers', ['a', 'b'], [[]]), ('turned.txt', 'bristol', ['@0.0'], [['c']])], [SUM, TURNED], ['200', ''], ['101', ''],
             'out 1 0 c 0 1 0 0 1 0 1 1 0\n'),
    carrying('bits_go_on_as_a_number', [('turned.txt', 'bristol', ['a'], [['a']]), ('half.txt', 'numbers', ['@0.0'], [['c'], []])], [TURNED, HALF],
             ['1 0 1 1 0 1 0 0 1', ''], ['', ''], 'out 0 0 a 0 1 0 0 1 0 1 1 0\nout 1 0 c 105\n'),
    carrying('a_number_of_another_width_goes_on', [('sum.txt', 'numbers', ['a', 'b'], [[]]), ('sum.txt', 'numbers', ['@0.0', 'b'], [['c']])], [SUM], ['200', ''], ['101', '1'],
             status=3, err='refused session 4 CarryWidth session=1 wanted=8 found=9\n'),
    carrying('bits_of_another_width_go_on', [('turned.txt', 'bristol', ['a'], [[]]), ('sum.txt', 'numbers', ['@0.0', 'b'], [['c']])], [TURNED, SUM], ['', ''], ['', '1'],
             status=3, err='refused session 4 CarryWidth session=1 wanted=8 found=9\n'),
    carrying('a_number_that_there_is_not_goes_on', [('sum.txt', 'numbers', ['a', 'b'], [[]]), ('half.txt', 'numbers', ['@0.1'], [[], []])], [SUM, HALF], ['', ''], ['', ''],
             status=3, err='refused session 3 CarryMissing session=1 wanted=1 found=1\n'),
]

NUMBER_RUNS = [*(ran(f'{text[:60]!r}', XY + b'output ' + text, [number]) for text, number in SINGLE), *ACCEPTED_TEXTS, many_values(), *(row for row in CARRIED if row.status == 0)]

NUMBER_FAULTS = [*(refused(*fault) for fault in [*FAULTY, *LARGE]), *OTHER_REFUSALS, *(row for row in CARRIED if row.status)]
