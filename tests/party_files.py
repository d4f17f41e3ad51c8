"""Files of parties, accepted and refused."""

from accepted_runs import NO_GATES
from product import Edit, RUN, Row, SEED, TAPE_A, Whole
from views import OF_B, OF_C, SEEN_BY_C


def refused(text, fault):
    """The row of this file of a, whose fault has this number and name, and these keys."""
    number, name, *keys = fault.split()
    data = text if isinstance(text, bytes) else text.encode()
    return Row(f'{text!r}', RUN, [Whole('party_a.toml', data)], status=3,
               err=' '.join(['refused party', number, name, 'file=party_a.toml', *keys]) + '\n')


# Files whose fields are at fault, and the line of the fault.
FIELD_FAULTS = [
    ('', '3 Missing field=version'),
    ('version = "1"', '5 WrongKind field=version'),
    ('version = 2', '2 Version found=2'),
    ('version = -1', '2 Version found=-1'),
    ('version = 1\nzeta = 1\nalpha = 2', '4 Unknown name=alpha'),
    ('version = 1', '3 Missing field=inputs'),
    ('version = 1\ninputs = "5"', '5 WrongKind field=inputs'),
    ('version = 1\ninputs = [5]', '5 WrongKind field=inputs'),
    ('version = 1\ninputs = ["5"]\ntape = ["10"]', '5 WrongKind field=tape'),
    ('version = 1\ninputs = ["5"]\nseed = 0', '5 WrongKind field=seed'),
    ('version = 1\ninputs = ["5"]\ntape = "10 20 1 2"\nseed = ""', '9 TapeAndSeed'),
    ('version = 1\ninputs = ["5"]', '3 Missing field=tape'),
    ('version = 1\ninputs = ["5", "6"]\ntape = ""', '6 CountDiffers wanted=1 found=2'),
]

# Words that are no number, and that blanks other than space, tab, line feed and carriage return don't cut: a vertical tab, a form feed, a space
# that doesn't break, a mark of the order of bytes.
NO_NUMBERS = ['x', '+1', '-1', '1x', '1_000', '0x1', '1\\u000b2', '1\\f2', '\u00a01', '\ufeff1', '\\u000b\\fx', '\u00a0\u00e9']

# Files whose words are at fault.
WORD_FAULTS = [
    *((f'version = 1\ninputs = ["5"]\ntape = "10 {word} 1 2"', '7 BadWords at=1 cause=NotNumber') for word in NO_NUMBERS),
    ('version = 1\ninputs = ["5"]\ntape = " 10 007\\tx\\r\\ny\\n"', '7 BadWords at=2 cause=NotNumber'),
    ('version = 1\ninputs = ["5"]\ntape = "1 -2 18446744073709551616"', '7 BadWords at=1 cause=NotNumber'),
    ('version = 1\ninputs = ["5"]\ntape = "99999999999999999999 x"', '7 BadWords at=0 cause=TooLarge'),
    ('version = 1\ninputs = ["5"]\ntape = "10 256 1 300"', '8 WordOutOfRing at=1'),
    ('version = 1\ninputs = [" \\r\\n\\t"]\ntape = ""', '6 CountDiffers session=0 wanted=1 found=0'),
    ('version = 1\ninputs = ["5 x"]\ntape = ""', '7 BadWords session=0 at=1 cause=NotNumber'),
    ('version = 1\ninputs = ["256"]\ntape = ""', '8 WordOutOfRing session=0 at=0'),
    ('version = 1\ninputs = ["5 6"]\ntape = ""', '6 CountDiffers session=0 wanted=1 found=2'),
    ('version = 1\ninputs = [""]\ntape = ""', '6 CountDiffers session=0 wanted=1 found=0'),
    ('version = 1\ninputs = ["5"]\ntape = "10 20 1 18446744073709551616"', '7 BadWords at=3 cause=TooLarge'),
    ('version = 1\ninputs = ["5"]\ntape = "10 256 1 2"', '8 WordOutOfRing at=1'),
    ('version = 1\ninputs = ["5"]\ntape = "10 20 1 2 256"', '8 WordOutOfRing at=4'),
    ('version = 1\ninputs = ["5"]\ntape = "10 20 1"', '11 TapeShort wanted=4 found=3'),
    ('version = 1\ninputs = ["5"]\nseed = "00"', '10 BadSeed'),
    ('version = 1\ninputs = ["5"]\nseed = "000000000000000000000000000000000000000000000000000000000000000"', '10 BadSeed'),
    ('version = 1\ninputs = ["5"]\nseed = "000000000000000000000000000000000000000000000000000000000000000g"', '10 BadSeed'),
]

# Files with two faults, of which the first is told.
FIRST_FAULTS = [
    ('version = 2\nfoo = 1', '2 Version found=2'),
    ('version = 1\nfoo = 1\ninputs = 5', '4 Unknown name=foo'),
    ('version = 1\ninputs = 5\ntape = 1', '5 WrongKind field=inputs'),
    ('version = 1\ninputs = []\nseed = 1\ntape = 1', '5 WrongKind field=tape'),
    ('version = 1\ninputs = []\nseed = ""\ntape = ""', '9 TapeAndSeed'),
    ('version = 1\ninputs = []', '3 Missing field=tape'),
    ('version = 1\ninputs = ["x", "y"]\nseed = ""', '6 CountDiffers wanted=1 found=2'),
    ('version = 1\ninputs = ["256 x"]\nseed = ""', '7 BadWords session=0 at=1 cause=NotNumber'),
    ('version = 1\ninputs = ["256 7"]\nseed = ""', '8 WordOutOfRing session=0 at=0'),
    ('version = 1\ninputs = ["5 6"]\nseed = ""', '6 CountDiffers session=0 wanted=1 found=2'),
    ('version = 1\ninputs = ["5"]\ntape = "256 x"', '7 BadWords at=1 cause=NotNumber'),
    ('version = 1\ninputs = ["5"]\ntape = "256"', '8 WordOutOfRing at=0'),
]

# Bytes that are no document.
NO_DOCUMENTS = [
    (b'\xff', '1 NotToml'),
    (b"version = '\xff'", '1 NotToml'),
    (b'version = 9223372036854775808', '1 NotToml'),
    (b'version = ', '1 NotToml'),
]

REFUSED_FILES = [refused(text, fault) for text, fault in [*FIELD_FAULTS, *WORD_FAULTS, *FIRST_FAULTS, *NO_DOCUMENTS]]

# The product, with the fields in another order, more blanks, zeros before numbers and more words than are drawn.
ANOTHER_A = b'version = 1\ninputs = [" 5 "]\ntape = """\n10 020\n1\t2 9\r\n"""'
ANOTHER_C = b'tape = "5 6"\ninputs = [""]\nversion = 1'

# What c sees where a draws the words of ChaCha20 under 64 zeros, which are ade0b876, 903df1a0, e56a5d40 and 28bd8653. In this ring they
# are 118 and 160 for the first two summands of 5, and 64 and 83 for those of its products. Those of c are 118 * 40 + 160 * 30, which is
# 48, so that its third summand is 37; and 35 without 64 + 3 + 5 and 83 + 4 + 6 is 126.
SEEN_WITH_SEED = ('out 0 0 c 35\n'
                  'view c\n'
                  '0 0 0 a c 118\n'
                  '0 0 1 a c 160\n'
                  '0 1 0 b c 30\n'
                  '0 1 1 b c 40\n'
                  '0 2 0 a c 64\n'
                  '0 2 1 a c 83\n'
                  '0 2 0 b c 3\n'
                  '0 2 1 b c 4\n'
                  '0 2 0 c b 5\n'
                  '0 2 1 c a 6\n'
                  '0 2 2 c a 37\n'
                  '0 2 2 c b 37\n'
                  '0 3 2 a c 126\n')

# Two words of a, which b reads, in a ring of 64 bits. Of the four words of the tape a draws two for each.
TWO_WORDS = [
    *NO_GATES,
    Whole('mul.txt', b'0 2\n1 2\n1 2\n'),
    Edit('job.toml', '8', '64'),
    Whole('party_a.toml', b'version = 1\ninputs = [" 00000000000000000000000000000000000000005\\t\\r\\n00000000000000000000000000000009 "]\n'
                          b'tape = " 10 007\\t18446744073709551615\\r\\n0\\n"\n'),
    Whole('party_c.toml', b'version = 1\ninputs = [" \\r\\n\\t"]\ntape = " \\r\\n\\t"\n'),
]

# What b sees of it: 5 without 10 and 7, and 9 without 2^64 - 1, are the last summands.
SEEN_OF_TWO_WORDS = ('out 0 0 b 5 9\n'
                     'view b\n'
                     '0 0 0 a b 10\n'
                     '0 0 2 a b 18446744073709551604\n'
                     '0 1 0 a b 18446744073709551615\n'
                     '0 1 2 a b 10\n'
                     '0 2 1 a b 7\n'
                     '0 3 1 a b 0\n')

BOTH_CASES = 'seed = "abcdefABCDEF0123456789000000000000000000000000000000000000000000"'

ACCEPTED_FILES = [
    Row('a_tape_is_cut_to_what_is_drawn', OF_C, [Whole('party_a.toml', ANOTHER_A)], out=SEEN_BY_C),
    Row('a_party_without_inputs', OF_C, [Whole('party_c.toml', ANOTHER_C)], out=SEEN_BY_C),
    Row('numbers_of_any_length_between_blanks', OF_B, TWO_WORDS, out=SEEN_OF_TWO_WORDS),
    Row('a_seed_of_zeros', OF_C, [Edit('party_a.toml', TAPE_A, SEED)], out=SEEN_WITH_SEED),
    Row('a_seed_in_upper_and_lower_case', RUN, [Edit('party_a.toml', TAPE_A, BOTH_CASES)], out='out 0 0 c 35\n'),
]
