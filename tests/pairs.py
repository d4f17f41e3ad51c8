"""Pairs of runs, and the refusals of other inputs."""

from other_words import USAGE
from product import Edit, Row, Whole

FROM_A = ['pair', 'd', '--group', 'a']

FROM_C = ['pair', 'd', '--group', 'c']

# b gives 9 in place of 7.
NINE_OF_B = [Whole('other.toml', b'version = 1\n[inputs]\nb = ["9"]\n')]

# a and b give other factors of the same product.
OTHER_FACTORS = [Whole('other.toml', b'version = 1\n[inputs]\na = ["35"]\nb = ["1"]\n')]

# a gives 6 in place of 5.
SIX_OF_A = [Whole('other.toml', b'version = 1\n[inputs]\na = ["6"]\n')]

# Nobody gives anything else.
NOTHING_ELSE = [Whole('other.toml', b'version = 1\n[inputs]\n')]

# Pairs of runs.
PAIRS = [
    Row('another_factor_is_hidden_from_a', FROM_A, NINE_OF_B,
        out='first\n'
            'out 0 0 c 35\n'
            'view a\n'
            '0 0 0 a b 10\n'
            '0 0 0 a c 10\n'
            '0 0 1 a c 20\n'
            '0 0 2 a b 231\n'
            '0 1 1 b a 40\n'
            '0 1 2 b a 193\n'
            '0 2 0 a b 1\n'
            '0 2 0 a c 1\n'
            '0 2 1 a c 2\n'
            '0 2 2 a b 112\n'
            '0 2 1 b a 4\n'
            '0 2 2 b a 193\n'
            '0 2 1 c a 6\n'
            '0 2 2 c a 221\n'
            '0 3 2 a c 14\n'
            'second\n'
            'out 0 0 c 45\n'
            'view a\n'
            '0 0 0 a b 10\n'
            '0 0 0 a c 10\n'
            '0 0 1 a c 20\n'
            '0 0 2 a b 231\n'
            '0 1 1 b a 40\n'
            '0 1 2 b a 193\n'
            '0 2 0 a b 1\n'
            '0 2 0 a c 1\n'
            '0 2 1 a c 2\n'
            '0 2 2 a b 112\n'
            '0 2 1 b a 4\n'
            '0 2 2 b a 193\n'
            '0 2 1 c a 6\n'
            '0 2 2 c a 221\n'
            '0 3 2 a c 14\n'
            'tape a 10 20 1 2\n'
            'tape b 32 40 229 4\n'
            'tape c 45 6\n'),
    Row('other_factors_of_the_same_product_are_hidden_from_c', FROM_C, OTHER_FACTORS,
        out='first\n'
            'out 0 0 c 35\n'
            'view c\n'
            '0 0 0 a c 10\n'
            '0 0 1 a c 20\n'
            '0 1 0 b c 30\n'
            '0 1 1 b c 40\n'
            '0 2 0 a c 1\n'
            '0 2 1 a c 2\n'
            '0 2 0 b c 3\n'
            '0 2 1 b c 4\n'
            '0 2 0 c b 5\n'
            '0 2 1 c a 6\n'
            '0 2 2 c a 221\n'
            '0 2 2 c b 221\n'
            '0 3 2 a c 14\n'
            'second\n'
            'out 0 0 c 35\n'
            'view c\n'
            '0 0 0 a c 10\n'
            '0 0 1 a c 20\n'
            '0 1 0 b c 30\n'
            '0 1 1 b c 40\n'
            '0 2 0 a c 1\n'
            '0 2 1 a c 2\n'
            '0 2 0 b c 3\n'
            '0 2 1 b c 4\n'
            '0 2 0 c b 5\n'
            '0 2 1 c a 6\n'
            '0 2 2 c a 221\n'
            '0 2 2 c b 221\n'
            '0 3 2 a c 14\n'
            'tape a 10 20 1 2\n'
            'tape b 30 40 3 4\n'
            'tape c 5 6\n'),
    Row('other_inputs_are_hidden_from_nobody', ['pair', 'd', '--group', '0'], SIX_OF_A,
        out='first\n'
            'out 0 0 c 35\n'
            'view 0\n'
            'second\n'
            'out 0 0 c 42\n'
            'view 0\n'
            'tape a 11 20 1 2\n'
            'tape b 30 40 226 4\n'
            'tape c 45 6\n'),
    Row('the_same_inputs_are_hidden_from_a', FROM_A, NOTHING_ELSE,
        out='first\n'
            'out 0 0 c 35\n'
            'view a\n'
            '0 0 0 a b 10\n'
            '0 0 0 a c 10\n'
            '0 0 1 a c 20\n'
            '0 0 2 a b 231\n'
            '0 1 1 b a 40\n'
            '0 1 2 b a 193\n'
            '0 2 0 a b 1\n'
            '0 2 0 a c 1\n'
            '0 2 1 a c 2\n'
            '0 2 2 a b 112\n'
            '0 2 1 b a 4\n'
            '0 2 2 b a 193\n'
            '0 2 1 c a 6\n'
            '0 2 2 c a 221\n'
            '0 3 2 a c 14\n'
            'second\n'
            'out 0 0 c 35\n'
            'view a\n'
            '0 0 0 a b 10\n'
            '0 0 0 a c 10\n'
            '0 0 1 a c 20\n'
            '0 0 2 a b 231\n'
            '0 1 1 b a 40\n'
            '0 1 2 b a 193\n'
            '0 2 0 a b 1\n'
            '0 2 0 a c 1\n'
            '0 2 1 a c 2\n'
            '0 2 2 a b 112\n'
            '0 2 1 b a 4\n'
            '0 2 2 b a 193\n'
            '0 2 1 c a 6\n'
            '0 2 2 c a 221\n'
            '0 3 2 a c 14\n'
            'tape a 10 20 1 2\n'
            'tape b 30 40 3 4\n'
            'tape c 5 6\n'),
]

# Refusals of the file of other inputs.
OTHER_FAULTS = [
    Row('no_document', FROM_A,
        [Whole('other.toml', b'version 1')], status=3, err='refused other 1 NotToml\n'),
    Row('no_version', FROM_A,
        [Whole('other.toml', b'[inputs]\n')], status=3,
        err='refused other 3 Missing field=version\n'),
    Row('a_version_of_another_kind', FROM_A,
        [Whole('other.toml', b'version = "1"\n[inputs]\n')], status=3,
        err='refused other 5 WrongKind field=version\n'),
    Row('another_version', FROM_A,
        [Whole('other.toml', b'version = 2\n[inputs]\n')], status=3,
        err='refused other 2 Version found=2\n'),
    Row('an_unknown_field', FROM_A,
        [Whole('other.toml', b'version = 1\nmore = 1\n[inputs]\n')], status=3,
        err='refused other 4 Unknown name=more\n'),
    Row('no_inputs', FROM_A,
        [Whole('other.toml', b'version = 1\n')], status=3,
        err='refused other 3 Missing field=inputs\n'),
    Row('inputs_of_another_kind', FROM_A,
        [Whole('other.toml', b'version = 1\ninputs = 1\n')], status=3,
        err='refused other 5 WrongKind field=inputs\n'),
    Row('lists_of_inputs', FROM_A,
        [Whole('other.toml', b'version = 1\n[[inputs]]\nb = ["9"]\n')], status=3,
        err='refused other 5 WrongKind field=inputs\n'),
    Row('an_unknown_party', FROM_A,
        [Whole('other.toml', b'version = 1\n[inputs]\nb = 1\nx = []\n')], status=3,
        err='refused other 4 Unknown name=x\n'),
    Row('texts_of_another_kind', FROM_A,
        [Whole('other.toml', b'version = 1\n[inputs]\nb = [9]\n')], status=3,
        err='refused other 5 WrongKind party=b\n'),
    Row('too_many_texts', FROM_A,
        [Whole('other.toml', b'version = 1\n[inputs]\nb = ["9", ""]\n')], status=3,
        err='refused other 6 CountDiffers party=b wanted=1 found=2\n'),
    Row('no_number', FROM_A,
        [Whole('other.toml', b'version = 1\n[inputs]\nc = ["q"]\n')], status=3,
        err='refused other 7 BadWords party=c session=0 at=0 cause=NotNumber\n'),
    Row('a_word_past_the_ring', FROM_A,
        [Whole('other.toml', b'version = 1\n[inputs]\nb = ["256"]\n')], status=3,
        err='refused other 8 WordOutOfRing party=b session=0 at=0\n'),
    Row('too_many_words', FROM_A,
        [Whole('other.toml', b'version = 1\n[inputs]\nb = ["9 9"]\n')], status=3,
        err='refused other 6 CountDiffers party=b session=0 wanted=1 found=2\n'),
]

# Other refusals of pairs, and where these stand among all refusals.
PAIR_FAULTS = [
    Row('another_output_of_c', FROM_C, NINE_OF_B, status=3,
        err='refused pair 3 OutputDiffers session=0 wire=2 recipient=c first=35 second=45\n'),
    Row('another_input_of_a', FROM_A, SIX_OF_A, status=3,
        err='refused pair 2 InputDiffers session=0 wire=0 first=5 second=6\n'),
    Row('two_who_are_qualified', ['pair', 'd', '--group', 'b+a'], NINE_OF_B, status=3,
        err='refused pair 1 NotTolerated\n'),
    Row('a_pair_and_no_party', ['pair', 'd', '--group', 'a+x'], NINE_OF_B, status=3,
        err='refused group 1 BadGroup at=1\n'),
    Row('no_other_inputs', ['pair', 'd', '--group', 'a+b'], status=5,
        err='fault files file=other.toml\n'),
    Row('a_party_before_other_inputs', FROM_A,
        [Edit('party_c.toml', '5 6', '5')], status=3,
        err='refused party 11 TapeShort file=party_c.toml wanted=2 found=1\n'),
    Row('a_pair_without_a_group', ['pair', 'd'], NINE_OF_B, status=2, err=USAGE),
    Row('a_pair_and_workers', ['pair', 'd', '--workers', '2'], NINE_OF_B, status=2, err=USAGE),
    Row('a_pair_of_an_option', ['pair', 'd', '--group', '-a'], NINE_OF_B, status=2, err=USAGE),
]
