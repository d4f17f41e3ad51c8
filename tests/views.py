"""Runs after which the view of a group is told."""

from accepted_runs import ALL_HELD_BY_ONE, CONSTANT_BIT, LONGER_NAME, NO_GATES, PRODUCT_AND_CONSTANT, PRODUCTS_OF_TWO_SESSIONS, THREE_SESSIONS
from product import Edit, Row, SEED, Without

OF_C = ['run', 'd', '--view', 'c']

OF_B = ['run', 'd', '--view', 'b']

SEEN_BY_C = ('out 0 0 c 35\n'
             'view c\n'
             '0 0 0 a c 10\n'
             '0 0 1 a c 20\n'
             '0 1 0 b c 30\n'
             '0 1 1 b c 40\n'
             '0 2 0 a c 1\n'
             '0 2 1 a c 2\n'
             '0 2 0 b c 3\n'
             '0 2 1 b c 4\n'
             '0 2 0 c b 5\n'
             '0 2 1 c a 6\n'
             '0 2 2 c a 221\n'
             '0 2 2 c b 221\n'
             '0 3 2 a c 14\n')

# Of the first summands of 5 and 7 a's own products come to 115, b's to 200 and c's to 232. Each less the two words that are dealt of it is 112, 193
# and 221, and these add up to 14. With 9 and 12 that is 35.
SEEN_BY_ALL = ('0 0 0 a b 10\n'
               '0 0 0 a c 10\n'
               '0 0 1 a c 20\n'
               '0 0 2 a b 231\n'
               '0 1 0 b c 30\n'
               '0 1 1 b a 40\n'
               '0 1 1 b c 40\n'
               '0 1 2 b a 193\n'
               '0 2 0 a b 1\n'
               '0 2 0 a c 1\n'
               '0 2 1 a c 2\n'
               '0 2 2 a b 112\n'
               '0 2 0 b c 3\n'
               '0 2 1 b a 4\n'
               '0 2 1 b c 4\n'
               '0 2 2 b a 193\n'
               '0 2 0 c b 5\n'
               '0 2 1 c a 6\n'
               '0 2 2 c a 221\n'
               '0 2 2 c b 221\n'
               '0 3 2 a c 14\n')


def lines_with(name):
    """Those that this party sends or gets."""
    return ''.join(line for line in SEEN_BY_ALL.splitlines(keepends=True) if name in line.split())


def of_a_seed(bits, first, second):
    """What b sees of a's 200, where a draws these two words."""
    return Row(f'view_of_words_of_{bits}_bits_from_a_seed', OF_B,
               [*NO_GATES, Edit('job.toml', '8', str(bits)), Edit('party_a.toml', 'tape = "10 20"', SEED)],
               out=f'out 0 0 b 200\nview b\n0 0 0 a b {first}\n0 0 2 a b {(200 - first - second) % 2**bits}\n0 1 1 a b {second}\n')


# Runs with a view.
VIEWS = [
    Row('view_of_c', OF_C, out=SEEN_BY_C),
    Row('view_of_none', ['run', 'd', '--view', '0'], out='out 0 0 c 35\nview 0\n'),
    Row('view_of_all', ['run', 'd', '--view', 'c+b+a'], out='out 0 0 c 35\nview a+b+c\n' + SEEN_BY_ALL),
    Row('view_of_all_in_another_order', ['run', 'd', '--view', 'b+c+a'], out='out 0 0 c 35\nview a+b+c\n' + SEEN_BY_ALL),
    Row('view_of_two_who_are_qualified', ['run', 'd', '--view', 'c+a'], out='out 0 0 c 35\nview a+c\n' + SEEN_BY_ALL),
    Row('view_of_two_in_their_order', ['run', 'd', '--view', 'a+c'], out='out 0 0 c 35\nview a+c\n' + SEEN_BY_ALL),
    Row('view_of_b', OF_B, out='out 0 0 c 35\nview b\n' + lines_with('b')),
    Row('view_of_a_longer_name', ['run', 'd', '--view', 'b_2'], LONGER_NAME, out='out 0 0 c 35\nview b_2\n' + lines_with('b').replace('b', 'b_2')),
    Row('view_of_a_product_and_a_constant', OF_C, PRODUCT_AND_CONSTANT,
        out=SEEN_BY_C.replace('out 0 0 c 35', 'out 0 0 c 34').replace('0 3 2 a c 14', '0 5 2 a c 14')),
    Row('view_of_one_who_holds_nothing', OF_B, ALL_HELD_BY_ONE,
        out='out 0 0 b 42\n'
            'view b\n'
            '0 1 0 b a 7\n'
            '0 3 0 a b 42\n'),
    Row('view_of_an_input', OF_B, NO_GATES,
        out='out 0 0 b 200\n'
            'view b\n'
            '0 0 0 a b 10\n'
            '0 0 2 a b 170\n'
            '0 1 1 a b 20\n'),
    Row('view_of_an_input_in_other_summands', OF_B, [*NO_GATES, Edit('party_a.toml', '200', '5')],
        out='out 0 0 b 5\n'
            'view b\n'
            '0 0 0 a b 10\n'
            '0 0 2 a b 231\n'
            '0 1 1 a b 20\n'),
    # ChaCha20 under 64 zeros gives ade0b876, 903df1a0, e56a5d40 and 28bd8653, of which a word of more than 32 bits takes two, the low half first.
    of_a_seed(64, 0x903df1a0ade0b876, 0x28bd8653e56a5d40),
    of_a_seed(40, 0xa0ade0b876, 0x53e56a5d40),
    Row('view_of_a_constant_bit', OF_C, CONSTANT_BIT,
        out='out 0 0 c 1 0\n'
            'view c\n'
            '0 0 0 a c 0\n'
            '0 0 1 a c 1\n'
            '0 3 2 a c 0\n'
            '0 4 2 a c 0\n'),
    Row('view_of_two_sessions', ['run', 'd', '--view', 'c', '--workers', '2'],
        PRODUCTS_OF_TWO_SESSIONS,
        out='out 0 0 c 35\n'
            'out 1 0 c 6\n'
            'view c\n'
            '0 0 0 a c 10\n'
            '0 0 1 a c 20\n'
            '0 1 0 b c 30\n'
            '0 1 1 b c 40\n'
            '0 2 0 a c 1\n'
            '0 2 1 a c 2\n'
            '0 2 0 b c 3\n'
            '0 2 1 b c 4\n'
            '0 2 0 c b 5\n'
            '0 2 1 c a 6\n'
            '0 2 2 c a 221\n'
            '0 2 2 c b 221\n'
            '0 3 2 a c 14\n'
            '1 0 0 a c 11\n'
            '1 0 1 a c 21\n'
            '1 1 0 b c 31\n'
            '1 1 1 b c 41\n'
            '1 2 0 a c 3\n'
            '1 2 1 a c 4\n'
            '1 2 0 b c 5\n'
            '1 2 1 b c 6\n'
            '1 2 0 c b 7\n'
            '1 2 1 c a 8\n'
            '1 2 2 c a 63\n'
            '1 2 2 c b 63\n'
            '1 3 2 a c 229\n'),
    # The session between the two draws no word, and opens a summand that is 0.
    Row('view_of_three_sessions', OF_C, THREE_SESSIONS,
        out='out 0 0 c 35\n'
            'out 1 0 c 9\n'
            'out 2 0 c 6\n'
            'view c\n'
            '0 0 0 a c 10\n'
            '0 0 1 a c 20\n'
            '0 1 0 b c 30\n'
            '0 1 1 b c 40\n'
            '0 2 0 a c 1\n'
            '0 2 1 a c 2\n'
            '0 2 0 b c 3\n'
            '0 2 1 b c 4\n'
            '0 2 0 c b 5\n'
            '0 2 1 c a 6\n'
            '0 2 2 c a 221\n'
            '0 2 2 c b 221\n'
            '0 3 2 a c 14\n'
            '1 1 2 a c 0\n'
            '2 0 0 a c 11\n'
            '2 0 1 a c 21\n'
            '2 1 0 b c 31\n'
            '2 1 1 b c 41\n'
            '2 2 0 a c 3\n'
            '2 2 1 a c 4\n'
            '2 2 0 b c 5\n'
            '2 2 1 b c 6\n'
            '2 2 0 c b 7\n'
            '2 2 1 c a 8\n'
            '2 2 2 c a 63\n'
            '2 2 2 c b 63\n'
            '2 3 2 a c 229\n'),
    Row('a_view_and_then_workers', ['run', 'd', '--view', 'c', '--workers', '3'], out=SEEN_BY_C),
    Row('workers_and_then_a_view', ['run', 'd', '--workers', '16', '--view', 'c'], out=SEEN_BY_C),
]

OF_A_AND_X = ['run', 'd', '--view', 'a+x']

# Texts that are no group, and the first part that is at fault.
OTHER_TEXTS = [('d', 0), ('a b', 0), ('a+', 1), ('a+0', 1), ('a+a', 1), ('a+a+x', 1), ('a+b+a', 2), ('b_2', 0), ('A', 0), ('+', 0), ('00', 0)]

# Runs whose group is refused, and where that stands among the refusals.
OTHER_GROUPS = [
    Row('a_member_that_is_no_party', OF_A_AND_X, status=3, err='refused group 1 BadGroup at=1\n'),
    Row('a_member_twice', ['run', 'd', '--view', 'b+c+b'], status=3,
        err='refused group 1 BadGroup at=2\n'),
    Row('a_member_without_a_name', ['run', 'd', '--view', '+a'], status=3,
        err='refused group 1 BadGroup at=0\n'),
    Row('none_and_a_member', ['run', 'd', '--view', '0+a'], status=3,
        err='refused group 1 BadGroup at=0\n'),
    *(Row(f'group {text}', ['run', 'd', '--view', text], status=3, err=f'refused group 1 BadGroup at={at}\n') for text, at in OTHER_TEXTS),
    Row('the_first_part_of_a_name', OF_B, LONGER_NAME, status=3, err='refused group 1 BadGroup at=0\n'),
    Row('names_before_the_group', OF_A_AND_X,
        [Edit('job.toml', '"b", "c"]', '"a", "c"]')], status=3,
        err='refused names 2 TwiceNamed at=1\n'),
    Row('the_group_before_the_formula', OF_A_AND_X,
        [Edit('job.toml', '2 of', '9 of')], status=3, err='refused group 1 BadGroup at=1\n'),
    Row('the_group_before_a_missing_circuit', OF_A_AND_X,
        [Without('mul.txt')], status=3, err='refused group 1 BadGroup at=1\n'),
]
