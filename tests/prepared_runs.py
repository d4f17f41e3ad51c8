"""Jobs whose products are prepared. The words of messages are computed apart from the program, by the rules of docs/PROTOCOL.md."""

from pairs import FROM_C, OTHER_FACTORS
from product import CHECK, Edit, RUN, Row, SEED, SESSION, TAPE_A, TAPE_B, TAPE_C, VERSION_2, Whole

# The product of 5 and 7, prepared, in a job of version 2.
PREPARED = [
    *VERSION_2,
    Edit('job.toml', 'layout = "ring"', 'layout = "ring"\nproducts = "prepared"'),
    Edit('party_a.toml', TAPE_A, 'tape = "2 3 4 6 1 2 10 20"'),
    Edit('party_b.toml', TAPE_B, 'tape = "1 5 3 4 30 40"'),
]

# That product times 7, the masks of both products ahead of the products of masks.
AHEAD = [
    *VERSION_2,
    Edit('job.toml', 'layout = "ring"', 'layout = "ring"\nproducts = "ahead"'),
    Whole('mul.txt', '2 4\n2 1 1\n1 1\n2 1 0 1 2 MUL\n2 1 2 1 3 MUL\n'),
    Edit('party_a.toml', TAPE_A, 'tape = "2 3 4 6 7 8 9 10 1 2 11 12 10 20"'),
    Edit('party_b.toml', TAPE_B, 'tape = "1 5 13 14 3 4 15 16 30 40"'),
    Edit('party_c.toml', TAPE_C, 'tape = "5 6 17 18"'),
]

# Beside it, and before it, the product of the first job, which is dealt itself.
DIRECT_AND_PREPARED = [
    *VERSION_2,
    Edit('job.toml', SESSION, SESSION + SESSION.replace('layout = "ring"', 'layout = "ring"\nproducts = "prepared"')),
    Edit('party_a.toml', '["5"]', '["5", "2"]'),
    Edit('party_a.toml', '10 20 1 2', '10 20 1 2 11 12 13 14 15 16 17 18'),
    Edit('party_b.toml', '["7"]', '["7", "3"]'),
    Edit('party_b.toml', '30 40 3 4', '30 40 3 4 21 22 23 24 25 26'),
    Edit('party_c.toml', '[""]', '["", ""]'),
    Edit('party_c.toml', '5 6', '5 6 31 32'),
]


def in_a_ring(bits, first, second):
    """Both sessions in a ring of so many bits, with these factors of each and seeds in place of tapes."""
    return [*DIRECT_AND_PREPARED, Edit('job.toml', 'ring_bits = 8', f'ring_bits = {bits}'),
            Whole('party_a.toml', f'version = 1\ninputs = ["{first[0]}", "{second[0]}"]\n{SEED}\n'),
            Whole('party_b.toml', f'version = 1\ninputs = ["{first[1]}", "{second[1]}"]\n{SEED}\n'),
            Whole('party_c.toml', f'version = 1\ninputs = ["", ""]\n{SEED}\n')]


# The counts of the job's groups.
GROUPS = ('parties 3\n'
          'groups 3\n'
          'group 0 a\n'
          'group 1 b\n'
          'group 2 c\n'
          'duty a 4\n'
          'duty b 3\n'
          'duty c 2\n')

PREPARED_RUNS = [
    Row('prepared_product', RUN, PREPARED, out='out 0 0 c 35\n'),
    Row('direct_as_where_nothing_is_said', RUN,
        [Edit('job.toml', 'version = 1', 'version = 2'),
         Edit('job.toml', 'formula = "2 of (a, b, c)"', 'tolerated = [["a"], ["b"], ["c"]]'),
         Edit('job.toml', 'layout = "ring"', 'layout = "ring"\nproducts = "direct"')],
        out='out 0 0 c 35\n'),
    Row('check_of_a_prepared_product', CHECK, PREPARED,
        out=GROUPS
            + 'session 0 gates 1 products 1 messages 33\n'
            'words a 8\n'
            'words b 6\n'
            'words c 2\n'
            'messages 33\n'),
    Row('view_of_a_prepared_product', RUN + ['--view', 'a'], PREPARED,
        out='out 0 0 c 35\n'
            'view a\n'
            '0 0 1 a c 2\n'
            '0 0 2 a b 3\n'
            '0 1 1 a c 4\n'
            '0 1 2 a b 6\n'
            '0 2 0 a b 1\n'
            '0 2 0 a c 1\n'
            '0 2 1 a c 2\n'
            '0 2 2 a b 47\n'
            '0 2 1 b a 4\n'
            '0 2 2 b a 19\n'
            '0 2 1 c a 6\n'
            '0 2 2 c a 3\n'
            '0 3 0 a b 10\n'
            '0 3 0 a c 10\n'
            '0 3 1 a c 20\n'
            '0 3 2 a b 231\n'
            '0 4 1 b a 40\n'
            '0 4 2 b a 193\n'
            '0 5 0 b a 9\n'
            '0 5 1 a b 18\n'
            '0 5 2 a c 228\n'
            '0 6 0 b a 25\n'
            '0 6 1 a b 36\n'
            '0 6 2 a c 187\n'
            '0 8 2 a c 39\n'),
    Row('direct_and_prepared', RUN, DIRECT_AND_PREPARED, out='out 0 0 c 35\nout 1 0 c 6\n'),
    Row('direct_and_prepared_bits', RUN, in_a_ring(1, (1, 1), (1, 0)), out='out 0 0 c 1\nout 1 0 c 0\n'),
    Row('direct_and_prepared_of_32_bits', RUN, in_a_ring(32, (65536, 65537), (4294967295, 4294967295)), out='out 0 0 c 65536\nout 1 0 c 1\n'),
    Row('direct_and_prepared_of_64_bits', RUN, in_a_ring(64, (4294967296, 4294967297), (18446744073709551615, 2)),
        out='out 0 0 c 4294967296\nout 1 0 c 18446744073709551614\n'),
    Row('check_of_direct_and_prepared', CHECK, DIRECT_AND_PREPARED,
        out=GROUPS
            + 'session 0 gates 1 products 1 messages 21\n'
            'session 1 gates 1 products 1 messages 33\n'
            'words a 12\n'
            'words b 10\n'
            'words c 4\n'
            'messages 54\n'),
    Row('view_of_two_products_ahead', RUN + ['--view', 'c'], AHEAD,
        out='out 0 0 c 245\n'
            'view c\n'
            '0 0 0 b c 1\n'
            '0 0 1 a c 2\n'
            '0 1 0 b c 5\n'
            '0 1 1 a c 4\n'
            '0 2 0 b c 13\n'
            '0 2 1 a c 7\n'
            '0 3 0 b c 14\n'
            '0 3 1 a c 9\n'
            '0 4 0 a c 1\n'
            '0 4 1 a c 2\n'
            '0 4 0 b c 3\n'
            '0 4 1 b c 4\n'
            '0 4 0 c b 5\n'
            '0 4 1 c a 6\n'
            '0 4 2 c a 3\n'
            '0 4 2 c b 3\n'
            '0 5 0 a c 11\n'
            '0 5 1 a c 12\n'
            '0 5 0 b c 15\n'
            '0 5 1 b c 16\n'
            '0 5 0 c b 17\n'
            '0 5 1 c a 18\n'
            '0 5 2 c a 180\n'
            '0 5 2 c b 180\n'
            '0 6 0 a c 10\n'
            '0 6 1 a c 20\n'
            '0 7 0 b c 30\n'
            '0 7 1 b c 40\n'
            '0 8 2 a c 228\n'
            '0 9 2 a c 187\n'
            '0 11 2 a c 31\n'
            '0 12 2 a c 183\n'
            '0 14 2 a c 185\n'),
    Row('check_of_two_products_ahead', CHECK, AHEAD,
        out=GROUPS
            + 'session 0 gates 2 products 2 messages 57\n'
            'words a 14\n'
            'words b 10\n'
            'words c 4\n'
            'messages 57\n'),
    # The word of each mask that c can't see grows as the factor does, and what is opened stays.
    Row('other_factors_of_a_prepared_product', FROM_C, PREPARED + OTHER_FACTORS,
        out='first\n'
            'out 0 0 c 35\n'
            'view c\n'
            '0 0 0 b c 1\n'
            '0 0 1 a c 2\n'
            '0 1 0 b c 5\n'
            '0 1 1 a c 4\n'
            '0 2 0 a c 1\n'
            '0 2 1 a c 2\n'
            '0 2 0 b c 3\n'
            '0 2 1 b c 4\n'
            '0 2 0 c b 5\n'
            '0 2 1 c a 6\n'
            '0 2 2 c a 3\n'
            '0 2 2 c b 3\n'
            '0 3 0 a c 10\n'
            '0 3 1 a c 20\n'
            '0 4 0 b c 30\n'
            '0 4 1 b c 40\n'
            '0 5 2 a c 228\n'
            '0 6 2 a c 187\n'
            '0 8 2 a c 39\n'
            'second\n'
            'out 0 0 c 35\n'
            'view c\n'
            '0 0 0 b c 1\n'
            '0 0 1 a c 2\n'
            '0 1 0 b c 5\n'
            '0 1 1 a c 4\n'
            '0 2 0 a c 1\n'
            '0 2 1 a c 2\n'
            '0 2 0 b c 3\n'
            '0 2 1 b c 4\n'
            '0 2 0 c b 5\n'
            '0 2 1 c a 6\n'
            '0 2 2 c a 3\n'
            '0 2 2 c b 3\n'
            '0 3 0 a c 10\n'
            '0 3 1 a c 20\n'
            '0 4 0 b c 30\n'
            '0 4 1 b c 40\n'
            '0 5 2 a c 228\n'
            '0 6 2 a c 187\n'
            '0 8 2 a c 39\n'
            'tape a 2 33 4 0 1 2 10 20\n'
            'tape b 1 5 3 4 30 40\n'
            'tape c 5 6\n'),
]
