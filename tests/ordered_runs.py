"""Jobs whose gates go in layers, beside the same ones in the order of the file. The words of messages are worked out apart from the program, by the
rules of docs/PROTOCOL.md."""

from prepared_runs import GROUPS
from product import CHECK, Edit, RUN, Row, SEED, SESSION, TAPE_A, TAPE_B, TAPE_C, VERSION_2, Whole

# Of 5 and 7 the product, that times 7, the product plus 5, and 5 times 5. In layers the first product and the last come first, then the sum, and then
# the product that stands second.
INTERLEAVED = b'4 6\n2 1 1\n3 1 1 1\n2 1 0 1 2 MUL\n2 1 2 1 3 MUL\n2 1 2 0 4 ADD\n2 1 0 0 5 MUL\n'
IN_LAYERS = b'4 6\n2 1 1\n3 1 1 1\n2 1 0 1 2 MUL\n2 1 0 0 5 MUL\n2 1 2 0 4 ADD\n2 1 2 1 3 MUL\n'
IN_EXPRESSIONS = b'input x\ninput y\nlet s = x * y\noutput s * y\noutput s + x\noutput x * x\n'
OUTPUTS = 'out 0 0 c 245\nout 0 1 c 40\nout 0 2 c 25\n'

THREE_READ = SESSION.replace('[["c"]]', '[["c"], ["c"], ["c"]]')
LAYERS = THREE_READ.replace('layout = "ring"', 'layout = "ring"\norder = "layers"')
FILE = THREE_READ.replace('layout = "ring"', 'layout = "ring"\norder = "file"')
SEEDS = [Edit('party_a.toml', TAPE_A, SEED), Edit('party_b.toml', TAPE_B, SEED.replace('0', '1')), Edit('party_c.toml', TAPE_C, SEED.replace('0', '2'))]
TAPES = [Edit('party_a.toml', TAPE_A, 'tape = "10 20 1 2 3 4 5 6"'), Edit('party_b.toml', TAPE_B, 'tape = "30 40 7 8 9 10 11 12"'),
         Edit('party_c.toml', TAPE_C, 'tape = "13 14 15 16 17 18"')]


def of_sessions(text, *changes, circuit=INTERLEAVED):
    """The job with these sessions."""
    return [*VERSION_2, Edit('job.toml', SESSION, text), Whole('mul.txt', circuit), *changes]


# A second session takes the product plus 5, which goes on, in place of 5: its outputs come to 40 * 7 * 7, 40 * 7 + 40 and 40 * 40, modulo 256.
CARRIED = of_sessions(FILE + LAYERS.replace('["a", "b"]', '["@0.1", "b"]'), *SEEDS, Edit('party_a.toml', '["5"]', '["5", ""]'),
                      Edit('party_b.toml', '["7"]', '["7", "7"]'), Edit('party_c.toml', '[""]', '["", ""]'))

# What c sees of the inputs and of the first product, whichever comes next: in summands it is 21, 24 and 246. Of the products of summands those of a, b and c
# come to 115, 200 and 232.
SEEN_FIRST = (OUTPUTS + 'view c\n'
              '0 0 0 a c 10\n'
              '0 0 1 a c 20\n'
              '0 1 0 b c 30\n'
              '0 1 1 b c 40\n'
              '0 2 0 a c 1\n'
              '0 2 1 a c 2\n'
              '0 2 0 b c 7\n'
              '0 2 1 b c 8\n'
              '0 2 0 c b 13\n'
              '0 2 1 c a 14\n'
              '0 2 2 c a 205\n'
              '0 2 2 c b 205\n')

# In the order of the file slot 3 is the product that times 7, of which those of a, b and c come to 190, 31 and 24, and slot 5 is 5 times 5, of which they come
# to 25, 112 and 144.
SEEN_IN_THE_FILE = SEEN_FIRST + ('0 3 0 a c 3\n'
                                 '0 3 1 a c 4\n'
                                 '0 3 0 b c 9\n'
                                 '0 3 1 b c 10\n'
                                 '0 3 0 c b 15\n'
                                 '0 3 1 c a 16\n'
                                 '0 3 2 c a 249\n'
                                 '0 3 2 c b 249\n'
                                 '0 5 0 a c 5\n'
                                 '0 5 1 a c 6\n'
                                 '0 5 0 b c 11\n'
                                 '0 5 1 b c 12\n'
                                 '0 5 0 c b 17\n'
                                 '0 5 1 c a 18\n'
                                 '0 5 2 c a 109\n'
                                 '0 5 2 c b 109\n'
                                 '0 6 2 a c 188\n'
                                 '0 7 2 a c 221\n'
                                 '0 8 2 a c 212\n')

# In layers slot 3 is 5 times 5 and slot 5 the product times 7. The sums are the same, and each is dealt by the words that the other one had.
SEEN_IN_LAYERS = SEEN_FIRST + ('0 3 0 a c 3\n'
                               '0 3 1 a c 4\n'
                               '0 3 0 b c 9\n'
                               '0 3 1 b c 10\n'
                               '0 3 0 c b 15\n'
                               '0 3 1 c a 16\n'
                               '0 3 2 c a 113\n'
                               '0 3 2 c b 113\n'
                               '0 5 0 a c 5\n'
                               '0 5 1 a c 6\n'
                               '0 5 0 b c 11\n'
                               '0 5 1 b c 12\n'
                               '0 5 0 c b 17\n'
                               '0 5 1 c a 18\n'
                               '0 5 2 c a 245\n'
                               '0 5 2 c b 245\n'
                               '0 6 2 a c 176\n'
                               '0 7 2 a c 221\n'
                               '0 8 2 a c 224\n')

ORDERED_RUNS = [
    *(Row(f'gates_in_{name}', RUN, of_sessions(text, *TAPES), out=OUTPUTS) for name, text in [('no_named_order', THREE_READ), ('the_order_of_the_file', FILE), ('layers', LAYERS)]),
    *(Row(f'view_of_gates_in_{name}', [*RUN, '--view', 'c'], of_sessions(text, *TAPES), out=seen)
      for name, text, seen in [('no_named_order', THREE_READ, SEEN_IN_THE_FILE), ('the_order_of_the_file', FILE, SEEN_IN_THE_FILE), ('layers', LAYERS, SEEN_IN_LAYERS)]),
    *(Row(f'view_of_a_file_in_layers_{name}', [*RUN, '--view', 'c'], of_sessions(text, *TAPES, circuit=IN_LAYERS), out=SEEN_IN_LAYERS)
      for name, text in [('as_it_is', THREE_READ), ('that_is_sorted', LAYERS)]),
    *(Row(f'check_of_gates_in_{name}', CHECK, of_sessions(text, *TAPES),
          out=GROUPS + 'session 0 gates 4 products 3 messages 47\nwords a 8\nwords b 8\nwords c 6\nmessages 47\n')
      for name, text in [('the_order_of_the_file', FILE), ('layers', LAYERS)]),
    *(Row(f'{way}_products_in_layers', RUN, of_sessions(LAYERS.replace('order', f'products = "{way}"\norder'), *SEEDS), out=OUTPUTS)
      for way in ['direct', 'prepared', 'ahead']),
    Row('expressions_in_layers', RUN, of_sessions(LAYERS.replace('ring', 'expr'), *SEEDS, circuit=IN_EXPRESSIONS), out=OUTPUTS),
    Row('a_sum_that_goes_on_into_layers', RUN, CARRIED, out=OUTPUTS + 'out 1 0 c 168\nout 1 1 c 64\nout 1 2 c 64\n'),
    Row('four_workers_of_two_orders', [*RUN, '--workers', '4'], CARRIED, out=OUTPUTS + 'out 1 0 c 168\nout 1 1 c 64\nout 1 2 c 64\n'),
    Row('no_gates_in_layers', RUN, of_sessions(LAYERS.replace(', ["c"], ["c"]]', ', ["c"]]'), *SEEDS, circuit=b'0 2\n2 1 1\n2 1 1\n'),
        out='out 0 0 c 5\nout 0 1 c 7\n'),
    # A circuit is read before its gates are sorted, so its faults are those of the file.
    Row('a_wire_that_is_read_too_early_for_layers', RUN, of_sessions(LAYERS, *TAPES, circuit=INTERLEAVED.replace(b'2 1 0 1 2', b'2 1 3 1 2')), status=3,
        err='refused circuit 13 ReadBeforeSet file=mul.txt session=0 line=4\n'),
]
