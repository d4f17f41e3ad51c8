"""Rows whose files or answers are made by a rule: each first part of a circuit, rings of each size, and what is long."""

from accepted_runs import COUNTS_OF_A_PRODUCT
from circuit_faults import FRONTS
from product import CHECK, CIRCUIT, Edit, JOB, RUN, Row, SEED, SESSION, TAPE_A, TAPE_B, TAPE_C, TWO_SESSIONS, Whole


def front_rows():
    """The first bytes of the product's circuit, of each number."""
    for length in range(len(CIRCUIT) + 1):
        refusal = next((line for most, line in FRONTS if length <= most), '')
        changes = [Whole('mul.txt', CIRCUIT[:length].encode())]
        if refusal:
            yield Row(f'{length}_bytes_of_the_circuit', RUN, changes, status=3, err=refusal)
        else:
            yield Row(f'{length}_bytes_of_the_circuit', RUN, changes, out='out 0 0 c 35\n')


# The product of the negatives of two words, and the first of them.
NEGATIVES = (b'4 6\n2 1 1\n2 1 1\n1 1 0 2 NEG\n1 1 1 3 NEG\n2 1 2 3 4 MUL\n1 1 2 5 EQW\n')


def ring_rows():
    """The largest word of each ring, which is the negative of 1, times itself."""
    for bits in range(1, 65):
        yield Row(f'largest_words_of_{bits}_bits', RUN,
                  [Edit('job.toml', '8', str(bits)),
                   Edit('job.toml', '[["c"]]', '[["c"], ["c"]]'),
                   Whole('mul.txt', NEGATIVES),
                   Edit('party_a.toml', '5', '1'),
                   Edit('party_a.toml', '10 20 1 2', '0 1 0 1'),
                   Edit('party_b.toml', '7', '1'),
                   Edit('party_b.toml', '30 40 3 4', '1 0 1 0'),
                   Edit('party_c.toml', '5 6', '1 1')],
                  out=f'out 0 0 c 1\nout 0 1 c {2**bits - 1}\n')


def formula_row(name, formula, line):
    return Row(name, RUN, [Edit('job.toml', '2 of (a, b, c)', formula)], status=3, err=line)


LONG_FORMULAS = [
    formula_row('33_parentheses', 33 * '(' + 'a' + 33 * ')', 'refused formula 4 TooDeep at=32\n'),
    formula_row('a_million_parentheses', 1_000_000 * '(' + 'a', 'refused formula 4 TooDeep at=32\n'),
    formula_row('a_name_129_times', 128 * 'a&' + 'a', 'refused formula 5 TooManyNodes at=256\n'),
]

# The job of seven parties, of whom any four are qualified, with one input value and one output value for nobody.
SEVEN_PARTIES = (b'version = 1\n'
                 b'ring_bits = 32\n'
                 b'parties = ["p0", "p1", "p2", "p3", "p4", "p5", "p6"]\n'
                 b'formula = "4 of (p0, p1, p2, p3, p4, p5, p6)"\n'
                 b'[[session]]\n'
                 b'circuit = "mul.txt"\n'
                 b'layout = "ring"\n'
                 b'owners = ["p0"]\n'
                 b'readers = [[]]\n')


def products(header, operands, wires):
    """A circuit with this header, and a product of the two operands for each of these wires."""
    return Whole('mul.txt', (header + ''.join(f'2 1 {operands} {wire} MUL\n' for wire in wires)).encode())


def fibonacci(count):
    """The number behind so many others, of which each is the sum of the two before it. The first two are 0 and 1."""
    first, second = 0, 1
    for _ in range(count):
        first, second = second, first + second
    return first


# Each product is that of the two wires before it, so that no more than two wires are kept at a time.
FIBONACCI = [Whole('mul.txt', ('1000 1002\n2 1 1\n1 1\n' + ''.join(f'2 1 {wire} {wire + 1} {wire + 2} MUL\n' for wire in range(1_000))).encode()),
             Edit('job.toml', '8', '64'), Edit('party_a.toml', TAPE_A, SEED), Edit('party_b.toml', TAPE_B, SEED), Edit('party_c.toml', TAPE_C, SEED)]


def of_one_party(sessions):
    """A job of one party with so many sessions of 65,536 prepared products each, whose masks take two words a product and no message."""
    session = '[[session]]\ncircuit = "mul.txt"\nlayout = "ring"\nproducts = "prepared"\nowners = ["a", "a"]\nreaders = [[]]\n'
    return [products('65536 65538\n2 1 1\n1 1\n', '0 1', range(2, 65538)),
            Whole('job.toml', ('version = 2\nring_bits = 8\nparties = ["a"]\ntolerated = [[]]\n' + sessions * session).encode())]


def of_length(text, length):
    """The text with line feeds up to this length."""
    return (text + (length - len(text)) * '\n').encode()


LONG_JOBS = [
    Row('a_job_at_the_limit', CHECK, [Whole('job.toml', of_length(JOB, 16_777_216))], out=COUNTS_OF_A_PRODUCT),
    Row('a_job_past_the_limit', RUN, [Whole('job.toml', 16_777_217 * b' ')], status=3,
        err='refused files 1 TooLong file=job.toml limit=16777216\n'),
    Row('two_sessions_of_65536_products', RUN,
        [products('65536 65538\n2 1 1\n1 1\n', '0 1', range(2, 65538)), Edit('job.toml', SESSION, TWO_SESSIONS)],
        status=3, err='refused plan 1 TooManyMessages count=1572882\n'),
    Row('a_thousand_products_of_the_last_two', RUN, FIBONACCI,
        out=f'out 0 0 c {pow(5, fibonacci(1_000), 2**64) * pow(7, fibonacci(1_001), 2**64) % 2**64}\n'),
    Row('seven_parties_and_1024_products', RUN,
        [products('1024 2624\n1 1600\n1 1\n', '0 0', range(1600, 2624)), Whole('job.toml', SEVEN_PARTIES)],
        status=3, err='refused plan 1 TooManyMessages count=1052160\n'),
    Row('as_many_tape_words_as_may_be', CHECK, of_one_party(8),
        out='parties 1\ngroups 1\ngroup 0 0\nduty a 1\n'
            + ''.join(f'session {session} gates 65536 products 65536 messages 0\n' for session in range(8))
            + 'words a 1048576\nmessages 0\n'),
    Row('too_many_tape_words', CHECK, of_one_party(9), status=3, err='refused plan 2 TooManyWords party=a count=1179648\n'),
]


def list_row(name, lists, line):
    return Row(name, CHECK,
               [Edit('job.toml', 'version = 1', 'version = 2'),
                Edit('job.toml', 'formula = "2 of (a, b, c)"', f'tolerated = [{lists}]')],
               status=3, err=line)


LONG_LISTS = [
    list_row('4096_groups', 4095 * '["a"],' + '["x"]', 'refused job 15 BadTolerated value=4095 at=0\n'),
    list_row('4097_groups', 4095 * '["a"],' + '["x"],[]', 'refused job 16 TooManyTolerated count=4097\n'),
]

ONE_PRODUCT = [['run', 'd', '--workers', count] for count in ['2', '05', '16']]
TWO_PRODUCTS = [['run', 'd', '--workers', count] for count in ['1', '2', '16']]


def worker_rows(changes):
    """Any number of workers writes the same."""
    for words in ONE_PRODUCT:
        yield Row(f'{words[-1]}_workers_of_a_product', words, out='out 0 0 c 35\n')
    for words in TWO_PRODUCTS:
        yield Row(f'{words[-1]}_workers_of_two_products', words, changes, out='out 0 0 c 35\nout 1 0 c 6\n')
