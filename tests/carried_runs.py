"""Jobs whose sessions carry values of earlier ones, which nobody opens for it. The words of messages are computed apart from the program, by the
rules of docs/PROTOCOL.md; what long jobs come to is computed in the clear."""

from product import CHECK, RUN, Row, SEED, Whole

TOLERATING = 'version = 2\nring_bits = 8\nparties = ["a", "b", "c"]\ntolerated = [["a"], ["b"], ["c"]]\n'
MOST_WIDTH = 1_024
JOBS_OF_WIDTHS = 16


def session(circuit, owners, readers, products='direct'):
    """The lines of a session. An owner is a party, or names a value of an earlier session; of readers there is a text for each output value, of names."""
    names = ', '.join(f'"{owner}"' for owner in owners)
    groups = ', '.join('[' + ', '.join(f'"{name}"' for name in texts.split()) + ']' for texts in readers)
    return f'[[session]]\ncircuit = "{circuit}"\nlayout = "ring"\nproducts = "{products}"\nowners = [{names}]\nreaders = [{groups}]\n'


def party(name, inputs, tape=SEED):
    """The file of a party that gives these words, session by session."""
    texts = ', '.join(f'"{text}"' for text in inputs)
    return Whole(f'party_{name}.toml', f'version = 1\ninputs = [{texts}]\n{tape}\n')


def job(sessions, a, b=None, c=None, bits=8, circuits=()):
    """A job of these sessions, with what each party gives in each, and seeds in place of tapes."""
    nothing = [''] * len(sessions)
    return [Whole('job.toml', TOLERATING.replace('ring_bits = 8', f'ring_bits = {bits}') + ''.join(sessions)),
            party('a', a), party('b', b or nothing), party('c', c or nothing), *(Whole(name, text.encode()) for name, text in circuits)]


# The product of 5 and 7, which nobody reads, times 3.
CARRIED = [
    Whole('job.toml', TOLERATING + session('mul.txt', 'ab', ['']) + session('mul.txt', ['@0.0', 'a'], ['c'])),
    party('a', ['5', '3'], 'tape = "10 20 1 2 11 21 1 2"'),
    party('b', ['7', ''], 'tape = "30 40 3 4 3 4"'),
    party('c', ['', ''], 'tape = "5 6 5 6"'),
]

GROUPS = ('parties 3\n'
          'groups 3\n'
          'group 0 a\n'
          'group 1 b\n'
          'group 2 c\n'
          'duty a 4\n'
          'duty b 3\n'
          'duty c 2\n')

# What c sees of it: the two summands that it keeps for itself stand behind the first session's own messages.
OF_C = ('view c\n'
        '0 0 0 a c 10\n'
        '0 0 1 a c 20\n'
        '0 1 0 b c 30\n'
        '0 1 1 b c 40\n'
        '0 2 0 a c 1\n'
        '0 2 1 a c 2\n'
        '0 2 0 b c 3\n'
        '0 2 1 b c 4\n'
        '0 2 0 c b 5\n'
        '0 2 1 c a 6\n'
        '0 2 2 c a 221\n'
        '0 2 2 c b 221\n'
        '0 4 0 c c 9\n'
        '0 4 1 c c 12\n'
        '1 1 0 a c 11\n'
        '1 1 1 a c 21\n'
        '1 2 0 a c 1\n'
        '1 2 1 a c 2\n'
        '1 2 0 b c 3\n'
        '1 2 1 b c 4\n'
        '1 2 0 c b 5\n'
        '1 2 1 c a 6\n'
        '1 2 2 c a 54\n'
        '1 2 2 c b 54\n'
        '1 3 2 a c 84\n')

# What a sees of it.
OF_A = ('view a\n'
        '0 0 0 a b 10\n'
        '0 0 0 a c 10\n'
        '0 0 1 a c 20\n'
        '0 0 2 a b 231\n'
        '0 1 1 b a 40\n'
        '0 1 2 b a 193\n'
        '0 2 0 a b 1\n'
        '0 2 0 a c 1\n'
        '0 2 1 a c 2\n'
        '0 2 2 a b 112\n'
        '0 2 1 b a 4\n'
        '0 2 2 b a 193\n'
        '0 2 1 c a 6\n'
        '0 2 2 c a 221\n'
        '0 4 1 a a 12\n'
        '0 4 2 a a 14\n'
        '1 1 0 a b 11\n'
        '1 1 0 a c 11\n'
        '1 1 1 a c 21\n'
        '1 1 2 a b 227\n'
        '1 2 0 a b 1\n'
        '1 2 0 a c 1\n'
        '1 2 1 a c 2\n'
        '1 2 2 a b 45\n'
        '1 2 1 b a 4\n'
        '1 2 2 b a 241\n'
        '1 2 1 c a 6\n'
        '1 2 2 c a 54\n'
        '1 3 2 a c 84\n')

# b gives 9 in place of 7; and a and b give other factors of the same product.
NINE_OF_B = Whole('other.toml', b'version = 1\n[inputs]\nb = ["9", ""]\n')
OTHER_FACTORS = Whole('other.toml', b'version = 1\n[inputs]\na = ["35", "3"]\nb = ["1", ""]\n')

# Two values of two words each, and two of one, with what becomes of them.
SUMS = ('sums.txt', '2 6\n2 2 2\n1 2\n2 1 0 2 4 ADD\n2 1 1 3 5 ADD\n')
PRODUCTS = ('products.txt', '2 7\n3 1 2 1\n2 1 1\n2 1 0 1 5 MUL\n2 1 2 3 6 MUL\n')
SQUARE = ('square.txt', '1 3\n2 1 1\n1 1\n2 1 0 1 2 MUL\n')
NOTHING = ('nothing.txt', '0 2\n1 2\n1 2\n')

# The sums of a's and b's words go into products of two later sessions, one direct and one prepared; the second product of the first of these goes on.
MIXED = [session('sums.txt', 'ab', ['']),
         session('products.txt', ['a', '@0.0', 'b'], ['', 'c']),
         session('products.txt', ['@1.1', '@0.0', '@1.0'], ['a b', 'c'], 'prepared')]


def mixed(bits, words):
    """That job in a ring of so many bits, where a gives the first three words and b the others."""
    one, two, three, four, five, six = words
    return job(MIXED, [f'{one} {two}', f'{three}', ''], [f'{four} {five}', f'{six}', ''], bits=bits, circuits=[SUMS, PRODUCTS])


def powers(count):
    """A job of so many sessions: each but the first multiplies what the one before it carries on by a's next word, and only the last is read."""
    sessions = [session('mul.txt', ['a' if number == 0 else f'@{number - 1}.0', 'a'], ['b' if number == count - 1 else '']) for number in range(count)]
    return job(sessions, ['3 5'] + ['7'] * (count - 1))


def words_of(width):
    """The words that a gives for a value of so many wires."""
    return ' '.join(str(7 * (wire + width) % 256) for wire in range(width))


def of_widths(widths):
    """A job in which a value of each of these widths is carried, and the negatives of its negatives are read."""
    count = sum(widths)
    negatives = ''.join(f'1 1 {wire} {count + wire} NEG\n' for wire in range(count))
    values = f'{len(widths)} {" ".join(map(str, widths))}\n'
    sessions = [session('wide.txt', len(widths) * 'a', len(widths) * ['']),
                session('wide.txt', [f'@0.{value}' for value in range(len(widths))], len(widths) * ['c'])]
    return job(sessions, [' '.join(filter(None, map(words_of, widths))), ''], circuits=[('wide.txt', f'{count} {2 * count}\n{values}{values}{negatives}')])


def width_rows():
    """Values of each width to the largest are carried, some in each job."""
    for first in range(JOBS_OF_WIDTHS):
        widths = range(first, MOST_WIDTH + 1, JOBS_OF_WIDTHS)
        yield Row(f'carried_values_of_{first}_to_{widths[-1]}_wires', RUN, of_widths(widths),
                  out=''.join(f'out 1 {value} c {words_of(width)}'.rstrip() + '\n' for value, width in enumerate(widths)))


# One party, which keeps all for itself.
ALONE = [
    Whole('job.toml', TOLERATING.replace('"a", "b", "c"', '"a"').replace('[["a"], ["b"], ["c"]]', '[[]]')
          + session('mul.txt', 'aa', ['a']) + session('mul.txt', ['@0.0', '@0.0'], ['a'])),
    party('a', ['5 7', '']),
]

CARRIED_RUNS = [
    Row('carried_product', RUN, CARRIED, out='out 1 0 c 105\n'),
    Row('view_of_a_carried_product', RUN + ['--view', 'c'], CARRIED, out='out 1 0 c 105\n' + OF_C),
    Row('check_of_a_carried_product', CHECK, CARRIED,
        out=GROUPS
            + 'session 0 gates 1 products 1 messages 26\n'
            'session 1 gates 1 products 1 messages 17\n'
            'words a 8\n'
            'words b 6\n'
            'words c 4\n'
            'messages 43\n'),
    Row('square_of_a_carried_sum', RUN,
        job([session('sums.txt', 'ab', ['']), session('nothing.txt', ['@0.0'], ['']), session('sums.txt', ['@1.0', '@0.0'], ['c'])],
            ['1 2', '', ''], ['10 20', '', ''], circuits=[SUMS, NOTHING]),
        out='out 2 0 c 22 44\n'),
    Row('carried_twice_in_one_session', RUN,
        job([session('mul.txt', 'ab', ['c']), session('square.txt', ['@0.0', '@0.0'], ['a'])], ['3', ''], ['4', ''], circuits=[SQUARE]),
        out='out 0 0 c 12\nout 1 0 a 144\n'),
    Row('carried_into_two_sessions', RUN,
        job([session('mul.txt', 'ab', ['']), session('mul.txt', ['@0.0', 'a'], ['c']), session('square.txt', ['@0.0', '@0.0'], ['b'])],
            ['3', '5', ''], ['4', '', ''], circuits=[SQUARE]),
        out='out 1 0 c 60\nout 2 0 b 144\n'),
    Row('direct_and_prepared_sessions_carry', RUN, mixed(8, [1, 2, 3, 4, 5, 6]), out='out 1 1 c 42\nout 2 0 a 210\nout 2 0 b 210\nout 2 1 c 105\n'),
    *(Row(f'direct_and_prepared_sessions_carry_{bits}_bits', RUN, mixed(bits, [2**bits - 1] * 6), out=text) for bits, text in [
        (1, 'out 1 1 c 0\nout 2 0 a 0\nout 2 0 b 0\nout 2 1 c 0\n'),
        (32, 'out 1 1 c 2\nout 2 0 a 4294967292\nout 2 0 b 4294967292\nout 2 1 c 4294967292\n'),
        (64, 'out 1 1 c 2\nout 2 0 a 18446744073709551612\nout 2 0 b 18446744073709551612\nout 2 1 c 18446744073709551612\n'),
    ]),
    Row('sixteen_sessions_that_carry', RUN, powers(16), out=f'out 15 0 b {3 * 5 * 7**15 % 256}\n'),
    *(Row(f'{workers}_workers_of_sixteen_sessions_that_carry', RUN + ['--workers', workers], powers(16), out=f'out 15 0 b {3 * 5 * 7**15 % 256}\n')
      for workers in ['2', '16']),
    Row('one_party_that_carries', RUN, ALONE, out='out 0 0 a 35\nout 1 0 a 201\n'),
]

CARRIED_PAIRS = [
    # The summand that a can't see grows by 10 at the product, and so does the one that is carried.
    Row('another_carried_product_is_hidden_from_a', ['pair', 'd', '--group', 'a'], [*CARRIED, NINE_OF_B],
        out='first\nout 1 0 c 105\n' + OF_A + 'second\nout 1 0 c 135\n' + OF_A
            + 'tape a 10 20 1 2 11 21 1 2\ntape b 32 40 229 4 79 4\ntape c 45 6 215 6\n'),
    # The summand that c can't see is no word of a tape.
    Row('other_factors_of_a_carried_product', ['pair', 'd', '--group', 'c'], [*CARRIED, OTHER_FACTORS],
        out='first\nout 1 0 c 105\n' + OF_C + 'second\nout 1 0 c 105\n' + OF_C
            + 'tape a 10 20 1 2 11 21 1 2\ntape b 30 40 3 4 3 4\ntape c 5 6 5 6\n'),
    Row('another_carried_product_is_no_secret_of_c', ['pair', 'd', '--group', 'c'], [*CARRIED, NINE_OF_B], status=3,
        err='refused pair 3 OutputDiffers session=1 wire=2 recipient=c first=105 second=135\n'),
]


def audited(name, old, new, fault=None, view=OF_C):
    """The audit of that view with another text in place of one of its lines."""
    changes = [*CARRIED, Whole('view.txt', view.replace(old, new))]
    if fault:
        return Row(name, ['audit', 'd'], changes, status=3, err=f'refused {fault}\n')
    return Row(name, ['audit', 'd'], changes, out=f'yes {view.count(chr(10)) - 1}\n')


# A kept summand is one of the lines, from a party to itself, and its word is that of the wire which is carried.
CARRIED_AUDITS = [
    audited('the_view_of_c_of_a_carried_product', '', ''),
    audited('the_view_of_a_of_a_carried_product', '', '', view=OF_A),
    audited('another_kept_word', '0 4 1 c c 12', '0 4 1 c c 13', 'view 4 WrongWord line=15 wanted=12 found=13'),
    audited('the_first_kept_word_is_another', '0 4 0 c c 9', '0 4 0 c c 0', 'view 4 WrongWord line=14 wanted=9 found=0'),
    audited('no_kept_word', '0 4 0 c c 9\n', '', 'view 3 WrongKey line=14'),
    audited('a_word_kept_by_another', '0 4 0 c c 9', '0 4 0 c b 9', 'view 3 WrongKey line=14'),
    audited('two_kept_words_exchanged', '0 4 0 c c 9\n0 4 1 c c 12\n', '0 4 1 c c 12\n0 4 0 c c 9\n', 'view 3 WrongKey line=14'),
    audited('a_kept_word_twice', '0 4 0 c c 9\n', '0 4 0 c c 9\n0 4 0 c c 9\n', 'view 3 WrongKey line=15'),
    audited('a_kept_word_that_differs_by_the_ring', '0 4 0 c c 9', '0 4 0 c c 265', 'view 4 WrongWord line=14 wanted=9 found=265'),
    audited('the_first_of_a_dealt_and_a_kept_word', '0 2 1 a c 2\n', '0 2 1 a c 3\n', 'view 4 WrongWord line=7 wanted=2 found=3',
            view=OF_C.replace('0 4 1 c c 12', '0 4 1 c c 13')),
    Row('a_view_that_ends_among_the_kept_words', ['audit', 'd'], [*CARRIED, Whole('view.txt', OF_C[:OF_C.index('0 4 1')])], status=3,
        err='refused view 5 FewLines found=13\n'),
    # The words that go on come from the opened files, and not from the view.
    Row('a_carried_product_of_another_input', ['audit', 'd'], [*CARRIED, party('a', ['6', '3'], 'tape = "10 20 1 2 11 21 1 2"'), Whole('view.txt', OF_C)],
        status=3, err='refused view 4 WrongWord line=26 wanted=105 found=84\n'),
    audited('a_carried_wire_that_is_dealt', '1 1 0 a c 11', '1 0 0 a c 9\n1 1 0 a c 11', 'view 3 WrongKey line=16'),
]

CARRIED_WIDTHS = list(width_rows())


def refused(name, sessions, fault, **changes):
    return Row(name, RUN, [*job(sessions, ['5', '3'], ['7', ''], **changes)], status=3, err=f'refused {fault}\n')


FIRST = session('mul.txt', 'ab', [''])

# What is carried must be there, in as many wires as the circuit takes. The first input value that can't have it is told, after the counts of
# owners and readers, and before the next session's file is read.
CARRIED_FAULTS = [
    refused('carried_value_that_is_not_there', [FIRST, session('mul.txt', ['@0.1', 'a'], ['c'])], 'session 3 CarryMissing session=1 wanted=1 found=1'),
    refused('carried_value_of_another_width', [FIRST, session('sums.txt', ['a', '@0.0'], ['c'])], 'session 4 CarryWidth session=1 wanted=2 found=1',
            circuits=[SUMS]),
    refused('carried_width_before_a_value_that_is_not_there', [FIRST, session('sums.txt', ['@0.0', '@0.7'], ['c'])],
            'session 4 CarryWidth session=1 wanted=2 found=1', circuits=[SUMS]),
    refused('value_that_is_not_there_before_a_carried_width', [FIRST, session('sums.txt', ['@0.1023', '@0.0'], ['c'])],
            'session 3 CarryMissing session=1 wanted=1023 found=1', circuits=[SUMS]),
    refused('too_few_owners_of_carried_values', [FIRST, session('mul.txt', ['@0.1'], ['c'])], 'session 1 OwnersDiffer session=1 wanted=2 found=1'),
    refused('too_few_readers_of_carried_values', [FIRST, session('mul.txt', ['@0.1', 'a'], [])], 'session 2 ReadersDiffer session=1 wanted=1 found=0'),
    refused('carried_value_that_is_not_there_before_the_next_file',
            [FIRST, session('mul.txt', ['@0.1', 'a'], ['c']), session('none.txt', 'ab', ['c'])], 'session 3 CarryMissing session=1 wanted=1 found=1'),
    Row('words_for_a_carried_value', RUN, [*CARRIED[:2], party('b', ['7', '35'], 'tape = "30 40 3 4 3 4"'), CARRIED[3]], status=3,
        err='refused party 6 CountDiffers file=party_b.toml session=1 wanted=0 found=1\n'),
]
