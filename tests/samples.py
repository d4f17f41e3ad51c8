"""Jobs that are made from a number."""

from in_the_clear import OPERATE
from other_words import USAGE
from product import Row

OF_FIVE = ('sample 5\n'
           'products 1\n'
           'messages 31\n'
           'words a 6\n'
           'words b 6\n'
           'words c 2\n'
           'out 0 0 a 4294967156\n'
           'out 0 0 b 4294967156\n'
           'out 0 0 c 4294967156\n')

# Samples.
SAMPLES = [
    Row('a_sample_of_five_gates', ['sample', '5'], out=OF_FIVE),
    Row('a_number_with_zeros_before_it', ['sample', '005'], out=OF_FIVE),
    Row('a_sample_of_one_gate', ['sample', '1'],
        out='sample 1\n'
            'products 0\n'
            'messages 19\n'
            'words a 4\n'
            'words b 4\n'
            'words c 0\n'
            'out 0 0 a 6\n'
            'out 0 0 b 6\n'
            'out 0 0 c 6\n'),
    Row('a_sample_of_no_gate', ['sample', '0'], status=2, err=USAGE),
    Row('a_sample_past_the_limit', ['sample', '65537'], status=2, err=USAGE),
    Row('a_sample_of_no_number', ['sample', '5x'], status=2, err=USAGE),
    Row('a_sample_without_a_number', ['sample'], status=2, err=USAGE),
    Row('a_sample_and_a_folder', ['sample', '5', 'd'], status=2, err=USAGE),
]


def made_sample(count):
    """What the sample of this number writes: by the rule of its circuit, whose first two words a gives and the next two b, and of sharing
    among three parties of whom any two are qualified. An input wire takes two words of its owner's tape and four messages, a product two
    words of each party's tape and twelve messages, and an output that all read three messages."""
    words = [count * (wire + 1) % 2**32 for wire in range(4)]
    for gate in range(count):
        operation = ['MUL', 'ADD', 'SUB', 'NEG'][(gate + count) % 4]
        wires = [(7 * gate + count) % (gate + 4), (11 * gate + 3) % (gate + 4)]
        operands = [words[wire] for wire in (wires[:1] if operation == 'NEG' else wires)]
        words.append(OPERATE[operation](*operands) % 2**32)
    products = sum((gate + count) % 4 == 0 for gate in range(count))
    return (f'sample {count}\n'
            f'products {products}\n'
            f'messages {4 * 4 + 12 * products + 3}\n'
            f'words a {4 + 2 * products}\n'
            f'words b {4 + 2 * products}\n'
            f'words c {2 * products}\n'
            + ''.join(f'out 0 0 {party} {words[-1]}\n' for party in 'abc'))


# The largest one twice.
MADE_SAMPLES = [Row(f'a_sample_of_{count}_gates', ['sample', str(count)], out=made_sample(count))
                for count in [1, 2, 3, 4, 5, 1000, 65535, 65536, 65536]]
