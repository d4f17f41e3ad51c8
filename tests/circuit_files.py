"""Circuits in both layouts, accepted and refused."""

from product import CHECK, CIRCUIT, Edit, RUN, Row, Whole

# The product once more, in other words.
ACCEPTED_CIRCUITS = [
    b'1 3\r\n2  1\t1\r\n\r\n \n1 1\r\n\t2 1 0  1 2 MUL \r\n',
    b'\n\n1 3\n\n2 1 1\n\n1 1\n\n2 1 0 1 2 MUL',
    b'01 003\n2 1 1\n1 1\n2 1 0 01 2 MUL\n\n',
    b'1 3\n2 1 1\n1 1\n\r\n\t2\t1  0\t\t1 00000000000000000002\tMUL',
    b'\n \r\n\t01  0003\t\r\n2\t1 1\n1 1\n \t\r\n2 1 0 1 2\tMUL \r\n\n',
]

# Tokens that are no number below 2 to 64.
NO_NUMBERS = [b'18446744073709551616', b'99999999999999999999', b'000000000000000000000x', b'1x', b'+1', b'-1', b'1_000',
              b'0x1', b'1\x0b', b'1\x0c2', b'\xc2\xa01']

# Circuits of words, and their faults.
RING_FAULTS = [
    (b'2 3\n2 1 1\n1 1\n2 1 0 1 2 ADD\n1 1 0 2 NEG\n', '14 SetTwice', 'line=5'),
    (b'0 3\n2 1 1\n1 1\n', '15 OutputNotSet', 'wire=2'),
    (b'1 3\n2 1 1\n1 1\n2 1 0 3 2 ADD\n', '12 WireOutOfRange', 'line=4'),
    (b'1 3\n2 1 1\n1 1\n2 1 0 2 2 ADD\n', '13 ReadBeforeSet', 'line=4'),
    (b'1 3\n2 1 1\n1 1\n1 1 256 2 EQ\n', '11 BadConstant', 'line=4'),
    (b'1 3\n2 1 1\n1 1\n2 1 0 1 2 AND\n', '9 UnknownOperation', 'line=4'),
    (b'1 3\n2 1 1\n1 1\n1 1 0 2 ADD\n', '10 WrongArity', 'line=4'),
    (b'1 3\n2 1 1\n1 1\n2 1 0 1 2\n', '3 ShortLine', 'line=4'),
    (b'1 3\n2 1 1\n1 1\n\n2 1 0 1 2 MUL 2\n', '4 LongLine', 'line=5'),
    (b'1 3\n2 1 1\n1 1\n2 1 0 1 2x MUL\n', '2 BadNumber', 'line=4'),
    (b'1 3\n2 1 1\n1 1\n3 1 0 1 1 2 MUL\n', '10 WrongArity', 'line=4'),
    (b'1 3\n2 1 1\n1 1\n0 1 2 EQ\n', '10 WrongArity', 'line=4'),
    (b'1 3\n2 1 1\n1 1\n', '5 FewLines', 'found=3'),
    (b'1 3\n2 1 1\n1 1\n2 1 0 1 2 MUL\nx\n', '6 ExtraLine', 'line=5'),
    (b'1 1\n2 1 1\n1 1\n2 1 0 1 2 MUL\n', '8 HeaderWidths', 'line=2'),
    (b'70000 3\n2 1 1\n1 1\n2 1 0 1 2 MUL\n', '7 TooLarge', 'line=1'),
    (b'1 3\n2 18446744073709551615 1\n1 1\n2 1 0 1 2 MUL\n', '8 HeaderWidths', 'line=2'),
    (b'1 3\n18446744073709551615 1 1\n1 1\n', '7 TooLarge', 'line=2'),
    (b'1 3\n2 1 1\n1 1\n18446744073709551615 18446744073709551615 0 1 2 MUL\n', '3 ShortLine', 'line=4'),
    (b'1 3 +\n', '4 LongLine', 'line=1'),
    (b'1 3\n2 1 1\n1 1\n1 1 18446744073709551615 2 EQ', '11 BadConstant', 'line=4'),
    (b'1 3\n2 1 1\n1 1\n1 1 18446744073709551616 2 EQ', '2 BadNumber', 'line=4'),
    (b'1 3\n2\xff1 1\n1 1\n2 1 0 1 2 MUL\n', '1 NotUtf8', 'at=5'),
    *((token + b' 3\n', '2 BadNumber', 'line=1') for token in NO_NUMBERS),
    *((b'1 3\n2 1 ' + token, '2 BadNumber', 'line=2') for token in NO_NUMBERS),
    *((b'1 3\n2 1 1\n1 1\n1 1 ' + token + b' 2 EQ\n', '2 BadNumber', 'line=4') for token in NO_NUMBERS),
    # Lines without tokens count.
    (b'1 3\r\n\n \t\r\n2  1\t', '3 ShortLine', 'line=4'),
    (b'1 3\r\n\n \t\r\n2  1\t1', '5 FewLines', 'found=2'),
    (b'\n \r\n\t1  0003\tADD \r\n', '4 LongLine', 'line=3'),
    (b'\n \r\n\t1  ADD\t\r\n', '2 BadNumber', 'line=3'),
    (b'\n \r\n\t1  0003\t\r\n18446744073709551615 x', '7 TooLarge', 'line=4'),
    # Of the faults of a gate the first is told, and of two gates that of the first.
    (b'1 5\n2 1 1\n1 1\n1 1 0 4 MUL\n', '10 WrongArity', 'line=4'),
    (b'1 5\n2 1 1\n1 1\n1 2 9 0 1 EQW\n', '10 WrongArity', 'line=4'),
    (b'1 5\n2 1 1\n1 1\n1 1 256 9 EQ\n', '11 BadConstant', 'line=4'),
    (b'1 5\n2 1 1\n1 1\n2 1 3 5 0 ADD\n', '12 WireOutOfRange', 'line=4'),
    (b'1 5\n2 1 1\n1 1\n1 1 3 5 NEG\n', '12 WireOutOfRange', 'line=4'),
    (b'2 2\n1 1\n1 1\n1 1 0 0 EQW\n1 1 0 0 EQW\n', '14 SetTwice', 'line=4'),
    (b'2 3\n2 1 1\n1 1\n1 1 0 0 EQW\n2 1 0 9 2 ADD\n', '14 SetTwice', 'line=4'),
    # Counts and widths of headers.
    (b'18446744073709551615 18446744073709551615\n0\n0\n', '7 TooLarge', 'line=1'),
    (b'65537 3\n', '7 TooLarge', 'line=1'),
    (b'0 131073\n0\n0\n', '7 TooLarge', 'line=1'),
    (b'0 3\n2 18446744073709551615 0\n2 4 1\n', '8 HeaderWidths', 'line=2'),
    (b'0 3\n2 3 0\n\n2 18446744073709551615 1\n', '8 HeaderWidths', 'line=4'),
]

# Circuits of bits, and their faults.
BIT_FAULTS = [
    (CIRCUIT.encode(), '9 UnknownOperation', 'line=4'),
    (b'1 2\n1 1\n1 1\n1 1 2 1 EQ\n', '11 BadConstant', 'line=4'),
    (b'1 2\n1 1\n1 1\n1 1 0 0 INV\n', '14 SetTwice', 'line=4'),
    (b'1 5\n2 1 1\n1 1\n1 1 4 4 INV\n', '13 ReadBeforeSet', 'line=4'),
    (b'1 5\n2 1 1\n1 1\n2 1 0 1 1 XOR\n', '14 SetTwice', 'line=4'),
    (b'1 5\n2 1 1\n1 1\n2 1 0 1 3 AND\n', '15 OutputNotSet', 'wire=4'),
]

BITS = [Edit('job.toml', '8', '1'), Edit('job.toml', '"ring"', '"bristol"')]
TWO_BITS = [Edit('party_a.toml', '5', '1'), Edit('party_a.toml', '10 20 1 2', '1 0 1 1'), Edit('party_b.toml', '7', '1'),
            Edit('party_b.toml', '30 40 3 4', '0 1 0 1'), Edit('party_c.toml', '5 6', '1 0')]


NO_WIRES = [Whole('mul.txt', b'0 0\n0\n0'), Edit('job.toml', '["a", "b"]', '[]'), Edit('job.toml', '[["c"]]', '[]'),
            Edit('party_a.toml', '5', ''), Edit('party_b.toml', '7', '')]


def refused(changes, data, fault, key):
    return Row(f'{data!r}', RUN, [*changes, Whole('mul.txt', data)], status=3,
               err=f'refused circuit {fault} file=mul.txt session=0 {key}\n')


CIRCUIT_FILES = [
    *(Row(f'{data!r}', RUN, [Whole('mul.txt', data)], out='out 0 0 c 35\n') for data in ACCEPTED_CIRCUITS),
    *(refused([], *fault) for fault in RING_FAULTS),
    *(refused(BITS, *fault) for fault in BIT_FAULTS),
    Row('a_run_without_wires', RUN, NO_WIRES),
    Row('as_many_wires_as_there_may_be', RUN, [*NO_WIRES, Whole('mul.txt', b'0 131072\n0\n0\n')]),
    Row('the_counts_without_wires', CHECK, NO_WIRES,
        out='parties 3\n'
            'groups 3\n'
            'group 0 a\n'
            'group 1 b\n'
            'group 2 c\n'
            'duty a 4\n'
            'duty b 3\n'
            'duty c 2\n'
            'session 0 gates 0 products 0 messages 0\n'
            'words a 0\n'
            'words b 0\n'
            'words c 0\n'
            'messages 0\n'),
    Row('a_product_in_a_ring_of_one_bit', RUN, [BITS[0], *TWO_BITS], out='out 0 0 c 1\n'),
    Row('a_sum_of_bits', RUN, [*BITS, *TWO_BITS, Edit('mul.txt', 'MUL', 'XOR')], out='out 0 0 c 0\n'),
]
