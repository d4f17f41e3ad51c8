"""Jobs in rings of more than 32 bits."""

from product import Edit, RUN, Row

WIDE_RINGS = [
    Row('largest_words_of_64_bits', RUN,
        [Edit('job.toml', '8', '64'),
         Edit('party_a.toml', '5', '18446744073709551615'),
         Edit('party_a.toml', '10 20 1 2', '0 0 0 0'),
         Edit('party_b.toml', '7', '18446744073709551615'),
         Edit('party_b.toml', '30 40 3 4', '0 0 0 0'),
         Edit('party_c.toml', '5 6', '0 0')], out='out 0 0 c 1\n'),
    Row('ring_of_33_bits', RUN,
        [Edit('job.toml', '8', '33'), Edit('party_a.toml', '5', '4294967296')],
        out='out 0 0 c 4294967296\n'),
]
