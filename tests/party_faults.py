"""Files of parties that are refused."""

from product import Edit, RUN, Row, Without

# A fault of a party file.
PARTY_FAULTS = [
    Row('a_tape_that_is_too_short', RUN,
        [Edit('party_a.toml', '10 20 1 2', '10 20 1')], status=3,
        err='refused party 11 TapeShort file=party_a.toml wanted=4 found=3\n'),
    Row('a_tape_word_outside_the_ring', RUN,
        [Edit('party_a.toml', '10 20 1 2', '10 256 1 2')], status=3,
        err='refused party 8 WordOutOfRing file=party_a.toml at=1\n'),
    Row('a_tape_word_of_two_to_64', RUN,
        [Edit('party_a.toml', '10 20 1 2', '10 20 1 18446744073709551616')], status=3,
        err='refused party 7 BadWords file=party_a.toml at=3 cause=TooLarge\n'),
    Row('a_tape_and_a_seed', RUN,
        [Edit('party_a.toml', 'tape', 'seed = "0000000000000000000000000000000000000000000000000000000000000000"\ntape')],
        status=3, err='refused party 9 TapeAndSeed file=party_a.toml\n'),
    Row('a_seed_of_63_digits', RUN,
        [Edit('party_a.toml', 'tape = "10 20 1 2"', 'seed = "000000000000000000000000000000000000000000000000000000000000000"')],
        status=3, err='refused party 10 BadSeed file=party_a.toml\n'),
    Row('two_inputs_for_one_wire', RUN,
        [Edit('party_a.toml', '5', '5 6')], status=3,
        err='refused party 6 CountDiffers file=party_a.toml session=0 wanted=1 found=2\n'),
    Row('an_input_that_is_no_number', RUN,
        [Edit('party_b.toml', '7', '5x')], status=3,
        err='refused party 7 BadWords file=party_b.toml session=0 at=0 cause=NotNumber\n'),
    Row('no_file_of_b', RUN,
        [Without('party_b.toml')], status=5, err='fault files file=party_b.toml\n'),
]
