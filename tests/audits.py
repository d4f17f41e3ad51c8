"""Written views that are audited: whole ones, and each fault of their table."""

from product import Edit, Row, Whole, Without
from views import SEEN_BY_C, VIEWS

AUDIT = ['audit', 'd']

# What a run writes of each of these views, behind the outputs.
OF_C = SEEN_BY_C.partition('\n')[2]
OF_ALL = next(row.out for row in VIEWS if row.name == 'view_of_all').partition('\n')[2]

LINES = OF_C.splitlines(keepends=True)


def lines(*changes):
    """The view of c with other texts in the places of some lines, by their numbers from 1."""
    changed = list(LINES)
    for number, text in changes:
        changed[number - 1] = text
    return ''.join(changed)


def yes(name, text, count, changes=()):
    """A view that is accepted."""
    return Row(name, AUDIT, [*changes, Whole('view.txt', text)], out=f'yes {count}\n')


def no(name, text, fault, changes=()):
    """A text that is refused."""
    return Row(name, AUDIT, [*changes, Whole('view.txt', text)], status=3, err=f'refused {fault}\n')


AUDITS = [
    yes('the_view_of_c', OF_C, 13),
    yes('the_view_of_all', OF_ALL, 21),
    yes('the_view_of_nobody', 'view 0\n', 0),
    yes('the_view_of_nobody_without_a_line_feed', 'view 0', 0),
    yes('lines_that_end_with_carriage_returns', OF_C.replace('\n', '\r\n'), 13),
    yes('a_last_line_without_a_line_feed', OF_C[:-1], 13),
    Row('no_view', AUDIT, status=5, err='fault files file=view.txt\n'),
    Row('a_file_of_a_party_is_looked_for_first', AUDIT, [Without('party_c.toml')], status=5, err='fault files file=party_c.toml\n'),
    no('a_faulty_job_comes_first', 'view', 'job 2 Version found=3', [Edit('job.toml', 'version = 1', 'version = 3')]),
    no('too_long_a_text', OF_C + (16777217 - len(OF_C)) * 'x', 'files 1 TooLong file=view.txt limit=16777216'),
    no('the_longest_text', OF_C + (16777216 - len(OF_C)) * 'x', 'view 6 ExtraLine line=15'),
]

FAULTY_VIEWS = [
    no('an_empty_text', '', 'view 1 BadHead'),
    no('an_empty_first_line', '\n' + OF_C, 'view 1 BadHead'),
    no('outputs_before_the_view', SEEN_BY_C, 'view 1 BadHead'),
    no('names_in_another_order', 'view c+a\n', 'view 1 BadHead'),
    no('a_name_twice', 'view a+a\n', 'view 1 BadHead'),
    no('a_name_of_nobody', 'view d\n', 'view 1 BadHead'),
    no('no_name', 'view \n', 'view 1 BadHead'),
    no('two_blanks_in_the_head', 'view  c\n', 'view 1 BadHead'),
    no('a_blank_behind_the_head', 'view c \n', 'view 1 BadHead'),
    no('a_carriage_return_that_no_line_feed_follows', 'view 0\r', 'view 1 BadHead'),
    no('two_carriage_returns', 'view 0\r\r\n', 'view 1 BadHead'),
    no('a_view_of_others', lines((1, 'view b\n')), 'view 3 WrongKey line=2'),
    no('a_view_of_more', lines((1, 'view a+c\n')), 'view 3 WrongKey line=2'),
    no('a_view_of_none_with_lines', lines((1, 'view 0\n')), 'view 6 ExtraLine line=2'),
    no('a_wrong_word', lines((6, '0 2 0 a c 2\n')), 'view 4 WrongWord line=6 wanted=1 found=2'),
    no('the_last_word_is_wrong', lines((14, '0 3 2 a c 15\n')), 'view 4 WrongWord line=14 wanted=14 found=15'),
    no('a_word_that_differs_by_the_ring', lines((6, '0 2 0 a c 257\n')), 'view 4 WrongWord line=6 wanted=1 found=257'),
    no('the_greatest_word', lines((6, '0 2 0 a c 18446744073709551615\n')), 'view 4 WrongWord line=6 wanted=1 found=18446744073709551615'),
    no('a_word_past_64_bits', lines((6, '0 2 0 a c 18446744073709551616\n')), 'view 2 BadLine line=6'),
    no('the_first_of_two_wrong_words', lines((6, '0 2 0 a c 2\n'), (7, '0 2 1 a c 3\n')), 'view 4 WrongWord line=6 wanted=1 found=2'),
    no('a_wrong_word_of_another_message', lines((6, '0 2 1 a c 9\n')), 'view 3 WrongKey line=6'),
    no('a_word_with_a_zero_before_it', lines((6, '0 2 0 a c 01\n')), 'view 2 BadLine line=6'),
    no('a_slot_with_a_zero_before_it', lines((6, '0 02 0 a c 1\n')), 'view 2 BadLine line=6'),
    no('a_long_summand', lines((6, '0 2 99999999999999999999999 a c 1\n')), 'view 3 WrongKey line=6'),
    no('two_blanks', lines((6, '0 2 0 a  c 1\n')), 'view 2 BadLine line=6'),
    no('a_tab', lines((6, '0 2 0 a\tc 1\n')), 'view 2 BadLine line=6'),
    no('a_blank_at_the_end', lines((6, '0 2 0 a c 1 \n')), 'view 2 BadLine line=6'),
    no('five_parts', lines((6, '0 2 0 a c\n')), 'view 2 BadLine line=6'),
    no('a_signed_word', lines((6, '0 2 0 a c +1\n')), 'view 2 BadLine line=6'),
    no('an_empty_line', lines((6, '\n' + LINES[5])), 'view 2 BadLine line=6'),
    no('two_lines_exchanged', lines((2, LINES[2]), (3, LINES[1])), 'view 3 WrongKey line=2'),
    no('a_line_twice', lines((2, LINES[1] + LINES[1])), 'view 3 WrongKey line=3'),
    no('a_name_in_capitals', lines((2, '0 0 0 A c 10\n')), 'view 3 WrongKey line=2'),
    no('no_last_line', lines((14, '')), 'view 5 FewLines found=12'),
    no('the_head_alone', 'view c\n', 'view 5 FewLines found=0'),
    no('an_empty_line_at_the_end', OF_C + '\n', 'view 6 ExtraLine line=15'),
    no('a_further_line', OF_C + LINES[13], 'view 6 ExtraLine line=15'),
    no('a_further_line_that_is_no_text', OF_C.encode() + b'\xff\x00', 'view 6 ExtraLine line=15'),
    no('bytes_that_are_no_text', lines((2, '')).encode().replace(b'0 0 1 a', b'0 0 1 \xff'), 'view 3 WrongKey line=2'),
    no('a_line_of_a_megabyte', lines((3, 1000000 * '7' + '\n')), 'view 2 BadLine line=3'),
    no('no_line_feed_at_all', OF_C.replace('\n', ' '), 'view 1 BadHead'),
    no('bytes_of_zero', OF_C.replace('10', '\0'), 'view 2 BadLine line=2'),
    no('two_million_lines', OF_C + 2000000 * '\n', 'view 6 ExtraLine line=15'),
    no('two_million_lines_instead', LINES[0] + 2000000 * '0\n', 'view 2 BadLine line=2'),
    no('another_input', OF_C, 'view 4 WrongWord line=14 wanted=21 found=14', [Edit('party_a.toml', '["5"]', '["6"]')]),
]
