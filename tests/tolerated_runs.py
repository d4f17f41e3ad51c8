"""Jobs that list their tolerated groups."""

from product import CHECK, Edit, RUN, Row

# What the check writes where a, and b and c together, must learn nothing.
COUNTS_OF_FOUR_PARTIES = ('parties 4\n'
                          'groups 2\n'
                          'group 0 a\n'
                          'group 1 b+c\n'
                          'duty a 1\n'
                          'duty b 1\n'
                          'duty c 0\n'
                          'duty d 2\n'
                          'session 0 gates 1 products 1 messages 20\n'
                          'words a 2\n'
                          'words b 2\n'
                          'words c 0\n'
                          'words d 1\n'
                          'messages 20\n')

# Jobs of version 2.
TOLERATED = [
    Row('product_with_a_list', RUN,
        [Edit('job.toml', 'version = 1', 'version = 2'),
         Edit('job.toml', 'formula = "2 of (a, b, c)"', 'tolerated = [["a"], ["b"], ["c"]]')],
        out='out 0 0 c 35\n'),
    Row('check_of_a_list', CHECK,
        [Edit('job.toml', 'version = 1', 'version = 2'),
         Edit('job.toml', 'formula = "2 of (a, b, c)"', 'tolerated = [["a"], ["b"], ["c"]]')],
        out='parties 3\n'
            'groups 3\n'
            'group 0 a\n'
            'group 1 b\n'
            'group 2 c\n'
            'duty a 4\n'
            'duty b 3\n'
            'duty c 2\n'
            'session 0 gates 1 products 1 messages 21\n'
            'words a 4\n'
            'words b 4\n'
            'words c 2\n'
            'messages 21\n'),
    Row('groups_within_others_and_again', RUN,
        [Edit('job.toml', 'version = 1', 'version = 2'),
         Edit('job.toml', 'formula = "2 of (a, b, c)"', 'tolerated = [["c"], [], ["a"], ["b"], ["a"]]')],
        out='out 0 0 c 35\n'),
    Row('four_parties', CHECK,
        [Edit('job.toml', 'version = 1', 'version = 2'),
         Edit('job.toml', 'formula = "2 of (a, b, c)"', 'tolerated = [["b"], ["a"], ["b", "c"]]'),
         Edit('job.toml', 'parties = ["a", "b", "c"]', 'parties = ["a", "b", "c", "d"]')],
        out=COUNTS_OF_FOUR_PARTIES),
    Row('four_parties_in_another_list', CHECK,
        [Edit('job.toml', 'version = 1', 'version = 2'),
         Edit('job.toml', 'formula = "2 of (a, b, c)"', 'tolerated = [["b"], ["a"], ["c", "b"], ["a"]]'),
         Edit('job.toml', 'parties = ["a", "b", "c"]', 'parties = ["a", "b", "c", "d"]')],
        out=COUNTS_OF_FOUR_PARTIES),
    Row('groups_by_rising_mask', CHECK,
        [Edit('job.toml', 'version = 1', 'version = 2'),
         Edit('job.toml', 'formula = "2 of (a, b, c)"', 'tolerated = [["b"], [], ["c", "a"]]')],
        status=4, err='refused q2 1 Covering first=b second=a+c\n'),
    Row('both_parties_are_tolerated', CHECK,
        [Edit('job.toml', 'version = 1', 'version = 2'),
         Edit('job.toml', 'formula = "2 of (a, b, c)"', 'tolerated = [["a"], ["a", "b"]]'),
         Edit('job.toml', 'parties = ["a", "b", "c"]', 'parties = ["a", "b"]'),
         Edit('job.toml', '[["c"]]', '[["b"]]')],
        status=4, err='refused q2 1 Covering first=a+b second=a+b\n'),
    Row('all_parties_are_tolerated', CHECK,
        [Edit('job.toml', 'version = 1', 'version = 2'),
         Edit('job.toml', 'formula = "2 of (a, b, c)"', 'tolerated = [["a", "b", "c"]]')], status=4,
        err='refused q2 1 Covering first=a+b+c second=a+b+c\n'),
    Row('two_groups_are_all_parties', CHECK,
        [Edit('job.toml', 'version = 1', 'version = 2'),
         Edit('job.toml', 'formula = "2 of (a, b, c)"', 'tolerated = [["a"], ["b", "c"]]')],
        status=4, err='refused q2 1 Covering first=a second=b+c\n'),
    Row('no_group', CHECK,
        [Edit('job.toml', 'version = 1', 'version = 2'), Edit('job.toml', 'formula = "2 of (a, b, c)"', 'tolerated = []')],
        out='parties 3\n'
            'groups 1\n'
            'group 0 0\n'
            'duty a 1\n'
            'duty b 0\n'
            'duty c 0\n'
            'session 0 gates 1 products 1 messages 6\n'
            'words a 0\n'
            'words b 0\n'
            'words c 0\n'
            'messages 6\n'),
    Row('the_empty_group', CHECK,
        [Edit('job.toml', 'version = 1', 'version = 2'), Edit('job.toml', 'formula = "2 of (a, b, c)"', 'tolerated = [[]]')],
        out='parties 3\n'
            'groups 1\n'
            'group 0 0\n'
            'duty a 1\n'
            'duty b 0\n'
            'duty c 0\n'
            'session 0 gates 1 products 1 messages 6\n'
            'words a 0\n'
            'words b 0\n'
            'words c 0\n'
            'messages 6\n'),
    Row('a_stranger_in_a_group', CHECK,
        [Edit('job.toml', 'version = 1', 'version = 2'),
         Edit('job.toml', 'formula = "2 of (a, b, c)"', 'tolerated = [["a"], ["b", "x"]]')],
        status=3, err='refused job 15 BadTolerated value=1 at=1\n'),
    Row('a_party_twice_in_a_group', RUN,
        [Edit('job.toml', 'version = 1', 'version = 2'),
         Edit('job.toml', 'formula = "2 of (a, b, c)"', 'tolerated = [["a"], ["b"], ["c", "c"]]')],
        status=3, err='refused job 15 BadTolerated value=2 at=1\n'),
    Row('names_before_the_groups', RUN,
        [Edit('job.toml', 'version = 1', 'version = 2'),
         Edit('job.toml', 'formula = "2 of (a, b, c)"', 'tolerated = [["x"]]'),
         Edit('job.toml', 'parties = ["a", "b", "c"]', 'parties = ["a", "a", "c"]')], status=3,
        err='refused names 2 TwiceNamed at=1\n'),
    Row('groups_before_the_sessions', RUN,
        [Edit('job.toml', 'version = 1', 'version = 2'),
         Edit('job.toml', 'formula = "2 of (a, b, c)"', 'tolerated = [["x"]]'),
         Edit('job.toml', '"mul.txt"', '".mul.txt"')], status=3,
        err='refused job 15 BadTolerated value=0 at=0\n'),
    Row('a_group_that_is_no_list', RUN,
        [Edit('job.toml', 'version = 1', 'version = 2'), Edit('job.toml', 'formula = "2 of (a, b, c)"', 'tolerated = ["a"]')],
        status=3, err='refused job 5 WrongKind field=tolerated\n'),
    Row('a_formula_beside_the_list', RUN,
        [Edit('job.toml', 'version = 1', 'version = 2'),
         Edit('job.toml', 'formula = "2 of (a, b, c)"', 'tolerated = [["a"]]\nformula = "a"')],
        status=3, err='refused job 4 Unknown name=formula\n'),
    Row('no_list', RUN,
        [Edit('job.toml', 'version = 1', 'version = 2'),
         Edit('job.toml', 'formula = "2 of (a, b, c)"', 'tolerated = []'),
         Edit('job.toml', 'tolerated = []', '')], status=3,
        err='refused job 3 Missing field=tolerated\n'),
]
