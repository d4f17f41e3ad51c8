"""Formulas, accepted and refused."""

import json

from accepted_runs import COUNTS_OF_A_PRODUCT
from product import CHECK, Edit, Row

# Formulas over a, b and c, and their faults.
WRONG = [
    ('a | | b', '1 Syntax at=4'),
    ('a & d', '2 UnknownName at=4'),
    ('3 of (a, b)', '3 BadCount at=0'),
    ('', '1 Syntax at=0'),
    (' a | ', '1 Syntax at=5'),
    ('a | of', '1 Syntax at=4'),
    ('(a, b)', '1 Syntax at=2'),
    ('a \u00a0', '1 Syntax at=2'),
    ('zz | (', '1 Syntax at=6'),
    ('3 of (zz, a)', '3 BadCount at=0'),
    ('zz | 0 of (a)', '2 UnknownName at=0'),
    ('a & 18446744073709551617 of (a)', '3 BadCount at=4'),
    (34 * '(' + 'a' + 33 * ')', '4 TooDeep at=32'),
    ('a' + 127 * '&a' + ' |\t', '1 Syntax at=258'),
    ('a' + 127 * '&a' + ' |\ta', '5 TooManyNodes at=258'),
    (1_000_000 * '(', '4 TooDeep at=32'),
]


def changes(formula):
    return [Edit('job.toml', '"2 of (a, b, c)"', json.dumps(formula))]


FORMULAS = [
    Row('two_of_three_in_other_words', CHECK, changes('02of(a,\tb,(c)\n)'), out=COUNTS_OF_A_PRODUCT),
    *(Row(f'{formula[:60]!r}', CHECK, changes(formula), status=3, err=f'refused formula {fault}\n') for formula, fault in WRONG),
]
