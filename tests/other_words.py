"""Words that are no command."""

from accepted_runs import COUNTS_OF_A_PRODUCT
from product import Edit, Row

# The text on `err` for each of them.
USAGE = ('refused words\n'
         'usage: mpc check DIR\n'
         '       mpc run DIR [--workers W] [--view GROUP]\n'
         '       mpc pair DIR --group GROUP\n'
         '       mpc node DIR NAME\n'
         '       mpc sample N\n'
         '       mpc audit DIR\n')

# The lines that let the parties of the product be nodes.
PLACES = [Edit('job.toml', '[[session]]\n', 'hosts = ["first.example", "second.example", "third.example"]\nport = 4000\n[[session]]\n')]

OTHER_COUNTS_OF_WORKERS = ['0', '00', '17', '', '-1', '+2', '2 ', 'x', '18446744073709551617']
OTHER_COUNTS_OF_GATES = ['0', '65537', 'x', '5x', '4294967297']

REFUSED = [
    [],
    ['run'],
    ['run', ''],
    ['run', '-d'],
    ['Run', 'd'],
    ['d'],
    ['walk', 'd'],
    ['--help', 'd'],
    ['run', 'd', 'd'],
    ['run', 'd', '--workers'],
    ['run', 'd', '--worker', '2'],
    ['run', '--workers', '2', 'd'],
    ['run', 'd', '--workers', '2', '--workers', '2'],
    *(['run', 'd', '--workers', count] for count in OTHER_COUNTS_OF_WORKERS),
    ['check', 'd', '--workers', '2'],
    ['check', 'd', '--view', 'a'],
    ['run', 'd', '--view'],
    ['run', 'd', '--view', ''],
    ['run', 'd', '--view', '-a'],
    ['run', 'd', '--view', '--workers'],
    ['run', 'd', '--view=a'],
    ['run', 'd', '--view', 'a', '--view', 'b'],
    ['run', 'd', '--view', 'a', '--workers', '17'],
    ['run', '--view', 'a', 'd'],
    ['pair', 'd'],
    ['pair', 'd', '--group'],
    ['pair', 'd', '--view', 'a'],
    ['pair', 'd', '--group', '-a'],
    ['node', 'd'],
    ['node', 'd', '-a'],
    ['node', 'd', 'a', 'b'],
    ['node', 'd', 'a', '--view'],
    ['node', 'd', 'a', '--view', 'a'],
    ['node', 'd', '--view', 'a'],
    ['node', 'd', '--view'],
    ['sample'],
    ['sample', '5', 'd'],
    ['audit'],
    ['audit', ''],
    ['audit', '-d'],
    ['audit', 'd', 'view.txt'],
    ['audit', 'd', '--view', 'a'],
    ['Audit', 'd'],
    *(['sample', count] for count in OTHER_COUNTS_OF_GATES),
]

OTHER_WORDS = [
    *(Row(' '.join(words), words, status=2, err=USAGE) for words in REFUSED),
    Row('a_word_that_is_no_text', ['run', 'd', b'\xff'], status=2, err=USAGE),
    Row('a_folder_within_another', ['run', 'jobs/first'], out='out 0 0 c 35\n', folder='jobs/first'),
    Row('a_folder_with_a_blank', ['check', 'a b'], out=COUNTS_OF_A_PRODUCT, folder='a b'),
    *(Row(f'{count}_workers', ['run', 'd', '--workers', count], out='out 0 0 c 35\n') for count in ['1', '16', '05', 30 * '0' + '2']),
    Row('workers_and_a_view_of_none', ['run', 'd', '--workers', '3', '--view', '0'], out='out 0 0 c 35\nview 0\n'),
    Row('a_node_of_nobody', ['node', 'd', 'anna'], PLACES, status=3, err='refused name 1 UnknownParty\n'),
]
