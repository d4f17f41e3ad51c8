"""What a job's folder may hold that no script can go on with: changes of the files of the product."""

from product import CIRCUIT, Edit, SESSION, VERSION_2, Whole, Without

LONG = b'9' * 5_000

# Each with a name, and a folder or a link in place of a file as the text of where it leads.
FILES = [Without, lambda name: Whole(name, b''), lambda name: Whole(name, b'\xff\xfe\x00'), lambda name: Whole(name, bytes(100)),
         lambda name: Whole(name, b'\n' * 16_777_217)]

# A line of the job, and what stands in its place.
LINES = [
    ('version = 1', ['', 'version = 3', 'version = "1"', 'version = true', 'version = 1.0', 'version = ' + '9' * 5_000, 'version = [[1]']),
    ('ring_bits = 8', ['', 'ring_bits = 0', 'ring_bits = 65', 'ring_bits = -1', 'ring_bits = "8"', 'ring_bits = 8.0', 'ring_bits = 99999999999999999999',
                       'ring_bits = true', 'ring_bits = 1979-05-27', 'ring_bits = nan']),
    ('parties = ["a", "b", "c"]', ['', 'parties = []', 'parties = "abc"', 'parties = ["a", 2]', 'parties = ["a", "a"]', 'parties = ["../a", "b", "c"]',
                                   'parties = ["a\\nb", "b", "c"]', 'parties = {a = 1}', 'parties = [["a"]]', 'parties = ' + '[' * 5_000]),
    ('[[session]]', ['[session]', 'session = []\n[other]', 'session = [1]\n[other]', 'session = 5\n[other]', '[[session]]\n' * 17]),
    ('circuit = "mul.txt"', ['', 'circuit = 5', 'circuit = "../mul.txt"', 'circuit = ""', 'circuit = "none.txt"', 'circuit = "job.toml"',
                             'circuit = "mul\\u0000.txt"']),
    ('layout = "ring"', ['', 'layout = "Ring"', 'layout = ["ring"]', 'layout = {}', 'layout = "bristol"', 'layout = "expr"', 'layout = "numbers"']),
    ('owners = ["a", "b"]', ['', 'owners = ["a"]', 'owners = ["a", "x"]', 'owners = ["a", ["b"]]', 'owners = "ab"', 'owners = ["a", "b", "c"]']),
    ('readers = [["c"]]', ['', 'readers = ["c"]', 'readers = []', 'readers = [["x"]]', 'readers = [["c"], []]', 'readers = [[["c"]]]', 'readers = 1']),
]

CIRCUITS = ['1 3\n2 1 1\n', '1 3\nx 1 1\n1 1\n', '1 3\n2 1\n1 1\n', '1 3\n2 1 1 1\n1 1\n', '1 3\n-1\n1 1\n', '1 3\n2 1 1\n1 99999999999999999999\n',
            '1 3\n1025 1 1\n1 1\n', '1 3\n2 1 ' + '9' * 5_000 + '\n1 1\n', '1 3\n2 1 1.0\n1 1\n', '1 3\n2 131072 1\n1 1\n', CIRCUIT.replace('2 1 1', '1 1')]

# Programs of numbers that are none, that have other values, and in another ring.
NUMBERS = [*VERSION_2, Edit('job.toml', '"ring"', '"numbers"'), Edit('job.toml', 'ring_bits = 8', 'ring_bits = 1')]
PROGRAMS = [b'', b'\xff', b'input x 8\ninput y 65\noutput x', b'input x 8\ninput y 8\noutput x - y', b'input x 64\ninput y 64\noutput x * y', b'input x 8\ninput y 8',
            b'input x 8\noutput x', b'input x 8\ninput y 8\noutput ' + 33 * b'(', b'input x 8\n' * 1_025, b'output 1\n' * 1_025, b'output ' + LONG]

# A session behind the product's, which carries nothing that is there: no session, no value, not in this form, or in another width.
TWO = 'version = 2\nring_bits = 8\nparties = ["a", "b", "c"]\ntolerated = [[]]\n' + SESSION + SESSION.replace('mul.txt', 'next.txt').replace('"a"', '"{owner}"').replace('"c"', '"{reader}"')
CARRIES = ['@1.0', '@2.0', '@0.1', '@0.1024', '@00.0', '@0.00', '@0', '@0.0.0', ' @0.0', '@']
NEXT = [Whole('next.txt', text) for text in (CIRCUIT.encode(), b'1 4\n2 2 1\n1 1\n2 1 0 1 3 MUL\n')]

ODD_FOLDERS = [
    *[[Whole('job.toml', TWO.format(owner=carry, reader='c').encode()), NEXT[0]] for carry in CARRIES],
    [Whole('job.toml', TWO.format(owner='@0.0', reader='c').encode()), NEXT[1]],
    [Whole('job.toml', TWO.format(owner='@0.0', reader='@0.0').encode()), NEXT[0]],
    *[[change(name)] for name in ('job.toml', 'mul.txt') for change in FILES],
    *[[Edit('job.toml', line, other)] for line, others in LINES for other in others],
    *[[Whole('mul.txt', text.encode())] for text in CIRCUITS],
    *[[*NUMBERS, Whole('mul.txt', text)] for text in PROGRAMS],
]
