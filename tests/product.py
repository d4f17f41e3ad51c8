"""The product of two words, and rows: calls of the program over changes of its files, each with its whole answer."""

RUN = ['run', 'd']
CHECK = ['check', 'd']

JOB = ('version = 1\n'
       'ring_bits = 8\n'
       'parties = ["a", "b", "c"]\n'
       'formula = "2 of (a, b, c)"\n'
       '[[session]]\n'
       'circuit = "mul.txt"\n'
       'layout = "ring"\n'
       'owners = ["a", "b"]\n'
       'readers = [["c"]]\n')

CIRCUIT = '1 3\n2 1 1\n1 1\n2 1 0 1 2 MUL\n'

# a gives 5 and b 7, and c reads the product.
PRODUCT = {
    'job.toml': JOB,
    'mul.txt': CIRCUIT,
    'party_a.toml': 'version = 1\ninputs = ["5"]\ntape = "10 20 1 2"\n',
    'party_b.toml': 'version = 1\ninputs = ["7"]\ntape = "30 40 3 4"\n',
    'party_c.toml': 'version = 1\ninputs = [""]\ntape = "5 6"\n',
}

# The lines of the job's session.
SESSION = ('[[session]]\n'
           'circuit = "mul.txt"\n'
           'layout = "ring"\n'
           'owners = ["a", "b"]\n'
           'readers = [["c"]]\n')

TWO_SESSIONS = 2 * SESSION

# A seed, which stands in place of a tape, and the tapes.
SEED = f'seed = "{64 * "0"}"'
TAPE_A = 'tape = "10 20 1 2"'
TAPE_B = 'tape = "30 40 3 4"'
TAPE_C = 'tape = "5 6"'


class Edit:
    """In a file the second text stands in place of the first, where that comes first."""

    def __init__(self, name, old, new):
        self.name, self.old, self.new = name, old, new

    def apply(self, files):
        if self.old not in files[self.name]:
            raise ValueError(f'{self.name} has no {self.old!r}')
        files[self.name] = files[self.name].replace(self.old, self.new, 1)


class Whole:
    """A file has these bytes. It may be one that the product doesn't have."""

    def __init__(self, name, data):
        self.name, self.data = name, data

    def apply(self, files):
        files[self.name] = self.data


# The changes that bring the product's job into version 2, with the same groups that must learn nothing.
VERSION_2 = [
    Edit('job.toml', 'version = 1', 'version = 2'),
    Edit('job.toml', 'formula = "2 of (a, b, c)"', 'tolerated = [["a"], ["b"], ["c"]]'),
]


class Without:
    """There is no such file."""

    def __init__(self, name):
        self.name = name

    def apply(self, files):
        del files[self.name]


def product_with(changes):
    """The bytes of the product's files with these changes, by their names."""
    files = dict(PRODUCT)
    for change in changes:
        change.apply(files)
    return {name: data if isinstance(data, bytes) else data.encode() for name, data in files.items()}


class Row:
    """The words of a call, and what is changed in the files of the product, which lie in a folder. Then its answer: the status, and all
    that is written on both outputs."""

    def __init__(self, name, words, changes=(), status=0, out='', err='', folder='d'):
        self.name, self.words, self.changes, self.folder = name, words, changes, folder
        self.status, self.out, self.err = status, out, err

    def files(self):
        return product_with(self.changes)
