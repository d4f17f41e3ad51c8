"""Files of jobs whose faults are told in order: of the top table, its versions, its fields, its sessions, hosts, ports, frames and views."""

from accepted_runs import COUNTS_OF_A_PRODUCT
from product import CHECK, Edit, JOB, RUN, Row, VERSION_2, Whole

TOP = 'version = 1\nring_bits = 8\nparties = ["a", "b", "c"]\nformula = "2 of (a, b, c)"\n'
SESSION = '[[session]]\ncircuit = "mul.txt"\nlayout = "ring"\nowners = ["a", "b"]\nreaders = [["c"], []]\n'
NO_SESSION = 'session = []\n'
BITS_70 = 'version = 1\nring_bits = 70\n'
BITS_64 = 'version = 1\nring_bits = 64\n'
REST = 'formula = ""\nsession = []\n'
THIRTEEN = 'parties = ["a", "b", "c", "d", "e", "f", "g", "h", "i", "j", "k", "l", "m"]\n'
BAD_SESSION = '[[session]]\nlayout = "expr"\nowners = ["a", "d"]\nreaders = [["a", "a"]]\n'
GOOD_SESSION = '[[session]]\ncircuit = "m"\nlayout = "bristol"\n'
BAD_HOSTS = 'hosts = ["x", ""]\nport = 65393\n'
LISTED = 'version = 2\nring_bits = 8\nparties = ["a", "b", "c"]\n'
TOLERATING = LISTED + 'tolerated = [["a"]]\n'

# Texts, and the faults that are told of them.
VERSIONS = [
    ('', 'job 3 Missing field=version'),
    ('version = ', 'job 1 NotToml'),
    ('version = 9223372036854775808\n', 'job 1 NotToml'),
    ('version = 9223372036854775807\n', 'job 2 Version found=9223372036854775807'),
    ('Version = 1\n', 'job 3 Missing field=version'),
    ('other = 1\n', 'job 3 Missing field=version'),
    ('version = "1"\nother = 1\n', 'job 5 WrongKind field=version'),
    ('version = -2\nother = 1\n', 'job 2 Version found=-2'),
    ('version = -9223372036854775808\n', 'job 2 Version found=-9223372036854775808'),
    ('version = 3\n', 'job 2 Version found=3'),
]

# The least unknown field. A character of a name that may not stand in a line is told as a question mark for each of its bytes.
UNKNOWN_FIELDS = [
    ('version = 1\nzoo = 1\n"\u00e9 ?" = 1\n', 'job 4 Unknown name=zoo'),
    ('version = 1\n"\u00e9 ?" = 1\n', 'job 4 Unknown name=????'),
    ('version = 1\nb = 1\na = 2\nc = 3\nB = 4\n', 'job 4 Unknown name=B'),
    ('version = 1\nc = 3\nb = 1\n', 'job 4 Unknown name=b'),
    ('version = 1\nring_bits = 8\nport = 1\nringbits = 8\n', 'job 4 Unknown name=ringbits'),
]

TOP_FIELDS = [
    ('version = 1\nring_bits = "8"\n', 'job 5 WrongKind field=ring_bits'),
    (BITS_70 + 'parties = "a"\n', 'job 5 WrongKind field=parties'),
    (BITS_70 + 'parties = []\nformula = ["a"]\n', 'job 5 WrongKind field=formula'),
    (BITS_70 + 'parties = []\nformula = 1\n', 'job 5 WrongKind field=formula'),
    (BITS_70 + 'parties = []\nformula = "a"\nhosts = ["x", 1]\n', 'job 5 WrongKind field=hosts'),
    (BITS_70 + 'parties = []\nformula = "a"\nsession = [1]\n', 'job 5 WrongKind field=session'),
    (BITS_70 + 'parties = []\nformula = "a"\n[session]\nx = 1\n', 'job 5 WrongKind field=session'),
    (BITS_70 + 'parties = ["a", 1]\n', 'job 5 WrongKind field=parties'),
    (BITS_70 + 'parties = []\nformula = "a"\nport = "x"\n', 'job 5 WrongKind field=port'),
    (BITS_70 + 'parties = []\nformula = "a"\n', 'job 3 Missing field=session'),
]

BITS_AND_NAMES = [
    ('version = 1\nring_bits = 65\nparties = []\n' + REST, 'job 6 BadRing bits=65'),
    ('version = 1\nring_bits = 0\nparties = []\n' + REST, 'job 6 BadRing bits=0'),
    ('version = 1\nring_bits = -5\nparties = []\n' + REST, 'job 6 BadRing bits=-5'),
    (BITS_64 + 'parties = ["a", "b", "a"]\n' + REST, 'names 2 TwiceNamed at=2'),
    (BITS_64 + 'parties = ["a", "a", "of"]\n' + REST, 'names 2 TwiceNamed at=1'),
    (BITS_64 + 'parties = ["of"]\n' + REST, 'names 1 BadName at=0'),
    (BITS_64 + THIRTEEN + REST, 'names 3 PartyCount count=13'),
    (BITS_64 + 'parties = ["a"]\n' + REST, 'job 12 SessionCount count=0'),
    (TOP + 17 * SESSION, 'job 12 SessionCount count=17'),
]

SESSION_FIELDS = [
    (TOP + SESSION + '[[session]]\nx = 1\n', 'job 4 Unknown session=1 name=x'),
    (TOP + SESSION + '[[session]]\nlayout = 1\n', 'job 3 Missing session=1 field=circuit'),
    (TOP + SESSION + '[[session]]\ncircuit = "."\nlayout = 1\n', 'job 5 WrongKind session=1 field=layout'),
    (TOP + SESSION + '[[session]]\ncircuit = "."\nlayout = ""\nowners = ["a", 1]\n', 'job 5 WrongKind session=1 field=owners'),
    (TOP + SESSION + '[[session]]\ncircuit = "."\nlayout = ""\nowners = [["a"]]\n', 'job 5 WrongKind session=1 field=owners'),
    (TOP + SESSION + '[[session]]\ncircuit = "."\nlayout = ""\nowners = []\nreaders = ["a"]\n', 'job 5 WrongKind session=1 field=readers'),
    (TOP + SESSION + '[[session]]\ncircuit = "."\nlayout = ""\nowners = []\nreaders = [["a"], [], ["b", 1]]\n',
     'job 5 WrongKind session=1 field=readers'),
]

SESSION_VALUES = [
    (TOP + SESSION + BAD_SESSION + 'circuit = ".mul.txt"\n', 'job 10 BadFileName session=1'),
    (TOP + SESSION + BAD_SESSION + 'circuit = "a/b"\n', 'job 10 BadFileName session=1'),
    (TOP + SESSION + BAD_SESSION + 'circuit = "mul-2_b.txt"\n', 'job 11 BadLayout session=1'),
    (TOP + SESSION + GOOD_SESSION + 'owners = ["a", "d"]\nreaders = [["a", "a"]]\n', 'job 7 BadOwner session=1 at=1'),
    (TOP + SESSION + GOOD_SESSION + 'owners = []\nreaders = [[], ["b", "a", "b"]]\n', 'job 8 BadReader session=1 value=1 at=2'),
    (TOP + SESSION + GOOD_SESSION + 'owners = []\nreaders = [["zz"]]\n', 'job 8 BadReader session=1 value=0 at=0'),
]

# Products are told in version 2 alone, after the layout and before the owners.
PRODUCTS = [
    (TOP + SESSION + 'products = "direct"\n', 'job 4 Unknown session=0 name=products'),
    (TOP + SESSION + 'products = "ahead"\n', 'job 4 Unknown session=0 name=products'),
    (TOLERATING + '[[session]]\ncircuit = "."\nlayout = ""\nproducts = ["prepared"]\n', 'job 5 WrongKind session=0 field=products'),
    (TOLERATING + '[[session]]\ncircuit = "."\nlayout = ""\nproducts = ""\n', 'job 3 Missing session=0 field=owners'),
    (TOLERATING + SESSION + 'products = "prepared"\n' + SESSION + 'products = "Direct"\n', 'job 17 BadProducts session=1'),
    (TOLERATING + SESSION + 'products = ""\n', 'job 17 BadProducts session=0'),
    (TOLERATING + BAD_SESSION.replace('expr', 'none') + 'circuit = "m"\nproducts = ""\n', 'job 11 BadLayout session=0'),
    (TOLERATING + BAD_SESSION + 'circuit = "m"\nproducts = ""\n', 'job 17 BadProducts session=0'),
    (TOLERATING + BAD_SESSION + 'circuit = "m"\nproducts = "prepared"\n', 'job 7 BadOwner session=0 at=1'),
    (TOLERATING + BAD_SESSION + 'circuit = "m"\nproducts = "ahead"\n', 'job 7 BadOwner session=0 at=1'),
    *((TOLERATING + SESSION + 'products = "ahead"\n' + SESSION + f'products = "{text}"\n', 'job 17 BadProducts session=1')
      for text in ['Ahead', 'ahea', 'aheads', ' ahead', 'prepared ahead']),
]

# The order of the gates is told in version 2 alone, after the products and before the owners.
ORDERS = [
    (TOP + SESSION + 'order = "file"\n', 'job 4 Unknown session=0 name=order'),
    (TOP + SESSION + 'products = "direct"\norder = "layers"\n', 'job 4 Unknown session=0 name=order'),
    (TOLERATING + 'order = "layers"\n' + SESSION, 'job 4 Unknown name=order'),
    (TOLERATING + SESSION + 'orders = "layers"\n', 'job 4 Unknown session=0 name=orders'),
    *((TOLERATING + f'[[session]]\ncircuit = "."\nlayout = ""\norder = {value}\n', 'job 5 WrongKind session=0 field=order')
      for value in ['["layers"]', '[]', '1', 'true', '1\nproducts = ""\nowners = 1']),
    (TOLERATING + '[[session]]\ncircuit = "."\nlayout = ""\norder = 1\nproducts = 1\n', 'job 5 WrongKind session=0 field=products'),
    (TOLERATING + '[[session]]\ncircuit = "."\norder = 1\n', 'job 3 Missing session=0 field=layout'),
    (TOLERATING + '[[session]]\ncircuit = "."\nlayout = ""\norder = ""\n', 'job 3 Missing session=0 field=owners'),
    (TOLERATING + '[[session]]\ncircuit = "."\nlayout = ""\norder = ""\nowners = []\nreaders = 1\n', 'job 5 WrongKind session=0 field=readers'),
    (TOLERATING + BAD_SESSION.replace('expr', 'none') + 'circuit = "m"\norder = ""\n', 'job 11 BadLayout session=0'),
    (TOLERATING + BAD_SESSION + 'circuit = "m"\norder = ""\nproducts = ""\n', 'job 17 BadProducts session=0'),
    (TOLERATING + BAD_SESSION + 'circuit = "m"\norder = ""\nproducts = "ahead"\n', 'job 22 BadOrder session=0'),
    (TOLERATING + BAD_SESSION + 'circuit = "m"\norder = ""\n', 'job 22 BadOrder session=0'),
    (TOLERATING + BAD_SESSION + 'circuit = "m"\norder = "file"\n', 'job 7 BadOwner session=0 at=1'),
    (TOLERATING + BAD_SESSION + 'circuit = "m"\norder = "layers"\n', 'job 7 BadOwner session=0 at=1'),
    (TOLERATING + BAD_SESSION.replace('"d"', '"a"') + 'circuit = "m"\norder = "layer"\n', 'job 22 BadOrder session=0'),
    (TOLERATING + BAD_SESSION.replace('"d"', '"a"') + 'circuit = "m"\norder = "layers"\n', 'job 8 BadReader session=0 value=0 at=1'),
    (TOLERATING + BAD_SESSION + 'circuit = "m"\norder = "file"\n' + SESSION + 'order = ""\n', 'job 7 BadOwner session=0 at=1'),
    (TOLERATING + 2 * (SESSION + 'order = ""\n'), 'job 22 BadOrder session=0'),
    *((TOLERATING + SESSION + 'order = "layers"\n' + SESSION + f'order = "{text}"\n', 'job 22 BadOrder session=1')
      for text in ['', 'Layers', 'LAYERS', 'layer', 'layerss', ' layers', 'layers ', 'by layers', 'File', 'fil', 'files', 'ahead', 'layers\\u0000']),
]

# In version 2 an owner may be an output value below 1,024 of an earlier session, in numbers without leading zeros. Whatever else begins with an
# at sign is told apart from what is no party; the first of both is told.
CARRIES = [
    (TOP + SESSION + GOOD_SESSION + 'owners = ["@0.0"]\nreaders = []\n', 'job 7 BadOwner session=1 at=0'),
    (TOLERATING + GOOD_SESSION + 'owners = ["a", "@0.0"]\nreaders = []\n', 'job 18 BadCarry session=0 at=1'),
    *((TOLERATING + SESSION + GOOD_SESSION + f'owners = ["{text}"]\nreaders = []\n', 'job 18 BadCarry session=1 at=0')
      for text in ['@1.0', '@00.0', '@0.00', '@0.01', '@0.1024', '@0.18446744073709551616', '@', '@0', '@0.', '@.0', '@0.0.0', '@0.0 ', '@ 0.0',
                   '@+0.0', '@a.0']),
    (TOLERATING + SESSION + GOOD_SESSION + 'owners = ["@0.0", "d", "@1.0"]\nreaders = []\n', 'job 7 BadOwner session=1 at=1'),
    (TOLERATING + SESSION + GOOD_SESSION + 'owners = ["@0.0", "@1.0", "d"]\nreaders = []\n', 'job 18 BadCarry session=1 at=1'),
    (TOLERATING + SESSION + GOOD_SESSION + 'owners = [" @0.0"]\nreaders = []\n', 'job 7 BadOwner session=1 at=0'),
    (TOLERATING + SESSION + GOOD_SESSION + 'owners = ["@0.0", "@0.1023"]\nreaders = [["d"]]\n', 'job 8 BadReader session=1 value=0 at=0'),
]

# A session stands before the hosts, and these before the port.
HOSTS_AND_PORTS = [
    (TOP + BAD_HOSTS + SESSION + '[[session]]\n', 'job 3 Missing session=1 field=circuit'),
    (TOP + BAD_HOSTS + SESSION, 'job 13 BadHost at=2'),
    (TOP + 'hosts = ["x", "a_b", "y"]\nport = 0\n' + SESSION, 'job 13 BadHost at=1'),
    (TOP + 'port = 65393\n' + SESSION, 'job 14 BadPort port=65393'),
]

# Frames and views are told in version 2 alone: their kinds behind that of the port, and their texts behind the port, frames first.
FRAMES_AND_VIEWS = [
    (TOP + 'frames = "named"\n' + SESSION, 'job 4 Unknown name=frames'),
    (TOP + 'views = "none"\n' + SESSION, 'job 4 Unknown name=views'),
    (TOLERATING + 'frame = "short"\nviews = "own"\n' + SESSION, 'job 4 Unknown name=frame'),
    (TOLERATING + 'views = 1\nframes = 1\nport = "x"\n', 'job 5 WrongKind field=port'),
    (TOLERATING + 'views = 1\nframes = 1\nport = 4000\n', 'job 5 WrongKind field=frames'),
    (TOLERATING + 'frames = ["short"]\n', 'job 5 WrongKind field=frames'),
    (TOLERATING + 'frames = "long"\nviews = true\n', 'job 5 WrongKind field=views'),
    (TOLERATING + 'views = ["own"]\nsession = 1\n', 'job 5 WrongKind field=views'),
    (TOLERATING + 'frames = "long"\nviews = "all"\n', 'job 3 Missing field=session'),
    (TOLERATING + 'frames = "long"\nviews = "all"\nsession = 1\n', 'job 5 WrongKind field=session'),
    (TOLERATING + 'frames = "long"\nviews = "all"\n' + SESSION + '[[session]]\n', 'job 3 Missing session=1 field=circuit'),
    (TOLERATING + 'frames = "long"\nviews = "all"\n' + BAD_HOSTS + SESSION, 'job 13 BadHost at=2'),
    (TOLERATING + 'frames = "long"\nviews = "all"\nport = 0\n' + SESSION, 'job 14 BadPort port=0'),
    (TOLERATING + 'views = "all"\nframes = "long"\nport = 4000\n' + SESSION, 'job 19 BadFrames'),
    (TOLERATING + 'views = "own"\nframes = "own"\n' + SESSION, 'job 19 BadFrames'),
    (TOLERATING + 'views = "short"\nframes = "short"\n' + SESSION, 'job 20 BadViews'),
    *((TOLERATING + f'frames = "{text}"\n' + SESSION, 'job 19 BadFrames')
      for text in ['', 'Short', 'SHORT', 'shor', 'shorts', ' short', 'short ', 'Named', 'name', 'names', 'none', 'named\\u0000']),
    *((TOLERATING + f'views = "{text}"\n' + SESSION, 'job 20 BadViews')
      for text in ['', 'Own', 'OWN', 'ow', 'owns', ' own', 'own ', 'None', 'non', 'nones', 'named', 'all', 'own\\u0000']),
]

FIELDS_OF_VERSIONS = [
    (LISTED + 'tolerated = []\nformula = "a"\n' + NO_SESSION, 'job 4 Unknown name=formula'),
    (TOP + 'tolerated = []\n' + SESSION, 'job 4 Unknown name=tolerated'),
    (LISTED + 'hosts = 1\n' + NO_SESSION, 'job 3 Missing field=tolerated'),
    (LISTED + 'tolerated = ["a"]\nhosts = 1\n' + NO_SESSION, 'job 5 WrongKind field=tolerated'),
]

TOLERATED_GROUPS = [
    (LISTED + 'tolerated = [["a"], ["b", "x"], ["y"]]\n' + NO_SESSION, 'job 15 BadTolerated value=1 at=1'),
    (LISTED + 'tolerated = [["a", "b", "a"], ["y"]]\n' + NO_SESSION, 'job 15 BadTolerated value=0 at=2'),
    (LISTED + 'tolerated = [["a"], ["a"]]\n' + NO_SESSION, 'job 12 SessionCount count=0'),
    (LISTED + 'tolerated = [' + 4095 * '[],' + '["x"]]\n' + NO_SESSION, 'job 15 BadTolerated value=4095 at=0'),
    (LISTED + 'tolerated = [' + 4095 * '[],' + '["x"],[]]\n' + NO_SESSION, 'job 16 TooManyTolerated count=4097'),
]


def refused(words, text, fault):
    """The row of this file of a job, and the fault that is told of it."""
    return Row(f'{text[-80:]!r}', words, [Whole('job.toml', text.encode())], status=3, err=f'refused {fault}\n')


JOB_FILES = [
    *(refused(CHECK, text, fault) for table in [VERSIONS, UNKNOWN_FIELDS, TOP_FIELDS, BITS_AND_NAMES, SESSION_FIELDS, SESSION_VALUES, PRODUCTS, ORDERS,
                                                CARRIES, HOSTS_AND_PORTS, FRAMES_AND_VIEWS, FIELDS_OF_VERSIONS, TOLERATED_GROUPS] for text, fault in table),
    Row('a_byte_of_no_text_in_a_job', CHECK, [Whole('job.toml', b"version = '\xff'")], status=3, err='refused job 1 NotToml\n'),
    Row('texts_in_single_quotes', CHECK, [Whole('job.toml', JOB.replace('"', "'").encode())], out=COUNTS_OF_A_PRODUCT),
    # A node wants hosts and a port.
    *(refused(['node', 'd', 'a'], TOP + places + SESSION, f'job 3 Missing field={field}')
      for places, field in [('', 'hosts'), ('port = 4000\n', 'hosts'), ('hosts = ["x", "y", "z"]\n', 'port')]),
    # Each text, and none, changes nothing of what is not between nodes.
    *(Row(f'{words[0]}_with_{" and ".join(texts)}', words, [*VERSION_2, Edit('job.toml', '[[session]]\n', '\n'.join([*texts, '[[session]]\n']))], out=out)
      for frames in [[], ['frames = "named"'], ['frames = "short"']] for views in [[], ['views = "none"'], ['views = "own"']] for texts in [frames + views]
      for words, out in [(CHECK, COUNTS_OF_A_PRODUCT), (RUN, 'out 0 0 c 35\n')]),
    # A node wants hosts and a port before it looks at them.
    refused(['node', 'd', 'a'], TOLERATING + 'frames = 1\n' + SESSION, 'job 3 Missing field=hosts'),
]
