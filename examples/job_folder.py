"""A job's folder, as the scripts of examples/ read and write it: the job with the widths of its circuits, a party's file, and the lines
that 'mpc run' or 'mpc node' wrote. docs/FORMATS.md has the formats.

A folder may hold anything: where a function can't go on, it raises a Refusal, whose text is one line.
"""

import collections
import itertools
import json
import os
import re
import secrets
import sys

try:
    import tomllib
except ModuleNotFoundError:
    sys.exit(f'{os.path.basename(sys.argv[0])}: Python 3.11 or later is needed')

import number_reader

MOST_BYTES = 16_777_216
MOST_PARTIES = 12
MOST_SESSIONS = 16
MOST_VALUES = 1_024
MOST_WIRES = 131_072
MOST_LINE = 2**22
NAME = re.compile(r'(?!of$)[A-Za-z][A-Za-z0-9_]{0,15}')
CARRIED = re.compile(r'@(0|[1-9][0-9]?)\.(0|[1-9][0-9]{0,3})')
FILE_NAME = re.compile(r'[A-Za-z0-9_-][A-Za-z0-9._-]{0,63}')

# A value of bits may be as wide as a circuit has wires, and its number has so many digits.
sys.set_int_max_str_digits(MOST_WIRES)

# The bits of the ring, the names of the parties, and the sessions.
Job = collections.namedtuple('Job', 'bits parties sessions')

# Its layout; the owners and the readers of its values; the widths of its input and of its output values.
Session = collections.namedtuple('Session', 'layout owners readers inputs outputs')

# Layouts whose wires are bits: their values are numbers, in the files of one bit after another, and in those of programs themselves.
BITS, NUMBERS = 'bristol', 'numbers'


class Refusal(Exception):
    """Why a script can't go on, in one line."""


def need(holds, text):
    if not holds:
        raise Refusal(text)


def read_bytes(folder, name, most=MOST_BYTES):
    """The bytes of a file."""
    path = os.path.join(folder, name)
    with open(path, 'rb') as file:
        data = file.read(most + 1)
    need(len(data) <= most, f'{path} has more than {most} bytes')
    return data


def read_text(folder, name):
    """The text of a file."""
    try:
        return read_bytes(folder, name).decode('utf-8-sig')
    except UnicodeDecodeError:
        raise Refusal(f'{os.path.join(folder, name)} is not UTF-8') from None


def is_texts(value):
    return isinstance(value, list) and all(isinstance(item, str) for item in value)


def number_in(token, most, what):
    """The number that the digits stand for."""
    digits = token.lstrip('0') or token[:1]
    need(re.fullmatch('[0-9]+', token) and len(digits) <= 20 and int(digits) <= most, f'{what}: {token[:40]!r} is no number up to {most}')
    return int(digits)


def read_widths(folder, name):
    """The widths of the input values and of the output values of a circuit's file: its second and its third line with tokens."""
    path = os.path.join(folder, name)
    lines = (line.split() for line in read_text(folder, name).split('\n'))
    lines = list(itertools.islice(filter(None, lines), 3))
    need(len(lines) == 3, f'{path} has fewer than three lines')
    widths = []
    for tokens in lines[1:]:
        count = number_in(tokens[0], MOST_VALUES, path)
        need(len(tokens) == count + 1, f'{path}: there are {len(tokens) - 1} widths in place of {count}')
        widths.append([number_in(token, MOST_WIRES, path) for token in tokens[1:]])
        need(sum(widths[-1]) <= MOST_WIRES, f'{path} has more than {MOST_WIRES} wires')
    return widths


def read_expressions(folder, name):
    """The widths of a text of expressions: each of its lines that begins with 'input' or 'output' is a value of one word."""
    path, text = os.path.join(folder, name), read_bytes(folder, name)
    counts = [len(re.findall(rb'(?:^|\n)[ \t\r]*%s(?![A-Za-z0-9_])' % word, text)) for word in (b'input', b'output')]
    need(max(counts) <= MOST_VALUES, f'{path} has more than {MOST_VALUES} lines of inputs or of outputs')
    return [[1] * count for count in counts]


def read_numbers(folder, name):
    """The widths of a program of numbers."""
    path = os.path.join(folder, name)
    try:
        inputs, outputs = number_reader.read(read_bytes(folder, name))
    except number_reader.Fault as fault:
        raise Refusal(f'{path}: {fault}') from None
    need(max(len(inputs), len(outputs)) <= MOST_VALUES, f'{path} has more than {MOST_VALUES} lines of inputs or of outputs')
    return [width for _, width in inputs], [number_reader.bits_of(value.most) for value in outputs]


LAYOUTS = {BITS: read_widths, 'ring': read_widths, 'expr': read_expressions, NUMBERS: read_numbers}


def read_fields(folder):
    """The fields of job.toml, with names of parties, and sessions that name the files of their circuits."""
    path = os.path.join(folder, 'job.toml')
    try:
        fields = tomllib.loads(read_text(folder, 'job.toml'))
    except (ValueError, RecursionError) as error:
        raise Refusal(f'{path} is no TOML: {error}') from None
    parties, sessions = fields.get('parties'), fields.get('session')
    need(is_texts(parties) and 1 <= len(parties) <= MOST_PARTIES, f'{path}: parties is no list of 1 to {MOST_PARTIES} names')
    need(all(map(NAME.fullmatch, parties)) and len(set(parties)) == len(parties), f'{path}: a name of parties is out of form, or stands twice')
    need(isinstance(sessions, list) and 1 <= len(sessions) <= MOST_SESSIONS, f'{path}: there are not 1 to {MOST_SESSIONS} [[session]]')
    for number, session in enumerate(sessions):
        need(isinstance(session, dict), f'{path}: session {number} is no table')
        circuit = session.get('circuit')
        need(isinstance(circuit, str) and FILE_NAME.fullmatch(circuit), f'{path}: session {number}: circuit is no name of a file')
    return fields


def carried_width(owner, earlier):
    """The width of the output value that an owner names, of one of the earlier sessions; nothing where it names none."""
    session, value = map(int, found.groups()) if (found := CARRIED.fullmatch(owner)) else (len(earlier), 0)
    return earlier[session].outputs[value] if session < len(earlier) and value < len(earlier[session].outputs) else None


def read_session(folder, number, fields, earlier):
    """A session of the job, with the widths of its circuit. Values of the earlier sessions may be carried into it."""
    where = f'{os.path.join(folder, "job.toml")}: session {number}'
    circuit, layout, owners, readers = (fields['session'][number].get(name) for name in ('circuit', 'layout', 'owners', 'readers'))
    need(isinstance(layout, str) and layout in LAYOUTS, f'{where}: layout is none of {", ".join(LAYOUTS)}')
    need(layout not in ('expr', NUMBERS) or fields['version'] == 2, f'{where}: the layout {layout} goes with version = 2')
    need(layout not in (BITS, NUMBERS) or fields['ring_bits'] == 1, f'{where}: the layout {layout} goes with ring_bits = 1')
    need(is_texts(owners), f'{where}: owners is no list of names')
    need(isinstance(readers, list) and all(is_texts(names) for names in readers), f'{where}: readers is no list of lists of names')
    givers = [owner for owner in owners if fields['version'] == 1 or carried_width(owner, earlier) is None]
    stranger = next((name for name in itertools.chain(givers, *readers) if name not in fields['parties']), None)
    need(stranger is None, f'{where}: {str(stranger)[:40]!r} is no party' + ' and no value of an earlier session' * (fields['version'] == 2))
    inputs, outputs = LAYOUTS[layout](folder, circuit)
    need(len(owners) == len(inputs), f'{where}: there are {len(owners)} owners, and {circuit} has {len(inputs)} input values')
    wider = next((owner for owner, width in zip(owners, inputs) if owner not in givers and carried_width(owner, earlier) != width), None)
    need(wider is None, f'{where}: the value {wider} has another width in {circuit}')
    need(len(readers) == len(outputs), f'{where}: there are {len(readers)} lists of readers, and {circuit} has {len(outputs)} output values')
    return Session(layout, owners, readers, inputs, outputs)


def read_job(folder):
    """The job of a folder."""
    fields = read_fields(folder)
    path, version, bits = os.path.join(folder, 'job.toml'), fields.get('version'), fields.get('ring_bits')
    need(type(version) is int and version in (1, 2), f'{path}: version is neither 1 nor 2')
    need(type(bits) is int and 1 <= bits <= 64, f'{path}: ring_bits is no number from 1 to 64')
    sessions = []
    for number in range(len(fields['session'])):
        sessions.append(read_session(folder, number, fields, sessions))
    return Job(bits, fields['parties'], sessions)


def job_text(fields):
    """The text of job.toml with these fields. A list of texts is written in JSON as in TOML."""
    def lines(table):
        return [f'{name} = {json.dumps(value)}' for name, value in table.items() if name != 'session']
    try:
        return '\n'.join([*lines(fields), *(line for session in fields['session'] for line in ['[[session]]', *lines(session)])]) + '\n'
    except TypeError:
        raise Refusal('job.toml has a field that no job has') from None


def write_new(folder, name, data, mode=0o644, replace=False):
    """Writes a file of these bytes, which must not be there yet, unless it is to be replaced."""
    path = os.path.join(folder, name)
    try:
        flags = os.O_WRONLY | os.O_CREAT | (os.O_TRUNC if replace else os.O_EXCL)
        with os.fdopen(os.open(path, flags, mode), 'wb') as file:
            file.write(data)
    except FileExistsError:
        raise Refusal(f'{path} is there already') from None


def need_names(parties):
    """Refuses parties of which there are too few or too many, and names that no job takes."""
    wrong = next((name for name in parties if not NAME.fullmatch(name)), None)
    need(wrong is None, f'{str(wrong)[:40]!r} is no name: a letter and up to 15 letters, digits and _, and not of')
    need(len(set(parties)) == len(parties), 'a name stands twice')
    need(1 <= len(parties) <= MOST_PARTIES, f'a job has 1 to {MOST_PARTIES} parties')


def write_job(folder, bits, parties, owners, circuit, name, layout, readers=None, tolerated=None, frames=None, outputs=None):
    """Writes the folder of a job of one session, with its gates in layers. The readers read each output value, and the others nothing; where none are
    named, they are those who own an input value. Where no tolerated groups are named, any two parties may know everything and one alone learns nothing.
    A text that is no circuit comes with how many output values it has."""
    need_names(parties)
    need(tolerated is not None or len(parties) > 2, 'where each party alone must learn nothing, a job wants three of them: one may help that '
         'gives and reads nothing')
    outputs = int(circuit.split('\n', 3)[2].split()[0]) if outputs is None else outputs
    order = {} if layout == NUMBERS else {'order': 'layers'}
    session = {'circuit': name, 'layout': layout, **order, 'owners': owners, 'readers': [readers or list(dict.fromkeys(owners))] * outputs}
    fields = {'version': 2, 'ring_bits': bits, 'parties': parties, 'tolerated': [[party] for party in parties] if tolerated is None else tolerated,
              **({'frames': frames} if frames else {}), 'session': [session]}
    os.makedirs(folder, exist_ok=True)
    write_new(folder, 'job.toml', job_text(fields).encode())
    write_new(folder, name, circuit.encode())


def widths_of_numbers(job, session, widths):
    """How many bits each number of these values may have: a value of bits is one number, a value of words has one for each word."""
    return [width for width in widths if width] if session.layout in (BITS, NUMBERS) else [job.bits] * sum(widths)


def numbers_of(job, party):
    """How many bits each number of a party may have, session by session."""
    need(party in job.parties, f'{party[:40]!r} is no party of the job: {", ".join(job.parties)}')
    return [widths_of_numbers(job, session, [width for width, owner in zip(session.inputs, session.owners) if owner == party])
            for session in job.sessions]


def words_of(session, width, number):
    """The words of a number of so many bits in a party's file."""
    least, most = 0 if session.layout == NUMBERS else -2**(width - 1), 2**width - 1
    need(least <= number <= most, f'{str(number)[:40]} does not fit into {width} bits: from {str(least)[:40]} to {str(most)[:40]}')
    if session.layout == BITS:
        return [number >> place & 1 for place in range(width)]
    return [number % 2**width]


def write_party(folder, job, party, numbers, replace=False):
    """Writes the file of a party that gives these numbers, with a fresh seed."""
    widths = numbers_of(job, party)
    count = sum(map(len, widths))
    told = '; '.join(f'session {number}: {" ".join(map(str, bits)) or "none"}' for number, bits in enumerate(widths))
    need(len(numbers) == count, f'{party} gives {count} numbers and not {len(numbers)}. Their bits are, in {told[:400]}')
    rest, texts = iter(numbers), []
    for session, its_widths in zip(job.sessions, widths):
        words = [word for width, number in zip(its_widths, rest) for word in words_of(session, width, number)]
        texts.append(' '.join(map(str, words)))
    text = f'version = 1\ninputs = {json.dumps(texts)}\nseed = "{secrets.token_hex(32)}"\n'
    write_new(folder, f'party_{party}.toml', text.encode(), 0o600, replace)


def lines_of(stream):
    """The lines of a stream of bytes."""
    need(stream is not None, 'there is no standard input')
    for line in iter(lambda: stream.buffer.readline(MOST_LINE), b''):
        need(len(line) < MOST_LINE, f'a line has more than {MOST_LINE} bytes')
        yield line.decode('utf-8', 'replace')


def numbers_in(job, session, width, words, signed):
    """The numbers that the words of an output value stand for."""
    if session.layout == NUMBERS:
        return words
    if session.layout == BITS:
        words = [int(''.join(map(str, reversed(words))), 2)] if words else []
    widths = widths_of_numbers(job, session, [width])
    return [word - 2**bits if signed and word >> bits - 1 else word for word, bits in zip(words, widths)]


def read_outputs(job, lines, signed=False):
    """Of each line that begins with 'out': the session, the output value, its reader and its numbers. Other lines are passed over."""
    for line in lines:
        kind, *tokens = line.split() or ['']
        if kind != 'out':
            continue
        what = f'{line.strip()[:60]!r} is no output of this job'
        need(len(tokens) >= 3 and tokens[2] in job.parties, what)
        number = number_in(tokens[0], len(job.sessions) - 1, what)
        session = job.sessions[number]
        value = number_in(tokens[1], len(session.outputs) - 1, what)
        width = session.outputs[value]
        count, bits = (1, width) if session.layout == NUMBERS else (width, job.bits)
        words = [number_in(token, 2**bits - 1, what) for token in tokens[3:]]
        need(len(words) == count, what)
        yield number, value, tokens[2], numbers_in(job, session, width, words, signed)


def tell(text):
    """Writes one line on standard error, where there is one."""
    line = ''.join(character if character.isprintable() else '?' for character in str(text))
    if sys.stderr is not None:
        print(f'{os.path.basename(sys.argv[0])}: {line}'.encode('ascii', 'backslashreplace').decode(), file=sys.stderr, flush=True)


def stop(text):
    """Tells why a script can't go on, and gives its status."""
    tell(text)
    return 1


def run_script(main):
    """Ends with the status of main(words), or with one line where it can't go on. Where a pipe's reader has left, there is no line."""
    try:
        need(sys.stdout is not None, 'there is no standard output')
        status = main(sys.argv[1:])
        sys.stdout.flush()
    except Refusal as refusal:
        status = stop(refusal)
    except BrokenPipeError:
        status = 1
    except OSError as error:
        status = stop(f'{error.filename}: {error.strerror}' if error.filename else error)
    except MemoryError:
        status = stop('out of memory')
    except KeyboardInterrupt:
        status = stop('interrupted')
    if status and sys.stdout is not None:
        # What is left for an output that takes nothing any more must not be tried again at the end.
        os.dup2(os.open(os.devnull, os.O_WRONLY), sys.stdout.fileno())
    sys.exit(status)
