#!/usr/bin/env python3
"""Runs a program over changed files of the examples: mutate.py PROGRAM COUNT [FIRST]

Each of COUNT tries takes the files of an example, changes one to three things in one of them (lines and fields cut, doubled, exchanged
or joined, bytes flipped, numbers at each limit and past it, other encodings, very long and very deep values), and runs 'check' or
'run' over them, with workers or a view or without, or 'pair' for one party where the example has other inputs, or 'audit' where it has a view. Whatever the files say, the
program has to end within 2 seconds of processor time and 10 of the clock, and within 300 MB, with a status of its table: 0 with a text on
standard output and nothing on standard error, or 2 to 5 with nothing on standard output and one line of printable characters on standard
error. Try N is the same each time; FIRST is the number of the first, and 0 where it isn't given. Prints how often each status came and the
most processor time that a try took. Ends with status 1, and keeps the files, where a try went wrong. It needs Linux.
"""

import collections
import os
import random
import resource
import shutil
import subprocess
import sys
import tempfile

sys.path.append(os.path.join(os.path.dirname(os.path.dirname(os.path.abspath(__file__))), 'tests'))
from waits import told  # noqa: E402

EXAMPLES = os.path.join(os.path.dirname(os.path.abspath(__file__)), '..', 'examples')
MOST_SECONDS = 2
MOST_WAIT = 300
MOST_BYTES = 300_000_000
LONG = 16_777_216

# At each limit of a file, and one past it.
NUMBERS = [0, 1, 2, 11, 12, 13, 15, 16, 17, 31, 32, 33, 64, 65, 255, 256, 1023, 1024, 1025, 4096, 4097, 65392, 65393, 65535, 65536, 65537,
           131071, 131072, 131073, 1048576, 1048577, 2**31, 2**32 - 1, 2**32, 2**63 - 1, 2**63, 2**64 - 1, 2**64, 10**19, 10**40, -1]

# The longest name, host, file name and seed, and one past each.
LENGTHS = [0, 1, 16, 17, 63, 64, 65]

# What may stand in some file, or in another version alone, or nowhere.
LINES = [b'version = 1', b'version = 2', b'port = 65392', b'port = 0', b'hosts = ["h", "h", "h"]', b'tolerated = [[]]', b'tolerated = []',
         b'formula = "1 of (a)"', b'[[session]]', b'[inputs]', b'products = "prepared"', b'products = "ahead"',
         b'order = "layers"', b'order = "file"', b'owners = ["@0.0", "@0.1"]', b'readers = [[], []]', b'inputs = []', b'tape = ""',
         b'seed = "' + b'0' * 64 + b'"', b'x = 1', b'"" = 1', b'a.b = 1', b'x = 1979-05-27', b'x = inf', b'x = """',
         b'layout = "expr"', b'layout = "ring"', b'input x', b'let y = 2 * (x - 1)', b'let s = s', b'output x', b'output -(-1) * 3', b'output',
         b'layout = "numbers"', b'input x 8', b'let z = if x < y then min(x, y) else x % 10 # z', b'output not x and y / 0 >= 1', b'input w 64']

# What stands very often in a swollen text, and what closes it.
PARTS = [(b'(', b''), (b'(', b')'), (b'[', b''), (b'[', b']'), (b'{', b''), (b'{a=', b'}'), (b'9', b''), (b'0', b''), (b'\n', b''), (b' ', b''),
         (b'a', b''), (b'"', b''), (b'#', b''), (b'a.', b''), (b'1 ', b''), (b'a|', b''), (b'[],', b''), (b'[[session]]\n', b''), (b'\xff', b''),
         (b'-', b''), (b'+x', b''), (b'(-', b')'), (b'x ', b''), (b'output 1\n', b''), (b'\r', b'')]


def cut(text, chance):
    first, last = sorted(chance.randrange(len(text) + 1) for _ in range(2))
    return text[:first] + text[last:]


def keep_the_first(text, chance):
    return text[:chance.randrange(len(text) + 1)]


def double(text, chance):
    first, last = sorted(chance.randrange(len(text) + 1) for _ in range(2))
    return text[:last] + text[first:last] + text[last:]


def flip(text, chance):
    if not text:
        return text
    place = chance.randrange(len(text))
    return text[:place] + bytes([text[place] ^ 1 << chance.randrange(8)]) + text[place + 1:]


def put_byte(text, chance):
    place = chance.randrange(len(text) + 1)
    return text[:place] + bytes([chance.choice([0, 9, 10, 11, 12, 13, 32, 34, 39, 40, 41, 91, 93, 127, 128, 192, 255])]) + text[place:]


def over_parts(separator):
    """Cuts, doubles, exchanges or joins parts of a text."""
    def change(text, chance):
        parts = text.split(separator)
        i, j = chance.randrange(len(parts)), chance.randrange(len(parts))
        kind = chance.randrange(4)
        if kind == 0:
            del parts[i]
        elif kind == 1:
            parts.insert(i, parts[j])
        elif kind == 2:
            parts[i], parts[j] = parts[j], parts[i]
        else:
            parts[i] = parts[i] + parts[j]
        return separator.join(parts)
    return change


def change_a_number(text, chance):
    places = [i for i in range(len(text)) if text[i:i + 1].isdigit() and not text[i - 1:i].isdigit()]
    if not places:
        return text
    first = chance.choice(places)
    last = first
    while text[last:last + 1].isdigit():
        last += 1
    return text[:first] + str(chance.choice(NUMBERS)).encode() + text[last:]


def reencode(text, chance):
    kind = chance.choice(['utf-16', 'utf-8-sig', 'utf-32', 'utf-7'])
    return text.decode('latin-1').encode(kind)


def stretch(text, chance):
    """A text in quotes of some length."""
    parts = text.split(b'"')
    parts[chance.randrange(len(parts))] = chance.choice([b'a', b'0', b'-', b' ', b'\xc3']) * chance.choice(LENGTHS)
    return b'"'.join(parts)


def add_a_line(text, chance):
    lines = text.split(b'\n')
    lines.insert(chance.randrange(len(lines) + 1), chance.choice(LINES))
    return b'\n'.join(lines)


def swell(text, chance):
    """A very long or very deep value, a quarter of the longest file to more than the longest."""
    size = chance.choice([LONG // 4, LONG - len(text), LONG, LONG + 1])
    opening, closing = chance.choice(PARTS)
    count = max(size, 0) // len(opening + closing) + 1
    after = [place + 1 for place in range(len(text)) if text[place:place + 1] in (b'"', b'[', b'=', b'\n')]
    place = chance.choice([0, len(text), chance.randrange(len(text) + 1), *after])
    return text[:place] + (opening * count + closing * count)[:max(size, 0)] + text[place:]


CHANGES = [cut, keep_the_first, double, flip, flip, put_byte, over_parts(b'\n'), over_parts(b'\n'), over_parts(b' '), over_parts(b','),
           over_parts(b'"'), over_parts(b'='), change_a_number, change_a_number, change_a_number, stretch, add_a_line, reencode]


def change_files(files, chance):
    """Changes one file, or takes it away."""
    name = chance.choice(sorted(files))
    if chance.randrange(40) == 0:
        del files[name]
        return
    for _ in range(chance.randrange(1, 4)):
        files[name] = chance.choice(CHANGES)(files[name], chance)
    if chance.randrange(200) == 0:
        files[name] = swell(files[name], chance)


def example_folders():
    return sorted(folder for folder, _, files in os.walk(EXAMPLES) if 'job.toml' in files)


def example_files(chance):
    folder = chance.choice(example_folders())
    files = {}
    for file in sorted(os.listdir(folder)):
        if file in ('job.toml', 'other.toml') or file.startswith('party_') or file.endswith('.txt'):
            with open(os.path.join(folder, file), 'rb') as text:
                files[file] = text.read()
    return files


def some_command(files, chance):
    """The words of a command that reads these files."""
    party = chance.choice(sorted(name[len('party_'):-len('.toml')] for name in files if name.startswith('party_')))
    commands = [['check'], ['run'], ['run', '--view', party], ['run', '--workers', '3']]
    if 'other.toml' in files:
        commands += [['pair', '--group', party], ['pair', '--group', party]]
    if 'view.txt' in files:
        commands += [['audit'], ['audit'], ['audit']]
    return chance.choice(commands)


def what_is_wrong(run):
    """Why no run may end so, or nothing."""
    if run.returncode == 0:
        return None if run.stdout and not run.stderr else 'status 0 without a text, or with a line on standard error'
    if run.returncode not in (2, 3, 4, 5):
        return f'status {run.returncode}'
    if run.stdout:
        return f'a text on standard output at status {run.returncode}'
    line = run.stderr.decode('utf-8', 'replace')
    if not line.endswith('\n') or not line[:-1].isprintable() or not line[:-1]:
        return f'standard error is not one line of printable characters: {run.stderr[:200]!r}'
    return None


def processor_time():
    """What the programs that have ended took, in seconds."""
    usage = resource.getrusage(resource.RUSAGE_CHILDREN)
    return usage.ru_utime + usage.ru_stime


def attempt(program, number, folder):
    """Try N: its status, what it took, and why it went wrong, or nothing."""
    chance = random.Random(number)
    files = example_files(chance)
    words = some_command(files, chance)
    change_files(files, chance)
    for name, text in files.items():
        with open(os.path.join(folder, name), 'wb') as file:
            file.write(text)
    began = processor_time()
    try:
        run = subprocess.run([program, words[0], folder, *words[1:]], stdin=subprocess.DEVNULL, capture_output=True,
                             timeout=MOST_WAIT)
    except subprocess.TimeoutExpired:
        return None, None, f'more than {MOST_WAIT} seconds of the clock'
    took = processor_time() - began
    if took > MOST_SECONDS:
        return run.returncode, took, f'more than {MOST_SECONDS} seconds'
    return run.returncode, took, what_is_wrong(run)


def main(words):
    if len(words) not in (3, 4):
        sys.exit('usage: mutate.py PROGRAM COUNT [FIRST]')
    program, count, first = words[1], int(words[2]), int(words[3]) if len(words) == 4 else 0
    resource.setrlimit(resource.RLIMIT_AS, (MOST_BYTES, MOST_BYTES))
    statuses, longest = collections.Counter(), 0
    for number in range(first, first + count):
        folder = tempfile.mkdtemp(prefix='mutate-')
        status, took, wrong = attempt(program, number, folder)
        if wrong:
            sys.exit(f'try {number} went wrong: {wrong}; its files are in {folder}')
        longest = max(longest, took)
        statuses[status] += 1
        shutil.rmtree(folder)
    print(f'{count} tries: ' + ', '.join(f'{statuses[status]} ended with status {status}' for status in sorted(statuses))
          + f'; none took more than {longest:.2f} seconds')


if __name__ == '__main__':
    sys.exit(told(main))
