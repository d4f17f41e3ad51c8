#!/usr/bin/env python3
"""Makes a job of a program of whole numbers, and writes the circuit of bits that it stands for:

    examples/programs.py job FOLDER FILE [--owners NAME,..] [--helper NAME] [--tolerated GROUP,..]
    examples/programs.py compile FILE [--large] > my-job/circuit.txt

FILE is a file that a session of the layout 'numbers' may name; docs/FORMATS.md has the language. A file that 'mpc' refuses is refused with the same
words, as '8 TooWide line=3 at=9'.

'job' writes the folder of a whole job, but for the parties' files. Each line 'input NAME ..' is a number that the party of this name gives, unless --owners
says who gives each of them, in order, where a party may give several. Who gives a number reads all outputs. A helper gives and reads nothing, and there may be
several. One party alone learns nothing but the outputs, and any two may know everything. That wants three parties: so two take a helper. With --tolerated
these groups must learn nothing, as ann+bob,cleo, and all others may know everything. examples/numbers.py then writes the file of each party.

'compile' writes the circuit in the layout 'bristol', for those who want to see it, or to go on with it by other means: 'mpc' reads a program by itself. Gate by
gate it is the one that the program stands for: a session that names it, with the layout 'bristol' and the order 'layers', is the same session, whose words are bits.
With --large the circuit may have as many gates as sixteen sessions: examples/cut.py cuts it into these.
"""

import os
import sys

from circuits import MOST_GATES
from doubts import doubt_structure
from job_folder import FILE_NAME, MOST_SESSIONS, NUMBERS, Refusal, need, read_bytes, read_fields, run_script, write_job
from number_circuit import compiled
from number_reader import Fault, read
from summands import Sharing, groups_of


def of_file(path, made):
    """What is made of the bytes of a file."""
    try:
        return made(read_bytes('', path))
    except Fault as fault:
        raise Refusal(f'{path}: {fault}') from None


def make_job(folder, path, options):
    """Writes the folder of a job of this program."""
    data, (inputs, outputs), name = read_bytes('', path), of_file(path, read), os.path.basename(path)
    of_file(path, compiled)
    need(FILE_NAME.fullmatch(name) and name != 'job.toml', f'{name[:80]!r} is no name of a file that a job takes')
    owners = options['--owners'] or [name for name, _ in inputs]
    need(len(owners) == len(inputs), f'{path} has {len(inputs)} inputs, and {len(owners)} owners are named')
    parties = list(dict.fromkeys(owners)) + options['--helper']
    tolerated = options['--tolerated']
    if tolerated is not None:
        Sharing(parties, tolerated)
    write_job(folder, 1, parties, owners, data.decode(), name, NUMBERS, tolerated=tolerated, outputs=len(outputs))
    doubt_structure(read_fields(folder))


def options_of(words):
    """The options of 'job' with their words, or nothing where they are others."""
    found = {'--owners': [], '--helper': [], '--tolerated': None}
    for option, word in zip(words[::2], [*words[1::2], None]):
        if option not in found or word is None or option != '--helper' and found[option]:
            return None
        found[option] = [*found[option], word] if option == '--helper' else groups_of(word) if option == '--tolerated' else word.split(',')
    return found


def main(words):
    options = options_of(words[3:])
    if words in (['-h'], ['--help']):
        print(__doc__)
    elif len(words) >= 3 and words[0] == 'job' and options:
        make_job(words[1], words[2], options)
    elif words[:1] == ['compile'] and words[2:] in ([], ['--large']) and len(words) > 1:
        most = MOST_GATES * (MOST_SESSIONS if words[2:] else 1)
        print(of_file(words[1], lambda data: compiled(data, most)), end='')
    else:
        print(__doc__.split('\n\n')[1], file=sys.stderr)
        return 2
    return 0


if __name__ == '__main__':
    run_script(main)
