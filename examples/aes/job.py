#!/usr/bin/env python3
"""Makes a job that encrypts a block by AES-128, and reads its result:

    examples/aes/job.py make FOLDER KEY BLOCK
    ./mpc run FOLDER | examples/aes/job.py read FOLDER

'make' writes a job folder for three parties: job.toml, the circuit aes.txt of aes_circuit.py, and a file for each party, with a fresh random
seed. The party 'registry' gives the key, 'hospital' gives the block, and 'study' reads the encrypted block. One party alone learns nothing but
that. KEY and BLOCK have 32 hexadecimal digits each, as in FIPS 197. 'read' turns what 'mpc run' or 'mpc node' wrote into such digits.
"""

import os
import pathlib
import re
import sys

sys.path.insert(0, str(pathlib.Path(__file__).resolve().parent.parent))
from aes_circuit import circuit_text  # noqa: E402
from job_folder import BITS, lines_of, need, read_job, read_outputs, run_script, write_job, write_party  # noqa: E402

PARTIES = ['registry', 'hospital', 'study']
DIGITS = 32


def number_of(word):
    need(re.fullmatch(f'[0-9A-Fa-f]{{{DIGITS}}}', word), f'{word[:60]!r} is not {DIGITS} hexadecimal digits')
    return int(word, 16)


def make(folder, words):
    numbers = [[number_of(word)] for word in words]
    write_job(folder, 1, PARTIES, PARTIES[:2], circuit_text(), 'aes.txt', 'bristol', PARTIES[2:], [[party] for party in PARTIES], 'short')
    job = read_job(folder)
    for party, given in zip(PARTIES, [*numbers, []]):
        write_party(folder, job, party, given)


def read(folder):
    job = read_job(folder)
    need(all(session.layout == BITS and session.outputs == [4 * DIGITS] for session in job.sessions), f'{os.path.join(folder, "job.toml")} encrypts no block')
    texts = [f'{reader} reads {block:0{DIGITS}x}' for _session, _value, reader, [block] in read_outputs(job, lines_of(sys.stdin))]
    need(texts, 'there is no result to read on standard input')
    print('\n'.join(texts))


def main(words):
    if words in (['-h'], ['--help']):
        print(__doc__)
    elif len(words) == 4 and words[0] == 'make':
        make(words[1], words[2:])
    elif len(words) == 2 and words[0] == 'read':
        read(words[1])
    else:
        print(__doc__.split('\n\n')[1], file=sys.stderr)
        return 2
    return 0


if __name__ == '__main__':
    run_script(main)
