#!/usr/bin/env python3
"""Makes a job that takes the SHA-256 digest of a message in two parts, and reads its result:

    examples/sha256/job.py make FOLDER FIRST SECOND [--chain]
    ./mpc run FOLDER | examples/sha256/job.py read FOLDER

'make' writes a job folder for three parties: job.toml, the parts of the circuit of sha256_circuit.py as examples/cut.py cuts it, and a
file for each party, with a fresh random seed. It prints what cut.py tells of it. The party 'clinic' gives the first part of the message, 'lab' gives the second part, and
'register' reads the digest. One party alone learns nothing but that, and how long the parts are. FIRST and SECOND are bytes in hexadecimal
digits, two for each; '' is a part of no bytes. 'read' writes such digits of what 'mpc run' or 'mpc node' wrote.
"""

import os
import pathlib
import re
import sys

sys.path[1:1] = [str(pathlib.Path(__file__).resolve().parent.parent)]
from cut import Job  # noqa: E402
from circuit_reader import read_circuit  # noqa: E402
from job_folder import BITS, lines_of, need, read_job, read_outputs, run_script, write_party  # noqa: E402
from sha256_circuit import MOST_BYTES, Chain, Tree, circuit_text  # noqa: E402
from summands import Sharing  # noqa: E402

PARTIES = ['clinic', 'lab', 'register']
DIGITS = 64


def bytes_in(word):
    need(re.fullmatch('([0-9A-Fa-f]{2})*', word), f'{word[:60]!r} is not two hexadecimal digits for each byte')
    need(len(word) <= 2 * MOST_BYTES, f'a part has at most {MOST_BYTES} bytes')
    return bytes.fromhex(word)


def make(folder, words, adder):
    parts = list(map(bytes_in, words))
    circuit = read_circuit(circuit_text(list(map(len, parts)), adder).encode(), 1, True)
    job = Job(circuit, Sharing(PARTIES, [[name] for name in PARTIES]), PARTIES[:2], [PARTIES[2:]])
    told = '\n'.join(job.told())
    job.write(folder)
    written = read_job(folder)
    for party, part in zip(PARTIES, [*parts, b'']):
        write_party(folder, written, party, [int.from_bytes(part, 'big')] if part else [])
    print(told)


def read(folder):
    job = read_job(folder)
    digests = [width for session in job.sessions for width, readers in zip(session.outputs, session.readers) if readers]
    need(all(session.layout == BITS for session in job.sessions) and digests == [4 * DIGITS], f'{os.path.join(folder, "job.toml")} takes no digest')
    texts = [f'{reader} reads {digest:0{DIGITS}x}' for _session, _value, reader, [digest] in read_outputs(job, lines_of(sys.stdin))]
    need(texts, 'there is no result to read on standard input')
    print('\n'.join(texts))


def main(words):
    chain = words[-1:] == ['--chain'] and words[:1] == ['make']
    words = words[:-1] if chain else words
    if words in (['-h'], ['--help']):
        print(__doc__)
    elif len(words) == 4 and words[0] == 'make':
        make(words[1], words[2:], Chain() if chain else Tree())
    elif len(words) == 2 and words[0] == 'read':
        read(words[1])
    else:
        print(__doc__.split('\n\n')[1], file=sys.stderr)
        return 2
    return 0


if __name__ == '__main__':
    run_script(main)
