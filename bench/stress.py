#!/usr/bin/env python3
"""Runs many small jobs by sixteen workers: stress.py COUNT COMMAND..

COMMAND is the program, with what stands before it, as in 'stress.py 20 valgrind --tool=drd --error-exitcode=9 crates/mpc_main/out/mpc_main'.
Each job has one to six sessions of a circuit of up to forty gates, three to five parties and a ring of up to 32 bits, and its outputs are
compared with what the plain circuit gives. The same call always makes the same jobs. Ends with status 1 at the first run that writes
anything else.
"""

import os
import subprocess
import sys
import tempfile

from make_jobs import Numbers, evaluate

sys.path.append(os.path.join(os.path.dirname(os.path.dirname(os.path.abspath(__file__))), 'tests'))
from waits import told  # noqa: E402

NAMES = ['a', 'b', 'c', 'd', 'e']
OPERATIONS = ['MUL', 'ADD', 'SUB', 'NEG']


def texts(items):
    return '[' + ', '.join(f'"{item}"' for item in items) + ']'


def circuit_of(numbers):
    """Inputs of width 1, gates in a random order, and the last wire as the output."""
    inputs = 2 + numbers.below(4)
    gates = []
    for t in range(1 + numbers.below(40)):
        operation = OPERATIONS[numbers.below(len(OPERATIONS))]
        count = 1 if operation == 'NEG' else 2
        gates.append((operation, [numbers.below(inputs + t) for _ in range(count)]))
    return inputs, gates


def circuit_text(inputs, gates):
    lines = [f'{len(gates)} {inputs + len(gates)}', ' '.join([str(inputs)] + ['1'] * inputs), '1 1']
    for t, (operation, wires) in enumerate(gates):
        lines.append(' '.join(map(str, [len(wires), 1, *wires, inputs + t, operation])))
    return '\n'.join(lines) + '\n'


def make(folder, number):
    """Writes a job, and gives the text that a run of it must write."""
    numbers = Numbers(number)
    parties = NAMES[:3 + numbers.below(3)]
    sessions = 1 + numbers.below(6)
    bits = 1 + numbers.below(32)
    inputs, gates = circuit_of(numbers)
    owners = [parties[numbers.below(len(parties))] for _ in range(inputs)]
    session = f'[[session]]\ncircuit = "circuit.txt"\nlayout = "ring"\nowners = {texts(owners)}\nreaders = [{texts(parties)}]\n'
    given = {party: [] for party in parties}
    expected = ''
    for s in range(sessions):
        words = [numbers.below(2**bits) for _ in owners]
        for party in parties:
            given[party].append(' '.join(str(word) for word, owner in zip(words, owners) if owner == party))
        value = evaluate(words, gates, 2**bits)[-1]
        expected += ''.join(f'out {s} 0 {party} {value}\n' for party in parties)
    files = {
        'circuit.txt': circuit_text(inputs, gates),
        'job.toml': f'version = 1\nring_bits = {bits}\nparties = {texts(parties)}\nformula = "{(len(parties) + 1) // 2} of ({", ".join(parties)})"\n'
                    + sessions * session,
    }
    for p, party in enumerate(parties):
        files[f'party_{party}.toml'] = f'version = 1\ninputs = {texts(given[party])}\nseed = "{number:060x}{p:04x}"\n'
    for name, text in files.items():
        with open(os.path.join(folder, name), 'w', newline='\n') as out:
            out.write(text)
    return expected


def main(words):
    if len(words) < 3 or not words[1].isdigit():
        sys.exit('usage: stress.py COUNT COMMAND..')
    for number in range(int(words[1])):
        with tempfile.TemporaryDirectory() as folder:
            expected = make(folder, number)
            run = subprocess.run([*words[2:], 'run', folder, '--workers', '16'], capture_output=True, text=True)
        if run.returncode != 0 or run.stdout != expected:
            sys.exit(f'stress.py: job {number} ended with status {run.returncode}\n{run.stdout}{run.stderr}')
    print(f'{words[1]} jobs by sixteen workers wrote what the plain circuit gives')


if __name__ == '__main__':
    sys.exit(told(main))
