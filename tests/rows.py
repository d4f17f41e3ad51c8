#!/usr/bin/env python3
"""Calls the program of this repository over small jobs whose answers were worked out by hand: rows.py PROGRAM

Each row is a call over a change of the files of one product, and must end with its status and write its bytes on both outputs. What a run
writes must also be what its circuits come to in the clear; so must what the examples expect. Ends with status 1, and tells why, where
a row has another answer.
"""

import os
import pathlib
import shutil
import subprocess
import sys
import tempfile

from accepted_runs import ACCEPTED, PRODUCTS_OF_TWO_SESSIONS
from audits import AUDITS, FAULTY_VIEWS
from carried_runs import CARRIED_AUDITS, CARRIED_FAULTS, CARRIED_PAIRS, CARRIED_RUNS, CARRIED_WIDTHS
from circuit_faults import CIRCUIT_FAULTS
from circuit_files import CIRCUIT_FILES
from command_forms import COMMAND_FORMS
from expressions import EXPRESSIONS, FAULTY_EXPRESSIONS
from formulas import FORMULAS
from in_the_clear import out_in_the_clear
from job_faults import JOB_FAULTS
from job_files import JOB_FILES
from made_rows import LONG_FORMULAS, LONG_JOBS, LONG_LISTS, front_rows, ring_rows, worker_rows
from number_runs import FAULTY_PARTIES, NUMBER_FAULTS, NUMBER_RUNS
from ordered_runs import ORDERED_RUNS
from other_words import OTHER_WORDS
from pairs import OTHER_FAULTS, PAIR_FAULTS, PAIRS
from party_faults import PARTY_FAULTS
from party_files import ACCEPTED_FILES, REFUSED_FILES
from prepared_runs import PREPARED_RUNS
from samples import MADE_SAMPLES, SAMPLES
from tolerated_runs import TOLERATED
from views import OTHER_GROUPS, VIEWS
from waits import MOST_SECONDS, told
from wide_ring_runs import WIDE_RINGS

EXAMPLES = pathlib.Path(__file__).resolve().parent.parent / 'examples'

GROUPS = {
    'accepted': ACCEPTED,
    'wide rings': WIDE_RINGS,
    'tolerated': TOLERATED,
    'prepared': PREPARED_RUNS,
    'in layers': ORDERED_RUNS,
    'carried': CARRIED_RUNS,
    'carried widths': CARRIED_WIDTHS,
    'carried pairs and audits': [*CARRIED_PAIRS, *CARRIED_AUDITS],
    'faults of what is carried': CARRIED_FAULTS,
    'words': OTHER_WORDS,
    'forms of commands': COMMAND_FORMS,
    'jobs': [*JOB_FAULTS, *JOB_FILES],
    'formulas': FORMULAS,
    'circuits': [*CIRCUIT_FAULTS, *CIRCUIT_FILES],
    'fronts of a circuit': list(front_rows()),
    'expressions': EXPRESSIONS,
    'faulty expressions': FAULTY_EXPRESSIONS,
    'numbers': NUMBER_RUNS,
    'faulty numbers': NUMBER_FAULTS,
    'parties that give numbers': FAULTY_PARTIES,
    'parties': [*PARTY_FAULTS, *REFUSED_FILES, *ACCEPTED_FILES],
    'views': VIEWS,
    'other groups': OTHER_GROUPS,
    'audits': AUDITS,
    'faulty views': FAULTY_VIEWS,
    'samples': [*SAMPLES, *MADE_SAMPLES],
    'pairs': PAIRS,
    'other inputs': OTHER_FAULTS,
    'refused pairs': PAIR_FAULTS,
    'rings': list(ring_rows()),
    'long': [*LONG_FORMULAS, *LONG_JOBS, *LONG_LISTS],
    'workers': list(worker_rows(PRODUCTS_OF_TWO_SESSIONS)),
}

# Those of which each run that writes outputs is computed in the clear.
IN_THE_CLEAR = ['accepted', 'wide rings', 'tolerated', 'prepared', 'in layers', 'carried', 'carried widths', 'expressions', 'numbers']


def call(program, row):
    """The answer of the program to a row."""
    with tempfile.TemporaryDirectory() as top:
        folder = os.path.join(top, row.folder)
        os.makedirs(folder)
        for name, data in row.files().items():
            with open(os.path.join(folder, name), 'wb') as file:
                file.write(data)
        return subprocess.run([program, *row.words], cwd=top, stdin=subprocess.DEVNULL, capture_output=True, timeout=MOST_SECONDS)


def what_is_wrong(found, row):
    """Why this isn't the row's answer, or nothing."""
    if found.returncode != row.status:
        return f'the status is {found.returncode}'
    if found.stdout != row.out.encode():
        return f'another output: {found.stdout[:200]!r}'
    if found.stderr != row.err.encode():
        return f'another refusal: {found.stderr[:200]!r}'
    return None


def writes_outputs(row):
    """Whether it is a run whose outputs are not followed by a view."""
    return row.out.startswith('out ') and '--view' not in row.words


def check_examples():
    """That each example expects what its circuits come to in the clear, and how many they are."""
    count = 0
    for expected in sorted(EXAMPLES.glob('*/expected')):
        files = {file.name: file.read_bytes() for file in expected.parent.iterdir() if file.is_file()}
        if out_in_the_clear(files) != expected.read_text():
            sys.exit(f'rows: {expected} IS NOT WHAT ITS CIRCUITS COME TO')
        count += 1
    return count


def check_group(program, group, rows):
    """Calls the program for each row, and gives how many have their answer."""
    passed = 0
    for row in rows:
        wrong = what_is_wrong(call(program, row), row)
        if not wrong and group in IN_THE_CLEAR and writes_outputs(row) and out_in_the_clear(row.files()) != row.out:
            wrong = 'its circuits come to something else in the clear'
        if wrong:
            print(f'rows: {group}: {row.name}: {wrong}')
        else:
            passed += 1
    return passed


def main(words):
    if len(words) != 2:
        sys.exit('usage: rows.py PROGRAM')
    program = shutil.which(os.path.abspath(words[1]))
    if not program:
        sys.exit(f'rows: there is no program {words[1]}')
    status = 0
    for group, rows in GROUPS.items():
        passed = check_group(program, group, rows)
        print(f'rows: {group}: {passed} of {len(rows)} as expected')
        if passed != len(rows):
            status = 1
    print(f'rows: {check_examples()} examples expect what their circuits come to in the clear')
    return status


if __name__ == '__main__':
    sys.exit(told(main))
