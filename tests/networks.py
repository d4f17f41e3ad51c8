#!/usr/bin/env python3
"""Runs the nodes of all parties of a job beside one another, over pipes in memory: networks.py PIPE_NODES

The nodes of each accepted small job and of each example must write what its circuits come to in the clear, and those of random expressions
what Python comes to, and so must the nodes of their circuits, and those of random programs of numbers. Of three nodes, where one has another job, can't send to another after any byte, or
is heard wrong, all must end, with a line each. A node that hears nothing of its first peer before the second one has said all must still end well.
Ends with status 1, and tells why, where nodes end otherwise.

The jobs are run over named and over short frames.
"""

import hashlib
import json
import os
import pathlib
import random
import re
import subprocess
import sys
import tempfile
import tomllib

EXAMPLES = pathlib.Path(__file__).resolve().parent.parent / 'examples'
sys.path[1:1] = [str(EXAMPLES), str(EXAMPLES / 'network')]

from accepted_runs import ACCEPTED  # noqa: E402
from carried_runs import CARRIED_RUNS  # noqa: E402
from expressions import EXPR, EXPRESSIONS, SQUARE_OF_A_SUM  # noqa: E402
from in_the_clear import fields, out_in_the_clear  # noqa: E402
from number_runs import NUMBER_RUNS  # noqa: E402
from ordered_runs import ORDERED_RUNS  # noqa: E402
from prepared_runs import PREPARED_RUNS  # noqa: E402
from product import Edit, Whole, product_with  # noqa: E402
from random_expressions import random_job, with_circuits  # noqa: E402
from random_numbers import Job  # noqa: E402
from tolerated_runs import TOLERATED  # noqa: E402
from views import lines_with  # noqa: E402
from waits import MOST_SECONDS, told  # noqa: E402
from wide_ring_runs import WIDE_RINGS  # noqa: E402
# (scripts of examples/)
from job_folder import job_text  # noqa: E402
from nodes import in_version_2  # noqa: E402

RANDOM_JOBS = 30

# Room for what a node of 'pipe_nodes' writes.
MOST_WRITTEN = 4_096

# Room for a hello, a frame and a few bytes more; and for all that is said over a pipe of the product.
SMALL = 60
LARGE = 200


class Wrong(Exception):
    """Nodes that ended otherwise."""


def with_places(files):
    """The files with hosts and a port in the job, where it has none."""
    top, _ = fields(files['job.toml'])
    if 'hosts' in top:
        return files
    places = 'hosts = [' + len(top['parties']) * '"host", ' + ']\nport = 4000\n[[session]]\n'
    return {**files, 'job.toml': files['job.toml'].replace(b'[[session]]\n', places.encode(), 1)}


def with_fields(files, **further):
    """The files with these further fields in the job, which is one of version 2 then."""
    return {**files, 'job.toml': job_text({**in_version_2(tomllib.loads(files['job.toml'].decode())), **further}).encode()}


def of_both_forms(files):
    """The files with named frames and with short ones."""
    return [with_fields(files, frames='named') if b'frames' in files['job.toml'] else files, with_fields(files, frames='short')]


def write_nodes(top, files, odd=None, other_files=None):
    """Writes a folder for each party, with the job, its circuits and the party's own file, and gives the names. That of the odd one has
    other files."""
    names = fields(files['job.toml'])[0]['parties']
    for number, name in enumerate(names):
        its_files = other_files if number == odd else files
        circuits = {session['circuit'] for session in fields(its_files['job.toml'])[1]}
        its_files = with_places(its_files)
        folder = os.path.join(top, name)
        os.mkdir(folder)
        for file in ['job.toml', *circuits, f'party_{name}.toml']:
            with open(os.path.join(folder, file), 'wb') as its_file:
                its_file.write(its_files[file])
    return names


TEXT = r'("(?:[^"\\]|\\.)*")'


def run(program, files, room=SMALL, flaw=('none', 0, 0, 0), odd=None, other_files=None):
    """How each node ended: its name, its status, and what it wrote on both outputs."""
    with tempfile.TemporaryDirectory() as top:
        names = write_nodes(top, files, odd, other_files)
        words = [program, top, str(room), *map(str, flaw), *names]
        done = subprocess.run(words, stdin=subprocess.DEVNULL, capture_output=True, text=True, timeout=MOST_SECONDS)
    if done.returncode != 0:
        raise Wrong(f'status {done.returncode}: {done.stderr.strip()}')
    ended = re.findall(rf'^(\w+) (\d+) {TEXT} {TEXT}$', done.stdout, re.M)
    return [(name, int(status), json.loads(out), json.loads(err)) for name, status, out, err in ended]


def lines_for(out, name):
    return ''.join(line for line in out.splitlines(True) if line.split()[3] == name)


def expect_written(files, ended):
    """That each node wrote the lines of its party, of what the circuits come to in the clear."""
    out = out_in_the_clear(files)
    expected = [(name, 0, lines_for(out, name), '') for name in fields(files['job.toml'])[0]['parties']]
    if ended != expected:
        raise Wrong(f'{ended}')


def expect_faults(ended, begins):
    """That each of a, b and c ended with status 5 and no output, and with one line that begins so."""
    if [name for name, *_ in ended] != ['a', 'b', 'c']:
        raise Wrong(f'{ended}')
    for (name, status, out, err), begin in zip(ended, begins):
        if status != 5 or out or not err.startswith(begin) or err.find('\n') != len(err) - 1:
            raise Wrong(f'{name} ended with status {status}, {out!r} and {err!r}')


def accepted_jobs(program):
    for row in [*ACCEPTED, *WIDE_RINGS, *TOLERATED, *PREPARED_RUNS, *ORDERED_RUNS, *CARRIED_RUNS, *EXPRESSIONS, *NUMBER_RUNS]:
        if row.out.startswith('out ') and '--view' not in row.words and len(row.out) <= MOST_WRITTEN:
            for files in of_both_forms(row.files()):
                expect_written(files, run(program, files))


def random_expressions(program):
    for number in range(RANDOM_JOBS):
        files, out = random_job(random.Random(number))
        if out_in_the_clear(files) != out:
            raise Wrong(f'in the clear job {number} writes {out_in_the_clear(files)} in place of {out}')
        for its_files in of_both_forms(files):
            expect_written(its_files, run(program, its_files))
        expect_written(files, run(program, with_circuits(files)))


def random_numbers(program):
    for number in range(RANDOM_JOBS):
        job = Job(random.Random(number))
        for files in of_both_forms(job.files(False)):
            expect_written(files, run(program, files))


def examples(program):
    for expected in sorted(EXAMPLES.glob('*/expected')):
        its_files = {file.name: file.read_bytes() for file in expected.parent.iterdir() if file.is_file()}
        for files in of_both_forms(its_files):
            files = with_fields(files, views='none') if b'views' in files['job.toml'] else files
            expect_written(files, run(program, files))


def views_of_their_own(program):
    """What each node of the product sent and got stands behind its outputs, where the job says so."""
    for files in of_both_forms(product_with([])):
        found = run(program, with_fields(files, views='own'))
        expected = [(name, 0, f'{"out 0 0 c 35" + chr(10) if name == "c" else ""}view {name}\n{lines_with(name)}', '') for name in 'abc']
        if found != expected:
            raise Wrong(f'{found}')


# Changes that leave the job the same but for its digest, and the line of c where c alone has them. The digests are as `sha256sum` gives them
# of the lengths and the bytes of both files.
OTHER_JOBS = [
    (Edit('job.toml', 'version = 1\n', 'version = 1 # mine\n'),
     'fault job peer=a '
     'ours=4d50433100025399ac643208c8742613dec0be88ae18e827390c4563e5158a2c9f0366718708 '
     'theirs=4d50433100024a69dd53b7941bd0b09ec2815e1d801eed0bdff706e76f11825e3d1d57963515\n'),
    (Edit('mul.txt', '1 3\n', '1  3\n'),
     'fault job peer=a '
     'ours=4d504331000262ba76901505adb89d5b6930212e7fa17af1f502d20aad997c6a07412c474675 '
     'theirs=4d50433100024a69dd53b7941bd0b09ec2815e1d801eed0bdff706e76f11825e3d1d57963515\n'),
]


def one_with_another_job(program):
    """A node that sends to one that has stopped reading may tell of that. But c gives no input, so it says nothing before it has heard a."""
    for change, line in OTHER_JOBS:
        for odd, begins in enumerate([['fault ', 'fault ', 'fault job peer=a '],
                                      ['fault ', 'fault ', 'fault closed peer=a at='],
                                      ['fault ', 'fault ', line]]):
            expect_faults(run(program, product_with([]), odd=odd, other_files=product_with([change])), begins)


def hello_to_c(files):
    """What a says first to c, in hexadecimal: last in it is the digest of the job's files as they were read."""
    digest, files = hashlib.sha256(), with_places(files)
    for name in ('job.toml', 'mul.txt'):
        digest.update(len(files[name]).to_bytes(8, 'big') + files[name])
    return f'4d5043310002{digest.hexdigest()}'


def one_with_other_blanks_in_its_expressions(program):
    """Both texts stand for one circuit, and are two jobs."""
    files, other = (product_with([*EXPR, Whole('mul.txt', text)]) for text in (SQUARE_OF_A_SUM, SQUARE_OF_A_SUM + b'\n'))
    line = f'fault job peer=a ours={hello_to_c(other)} theirs={hello_to_c(files)}\n'
    expect_faults(run(program, files, odd=2, other_files=other), ['fault ', 'fault ', line])


HELLO = 38

# To whom a sends its frames, one after another; and how many bytes a frame of the product has in each form.
RECEIVERS = 'bccbbccbc'
LENGTHS = [18, 1]


def lines_of_a_cut(count, length):
    """How the lines of a, b and c begin where the pipe from a to c fails after so many bytes. Where it fails within the hello, a reads nothing, so a send
    to it may fail. Else b hears all that a sent to it before, and c all that came through."""
    if count < HELLO:
        return ['fault link peer=c\n', 'fault ', 'fault ']
    failed = [place for place, name in enumerate(RECEIVERS) if name == 'c'][(count - HELLO) // length]
    return ['fault link peer=c\n', f'fault closed peer=a at={HELLO + length * RECEIVERS[:failed].count("b")}\n', f'fault closed peer=a at={count}\n']


def one_that_can_not_send(program):
    """After any byte. Before its last frame to c it has said all to b, which ends well where it is that frame that fails."""
    for files, length in zip(of_both_forms(product_with([])), LENGTHS):
        last = HELLO + length * (RECEIVERS.count('c') - 1)
        for count in range(last):
            expect_faults(run(program, files, flaw=('fails', count, 0, 2)), lines_of_a_cut(count, length))
        for count in range(last, last + length):
            a, b, c = run(program, files, flaw=('fails', count, 0, 2))
            if (a, b, c) != (('a', 5, '', 'fault link peer=c\n'), ('b', 0, '', ''), ('c', 5, '', f'fault closed peer=a at={count}\n')):
                raise Wrong(f'{count} bytes in frames of {length}: {a} {b} {c}')
        expect_written(files, run(program, files, flaw=('fails', last + length, 0, 2)))


# The changes that make of the product a sum of the first of five words of a and one of b: more frames from a to c than a pipe has room for,
# and then some from b to c.
FIVE_WORDS = [
    Whole('mul.txt', b'1 7\n2 5 1\n1 1\n2 1 0 5 6 ADD\n'),
    Edit('party_a.toml', '5', '5 4 3 2 1'),
    Edit('party_a.toml', '10 20 1 2', '0 1 2 3 4 5 6 7 8 9'),
    Edit('party_b.toml', '30 40 3 4', '30 40'),
    Edit('party_c.toml', '5 6', ''),
]

# The first frame from a to c, but for its session, in which a byte was changed.
OTHER_FRAME = 'fault frame peer=a at=38 bytes=010200000000000000020000000000000000\n'


def one_that_hears_another_frame(program):
    ended = run(program, product_with(FIVE_WORDS), flaw=('changes', 39, 0, 2))
    expect_faults(ended, ['fault link peer=c\n', 'fault closed peer=a at=', OTHER_FRAME])


# How many frames b says to c.
SAID_BY_B = 4


def one_that_hears_its_second_peer_first(program):
    """So a node hears its peers at once. The pipes have room for all that a says, which goes on without c."""
    for files, length in zip(of_both_forms(product_with([])), LENGTHS):
        expect_written(files, run(program, files, room=LARGE, flaw=('held', HELLO + SAID_BY_B * length, 0, 2)))


CASES = [accepted_jobs, random_expressions, random_numbers, examples, views_of_their_own, one_with_another_job, one_with_other_blanks_in_its_expressions, one_that_can_not_send,
         one_that_hears_another_frame, one_that_hears_its_second_peer_first]


def main(words):
    if len(words) != 2:
        sys.exit('usage: networks.py PIPE_NODES')
    status = 0
    for case in CASES:
        name = case.__name__.replace('_', ' ')
        try:
            case(os.path.abspath(words[1]))
            print(f'networks: {name}: as expected')
        except (Wrong, subprocess.TimeoutExpired) as wrong:
            print(f'networks: {name}: NOT AS EXPECTED: {wrong}')
            status = 1
    return status


if __name__ == '__main__':
    sys.exit(told(main))
