#!/usr/bin/env python3
"""Times nodes that run a job over the loopback network: network.py PROGRAM [TABLE]

The jobs are the auction of examples/network, AES-128 of examples/aes, with its gates in layers and in the order of its file, and SHA-256 of a message of one block of
examples/sha256, in sessions that carry, with words that are added bit by bit and by trees of carries. Each is run ROUNDS times
(20, where the environment doesn't say) by a node for each party, all started at once, with named frames and with short ones, and once by 'mpc
run'. Prints for each job its messages, its bytes in both forms, its rounds, the least times of the nodes and that of the run in one process, and the
time of one run of the nodes with short frames over links on which each byte takes 20 milliseconds (relay.py). The table 'sha256' has the figures of
examples/sha256, of messages of one block and of two; its memory is what /usr/bin/time tells. The table 'products' has AES-128 with products that are
direct, prepared, and prepared ahead, with short frames: its rounds and bytes before the round of the inputs, and from that on. Without a word of it there is the
table 'jobs' alone. Ends with status 1 where a node fails or writes anything else than 'mpc run' does.

Bytes are those that all nodes send, as they are counted on the way: a hello of 38 bytes to each peer, and for a message 18 bytes or those of its word. A
round is a run of slots that says something and of which none waits for another; a word that is carried is said to nobody. The rounds seen are those of a run over links that hold all that is sent
until every node waits (relay.py). The least rounds that the protocol would need for the circuit are the products on its longest path, one for the
inputs and one for the outputs: those of the gates in layers. Of a job of several sessions they are the sum of these.
"""

import collections
import itertools
import os
import re
import shutil
import subprocess
import sys
import tempfile
import time

HERE = os.path.dirname(os.path.abspath(__file__))
EXAMPLES = os.path.join(os.path.dirname(HERE), 'examples')
NETWORK = os.path.join(EXAMPLES, 'network')
sys.path[1:1] = [EXAMPLES, NETWORK, os.path.join(os.path.dirname(HERE), 'tests')]
import nodes  # noqa: E402
from by_layers import IN_FILE, WAYS  # noqa: E402
from job_counts import counts_of  # noqa: E402
from job_folder import job_text, read_fields, write_new  # noqa: E402
from relay import Relay, Steps  # noqa: E402
from waits import told  # noqa: E402

# The example of appendix B of FIPS 197.
KEY, BLOCK = '2b7e151628aed2a6abf7158809cf4f3c', '3243f6a8885a308d313198a2e0370734'

# The parts of messages of 55 and of 119 bytes, the most that one block and two blocks take.
BLOCKS = {number: [(3 * b'a record of a clinic, of 33 bytes')[:first].hex(), (2 * b'findings of a laboratory')[:second].hex()]
          for number, first, second in ((1, 33, 22), (2, 75, 44))}

# Seconds that each byte takes from one node to another.
DELAY = 0.02

# What tells how much memory a program takes.
TIME = '/usr/bin/time'


def texts_of(outputs, names):
    """What each party's node must write, where 'mpc run' writes these lines."""
    lines = outputs.splitlines(keepends=True)
    return [''.join(line for line in lines if line.split()[3] == name) for name in names]


def time_nodes(program, folder, names, expected, relay=None):
    started = time.perf_counter()
    running = [subprocess.Popen([program, 'node', os.path.join(folder, name), name], stdin=subprocess.DEVNULL, stdout=subprocess.PIPE,
                                stderr=subprocess.PIPE, text=True, env=relay and relay.environment) for name in names]
    if relay:
        relay.processes = [node.pid for node in running]
    answers = [node.communicate() for node in running]
    taken = time.perf_counter() - started
    for name, node, (out, err), wanted in zip(names, running, answers, expected):
        if node.returncode != 0 or out != wanted:
            sys.exit(f'network.py: {name} ended with status {node.returncode}: {err or "another output"}')
    return taken


def time_alone(program, job):
    started = time.perf_counter()
    subprocess.run([program, 'run', job], check=True, capture_output=True)
    return time.perf_counter() - started


def peak_of(program, job):
    """The most memory that a run takes, in MiB, or nothing where nothing tells it."""
    if not os.access(TIME, os.X_OK):
        return None
    with tempfile.NamedTemporaryFile('r') as told_there:
        subprocess.run([TIME, '-f', '%M', '-o', told_there.name, program, 'run', job], check=True, capture_output=True)
        return int(told_there.read()) / 2**10


# What is measured of the nodes of a job: their least time, the bytes that are seen in each round, and their time over slow links.
Measured = collections.namedtuple('Measured', 'best sizes delayed')


def measure(program, job, form, run, times, slow=True):
    """What is measured of the nodes of a job with frames of this form, which must write what a run does; over slow links where that is wanted."""
    with tempfile.TemporaryDirectory() as folder:
        names = nodes.split(job, folder, [nodes.HERE] * 3, nodes.free_port(3), True, {'frames': form})
        expected = texts_of(run, names)
        best, delayed = min((time_nodes(program, folder, names, expected) for _ in range(times)), default=None), None
        port = read_fields(os.path.join(folder, names[0]))['port']
        ports = [port + 12 * q + p for q in range(3) for p in range(3) if p != q]
        if slow:
            with Relay(ports, DELAY, folder) as relay:
                delayed = time_nodes(program, folder, names, expected, relay)
        with Steps(ports, folder) as steps:
            time_nodes(program, folder, names, expected, steps)
    return Measured(best, steps.sizes, delayed)


def run_of(program, job):
    return subprocess.run([program, 'run', job], check=True, capture_output=True, text=True).stdout


def row(program, name, job, times):
    run = run_of(program, job)
    check = subprocess.run([program, 'check', job], check=True, capture_output=True, text=True).stdout
    named, short = (measure(program, job, form, run, times, form == 'short') for form in ('named', 'short'))
    alone = min(time_alone(program, job) for _ in range(times))
    sessions = counts_of(job).sessions
    messages = int(re.search(r'^messages (\d+)$', check, re.M)[1]) - sum(session.kept for session in sessions)
    rounds, least = map(sum, zip(*rounds_of_sessions(sessions)))
    print(f'| {name} | {messages:,} | {sum(named.sizes):,} | {sum(short.sizes):,} | {rounds:,} | {len(short.sizes):,} | {least:,} '
          f'| {1000 * named.best:.1f} | {1000 * short.best:.1f} | {1000 * alone:.1f} | {short.delayed:.2f} |', flush=True)


def with_field(job, folder, **field):
    """Writes the same job of one session, with this field of the session."""
    shutil.copytree(job, folder)
    fields = read_fields(job)
    [session] = fields['session']
    write_new(folder, 'job.toml', job_text({**fields, 'session': [{**session, **field}]}).encode(), replace=True)
    return folder


def row_of_products(program, job, folder, way, times):
    """A row of the table of products: a job of one session, whose products are computed in this way."""
    with_field(job, folder, products=way)
    found, [counts] = measure(program, folder, 'short', run_of(program, folder), times), counts_of(folder).sessions
    before, sizes = counts.before, found.sizes
    print(f'| {way} | {sum(counts.messages.values()):,} | {before:,} | {counts.rounds - before:,} | {len(sizes):,} | {sum(sizes[:before]):,} | {sum(sizes[before:]):,} '
          f'| {1000 * found.best:.1f} | {found.delayed:.2f} |', flush=True)


def rounds_of_sessions(sessions):
    """The rounds of each session, and the least."""
    for session in sessions:
        yield session.rounds, session.depth + bool(session.gives) + bool(session.reads)


def head(*names):
    print(f'| {" | ".join(names)} |')
    print(len(names) * '|---' + '|')


def make_sha256(folder, blocks, chain):
    """The job of a digest, and what is told of it."""
    job = os.path.join(folder, f'sha256_{blocks}_{chain}')
    words = [*BLOCKS[blocks], *['--chain'] * chain]
    told_of = subprocess.run([sys.executable, os.path.join(EXAMPLES, 'sha256', 'job.py'), 'make', job, *words], check=True, capture_output=True, text=True).stdout
    return job, told_of


def make_aes(folder):
    """The job of AES-128."""
    made = os.path.join(folder, 'aes')
    subprocess.run([sys.executable, os.path.join(EXAMPLES, 'aes', 'job.py'), 'make', made, KEY, BLOCK], check=True)
    return made


def table_of_jobs(program, folder, times):
    head('Job', 'Messages', 'Bytes, named frames', 'Bytes, short frames', 'Rounds', 'Rounds seen', 'Least rounds', 'Milliseconds, named', 'Milliseconds, short',
         'Milliseconds, one process', 'Seconds, nodes 20 ms apart')
    row(program, 'auction of three', NETWORK, times)
    made = make_aes(folder)
    row(program, 'AES-128', made, times)
    row(program, 'AES-128 in the order of its file', with_field(made, os.path.join(folder, 'file'), order=IN_FILE), times)
    for name, chain in [('SHA-256 bit by bit', True), ('SHA-256 by trees', False)]:
        row(program, name, make_sha256(folder, 1, chain)[0], times)


def table_of_sha256(program, folder, times):
    rows = []
    head('', 'Sessions', 'Gates', 'Products', 'Depth', 'Rounds', 'Words carried', 'Messages', 'of them between nodes', 'Bytes between nodes, named', 'Bytes, short')
    for blocks, chain in itertools.product(BLOCKS, (False, True)):
        name = f'{"one block" if blocks == 1 else "two blocks"}, {"bit by bit" if chain else "trees of carries"}'
        job, told_of = make_sha256(folder, blocks, chain)
        count = dict(re.findall(r'(\w+) (\d+)', re.search('(?m)^job .*', told_of)[0]))
        run, between = run_of(program, job), sum(sum(session.messages.values()) for session in counts_of(job).sessions)
        named, short = measure(program, job, 'named', run, 0, False), measure(program, job, 'short', run, times)
        if len(short.sizes) != int(count['rounds']):
            print(f'network.py: {name}: {len(short.sizes)} rounds are seen', file=sys.stderr)
        figures = [*(int(count[key]) for key in ('sessions', 'gates', 'products', 'depth', 'rounds', 'carried', 'messages')), between, sum(named.sizes), sum(short.sizes)]
        print(f'| {name} | {" | ".join(f"{figure:,}" for figure in figures)} |', flush=True)
        alone, peak = min(time_alone(program, job) for _ in range(2 * times)), peak_of(program, job)
        rows.append(f'| {name} | {1000 * alone:.0f} | {"" if peak is None else f"{peak:.1f}"} | {short.best:.2f} | {short.delayed:.1f} |')
    print()
    head('', 'One process, milliseconds', 'Peak memory, MiB', 'Nodes over loopback, seconds', 'Nodes 20 milliseconds apart, seconds')
    print('\n'.join(rows))


def table_of_products(program, folder, times):
    head('Products of AES-128', 'Messages', 'Rounds before the inputs', 'Rounds from these on', 'Rounds seen', 'Bytes in the rounds before',
         'Bytes in the others', 'Milliseconds', 'Seconds, nodes 20 ms apart')
    made = make_aes(folder)
    for way in WAYS:
        row_of_products(program, made, os.path.join(folder, way), way, times)


TABLES = {'jobs': table_of_jobs, 'sha256': table_of_sha256, 'products': table_of_products}


def main(words):
    if len(words) not in (2, 3) or not set(words[2:]) <= TABLES.keys():
        sys.exit(f'usage: network.py PROGRAM [{"|".join(TABLES)}]')
    with tempfile.TemporaryDirectory() as folder:
        TABLES[words[2] if len(words) == 3 else 'jobs'](os.path.abspath(words[1]), folder, int(os.environ.get('ROUNDS', '20')))


if __name__ == '__main__':
    sys.exit(told(main))
