#!/usr/bin/env python3
"""Runs each party of a job by a node of its own, over TCP.

    examples/network/nodes.py split JOB FOLDER [--hosts HOST,HOST,.. --port PORT] [--frames short] [--views own]
    examples/network/nodes.py compare FOLDER ..
    examples/network/nodes.py keys FOLDER NAME
    examples/network/nodes.py tunnels JOB NAME [ssh|in|out] [--hosts HOST,HOST,..]
    examples/network/nodes.py wait FOLDER NAME [SECONDS]
    examples/network/nodes.py run JOB [PROGRAM] [--frames short] [--views own]

'split' writes a folder for each party, FOLDER/NAME, with the job's file, its circuits and that party's own file alone: all of them, or
none where a file is missing. With hosts, one for each party in order, and a port it adds these to a job that has none. With --frames short
what is sent for a message is its word alone, and with --views own each node writes its own view behind its outputs. Both are fields of version 2,
so a formula gives way to the list of the groups that must learn nothing. The other texts are 'named' and 'none'.

'compare' prints the digest by which nodes tell a job, and those of its files, side by side for several folders, and says which file of
which folder differs. Of one folder it prints them whole, to be read to the others. It ends with status 1 where folders differ.

'keys' makes the key FOLDER/NAME.key and the certificate FOLDER/NAME.pem by which 'stunnel' knows a party, and prints the fingerprint of the
certificate. It needs 'openssl'.

'tunnels' prints what the party NAME starts so that its connections to each peer go through tunnels: the lines of 'ssh', and the two
configurations of 'stunnel', of what is let in and of what goes out. With one of the three words it prints that one alone. The hosts are the
parties' computers, in order; those of the job are 127.0.0.1 for all, so that nodes are reached by tunnels alone.

'wait' is for all parties at once, before a run: each listens and connects where its node NAME would, for SECONDS (60 where it isn't said),
and prints which peers it reaches, which reach it, and which have another job. It ends with status 0 once all are ready. A node that runs
already takes it for a peer, so it comes before the nodes.

'run' splits the job into temporary folders, in which this machine is each host and the ports are free ones, starts all nodes here, and
prints what each of them writes, in the order of the parties. JOB may also be the FOLDER that 'split' wrote: then nothing is started where one
party has another job, and it says which. It tells which nodes it waits for; once one fails it stops the others, and ends with status 1. The
program is ./mpc of this repository, or the one that is named.
"""

import contextlib
import os
import pathlib
import random
import re
import shutil
import signal
import socket
import subprocess
import sys
import tempfile
import time

TOP = pathlib.Path(__file__).resolve().parent.parent.parent
sys.path.insert(0, str(TOP / 'examples'))
from doubts import doubt  # noqa: E402
from job_folder import Refusal, job_text, need, number_in, read_bytes, read_fields, run_script, write_new  # noqa: E402
from reached import await_peers  # noqa: E402
from same_job import compare, differences, files_of, known_of  # noqa: E402
from secured import PARTS, make_key, print_tunnels  # noqa: E402
from summands import tolerated_of  # noqa: E402

HERE = '127.0.0.1'
MOST_PORT = 65_392
HOST = re.compile('[A-Za-z0-9.:-]{1,64}')
MOST_TRIES = 1_000

# Those of the system's own choice, which bind gives for port 0, are above: a node that tries to connect to one of them where nobody listens
# yet may get the same one as its own, and speak to itself.
PORTS = 10_000, 32_000

# Seconds: between two looks at the nodes, before it is told which ones are waited for, for the others to tell their faults once one has
# failed, and for a node that is to stop.
LOOK = 0.02
PATIENCE = 3
GRACE = 1
STOPPING = 5

# Seconds that 'wait' tries for.
USUAL_WAIT, MOST_WAIT = 60, 86_400

# The options of each call, and the texts of those that are a field of the job.
OPTIONS = {'split': {'--hosts', '--port', '--frames', '--views'}, 'run': {'--frames', '--views'}, 'tunnels': {'--hosts'}}
TEXTS = {'frames': ('named', 'short'), 'views': ('none', 'own')}


def need_hosts(hosts, parties):
    """Refuses hosts that are not one for each party, or out of form."""
    need(len(hosts) == len(parties), f'there are {len(parties)} parties and {len(hosts)} hosts: each has one')
    wrong = next((host for host in hosts if not HOST.fullmatch(host)), None)
    need(wrong is None, f'{str(wrong)[:80]!r} is no host: 1 to 64 letters, digits, ".", "-" and ":"')


def in_version_2(fields):
    """The fields of the same job in version 2, where a list of the groups that must learn nothing stands in place of a formula."""
    if fields.get('version') != 1:
        return fields
    listed = {'tolerated' if name == 'formula' else name: tolerated_of(fields) if name == 'formula' else value for name, value in fields.items()}
    return {**listed, 'version': 2}


def parts_of(folder, hosts=None, port=None, replace=False, further=None):
    """The files of each party's folder, by the parties' names. Hosts and a port that stand in the job are replaced only where that is said; the
    further fields stand in version 2 alone."""
    fields, files = files_of(folder)
    own = {name: f'party_{name}.toml' for name in fields['parties']}
    if hosts is None:
        need({'hosts', 'port'} <= set(fields), 'the job has no hosts and port, without which no node runs: add --hosts HOST,HOST,.. --port PORT')
    else:
        need_hosts(hosts, fields['parties'])
        need(replace or not {'hosts', 'port'} & set(fields), 'the job has hosts or a port already')
        fields.update(hosts=hosts, port=port)
    if further:
        fields = {**in_version_2(fields), **further}
    if further or hosts is not None:
        files['job.toml'] = job_text(fields).encode()
    return {name: {**files, own[name]: read_bytes(folder, own[name])} for name in own}


def joined(folder):
    """The files of a whole job: those of a job's folder or, where it has none, those of the folders that 'split' wrote into it. These must
    all have the same job."""
    if os.path.lexists(os.path.join(folder, 'job.toml')):
        return None
    names = sorted(entry.name for entry in os.scandir(folder) if os.path.isfile(os.path.join(entry.path, 'job.toml')))
    need(names, f'{folder} has no job.toml, and no folder of a party')
    known = [known_of(os.path.join(folder, name)) for name in names]
    wrong = list(differences(names, known))
    need(not wrong, f'not all have the same job: {"; ".join(wrong)}; {", ".join(f"{name} {one.digest[:16]}" for name, one in zip(names, known))}')
    parties = read_fields(os.path.join(folder, names[0]))['parties']
    own = {f'party_{name}.toml': read_bytes(os.path.join(folder, name), f'party_{name}.toml') for name in parties}
    return {**known[0].files, **own}


def write_folder(folder, files):
    """Writes a folder that isn't there yet. What only its party may read nobody else can."""
    os.makedirs(folder)
    for name, data in files.items():
        write_new(folder, name, data, 0o600 if name.startswith('party_') else 0o644)


def split(folder, target, hosts=None, port=None, replace=False, further=None):
    """Writes a folder for each party, or none, and gives the parties' names."""
    parts = parts_of(folder, hosts, port, replace, further)
    folders = {name: os.path.join(target, name) for name in parts}
    there = next((path for path in folders.values() if os.path.lexists(path)), None)
    need(there is None, f'{there} is there already')
    made = []
    try:
        for name, files in parts.items():
            made.append(folders[name])
            write_folder(folders[name], files)
    except BaseException:
        for path in made:
            shutil.rmtree(path, ignore_errors=True)
        raise
    return list(parts)


def is_free(port):
    with socket.socket() as listener:
        listener.setsockopt(socket.SOL_SOCKET, socket.SO_REUSEADDR, 1)
        try:
            listener.bind((HERE, port))
        except OSError:
            return False
    return True


def free_port(count):
    """A port from which on all ports that the nodes of so many parties listen at are free."""
    for _ in range(MOST_TRIES):
        port = random.randrange(*PORTS)
        if all(is_free(port + 12 * q + p) for q in range(count) for p in range(count) if p != q):
            return port
    raise Refusal('there are no free ports')


class Node:
    """A node that runs, and the files of what it writes."""

    def __init__(self, program, target, name):
        self.name, self.files = name, [os.path.join(target, f'{name}.{stream}') for stream in ('out', 'err')]
        with open(self.files[0], 'wb') as out, open(self.files[1], 'wb') as err:
            self.process = subprocess.Popen([program, 'node', os.path.join(target, name), name], stdin=subprocess.DEVNULL, stdout=out, stderr=err)

    def runs(self):
        return self.process.poll() is None

    def wrote(self):
        """What it wrote on standard output, and on standard error."""
        return [pathlib.Path(file).read_text(encoding='utf-8', errors='replace') for file in self.files]

    def stop(self):
        if self.runs():
            self.process.terminate()
            try:
                self.process.wait(STOPPING)
            except subprocess.TimeoutExpired:
                self.process.kill()
                self.process.wait()


def names_of(nodes):
    return ', '.join(node.name for node in nodes)


def is_consequence(node):
    """Whether a node failed since a peer had left."""
    return node.wrote()[1].startswith(('fault closed ', 'fault link '))


def fail(nodes):
    """Tells why nodes failed: first those that failed by themselves. The others get a moment to tell more than that a peer has left."""
    end = time.monotonic() + GRACE
    while time.monotonic() < end and any(node.runs() for node in nodes):
        time.sleep(LOOK)
    failed = sorted((node for node in nodes if not node.runs() and node.process.returncode != 0), key=is_consequence)
    causes = [f'{node.name} ended with status {node.process.returncode}: {node.wrote()[1].strip()}' for node in failed]
    running = [node for node in nodes if node.runs()]
    raise Refusal('; '.join(causes) + (f'; stopped: {names_of(running)}' if running else ''))


def wait_for(nodes):
    """Waits until all nodes have ended, or one has failed."""
    told, last = time.monotonic(), None
    while True:
        running = [node for node in nodes if node.runs()]
        if any(node.process.returncode for node in nodes if node not in running):
            fail(nodes)
        if not running:
            return
        if time.monotonic() - told > PATIENCE and names_of(running) != last:
            told, last = time.monotonic(), names_of(running)
            print(f'nodes.py: waiting for {last}', file=sys.stderr, flush=True)
        time.sleep(LOOK)


def run(folder, program, further):
    """Starts a node for each party, of the job with these further fields, and prints what they write."""
    signal.signal(signal.SIGTERM, lambda *_: sys.exit('nodes.py: terminated'))
    with tempfile.TemporaryDirectory() as top, contextlib.ExitStack() as stack:
        files = joined(folder)
        if files is not None:
            folder = os.path.join(top, 'job')
            write_folder(folder, files)
        # One call first, so that the program is built, and the job refused, once and not by each node.
        checked = subprocess.run([program, 'check', folder], stdin=subprocess.DEVNULL, stdout=subprocess.DEVNULL)
        if checked.returncode != 0:
            return 1
        doubt(folder)
        count, target = len(read_fields(folder)['parties']), os.path.join(top, 'nodes')
        nodes = []
        for name in split(folder, target, [HERE] * count, free_port(count), True, further):
            nodes.append(Node(program, target, name))
            stack.callback(nodes[-1].stop)
        wait_for(nodes)
        for node in nodes:
            sys.stdout.write(node.wrote()[0])
    return 0


def split_and_doubt(folder, target, options, further):
    hosts, port = options.get('--hosts'), options.get('--port')
    if hosts is not None:
        need(port.isascii() and port.isdigit() and len(port) <= 5 and 1 <= int(port) <= MOST_PORT, f'a port is a number from 1 to {MOST_PORT}')
        hosts, port = hosts.split(','), int(port)
    split(folder, target, hosts, port, further=further)
    doubt(folder)
    return 0


def tunnels(folder, name, part, hosts):
    fields = read_fields(folder)
    if hosts is not None:
        need_hosts(hosts, fields['parties'])
    print_tunnels(fields, name, part, hosts)
    return 0


def options_of(call, words):
    """The texts of the options behind a call's words, or nothing where a word is out of place."""
    options = dict(zip(words[::2], words[1::2]))
    fits = len(words) == 2 * len(options) and set(options) <= OPTIONS.get(call, set())
    return options if fits and (call != 'split' or ('--hosts' in options) == ('--port' in options)) else None


def further_fields(options):
    """The fields of the job that the options name."""
    for name, texts in TEXTS.items():
        text = options.get(f'--{name}', texts[0])
        need(text in texts, f'--{name} is one of {" and ".join(texts)}, and not {text[:40]!r}')
    return {name: options[f'--{name}'] for name in TEXTS if f'--{name}' in options}


def main(words):
    if words in (['-h'], ['--help']):
        print(__doc__)
        return 0
    call, *rest = words or ['']
    count = next((place for place, word in enumerate(rest) if word.startswith('--')), len(rest))
    job, options = rest[:count], options_of(call, rest[count:])
    if options is not None:
        if call == 'run' and len(job) in (1, 2):
            return run(job[0], job[1] if len(job) == 2 else str(TOP / 'mpc'), further_fields(options))
        if call == 'split' and len(job) == 2:
            return split_and_doubt(*job, options, further_fields(options))
        if call == 'compare' and job:
            return compare(job)
        if call == 'keys' and len(job) == 2:
            return make_key(*job)
        if call == 'tunnels' and len(job) in (2, 3) and job[2:] in ([], *([part] for part in PARTS)):
            return tunnels(*job[:2], *(job[2:] or [None]), options['--hosts'].split(',') if options else None)
        if call == 'wait' and len(job) in (2, 3):
            return await_peers(*job[:2], number_in(job[2], MOST_WAIT, 'SECONDS') if len(job) == 3 else USUAL_WAIT)
    print(__doc__.split('\n\n')[1], file=sys.stderr)
    return 2


if __name__ == '__main__':
    run_script(main)
