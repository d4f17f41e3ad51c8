#!/usr/bin/env python3
"""Refuses each request for memory of a program in turn, and each of its threads: refuse_memory.py PROGRAM [WORD..]

Runs 'PROGRAM WORD..', or without words each command of a list over examples/multiply, nodes of its parties among them, once with all its
memory. Then it runs it once for each N with an allocator that refuses its Nth request. Each run must end with status 6 and write nothing,
neither on standard output and standard error nor, as 'node', to a peer. Only where what was refused is the start of a thread it ends
otherwise: without a worker the others do its work, with status 0 and the same text as before, and without the reader of a peer a node tells
so, with status 5. It runs once more for each thread, which the system then refuses to start. No request may come after the first byte was
written, nor, once a thread was asked for, any but those of threads. A thread's start asks once or twice, the second time in the C library,
which may do with what an earlier thread left; so the count of these requests may differ from run to run. That of a node's reader asks once
more before. Prints the counts for each command, and ends with status 1 where a run did anything else. It needs Linux with the GNU C
library, and a C compiler; for 'node' Python 3.11 or later.
"""

import collections
import os
import shutil
import struct
import subprocess
import sys
import tempfile

sys.path.append(os.path.join(os.path.dirname(os.path.dirname(os.path.abspath(__file__))), 'tests'))
from waits import told  # noqa: E402

HERE = os.path.dirname(os.path.abspath(__file__))
EXAMPLES = os.path.join(HERE, '..', 'examples')
JOB = os.path.join(EXAMPLES, 'multiply')
AUDIT = os.path.join(EXAMPLES, 'audit')
COMMANDS = [
    ['check', JOB],
    ['run', JOB],
    ['run', JOB, '--view', 'a'],
    ['run', JOB, '--workers', '2'],
    ['run', JOB, '--workers', '4', '--view', 'a'],
    ['run', JOB, '--workers', '16'],
    ['pair', JOB, '--group', 'a'],
    ['pair', JOB, '--group', '0'],
    ['sample', '1'],
    ['sample', '5'],
    ['sample', '1000'],
    ['audit', AUDIT],
]

# What the allocator counted, as refuse_memory.c says.
Counts = collections.namedtuple('Counts', 'requests after_thread after_write threads refusals')
LAYOUT = struct.Struct('5l')


class Trial:
    """A command that is run with one thing refused."""

    # How many requests a thread's start makes before the C library's own, which may make one more.
    asked_for_a_thread = 1

    def __init__(self, command, library, file):
        self.command = command
        self.library = library
        self.file = file
        self.whole, self.counts = self.run({})

    def run(self, refused):
        """How a run ended, its status and what it wrote, and what was counted."""
        environment = {**os.environ, 'LD_PRELOAD': self.library, 'COUNTS': self.file, **refused}
        with open(self.file, 'wb') as file:
            file.write(bytes(LAYOUT.size))
        run = subprocess.run(self.command, stdin=subprocess.DEVNULL, capture_output=True, env=environment)
        with open(self.file, 'rb') as file:
            counts = Counts(*LAYOUT.unpack(file.read()))
        return (run.returncode, run.stdout, run.stderr), counts

    def lacks_a_thread(self, ending):
        """Whether a run that could not start a thread may end so."""
        return ending == self.whole

    def tells_of_memory(self, what, number):
        """Whether a run where this was refused told that memory ran out, or else that a thread was missing."""
        ending, counts = self.run({what: str(number)})
        if counts.refusals != 1 and number <= counts.requests:
            self.stop(f'{what} {number} was refused {counts.refusals} times')
        if ending != (6, b'', b'') and not self.lacks_a_thread(ending):
            self.stop(f'{what} {number}: status {ending[0]}, wrote {ending[1][:80]!r} and {ending[2][:80]!r}')
        return ending[0] == 6

    def stop(self, why):
        sys.exit(f'{self.name()}: {why}')

    def name(self):
        return ' '.join(os.path.basename(word) if os.path.isdir(word) else word for word in self.command[1:])

    def refuse_all(self):
        """Refuses each request and each thread, and prints the counts."""
        counts = self.counts
        if self.whole[0] != 0:
            self.stop(f'status {self.whole[0]} with all memory: {self.whole[2][:80]!r}')
        if counts.after_write != (counts.requests + 1 if any(self.whole[1:]) else 0):
            self.stop('memory was asked for after a byte was written')
        told = [self.tells_of_memory('REFUSE_REQUEST', number) for number in range(1, counts.requests + 1)]
        of_memory, of_threads = told.count(True), told.count(False)
        most = (self.asked_for_a_thread + 1) * counts.threads
        if not counts.threads <= of_threads <= most or not all(told[:of_memory]):
            self.stop(f'{of_threads} requests, not all of them the last, are told as those of {counts.threads} threads')
        if counts.threads and counts.after_thread != of_memory + self.asked_for_a_thread + 1:
            self.stop('after the first thread something else asked for memory')
        if any(self.tells_of_memory('REFUSE_THREAD', number) for number in range(1, counts.threads + 1)):
            self.stop('the refusal of a thread was told as one of memory')
        print(f'{self.name()}: {counts.requests} requests; {of_memory} times status 6 and nothing written, '
              f'{of_threads} times status {self.whole[0] if self.command[1] != "node" else 5} without a thread')


class NodeTrial(Trial):
    """A node, to which this script is all its peers."""

    asked_for_a_thread = 2

    def __init__(self, command, library, file):
        from peers import Peers
        self.peers = Peers(*[command[place] for place in (0, 2, 3)])
        super().__init__(command, library, file)

    def run(self, refused):
        with self.peers:
            ending, counts = super().run(refused)
        heard = self.peers.heard
        if ending[0] == 6 and any(heard.values()):
            self.stop(f'{refused}: a peer was told something before memory ran out')
        if ending[0] == 0 and heard != self.peers.due:
            self.stop(f'{refused}: a peer was told something else')
        return ending, counts

    def lacks_a_thread(self, ending):
        return ending[:2] == (5, b'') and ending[2].startswith(b'fault thread peer=')


def for_nodes(folder):
    """Copies the job into this folder, with a host and a port for its parties, which are three."""
    shutil.copytree(JOB, folder)
    path = os.path.join(folder, 'job.toml')
    with open(path) as file:
        text = file.read()
    with open(path, 'w') as file:
        file.write(text.replace('[[session]]', 'hosts = ["127.0.0.1", "127.0.0.1", "127.0.0.1"]\nport = 4700\n[[session]]', 1))
    return folder


def main(words):
    if len(words) < 2:
        sys.exit('usage: refuse_memory.py PROGRAM [WORD..]')
    with tempfile.TemporaryDirectory() as folder:
        library = os.path.join(folder, 'refuse_memory.so')
        subprocess.run(['cc', '-O2', '-shared', '-fPIC', '-o', library, os.path.join(HERE, 'refuse_memory.c')], check=True)
        job = for_nodes(os.path.join(folder, 'multiply'))
        nodes = [['node', job, name] for name in ('a', 'c')]
        for command in [words[2:]] if len(words) > 2 else COMMANDS + nodes:
            trial = NodeTrial if command[0] == 'node' else Trial
            trial([words[1], *command], library, os.path.join(folder, 'counts')).refuse_all()


if __name__ == '__main__':
    sys.exit(told(main))
