#!/usr/bin/env python3
"""Sets a sample beside a run of the same job: samples.py PROGRAM

Calls 'mpc sample 65536', and 'mpc run' by 1, 2 and 4 workers over a folder with the same circuit, inputs and seeds, in turn, ROUNDS times
(50, where the environment doesn't say). A sample reads no file and always has four workers. So its work is that of the run by four
without the reading, and the runs by one and by two tell what fewer workers would take. Prints for each call the least time of the
whole, and then, of as many calls with phases.c before the C library, the least time of each part of it: what comes before the workers,
the workers, and what comes after. Ends with status 1 where a call writes anything else than it must. It needs Linux with the GNU C
library, and a C compiler.
"""

import os
import subprocess
import sys
import tempfile

import phases
from measure import Job, Wrong

sys.path.append(os.path.join(os.path.dirname(os.path.dirname(os.path.abspath(__file__))), 'tests'))
from waits import told  # noqa: E402

JOB = 'sample_65536'
WORKERS = [1, 2, 4]


class Sample(Job):
    """The job as the program itself makes it."""

    def __init__(self, folder, line):
        super().__init__(folder, line)
        # A party draws two words for each of its input wires, and two for each product. The third has no input wires.
        products = int(self.products)
        words = {'a': 2 * (2 + products), 'b': 2 * (2 + products), 'c': 2 * products}
        head = f'sample {self.gates}\nproducts {self.products}\nmessages {self.messages}\n'
        head += ''.join(f'words {party} {count}\n' for party, count in words.items())
        self.expected = head.encode() + self.expected

    def command(self, program, options):
        return [program, 'sample', self.gates]


def main(words):
    if len(words) != 2:
        sys.exit('usage: samples.py PROGRAM')
    program = os.path.abspath(words[1])
    here = os.path.dirname(os.path.abspath(__file__))
    with tempfile.TemporaryDirectory() as folder:
        listed = subprocess.run([sys.executable, os.path.join(here, 'make_jobs.py'), folder], check=True, capture_output=True, text=True)
        line = next(line for line in listed.stdout.splitlines() if line.startswith(JOB + ' '))
        library, told = phases.build(folder), os.path.join(folder, 'told')
        calls = [('sample', '4', Sample(folder, line), [])]
        calls += [('run', str(count), Job(folder, line), ['--workers', str(count)]) for count in WORKERS]
        parts = [[] for _ in calls]
        try:
            for _ in range(int(os.environ.get('ROUNDS', '50'))):
                for (_, _, job, options), runs in zip(calls, parts):
                    job.run(program, options)
                    runs.append(phases.run(job.command(program, options), job.expected, library, told))
        except Wrong as wrong:
            sys.exit(str(wrong))
    print('| Call | Workers | Milliseconds | Before the workers | By them | After |')
    print('|---|---|---|---|---|---|')
    for (call, workers, job, _), runs in zip(calls, parts):
        least = ' | '.join(f'{min(part):.1f}' for part in zip(*runs))
        print(f'| {call} | {workers} | {job.seconds * 1000:.1f} | {least} |')


if __name__ == '__main__':
    sys.exit(told(main))
