#!/usr/bin/env python3
"""Runs a program over jobs and tells what it took: measure.py FOLDER ROUNDS PROGRAM [OPTION..] <LIST

LIST has a line 'NAME GATES PRODUCTS MESSAGES' for each job, and FOLDER/NAME is the job, with the text that the program must write in
its file 'expected'. Goes through all jobs ROUNDS times, and prints a row of a table for each job: the least time that a run took, how many
times as long that is as for the job above, where that has half as many gates, and the most memory that a run took. Ends with status 1,
and says why on standard error, where a run doesn't end with status 0 or writes anything else than it must.
"""

import os
import subprocess
import sys
import tempfile
import threading
import time

sys.path.append(os.path.join(os.path.dirname(os.path.dirname(os.path.abspath(__file__))), 'tests'))
from waits import told  # noqa: E402

# After so many seconds a run is killed, and so ends with status -9.
MOST_SECONDS = 120


class Wrong(Exception):
    """A run that failed."""


class Job:
    """A job, and the best of what its runs took."""

    def __init__(self, folder, line):
        self.name, self.gates, self.products, self.messages = line.split()
        self.folder = os.path.join(folder, self.name)
        with open(os.path.join(self.folder, 'expected'), 'rb') as file:
            self.expected = file.read()
        self.seconds = float('inf')
        self.peak = 0

    def command(self, program, options):
        """The words of a run."""
        return [program, 'run', self.folder, *options]

    def run(self, program, options):
        """One run."""
        with tempfile.TemporaryFile() as out:
            begin = time.perf_counter()
            process = subprocess.Popen(self.command(program, options), stdin=subprocess.DEVNULL, stdout=out)
            limit = threading.Timer(MOST_SECONDS, process.kill)
            limit.start()
            _, status, usage = os.wait4(process.pid, 0)
            limit.cancel()
            seconds = time.perf_counter() - begin
            process.returncode = os.waitstatus_to_exitcode(status)
            out.seek(0)
            written = out.read()
        if process.returncode != 0:
            raise Wrong(f'{self.name}: ended with status {process.returncode}')
        if written != self.expected:
            raise Wrong(f'{self.name}: did not write what its file "expected" says')
        self.seconds = min(self.seconds, seconds)
        # Linux counts the peak in KiB, macOS in bytes.
        self.peak = max(self.peak, usage.ru_maxrss / (2**20 if sys.platform == 'darwin' else 2**10))

    def row(self, above):
        """The job's row of the table, below that of the job above."""
        doubles = above and int(self.gates) == 2 * int(above.gates)
        times = f'{self.seconds / above.seconds:.2f}' if doubles else ''
        figures = [f'{self.seconds * 1000:.1f}', times, f'{self.peak:.1f}']
        return '| ' + ' | '.join([self.name, self.gates, self.products, self.messages, *figures]) + ' |'


def main(words):
    if len(words) < 4:
        sys.exit('usage: measure.py FOLDER ROUNDS PROGRAM [OPTION..] <LIST')
    folder, rounds, program, *options = words[1:]
    jobs = [Job(folder, line) for line in sys.stdin]
    try:
        for _ in range(int(rounds)):
            for job in jobs:
                job.run(program, options)
    except Wrong as wrong:
        sys.exit(str(wrong))
    print('| Job | Gates | Products | Messages | Milliseconds | Times the job above | Peak memory, MiB |')
    print('|---|---|---|---|---|---|---|')
    for above, job in zip([None, *jobs], jobs):
        print(job.row(above))


if __name__ == '__main__':
    sys.exit(told(main))
