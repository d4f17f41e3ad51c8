#!/usr/bin/env python3
"""Tells what more workers gain: workers.py PROGRAM [JOB]

Makes the jobs of make_jobs.py, and runs one of them (five_parties, where none is named) by 1, 2 and 4 workers in turn, ROUNDS times (50, where the environment
doesn't say). Prints the least time for each number of workers, and what part it is of the time for one. For comparison it runs as many programs
of one worker at the same time, and prints what part of one after the other they take together: this is the least part that the machine gives
to programs that share nothing. Ends with status 1 where a run doesn't write what the plain circuit gives.
"""

import os
import subprocess
import sys
import tempfile
import time

from measure import Job, Wrong

sys.path.append(os.path.join(os.path.dirname(os.path.dirname(os.path.abspath(__file__))), 'tests'))
from waits import told  # noqa: E402

WORKERS = [1, 2, 4]


def together(program, job, count):
    """The seconds that so many programs of one worker take at the same time."""
    begin = time.perf_counter()
    started = [subprocess.Popen([program, 'run', job.folder], stdin=subprocess.DEVNULL, stdout=subprocess.DEVNULL) for _ in range(count)]
    if any([one.wait() for one in started]):
        raise Wrong(f'{job.name}: one of {count} at the same time failed')
    return time.perf_counter() - begin


def main(words):
    if len(words) not in (2, 3):
        sys.exit('usage: workers.py PROGRAM [JOB]')
    program, name = os.path.abspath(words[1]), (words[2:] or ['five_parties'])[0]
    with tempfile.TemporaryDirectory() as folder:
        here = os.path.dirname(os.path.abspath(__file__))
        listed = subprocess.run([sys.executable, os.path.join(here, 'make_jobs.py'), folder], check=True, capture_output=True, text=True)
        line = next((line for line in listed.stdout.splitlines() if line.startswith(name + ' ')), None)
        if line is None:
            sys.exit(f'workers.py: there is no job {name}')
        jobs = {workers: Job(folder, line) for workers in WORKERS}
        apart = {count: float('inf') for count in WORKERS}
        try:
            for _ in range(int(os.environ.get('ROUNDS', '50'))):
                for workers, job in jobs.items():
                    job.run(program, ['--workers', str(workers)])
                    apart[workers] = min(apart[workers], together(program, job, workers))
        except Wrong as wrong:
            sys.exit(str(wrong))
    print('| Workers | Milliseconds | Part of one worker\'s | Part for as many programs apart |')
    print('|---|---|---|---|')
    for workers, job in jobs.items():
        print(f'| {workers} | {job.seconds * 1000:.1f} | {job.seconds / jobs[1].seconds:.2f} | {apart[workers] / workers / apart[1]:.2f} |')


if __name__ == '__main__':
    sys.exit(told(main))
