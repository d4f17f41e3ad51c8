#!/usr/bin/env python3
"""Tells where the time of a run goes, by so many workers: phases.py PROGRAM [JOB]

Makes the jobs of make_jobs.py, and runs one of them (eight_sessions, where none is named), or the job of a folder, by 1, 2, 3 and 4 workers in
turn, ROUNDS times (50, where the environment doesn't say), with phases.c before the C library. Prints for each number of workers the least time of each
part of a run: what comes before the workers, the workers, and what comes after them, and what part of the time of one worker the
workers' is. Ends with status 1 where a run doesn't write what the plain circuit gives, or for a folder what a run by one worker did. It needs Linux with the GNU C library, and a
C compiler.
"""

import os
import subprocess
import sys
import tempfile

sys.path.append(os.path.join(os.path.dirname(os.path.dirname(os.path.abspath(__file__))), 'tests'))
from waits import told  # noqa: E402

WORKERS = [1, 2, 3, 4]


def build(folder):
    """The library of phases.c, built in this folder."""
    here = os.path.dirname(os.path.abspath(__file__))
    library = os.path.join(folder, 'phases.so')
    subprocess.run(['cc', '-O2', '-shared', '-fPIC', '-o', library, os.path.join(here, 'phases.c')], check=True)
    return library


def run(command, expected, library, told):
    """One run: the milliseconds before the workers, those of the workers, and those after them."""
    environment = {**os.environ, 'LD_PRELOAD': library, 'PHASES': told}
    ran = subprocess.run(command, stdin=subprocess.DEVNULL, capture_output=True, env=environment)
    if ran.returncode != 0 or ran.stdout != expected:
        sys.exit(f'phases.py: {" ".join(command)} did not write what it must')
    with open(told) as file:
        moments = [int(word) / 1e6 for word in file.read().split()]
    return [after - before for before, after in zip(moments, moments[1:])]


def find(program, job, here, folder):
    """The folder of a job, and what a run of it writes."""
    if os.path.isdir(job):
        return job, subprocess.run([program, 'run', job], check=True, capture_output=True).stdout
    subprocess.run([sys.executable, os.path.join(here, 'make_jobs.py'), folder], check=True, stdout=subprocess.DEVNULL)
    path = os.path.join(folder, job)
    with open(os.path.join(path, 'expected'), 'rb') as file:
        return path, file.read()


def main(words):
    if len(words) not in (2, 3):
        sys.exit('usage: phases.py PROGRAM [JOB]')
    program, job = os.path.abspath(words[1]), (words[2:] or ['eight_sessions'])[0]
    here = os.path.dirname(os.path.abspath(__file__))
    with tempfile.TemporaryDirectory() as folder:
        library, told = build(folder), os.path.join(folder, 'told')
        path, expected = find(program, job, here, folder)
        parts = {workers: [] for workers in WORKERS}
        for _ in range(int(os.environ.get('ROUNDS', '50'))):
            for workers, runs in parts.items():
                runs.append(run([program, 'run', path, '--workers', str(workers)], expected, library, told))
    print('| Workers | Before, ms | Workers, ms | After, ms | Part of one worker\'s |')
    print('|---|---|---|---|---|')
    least = {workers: [min(part) for part in zip(*runs)] for workers, runs in parts.items()}
    for workers, (before, during, after) in least.items():
        print(f'| {workers} | {before:.1f} | {during:.1f} | {after:.1f} | {during / least[WORKERS[0]][1]:.2f} |')


if __name__ == '__main__':
    sys.exit(told(main))
