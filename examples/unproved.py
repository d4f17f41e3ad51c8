#!/usr/bin/env python3
"""Runs a job without proving anything, on a machine where nothing is built: the first result comes in some three minutes.

    examples/unproved.py JOB [--workers W] [--view GROUP]

It writes what './mpc run JOB' would, by 'rt try' of the Rattle toolchain, which compiles the program and leaves its proofs out: it stops at
an overflow, an index out of range or a failed test, and keeps nothing, so that the next call takes as long. Nothing of what README.md says is
proved holds for such a run. JOB is a job's folder. Its status and its line on standard error are the program's.
"""

import os
import pathlib
import re
import shutil
import subprocess
import sys

from doubts import doubt
from job_folder import Refusal, need, read_fields, run_script, tell

CRATE = pathlib.Path(__file__).resolve().parent.parent / 'crates' / 'mpc_main'

# Seconds that the program may take.
MOST_SECONDS = 600


def files_of(folder):
    """The files of a job's folder that the program reads, as far as they are there. Where job.toml is refused, that one alone."""
    try:
        fields = read_fields(folder)
        doubt(folder)
        names = [*(session['circuit'] for session in fields['session']), *(f'party_{name}.toml' for name in fields['parties'])]
    except Refusal:
        names = []
    paths = {name: os.path.abspath(os.path.join(folder, name)) for name in dict.fromkeys(['job.toml', *names])}
    return {name: path for name, path in paths.items() if os.path.isfile(path)}


def main(words):
    options = re.fullmatch(r'(?: --workers [0-9]+| --view [^ -][^ ]*)*', ''.join(f' {word}' for word in words[1:]))
    if words in (['-h'], ['--help']):
        print(__doc__)
        return 0
    if not words or words[0].startswith('-') or not options:
        print(__doc__.split('\n\n')[1], file=sys.stderr)
        return 2
    need(os.path.isdir(words[0]), f'{words[0]} is no folder of a job')
    need(shutil.which('rt'), 'the command rt of the Rattle toolchain has to be on the PATH')
    data = [word for name, path in files_of(words[0]).items() for word in ('--data', f'{name}={path}')]
    tell('compiling the program without its proofs, in some three minutes')
    done = subprocess.run(['rt', 'try', '--seconds', str(MOST_SECONDS), *data, '--', 'run', '.', *words[1:]], cwd=CRATE, stdin=subprocess.DEVNULL,
                          capture_output=True, text=True, errors='replace')
    sys.stdout.write(done.stdout)
    lines = done.stderr.splitlines()
    ended = next((line for line in lines if line.startswith('run=ended ')), None)
    if ended is None:
        raise Refusal(f'rt try ended with status {done.returncode}: {(lines or ["it says nothing"])[-1]}')
    for line in lines:
        if re.match('refused |fault ', line):
            print(line, file=sys.stderr)
    tell('NOTHING WAS PROVED of this run: ./mpc proves the program, and then builds it')
    return done.returncode


if __name__ == '__main__':
    run_script(main)
