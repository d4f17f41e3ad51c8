"""What a script warns of, in a line on standard error: a party that may know everything by itself, and a seed that isn't its party's own."""

import os
import pathlib
import re

from job_folder import Refusal, read_bytes, read_fields, tell
from summands import knowing, tolerated_of

EXAMPLES = pathlib.Path(__file__).resolve().parent
SEED = re.compile(rb'(?m)^[ \t]*seed[ \t]*=[ \t]*["\']([0-9A-Fa-f]{64})["\']')

# How many folders beside a job's are looked at.
MOST_FOLDERS = 200


def told(names):
    """Names as a sentence has them."""
    return ' and '.join(filter(None, [', '.join(names[:-1]), names[-1]]))


def doubt_structure(fields):
    """Warns where a party by itself may know everything. What the program refuses is left to it."""
    try:
        names = knowing(fields['parties'], tolerated_of(fields))
    except Refusal:
        return
    if len(names) == 1:
        tell(f'warning: {names[0]} alone may know everything: no group that must learn nothing has this party')
    elif names:
        tell(f'warning: {told(names)} may each know everything: no group that must learn nothing has any of them')


def seeds_in(folder):
    """The seeds of a folder's parties, by their files, with the files' bytes."""
    found = {}
    for path in sorted(pathlib.Path(folder).glob('party_*.toml')):
        data = read_bytes(folder, path.name) if path.is_file() else b''
        match = SEED.search(data)
        if match:
            found[path.name] = match[1].lower(), data
    return found


def same_job(folder, other):
    """Whether two folders have the same job, but for hosts and ports."""
    def job(at):
        fields = read_fields(at)
        return ({name: value for name, value in fields.items() if name not in ('hosts', 'port')},
                [read_bytes(at, session['circuit']) for session in fields['session']])
    return job(folder) == job(other)


def folders_beside(folder):
    """The folders beside a job's that may have another job's seeds, and those of the examples."""
    beside = [path for path in pathlib.Path(folder).resolve().parent.iterdir() if path.is_dir()]
    return [*sorted(beside)[:MOST_FOLDERS], *sorted(path.parent for path in EXAMPLES.rglob('job.toml'))]


def other_use(folder, name, seed, data, other):
    """What else a seed was used for, where another folder has it, or nothing."""
    for file, (found, found_data) in seeds_in(other).items():
        if found == seed:
            if other.is_relative_to(EXAMPLES):
                return f'{name} has the seed of examples/{other.relative_to(EXAMPLES)}/{file}, which everybody can read'
            if file != name or found_data != data or not same_job(folder, other):
                return f'{name} has the seed of {os.path.join(other, file)}: a seed serves one run of one job'
    return None


def doubt_seeds(folder):
    """Warns of a seed that two parties share, and of one that another folder has that can be seen. The examples' own are left out."""
    own = pathlib.Path(folder).resolve()
    seeds = seeds_in(folder)
    for name, (seed, _) in seeds.items():
        first = next(file for file, (other, _) in seeds.items() if other == seed)
        if first != name:
            tell(f'warning: {first} and {name} have the same seed: each party makes its own, and tells nobody')
    if own.is_relative_to(EXAMPLES) or not seeds:
        return
    others = folders_beside(folder)
    for name, (seed, data) in seeds.items():
        for other in others:
            try:
                use = other_use(folder, name, seed, data, other) if other != own else None
            except (Refusal, OSError):
                use = None
            if use:
                tell(f'warning: {use}')
                break


def doubt(folder):
    """Warns of a job's structure, and of the seeds in its folder."""
    doubt_structure(read_fields(folder))
    doubt_seeds(folder)
