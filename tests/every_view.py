#!/usr/bin/env python3
"""Audits what runs write of views: every_view.py PROGRAM

For each job of the rows that is accepted, each example, and random jobs whose products are direct, prepared and ahead, runs it with the view of each group,
and audits what stands behind the outputs: the answer must be yes, with as many messages as there are lines. What the node of each party tells of its own view must be the same text. Then changes a small view in one byte at each place, and audits each changed text:
the answer must be the one that the table of faults gives, as a reader of views in this file finds it. Ends with status 1, and tells why, where
an answer is another.
"""

import os
import pathlib
import random
import re
import shutil
import subprocess
import sys
import tempfile

from audits import OF_C
from product import PRODUCT
from random_expressions import random_job
from random_numbers import Job
from rows import EXAMPLES, GROUPS
from waits import MOST_SECONDS, told

# Groups of rows that have jobs which are accepted.
ACCEPTED = ['accepted', 'wide rings', 'tolerated', 'prepared', 'in layers', 'carried', 'expressions', 'parties', 'jobs']

# So many jobs of expressions are random ones, and so many of numbers.
RANDOM_JOBS = 24
RANDOM_NUMBERS = 8

# Of a job with more groups than these, the smallest, the largest, and those of one party and of all but one are taken.
MOST_GROUPS = 64

# What stands in a byte's place.
OTHER_BYTES = [b'0', b'9', b'a', b' ', b'\n', b'\r', b'\0', b'\xff', b'']


class Folder:
    """A folder with the files of a job, in which the program is called."""

    def __init__(self, program, top, files):
        self.program, self.path = program, pathlib.Path(top)
        for name, data in files.items():
            (self.path / name).write_bytes(data if isinstance(data, bytes) else data.encode())

    def call(self, verb, *options):
        return subprocess.run([self.program, verb, str(self.path), *options], stdin=subprocess.DEVNULL, capture_output=True, timeout=MOST_SECONDS)

    def audit(self, text):
        (self.path / 'view.txt').write_bytes(text)
        return self.call('audit')


def names_of(files):
    """The names of the parties."""
    job = files['job.toml']
    text = job if isinstance(job, str) else job.decode()
    return re.findall(r'"([^"]*)"', re.search(r'^parties *= *\[([^]]*)\]', text, re.MULTILINE).group(1))


def groups_of(names):
    """Groups of these names, as a view has them."""
    masks = range(2 ** len(names))
    if len(masks) > MOST_GROUPS:
        every = 2 ** len(names) - 1
        masks = sorted({0, every, *(1 << p for p in range(len(names))), *(every - (1 << p) for p in range(len(names)))})
    return ['+'.join(name for p, name in enumerate(names) if mask >> p & 1) or '0' for mask in masks]


def audit_views(program, name, files):
    """Audits the views of all groups of a job, and gives how many there were; none where the job isn't accepted."""
    with tempfile.TemporaryDirectory() as top:
        folder = Folder(program, top, files)
        if folder.call('run').returncode != 0:
            return 0
        groups = groups_of(names_of(files))
        for group in groups:
            written = folder.call('run', '--view', group).stdout
            view = written[written.index(b'view '):]
            found = folder.audit(view)
            wanted = f'yes {view.count(10) - 1}\n'.encode()
            if (found.returncode, found.stdout, found.stderr) != (0, wanted, b''):
                sys.exit(f'audits: {name}: the view of {group} gives {found.stdout or found.stderr!r}')
        return len(groups)


def views_of_nodes(program, job):
    """What the nodes of a job tell of their own views where it says that they do, by the parties' names."""
    nodes = EXAMPLES / 'network' / 'nodes.py'
    written = subprocess.run([nodes, 'run', job, program, '--views', 'own'], stdin=subprocess.DEVNULL, capture_output=True, timeout=MOST_SECONDS, text=True)
    if written.returncode != 0:
        sys.exit(f'audits: the nodes of {job.name} failed: {written.stderr}')
    views, name = {}, None
    for line in written.stdout.splitlines(keepends=True):
        if line.startswith('view '):
            name = line.split()[1]
            views[name] = ''
        if not line.startswith('out '):
            views[name] += line
    return views


def audit_nodes(program, job):
    """Compares what the nodes of a job tell of their own views with what a run writes of them, and gives how many there were."""
    views = views_of_nodes(program, job)
    names = names_of({'job.toml': (job / 'job.toml').read_text()})
    for name in names:
        written = subprocess.run([program, 'run', job, '--view', name], stdin=subprocess.DEVNULL, capture_output=True, timeout=MOST_SECONDS, text=True).stdout
        if views.get(name) != written[written.index('view '):]:
            sys.exit(f'audits: the node of {name} in {job.name} tells another view')
    return len(names)


def first_fault(text, view):
    """The first fault of a text that should be this view, by its table."""
    lines = text.split(b'\n')
    ends = [line[:-1] if line.endswith(b'\r') else line for line in lines[:-1]] + ([lines[-1]] if lines[-1] else [])
    wanted = view.splitlines()
    if not ends or ends[0] != wanted[0]:
        return 'view 1 BadHead'
    for number, line in enumerate(ends[1:], 2):
        if number > len(wanted):
            return f'view 6 ExtraLine line={number}'
        parts = line.split(b' ')
        numbers = [parts[place] for place in (0, 1, 2, 5)] if len(parts) == 6 else []
        if not numbers or not all(parts) or not all(re.fullmatch(rb'0|[1-9][0-9]*', part) for part in numbers) or int(parts[5]) >= 2 ** 64:
            return f'view 2 BadLine line={number}'
        right = wanted[number - 1].split(b' ')
        if parts[:5] != right[:5]:
            return f'view 3 WrongKey line={number}'
        if int(parts[5]) != int(right[5]):
            return f'view 4 WrongWord line={number} wanted={int(right[5])} found={int(parts[5])}'
    return f'view 5 FewLines found={len(ends) - 1}' if len(ends) < len(wanted) else None


def audit_changes(program):
    """Audits a small view with each byte changed, and gives how many texts there were."""
    view, count = OF_C.encode(), 0
    with tempfile.TemporaryDirectory() as top:
        folder = Folder(program, top, PRODUCT)
        for place in range(len(view)):
            for other in OTHER_BYTES:
                text = view[:place] + other + view[place + 1:]
                found = folder.audit(text)
                # A head that names another group is one of its own, which the table of the right view doesn't judge.
                if text.startswith((b'view a\n', b'view 0\n', b'view a\r', b'view 0\r')):
                    continue
                fault = first_fault(text, view)
                wanted = (3, b'', f'refused {fault}\n'.encode()) if fault else (0, b'yes 13\n', b'')
                if (found.returncode, found.stdout, found.stderr) != wanted:
                    sys.exit(f'audits: byte {place} as {other!r} gives {found.stdout or found.stderr!r}, and not {wanted!r}')
                count += 1
    return count


def random_jobs():
    """The files of random jobs, with what they are called."""
    for number in range(RANDOM_JOBS):
        yield f'random job {number}', random_job(random.Random(f'views {number}'))[0]
    for number in range(RANDOM_NUMBERS):
        yield f'random job {number} of numbers', Job(random.Random(f'views {number}')).files(False)


def main(words):
    if len(words) != 2:
        sys.exit('usage: every_view.py PROGRAM')
    program = shutil.which(os.path.abspath(words[1]))
    if not program:
        sys.exit(f'audits: there is no program {words[1]}')
    jobs = views = nodes = 0
    for group in ACCEPTED:
        for row in GROUPS[group]:
            if row.words[0] == 'run' and row.status == 0:
                count = audit_views(program, row.name, row.files())
                jobs, views = jobs + (count > 0), views + count
    for name, files in random_jobs():
        count = audit_views(program, name, files)
        if not count:
            sys.exit(f'audits: {name} is refused')
        jobs, views = jobs + 1, views + count
    for job in sorted(EXAMPLES.glob('**/job.toml')):
        if (job.parent / 'expected').exists():
            files = {file.name: file.read_bytes() for file in job.parent.iterdir() if file.is_file()}
            jobs, views = jobs + 1, views + audit_views(program, job.parent.name, files)
            nodes += audit_nodes(program, job.parent)
    print(f'audits: {views} views of {jobs} jobs are as written, and those of {nodes} nodes')
    print(f'audits: {audit_changes(program)} changed texts have their fault')


if __name__ == '__main__':
    sys.exit(told(main))
