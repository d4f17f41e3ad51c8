"""Whether the folders of several nodes have the same job: the digest by which nodes tell it, and the files that differ."""

import collections
import hashlib
import os

from job_folder import need, read_bytes, read_fields

# So many digits of a digest stand in a table.
SHOWN = 16

# The digest of a folder's job, and its files by their names: job.toml, and those that its sessions name, in their order.
Known = collections.namedtuple('Known', 'digest files')


def files_of(folder):
    """The fields of a folder's job, and the files that all its parties have."""
    fields = read_fields(folder)
    names = dict.fromkeys(['job.toml', *(session['circuit'] for session in fields['session'])])
    return fields, {name: read_bytes(folder, name) for name in names}


def digest_of(fields, files):
    """The digest that a node says of its job: of job.toml, and of each session's file."""
    whole = hashlib.sha256()
    for name in ['job.toml', *(session['circuit'] for session in fields['session'])]:
        whole.update(len(files[name]).to_bytes(8, 'big') + files[name])
    return whole.digest()


def known_of(folder):
    fields, files = files_of(folder)
    return Known(digest_of(fields, files).hex(), files)


def usual(values):
    """The value that most have; of several, the first."""
    return collections.Counter(values).most_common(1)[0][0]


def first_line(data, other):
    """The first line in which two texts differ, from 1."""
    pairs = zip(data.split(b'\n'), other.split(b'\n'))
    return next((number for number, (one, two) in enumerate(pairs, 1) if one != two), min(data.count(b'\n'), other.count(b'\n')) + 1)


def differences(names, known):
    """A sentence for each file of a folder that isn't as most have it."""
    files = list(dict.fromkeys(file for one in known for file in one.files))
    for file in files:
        most = usual([one.files.get(file) for one in known])
        for name, one in zip(names, known):
            data = one.files.get(file)
            if data != most:
                whole = 'is missing' if data is None else 'is only here' if most is None else f'is another one from line {first_line(data, most)} on'
                yield f'{name}: {file} {whole}'


def table(names, known):
    """The digests side by side, a row for the job and for each file, and a column for each folder."""
    files = list(dict.fromkeys(file for one in known for file in one.files))
    shown = [[hashlib.sha256(one.files[file]).hexdigest() if file in one.files else '-' for file in files] for one in known]
    length = SHOWN if len(known) > 1 else None
    rows = [['', *names], ['job', *(one.digest[:length] for one in known)],
            *([file, *(column[number][:length] for column in shown)] for number, file in enumerate(files))]
    widths = [max(map(len, column)) for column in zip(*rows)]
    for row in rows if len(known) > 1 else rows[1:]:
        yield '  '.join(map(str.ljust, row, widths)).rstrip()


def compare(folders):
    """Prints the digests of the folders' jobs, and which file differs. The status is 1 where one does."""
    names = [os.path.normpath(folder) for folder in folders]
    need(len(set(names)) == len(names), 'a folder stands twice')
    known = list(map(known_of, folders))
    print('\n'.join(table(names, known)))
    wrong = list(differences(names, known))
    for text in wrong:
        print(text)
    if len(known) > 1 and not wrong:
        print(f'all {len(known)} have the same job')
    return 1 if wrong else 0
