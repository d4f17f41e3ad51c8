#!/usr/bin/env python3
"""Makes an auction of your own, and reads its result:

    examples/auction/job.py make FOLDER anna=1250 boris=3400 chen=2975
    ./mpc run FOLDER | examples/auction/job.py read FOLDER

'make' writes a job folder for two to eight bidders with bids from 0 to 65535: job.toml, a circuit and a file for each party, with a
fresh random seed. The highest bid wins and pays the second highest; of equal bids the first counts as higher. One party alone
learns nothing but the result. Two bidders get a third party beside them, 'house', which gives no bid and reads nothing: between two
parties alone no product can be computed. 'read' turns what 'mpc run' wrote into a sentence for each reader.
"""

import os
import pathlib
import re
import sys

sys.path.insert(0, str(pathlib.Path(__file__).resolve().parent.parent))
from circuits import circuit_of  # noqa: E402
from job_folder import lines_of, need, read_job, read_outputs, run_script, write_job, write_party  # noqa: E402

BITS = 16


def bids_of(words):
    """The bids, by the names of the bidders."""
    bids = {}
    for word in words:
        match = re.fullmatch(r'([A-Za-z][A-Za-z0-9_]{0,15})=([0-9]{1,40})', word)
        need(match and match[1] != 'of', f'{word[:60]!r} is not NAME=BID')
        need(match[1] not in bids and match[1] != 'house', f'choose another name for {match[1]!r}')
        need(int(match[2]) < 2**BITS, f'{word!r}: a bid is at most {2**BITS - 1}')
        bids[match[1]] = int(match[2])
    need(2 <= len(bids) <= 8, 'two to eight bidders')
    return bids


def make(folder, words):
    bids = bids_of(words)
    parties = list(bids) if len(bids) > 2 else [*bids, 'house']
    write_job(folder, 1, parties, list(bids), circuit_of('auction', [str(len(bids)), str(BITS)]), 'auction.txt', 'bristol')
    job = read_job(folder)
    for party in parties:
        write_party(folder, job, party, [bids[party]] if party in bids else [])


def read(folder):
    job = read_job(folder)
    bidders, found = job.sessions[0].owners, {}
    for _session, value, reader, numbers in read_outputs(job, lines_of(sys.stdin)):
        found.setdefault(reader, {})[value] = sum(numbers)
    need(found, 'there is no result to read on standard input')
    for reader, values in found.items():
        need(set(values) == {0, 1} and values[0] < len(bidders), f'{os.path.join(folder, "job.toml")} is no auction')
        print(f'{reader} reads: {bidders[values[0]]} wins and pays {values[1]}')


def main(words):
    if words in (['-h'], ['--help']):
        print(__doc__)
    elif len(words) >= 2 and words[0] == 'make':
        make(words[1], words[2:])
    elif len(words) == 2 and words[0] == 'read':
        read(words[1])
    else:
        print(__doc__.split('\n\n')[1], file=sys.stderr)
        return 2
    return 0


if __name__ == '__main__':
    run_script(main)
