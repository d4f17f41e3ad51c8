#!/usr/bin/env python3
"""Mean, spread and weighted score from the results: ./mpc run JOB | spread.py [JOB]

Reads what 'mpc run' writes for the job of this folder, or for one with its files of expressions, from standard input, takes the first sum, the
first sum of squares and the first score in it, and prints the mean of the numbers, their standard deviation, and the score divided by its
weights. With both sums below 2^64 they are exact.
"""

import math
import pathlib
import sys

HERE = pathlib.Path(__file__).resolve().parent
sys.path.insert(0, str(HERE.parent))
from job_folder import lines_of, need, read_job, read_outputs, run_script  # noqa: E402

# The weights of the score: 3 once, 2 twice and 1 twice.
WEIGHTS = 9


def main(words):
    if len(words) > 1 or words in (['-h'], ['--help']):
        print(__doc__)
        return 2 if len(words) > 1 else 0
    job = read_job(words[0] if words else str(HERE))
    found = {}
    for session, value, _reader, numbers in read_outputs(job, lines_of(sys.stdin)):
        found.setdefault((session, value), sum(numbers))
    need(set(found) == {(0, 0), (0, 1), (1, 0)}, 'there are no two sums and score to read on standard input')
    count, total, squares, score = len(job.sessions[0].owners), found[0, 0], found[0, 1], found[1, 0]
    # A whole number up to the last step.
    spread = count * squares - total * total
    need(count > 0 and spread >= 0, 'a sum was 2 to ring_bits or more, and came out as its remainder')
    print(f'mean {total / count:.1f}')
    print(f'standard deviation {math.sqrt(spread) / count:.1f}')
    print(f'weighted score {score / WEIGHTS:.1f}')
    return 0


if __name__ == '__main__':
    run_script(main)
