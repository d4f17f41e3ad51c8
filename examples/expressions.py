#!/usr/bin/env python3
"""Writes the circuit that a file of expressions stands for, in the layout 'ring':

    examples/expressions.py compile FILE BITS > my-job/circuit.txt

FILE is a file that a session of the layout 'expr' may name, and BITS are the ring's. 'mpc' reads such a file by itself, and needs no
circuit beside it; this is for those who want to see it, or to go on with it by other means. Byte by byte it is the one that the file
stands for: a session that names it, with the layout 'ring', is the same session. A file that 'mpc' refuses is refused with the same
words, as '3 UnknownName line=1 at=7'; docs/FORMATS.md has the language, and each of these.
"""

import re
import sys

from expression_reader import MOST_BITS, Fault, compiled
from job_folder import Refusal, need, read_bytes, run_script


def main(words):
    if words in (['-h'], ['--help']):
        print(__doc__)
    elif len(words) == 3 and words[0] == 'compile':
        need(re.fullmatch('[0-9]{1,9}', words[2]) and 1 <= int(words[2]) <= MOST_BITS, f'BITS is a number from 1 to {MOST_BITS}, and not {words[2][:40]!r}')
        try:
            print(compiled(read_bytes('', words[1]), int(words[2])), end='')
        except Fault as fault:
            raise Refusal(f'{words[1]}: {fault}') from None
    else:
        print(__doc__.split('\n\n')[1], file=sys.stderr)
        return 2
    return 0


if __name__ == '__main__':
    run_script(main)
