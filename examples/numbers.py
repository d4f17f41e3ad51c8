#!/usr/bin/env python3
"""Makes a party's file from numbers, and reads what a run wrote as numbers, for any job:

    examples/numbers.py write JOB PARTY NUMBER .. [--replace]
    ./mpc run JOB | examples/numbers.py read JOB [--signed] [--divide N | --divide-by VALUE]

'write' makes JOB/party_PARTY.toml with a fresh random seed. The numbers are those that the party gives, session by session, and in
each session in the order of the owners in job.toml: for 'numbers' and 'bristol' one number for each value, of as many bits as the program
or the circuit's file says (those of 'bristol' stand in the file bit by bit, least first); for 'ring' and 'expr' one for each word. A party that gives
nothing has no numbers. A negative number counts modulo 2 to its bits (two's complement), but for 'numbers', which has none. A file that is there
already is left alone, unless --replace is given.

'read' takes what 'mpc run' or 'mpc node' writes from standard input, and passes over all lines but those that begin with 'out'. It
writes a line for each of them: 'session 0 value 0: anna reads 2975'. With --signed, a number whose highest bit is 1 is negative, but for
'numbers'; with --divide, each number is divided by N and rounded to two places, so that the total of N numbers comes out as their mean.

With --divide-by, each number is divided by another output value, which its reader reads too: VALUE is that one's number, as 1, or with its
session before it, as 0.1. So a weighted total and the total of its weights come out as a weighted mean. Both numbers are opened: a
division comes after the run, and each reader learns the two and not their quotient alone. The line has both: 'ann reads 694 / 9 = 77.11'.
"""

import re
import sys

from doubts import doubt
from job_folder import lines_of, need, read_job, read_outputs, run_script, write_party

MOST_DIGITS = 40_000
USAGE = __doc__.split('\n\n')[1]


def write(folder, party, words):
    """Writes the party's file."""
    numbers = [word for word in words if word != '--replace']
    for word in numbers:
        need(re.fullmatch('[+-]?[0-9]+', word) and len(word) <= MOST_DIGITS, f'{word[:40]!r} is no whole number')
    write_party(folder, read_job(folder), party, [int(word) for word in numbers], len(numbers) < len(words))
    doubt(folder)


def divided(number, divisor):
    """The quotient with two places after the point. A half is rounded away from 0."""
    number, divisor = (-number, -divisor) if divisor < 0 else (number, divisor)
    hundredths = (200 * abs(number) + divisor) // (2 * divisor)
    return f'{"-" if number < 0 < hundredths else ""}{hundredths // 100}.{hundredths % 100:02}'


def place_of(value, job):
    """The session and the number of the output value that is named."""
    match = re.fullmatch(r'(?:([0-9]{1,4})\.)?([0-9]{1,4})', value)
    need(match, f'{value[:40]!r} is no output value, as 1, or 0.1 with its session')
    need(match[1] or len(job.sessions) == 1, f'there are {len(job.sessions)} sessions: name the value with its own, as 0.{match[2]}')
    place = int(match[1] or 0), int(match[2])
    need(place[0] < len(job.sessions) and place[1] < len(job.sessions[place[0]].outputs), f'the job has no output value {value}')
    return place


def by_value(found, place):
    """The texts of each line's numbers, divided by that value."""
    divisors = {reader: numbers for session, value, reader, numbers in found if (session, value) == place}
    for session, value, reader, numbers in found:
        by = divisors.get(reader, [])
        need(by, f'{reader} reads no number as value {place[0]}.{place[1]}, and so can divide nothing by it')
        need(len(by) == 1, f'value {place[0]}.{place[1]} has {len(by)} numbers, and one divides')
        need(by[0] or (session, value) == place, f'{reader} reads 0 as value {place[0]}.{place[1]}, by which nothing is divided')
        yield [str(number) if (session, value) == place else f'{number} / {by[0]} = {divided(number, by[0])}' for number in numbers]


def read(folder, options):
    """Writes the numbers of each line of output."""
    job = read_job(folder)
    place = place_of(options['--divide-by'], job) if '--divide-by' in options else None
    divisor = int(options.get('--divide', '1'))
    need(divisor, 'a number is divided by 1 or more')
    found = list(read_outputs(job, lines_of(sys.stdin), '--signed' in options))
    need(found, 'there is no output to read on standard input')
    if place:
        texts = list(by_value(found, place))
    else:
        texts = [[divided(number, divisor) if '--divide' in options else str(number) for number in numbers] for *_, numbers in found]
    for (session, value, reader, _), its_texts in zip(found, texts):
        print(f'session {session} value {value}: {reader} reads {" ".join(its_texts) or "nothing"}')


def options_of(words):
    """The options of 'read' with their words, or nothing where they are others."""
    options, rest = {}, iter(words)
    for word in rest:
        if word in options or word not in ('--signed', '--divide', '--divide-by'):
            return None
        options[word] = '' if word == '--signed' else next(rest, '')
    fits = re.fullmatch('[0-9]{1,18}', options.get('--divide', '1')) and options.get('--divide-by', '0') and len(options.keys() - {'--signed'}) < 2
    return options if fits else None


def main(words):
    options = options_of(words[2:]) if words[:1] == ['read'] else None
    if '-h' in words or '--help' in words:
        print(__doc__)
    elif len(words) >= 3 and words[0] == 'write':
        write(words[1], words[2], words[3:])
    elif len(words) >= 2 and options is not None:
        read(words[1], options)
    else:
        print(USAGE, file=sys.stderr)
        return 2
    return 0


if __name__ == '__main__':
    run_script(main)
