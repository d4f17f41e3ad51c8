#!/usr/bin/env python3
"""Runs the commands of README.md as they stand there, but for those that take minutes, and compares how they end with what it says: readme.py PROGRAM

The commands are the lines of its indented blocks, in order, and what stands in its text in backquotes and begins as a command. They run in a copy
of the repository, in which the program is built. Each has a row below, and each row a command. Ends with status 1, and tells why,
where one ends otherwise.
"""

import os
import pathlib
import re
import shutil
import subprocess
import sys
import tempfile
import time

from other_words import USAGE
from waits import ended, told

TOP = pathlib.Path(__file__).resolve().parent.parent
# The gate itself, and a run that compiles the program.
LONG = {'.ci/run', 'examples/unproved.py examples/multiply'}
# How often nodes are tried whose ports are taken.
TRIES = 5


def example(name):
    return re.escape((TOP / 'examples' / name).read_text())


def learned(name):
    """What the reader of a bidder's node writes."""
    return f'{name} reads: boris wins and pays 2975\n'


# What each command writes, as a pattern; a command that isn't a row of its own fails.
ROWS = {
    './mpc run examples/multiply': 'out 0 0 c 35\n',
    './mpc --help': re.escape(USAGE.partition('\n')[2]) + 'more: .*/README.md\n',
    './mpc sample 65536': 'sample 65536\n(.*\n)*',
    'examples/auction/job.py make my-auction anna=1250 boris=3400 chen=2975': '(.*\n)*',
    './mpc check my-auction': 'parties 3\n(.*\n)*messages [0-9]+\n',
    './mpc run my-auction | examples/auction/job.py read my-auction':
        'anna reads: boris wins and pays 2975\nboris reads: boris wins and pays 2975\nchen reads: boris wins and pays 2975\n',
    'examples/network/nodes.py split examples/network my-network': '(.*\n)*',
    **{f'./mpc node my-network/{name} {name} | examples/auction/job.py read my-network/{name}': learned(name) for name in ('anna', 'boris', 'chen')},
    'examples/network/nodes.py compare my-network/*': '(.*\n)*all 3 have the same job\n',
    'examples/programs.py job my-bids examples/sealed_bids/bids.txt': '',
    'examples/numbers.py write my-bids anna 1250': '',
    'cp -r examples/sealed_bids my-job': '',
    "od -An -tx1 -N32 /dev/urandom | tr -d ' \\n'": '[0-9a-f]{64}',
    './mpc check my-job': example('sealed_bids/expected_check'),
    './mpc run my-job': example('sealed_bids/expected'),
    'examples/picture.py my-job > my-job.svg': '',
    './mpc pair my-job --group dora': 'first\n(.*\n)*second\n(.*\n)*tape anna .*\ntape boris .*\ntape chen .*\ntape dora .*\ntape emil .*\n',
    './mpc audit examples/audit': 'yes [1-9][0-9]*\n',
}

# What the text says of them.
SAID = ['`out 0 0 c 35`', '`anna reads: boris wins and pays 2975`']


def commands(text):
    """The blocks of commands: the lines of each indented block without their comments, and then each command in the text by itself."""
    for block in re.findall(r'(?m)(?:^    .*\n)+', text):
        found = [line.partition('  #')[0].strip() for line in block.splitlines()]
        yield [line for line in found if line not in LONG]
    for word in re.findall(r'`((?:\./mpc|cp|od|examples/\S+\.py) [^`]+)`', text):
        if word not in LONG:
            yield [word]


def start(command, folder):
    return subprocess.Popen(['sh', '-c', command], cwd=folder, stdin=subprocess.DEVNULL, stdout=subprocess.PIPE, stderr=subprocess.PIPE, text=True)


def what_is_wrong(command, status, out, err):
    """Why this isn't how the command ends, or nothing."""
    if command not in ROWS:
        return 'no row tells how it ends'
    if status != 0 or err:
        return f'it ended with status {status}: {err[:200]!r}'
    if not re.fullmatch(ROWS[command], out):
        return f'it wrote {out[:200]!r}'
    return None


def run_block(block, folder):
    """How each command of a block ends: one after another, but nodes beside one another."""
    nodes = [command for command in block if command.startswith('./mpc node ')]
    for command in [command for command in block if command not in nodes]:
        yield command, *ended(start(command, folder))
    started = [start(command, folder) for command in nodes]
    for command, node in zip(nodes, started):
        yield command, *ended(node)


def run_again(block, folder):
    """How a block ends. Where another program has the ports of its nodes, it is tried again."""
    for number in range(TRIES):
        found = list(run_block(block, folder))
        if not any(err.startswith('fault net\n') for _, _, _, err in found):
            break
        time.sleep(number + 1)
        shutil.rmtree(folder / 'my-network', ignore_errors=True)
    return found


def copy_repository(program, folder):
    """A copy of what git knows, with the program, newer than its sources."""
    listed = subprocess.run(['git', 'ls-files', '-co', '--exclude-standard'], cwd=TOP, check=True, capture_output=True, text=True).stdout
    for name in listed.splitlines():
        if (TOP / name).is_file():
            (folder / name).parent.mkdir(parents=True, exist_ok=True)
            shutil.copy(TOP / name, folder / name)
    place = folder / 'crates' / 'mpc_main' / 'out' / 'mpc_main'
    place.parent.mkdir()
    shutil.copy(program, place)
    os.utime(place, (time.time() + 60, time.time() + 60))


def main(words):
    if len(words) != 2:
        sys.exit('usage: readme.py PROGRAM')
    text = (TOP / 'README.md').read_text()
    wrong = [f'README.md does not say {said}' for said in SAID if said not in text]
    ran = set()
    with tempfile.TemporaryDirectory() as top:
        folder = pathlib.Path(top) / 'mpc'
        folder.mkdir()
        copy_repository(words[1], folder)
        for block in commands(text):
            if set(block) <= ran:
                continue
            for command, *answer in run_again(block, folder):
                ran.add(command)
                why = what_is_wrong(command, *answer)
                wrong += [f'{command}: {why}'] if why else []
    wrong += [f'README.md has no {command}' for command in ROWS if command not in ran]
    for why in wrong:
        print(f'readme: {why}')
    print(f'readme: {len(ran)} commands, {len(wrong)} faults')
    return 1 if wrong else 0


if __name__ == '__main__':
    sys.exit(told(main))
