#!/usr/bin/env python3
"""Calls the program of this repository over files that can't be read and outputs that take only so many bytes: outputs.py PROGRAM

A file of limited size stands for an output that fails after so many bytes: it must then have the first bytes of the text. Ends with
status 1, and tells why, where a call ends otherwise. It needs Linux.
"""

import os
import resource
import shutil
import socket
import subprocess
import sys
import tempfile

from audits import AUDIT, OF_C
from other_words import PLACES
from pairs import NINE_OF_B
from product import CHECK, Edit, RUN, SEED, TAPE_A, TAPE_B, TAPE_C, Whole, Without, product_with
from made_rows import products
from waits import MOST_SECONDS, told


class Wrong(Exception):
    """A call that ended otherwise."""


def expect(holds, text):
    if not holds:
        raise Wrong(text)


class Calls:
    """Calls of the program in a folder that has the files of the product, with some changes, in its folder d."""

    def __init__(self, program, top, changes=()):
        self.program, self.top = program, top
        folder = os.path.join(top, 'd')
        shutil.rmtree(folder, ignore_errors=True)
        os.mkdir(folder)
        for name, data in product_with(changes).items():
            with open(os.path.join(folder, name), 'wb') as file:
                file.write(data)

    def path(self, name):
        return os.path.join(self.top, name)

    def call(self, words, out, err, room=None):
        """The status of a call over these outputs. A file takes no byte past 'room'."""
        def limit():
            if room is not None:
                resource.setrlimit(resource.RLIMIT_FSIZE, (room, room))
        return subprocess.run([self.program, *words], cwd=self.top, stdin=subprocess.DEVNULL, stdout=out, stderr=err, preexec_fn=limit,
                              restore_signals=False, timeout=MOST_SECONDS).returncode

    def short_out(self, words, room):
        """The status, and what an output of so many bytes has; what stands on standard error."""
        with open(self.path('out'), 'wb') as out, tempfile.TemporaryFile(dir=self.top) as spare:
            read, write = os.pipe()
            status = self.call(words, out, write, room)
            os.close(write)
            with os.fdopen(read, 'rb') as err:
                line = err.read()
        with open(self.path('out'), 'rb') as out:
            return status, out.read(), line

    def short_err(self, words, room, out=subprocess.DEVNULL):
        """The status, and what a standard error of so many bytes has."""
        with open(self.path('err'), 'wb') as err:
            status = self.call(words, out, err, room)
        with open(self.path('err'), 'rb') as err:
            return status, err.read()


# Hosts and a port, other inputs, and the view of c.
BESIDE = [*PLACES, *NINE_OF_B, Whole('view.txt', OF_C)]

# Commands, and the files that each reads, in order.
FILES_READ = [
    (RUN, ['job.toml', 'mul.txt', 'party_a.toml', 'party_b.toml', 'party_c.toml']),
    (CHECK, ['job.toml', 'mul.txt']),
    (['pair', 'd', '--group', 'a'], ['job.toml', 'mul.txt', 'party_a.toml', 'party_b.toml', 'party_c.toml', 'other.toml']),
    (['node', 'd', 'c'], ['job.toml', 'mul.txt', 'party_c.toml']),
    (AUDIT, ['job.toml', 'mul.txt', 'party_a.toml', 'party_b.toml', 'party_c.toml', 'view.txt']),
    (['sample', '5'], []),
]


def each_read_that_fails_is_told(program, top):
    """A folder stands in the place of a file. Where it stands in the place of one that a command doesn't read, the command is done."""
    every = ['job.toml', 'mul.txt', 'party_a.toml', 'party_b.toml', 'party_c.toml', 'other.toml', 'view.txt']
    for words, names in FILES_READ:
        others = [name for name in every if name not in names]
        for name in names:
            calls = Calls(program, top, BESIDE)
            for unread in {name, *others, *names[names.index(name):]}:
                os.remove(calls.path(f'd/{unread}'))
                os.mkdir(calls.path(f'd/{unread}'))
            found = calls.short_out(words, 1000)
            expect(found == (5, b'', f'fault files file={name}\n'.encode()), f'{words} without {name}: {found}')
        if words[0] == 'node':
            continue
        calls = Calls(program, top, BESIDE)
        for unread in others:
            os.remove(calls.path(f'd/{unread}'))
            os.mkdir(calls.path(f'd/{unread}'))
        status, out, line = calls.short_out(words, 1000)
        expect(status == 0 and out and not line, f'{words} with all that it reads: {status} {line}')


OUTPUT = b'out 0 0 c 35\n'
FAULT = b'fault out\n'


def a_short_output_has_the_first_bytes(program, top):
    calls = Calls(program, top)
    for room in range(len(OUTPUT)):
        found = calls.short_out(RUN, room)
        expect(found == (5, OUTPUT[:room], FAULT), f'an output of {room} bytes: {found}')
    found = calls.short_out(RUN, len(OUTPUT))
    expect(found == (0, OUTPUT, b''), f'an output that suffices: {found}')


# Changes, and the line and the status that they come to.
LINES = [
    ([Edit('mul.txt', 'MUL', 'AND')], 3, b'refused circuit 9 UnknownOperation file=mul.txt session=0 line=4\n'),
    ([Without('party_b.toml')], 5, b'fault files file=party_b.toml\n'),
]


def a_short_line_has_the_first_bytes(program, top):
    for changes, status, line in LINES:
        calls = Calls(program, top, changes)
        for room in range(len(line)):
            found = calls.short_err(RUN, room)
            expect(found == (5, line[:room]), f'a line of {room} bytes: {found}')
        found = calls.short_err(RUN, len(line))
        expect(found == (status, line), f'a line that suffices: {found}')


def a_short_fault_has_the_first_bytes(program, top):
    """Both outputs fail: the first takes nothing, the second so many bytes of the line on the first."""
    calls = Calls(program, top)
    with open('/dev/full', 'wb') as full:
        for room in range(len(FAULT) + 1):
            found = calls.short_err(RUN, room, full)
            expect(found == (5, FAULT[:room]), f'a line of {room} bytes on an output that fails: {found}')


def calls_in_a_row_add_their_texts(program, top):
    """Two runs over a file that has room for them, and a third for which there are four bytes left."""
    calls = Calls(program, top)
    with open(calls.path('out'), 'ab') as out, open(calls.path('err'), 'ab') as err:
        statuses = [calls.call(RUN, out, err, 30) for _ in range(3)]
    with open(calls.path('out'), 'rb') as out, open(calls.path('err'), 'rb') as err:
        found = statuses, out.read(), err.read()
    expect(found == ([0, 0, 5], 2 * OUTPUT + b'out ', FAULT), f'three runs: {found}')


BLOCK = 4096


def a_view_is_written_in_blocks(program, top):
    """Each write of a long view comes as a record of its own. All but the last are as long as a block, or lack less than a line."""
    changes = [products('100 102\n2 1 1\n1 1\n', '0 1', range(2, 102)), Edit('party_a.toml', TAPE_A, SEED), Edit('party_b.toml', TAPE_B, SEED),
               Edit('party_c.toml', TAPE_C, SEED)]
    calls = Calls(program, top, changes)
    words = [*RUN, '--view', 'a']
    status, whole, line = calls.short_out(words, 1_000_000)
    expect(status == 0 and not line and len(whole) > 2 * BLOCK, f'a long view: {status} {line}')
    reader, writer = socket.socketpair(socket.AF_UNIX, socket.SOCK_SEQPACKET)
    with reader, writer:
        status = calls.call(words, writer, subprocess.DEVNULL)
        writer.close()
        records = list(iter(lambda: reader.recv(1_000_000), b''))
    expect(status == 0 and b''.join(records) == whole, f'a long view in records: {status}')
    expect(all(BLOCK - 96 <= len(record) <= BLOCK for record in records[:-1]), f'the blocks: {list(map(len, records))}')
    for room in [0, 1, BLOCK - 1, BLOCK, BLOCK + 1, 2 * BLOCK, len(whole) - 1]:
        found = calls.short_out(words, room)
        expect(found == (5, whole[:room], FAULT), f'a view of {room} bytes')


CASES = [each_read_that_fails_is_told, a_short_output_has_the_first_bytes, a_short_line_has_the_first_bytes,
         a_short_fault_has_the_first_bytes, calls_in_a_row_add_their_texts, a_view_is_written_in_blocks]


def main(words):
    if len(words) != 2:
        sys.exit('usage: outputs.py PROGRAM')
    status = 0
    for case in CASES:
        name = case.__name__.replace('_', ' ')
        with tempfile.TemporaryDirectory() as top:
            try:
                case(os.path.abspath(words[1]), top)
                print(f'outputs: {name}')
            except (Wrong, subprocess.TimeoutExpired) as wrong:
                print(f'outputs: NOT {name}: {wrong}')
                status = 1
    return status


if __name__ == '__main__':
    sys.exit(told(main))
