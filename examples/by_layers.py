#!/usr/bin/env python3
"""Tells how many rounds nodes take for a circuit, with its gates in the order of the file and in layers:

    examples/by_layers.py CIRCUIT [PROGRAM]

Nodes do all products at once that stand together and need not wait for one another. The layer of a gate is how many products stand on the
longest path to it. With order = "layers" in the session's table of job.toml the program itself sorts the gates by layers, the linear ones of a
layer before its products, and otherwise in their order: so all products of a layer take one round. The file stays as it is, and so do the
wires and what they come to. This script only counts, and writes no file.

Prints how many products the circuit has, its depth, which is how many of them stand on the longest path, and the rounds of both
orders: those of the inputs, the products and the outputs. Two lines more tell the same for a session whose products are prepared, one after another or
all ahead: the rounds before the inputs, and those that follow. A circuit that the program refuses is refused with its line; one that is too
large for a session is cut by examples/cut.py, into sessions in layers. Of a program of numbers CIRCUIT is what 'examples/programs.py compile' writes. The program is ./mpc of this repository, or the one that is named.
"""

import itertools
import os
import pathlib
import subprocess
import sys
import tempfile

from job_folder import Refusal, job_text, need, read_bytes, read_widths, run_script, write_new

TOP = pathlib.Path(__file__).resolve().parent.parent
PRODUCTS = {'AND', 'MUL'}

# How the products of a session are computed: each is dealt itself, or is prepared before the inputs, one after another, or the masks of all ahead
# of their products.
DIRECT, PREPARED, AHEAD = WAYS = ('direct', 'prepared', 'ahead')

# In which order its gates go: that of the file, or in layers.
IN_FILE, IN_LAYERS = ORDERS = ('file', 'layers')

OF_WORDS = {'ADD', 'SUB', 'NEG', 'MUL'}

# What a slot of an output sets.
NOTHING = -1


class Gate:
    """A line of a circuit: the wires that it reads, the one that it sets, and whether it multiplies."""

    def __init__(self, tokens):
        count = int(tokens[0])
        self.reads = [] if tokens[-1] == 'EQ' else [int(wire) for wire in tokens[2:2 + count]]
        self.sets = int(tokens[2 + count])
        self.multiplies = tokens[-1] in PRODUCTS


def accept(data, program, path):
    """Refuses the circuit of this file where the program does. A job of one party has no messages, so nothing else of it can be too large."""
    of_words = any(line.split()[-1:] and line.split()[-1] in OF_WORDS for line in data.decode('utf-8', 'replace').split('\n'))
    with tempfile.TemporaryDirectory() as folder:
        write_new(folder, 'circuit.txt', data)
        try:
            inputs, outputs = map(len, read_widths(folder, 'circuit.txt'))
        except Refusal:
            inputs, outputs = 0, 0
        session = {'circuit': 'circuit.txt', 'layout': 'ring' if of_words else 'bristol', 'owners': ['a'] * inputs, 'readers': [['a']] * outputs}
        fields = {'version': 1, 'ring_bits': 64 if of_words else 1, 'parties': ['a'], 'formula': 'a', 'session': [session]}
        write_new(folder, 'job.toml', job_text(fields).encode())
        done = subprocess.run([program, 'check', folder], stdin=subprocess.DEVNULL, stdout=subprocess.DEVNULL, stderr=subprocess.PIPE, text=True)
    line = done.stderr.strip().split('\n')[-1] or f'{program} ended with status {done.returncode}'
    line = line.replace('file=circuit.txt session=0', f'file={path}')
    need(done.returncode == 0, line + (': examples/cut.py cuts it into sessions' if ' TooLarge ' in line else ''))


def read_circuit(data):
    """The three lines of the head, and the gates."""
    lines = [tokens for tokens in (line.split() for line in data.decode('utf-8').split('\n')) if tokens]
    return lines[:3], [Gate(tokens) for tokens in lines[3:]]


def layers(gates):
    """The layer of each gate, and the products on the longest path."""
    products, found, depth = {}, [], 0
    for gate in gates:
        layer = max((products.get(wire, 0) for wire in gate.reads), default=0)
        products[gate.sets] = layer + gate.multiplies
        found.append(layer)
        depth = max(depth, products[gate.sets])
    return found, depth


def in_layers(gates):
    """The gates by layers, the linear ones of a layer first."""
    return [gate for _, gate in sorted(zip(layers(gates)[0], gates), key=lambda pair: (pair[0], pair[1].multiplies))]


# That others wait for the wire of a slot, which is set only when what they say was taken: it is of a prepared product.
JOINS = 2


def talking_batches(slots):
    """The batches of slots that say something, each by the slot behind it. Of a slot there are the wires that it reads, the one that it sets, whether others wait
    for that one, and whether it says something itself. It begins a batch where it reads a wire for which one waits in the batch before it, or sets one beside
    a slot that joins."""
    found, says, pending, joins = [], False, set(), False
    for slot, (reads, sets, waits, speaks) in enumerate(slots):
        if not pending.isdisjoint(reads) or joins and waits != JOINS and sets != NOTHING:
            found += [slot] * says
            says, pending, joins = False, set(), False
        if waits:
            pending.add(sets)
            joins |= waits == JOINS
        says |= speaks
    return found + [len(slots)] * says


def prepared_slots(number, gate):
    """The slots of a product that is prepared: its masks, their product, and then, once the inputs are there, its openings and itself."""
    first, second, product = ((number, which) for which in range(3))
    masks = [([], first, True, True), ([], second, True, True)]
    openings = [([wire, mask], NOTHING, False, True) for wire, mask in zip(gate.reads, (first, second))]
    return masks, ([first, second], product, True, True), [*openings, ([], gate.sets, JOINS, False)]


def preparation(products, way):
    """The slots of masks and of their products, which are prepared in this way."""
    if way == AHEAD:
        return [mask for masks, _, _ in products for mask in masks] + [product for _, product, _ in products]
    return [slot for masks, product, _ in products for slot in (*masks, product)]


def rounds_apart(head, gates, given=None, read=None, way=DIRECT):
    """How many batches of slots say something, before the inputs and from these on: those with a mask, and those with an input, a product or an output; but, where
    it is told which input values are given and which output values are read, with none that is carried on instead."""
    products, slots, wires = [], [], iter(range(int(head[0][1])))
    for value, width in enumerate(map(int, head[1][1:])):
        slots += [([], wire, True, given is None or given[value]) for wire in itertools.islice(wires, width)]
    for number, gate in enumerate(gates):
        if way != DIRECT and gate.multiplies:
            products.append(prepared_slots(number, gate))
            slots += products[-1][2]
        else:
            slots.append((gate.reads, gate.sets, gate.multiplies, gate.multiplies))
    widths = list(map(int, head[2][1:]))
    wires = iter(range(int(head[0][1]) - sum(widths), int(head[0][1])))
    for value, width in enumerate(widths):
        slots += [([wire], NOTHING, False, read is None or bool(read[value])) for wire in itertools.islice(wires, width)]
    before = preparation(products, way)
    ends = talking_batches(before + slots)
    earlier = sum(end <= len(before) for end in ends)
    return earlier, len(ends) - earlier


def rounds(head, gates, given=None, read=None, way=DIRECT):
    """How many batches of slots say something, in all."""
    return sum(rounds_apart(head, gates, given, read, way))


def main(words):
    if words in (['-h'], ['--help']):
        print(__doc__)
        return 0
    if not 1 <= len(words) <= 2:
        print(__doc__.split('\n\n')[1], file=sys.stderr)
        return 2
    path = pathlib.Path(words[0])
    data = read_bytes(os.fspath(path.parent), path.name)
    accept(data, words[1] if len(words) == 2 else str(TOP / 'mpc'), path)
    head, gates = read_circuit(data)
    by_layers = in_layers(gates)
    print(f'products {sum(gate.multiplies for gate in gates)} depth {layers(gates)[1]} '
          f'rounds {rounds(head, gates)} rounds_in_layers {rounds(head, by_layers)}')
    for way in (PREPARED, AHEAD):
        apart = [rounds_apart(head, its_gates, way=way) for its_gates in (gates, by_layers)]
        print('{} before {} rounds {} before_in_layers {} rounds_in_layers {}'.format(way, *apart[0], *apart[1]))
    return 0


if __name__ == '__main__':
    run_script(main)
