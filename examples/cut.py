#!/usr/bin/env python3
"""Cuts a circuit of any size into sessions that carry what goes on, and writes the folder of the whole job, but for the parties' files:

    examples/cut.py CIRCUIT FOLDER PARTY PARTY PARTY .. [OPTION ..]

A session has at most 65,536 gates, and a job 16 sessions. CIRCUIT is a file of bits in Bristol Fashion or, with --bits, of words in
the layout 'ring'; of a program of numbers, what 'examples/programs.py compile FILE --large' writes. Each party gives an input value and reads all output values, in order; where there are more parties than input values,
the others give and read nothing. Any two may know everything, and one alone learns nothing but what it reads. Options say otherwise:

    --bits N               the circuit is of words of so many bits
    --owners NAME,..       who gives each input value
    --readers GROUP,..     who reads each output value, as ann+bob, or 0 for nobody; one GROUP alone is for all of them
    --tolerated GROUP,..   which groups must learn nothing
    --fewest rounds        the layers of the whole circuit stay together, which takes fewer rounds of nodes and carries more
    --gates N              at most so many gates in a session, for smaller ones

The gates keep the order of the file, or one of two others: each just behind what it needs, from the first output on or from the last. These three are tried, or
with --fewest rounds that by layers alone, and the sessions are the fewest that are found so, cut where few wires live; another order might do with fewer. The
file of a session keeps that order, and its field order = "layers" has the program bring the gates into layers. Who gives an input value gives it once, and
output values are read once, both in the order of the circuit: so examples/numbers.py writes and reads its numbers. What no output needs is left out.

Prints what the file has and by how much that is more than one session takes; the gates, the products, the rounds of nodes and the messages of
each session, and the words that it carries from earlier ones; and these of the whole job. A circuit that is past a limit of a job is
refused before anything is written, with the limit and by how much.
"""

import array
import collections
import functools
import itertools
import operator
import os
import re
import sys

from by_layers import IN_LAYERS, NOTHING, talking_batches
from circuit_reader import MOST_READ_BYTES, PRODUCTS, Fault, read_circuit
from circuits import MOST_GATES
from cut_places import begins, best_cuts, depth_first, in_layers, lives, needed, spread, times
from doubts import doubt_structure
from job_folder import MOST_SESSIONS, MOST_VALUES, MOST_WIRES, Refusal, job_text, need, read_bytes, read_fields, run_script, write_new
from summands import Sharing, groups_of

MOST_MESSAGES = 1_048_576
MOST_WORDS = 1_048_576

# A wire goes on in a value for all later sessions that need it. Where that makes too many values, a wire that more than so many sessions need
# goes on in a value for each of them.
MOST_SETS = (MOST_SESSIONS, 3, 2, 1)

MOST_BITS = 64
OPTIONS = {'--bits', '--owners', '--readers', '--tolerated', '--fewest', '--gates'}

# What there are to be few of.
WIRES, ROUNDS = 'wires', 'rounds'

# Other orders of the gates are tried where more wires than so many live at a cut.
FEW = 64

# How often sessions are made smaller by what they came out too large.
TRIES = 6


def places_of(mask):
    """The places of the bits that are 1."""
    return [place for place in range(MOST_SESSIONS) if mask >> place & 1]


def past(limit, what, found):
    return f'the limit of {limit} {what} by {found - limit}'


# The parts.

class Part:
    """A session: the input values that are given to it, by their numbers; those that are carried into it, each as a session, its place among what that keeps,
    and its wires; the wires of its gates and of its constants; the output values that are read of it; and what it keeps for later sessions,
    each as the bits of these, and its wires."""

    def __init__(self):
        self.given, self.carried, self.gates, self.constants, self.read, self.kept = [], [], [], [], [], []

    def measure(self, circuit):
        """Finds its wires at the beginning and at the end, and how many gates and wires it has. A wire at the end is a copy, unless it is a gate's and stands
        there for the first time."""
        self.inputs = circuit.input_wires(self.given) + [wire for _, _, wires in self.carried for wire in wires]
        self.ends = circuit.output_wires(self.read) + [wire for _, wires in self.kept for wire in wires]
        at_the_end = set(self.ends)
        made = sum(wire in at_the_end for wire in itertools.chain(self.gates, self.constants))
        self.size = len(self.gates) + len(self.constants) + len(self.ends) - made
        self.wires = len(self.inputs) + self.size

    def values(self):
        """How many values it has, at the beginning or at the end."""
        return max(len(self.given) + len(self.carried), len(self.read) + len(self.kept))

    def excess(self, most_gates):
        """How many gates it has to lose. Of too many values it loses about as many as its gates have of them."""
        values = self.values()
        of_values = self.size * (values - MOST_VALUES) // values + 1 if values > MOST_VALUES else 0
        return max(self.size - most_gates, self.wires - MOST_WIRES, of_values, 0)


def parts_with_gates(circuit, order, cuts):
    """The parts of the order, in which part each wire is set, and as bits the parts that read it."""
    parts, places, masks = [], array.array('b', bytes(len(circuit.operations))), array.array('H', bytes(2 * len(circuit.operations)))
    firsts, seconds, constants = circuit.firsts, circuit.seconds, circuit.constants
    for number, (first, last) in enumerate(itertools.pairwise(cuts)):
        parts.append(Part())
        parts[-1].gates = [wire for wire in order[first:last] if wire not in constants] if constants else order[first:last]
        bit = 1 << number
        for wire in parts[-1].gates:
            places[wire] = number
            masks[firsts[wire]] |= bit
            if seconds[wire] >= 0:
                masks[seconds[wire]] |= bit
    return parts, places, masks


def parts_of(circuit, order, cuts, owners, most_sets):
    """The parts of the order, which is cut at these places."""
    parts, places, masks = parts_with_gates(circuit, order, cuts)
    inputs, last = sum(circuit.inputs), len(parts) - 1
    first_read = [(mask & -mask).bit_length() - 1 if mask else last for mask in masks[:inputs]]
    given, read = times(circuit, owners, places, first_read, last)
    places[:inputs] = array.array('b', spread(circuit.inputs, given))
    for value, number in enumerate(given):
        parts[number].given.append(value)
    for value, number in enumerate(read):
        parts[number].read.append(value)
    for wire, number in zip(circuit.results, spread(circuit.outputs, read)):
        masks[wire] |= 1 << number
    for wire in circuit.constants:
        for number in places_of(masks[wire]):
            parts[number].constants.append(wire)
    keep(parts, circuit, itertools.chain(range(inputs), order), places, masks, most_sets)
    for part in parts:
        part.measure(circuit)
    return parts


def keep(parts, circuit, wires, places, masks, most_sets):
    """Carries on each wire that a later part needs. A constant is made anew."""
    groups = collections.defaultdict(list)
    for wire in wires:
        later = masks[wire] >> places[wire] + 1
        if later and wire not in circuit.constants:
            later <<= places[wire] + 1
            sets = [later] if later.bit_count() <= most_sets else [1 << place for place in places_of(later)]
            for mask in sets:
                groups[places[wire], mask].append(wire)
    for (number, mask), its_wires in sorted(groups.items()):
        for later in places_of(mask):
            parts[later].carried.append((number, len(parts[number].kept), its_wires))
        parts[number].kept.append((mask, its_wires))


def parts_with_values(circuit, order, cuts, owners):
    """The parts, with as few values as it takes."""
    for most_sets in MOST_SETS:
        parts = parts_of(circuit, order, cuts, owners, most_sets)
        if all(part.values() <= MOST_VALUES for part in parts):
            break
    return parts


class Order:
    """The gates in some order, how many wires live at each place of it, and where a part begins that has at most so many gates."""

    def __init__(self, circuit, wires, owners, most_gates):
        self.circuit, self.owners, self.most_gates = circuit, owners, most_gates
        self.wires = [wire for wire in wires if wire not in circuit.constants]
        self.live = lives(circuit, self.wires, owners)

    def cost(self, sizes):
        """How many wires live at all cuts, where these are the best."""
        return best_cuts(self.live, sizes)[0]

    @functools.cached_property
    def begins(self):
        return begins(self.circuit, self.wires, self.owners, self.most_gates)

    def with_copies(self, place, size):
        """Where a part of at most this size that ends at this place may begin, so that it has room for its copies and constants."""
        return max(place - size, self.begins[place])


def other_orders(circuit, owners, most_gates):
    """Each gate just behind what it needs, for the first output and then the next ones, or for the last and then those before it."""
    return [Order(circuit, depth_first(circuit, results), owners, most_gates) for results in (circuit.results, circuit.results[::-1])]


def fitted(order, count):
    """So many parts, cut where few wires live, and by how much they are too large. Copies, constants and values are known once it is cut: so where a part
    is too large, it gets fewer gates, each time more so, and it is cut anew. Where that doesn't help, each part begins where it has room for its
    copies and constants too, which takes longer to find."""
    for earliest in (operator.sub, order.with_copies):
        sizes = [order.most_gates] * count
        for number in range(1, TRIES + 1):
            found = best_cuts(order.live, sizes, earliest)
            if found is None:
                break
            parts = parts_with_values(order.circuit, order.wires, found[1], order.owners)
            excess = [part.excess(order.most_gates) for part in parts]
            if not any(excess):
                return parts, 0
            lengths = [last - first for first, last in itertools.pairwise(found[1])]
            sizes = [min(size, max(length - more * number, 1)) if more else size for size, length, more in zip(sizes, lengths, excess)]
    return parts, sum(excess)


def first_fitted(orders, count):
    """So many parts of the first of these orders that has them, else of the first order, and by how much they are too large."""
    tried = []
    for order in orders:
        tried.append(fitted(order, count))
        if tried[-1][1] == 0:
            return tried[-1]
    return tried[0]


def cut(circuit, owners, most_gates, fewest):
    """The parts of a circuit, the fewest that are found in one of the orders that are tried, cut where few wires live. For few rounds there is one
    order, by layers. Else there is that of the file and, where it needs more sessions or more than few wires live at its cuts, there are two others."""
    wires = needed(circuit)
    count = max(1, -(-len(wires) // most_gates))
    need(count <= MOST_SESSIONS, f'the job passes {past(MOST_SESSIONS * most_gates, f"gates of {MOST_SESSIONS} sessions", len(wires))}')
    orders, others = [Order(circuit, in_layers(circuit, wires)[0] if fewest == ROUNDS else wires, owners, most_gates)], fewest == WIRES
    if others and orders[0].cost([most_gates] * count) > FEW * (count - 1):
        orders, others = orders + other_orders(circuit, owners, most_gates), False
    tried = []
    for sessions in range(count, MOST_SESSIONS + 1):
        orders.sort(key=lambda order: order.cost([most_gates] * sessions))
        parts, excess = first_fitted(orders, sessions)
        if excess and others:
            orders, others = orders + other_orders(circuit, owners, most_gates), False
            parts, excess = first_fitted(orders[1:], sessions)
        tried.append(excess)
        if excess == 0 or len(tried) > 2 and tried[-3] <= min(tried[-2:]):
            break
    return parts


# The file of a part.

class PartFile:
    """A part's wires have numbers: first those of its inputs, last those at its end."""

    def __init__(self, circuit, part):
        self.circuit, self.part = circuit, part
        self.numbers = {wire: number for number, wire in enumerate(part.inputs)}
        self.copies, made, end = [], {*part.gates, *part.constants}, part.wires - len(part.ends)
        for number, wire in enumerate(part.ends, end):
            if wire in made and wire not in self.numbers:
                self.numbers[wire] = number
            else:
                self.copies.append((wire, number))
        free = iter(range(len(part.inputs), end))
        for wire in itertools.chain(part.constants, part.gates):
            if wire not in self.numbers:
                self.numbers[wire] = next(free)

    def text(self):
        """The file, whose gates stand in the order in which they were cut."""
        circuit, part, numbers = self.circuit, self.part, self.numbers
        values = [circuit.inputs[value] for value in part.given] + [len(wires) for _, _, wires in part.carried]
        ends = [circuit.outputs[value] for value in part.read] + [len(wires) for _, wires in part.kept]
        lines = [' '.join(map(str, line)) for line in ([part.size, part.wires], [len(values), *values], [len(ends), *ends])]
        lines += [f'1 1 {circuit.constants[wire]} {numbers[wire]} EQ' for wire in part.constants]
        for wire in part.gates:
            first, second, operation = numbers[circuit.firsts[wire]], circuit.seconds[wire], circuit.operations[wire]
            lines.append(f'2 1 {first} {numbers[second]} {numbers[wire]} {operation}' if second >= 0 else f'1 1 {first} {numbers[wire]} {operation}')
        lines += [f'1 1 {numbers[wire]} {number} EQW' for wire, number in self.copies]
        return '\n'.join(lines) + '\n'

    def rounds(self, told):
        """The rounds of nodes: the batches that say something, with the gates in layers, where it is known which output values are told to somebody."""
        circuit, part = self.circuit, self.part
        given, firsts, seconds = set(circuit.input_wires(part.given)), circuit.firsts, circuit.seconds
        slots = [([], wire, True, wire in given) for wire in part.inputs]
        for wire in in_layers(circuit, part.gates)[0]:
            product = circuit.operations[wire] in PRODUCTS
            slots.append(((firsts[wire], seconds[wire]), wire, product, product))
        for value in part.read:
            slots += [([wire], NOTHING, False, told[value]) for wire in circuit.output_wires([value])]
        return len(talking_batches(slots))


# The job.

class Job:
    """A job of the parts of a circuit: who gives and who reads its values, and what it costs. It is of bits, or of words of so many bits."""

    def __init__(self, circuit, sharing, owners, readers, bits=None, most_gates=MOST_GATES, fewest=WIRES):
        need(len(owners) == len(circuit.inputs), f'there are {len(owners)} owners, and the circuit has {len(circuit.inputs)} input values')
        need(len(readers) == len(circuit.outputs), f'there are {len(readers)} groups of readers, and the circuit has {len(circuit.outputs)} output values')
        stranger = next((name for name in itertools.chain(owners, *readers) if name not in sharing.parties), None)
        need(stranger is None, f'{str(stranger)[:40]!r} is no party')
        need(all(len(set(group)) == len(group) for group in readers), 'a reader stands twice in a group')
        self.circuit, self.sharing, self.owners, self.readers, self.bits = circuit, sharing, owners, readers, bits
        self.parts = cut(circuit, owners, most_gates, fewest)
        self.products = [sum(circuit.operations[wire] in PRODUCTS for wire in part.gates) for part in self.parts]
        self.messages = [self.messages_of(part, products) for part, products in zip(self.parts, self.products)]
        over = ' and '.join(past(limit, what, found) for limit, what, found in self.limits(most_gates) if found > limit)
        need(not over, f'the job passes {over}')
        self.files = [PartFile(circuit, part) for part in self.parts]

    def messages_of(self, part, products):
        circuit, sharing = self.circuit, self.sharing
        return (sum(circuit.inputs[value] * sharing.of_input(self.owners[value]) for value in part.given) + products * sharing.of_product()
                + sum(circuit.outputs[value] * sharing.of_output(self.readers[value]) for value in part.read)
                + sum(len(wires) * mask.bit_count() * sharing.of_carried() for mask, wires in part.kept))

    def words(self, party):
        """The tape words that a party draws."""
        given = sum(width for width, owner in zip(self.circuit.inputs, self.owners) if owner == party)
        return self.sharing.words(party, given, sum(self.products))

    def limits(self, most_gates):
        """Each limit, what it is of, and what the job has of that."""
        parts = self.parts
        return [(most_gates, 'gates of a session', max(part.size for part in parts)),
                (MOST_WIRES, 'wires of a session', max(part.wires for part in parts)),
                (MOST_VALUES, 'input values of a session', max(len(part.given) + len(part.carried) for part in parts)),
                (MOST_VALUES, 'output values of a session', max(len(part.read) + len(part.kept) for part in parts)),
                (MOST_MESSAGES, 'messages', sum(self.messages)),
                (MOST_WORDS, 'tape words of a party', max(map(self.words, self.sharing.parties)))]

    def told(self):
        """What it costs, session by session and as a whole."""
        told = [self.sharing.of_output(readers) > 0 for readers in self.readers]
        rounds = [file.rounds(told) for file in self.files]
        carried = [sum(len(wires) for _, _, wires in part.carried) for part in self.parts]
        rows = list(zip([part.size for part in self.parts], self.products, rounds, self.messages, carried))
        for number, row in enumerate(rows):
            yield 'session {} gates {} products {} rounds {} messages {} carried {}'.format(number, *row)
        depth = in_layers(self.circuit, [wire for part in self.parts for wire in part.gates])[1]
        yield 'job sessions {} gates {} products {} rounds {} messages {} carried {} depth {}'.format(len(rows), *map(sum, zip(*rows)), depth)

    def session(self, number, part):
        """The fields of a session."""
        carried = [f'@{earlier}.{len(self.parts[earlier].read) + place}' for earlier, place, _ in part.carried]
        return {'circuit': f'part_{number}.txt', 'layout': 'ring' if self.bits else 'bristol', 'order': IN_LAYERS,
                'owners': [self.owners[value] for value in part.given] + carried,
                'readers': [self.readers[value] for value in part.read] + [[] for _ in part.kept]}

    def write(self, folder):
        """Writes the job's folder."""
        sessions = [self.session(number, part) for number, part in enumerate(self.parts)]
        fields = {'version': 2, 'ring_bits': self.bits or 1, 'parties': self.sharing.parties, 'tolerated': self.sharing.tolerated, 'session': sessions}
        os.makedirs(folder, exist_ok=True)
        there = next((name for name in ['job.toml', *(session['circuit'] for session in sessions)] if os.path.lexists(os.path.join(folder, name))), None)
        need(there is None, f'{os.path.join(folder, str(there))} is there already')
        for session, file in zip(sessions, self.files):
            write_new(folder, session['circuit'], file.text().encode())
        write_new(folder, 'job.toml', job_text(fields).encode())


# The words of a call.

def told_of(circuit):
    """What the file has, and by how much that is more than one session takes."""
    sizes = [(MOST_GATES, 'gates', circuit.gates), (MOST_WIRES, 'wires', circuit.wires),
             (MOST_VALUES, 'input values', len(circuit.inputs)), (MOST_VALUES, 'output values', len(circuit.outputs))]
    over = ', '.join(f'{found - limit} {what}' for limit, what, found in sizes if found > limit)
    return 'circuit ' + ' '.join(f'{what} {found}' for _, what, found in sizes) + (f': {over} more than one session takes' if over else '')


def number_of(options, name, most):
    """The number of an option, or the most where it isn't given."""
    word = options.get(name, str(most))
    need(re.fullmatch('[0-9]{1,9}', word) and 1 <= int(word) <= most, f'{name} is a number from 1 to {most}, and not {word[:40]!r}')
    return int(word)


def job_of(circuit, parties, options):
    """The job that the parties and the options ask for."""
    sharing = Sharing(parties, groups_of(options['--tolerated']) if '--tolerated' in options else [[name] for name in parties])
    owners = options['--owners'].split(',') if '--owners' in options else parties[:len(circuit.inputs)]
    need('--owners' in options or len(owners) == len(circuit.inputs),
         f'the circuit has {len(circuit.inputs)} input values, which are more than the parties: --owners says who gives each')
    readers = groups_of(options['--readers']) if '--readers' in options else [[name for name in parties if name in owners]]
    readers = readers * len(circuit.outputs) if len(readers) == 1 else readers
    bits = number_of(options, '--bits', MOST_BITS) if '--bits' in options else None
    fewest = options.get('--fewest', WIRES)
    need(fewest in (WIRES, ROUNDS), f'--fewest is {WIRES} or {ROUNDS}, and not {fewest[:40]!r}')
    return Job(circuit, sharing, owners, readers, bits, number_of(options, '--gates', MOST_GATES), fewest)


def circuit_in(path, options):
    """The circuit of a file."""
    bits = number_of(options, '--bits', MOST_BITS) if '--bits' in options else 1
    data = read_bytes(os.path.dirname(path), os.path.basename(path), MOST_READ_BYTES)
    try:
        return read_circuit(data, bits, '--bits' not in options)
    except Fault as fault:
        raise Refusal(f'{path}: {fault}') from None


def main(words):
    if words in (['-h'], ['--help']):
        print(__doc__)
        return 0
    names = list(itertools.takewhile(lambda word: not word.startswith('--'), words))
    rest = words[len(names):]
    options = dict(zip(rest[::2], rest[1::2]))
    if len(names) < 3 or 2 * len(options) != len(rest) or not options.keys() <= OPTIONS:
        print(__doc__.split('\n\n')[1], file=sys.stderr)
        return 2
    circuit = circuit_in(names[0], options)
    job = job_of(circuit, names[2:], options)
    lines = [told_of(circuit), *job.told()]
    job.write(names[1])
    doubt_structure(read_fields(names[1]))
    print('\n'.join(lines))
    return 0


if __name__ == '__main__':
    run_script(main)
