"""In which order the gates of a circuit may stand, and where it is cut so that few wires live."""

import array
import bisect
import collections
import itertools
import math
import operator

from circuit_reader import PRODUCTS


# The order of the gates.

def operands(circuit, wire):
    return [operand for operand in (circuit.firsts[wire], circuit.seconds[wire]) if operand >= 0]


def needed(circuit):
    """The wires that gates set and an output needs, in the order of the file."""
    marks = bytearray(len(circuit.operations))
    for wire in circuit.results:
        marks[wire] = 1
    firsts, seconds, inputs = circuit.firsts, circuit.seconds, sum(circuit.inputs)
    for wire in range(len(marks) - 1, inputs - 1, -1):
        if marks[wire] and firsts[wire] >= 0:
            marks[firsts[wire]] = 1
            if seconds[wire] >= 0:
                marks[seconds[wire]] = 1
    return [wire for wire in range(inputs, len(marks)) if marks[wire]]


def in_layers(circuit, wires):
    """The same wires by layers, the linear ones of a layer first; and how many products stand on the longest path to one of them."""
    firsts, seconds, operations = circuit.firsts, circuit.seconds, circuit.operations
    layers, keys = array.array('i', bytes(4 * len(operations))), {}
    for wire in wires:
        first, second = firsts[wire], seconds[wire]
        layer = layers[first] if first >= 0 else 0
        if second >= 0 and layers[second] > layer:
            layer = layers[second]
        product = operations[wire] in PRODUCTS
        layers[wire] = layer + product
        keys[wire] = 2 * layer + product
    return sorted(wires, key=keys.__getitem__), max(layers, default=0)


def depth_first(circuit, results):
    """The wires that these outputs need: one output after another, each wire just behind those that it needs."""
    done, found, inputs = bytearray(len(circuit.operations)), [], sum(circuit.inputs)
    done[:inputs] = b'\1' * inputs
    for result in results:
        open_wires = [result]
        while open_wires:
            wire = open_wires[-1]
            waits = [] if done[wire] else [operand for operand in operands(circuit, wire) if not done[operand]]
            if waits:
                open_wires += waits
                continue
            if not done[open_wires.pop()]:
                done[wire] = 1
                found.append(wire)
    return found


# Where it is cut.

def times(circuit, owners, places, first_read, last):
    """When each input value is given and each output value is read, where these are the places of what gates set, and where each input wire is
    first read. Both keep the order of the circuit: an input value is given no later than those of its owner behind it."""
    read, latest, results = [], 0, iter(circuit.results)
    for width in circuit.outputs:
        wires = list(itertools.islice(results, width))
        latest = max(latest, max((places[wire] for wire in wires), default=0))
        read.append(latest)
        for wire in wires:
            if wire < len(first_read):
                first_read[wire] = min(first_read[wire], latest)
    given, next_given, end = [], {}, len(first_read)
    for owner, width in zip(reversed(owners), reversed(circuit.inputs)):
        earliest = min(first_read[end - width:end], default=last)
        next_given[owner] = min(earliest, next_given.get(owner, last))
        given.append(next_given[owner])
        end -= width
    return given[::-1], read


def spread(widths, values):
    """Of each wire of values of these widths what stands for its value."""
    return list(itertools.chain.from_iterable(map(itertools.repeat, values, widths)))


def timetable(circuit, order, owners):
    """At which place of the order each wire is set, when each input wire is given and each wire of an output value is read, and where each wire is read last,
    which is -1 where nothing reads it."""
    inputs, last = sum(circuit.inputs), max(len(order) - 1, 0)
    places, last_read = array.array('i', bytes(4 * len(circuit.operations))), array.array('i', [-1]) * len(circuit.operations)
    first_read = [last] * inputs
    firsts, seconds = circuit.firsts, circuit.seconds
    for place, wire in enumerate(order):
        places[wire] = place
        for operand in (firsts[wire], seconds[wire]):
            if operand >= 0:
                if operand < inputs and last_read[operand] < 0:
                    first_read[operand] = place
                last_read[operand] = place
    given, read = times(circuit, owners, places, first_read, last)
    given, read = spread(circuit.inputs, given), spread(circuit.outputs, read)
    places[:inputs] = array.array('i', given)
    for wire, place in zip(circuit.results, read):
        last_read[wire] = max(last_read[wire], place)
    return places, given, read, last_read


def lives(circuit, order, owners):
    """How many wires live at each place of the order, which are set before it, and read behind it. A constant is made anew."""
    places, given, _, last_read = timetable(circuit, order, owners)
    live = array.array('i', bytes(4 * (len(order) + 2)))
    for wire in itertools.chain(range(len(given)), order):
        first, end = places[wire] + 1, last_read[wire] + 1
        if end > first and wire not in circuit.constants:
            live[first] += 1
            live[end] -= 1
    return list(itertools.accumulate(live[:len(order) + 1]))


class Weights:
    """Numbers at places, of which those from some place on are added up (a Fenwick tree). At no place do they come to less than 0."""

    def __init__(self, count):
        self.count, self.total, self.sums = count, 0, [0] * (count + 1)

    def add(self, place, number):
        self.total += number
        place += 1
        while place <= self.count:
            self.sums[place] += number
            place += place & -place

    def earliest(self, most):
        """The first place from which on they come to no more than this."""
        place, before = 0, self.total - most
        for step in reversed(range(self.count.bit_length())):
            after = place + (1 << step)
            if after <= self.count and self.sums[after] < before:
                place, before = after, before - self.sums[after]
        return place + 1 if before > 0 else 0


def begins(circuit, order, owners, most):
    """For each place of the order where the earliest part of at most so many gates begins that ends there, copies and constants among them, if each wire
    goes on in one value. A part that begins earlier has no fewer gates: so the parts are as few as they can be where each is as long as it can be."""
    places, given, read, last_read = timetable(circuit, order, owners)
    weights, changes = Weights(len(order) + 1), [[] for _ in range(len(order) + 2)]
    for wire, place in zip(range(len(given)), given):
        if last_read[wire] > place:
            changes[place + 1].append((place, 1))
            changes[last_read[wire] + 1].append((place, -1))
    made, constants = {}, collections.defaultdict(set)
    for wire, place in zip(circuit.results, read):
        changes[place + 1].append((place, 1))
        if wire in circuit.constants:
            constants[wire].add(place)
        elif wire >= len(given):
            made[wire] = places[wire]
    for wire, place in made.items():
        changes[last_read[wire] + 1].append((place, -1))
    for wire, its_places in constants.items():
        for earlier, place in itertools.pairwise([None, *sorted(its_places)]):
            changes[place + 1] += [(place, -1)] + ([(earlier, 1)] if earlier is not None else [])
    latest, found = {}, []
    for end in range(len(order) + 1):
        if end:
            weights.add(end - 1, 1)
        reads = [wire for wire in (operands(circuit, order[end - 1]) if end else []) if wire in circuit.constants]
        reads += [wire for wire, its_places in constants.items() if end - 1 in its_places]
        for wire in reads:
            changes[end].append((end - 1, 1))
            if wire in latest:
                changes[end].append((latest[wire], -1))
            latest[wire] = end - 1
        for place, number in changes[end]:
            weights.add(place, number)
        found.append(weights.earliest(most))
    return found


def best_cuts(live, sizes, earliest=operator.sub):
    """How many wires live at all cuts, and where these are, so that parts of at most these sizes have all gates and the fewest wires live; or nothing. The cut
    behind each part is looked for where the parts before it and those behind it can have the others; no part is empty that needn't be.
    'earliest' tells where a part of some size that ends at some place may begin."""
    total, ends, least = len(live) - 1, list(itertools.accumulate(sizes)), int(len(live) > len(sizes))
    spare = ends[-1] - total
    if spare < 0:
        return None
    low, costs, choices = 0, [0], []
    for number, (size, end) in enumerate(zip(sizes, ends), 1):
        first, last = max(end - spare, number * least, 0), min(end, total - (len(sizes) - number) * least)
        # The places of the cut before, of which each costs less than those behind it.
        window, nearest, new, chosen = [], low, [], []
        for place in range(first, last + 1):
            while nearest < low + len(costs) and nearest <= place - least:
                while window and costs[window[-1] - low] > costs[nearest - low]:
                    window.pop()
                window.append(nearest)
                nearest += 1
            best = bisect.bisect_left(window, earliest(place, size))
            chosen.append(window[best] if best < len(window) else None)
            new.append(costs[window[best] - low] + (live[place] if place < total else 0) if best < len(window) else math.inf)
        choices.append((first, chosen))
        low, costs = first, new
    if costs[-1] == math.inf:
        return None
    cuts = [total]
    for first, chosen in reversed(choices):
        cuts.append(chosen[cuts[-1] - first])
    return costs[-1], cuts[::-1]
