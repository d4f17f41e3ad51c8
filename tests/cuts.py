#!/usr/bin/env python3
"""Runs examples/cut.py and the scripts of examples/sha256: cuts.py PROGRAM

Random circuits of bits and of words, whole and cut at several sizes, must come to what plain evaluation gives, at the cost that is told, also where products are
prepared, in turn or ahead, and gates go in the order of the file. What
'mpc check' refuses of a circuit is refused with the same words, and what is past a limit of a job in one line. Digests are compared with
Python's own. Ends with status 1, and tells why, where something ends otherwise. The largest circuits are among the jobs of bench/make_jobs.py.
"""

import collections
import contextlib
import hashlib
import io
import itertools
import json
import os
import pathlib
import random
import re
import shutil
import subprocess
import sys

TOP = pathlib.Path(__file__).resolve().parent.parent
EXAMPLES = TOP / 'examples'
sys.path[1:1] = [str(EXAMPLES), str(EXAMPLES / 'sha256'), str(TOP / 'fuzz')]

import cut  # noqa: E402
import job_folder  # noqa: E402
import sha256_circuit  # noqa: E402
from by_layers import ORDERS, WAYS  # noqa: E402
from circuit_faults import CIRCUIT_FAULTS  # noqa: E402
from circuit_files import CIRCUIT_FILES  # noqa: E402
from circuit_reader import read_circuit  # noqa: E402
from circuits import MOST_GATES, Circuit, circuit_of as circuit_file  # noqa: E402
from cut import Order, parts_with_values  # noqa: E402
from cut_places import best_cuts, depth_first, needed  # noqa: E402
from in_the_clear import OPERATE, fields, out_in_the_clear  # noqa: E402
from job_counts import counts_of  # noqa: E402
from mutate import CHANGES  # noqa: E402
from random_expressions import random_groups  # noqa: E402
from waits import told  # noqa: E402
from scripts import BY_LAYERS, CIRCUITS, MOST_SECONDS, NODES, NUMBERS, call, expect, expect_one_line, run_cases, write_folder, wrote  # noqa: E402

CUT, SHA, SHA_CIRCUIT = EXAMPLES / 'cut.py', EXAMPLES / 'sha256/job.py', EXAMPLES / 'sha256/sha256_circuit.py'
MUTATED = 300
DIGESTS = 32

# Circuits whose text is shorter are cut in this process, and are computed in the clear.
SMALL = 400_000

# Whether a circuit is of bits, and the bits of its ring.
KINDS = [(True, 1), (False, 8), (False, 32), (False, 64)]


# Random circuits.

# Of a random circuit its file, the numbers that are given for its input values, and those that its output values come to.
Sample = collections.namedtuple('Sample', 'of_bits bits text widths given outputs found')


class Gates:
    """Gates in lines, with the words on their wires."""

    def __init__(self, bits, words):
        self.modulus, self.words, self.lines = 2**bits, words, []

    def add(self, operation, *operands):
        self.lines.append(f'{len(operands)} 1 {" ".join(map(str, operands))} {len(self.words)} {operation}')
        self.words.append(OPERATE[operation](*(operands if operation == 'EQ' else (self.words[wire] for wire in operands))) % self.modulus)


def numbers_on(words, widths, of_bits):
    """The numbers of values on wires with these words."""
    words = iter(words)
    for width in widths:
        its_words = list(itertools.islice(words, width))
        yield [sum(bit << place for place, bit in enumerate(its_words))] if of_bits and width else its_words


def random_circuit(chance, kind, count, widths, outputs, near, odd, products):
    """A circuit of so many gates, of which each reads the one before it. The other wire that it reads is among so many before; but, as often as 'odd' says,
    it is any, or there is a copy or a constant. So many gates are products."""
    of_bits, bits = kind
    gates = Gates(bits, [chance.randrange(2**bits) for _ in range(sum(widths))])
    given = list(numbers_on(gates.words, widths, of_bits))
    add, multiply, invert = ('XOR', 'AND', 'INV') if of_bits else (chance.choice(['ADD', 'SUB']), 'MUL', 'NEG')
    multiplies = {*chance.sample(range(count), products)}
    last, some = len(gates.words) - 1, chance.random
    for number in range(count):
        wires = len(gates.words)
        other = wires - 1 - int(some() * min(near, wires))
        if some() < odd:
            other = chance.randrange(wires)
            kind_of_gate = chance.randrange(4)
            if kind_of_gate < 2 and number < count - 1:
                gates.add(*[('EQ', chance.choice([0, 1, chance.randrange(2**bits)])), ('EQW', other)][kind_of_gate])
                continue
        if number in multiplies:
            gates.add(multiply, last, other)
        elif some() < 0.1:
            gates.add(invert, last)
        else:
            gates.add(add, last, other)
        last = wires
    head = [[count, len(gates.words)], [len(widths), *widths], [len(outputs), *outputs]]
    text = '\n'.join([*(' '.join(map(str, line)) for line in head), *gates.lines]) + '\n'
    found = list(numbers_on(gates.words[len(gates.words) - sum(outputs):], outputs, of_bits))
    return Sample(of_bits, bits, text, widths, given, outputs, found)


def call_program(program, *words):
    done = subprocess.run([program, *words], stdin=subprocess.DEVNULL, capture_output=True, text=True, timeout=MOST_SECONDS)
    expect(done.returncode == 0 and not done.stderr, f'{words}: status {done.returncode}: {done.stderr}')
    return done.stdout


def give(folder, sample, owners):
    """Writes the file of each party, from its numbers in the order of the circuit."""
    job = job_folder.read_job(folder)
    for party in job.parties:
        numbers = [number for given, owner in zip(sample.given, owners) if owner == party for number in given]
        job_folder.write_party(folder, job, party, numbers)
    return job


def expect_cost(program, folder, told):
    """That a job costs what was told of it."""
    lines = re.findall(r'^session (\d+) gates (\d+) products (\d+) rounds \d+ messages (\d+)', told, re.M)
    check = call_program(program, 'check', folder)
    expect(re.findall(r'^session (\d+) gates (\d+) products (\d+) messages (\d+)$', check, re.M) == lines, f'{told} {check}')
    total = re.search(r'^job sessions (\d+) gates (\d+) products (\d+) rounds \d+ messages (\d+) ', told, re.M)
    sums = [sum(map(int, column)) for column in list(zip(*lines))[1:]]
    expect(total and list(map(int, total.groups())) == [len(lines), *sums], told)


def expect_rounds(folder, told):
    """That the gates of each session go in layers, and take the rounds that were told."""
    sessions = counts_of(folder).sessions
    expect(all(session.order == 'layers' for session in sessions), f'{sessions}')
    rounds = re.findall(r'^session \d+ .* rounds (\d+) ', told, re.M)
    expect(list(map(int, rounds)) == [session.rounds for session in sessions], f'{[session.rounds for session in sessions]} rounds are counted: {told}')


def expect_outputs(folder, job, out, sample, readers):
    """That a run writes the numbers of the circuit, one output value after another."""
    found = [(reader, numbers) for _session, _value, reader, numbers in job_folder.read_outputs(job, out.split('\n'))]
    wanted = [(party, numbers) for numbers, its_readers in zip(sample.found, readers) for party in job.parties if party in its_readers]
    expect(found == wanted, f'{folder}: {str(found)[:300]} in place of {str(wanted)[:300]}')


def group_text(names):
    return '+'.join(names) or '0'


def cut_here(file, folder, parties, options):
    """What the script does, without a process of its own."""
    circuit = cut.circuit_in(file, options)
    job = cut.job_of(circuit, list(parties), options)
    job.write(folder)
    return '\n'.join([cut.told_of(circuit), *job.told()])


def expect_other_ways(program, chance, folder, job, sample, readers):
    """That the job writes the same where the products of each session are direct or prepared, in turn or ahead, and its gates go in any order, and costs what is
    counted."""
    fields = job_folder.read_fields(folder)
    sessions = [{**session, 'products': chance.choice(WAYS), 'order': chance.choice(ORDERS)} for session in fields['session']]
    job_folder.write_new(folder, 'job.toml', job_folder.job_text({**fields, 'session': sessions}).encode(), replace=True)
    expect_outputs(folder, job, call_program(program, 'run', folder), sample, readers)
    counted = [sum(session.messages.values()) + session.kept for session in counts_of(folder).sessions]
    found = re.findall(r'^session \d+ gates \d+ products \d+ messages (\d+)$', call_program(program, 'check', folder), re.M)
    expect(list(map(int, found)) == counted, f'{folder}: {counted} messages are counted, and not {found}')


def try_cut(program, top, chance, sample, most, parties=('a', 'b', 'c'), tolerated=(('a',), ('b',), ('c',)), fewest='wires'):
    """Cuts a circuit into sessions of so many gates, and runs the job; a small one is computed in the clear, too."""
    folder, file = os.path.join(top, f'job_{len(os.listdir(top))}'), os.path.join(top, 'circuit')
    pathlib.Path(file).write_text(sample.text, encoding='utf-8')
    owners = chance.choices(parties, k=len(sample.widths))
    readers = [chance.sample(parties, chance.randrange(1, len(parties) + 1)) for _ in sample.outputs]
    options = {'--owners': ','.join(owners), '--readers': ','.join(map(group_text, readers)), '--tolerated': ','.join(map(group_text, tolerated)),
               '--gates': str(most), '--fewest': fewest, **({} if sample.of_bits else {'--bits': str(sample.bits)})}
    small = len(sample.text) < SMALL
    told = cut_here(file, folder, parties, options) if small else wrote(CUT, file, folder, *parties, *itertools.chain(*options.items()), doubts=True)
    job = give(folder, sample, owners)
    expect_cost(program, folder, told)
    expect_outputs(folder, job, call_program(program, 'run', folder), sample, readers)
    if small:
        expect_rounds(folder, told)
        files = {path.name: path.read_bytes() for path in pathlib.Path(folder).iterdir()}
        expect_outputs(folder, job, out_in_the_clear(files), sample, readers)
        expect_other_ways(program, chance, folder, job, sample, readers)
    return told


def small_circuits_come_to_the_same(program, top):
    """In each ring, whole and cut at several sizes, with random parties, groups, owners and readers."""
    chance = random.Random(1)
    for number, kind in enumerate(2 * KINDS):
        count = chance.choice([40, 400, 3_000])
        widths, outputs = [chance.choice([0, 1, 5, 16]) for _ in range(chance.randrange(1, 9))], [chance.choice([0, 1, 3, 9]) for _ in range(chance.randrange(1, 5))]
        widths[0] += 2
        sample = random_circuit(chance, kind, count, widths, outputs, chance.choice([4, 60]), 0.1, count // 8)
        for most in (MOST_GATES, count // 2 + 30, count // 12 + 60):
            parties = ('a', 'b', 'c', 'd', 'e')[:chance.choice([3, 3, 4, 5])]
            try_cut(program, top, chance, sample, most, parties, random_groups(chance, list(parties)) or [()], fewest=chance.choice(['wires', 'rounds']))
        expect(number < 4 or len(os.listdir(top)) > 12, 'too few jobs')


def large_circuits_come_to_the_same(program, top):
    """A circuit that is too large for a session, and one of words that is not."""
    chance = random.Random(2)
    for kind, count, most in [(KINDS[0], 67_000, MOST_GATES), (KINDS[3], 24_000, 5_000)]:
        told = try_cut(program, top, chance, random_circuit(chance, kind, count, [40, 24], [32, 1], 60, 0.01, count // 20), most)
        expect(count < MOST_GATES or f': {count - MOST_GATES} gates' in told.split('\n')[0], told)


def sessions_are_as_few_as_can_be(program, top):
    """Where all gates are needed and none is a copy, they fill all sessions but for what is left over; a gate more takes another session."""
    chance = random.Random(4)
    for count, sessions in [(400, 4), (401, 5)]:
        told = try_cut(program, top, chance, random_circuit(chance, KINDS[1], count, [8, 8], [3], 9, 0, 40), 100)
        expect(f'job sessions {sessions} gates {count} ' in told, told)


def fewest_parts(order, most):
    """The fewest parts into which the gates can be cut in this order, by trying all ways, if there are no more than four."""
    for count in range(1, 5):
        for places in itertools.combinations(range(1, len(order.wires)), count - 1):
            parts = parts_with_values(order.circuit, order.wires, [0, *places, len(order.wires)], order.owners)
            if not any(part.excess(most) for part in parts):
                return count
    return 5


def sessions_are_as_few_as_an_order_lets_them_be(program, top):
    """Where inputs that go on, constants and output values that are copies take room too, no other cut of the same orders has fewer sessions."""
    chance = random.Random(7)
    for number in range(40):
        widths = [chance.randrange(1, 4) for _ in range(chance.randrange(1, 4))]
        kind, outputs, near = KINDS[number % 2], [chance.randrange(1, 3) for _ in range(2)], chance.choice([2, 5, 12])
        sample = random_circuit(chance, kind, chance.randrange(8, 17), widths, outputs, near, chance.choice([0, 0.2, 0.5]), 3)
        circuit, owners = read_circuit(sample.text.encode(), sample.bits, sample.of_bits), [chance.choice('ab') for _ in widths]
        most = max(widths) + chance.randrange(2, 7)
        wires = needed(circuit)
        orders = [Order(circuit, ordered, owners, most)
                  for ordered in (wires, *(depth_first(circuit, results) for results in (circuit.results, circuit.results[::-1])))]
        parts, fewest = cut.cut(circuit, owners, most, 'wires'), min(fewest_parts(order, most) for order in orders)
        found = len(parts) if not any(part.excess(most) for part in parts) else 6
        expect(found <= fewest or fewest > 4, f'{sample.text}\nat most {most} gates: {found} sessions, where {fewest} would do')


def rounds_are_few(program, top):
    """Cut by layers, a circuit takes no more rounds than its depth, two, and one for each session; cut where few wires live, it takes more."""
    numbers, width, told = 16, 16, {}
    text, chance = circuit_file('greatest', [str(numbers), str(width)]), random.Random(11)
    given = [[chance.randrange(2**width)] for _ in range(numbers)]
    sample = Sample(True, 1, text, [width] * numbers, given, [width], [max(given)])
    for fewest in ('wires', 'rounds'):
        told[fewest] = try_cut(program, top, chance, sample, 500, fewest=fewest)
    found = {fewest: list(map(int, re.search(r'job sessions (\d+) .* rounds (\d+) .* carried (\d+) depth (\d+)', text).groups())) for fewest, text in told.items()}
    sessions, rounds_in_layers, carried, depth = found['rounds']
    expect(depth + 2 <= rounds_in_layers <= depth + 2 + sessions and rounds_in_layers < found['wires'][1] and carried > found['wires'][2], f'{found}')


def cuts_are_the_best(program, top):
    """Of all ways to cut a few gates into parts of some sizes the one with the fewest wires."""
    chance = random.Random(10)
    for _ in range(400):
        gates, sizes = chance.randrange(10), [chance.randrange(1, 6) for _ in range(chance.randrange(1, 5))]
        live, least = [chance.randrange(5) for _ in range(gates)] + [0], int(gates >= len(sizes))
        ways = [[0, *cuts, gates] for cuts in itertools.combinations_with_replacement(range(gates + 1), len(sizes) - 1)]
        ways = [cuts for cuts in ways if all(least <= last - first <= size for size, (first, last) in zip(sizes, itertools.pairwise(cuts)))]
        found = best_cuts(live, sizes)
        expect(bool(found) == bool(ways), f'{live} {sizes}: {found}')
        if found:
            costs = [sum(live[place] for place in cuts[1:-1]) for cuts in ways]
            expect(found[0] == min(costs) and found in zip(costs, ways), f'{live} {sizes}: {found}')


def few_wires_live_where_it_is_cut(program, top):
    """Blocks of gates that hand on a single wire are cut behind a block, also where the file has the gates of all blocks in turn."""
    blocks, size, lines = 6, 90, []
    order = [(block, place) for block in range(blocks) for place in range(size)]
    for name, order in [('block', order), ('turn', sorted(order, key=lambda pair: (pair[1], pair[0])))]:
        lines, names = [], {}
        for block, place in order:
            # A block has inputs of its own, and its last gate reads the last one of the block before it.
            first = 20 * block
            reads = [names.get((block, place - 1), first), first + 1 + place % 19]
            if place == size - 1 and block and (block - 1, place) in names:
                reads[1] = names[block - 1, place]
            names[block, place] = 20 * blocks + len(lines)
            lines.append(f'2 1 {reads[0]} {reads[1]} {names[block, place]} XOR')
        file = os.path.join(top, name)
        head = f'{len(lines)} {20 * blocks + len(lines)}\n{blocks} {" ".join(["20"] * blocks)}\n1 1\n'
        pathlib.Path(file).write_text(head + '\n'.join(lines) + '\n', encoding='utf-8')
        told = wrote(CUT, file, file + '_job', *'abcdef', '--gates', 2 * size)
        expect('job sessions 3 gates 540 products 0 rounds 4 ' in told and ' carried 2 ' in told, told)


# What is refused.

def faults_are_those_of_the_rows(program, top):
    """A circuit is refused with the words of the rows, but that it is too large."""
    for row in CIRCUIT_FAULTS + CIRCUIT_FILES:
        files, due = row.files(), re.fullmatch(r'refused circuit (.*) file=mul\.txt session=0(.*)\n', row.err)
        if 'mul.txt' not in files or due and due[1] == '7 TooLarge' and 'line=1' in due[2]:
            continue
        job, [session] = fields(files['job.toml'])
        try:
            read_circuit(files['mul.txt'], job['ring_bits'], session['layout'] == 'bristol')
            found = ''
        except job_folder.Refusal as refusal:
            found = str(refusal)
        expect(found == (due[1] + due[2] if due else ''), f'{row.name}: {found!r} in place of {row.err!r}')


def changed_circuits_are_read_as_the_program_reads_them(program, top):
    """What 'check' refuses of a changed circuit is refused with the same words, and what it takes is read."""
    chance = random.Random(5)
    texts = [random_circuit(chance, kind, 12, [2, 1], [1, 2], 9, 0.3, 3).text.encode() for kind in KINDS[:2]]
    for _ in range(MUTATED):
        of_bits = chance.randrange(2)
        text = chance.choice(CHANGES)(texts[1 - of_bits], chance)
        layout = {'circuit': 'c.txt', 'layout': 'bristol' if of_bits else 'ring', 'owners': ['a', 'a'], 'readers': [['a'], []]}
        job = {'version': 1, 'ring_bits': 1 if of_bits else 8, 'parties': ['a'], 'formula': 'a', 'session': [layout]}
        folder = write_folder(top, {'c.txt': text, 'job.toml': job_folder.job_text(job).encode()})
        done = subprocess.run([program, 'check', folder], capture_output=True, text=True, timeout=MOST_SECONDS)
        due = re.fullmatch(r'refused circuit (.*) file=c\.txt session=0(.*)\n', done.stderr)
        try:
            read_circuit(text, job['ring_bits'], bool(of_bits))
            found = ''
        except job_folder.Refusal as refusal:
            found = str(refusal)
        too_large = due and due[1] == '7 TooLarge'
        expect(too_large or done.stderr.startswith('refused files') or found == (due[1] + due[2] if due else ''), f'{text[:300]!r}: {found!r} in place of {done.stderr!r}')


def wide(inputs, outputs, gates):
    """The file of a circuit of bits with values of these widths, whose first gates copy what the input wire of the same number has, in a sum with the first."""
    lines = [f'2 1 0 {wire % sum(inputs)} {sum(inputs) + wire} XOR' for wire in range(gates)]
    return '\n'.join([f'{gates} {sum(inputs) + gates}', ' '.join(map(str, [len(inputs), *inputs])), ' '.join(map(str, [len(outputs), *outputs])), *lines]) + '\n'


def limits_are_told(program, top):
    """A circuit past a limit is refused in one line that tells the limit and by how much, and nothing is written."""
    chance, parties = random.Random(6), ['a', 'b', 'c']
    chain = random_circuit(chance, KINDS[0], 170, [4], [1], 4, 0, 10).text
    folder = os.path.join(top, 'job')
    for text, words, line in [
            (chain, [*parties, '--gates', '10'], 'the limit of 160 gates of 16 sessions by 10'),
            (wide([131_073], [1], 1), parties, 'the limit of 131072 wires of a session by 2'),
            (wide([1] * 1_100, [1], 1), [*parties, '--owners', ','.join(['a'] * 1_100)], 'the limit of 1024 input values of a session by 76'),
            (wide([2], [1] * 1_030, 0).replace('0 2', '0 1032'), parties, 'circuit: 15 OutputNotSet wire=2'),
            (wide([100_000, 31_000], [20], 20), 'abcdefghij', 'the limit of 1048576 messages by '),
            (wide([131_000], [20], 20), [*'abcdefghi', '--readers', '0'], 'the limit of 1048576 messages by '),
            (chain, ['a', 'b'], 'a and b are all parties'), (chain, ['a', 'a', 'b'], 'a name stands twice'), (chain, ['a', 'b', 'of'], 'is no name: a letter'),
            (chain, [*'abcdefghijklm'], 'a job has 1 to 12 parties'), (chain, [*parties, '--tolerated', 'a+b,c'], 'a+b and c are all parties'),
            (chain, [*parties, '--tolerated', 'a+x'], "'a+x' is no group"), (chain, [*parties, '--owners', 'x'], "'x' is no party"),
            (chain, [*parties, '--owners', 'a,b'], 'there are 2 owners'), (chain, [*parties, '--readers', 'a,b'], 'there are 2 groups of readers'),
            (chain, [*parties, '--readers', 'a+x'], "'x' is no party"), (chain, [*parties, '--readers', 'a+a'], 'a reader stands twice'), (wide([1] * 4, [1], 4), parties, 'the circuit has 4 input values'),
            (chain, [*parties, '--gates', '65537'], '--gates is a number from 1 to 65536'), (chain, [*parties, '--bits', '0'], '--bits is a number from 1'),
            (chain, [*parties, '--fewest', 'gates'], "--fewest is wires or rounds, and not 'gates'"),
            (chain, [*parties, '--bits', '8'], f'{top}/circuit: 9 UnknownOperation line=4'), ('', parties, f'{top}/circuit: 5 FewLines found=0')]:
        pathlib.Path(top, 'circuit').write_text(text, encoding='utf-8')
        try:
            cut.main([os.path.join(top, 'circuit'), folder, *words])
            found = ''
        except job_folder.Refusal as refusal:
            found = str(refusal)
        expect(line in found and found.isprintable() and len(found) < 300, f'{words[:9]}: {found!r} does not say {line!r}')
        expect(not os.path.exists(folder), f'{words[:9]}: it wrote a folder')
    expect_one_line(call(CUT, os.path.join(top, 'circuit'), folder, *parties), 'cut.py of an empty file', 'cut.py: ')
    expect_one_line(call(CUT, os.path.join(top, 'none'), folder, *parties), 'cut.py of no file', 'cut.py: ')
    pathlib.Path(top, 'circuit').write_text(chain, encoding='utf-8')
    wrote(CUT, os.path.join(top, 'circuit'), folder, *parties)
    expect_one_line(call(CUT, os.path.join(top, 'circuit'), folder, *parties), 'cut.py into a folder that has a job', 'cut.py: ')


def many_values_are_carried(program, top):
    """More values than a session takes: input values that are first read in several sessions, and wires that any set of later sessions need."""
    chance = random.Random(7)
    lines, wires, count = [], 1_500, 3_000
    for gate in range(count):
        lines.append(f'2 1 {wires + gate - 1 if gate else 0} {gate // 2} {wires + gate} XOR')
    text = f'{count} {wires + count}\n{wires}{" 1" * wires}\n1 1\n' + '\n'.join(lines) + '\n'
    sample = Sample(True, 1, text, [1] * wires, [[chance.randrange(2)] for _ in range(wires)], [1], None)
    try_cut(program, top, chance, sample._replace(found=[[sample.given[0][0]]]), 1_700)
    for inputs, outputs in [([1] * 1_100, [1_100]), ([1_100], [1] * 1_100)]:
        text, words = wide(inputs, outputs, 1_100), [chance.randrange(2) for _ in range(1_100)]
        given, found = (list(numbers_on(its_words, widths, True)) for its_words, widths in ((words, inputs), ([word ^ words[0] for word in words], outputs)))
        told = try_cut(program, top, chance, Sample(True, 1, text, inputs, given, outputs, found), MOST_GATES)
        expect('job sessions 2 ' in told, told)
    sample = random_circuit(chance, KINDS[1], 6_000, [8], [4], 6_000, 0.5, 0)
    told = try_cut(program, top, chance, sample, 400)
    expect(int(re.search(r'carried (\d+) depth', told)[1]) > 2_000, told)


def others_point_at_it(program, top):
    """A circuit that is too large for a session is told where to be cut."""
    file, folder = os.path.join(top, 'circuit'), os.path.join(top, 'job')
    done = call(CIRCUITS, 'equal', '22000')
    expect(done.returncode == 0 and done.stderr.startswith(b'circuits.py: the circuit has ') and done.stderr.endswith(b': examples/cut.py cuts it\n'), f'{done.stderr}')
    pathlib.Path(file).write_bytes(done.stdout)
    expect_one_line(call(CIRCUITS, 'job', folder, 'equal', '22000', 'a', 'b', 'c'), 'circuits.py job', 'circuits.py: the circuit has ')
    done = call(BY_LAYERS, file, program)
    expect_one_line(done, 'by_layers.py', 'by_layers.py: refused circuit 7 TooLarge ')
    expect(done.stderr.endswith(b': examples/cut.py cuts it into sessions\n'), f'{done.stderr}')
    wrote(CUT, file, folder, 'a', 'b', 'c')
    for party, numbers in [('a', [3**9_000]), ('b', [3**9_000]), ('c', [])]:
        wrote(NUMBERS, 'write', folder, party, *numbers)
    found = wrote(NUMBERS, 'read', folder, given=call_program(program, 'run', folder))
    expect(re.fullmatch(r'(session 1 value 0: [ab] reads 1\n){2}', found), found)


# Digests.

class Flat:
    """The depth of each wire."""

    def __getitem__(self, wire):
        return 0


class InTheClear(Circuit):
    """What the circuit's maker has as a circuit: but a wire is a number, which has a bit for each of many messages."""

    def __init__(self):
        self.zero, self.one, self.depths = 0, 2**DIGESTS - 1, Flat()

    def differ(self, a, b):
        return a ^ b

    def both(self, a, b):
        return a & b


def digests_are_pythons(program, top):
    """In the clear, of random messages of 0 to 119 bytes, by both adders."""
    chance, c = random.Random(8), InTheClear()
    lengths = [0, 55, 56, 64, 119, *chance.sample(range(120), 3)]
    for length, adder in [*((length, sha256_circuit.Tree()) for length in lengths), *((length, sha256_circuit.Chain()) for length in (0, 56))]:
        messages = [chance.randbytes(length) for _ in range(DIGESTS)]
        wires = [[sum((message[place] >> bit & 1) << number for number, message in enumerate(messages)) for bit in range(8)] for place in range(length)]
        bits = sha256_circuit.digest(c, adder, wires)
        for number, message in enumerate(messages):
            found = sum((wire >> number & 1) << place for place, wire in enumerate(bits))
            expect(f'{found:064x}' == hashlib.sha256(message).hexdigest(), f'{message.hex()}: {found:064x}')


def expect_digest(folder, out, *parts):
    found = wrote(SHA, 'read', folder, given=out)
    expect(found == f'register reads {hashlib.sha256(b"".join(parts)).hexdigest()}\n', f'{[part.hex() for part in parts]}: {found}')


def give_parts(folder, *parts):
    """Writes the files of the clinic and of the lab anew."""
    job = job_folder.read_job(folder)
    for party, part in zip(job.parties, parts):
        job_folder.write_party(folder, job, party, [int.from_bytes(part, 'big')] if part else [], replace=True)


def digests_of_jobs_are_pythons(program, top):
    """Of random parts of 0 to 119 bytes together, by runs, at the cost that is told: of no byte, and of two blocks."""
    chance = random.Random(9)
    for number, (first, second, words) in enumerate([(0, 0, []), (61, 58, ['--chain'])]):
        folder = os.path.join(top, str(number))
        parts = [chance.randbytes(first), chance.randbytes(second)]
        expect_cost(program, folder, wrote(SHA, 'make', folder, *(part.hex() for part in parts), *words))
        expect_digest(folder, call_program(program, 'run', folder), *parts)
        parts = [chance.randbytes(first), chance.randbytes(second)]
        give_parts(folder, *parts)
        expect_digest(folder, call_program(program, 'run', folder), *parts)


def a_digest_by_nodes_with_an_audit(program, top):
    """A digest of one block by runs and by nodes over loopback; what the clinic sees of two runs whose other part differs is the same; a view is audited."""
    folder, parts = os.path.join(top, 'job'), [b'a record of a clinic', b'findings']
    expect_cost(program, folder, wrote(SHA, 'make', folder, *(part.hex() for part in parts)))
    expect_digest(folder, wrote(NODES, 'run', folder, program), *parts)
    out = call_program(program, 'run', folder, '--view', 'register')
    expect_digest(folder, out, *parts)
    view = out[out.index('view register\n'):]
    pathlib.Path(folder, 'view.txt').write_text(view, encoding='utf-8')
    expect(call_program(program, 'audit', folder) == f'yes {view.count(chr(10)) - 1}\n', 'the view is not of the run')
    other = b'other of'
    bits = ' '.join(str(int.from_bytes(other, 'big') >> place & 1) for place in range(8 * len(other)))
    texts = [bits if 'lab' in session.owners else '' for session in job_folder.read_job(folder).sessions]
    pathlib.Path(folder, 'other.toml').write_text(f'version = 1\n[inputs]\nlab = {json.dumps(texts)}\n', encoding='utf-8')
    out = call_program(program, 'pair', folder, '--group', 'clinic')
    first, second = out.removeprefix('first\n').split('second\n')
    views = [text[text.index('view clinic\n'):].partition('tape ')[0] for text in (first, second)]
    expect(len(views[0]) > 1_000_000 and views[0] == views[1], 'the clinic sees something else')
    expect_digest(folder, first.partition('view')[0], *parts)
    expect_digest(folder, second.partition('view')[0], parts[0], other)


def words_are_refused(program, top):
    for words in [['0', '00'], ['٣٣', '00'], ['00' * 1_025, '00']]:
        expect_one_line(call(SHA, 'make', os.path.join(top, 'none'), *words), f'job.py make {[word[:9] for word in words]}', 'job.py: ')
    expect(not os.listdir(top), f'{os.listdir(top)}')
    for words in [['1025', '0'], ['٣', '0']]:
        expect_one_line(call(SHA_CIRCUIT, *words), f'sha256_circuit.py {words}', 'sha256_circuit.py: ')
    expect_one_line(call(SHA, 'read', EXAMPLES / 'multiply', given='out 0 0 c 35\n'), 'job.py read of another job', 'job.py: ')
    for words in [['c', 'f'], ['c', 'f', '--bits', '8'], ['c', 'f', 'a', '--bits'], ['c', 'f', 'a', '--bit', '8'], ['c', 'f', 'a', '--bits', '8', 'b'],
                  ['c', 'f', 'a', '--bits', '8', '--bits', '8']]:
        with contextlib.redirect_stderr(io.StringIO()) as told:
            expect(cut.main(words) == 2 and told.getvalue().startswith('    examples/cut.py CIRCUIT'), f'cut.py {words}')
    for script, words in [(CUT, []), (SHA, ['make', 'f', '00']), (SHA, ['make', 'f', '--chain']), (SHA_CIRCUIT, ['5', '5', '--chains'])]:
        done = call(script, *words)
        expect(done.returncode == 2 and not done.stdout and f'{script.name} '.encode() in done.stderr, f'{script.name} {words}: {done}')
    for script in (CUT, SHA, SHA_CIRCUIT):
        expect(script.name in wrote(script, '--help') and os.access(script, os.X_OK), f'no help of {script.name}, or it is no program')
    for words in ['{} -B {} 3 4 --chain | head -c 10', '{} -B {} 0 0 >&-', '{} -B {} 0 0 > /dev/full']:
        done = subprocess.run(words.format(sys.executable, SHA_CIRCUIT), shell=True, capture_output=True, timeout=MOST_SECONDS)
        expect(done.stderr.count(b'\n') <= 1 and b'Traceback' not in done.stderr, f'{words}: {done.stderr[-200:]!r}')


CASES = [digests_of_jobs_are_pythons, a_digest_by_nodes_with_an_audit, large_circuits_come_to_the_same, small_circuits_come_to_the_same,
         sessions_are_as_few_as_can_be, sessions_are_as_few_as_an_order_lets_them_be, rounds_are_few, cuts_are_the_best, few_wires_live_where_it_is_cut, faults_are_those_of_the_rows, changed_circuits_are_read_as_the_program_reads_them, limits_are_told,
         many_values_are_carried, others_point_at_it, digests_are_pythons, words_are_refused]


def main(words):
    if len(words) != 2:
        sys.exit('usage: cuts.py PROGRAM')
    program = shutil.which(os.path.abspath(words[1]))
    if not program:
        sys.exit(f'cuts: there is no program {words[1]}')
    return run_cases('cuts', CASES, program)


if __name__ == '__main__':
    sys.exit(told(main))
