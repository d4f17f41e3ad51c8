#!/usr/bin/env python3
"""Holds nodes to the order of their instructions: rounds.py PROGRAM

Two nodes and a party that goes one slot after another end a job together, each with its outputs. A node whose peer stops after any byte of what it
says has said a first part of what it is to say, and all that stands before the first word that it then waits for: the posts of a whole batch of
slots, and those of the batches before. So three products that need not wait for one another are posted before a word of the first is there. Both
hold of named and of short frames. And the nodes of jobs with direct sessions and prepared ones, in turn and ahead, and of AES-128 with its gates in layers take as many
rounds on the wire as examples/job_counts.py counts, AES-128 no more than 46: this needs a C compiler (bench/relay.py), and is left out, and told so, where
there is none. Ends with status 1, and tells why, where a node does otherwise.
"""

import contextlib
import itertools
import os
import pathlib
import re
import shutil
import socket
import subprocess
import sys
import tempfile

TOP = pathlib.Path(__file__).resolve().parent.parent
sys.path[1:1] = [str(TOP / 'bench'), str(TOP / 'examples'), str(TOP / 'examples/network')]
import nodes  # noqa: E402
from by_layers import IN_LAYERS, read_circuit  # noqa: E402
from job_counts import counts_of  # noqa: E402
from job_folder import read_fields  # noqa: E402
from peers import Peers  # noqa: E402
from relay import Steps  # noqa: E402
from waits import MOST_SECONDS, told  # noqa: E402

HELLO = 38
FORMS = ['named', 'short']

# Jobs of which rounds are counted on the wire, and how often, since a busy machine makes one more of one.
COUNTED = ['network', 'prepared', 'prepared/direct', 'prepared/ahead', 'prepared/mixed', 'running_total']
TRIES = 5

# AES-128 of a key and a block, and the most rounds that it may take.
AES = ['2b7e151628aed2a6abf7158809cf4f3c', '3243f6a8885a308d313198a2e0370734']
MOST_ROUNDS = 46

# Three products that need none of one another, one that needs two of them, and a sum that needs it: the batches begin in slots 0, 3, 6 and 7.
CIRCUIT = '5 8\n3 1 1 1\n1 1\n2 1 0 1 3 MUL\n2 1 1 2 4 MUL\n2 1 0 2 5 MUL\n2 1 3 4 6 MUL\n2 1 5 6 7 ADD\n'
JOB = '''version = 2
ring_bits = 16
parties = ["a", "b", "c"]
tolerated = [["a"], ["b"], ["c"]]
[[session]]
circuit = "circuit.txt"
layout = "ring"
owners = ["a", "b", "c"]
readers = [["a", "b", "c"]]
'''


class Wrong(Exception):
    """A node that did otherwise."""


def expect(holds, text):
    if not holds:
        raise Wrong(text)


def write_job(folder):
    """Writes the job of four products."""
    os.mkdir(folder)
    texts = {'job.toml': JOB, 'circuit.txt': CIRCUIT}
    texts |= {f'party_{name}.toml': f'version = 1\ninputs = ["{value}"]\nseed = "{number:064x}"\n' for number, (name, value) in enumerate([('a', 3), ('b', 5), ('c', 7)])}
    for name, text in texts.items():
        pathlib.Path(folder, name).write_text(text, encoding='utf-8')
    return folder


def split(job, folder, form):
    """Writes a folder for each party, with ports that are free here and frames of this form."""
    return nodes.split(job, folder, [nodes.HERE] * 3, nodes.free_port(3), True, {'frames': form})


def join(folder, names, whole):
    """Writes a folder with the files of all parties."""
    os.mkdir(whole)
    for name in names:
        for file in os.listdir(os.path.join(folder, name)):
            pathlib.Path(whole, file).write_bytes(pathlib.Path(folder, name, file).read_bytes())
    return whole


def lines_of(program, job, name):
    """What a party's node must write."""
    out = subprocess.run([program, 'run', job], check=True, capture_output=True, text=True).stdout
    return ''.join(line for line in out.splitlines(keepends=True) if line.split()[3] == name)


def read_exactly(link, count):
    found = b''
    while len(found) < count:
        piece = link.recv(count - len(found))
        expect(piece, f'a node ended after {len(found)} of {count} bytes')
        found += piece
    return found


def go_slot_by_slot(program, folder, job, name):
    """Plays a party one slot after another: of each slot it posts its messages, and then takes those of the others. What it keeps for itself
    goes nowhere."""
    party = Peers(program, job, name)
    with contextlib.ExitStack() as stack:
        links, says = {}, {}
        listeners = {peer: stack.enter_context(socket.create_server((nodes.HERE, party.port + 12 * party.me + peer))) for peer in party.others}
        for peer in party.others:
            says[peer] = stack.enter_context(connected((nodes.HERE, party.port + 12 * peer + party.me)))
        for peer in party.others:
            says[peer].sendall(party.due[peer][:HELLO])
            listeners[peer].settimeout(MOST_SECONDS)
            links[peer] = stack.enter_context(listeners[peer].accept()[0])
            links[peer].settimeout(MOST_SECONDS)
            expect(read_exactly(links[peer], HELLO) == party.talk(peer, party.me)[:HELLO], f'{party.names[peer]} says another hello')
        for message in by_slots(party.messages, name):
            frame, (_, slot, _, sender, receiver, _) = party.frame(*message), message
            if sender == name != receiver:
                says[party.names.index(receiver)].sendall(frame)
            elif sender != name:
                expect(read_exactly(links[party.names.index(sender)], len(frame)) == frame, f'{sender} says another frame in slot {slot}')


def by_slots(messages, name):
    """A party's messages slot by slot, of each slot those that it sends first."""
    return sorted(messages, key=lambda message: (int(message[0]), int(message[1]), message[3] != name))


def connected(place):
    """A connection to a node that may not be there yet."""
    for _ in range(MOST_SECONDS * 1_000):
        try:
            return socket.create_connection(place, timeout=MOST_SECONDS)
        except OSError:
            pass
    raise Wrong(f'nobody listens at {place}')


def parties_of_both_orders(program, top, job, form):
    """Two nodes and a party of the other order end together."""
    folder = os.path.join(top, f'split_{form}')
    names = split(job, folder, form)
    slow = names[-1]
    running = {name: subprocess.Popen([program, 'node', os.path.join(folder, name), name], stdin=subprocess.DEVNULL, stdout=subprocess.PIPE,
                                      stderr=subprocess.PIPE, text=True) for name in names[:-1]}
    try:
        go_slot_by_slot(program, folder, join(folder, names, os.path.join(top, f'whole_{form}')), slow)
        for name, node in running.items():
            out, err = node.communicate(timeout=MOST_SECONDS)
            expect(node.returncode == 0 and out == lines_of(program, job, name), f'{name} ended with status {node.returncode}: {err or out}')
    finally:
        for node in running.values():
            node.kill()


def rounds_on_the_wire(program, top, job):
    """How often the nodes of a job wait for one another."""
    names = split(job, top, 'short')
    port = read_fields(os.path.join(top, names[0]))['port']
    with Steps([port + 12 * q + p for q, p in itertools.permutations(range(3), 2)], top) as steps:
        running = [subprocess.Popen([program, 'node', os.path.join(top, name), name], stdin=subprocess.DEVNULL, stdout=subprocess.PIPE,
                                    stderr=subprocess.PIPE, text=True, env=steps.environment) for name in names]
        steps.processes = [node.pid for node in running]
        for name, node in zip(names, running):
            out, err = node.communicate(timeout=MOST_SECONDS)
            expect(node.returncode == 0 and out == lines_of(program, job, name), f'{name} ended with status {node.returncode}: {err or out}')
    return steps.count


def nodes_take_their_rounds(program, job):
    """The least of some runs is what is counted of the job, and none is less."""
    wanted, found = sum(session.rounds for session in counts_of(job).sessions), []
    while len(found) < TRIES and wanted not in found:
        with tempfile.TemporaryDirectory() as top:
            found.append(rounds_on_the_wire(program, top, job))
    expect(min(found) == wanted, f'{job}: rounds {found} on the wire, and not {wanted}')


def aes_takes_few_rounds(program):
    """By the field of its session alone, over the file as it is made."""
    with tempfile.TemporaryDirectory() as top:
        job = os.path.join(top, 'aes')
        subprocess.run([sys.executable, TOP / 'examples/aes/job.py', 'make', job, *AES], check=True, stdin=subprocess.DEVNULL)
        [session] = counts_of(job).sessions
        expect(session.order == IN_LAYERS and session.rounds <= MOST_ROUNDS, f'AES-128 takes {session.rounds} rounds with its gates in the order {session.order}')
        nodes_take_their_rounds(program, job)


def batch_of_slots(job):
    """The first slot of the batch of each slot: a slot begins one where it reads a wire that an input or a product of the batch before it sets."""
    head, gates = read_circuit(pathlib.Path(job, 'circuit.txt').read_bytes())
    inputs, outputs = (sum(map(int, line[1:])) for line in head[1:])
    wires = int(head[0][1])
    slots = [([], {wire}) for wire in range(inputs)] + [(gate.reads, {gate.sets} if gate.multiplies else set()) for gate in gates]
    slots += [([wire], set()) for wire in range(wires - outputs, wires)]
    first, pending, found = 0, set(), []
    for slot, (reads, completes) in enumerate(slots):
        if not pending.isdisjoint(reads):
            first, pending = slot, set()
        pending |= completes
        found.append(first)
    return found


class CutPeers(Peers):
    """Peers of whom one stops after so many bytes."""

    def __init__(self, program, folder, name, odd, count):
        super().__init__(program, folder, name)
        self.odd, self.count = odd, count

    def say(self, peer):
        if peer != self.odd:
            return super().say(peer)
        with connected((nodes.HERE, self.port + 12 * self.me + peer)) as link:
            link.sendall(self.talk(peer, self.me)[:self.count])

    def least(self, peer, batches):
        """How many bytes the party must have said to a peer: its hello, and each message of a batch before whose end no word is missing."""
        held = (self.count - HELLO) // self.frame_bytes if self.count >= HELLO else 0
        missing = [int(message[1]) for message in self.messages if message[3:5] == [self.names[self.odd], self.names[self.me]]][max(held, 0):]
        last = batches[missing[0]] if missing else len(batches)
        mine = [message for message in self.messages if message[3:5] == [self.names[self.me], self.names[peer]] and batches[int(message[1])] <= last]
        return HELLO + self.frame_bytes * len(mine)


def nodes_are_cut(program, top, job, form):
    """What a node has said whose peer stops after any byte."""
    folder = os.path.join(top, f'cut_{form}')
    names = split(job, folder, form)
    whole = join(folder, names, os.path.join(top, f'all_{form}'))
    batches, runs = batch_of_slots(job), 0
    for odd in (1, 2):
        length = len(Peers(program, whole, 'a').talk(odd, 0))
        for count in range(length):
            with CutPeers(program, whole, 'a', odd, count) as peers:
                done = subprocess.run([program, 'node', os.path.join(folder, 'a'), 'a'], stdin=subprocess.DEVNULL, capture_output=True, text=True, timeout=MOST_SECONDS)
            at = f'{form} frames: {names[odd]} stops after {count} bytes'
            expect(done.returncode == 5 and not done.stdout and re.fullmatch(f'fault closed peer={names[odd]} at={count}\n', done.stderr), f'{at}: {done}')
            for peer in peers.others:
                heard, due = peers.heard[peer], peers.due[peer]
                expect(due.startswith(heard), f'{at}: the node says something else to {names[peer]}')
                expect(len(heard) >= peers.least(peer, batches), f'{at}: the node said {len(heard)} bytes to {names[peer]}, not {peers.least(peer, batches)}')
            runs += 1
    return runs


def main(words):
    if len(words) != 2:
        sys.exit('usage: rounds.py PROGRAM')
    program = os.path.abspath(words[1])
    if not os.access(program, os.X_OK):
        sys.exit(f'rounds: there is no program {words[1]}')
    try:
        with tempfile.TemporaryDirectory() as top:
            job = write_job(os.path.join(top, 'job'))
            expect(batch_of_slots(job) == [0, 0, 0, 3, 3, 3, 6, 7, 7], f'other batches: {batch_of_slots(job)}')
            runs = sum(nodes_are_cut(program, top, job, form) for form in FORMS)
            for form in FORMS:
                parties_of_both_orders(program, top, job, form)
        for example, form in itertools.product(['network', 'prepared/mixed', 'running_total'], FORMS):
            with tempfile.TemporaryDirectory() as top:
                parties_of_both_orders(program, top, str(TOP / 'examples' / example), form)
        for example in COUNTED if shutil.which('cc') else []:
            nodes_take_their_rounds(program, str(TOP / 'examples' / example))
        if shutil.which('cc'):
            aes_takes_few_rounds(program)
    except (Wrong, OSError, subprocess.SubprocessError) as wrong:
        print(f'rounds: NOT AS EXPECTED: {wrong}')
        return 1
    counted = f'the rounds of {len(COUNTED)} jobs and of AES-128 on the wire' if shutil.which('cc') else 'no rounds on the wire, for want of cc'
    print(f'rounds: {runs} nodes whose peer stops, parties of both orders, and {counted}: as expected')
    return 0


if __name__ == '__main__':
    sys.exit(told(main))
