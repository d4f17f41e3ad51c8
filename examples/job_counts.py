"""What a job costs, session by session: gates, products and their depth, the messages between each two parties, and rounds of nodes."""

import collections
import os

from by_layers import DIRECT, IN_FILE, IN_LAYERS, ORDERS, WAYS, in_layers, layers, read_circuit, rounds_apart
from circuit_reader import read_circuit as checked_circuit
from expression_reader import compiled
from job_folder import BITS, CARRIED, NUMBERS, Refusal, need, read_bytes, read_fields
from job_folder import read_job as read_whole_job
from number_circuit import compiled as compiled_program
from number_reader import Fault
from summands import Sharing, tolerated_of

# Of a session: the name of its file, its layout, how its products are computed, in which order its gates go, how many values each party gives, who reads
# how many, from which sessions how many wires are carried, its gates, its products, how many of these stand on the longest path, its rounds before the
# inputs, and all of them; the messages by sender and receiver, and those that stay with their party, of wires that later sessions carry.
SessionCounts = collections.namedtuple('SessionCounts', 'file layout way order gives reads carries gates products depth before rounds messages kept')

# A job: its sharing, and its sessions.
JobCounts = collections.namedtuple('JobCounts', 'sharing sessions')


# The circuit that a text stands for, in the layouts of texts.
COMPILED = {'expr': compiled, NUMBERS: lambda data, bits: compiled_program(data)}


def way_of(session):
    """How the products of a session are computed."""
    return session.get('products', DIRECT)


def order_of(session):
    """In which order the gates of a session go: those of programs of numbers always in layers."""
    order = session.get('order', IN_FILE)
    return IN_LAYERS if session['layout'] == NUMBERS and order == IN_FILE else order


def gates_of(folder, fields, session):
    """The head and the gates of a session's circuit, in the order in which they go."""
    data, bits, layout = read_bytes(folder, session['circuit']), fields['ring_bits'], session['layout']
    try:
        if layout in COMPILED:
            data = COMPILED[layout](data, bits).encode()
        checked_circuit(data, bits, layout in (BITS, NUMBERS))
    except (Refusal, Fault) as fault:
        raise Refusal(f'{os.path.join(folder, session["circuit"])}: {fault}') from None
    head, gates = read_circuit(data)
    return head, in_layers(gates) if order_of(session) == IN_LAYERS else gates


def carried_values(fields, number):
    """The values of a session that later ones carry, as often as they do."""
    for session in fields['session'][number + 1:]:
        for owner in session['owners']:
            if (found := CARRIED.fullmatch(owner)) and int(found[1]) == number:
                yield int(found[2])


def messages_of(sharing, session, job, products, way):
    """The messages of a session between each two parties."""
    found = collections.Counter()

    def add(pairs, times):
        for pair in pairs:
            found[pair] += times

    for owner, width in zip(session.owners, session.inputs):
        if owner in job.parties:
            add(sharing.deal(owner), width)
    add(sharing.product() if way == DIRECT else sum(sharing.prepared(), []), products)
    for readers, width in zip(session.readers, session.outputs):
        add(sharing.opening(readers), width)
    return found


def session_counts(folder, fields, job, sharing, number):
    """The counts of a session."""
    written, session = fields['session'][number], job.sessions[number]
    head, gates = gates_of(folder, fields, written)
    way = way_of(written)
    gives, reads, carries = collections.Counter(), collections.Counter(), collections.Counter()
    for owner, width in zip(session.owners, session.inputs):
        found = CARRIED.fullmatch(owner)
        if found:
            carries[int(found[1])] += width
        else:
            gives[owner] += 1
    for readers in session.readers:
        reads.update(readers)
    products = sum(gate.multiplies for gate in gates)
    kept = sum(session.outputs[value] for value in carried_values(fields, number)) * sharing.of_carried()
    given, read = [owner in job.parties for owner in session.owners], [any(sharing.opening(readers)) for readers in session.readers]
    before, then = rounds_apart(head, gates, given, read, way) if len(job.parties) > 1 else (0, 0)
    return SessionCounts(written['circuit'], written['layout'], way, order_of(written), gives, reads, carries, len(gates), products, layers(gates)[1], before,
                         before + then, messages_of(sharing, session, job, products, way), kept)


def counts_of(folder):
    """The counts of a job's folder."""
    fields, job = read_fields(folder), read_whole_job(folder)
    sharing = Sharing(fields['parties'], tolerated_of(fields))
    for name, found, known in [('products', way_of, WAYS), ('order', order_of, ORDERS)]:
        need(all(found(session) in known for session in fields['session']), f'{os.path.join(folder, "job.toml")}: {name} is none of {", ".join(known)}')
    return JobCounts(sharing, [session_counts(folder, fields, job, sharing, number) for number in range(len(job.sessions))])
