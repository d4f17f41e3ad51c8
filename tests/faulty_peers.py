#!/usr/bin/env python3
"""Runs nodes beside peers that say what stands here, byte by byte, or something else: faulty_peers.py PROGRAM

The parties a, b and c of the product, each beside two peers that say what they are to say, must say what they are to say, and write their
outputs. Then one peer of c says another byte, ends or is reset after any byte, or no longer hears, and what it says comes in pieces: c must
end with the status and the line that are worked out here, and have said to each peer what stands here. Many nodes run at once, each over
addresses of its own; peers that end keep hearing, so no send of c fails unless it is to. Ends with status 1, and tells which nodes do
otherwise. It needs Linux.

All this is done over frames of both forms: named ones in a ring of 8 bits, and short ones in rings of 1, 5, 8, 12 and 64.
"""

import collections
import concurrent.futures
import contextlib
import hashlib
import itertools
import os
import pathlib
import random
import re
import resource
import socket
import struct
import subprocess
import sys
import tempfile
import time

from accepted_runs import PRODUCTS_OF_TWO_SESSIONS
from in_the_clear import circuit_of, last_wires
from product import Edit, PRODUCT, VERSION_2, Whole, product_with
from views import lines_with
from waits import MOST_SECONDS

AT_ONCE = 32

# Between two pieces, in seconds.
PAUSE = 0.0005

# The lengths of pieces in which bytes come: single bytes, others, frames, and all at once.
PIECES = [1, 7, 18, 100_000]

HELLO, NAMED = 38, 18

# How many frames of each peer c hears before it sends its own: those of the inputs. It sends as many.
INPUTS = 2

NAMES = 'abc'

# The second number of the loopback addresses, and the port: by chance, so that two calls of this script have others. The ports of the
# system's own choice are above.
NETWORK, PORT = random.randrange(1, 255), random.randrange(10_000, 32_000)

# What the parties of the product say to one another behind their hellos: the slot, the share and the word of each frame, as they were worked
# out by hand in whole numbers, of which a ring of k bits has the remainders by 2^k; and what is said to c and by c in the second session of
# two products. So the summands of 5 are 10, 20 and -25, those of 7 are 30, 40 and -63; b's part of the product is -1080, and c's 1000.
FRAMES = {
    'ab': [(0, 0, 10), (0, 2, -25), (2, 0, 1), (2, 2, 112)],
    'ac': [(0, 0, 10), (0, 1, 20), (2, 0, 1), (2, 1, 2), (3, 2, 14)],
    'ba': [(1, 1, 40), (1, 2, -63), (2, 1, 4), (2, 2, -1087)],
    'bc': [(1, 0, 30), (1, 1, 40), (2, 0, 3), (2, 1, 4)],
    'ca': [(2, 1, 6), (2, 2, 989)],
    'cb': [(2, 0, 5), (2, 2, 989)],
}
SECOND_FRAMES = {
    'ac': [(0, 0, 11), (0, 1, 21), (2, 0, 3), (2, 1, 4), (3, 2, -27)],
    'bc': [(1, 0, 31), (1, 1, 41), (2, 0, 5), (2, 1, 6)],
    'ca': [(2, 1, 8), (2, 2, 1087)],
    'cb': [(2, 0, 7), (2, 2, 1087)],
}

# The value that c reads, and the last summand of its part of the product, which it sends to both peers.
VALUE, LAST = 35, 989

# By how much both are more where the word of a frame is one more. A summand of an input goes into c's part, by the summand of the other
# input that c multiplies it with: 40, 30, 20 and 10. One of the product goes into what c writes.
ONE_MORE = {
    'a': [(0, 40), (0, 30), (1, 0), (1, 0), (1, 0)],
    'b': [(0, 20), (0, 10), (1, 0), (1, 0)],
}



class Wrong(Exception):
    """A node that did otherwise."""


def expect(holds, text):
    if not holds:
        raise Wrong(text)


class Form:
    """The form of frames: named or short, in a ring of so many bits."""

    def __init__(self, bits, short):
        self.bits, self.short = bits, short
        self.length = (bits + 7) // 8 if short else NAMED
        # A frame is a name of so many bytes, and then the word.
        self.name = 0 if short else NAMED - 8

    def __str__(self):
        return f'{"short" if self.short else "named"} frames of {self.bits} bits'

    def changes(self):
        """What makes of the product's job, which has named frames in a ring of 8 bits, one of this form."""
        short = [*VERSION_2, Edit('job.toml', '[[session]]\n', 'frames = "short"\n[[session]]\n')] if self.short else []
        words = [Edit(name, text, self.in_ring(text)) for name, text in PRODUCT.items() if name.startswith('party_')]
        return [*short, Edit('job.toml', 'ring_bits = 8', f'ring_bits = {self.bits}'), *words]

    def in_ring(self, text):
        """The text of a party with the words of the ring, of its inputs and of its tape."""
        head, words = text.split('\n', 1)
        return f'{head}\n{re.sub("[0-9]+", lambda word: str(self.word(int(word[0]))), words)}'

    def word(self, number):
        """The word of the ring that a whole number comes to."""
        return number % 2**self.bits

    def frame(self, session, slot, share, sender, receiver, word):
        return word.to_bytes(self.length, 'big') if self.short else struct.pack('>BHIBBBQ', 1, session, slot, share, sender, receiver, word)

    def at(self, place):
        """Where the frame begins that a byte of a talk is in, and which frame it is."""
        number = (place - HELLO) // self.length
        return HELLO + self.length * number, number

    def output(self, more=0):
        return f'out 0 0 c {self.word(VALUE + more)}\n'


NAMED_BYTES, SHORT_BYTES = Form(8, False), Form(8, True)
FORMS = [NAMED_BYTES, Form(1, True), Form(5, True), SHORT_BYTES, Form(12, True), Form(64, True)]

# One for each length of frames. In the hello, which is the same in all of them, each place is tried in two.
LENGTHS = [form for form in FORMS if form.bits >= 8]

OUTPUT = NAMED_BYTES.output()
TWO_OUTPUTS = OUTPUT + 'out 1 0 c 6\n'


class Job:
    """The files of the product with some changes, with hosts of its own and frames of a form; and what is said in it."""

    def __init__(self, number, changes=(), frames=(FRAMES,), form=NAMED_BYTES):
        self.form, changes = form, [*form.changes(), *changes]
        self.hosts = [f'127.{NETWORK}.{place >> 8}.{place & 255}' for place in range(4 * number, 4 * number + 3)]
        self.changes, self.frames = list(changes), frames

    def files(self):
        hosts = ', '.join(f'"{host}"' for host in self.hosts)
        places = Edit('job.toml', '[[session]]\n', f'hosts = [{hosts}]\nport = {PORT}\n[[session]]\n')
        return product_with([*self.changes, places])

    def write(self, folder, name):
        """Writes what a party has: the job, its circuit and its own file."""
        files = self.files()
        for file in ['job.toml', 'mul.txt', f'party_{name}.toml']:
            pathlib.Path(folder, file).write_bytes(files[file])

    def digest(self):
        files = self.files()
        texts = [files['job.toml'], *[files['mul.txt']] * len(self.frames)]
        return hashlib.sha256(b''.join(struct.pack('>Q', len(text)) + text for text in texts)).digest()

    def talk(self, sender, receiver):
        """What one says to the other: its hello, and a frame for each message."""
        parties = NAMES.index(sender), NAMES.index(receiver)
        said = b'MPC1' + bytes(parties) + self.digest()
        for session, frames in enumerate(self.frames):
            for slot, share, number in frames.get(sender + receiver, []):
                said += self.form.frame(session, slot, share, *parties, self.form.word(number))
        return said

    def address(self, sender, receiver):
        """Where the receiver listens for the sender."""
        return self.hosts[NAMES.index(receiver)], PORT + 12 * NAMES.index(receiver) + NAMES.index(sender)


# How a peer goes on once it has said all that it says: it stays, says that no more comes, or is reset.
STAYS, ENDS, IS_RESET = 'stays', 'ends', 'is reset'

# When a peer's hearing is reset: before it hears the hello, or after it.
BEFORE_THE_HELLO, AFTER_THE_HELLO = 'before the hello', 'after the hello'


class Peer:
    """What a peer of a node says, in which pieces, and how it goes on; and when its hearing is reset."""

    def __init__(self, says, piece=PIECES[-1], then=STAYS, deaf=None):
        self.pieces = [says[at:at + piece] for at in range(0, len(says), piece)]
        self.then, self.deaf = then, deaf


# The node of a party, its peers by name, and what is expected: its status, its texts, and what each peer hears. An output may be a file that
# takes only so many bytes. Folders may stand in the place of other files.
Case = collections.namedtuple('Case', 'title job name peers status out err heard room folders', defaults=[(), ()])

# What a node came to.
Ended = collections.namedtuple('Ended', 'status out err heard')


def written(place):
    """An address as the system's table of connections has it."""
    return f'{struct.unpack("<I", socket.inet_aton(place[0]))[0]:08X}:{place[1]:04X}'


def reset(link):
    """Breaks a connection off, so that its other end meets a failure."""
    link.setsockopt(socket.SOL_SOCKET, socket.SO_LINGER, struct.pack('ii', 1, 0))
    link.close()


def other_end(link):
    """How the system's table tells the other end of a connection: its address and that of this end."""
    return f'{written(link.getpeername())} {written(link.getsockname())} '


def await_table(holds):
    """Waits until a line of the system's table of connections is as it should be, or there is none."""
    last = time.monotonic() + MOST_SECONDS
    while time.monotonic() < last and not all(map(holds, pathlib.Path('/proc/net/tcp').read_text().splitlines())):
        time.sleep(PAUSE)


def hear_no_more(link):
    """Breaks a connection off, and waits until its other end has heard of it: what is said over another one comes later then."""
    theirs = other_end(link)
    reset(link)
    await_table(lambda line: theirs not in line)


def say_no_more(link):
    """Breaks a connection off once its other end has read all that was said: what it hasn't read the system drops with the connection."""
    theirs = other_end(link)
    await_table(lambda line: theirs not in line or f'{theirs}01 00000000:00000000' in line)
    reset(link)


def hear(link, count=None):
    """So many bytes of a connection, or all up to its end."""
    heard = b''
    while count is None or len(heard) < count:
        piece = link.recv(4096 if count is None else count - len(heard))
        if not piece:
            break
        heard += piece
    return heard


def say(links, peers):
    """Says the pieces of all peers in turn. A node that has stopped takes no more of them."""
    for turn in range(max(len(peer.pieces) for peer in peers.values()) + 1):
        for name, peer in peers.items():
            with contextlib.suppress(OSError):
                if turn < len(peer.pieces):
                    links[name].sendall(peer.pieces[turn])
                elif turn == len(peer.pieces) and peer.then == ENDS:
                    links[name].shutdown(socket.SHUT_WR)
                elif turn == len(peer.pieces) and peer.then == IS_RESET:
                    say_no_more(links[name])
        time.sleep(PAUSE)


def meet(stack, case, listeners):
    """The connections from the node, on which its peers hear, and those to it. It connects to all of its peers before it waits for one."""
    hears, says = {}, {}
    for name, listener in listeners.items():
        hears[name] = stack.enter_context(listener.accept()[0])
        hears[name].settimeout(MOST_SECONDS)
        if case.peers[name].deaf == BEFORE_THE_HELLO:
            hear_no_more(hears.pop(name))
    for name in listeners:
        says[name] = stack.enter_context(socket.create_connection(case.job.address(name, case.name), timeout=MOST_SECONDS))
        says[name].setsockopt(socket.IPPROTO_TCP, socket.TCP_NODELAY, 1)
    return hears, says


def talk_with(stack, case, listeners):
    """What each peer hears, which goes on only once the node has said its hello."""
    hears, says = meet(stack, case, listeners)
    heard = dict.fromkeys(listeners, b'')
    for name, link in list(hears.items()):
        heard[name] = hear(link, HELLO)
        if case.peers[name].deaf == AFTER_THE_HELLO:
            hear_no_more(hears.pop(name))
    say(says, case.peers)
    for name, link in hears.items():
        heard[name] += hear(link)
    return heard


def limited(room):
    """What limits a process to files of so many bytes, of which one more fails."""
    return {'preexec_fn': lambda: resource.setrlimit(resource.RLIMIT_FSIZE, (room, room)), 'restore_signals': False}


def run_node(program, folder, case):
    """Runs the node beside its peers, and gives what it came to."""
    case.job.write(folder, case.name)
    for name in case.folders:
        os.mkdir(os.path.join(folder, name))
    with contextlib.ExitStack() as stack:
        listeners = {name: stack.enter_context(socket.create_server(case.job.address(case.name, name))) for name in case.peers}
        for listener in listeners.values():
            listener.settimeout(MOST_SECONDS)
        files = {stream: stack.enter_context(open(os.path.join(folder, stream), 'w+b')) for stream in ('stdout', 'stderr')}
        streams = {stream: files[stream] if stream in case.room else subprocess.PIPE for stream in files}
        node = subprocess.Popen([program, 'node', folder, case.name], stdin=subprocess.DEVNULL, **streams, **(limited(case.room[1]) if case.room else {}))
        stack.callback(node.kill)
        heard = talk_with(stack, case, listeners)
        texts = node.communicate(timeout=MOST_SECONDS)
        out, err = (pathlib.Path(file.name).read_bytes() if text is None else text for text, file in zip(texts, files.values()))
    return Ended(node.returncode, out.decode(), err.decode(), heard)


def check_case(program, top, case):
    """Why the node of the case does otherwise, or nothing."""
    with tempfile.TemporaryDirectory(dir=top) as folder:
        try:
            ended = run_node(program, folder, case)
        except (OSError, subprocess.SubprocessError) as error:
            return f'{case.title}: {error}'
    if ended == Ended(case.status, case.out, case.err, case.heard):
        return None
    return f'{case.title}: status {ended.status}, {ended.out!r}, {ended.err!r}, heard {[len(heard) for heard in ended.heard.values()]}'


# What is expected of c.

def stop(title, job, peers, line, said, other_said=None):
    """That c stops with this line, and has said so many bytes to each peer, or so many to a and others to b."""
    counts = {'a': said, 'b': said if other_said is None else other_said}
    heard = {name: job.talk('c', name)[:count] for name, count in counts.items()}
    return Case(title, job, 'c', peers, 5, '', line, heard)


def beside(job, odd, peer, piece):
    """This peer, and another one that says all."""
    return {name: peer if name == odd else Peer(job.talk(name, 'c'), piece) for name in 'ab'}


def said_where(form, at):
    """How many bytes c says to each peer where one has no right frame at this place."""
    inputs = HELLO + INPUTS * form.length
    return inputs if at >= inputs else HELLO


def length_of(form, odd):
    return HELLO + form.length * len(FRAMES[odd + 'c'])


def places_of(form, odd):
    """After how many bytes a peer ends or is reset."""
    return range(0 if form.bits == 8 else HELLO, length_of(form, odd))


def pieces_of(form):
    """The lengths of pieces in which what is said in this form comes. Of short frames there are so many forms that two must do."""
    return [1, PIECES[-1]] if form.short else PIECES


def each_end_is_told(numbers):
    for form, odd in itertools.product(LENGTHS, 'ab'):
        for at, piece in itertools.product(places_of(form, odd), pieces_of(form)):
            job = Job(next(numbers), form=form)
            peer = Peer(job.talk(odd, 'c')[:at], piece, ENDS)
            yield stop(f'{form}: {odd} ends after {at} bytes in pieces of {piece}', job, beside(job, odd, peer, piece), f'fault closed peer={odd} at={at}\n',
                       said_where(form, at))


def each_read_that_fails_is_told(numbers):
    """Where c meets the failure once it has read all that was said before it."""
    for form, odd in itertools.product(LENGTHS, 'ab'):
        for at, piece in itertools.product(places_of(form, odd), [1, PIECES[-1]]):
            job = Job(next(numbers), form=form)
            peer = Peer(job.talk(odd, 'c')[:at], piece, IS_RESET)
            yield stop(f'{form}: {odd} is reset after {at} bytes in pieces of {piece}', job, beside(job, odd, peer, piece), f'fault link peer={odd}\n',
                       said_where(form, at))


def with_other_bits(talk, place, bits=1):
    """The talk with other bits of the byte at a place."""
    return talk[:place] + bytes([talk[place] ^ bits]) + talk[place + 1:]


def each_other_hello_is_told(numbers):
    """A byte of the mark, of the parties or of the digest is another one."""
    for form, odd in itertools.product([NAMED_BYTES, FORMS[-1]], 'ab'):
        for place, piece in itertools.product(range(HELLO), pieces_of(form)):
            job = Job(next(numbers), form=form)
            talk = with_other_bits(job.talk(odd, 'c'), place)
            line = f'fault job peer={odd} ours={job.talk(odd, "c")[:HELLO].hex()} theirs={talk[:HELLO].hex()}\n'
            yield stop(f'{form}: {odd} says another byte {place}', job, beside(job, odd, Peer(talk, piece), piece), line, HELLO)


def the_other_form_is_told(numbers):
    """A peer whose job differs in the form of frames alone has another digest."""
    for form, odd in itertools.product([form for form in FORMS if form.short], 'ab'):
        job, other = Job(next(numbers), form=form), Job(next(numbers), [Edit('job.toml', '"short"', '"named"')], form=form)
        other.hosts = job.hosts
        talk = other.talk(odd, 'c')
        line = f'fault job peer={odd} ours={job.talk(odd, "c")[:HELLO].hex()} theirs={talk[:HELLO].hex()}\n'
        yield stop(f'{form}: {odd} has named ones', job, beside(job, odd, Peer(talk), PIECES[-1]), line, HELLO)


def of_other_frame(job, odd, talk, place, piece):
    """What is expected where the frame that a byte of the talk is in is another one. Where its name stays and its word is one of the ring, c takes it."""
    form, right = job.form, job.talk(odd, 'c')
    at, number = form.at(place)
    frame, right = (said[at:at + form.length] for said in (talk, right))
    word, wanted = (int.from_bytes(said[form.name:], 'big') for said in (frame, right))
    title, peers = f'{form}: {odd} says {frame.hex()} for {right.hex()} in frame {number}', beside(job, odd, Peer(talk, piece), piece)
    if frame[:form.name] != right[:form.name] or word >= 2**form.bits:
        return stop(title, job, peers, f'fault frame peer={odd} at={at} bytes={frame.hex()}\n', said_where(form, at))
    output, last = (each * (word - wanted) for each in ONE_MORE[odd][number])
    summand = form.word(LAST + last).to_bytes(8, 'big')[form.name - form.length:]
    heard = {name: job.talk('c', name)[:-len(summand)] + summand for name in 'ab'}
    return Case(title, job, 'c', peers, 0, form.output(output), '', heard)


def each_other_byte_is_told_or_taken(numbers):
    """In its lowest bit, and in short frames also in its highest one."""
    for form, odd in itertools.product(FORMS, 'ab'):
        for place, bits in itertools.product(range(HELLO, length_of(form, odd)), [1, 128] if form.short else [1]):
            for piece in pieces_of(form):
                job = Job(next(numbers), form=form)
                yield of_other_frame(job, odd, with_other_bits(job.talk(odd, 'c'), place, bits), place, piece)


def each_word_past_the_ring_is_told(numbers):
    """The least, the greatest, and some between, in each frame. In rings of 8 and of 64 bits a short frame has none, and c takes what is said."""
    for form, odd in itertools.product([form for form in FORMS if form.short], 'ab'):
        most = 256**form.length - 1
        for number, word in itertools.product(range(len(FRAMES[odd + 'c'])), sorted({2**form.bits & most, 2**form.bits + 1 & most, 3 * 2**form.bits & most, most})):
            job = Job(next(numbers), form=form)
            place = HELLO + form.length * number
            talk = job.talk(odd, 'c')
            talk = talk[:place] + word.to_bytes(form.length, 'big') + talk[place + form.length:]
            yield of_other_frame(job, odd, talk, place, PIECES[-1])


def another_byte_is_told_in_full(numbers):
    """The third frame of a, with share 1 in place of 0, and its first with a word of nine bits."""
    for place, byte, line in [(81, 1, 'fault frame peer=a at=74 bytes=010000000000020100020000000000000001\n'),
                              (54, 1, 'fault frame peer=a at=38 bytes=01000000000000000002000000000000010a\n'),
                              (38, 2, 'fault frame peer=a at=38 bytes=02000000000000000002000000000000000a\n')]:
        job = Job(next(numbers))
        talk = job.talk('a', 'c')
        peer = Peer(talk[:place] + bytes([byte]) + talk[place + 1:])
        yield stop(f'a says {byte} at byte {place}', job, beside(job, 'a', peer, PIECES[-1]), line, said_where(NAMED_BYTES, place))


# How many bytes a and b say, how they go on, whose hearing is reset and when; then what is told, and how many bytes a and b hear.
Faults = collections.namedtuple('Faults', 'a_says b_says deaf when line a_hears b_hears')
FAULTS = [
    # The third frame of a is cut after seven bytes.
    Faults(81, 110, '', None, 'fault closed peer=a at=81\n', 74, 74),
    Faults(100, 5, '', None, 'fault closed peer=a at=100\n', 38, 38),
    Faults(128, 5, '', None, 'fault closed peer=b at=5\n', 38, 38),
    # The hello to a goes out before that to b, and so do the frames.
    Faults(128, 110, 'a', BEFORE_THE_HELLO, 'fault link peer=a\n', 0, 0),
    Faults(128, 110, 'b', BEFORE_THE_HELLO, 'fault link peer=b\n', 38, 0),
    Faults(128, 110, 'a', AFTER_THE_HELLO, 'fault link peer=a\n', 38, 38),
    Faults(128, 110, 'b', AFTER_THE_HELLO, 'fault link peer=b\n', 74, 38),
    # A failed send is told before a fault of an earlier peer.
    Faults(100, 110, 'b', AFTER_THE_HELLO, 'fault link peer=b\n', 74, 38),
    Faults(0, 0, 'b', BEFORE_THE_HELLO, 'fault link peer=b\n', 38, 0),
    # Where nothing is sent any more, nobody finds that it would fail.
    Faults(5, 110, 'b', AFTER_THE_HELLO, 'fault closed peer=a at=5\n', 38, 38),
]


def one_of_several_faults_is_told(numbers):
    for faults in FAULTS:
        job = Job(next(numbers))
        peers = {name: Peer(job.talk(name, 'c')[:count], then=ENDS, deaf=faults.when if name == faults.deaf else None)
                 for name, count in [('a', faults.a_says), ('b', faults.b_says)]}
        yield stop(f'{faults}', job, peers, faults.line, faults.a_hears, faults.b_hears)


# Whole talks.

def whole(title, job, name, out, piece=PIECES[-1], then=STAYS, further=b'', **others):
    """That a node whose peers say all says all, and ends well."""
    peers = {peer: Peer(job.talk(peer, name) + further, piece, then) for peer in NAMES if peer != name}
    return Case(title, job, name, peers, 0, out, '', {peer: job.talk(name, peer) for peer in peers}, **others)


def each_node_says_its_whole_talk(numbers):
    for form, name, piece in itertools.product(FORMS, NAMES, PIECES):
        yield whole(f'{form}: {name} hears all in pieces of {piece}', Job(next(numbers), form=form), name, form.output() if name == 'c' else '', piece)


def a_node_goes_through_two_sessions(numbers):
    for form, piece in itertools.product([NAMED_BYTES, SHORT_BYTES], PIECES):
        job = Job(next(numbers), PRODUCTS_OF_TWO_SESSIONS, (FRAMES, SECOND_FRAMES), form)
        yield whole(f'{form}: two sessions in pieces of {piece}', job, 'c', TWO_OUTPUTS, piece)


def each_node_writes_its_own_view(numbers):
    """Where the job says so: the words that it sent and got, behind its outputs."""
    for form, name, piece in itertools.product([NAMED_BYTES, SHORT_BYTES], NAMES, PIECES):
        version = [] if form.short else VERSION_2
        job = Job(next(numbers), [*version, Edit('job.toml', '[[session]]\n', 'views = "own"\n[[session]]\n')], form=form)
        yield whole(f'{form}: {name} writes its own view', job, name, f'{OUTPUT if name == "c" else ""}view {name}\n{lines_with(name)}', piece)


def what_is_said_after_the_last_frame_is_left(numbers):
    """Another byte, an end or a failure."""
    for form in FORMS:
        for then in [STAYS, ENDS, IS_RESET]:
            yield whole(f'{form}: a byte more is said, and then the peer {then}', Job(next(numbers), form=form), 'c', form.output(), then=then, further=b'\x01')
        for then in [ENDS, IS_RESET]:
            yield whole(f'{form}: all is said, and then the peer {then}', Job(next(numbers), form=form), 'c', form.output(), then=then)


def no_other_file_is_read(numbers):
    for name, out in [('a', ''), ('b', ''), ('c', OUTPUT)]:
        folders = [*(f'party_{other}.toml' for other in NAMES if other != name), 'other.toml', 'view.txt']
        yield whole(f'folders stand in place of files that {name} does not read', Job(next(numbers)), name, out, folders=folders)


def a_short_output_has_the_first_bytes(numbers):
    for room in range(len(OUTPUT)):
        yield whole(f'an output of {room} bytes', Job(next(numbers)), 'c', OUTPUT[:room], room=('stdout', room))._replace(status=5, err='fault out\n')


def a_short_line_has_the_first_bytes(numbers):
    line = 'fault closed peer=a at=81\n'
    for room in range(len(line) + 1):
        job = Job(next(numbers))
        peer = Peer(job.talk('a', 'c')[:81], then=ENDS)
        yield stop(f'a line of {room} bytes', job, beside(job, 'a', peer, PIECES[-1]), line[:room], said_where(NAMED_BYTES, 81))._replace(room=('stderr', room))


# A long job, of which each byte of a frame but the highest of its session and slot is another one somewhere.

INPUT_WORDS = 250
GATES = 65_536
LONG_CIRCUIT = f'{GATES} {2 * INPUT_WORDS + GATES}\n2 {INPUT_WORDS} {INPUT_WORDS}\n1 1\n' + ''.join(
    f'2 1 {wire - 1} {wire % (2 * INPUT_WORDS)} {wire} {"ADD" if wire % 3 else "SUB"}\n' for wire in range(2 * INPUT_WORDS, 2 * INPUT_WORDS + GATES))
LONG_JOB = [
    Whole('mul.txt', LONG_CIRCUIT.encode()),
    *PRODUCTS_OF_TWO_SESSIONS[:1],
    *PRODUCTS_OF_TWO_SESSIONS[-2:-1],
]


def some_word(*of):
    """A word of 64 bits that is another one for each message."""
    return int.from_bytes(hashlib.sha256(repr(of).encode()).digest()[:8], 'big')


def long_frames(session):
    """What is said to c in a session of the long job: two summands of each input word, and the one of the output word that c lacks."""
    said = {'ac': range(INPUT_WORDS), 'bc': range(INPUT_WORDS, 2 * INPUT_WORDS)}
    frames = {pair: [(slot, share, some_word(session, slot, share)) for slot in slots for share in (0, 1)] for pair, slots in said.items()}
    frames['ac'].append((2 * INPUT_WORDS + GATES, 2, some_word(session)))
    return frames


def long_output(session):
    """The value of the output wire: each gate is linear, so what the summands that c has come to, and the one that it lacks."""
    words = [some_word(session, slot, 0) + some_word(session, slot, 1) for slot in range(2 * INPUT_WORDS)]
    return (last_wires(circuit_of(LONG_CIRCUIT.encode()), words, 64)[0] + some_word(session)) % 2**64


def many_words_come_whole(numbers):
    """They come while the node is at work."""
    out = ''.join(f'out {session} 0 c {long_output(session)}\n' for session in (0, 1))
    for form, piece in itertools.product([Form(64, False), Form(64, True)], [*PIECES[1:], 1_000]):
        yield whole(f'{form}: a long job in pieces of {piece}', Job(next(numbers), LONG_JOB, (long_frames(0), long_frames(1)), form), 'c', out, piece)


# Nodes without connections.

# A host that no name stands for, and one that is no address of this machine.
NO_HOST, ELSEWHERE = 'a..b', '192.0.2.1'

# Whose host is another one, and which.
OTHER_HOSTS = [(0, NO_HOST), (1, NO_HOST), (2, NO_HOST), (2, ELSEWHERE)]


def expect_unmet(program, top, job):
    """That the node of c tells that there are no connections, and has said nothing."""
    with tempfile.TemporaryDirectory(dir=top) as folder, contextlib.ExitStack() as stack:
        job.write(folder, 'c')
        places = [job.address('c', name) for name in 'ab' if job.hosts[NAMES.index(name)] != NO_HOST]
        listeners = [stack.enter_context(socket.create_server(place)) for place in places]
        done = subprocess.run([program, 'node', folder, 'c'], stdin=subprocess.DEVNULL, capture_output=True, text=True, timeout=MOST_SECONDS)
        for listener in listeners:
            listener.setblocking(False)
            with contextlib.suppress(BlockingIOError), listener.accept()[0] as link:
                link.settimeout(MOST_SECONDS)
                expect(not hear(link), 'something was said')
    expect((done.returncode, done.stdout, done.stderr) == (5, '', 'fault net\n'), f'status {done.returncode}, {done.stdout!r} and {done.stderr!r}')


def each_net_that_fails_is_told(program, top, numbers):
    """A port is taken, a host isn't known, or the party's own host is elsewhere. It gives how many nodes that are."""
    for peer in 'ab':
        job = Job(next(numbers))
        with socket.create_server(job.address(peer, 'c')):
            expect_unmet(program, top, job)
    for party, host in OTHER_HOSTS:
        job = Job(next(numbers))
        job.hosts[party] = host
        expect_unmet(program, top, job)
    return 2 + len(OTHER_HOSTS)


# Those of a limited output run one after another, since a limit is set between fork and exec.
ALONE = [a_short_output_has_the_first_bytes, a_short_line_has_the_first_bytes]
BESIDE = [each_node_says_its_whole_talk, a_node_goes_through_two_sessions, what_is_said_after_the_last_frame_is_left, no_other_file_is_read,
          each_node_writes_its_own_view, each_end_is_told, each_read_that_fails_is_told, each_other_hello_is_told, the_other_form_is_told,
          each_other_byte_is_told_or_taken, each_word_past_the_ring_is_told, another_byte_is_told_in_full, one_of_several_faults_is_told,
          many_words_come_whole]


def tell(of, found):
    """Writes how many nodes did as expected, and which did not. It gives whether all did."""
    wrong = [text for text in found if text]
    for text in wrong:
        print(f'faulty_peers: {text}')
    print(f'faulty_peers: {of.__name__.replace("_", " ")}: {len(found) - len(wrong)} of {len(found)} nodes as expected')
    return not wrong


def main(words):
    if len(words) != 2:
        sys.exit('usage: faulty_peers.py PROGRAM')
    program, numbers, status = os.path.abspath(words[1]), itertools.count(64), 0
    if not os.access(program, os.X_OK):
        sys.exit(f'faulty_peers: there is no program {words[1]}')
    with tempfile.TemporaryDirectory() as top, concurrent.futures.ThreadPoolExecutor(AT_ONCE) as pool:
        for cases in ALONE:
            if not tell(cases, [check_case(program, top, case) for case in cases(numbers)]):
                status = 1
        try:
            print(f'faulty_peers: each net that fails is told: {each_net_that_fails_is_told(program, top, numbers)} nodes as expected')
        except (Wrong, OSError, subprocess.SubprocessError) as wrong:
            print(f'faulty_peers: each net that fails is told: NOT AS EXPECTED: {wrong}')
            status = 1
        for cases in BESIDE:
            if not tell(cases, list(pool.map(lambda case: check_case(program, top, case), cases(numbers)))):
                status = 1
    return status


if __name__ == '__main__':
    sys.exit(main(sys.argv))
