"""Which peers of a party can be reached, and have the same job, before their nodes are started.

Who waits listens where its node would, and connects where its node would. Two who wait say a hello to each other over both connections,
with another mark than a node's. Each connection is tried until it works or the time is over, so what is told changes as the peers come.
"""

import concurrent.futures
import contextlib
import errno
import os
import socket
import threading
import time

from job_folder import Refusal, need
from same_job import digest_of, files_of

MARK = b'MPCW'
HELLO = 38

# Seconds: for one connection, between two tries, and between two looks.
PATIENCE = 2
PAUSE = 0.2
LOOK = 0.1

CAME, SAME = 'it came', 'it has the same job'


def why(error):
    """Why a connection failed, in a few words."""
    known = {errno.ECONNREFUSED: 'nobody listens there yet', errno.EADDRINUSE: 'another program has that port',
             errno.EADDRNOTAVAIL: 'no address of this machine', errno.EHOSTUNREACH: 'no way there', errno.ENETUNREACH: 'no way there',
             errno.EACCES: 'the port may not be taken'}
    if isinstance(error, socket.gaierror):
        return 'the host is not known'
    if isinstance(error, TimeoutError):
        return 'no answer: a firewall, or a host that is off'
    return known.get(error.errno, os.strerror(error.errno) if error.errno else str(error))


def address(host, port, flags=0):
    """The family of a host's first address, and the address."""
    try:
        found = socket.getaddrinfo(host, port, type=socket.SOCK_STREAM, flags=flags)[0]
    except UnicodeError:
        raise socket.gaierror from None
    return found[0], found[4]


def read_hello(stream, sender, receiver):
    """The digest in a hello."""
    data = b''
    while len(data) < HELLO:
        part = stream.recv(HELLO - len(data))
        if not part:
            raise Refusal('it says nothing, so it is no nodes.py that waits')
        data += part
    need(data[:6] == MARK + bytes([sender, receiver]), 'it says something else: a node that runs already, or another program')
    return data[6:]


class Peer:
    """A peer, and what became so far of the connection to it, of the one from it, and of its job."""

    def __init__(self, own, number, fields, digest):
        self.own, self.number, self.digest = own, number, digest
        self.name, self.host, self.own_host = fields['parties'][number], fields['hosts'][number], fields['hosts'][own]
        self.there, self.here = fields['port'] + 12 * number + own, fields['port'] + 12 * own + number
        self.out, self.came, self.job = 'not tried yet', 'nothing came yet', None

    def hello(self):
        return MARK + bytes([self.own, self.number]) + self.digest

    def judge(self, digest):
        self.job = SAME if digest == self.digest else f'it has ANOTHER JOB: ours {self.digest.hex()} theirs {digest.hex()}'

    def is_reached(self):
        return self.out == self.came == CAME and self.job == SAME

    def reach(self):
        """Connects to the peer, says a hello and hears one."""
        family, there = address(self.host, self.there)
        with socket.socket(family, socket.SOCK_STREAM) as stream:
            stream.settimeout(PATIENCE)
            stream.connect(there)
            stream.sendall(self.hello())
            self.judge(read_hello(stream, self.number, self.own))
            self.out = CAME

    def hear(self):
        """Takes a connection of the peer, hears a hello and says one."""
        family, here = address(self.own_host, self.here, socket.AI_PASSIVE)
        with socket.socket(family, socket.SOCK_STREAM) as listener:
            listener.setsockopt(socket.SOL_SOCKET, socket.SO_REUSEADDR, 1)
            listener.bind(here)
            listener.listen()
            listener.settimeout(PATIENCE)
            self.came = 'nothing came yet'
            stream, _ = listener.accept()
            with stream:
                stream.settimeout(PATIENCE)
                self.judge(read_hello(stream, self.number, self.own))
                stream.sendall(self.hello())
                self.came = CAME

    def keep_on(self, attempt, kept, over):
        """Tries until it works or the time is over, and keeps why it didn't."""
        while not over.is_set() and getattr(self, kept) != CAME:
            try:
                attempt()
            except Refusal as refusal:
                setattr(self, kept, str(refusal))
            except OSError as error:
                waits = kept == 'came' and isinstance(error, TimeoutError)
                setattr(self, kept, 'nothing came yet' if waits else why(error))
            over.wait(PAUSE)

    def told(self):
        """What became of it, in a line."""
        if self.is_reached():
            return f'{self.name}: reached both ways, and it has the same job'
        there = 'reached' if self.out == CAME else f'not reached at {self.host} port {self.there} ({self.out})'
        here = 'it reaches us' if self.came == CAME else f'it does not reach us at {self.own_host} port {self.here} ({self.came})'
        return '; '.join([f'{self.name}: {there}', here, *([self.job] if self.job not in (None, SAME) else [])])


def peers_of(folder, name):
    fields, files = files_of(folder)
    parties, hosts, port = fields['parties'], fields.get('hosts'), fields.get('port')
    need(name in parties, f'{name[:40]!r} is no party of the job: {", ".join(parties)}')
    need(isinstance(hosts, list) and len(hosts) == len(parties) and all(isinstance(host, str) for host in hosts) and type(port) is int,
         'the job has no hosts, one for each party, or no port: nodes.py split adds them')
    need(0 < port <= 65_392, 'port is no number from 1 to 65392')
    own = parties.index(name)
    return [Peer(own, number, fields, digest_of(fields, files)) for number in range(len(parties)) if number != own]


def await_peers(folder, name, seconds):
    """Prints what becomes of each peer, whenever that is something else. The status is 1 where one isn't reached in this time."""
    peers, over, told = peers_of(folder, name), threading.Event(), {}
    end = time.monotonic() + seconds
    with concurrent.futures.ThreadPoolExecutor(2 * len(peers) + 1) as pool, contextlib.ExitStack() as stack:
        stack.callback(over.set)
        tasks = [pool.submit(peer.keep_on, *task, over) for peer in peers for task in ((peer.hear, 'came'), (peer.reach, 'out'))]
        time.sleep(min(seconds, 2 * LOOK))
        while True:
            ended = all(task.done() for task in tasks) or time.monotonic() >= end
            for peer in peers:
                if told.get(peer) != peer.told():
                    told[peer] = peer.told()
                    print(told[peer], flush=True)
            if ended:
                break
            time.sleep(LOOK)
    missing = [peer.name for peer in peers if not peer.is_reached()]
    need(not missing, f'not ready for a run: {", ".join(missing)}')
    return 0
