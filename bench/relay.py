"""Stands between nodes on this machine as a network does that takes its time: each byte arrives so many seconds after it was sent.

Relay(ports, delay, folder) is used as a context. Nodes that listen at these ports are reached through it by nodes that are started with its
'environment', which leads their connections to ports further on, by redirect.c. Steps(ports, folder) is used likewise, and is told the
processes of the nodes. It holds all that is sent until every node waits, then passes it on at once, and counts how often: those are the rounds of the
nodes, but for one more at times where the machine is busy. It counts the bytes of each, too. It needs Linux with the GNU C library, and a C compiler.
"""

import contextlib
import os
import pathlib
import queue
import select
import socket
import subprocess
import threading
import time

HERE = os.path.dirname(os.path.abspath(__file__))
HOST = '127.0.0.1'

# How far on the relay listens. The ports of a job are 144 at most.
SHIFT = 200

# Seconds without a byte after which nodes that sleep are taken to wait for one another.
QUIET = 0.005


class Relay:
    def __init__(self, ports, delay, folder):
        self.ports, self.delay, self.processes = ports, delay, []
        library = os.path.join(folder, 'redirect.so')
        subprocess.run(['cc', '-O2', '-shared', '-fPIC', '-o', library, os.path.join(HERE, 'redirect.c')], check=True)
        self.environment = {**os.environ, 'LD_PRELOAD': library, 'PORT_SHIFT': str(SHIFT)}

    def __enter__(self):
        self.stack = contextlib.ExitStack()
        for port in self.ports:
            listener = self.stack.enter_context(socket.create_server((HOST, port + SHIFT)))
            threading.Thread(target=self.link, args=[listener, port], daemon=True).start()
        return self

    def __exit__(self, *_):
        self.stack.close()

    def link(self, listener, port):
        """Takes one connection, makes one to the node, and passes on what is sent."""
        with contextlib.suppress(OSError):
            taken = listener.accept()[0]
            taken.setsockopt(socket.IPPROTO_TCP, socket.TCP_NODELAY, 1)
            made = connected(port)
            made.setsockopt(socket.IPPROTO_TCP, socket.TCP_NODELAY, 1)
            with taken:
                self.hear(taken, made)

    def hear(self, taken, made):
        """Reads one connection to its end, and has what it reads passed on to the other."""
        pieces = queue.Queue()
        threading.Thread(target=self.pass_on, args=[pieces, made], daemon=True).start()
        while piece := taken.recv(65_536):
            pieces.put((time.monotonic() + self.delay, piece))
        pieces.put((time.monotonic() + self.delay, b''))

    @staticmethod
    def pass_on(pieces, made):
        """Sends each piece once its time has come, and ends with an empty one."""
        with contextlib.suppress(OSError), made:
            while True:
                due, piece = pieces.get()
                time.sleep(max(0, due - time.monotonic()))
                if not piece:
                    return
                made.sendall(piece)


class Steps(Relay):
    def __init__(self, ports, folder):
        super().__init__(ports, 0, folder)
        self.sizes, self.links, self.lock, self.ended = [], {}, threading.Lock(), threading.Event()

    @property
    def count(self):
        """The rounds."""
        return len(self.sizes)

    def hear(self, taken, made):
        """Waits for the other links. The thread of the last one goes on with all of them."""
        with self.lock:
            self.links[taken] = made
            last = len(self.links) == len(self.ports)
        if last:
            try:
                self.go_on()
            finally:
                self.ended.set()
        self.ended.wait()

    def go_on(self):
        """Goes step by step. A node that waits sends nothing more before something is passed on to it, so all that was sent is there then."""
        held = []
        while self.links:
            all_wait = not any(map(is_busy, self.processes))
            heard = select.select(list(self.links), [], [], QUIET)[0]
            for taken in heard:
                piece = taken.recv(65_536)
                held.append((self.links[taken], piece))
                if not piece:
                    del self.links[taken]
            if all_wait and not heard:
                self.pass_all(held)
                held = []

    def pass_all(self, pieces):
        """Passes on pieces, of which an empty one ends its link. Ends by themselves don't count."""
        self.sizes += [sum(len(piece) for _, piece in pieces)] * any(piece for _, piece in pieces)
        for made, piece in pieces:
            with contextlib.suppress(OSError):
                made.sendall(piece) if piece else made.close()


def is_busy(process):
    """Whether a thread of a process runs, or is about to. One that ends meanwhile, or whose process does, is at rest."""
    states = []
    with contextlib.suppress(OSError):
        for thread in os.listdir(f'/proc/{process}/task'):
            with contextlib.suppress(OSError):
                states.append(pathlib.Path(f'/proc/{process}/task/{thread}/stat').read_text().rpartition(')')[2].split()[0])
    return not {'R', 'D'}.isdisjoint(states)


def connected(port):
    """A connection to a node that may not be there yet."""
    while True:
        try:
            return socket.create_connection((HOST, port))
        except OSError:
            time.sleep(0.001)
