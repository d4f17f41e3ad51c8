"""Stands for all parties of a job but one, over TCP on this machine, so that a program can run as that one.

Peers(program, folder, name) asks the program for the view of that party, which has all that the others say to it and it to them. It is used
as a context: within it each peer takes the party's connection, makes one of its own, says its hello and its frames, and keeps what it hears.
At its end 'heard' has these bytes for each peer, and 'due' those that the party is to say. All hosts of the job must be this machine.
It needs Python 3.11 or later.
"""

import hashlib
import os
import socket
import struct
import subprocess
import threading
import time
import tomllib

WAIT = 10


def read(*path):
    with open(os.path.join(*path), 'rb') as file:
        return file.read()


class Peers:
    def __init__(self, program, folder, name):
        job = read(folder, 'job.toml')
        fields = tomllib.loads(job.decode())
        self.names, self.port = fields['parties'], fields['port']
        self.short, self.word_bytes = fields.get('frames') == 'short', (fields['ring_bits'] + 7) // 8
        self.frame_bytes = self.word_bytes if self.short else 18
        self.me = self.names.index(name)
        self.others = [party for party in range(len(self.names)) if party != self.me]
        texts = [job] + [read(folder, session['circuit']) for session in fields['session']]
        self.digest = hashlib.sha256(b''.join(struct.pack('>Q', len(text)) + text for text in texts)).digest()
        view = subprocess.run([program, 'run', folder, '--view', name], capture_output=True, check=True, text=True).stdout
        self.messages = [line.split() for line in view.splitlines() if line[0].isdigit()]
        self.due = {peer: self.talk(self.me, peer) for peer in self.others}
        self.heard = {}

    def frame(self, session, slot, share, sender, receiver, word):
        """The frame of a message, in the form that the job says."""
        if self.short:
            return int(word).to_bytes(self.word_bytes, 'big')
        return struct.pack('>BHIBBBQ', 1, int(session), int(slot), int(share), self.names.index(sender), self.names.index(receiver), int(word))

    def talk(self, sender, receiver):
        """What one says to the other: its hello, and a frame for each message."""
        parties = [self.names[sender], self.names[receiver]]
        return b'MPC1' + bytes([sender, receiver]) + self.digest + b''.join(self.frame(*message) for message in self.messages if message[3:5] == parties)

    def __enter__(self):
        self.heard = {peer: b'' for peer in self.others}
        self.is_over = False
        self.listeners = {peer: socket.create_server(('127.0.0.1', self.port + 12 * peer + self.me)) for peer in self.others}
        self.threads = [threading.Thread(target=part, args=[peer]) for peer in self.others for part in (self.say, self.hear)]
        for thread in self.threads:
            thread.start()
        return self

    def __exit__(self, *_):
        self.is_over = True
        for thread in self.threads:
            thread.join()
        for listener in self.listeners.values():
            listener.close()

    def say(self, peer):
        """Connects to the party, unless it is over before it listens, and says what the peer has to say."""
        while not self.is_over:
            try:
                with socket.create_connection(('127.0.0.1', self.port + 12 * self.me + peer)) as link:
                    link.sendall(self.talk(peer, self.me))
                    while not self.is_over:
                        time.sleep(0.001)
                return
            except OSError:
                time.sleep(0.001)

    def hear(self, peer):
        """Keeps what the party says to the peer, up to its end."""
        self.listeners[peer].settimeout(0.01)
        while True:
            try:
                link, _ = self.listeners[peer].accept()
                break
            except TimeoutError:
                if self.is_over:
                    return
        with link:
            link.settimeout(WAIT)
            try:
                while piece := link.recv(4096):
                    self.heard[peer] += piece
            except OSError:
                pass
