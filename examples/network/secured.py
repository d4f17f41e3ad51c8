"""What a party starts so that its connections to the others go through tunnels, by ssh or by stunnel; and the key and the certificate by which
stunnel knows a party.

A tunnel takes a connection at once, also where the node behind it isn't there yet, and drops it then; and a node that has a connection makes no other,
so that all would wait in vain. So what lets the others in is started first, then all nodes, which try until they are let in, and last what goes out.
"""

import os
import shutil
import subprocess
import tempfile

from job_folder import NAME, Refusal, need, read_bytes, write_new

# What nodes are reached by: this machine alone.
HERE = '127.0.0.1'

# The nodes of a job have so many ports at most. Those at which their computers let tunnels in come behind them, or before them near the last port.
PORTS, LAST_PORT = 144, 65_535

KEY_DAYS = 365

HEAD = '''foreground = yes
pid =
syslog = no
debug = warning
sslVersionMin = TLSv1.3
cert = {name}.pem
key = {name}.key
verifyPeer = yes
'''


class Tunnels:
    """The tunnels of a party, and the computers of all."""

    def __init__(self, fields, name, computers):
        parties, port = fields['parties'], fields.get('port')
        need(name in parties, f'{name[:40]!r} is no party of the job: {", ".join(parties)}')
        need(len(parties) > 1, 'the job has one party, which speaks to nobody')
        need(type(port) is int and 0 < port <= LAST_PORT - PORTS + 1 and fields.get('hosts') == [HERE] * len(parties),
             f'the job has no port, or another host than {HERE} for some party: a node behind tunnels is reached by its own machine alone')
        self.name, self.me, self.port = name, parties.index(name), port
        self.others = [(number, other) for number, other in enumerate(parties) if number != self.me]
        self.computers = computers or [f'computer-of-{party}' for party in parties]

    def node(self, sender, receiver):
        """The port at which the receiver's node listens for the sender's."""
        return self.port + 12 * receiver + sender

    def door(self, sender, receiver):
        """The port at which the receiver's computer lets the sender's tunnel in."""
        shift = PORTS if self.port + 2 * PORTS - 1 <= LAST_PORT else -PORTS
        return self.node(sender, receiver) + shift

    def ssh(self):
        """A line for each peer. At the peer's computer the party has a login of its own name."""
        yield f'# {self.name}, once all nodes have been started: each in a terminal of its own.\n'
        for number, _ in self.others:
            port = self.node(self.me, number)
            yield f'ssh -N -o ExitOnForwardFailure=yes -L {HERE}:{port}:{HERE}:{port} {self.name}@{self.computers[number]}\n'

    def let_in(self):
        """The configuration of what lets the tunnels of the peers in."""
        yield f'; {self.name}, before any node is started: stunnel in.conf\n{HEAD.format(name=self.name)}'
        for number, other in self.others:
            yield (f'\n[from_{other}]\naccept = {self.door(number, self.me)}\nconnect = {HERE}:{self.node(number, self.me)}\n'
                   f'CAfile = {other}.pem\n')

    def go_out(self):
        """The configuration of the tunnels to the peers."""
        yield f'; {self.name}, once all nodes have been started: stunnel out.conf\n{HEAD.format(name=self.name)}client = yes\n'
        for number, other in self.others:
            yield (f'\n[to_{other}]\naccept = {HERE}:{self.node(self.me, number)}\n'
                   f'connect = {self.computers[number]}:{self.door(self.me, number)}\nCAfile = {other}.pem\n')


PARTS = {'ssh': Tunnels.ssh, 'in': Tunnels.let_in, 'out': Tunnels.go_out}


def print_tunnels(fields, name, part=None, computers=None):
    """Prints what the party starts: one of the parts, or all."""
    tunnels = Tunnels(fields, name, computers)
    print('\n'.join(''.join(PARTS[which](tunnels)) for which in ([part] if part else PARTS)), end='')


def make_key(folder, name):
    """Makes a party's key and certificate, and prints the fingerprint of the certificate. None is written where one is there."""
    need(NAME.fullmatch(name), f'{name[:40]!r} is no name of a party')
    need(shutil.which('openssl'), 'openssl has to be on the PATH')
    names = [f'{name}.key', f'{name}.pem']
    there = next((path for path in (os.path.join(folder, file) for file in names) if os.path.lexists(path)), None)
    need(there is None, f'{there} is there already')
    with tempfile.TemporaryDirectory() as room:
        key, certificate = (os.path.join(room, file) for file in names)
        call_openssl('req', '-x509', '-newkey', 'ec', '-pkeyopt', 'ec_paramgen_curve:P-256', '-nodes', '-days', str(KEY_DAYS),
                     '-subj', f'/CN={name}', '-keyout', key, '-out', certificate)
        told = call_openssl('x509', '-in', certificate, '-noout', '-fingerprint', '-sha256')
        for file, mode in zip(names, (0o600, 0o644)):
            write_new(folder, file, read_bytes(room, file), mode)
    print(f'{names[1]} {told}', end='')
    return 0


def call_openssl(*words):
    """What openssl writes."""
    done = subprocess.run(['openssl', *words], stdin=subprocess.DEVNULL, capture_output=True, text=True, errors='replace')
    if done.returncode != 0:
        raise Refusal(f'openssl {words[0]} ended with status {done.returncode}: {(done.stderr.strip().splitlines() or ["it says nothing"])[-1]}')
    return done.stdout
