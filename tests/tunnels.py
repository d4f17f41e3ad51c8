#!/usr/bin/env python3
"""Runs the nodes of examples/network on three computers, behind tunnels: tunnels.py PROGRAM [stunnel|ssh]

The computers are network namespaces of their own, which a bridge in a fourth one joins. Once the tunnels are those of 'stunnel': each party makes its key,
gets the certificates of the others, and starts what nodes.py prints for it. And once those of 'ssh': each computer has a login for each party and an
'sshd', lets a party's key open the one port that is that party's, and each party starts the lines that nodes.py prints. The nodes must write what is expected, and
nothing that they say may be seen on the bridge, where what is said in the clear is seen. Whoever has no key, or another party's, must not get through to a node,
and by ssh nobody to another party's port. It needs Linux, root, 'ip', and 'stunnel' and 'openssl', or 'sshd', 'ssh', 'ssh-keygen', 'setpriv' and 'mount'; what it lacks
it tells in one line. Logins are in no file of this machine, but in one that takes its place for these computers alone. What it makes it removes again. The
gate doesn't run it. Ends with status 1 where it is otherwise.
"""

import contextlib
import os
import pathlib
import shutil
import signal
import subprocess
import sys
import tempfile
import time

TOP = pathlib.Path(__file__).resolve().parent.parent
NETWORK = TOP / 'examples/network'
sys.path[1:1] = [str(TOP / 'examples'), str(NETWORK)]
import nodes  # noqa: E402
from secured import HERE, Tunnels  # noqa: E402
from waits import MOST_SECONDS, told  # noqa: E402

NAMES = ['anna', 'boris', 'chen']
ADDRESSES = ['10.77.0.1', '10.77.0.2', '10.77.0.3']
TOOLS = {'stunnel': ['ip', 'stunnel', 'openssl'], 'ssh': ['ip', '/usr/sbin/sshd', 'ssh', 'ssh-keygen', 'setpriv', 'mount']}

# Seconds between two looks, and for a program that is to stop.
LOOK, STOPPING = 0.02, 5

# What is said in the clear, so that it is seen that it would be seen; and the mark that each node says first.
IN_THE_CLEAR, MARK = b'MPC1 in the clear', b'MPC1'

# Keeps what goes over the bridge.
WATCH = '''
import socket, sys
link = socket.socket(socket.AF_PACKET, socket.SOCK_RAW, socket.htons(3))
print('ready', flush=True)
with open(sys.argv[1], 'wb', buffering=0) as file:
    while True:
        file.write(link.recv(65536))
'''

# Says a few bytes at a place, in the clear.
SAY = '''
import socket, sys
socket.socket(socket.AF_INET, socket.SOCK_DGRAM).sendto(sys.argv[3].encode(), (sys.argv[1], int(sys.argv[2])))
'''

# Says a few bytes through a door, with a key and a certificate or with none. Whoever is let in meets no failure.
KNOCK = '''
import socket, ssl, sys
context = ssl.SSLContext(ssl.PROTOCOL_TLS_CLIENT)
context.check_hostname, context.verify_mode = False, ssl.CERT_NONE
if len(sys.argv) > 4:
    context.load_cert_chain(sys.argv[4] + '.pem', sys.argv[4] + '.key')
try:
    with socket.create_connection((sys.argv[1], int(sys.argv[2])), timeout=5) as link, context.wrap_socket(link) as tunnel:
        tunnel.sendall(sys.argv[3].encode())
        tunnel.unwrap().recv(1)
except OSError as error:
    print(type(error).__name__)
'''

# Stands for a node that is reached: tells what the first connection brings.
HEAR = '''
import socket, sys
listener = socket.create_server((sys.argv[1], int(sys.argv[2])))
print('ready', flush=True)
listener.settimeout(60)
link = listener.accept()[0]
print(link.makefile('rb').read().decode(), flush=True)
'''


# What an sshd goes by, at the computer of an address, with the files of this folder.
SSHD = '''ListenAddress {address}
HostKey {folder}/host
AuthorizedKeysFile .ssh/authorized_keys
PasswordAuthentication no
KbdInteractiveAuthentication no
UsePAM no
PidFile none
'''

# What a party's key may do at another one's computer, as the example's README has it.
MAY = 'restrict,port-forwarding,permitopen="{here}:{port}",permitlisten="{here}:1",command="/bin/false"'

# The number of the first party's login. No file of this machine has it.
FIRST_LOGIN = 61_001

# Says a name at a place of its own computer, and tells what comes back.
THROUGH = '''
import socket, sys
with socket.create_connection((sys.argv[1], int(sys.argv[2])), timeout=20) as link:
    link.sendall(sys.argv[3].encode())
    link.shutdown(socket.SHUT_WR)
    print(link.recv(100))
'''


class Wrong(Exception):
    """What is otherwise than expected."""


def expect(holds, text):
    if not holds:
        raise Wrong(text)


def ip(*words):
    done = subprocess.run(['ip', *words], stdin=subprocess.DEVNULL, capture_output=True, text=True, timeout=MOST_SECONDS)
    if done.returncode != 0:
        raise Wrong(f'ip {" ".join(words)}: {done.stderr.strip()}')


class Computers:
    """Three computers and the bridge between them, and the programs that run there."""

    def __init__(self):
        self.bridge, self.names = f'mpc{os.getpid()}', [f'mpc{os.getpid()}{name}' for name in NAMES]

    def __enter__(self):
        self.stack = contextlib.ExitStack()
        try:
            self.add(self.bridge)
            ip('-n', self.bridge, 'link', 'add', 'bridge', 'type', 'bridge')
            ip('-n', self.bridge, 'link', 'set', 'bridge', 'up')
            for number, (name, address) in enumerate(zip(self.names, ADDRESSES)):
                self.add(name)
                ip('link', 'add', f'to{number}', 'netns', self.bridge, 'type', 'veth', 'peer', 'name', 'cable', 'netns', name)
                ip('-n', self.bridge, 'link', 'set', f'to{number}', 'master', 'bridge', 'up')
                ip('-n', name, 'addr', 'add', f'{address}/24', 'dev', 'cable')
                for link in ('lo', 'cable'):
                    ip('-n', name, 'link', 'set', link, 'up')
        except BaseException:
            self.stack.close()
            raise
        return self

    def __exit__(self, *_):
        self.stack.close()

    def add(self, name):
        ip('netns', 'add', name)
        self.stack.callback(ip, 'netns', 'del', name)

    def start(self, name, *words, **how):
        """Starts a program on a computer, which is stopped at the end."""
        started = subprocess.Popen(['ip', 'netns', 'exec', name, *words], stdin=subprocess.DEVNULL, **{'stdout': subprocess.PIPE, 'stderr': subprocess.PIPE, 'text': True, **how})
        self.stack.callback(stop, started)
        return started

    def call(self, name, *words, **how):
        """What a program on a computer writes."""
        return subprocess.run(['ip', 'netns', 'exec', name, *words], stdin=subprocess.DEVNULL, capture_output=True, text=True, timeout=MOST_SECONDS, **how).stdout


def stop(started):
    if started.poll() is None:
        started.terminate()
        try:
            started.wait(STOPPING)
        except subprocess.TimeoutExpired:
            started.kill()
            started.wait()


def ports_at(started):
    """The ports at which somebody listens on the computer of a program."""
    with contextlib.suppress(OSError):
        lines = [line.split() for file in ('tcp', 'tcp6') for line in pathlib.Path(f'/proc/{started.pid}/net/{file}').read_text().splitlines()[1:]]
        return {int(line[1].rpartition(':')[2], 16) for line in lines if line[3] == '0A'}
    return set()


def await_ports(started, ports, what):
    """Waits until these ports are listened at, where a program runs."""
    last = time.monotonic() + MOST_SECONDS
    while not ports <= ports_at(started):
        expect(started.poll() is None and time.monotonic() < last, f'{what} ended: {started.stderr.read() if started.poll() is not None else ""}')
        time.sleep(LOOK)


def await_ready(started):
    """The program, once it says that it is there."""
    if started.stdout.readline() != 'ready\n':
        raise Wrong(f'it does not begin: {started.communicate()[1].strip()}')
    return started


def script(*words):
    """What nodes.py prints."""
    done = subprocess.run([sys.executable, '-B', NETWORK / 'nodes.py', *words], stdin=subprocess.DEVNULL, capture_output=True, text=True, timeout=MOST_SECONDS)
    expect(done.returncode == 0, f'nodes.py {words[0]}: {done.stderr.strip()}')
    return done.stdout


def tunnels_of(top):
    """Makes the folder of each party, and gives the tunnels of each."""
    nodes.split(NETWORK, top)
    return [Tunnels(nodes.read_fields(os.path.join(top, name)), name, ADDRESSES) for name in NAMES]


def prepare(top):
    """Makes the folder of each party, with its key, the certificates of the others and both configurations, and gives the tunnels of each."""
    tunnels = tunnels_of(top)
    for name in NAMES:
        script('keys', os.path.join(top, name), name)
    for name in NAMES:
        folder = os.path.join(top, name)
        for other in NAMES:
            if other != name:
                shutil.copy(os.path.join(top, other, f'{other}.pem'), folder)
        for part in ('in', 'out'):
            text = script('tunnels', folder, name, part, '--hosts', ','.join(ADDRESSES))
            pathlib.Path(folder, f'{part}.conf').write_text(text)
    return tunnels


def start_tunnels(computers, top, tunnels, part):
    """Starts what is let in, or what goes out, at each party, and waits until it is there."""
    for computer, party in zip(computers.names, tunnels):
        started = computers.start(computer, 'stunnel', f'{part}.conf', cwd=os.path.join(top, party.name), stdout=subprocess.DEVNULL)
        ports = {party.door(other, party.me) if part == 'in' else party.node(party.me, other) for other, _ in party.others}
        await_ports(started, ports, f'stunnel {part}.conf of {party.name}')


class Logins:
    """What 'ssh' needs: at each computer a login for each party, whose key may open one port, an 'sshd', and the keys that its own party knows."""

    def __init__(self, computers, top, tunnels):
        self.computers, self.tunnels, self.numbers = computers, tunnels, {name: FIRST_LOGIN + number for number, name in enumerate(NAMES)}
        self.folders = {name: os.path.join(top, f'computer-of-{name}') for name in NAMES}
        os.chmod(top, 0o755)
        for name, address in zip(NAMES, ADDRESSES):
            self.make_computer(name, address)
        for party in tunnels:
            own = self.file(party.name, party.name, 'id_ed25519')
            self.make_key(own)
            os.chown(own, *2 * [self.numbers[party.name]])
            key = pathlib.Path(f'{own}.pub').read_text()
            for number, other in party.others:
                pathlib.Path(self.file(other, party.name, 'authorized_keys')).write_text(f'{MAY.format(here=HERE, port=party.node(party.me, number))} {key}')
            known = [f'{address} {pathlib.Path(self.folders[name], "host.pub").read_text()}' for name, address in zip(NAMES, ADDRESSES) if name != party.name]
            pathlib.Path(self.file(party.name, party.name, 'known_hosts')).write_text(''.join(known))

    def file(self, computer, login, name):
        """A file of a login at some party's computer."""
        return os.path.join(self.folders[computer], login, '.ssh', name)

    @staticmethod
    def make_key(path):
        subprocess.run(['ssh-keygen', '-q', '-t', 'ed25519', '-N', '', '-f', path], stdin=subprocess.DEVNULL, check=True, capture_output=True)

    def make_computer(self, name, address):
        """The folder of a computer: its logins, its key, and what its 'sshd' goes by."""
        folder = self.folders[name]
        for login in NAMES:
            os.makedirs(os.path.join(folder, login, '.ssh'))
        self.make_key(os.path.join(folder, 'host'))
        pathlib.Path(folder, 'sshd.conf').write_text(SSHD.format(address=address, folder=folder))
        logins = [f'{login}:*:{number}:{number}::{folder}/{login}:/bin/sh\n' for login, number in self.numbers.items()]
        pathlib.Path(folder, 'passwd').write_text(pathlib.Path('/etc/passwd').read_text() + ''.join(logins))

    def start(self, name, line, **how):
        """Starts a line at some party's computer, where its logins are known."""
        mounted = f'mount --bind {self.folders[name]}/passwd /etc/passwd && mount -t tmpfs none /run && mkdir -m 755 /run/sshd && exec {line}'
        return self.computers.start(self.computers.names[NAMES.index(name)], 'sh', '-c', mounted, **how)

    def let_in(self):
        for name in NAMES:
            started = self.start(name, f'/usr/sbin/sshd -D -e -f {self.folders[name]}/sshd.conf', stdout=subprocess.DEVNULL)
            await_ports(started, {22}, f'sshd of {name}')

    def call_ssh(self, name, line):
        """A line of 'ssh', which a party starts at its computer."""
        number = self.numbers[name]
        return self.start(name, f'setpriv --reuid {number} --regid {number} --clear-groups {line}', stdout=subprocess.DEVNULL)

    def go_out(self, top):
        """The lines that nodes.py prints for each party, all of them at once."""
        for party in self.tunnels:
            printed = script('tunnels', os.path.join(top, party.name), party.name, 'ssh', '--hosts', ','.join(ADDRESSES)).splitlines()
            lines = [line for line in printed if not line.startswith('#')]
            expect(len(lines) == len(party.others), f'nodes.py prints {printed}')
            for line, (number, _) in zip(lines, party.others):
                await_ports(self.call_ssh(party.name, line), {party.node(party.me, number)}, f'{line} of {party.name}')


def keys_open_one_port(computers, logins, tunnels):
    """At anna's computer the login of boris takes no key but his, and that opens the port of boris at anna, and not that of chen; it runs no command there, and
    opens no port for others."""
    anna, boris = tunnels[:2]
    own, others = anna.node(1, 0), anna.node(2, 0)
    line = 'ssh -N -o ExitOnForwardFailure=yes -L {0}:{1}:{0}:{1} boris@{2}'
    for name, its_line, status, wanted in [('chen', line.format(HERE, own, ADDRESSES[0]), 255, 'Permission denied'),
                                           ('boris', f'ssh boris@{ADDRESSES[0]} true', 1, ''),
                                           ('boris', f'ssh -N -o ExitOnForwardFailure=yes -R {HERE}:9999:{HERE}:22 boris@{ADDRESSES[0]}', 255, 'remote port forwarding failed')]:
        refused = logins.call_ssh(name, its_line)
        said = refused.communicate(timeout=MOST_SECONDS)[1]
        expect(refused.returncode == status and wanted in said, f'{name}: {its_line}: {refused.returncode} {said!r}')
    expect(MAY.format(here=HERE, port=boris.node(0, 1)) in (NETWORK / 'README.md').read_text(), 'the README has another line of authorized_keys')
    ears = {port: await_ready(computers.start(computers.names[0], sys.executable, '-c', HEAR, HERE, str(port))) for port in (own, others)}
    for port in ears:
        await_ports(logins.call_ssh(boris.name, line.format(HERE, port, ADDRESSES[0])), {port}, 'ssh of boris')
        computers.call(computers.names[1], sys.executable, '-c', THROUGH, HERE, str(port), 'boris')
    computers.call(computers.names[0], sys.executable, '-c', THROUGH, HERE, str(others), 'anna herself')
    heard = {port: ear.communicate(timeout=MOST_SECONDS)[0] for port, ear in ears.items()}
    expect(heard == {own: 'boris\n', others: 'anna herself\n'}, f'through the ports of boris and chen came {heard}')


def nodes_run_behind_tunnels(program, computers, top, tunnels, let_in, go_out):
    """In the order that the README tells: what is let in, all nodes, and then what goes out."""
    seen = os.path.join(top, 'seen')
    await_ready(computers.start(computers.bridge, sys.executable, '-c', WATCH, seen))
    computers.call(computers.names[0], sys.executable, '-c', SAY, ADDRESSES[1], '9', IN_THE_CLEAR.decode())
    let_in()
    running = []
    for computer, party in zip(computers.names, tunnels):
        running.append(computers.start(computer, program, 'node', os.path.join(top, party.name), party.name))
        await_ports(running[-1], {party.node(other, party.me) for other, _ in party.others}, f'the node of {party.name}')
    go_out()
    answers = [node.communicate(timeout=MOST_SECONDS) for node in running]
    found = ''.join(out for out, _ in answers)
    expect(found == (NETWORK / 'expected_nodes').read_text(), f'the nodes write {answers}')
    data = pathlib.Path(seen).read_bytes()
    expect(IN_THE_CLEAR in data and data.count(MARK) == data.count(IN_THE_CLEAR), 'what nodes say is seen on the bridge, or nothing is')
    return len(data)


def others_are_not_let_in(computers, top, tunnels):
    """At the door of boris to anna: nobody without a key, and not chen, but boris."""
    anna = tunnels[0]
    door, place = anna.door(1, 0), anna.node(1, 0)
    ear = await_ready(computers.start(computers.names[0], sys.executable, '-c', HEAR, HERE, str(place)))
    knock = [sys.executable, '-c', KNOCK, ADDRESSES[0], str(door)]
    for words in [['nobody'], ['chen', os.path.join(top, 'chen', 'chen')]]:
        expect(computers.call(computers.names[2], *knock, *words), f'{words[0]} was let in')
    computers.call(computers.names[1], *knock, 'boris', os.path.join(top, 'boris', 'boris'))
    heard = ear.communicate(timeout=MOST_SECONDS)[0]
    expect(heard == 'boris\n', f'through the door of boris came {heard!r}')


def by_stunnel(program, top):
    tunnels = prepare(top)
    with Computers() as computers:
        parts = [lambda part=part: start_tunnels(computers, top, tunnels, part) for part in ('in', 'out')]
        count = nodes_run_behind_tunnels(program, computers, top, tunnels, *parts)
        print(f'tunnels: three nodes behind stunnel, {count} bytes seen on the bridge: as expected', flush=True)
        others_are_not_let_in(computers, top, tunnels)
        print('tunnels: who has no key, or another one, is not let in by stunnel: as expected', flush=True)


def by_ssh(program, top):
    tunnels = tunnels_of(top)
    with Computers() as computers:
        logins = Logins(computers, top, tunnels)
        count = nodes_run_behind_tunnels(program, computers, top, tunnels, logins.let_in, lambda: logins.go_out(top))
        print(f'tunnels: three nodes behind ssh, {count} bytes seen on the bridge: as expected', flush=True)
    with Computers() as computers:
        logins.computers = computers
        logins.let_in()
        keys_open_one_port(computers, logins, tunnels)
        print("tunnels: who has another key is not let in by ssh, and a key opens no other party's port and runs nothing: as expected", flush=True)


WAYS = {'stunnel': by_stunnel, 'ssh': by_ssh}


def main(words):
    ways = words[2:] or list(WAYS)
    if len(words) not in (2, 3) or not set(ways) <= WAYS.keys():
        sys.exit('usage: tunnels.py PROGRAM [stunnel|ssh]')
    program = shutil.which(os.path.abspath(words[1]))
    lacking = [f'program {words[1]}'] * (program is None) + [tool for way in ways for tool in TOOLS[way] if not shutil.which(tool)]
    if sys.platform != 'linux' or os.geteuid() != 0 or lacking:
        sys.exit(f'tunnels: it needs {"Linux" if sys.platform != "linux" else "root" if os.geteuid() != 0 else f"the {lacking[0]}, which is not there"}')
    signal.signal(signal.SIGTERM, lambda *_: sys.exit('tunnels: terminated'))
    try:
        for way in ways:
            with tempfile.TemporaryDirectory() as top:
                WAYS[way](program, top)
    except Wrong as wrong:
        print(f'tunnels: NOT AS EXPECTED: {wrong}')
        return 1
    return 0


if __name__ == '__main__':
    sys.exit(told(main))
