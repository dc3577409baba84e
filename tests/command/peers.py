#!/usr/bin/env python3
"""peers.py PROGRAM FOLDER NAME: one check of what a server does with peers that are idle, slow, many or rude, and what a
mirror does with a server that says nothing. FOLDER has two repositories that may be served: `small`, where revision 1 adds
the file a and has the message hi, and `big`, where revision 1 adds the file f of 1 MiB. The checks make what they need
besides in FOLDER. The status is 0 where all is as it has to be, 77 where the check can't be made here, and else 1 with a
line that says what is wrong.
"""
import os
import resource
import shutil
import signal
import socket
import subprocess
import sys
import threading
import time

IDENTITY = b'6a1f0c3e-0000-4000-8000-000000000001'
# How long anything may take, in seconds, before the check gives up.
LIMIT = 60
LATEST = b'( get-latest-rev ( ) ) '
GREETING = b'( success ( 2 2 ( ) ( edit-pipeline atomic-revprops ) ) ) '


class Wrong(Exception):
    """What is wrong."""


def wants(holds, what):
    if not holds:
        raise Wrong(what)


def free_port():
    with socket.socket() as it:
        it.bind(('127.0.0.1', 0))
        return it.getsockname()[1]


def string(text):
    return b'%d:%s' % (len(text), text)


def client_opening(port):
    """What a client says before its first command."""
    url = b'svn://127.0.0.1:%d/' % port
    return b'( 2 ( edit-pipeline ) ' + string(url) + b' ) ( ANONYMOUS ( 0: ) ) '


def opening(port, identity=IDENTITY):
    """What a server says up to there."""
    url = b'svn://127.0.0.1:%d/' % port
    return (GREETING + b'( success ( ( ANONYMOUS ) ' + string(identity) + b' ) ) ( success ( ) ) ( success ( ' + string(identity)
            + b' ' + string(url) + b' ( ) ) ) ')


def latest(number):
    """The answer to LATEST."""
    return b'( success ( ( ) 0: ) ) ( success ( %d ) ) ' % number


class Server:
    """`serve` of a folder, in the background."""

    def __init__(self, program, folder, connections, *words, shell=None):
        self.port = free_port()
        words = [program, 'serve', folder, '--port', str(self.port), '--connections', str(connections), *words]
        if shell:
            words = ['sh', '-c', shell + ' && exec "$@"', 'sh', *words]
        self.process = subprocess.Popen(words, stdin=subprocess.DEVNULL, stdout=subprocess.PIPE, stderr=subprocess.PIPE)
        line = self.process.stdout.readline()
        wants(line == b'listening on 127.0.0.1:%d\n' % self.port, f'it said {line!r} and {self.process.poll()}')

    def __enter__(self):
        return self

    def __exit__(self, *_):
        self.process.kill()
        self.process.wait()

    def connect(self, **options):
        return connected(self.port, **options)

    def ends(self, errors=b''):
        """It ends by itself with status 0, and said just this on standard error."""
        _, told = self.process.communicate(timeout=LIMIT)
        wants(self.process.returncode == 0, f'its status is {self.process.returncode}')
        wants(told == errors, f'it told {told!r}')


def connected(port, room=None):
    peer = socket.socket()
    if room:
        peer.setsockopt(socket.SOL_SOCKET, socket.SO_RCVBUF, room)
    peer.settimeout(LIMIT)
    peer.connect(('127.0.0.1', port))
    return peer


def rest(peer):
    """All that the peer still sends."""
    told = b''
    while True:
        piece = peer.recv(65536)
        if not piece:
            return told
        told += piece


def asks(server, bytes_sent):
    """All that a server says to a client that sends this and then no more."""
    with server.connect() as peer:
        peer.sendall(client_opening(server.port) + bytes_sent)
        peer.shutdown(socket.SHUT_WR)
        return rest(peer)


def quickly(since, least, most, what):
    took = time.monotonic() - since
    wants(least <= took <= most, f'{what} took {took:.1f} seconds')


# ---- peers that are idle or slow

def idle(program, folder):
    """Two clients say nothing, one at once and one behind its opening, and are let go."""
    with Server(program, f'{folder}/small', 2, '--timeout', '1') as server:
        since = time.monotonic()
        with server.connect() as mute, server.connect() as stalled:
            stalled.sendall(client_opening(server.port))
            wants(rest(mute) == GREETING, 'a mute client is told something else')
            wants(rest(stalled) == opening(server.port), 'a client that stalls is told something else')
            quickly(since, 0.9, 15, 'silence')
        server.ends()


def slow(program, folder):
    """A client that sends a byte now and then, for longer than it may say nothing, has its answer."""
    # (seconds, so that no machine under load lets the client be silent for as long)
    with Server(program, f'{folder}/small', 1, '--timeout', '5') as server:
        since = time.monotonic()
        with server.connect() as peer:
            said = client_opening(server.port) + LATEST
            for byte in said:
                peer.sendall(bytes([byte]))
                time.sleep(6 / len(said))
            peer.shutdown(socket.SHUT_WR)
            wants(rest(peer) == opening(server.port) + latest(1), 'it is told something else')
        quickly(since, 6, 60, 'the session')
        server.ends()


def deaf(program, folder):
    """A client asks for 64 MiB and reads none of it: it is let go, and the server ends."""
    with Server(program, f'{folder}/big', 1, '--timeout', '1') as server:
        since = time.monotonic()
        with server.connect(room=4096) as peer:
            peer.sendall(client_opening(server.port) + b'( get-file ( 1:f ( 1 ) false true ) ) ' * 64)
            server.ends()
            quickly(since, 0.9, 20, 'deafness')


# ---- many peers

def crowd(program, folder):
    """1,024 clients are there at once, and each is answered."""
    most = resource.getrlimit(resource.RLIMIT_NOFILE)[1]
    if most != resource.RLIM_INFINITY and most < 1100:
        print(f'1,024 peers want 1,100 descriptors, and {most} are allowed')
        sys.exit(77)
    resource.setrlimit(resource.RLIMIT_NOFILE, (1100, most))
    with Server(program, f'{folder}/small', 1024, '--timeout', '60') as server:
        peers = [server.connect() for _ in range(1024)]
        for peer in peers:
            peer.sendall(client_opening(server.port) + LATEST)
        due = opening(server.port) + latest(1)
        for peer in peers:
            told = b''
            while len(told) < len(due):
                piece = peer.recv(len(due) - len(told))
                wants(piece, 'a connection ends early')
                told += piece
            wants(told == due, f'a client is told {told!r}')
        for peer in peers:
            peer.close()
        server.ends()


def short(program, folder):
    """40 clients are there at once where the server may have 16 descriptors: all are served, and it tells once."""
    with Server(program, f'{folder}/small', 40, '--timeout', '60', shell='ulimit -n 16') as server:
        peers = [server.connect() for _ in range(40)]
        time.sleep(0.3)
        due = opening(server.port) + latest(1)
        for peer in peers:
            peer.sendall(client_opening(server.port) + LATEST)
            peer.shutdown(socket.SHUT_WR)
        for peer in peers:
            told = rest(peer)
            wants(told == due, f'a client is told {told!r}')
            peer.close()
        server.ends(b'svnfleet: 49 stream failed\n')


def starved(program, folder):
    """Where no connection can be accepted for a while the server takes next to no time of the processor."""
    with Server(program, f'{folder}/small', 12, '--timeout', '60', shell='ulimit -n 16') as server:
        peers = [server.connect() for _ in range(24)]
        time.sleep(0.5)
        before = spent(server.process.pid)
        time.sleep(1)
        wants(spent(server.process.pid) - before <= 0.2, 'it spins')
        for peer in peers:
            peer.close()
        server.ends(b'svnfleet: 49 stream failed\n')


def spent(pid):
    """Seconds of the processor that a process has taken."""
    with open(f'/proc/{pid}/stat') as it:
        fields = it.read().rpartition(')')[2].split()
    return (int(fields[11]) + int(fields[12])) / os.sysconf('SC_CLK_TCK')


# ---- the end of a connection

def drained(program, folder):
    """200 clients send more behind what is no item, and none loses the answers before it."""
    with Server(program, f'{folder}/small', 200, '--timeout', '10') as server:
        due = opening(server.port) + latest(1) * 20
        for _ in range(200):
            with server.connect() as peer:
                peer.sendall(client_opening(server.port) + LATEST * 20 + b') ' + b'x' * 100_000)
                peer.shutdown(socket.SHUT_WR)
                time.sleep(0.002)
                told = rest(peer)
                wants(told == due, f'a client is told {len(told)} bytes of {len(due)}')
        server.ends()


def endless(program, folder):
    """A client that sends on for ever behind what is no item is let go."""
    with Server(program, f'{folder}/small', 1, '--timeout', '10') as server:
        since = time.monotonic()
        with server.connect() as peer:
            peer.sendall(client_opening(server.port) + b') ')
            try:
                while time.monotonic() - since < LIMIT:
                    peer.sendall(b'x' * 1000)
                    time.sleep(0.01)
            except OSError:
                pass
        quickly(since, 0, 15, 'the end')
        server.ends()


# ---- trouble that is told

def trouble(program, folder):
    """A change whose write the device refuses is 31, and later ones are 32: each is told once, and the status is 0."""
    asked = b'( change-rev-prop2 ( 1 7:svn:log ( %s ) ( true ) ) ) ' % string(b'x' * 4000)
    shutil.copytree(f'{folder}/small', f'{folder}/failing')
    refused = b'( success ( ( ) 0: ) ) ( failure ( ( %d %s 0: 0 ) ) ) '
    with Server(program, f'{folder}/failing', 4, '--timeout', '10', shell="trap '' XFSZ && ulimit -f 2") as server:
        told = asks(server, asked)
        wants(told == opening(server.port) + refused % (31, b'13:device failed'), f'the first is told {told!r}')
        for _ in range(3):
            told = asks(server, asked)
            wants(told == opening(server.port) + refused % (32, b'13:failed before'), f'a later one is told {told!r}')
        server.ends(b'svnfleet: 31 device failed\nsvnfleet: 32 failed before\n')


# ---- servers that say nothing

class Silent:
    """Listens, and says so much to each client."""

    def __init__(self, said=b''):
        self.listener = socket.socket()
        self.listener.bind(('127.0.0.1', 0))
        self.listener.listen(8)
        self.port = self.listener.getsockname()[1]
        self.said = said
        self.peers = []
        threading.Thread(target=self.takes, daemon=True).start()

    def takes(self):
        while True:
            try:
                peer, _ = self.listener.accept()
                self.peers.append(peer)
                peer.sendall(self.said(self.port) if callable(self.said) else self.said)
            except OSError:
                return

    def __enter__(self):
        return self

    def __exit__(self, *_):
        self.listener.close()
        for peer in self.peers:
            peer.close()


def ran(program, *words):
    done = subprocess.run([program, *words], stdin=subprocess.DEVNULL, stdout=subprocess.PIPE, stderr=subprocess.PIPE, timeout=LIMIT, check=False)
    return done.returncode, done.stdout, done.stderr


def gives_up(program, *words):
    """A command ends by itself, as one whose server fails, and prints nothing."""
    since = time.monotonic()
    done = ran(program, *words, '--timeout', '1')
    wants(done == (1, b'', b'svnfleet: 60 master: stream failed\n'), f'{words[0]} says {done}')
    quickly(since, 0.9, 20, words[0])


def silent(program, folder):
    """`initialize` and `synchronize` give up on a server that says nothing, at once or behind its opening; a lock that was
    taken is given back, and the next run does what is left."""
    mirror = f'{folder}/silenced'
    wants(ran(program, 'create', mirror, '--uuid', IDENTITY.decode()) == (0, b'', b''), 'no mirror is begun')
    with Silent() as mute, Silent(lambda port: opening(port)) as stalled:
        for server in mute, stalled:
            gives_up(program, 'initialize', mirror, f'svn://127.0.0.1:{server.port}/')
    with Server(program, f'{folder}/small', 2) as server:
        url = f'svn://127.0.0.1:{server.port}/'
        wants(ran(program, 'initialize', mirror, url) == (0, b'Copied properties for revision 0.\n', b''), 'the mirror is not begun')
        with Silent() as mute, Silent(lambda port: opening(port)) as stalled:
            for other in mute, stalled:
                gives_up(program, 'synchronize', mirror, f'svn://127.0.0.1:{other.port}/')
        done = ran(program, 'synchronize', mirror, url)
        wants(done == (0, b'Committed revision 1.\nCopied properties for revision 1.\n', b''), f'the next run says {done}')
        server.ends()


CHECKS = (idle, slow, deaf, crowd, short, starved, drained, endless, trouble, silent)


def main():
    program, folder, name = sys.argv[1:]
    signal.alarm(2 * LIMIT)
    for check in CHECKS:
        if check.__name__ == name:
            try:
                check(program, folder)
            except (Wrong, OSError, subprocess.TimeoutExpired) as fault:
                print(f'{name}: {fault}')
                sys.exit(1)
            return
    sys.exit(f'no check {name}')


if __name__ == '__main__':
    main()
