"""A server of the program's, and what a client of it gets."""
import itertools
import multiprocessing
import re
import socket
from random import SystemRandom

from trials import Differs

# Ports that are taken one behind another, below those that the host gives to clients: 750 for each of sixteen processes.
FIRST, EACH, SHARES = 20000, 750, 16


def ports():
    """This process's ports in a circle, from some one on."""
    share = int(re.search(r'\d*$', multiprocessing.current_process().name)[0] or 0) % SHARES
    begin = SystemRandom().randrange(EACH)
    for number in itertools.count(begin):
        yield FIRST + share * EACH + number % EACH


PORTS = ports()


def free_port():
    """A port that nobody has."""
    while True:
        port = next(PORTS)
        with socket.socket() as it:
            try:
                it.bind(('127.0.0.1', port))
                return port
            except OSError:
                pass


def got(port, data, pieces):
    """What comes back where these bytes are sent and no more, and whether it was cut off."""
    found = b''
    with socket.socket() as line:
        line.settimeout(60)
        line.connect(('127.0.0.1', port))
        line.setsockopt(socket.IPPROTO_TCP, socket.TCP_NODELAY, 1)
        try:
            for at in range(0, len(data), pieces):
                line.sendall(data[at:at + pieces])
            line.shutdown(socket.SHUT_WR)
            while piece := line.recv(1 << 16):
                found += piece
        except OSError as error:
            if isinstance(error, TimeoutError):
                raise
            return found, True
    return found, False


def got_in_steps(port, data, steps):
    """What comes back where no byte is sent before the answers to those in front of it have come, of these lengths, and
    whether it was cut off."""
    found, begin, length = b'', 0, 0
    with socket.socket() as line:
        line.settimeout(60)
        line.connect(('127.0.0.1', port))
        line.setsockopt(socket.IPPROTO_TCP, socket.TCP_NODELAY, 1)
        try:
            for end, more in [*steps, (len(data), 1 << 30)]:
                line.sendall(data[begin:end])
                begin, length = end, length + more
                if more == 1 << 30:
                    line.shutdown(socket.SHUT_WR)
                while len(found) < length and (piece := line.recv(1 << 16)):
                    found += piece
        except OSError as error:
            if isinstance(error, TimeoutError):
                raise
            return found, True
    return found, False


def listening(program, folder, connections, *options):
    """A port and the server that listens on it; where somebody else was given the port meanwhile, another one."""
    for _ in range(5):
        port = free_port()
        run = program.began(['serve', folder, '--port', str(port), '--connections', str(connections), *options], is_piped=True)
        said = program.says(run)
        if said == b'listening on 127.0.0.1:%d\n' % port:
            return port, run
        ended = program.ended(run)
        if ended[0] != (1, b'svnfleet: 49 stream failed\n'):
            break
    raise Differs(f'serve: its line, {said!r}, {ended}')
