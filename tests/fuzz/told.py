"""What a server might tell a client of a history, made from a seed: edits and windows in any spelling that a reader takes,
and some with something wrong."""
import socket
import threading

from asked import sent
from sessions import AUTHORISED, GREETING, Edit, Ends, Input, Word, command, groups
from dumps import Refused

MADE = 102400


def padded(random, number):
    """A number of a window, at times with groups of zeros in front, ten bytes at most."""
    found = groups(number)
    return found if random.random() < 0.91 else b'\x80' * min(random.choice([1, 9]), 10 - len(found)) + found


def one_window(random, text):
    """A window that makes this text, by one instruction or several."""
    cuts = sorted(random.sample(range(1, len(text)), min(len(text) - 1, random.choice([0, 0, 1, 3])))) if len(text) > 1 else []
    lengths = [end - begin for begin, end in zip([0, *cuts], [*cuts, len(text)])] if text else []
    code = b''.join([bytes([128 | it]) if 0 < it < 64 and random.random() < 0.9 else b'\x80' + padded(random, it) for it in lengths])
    head = [random.choice([0, 0, 7, 2 ** 64 - 1]), 0, len(text), len(code), len(text)]
    return b''.join([padded(random, it) for it in head]) + code + text


def loose_chunks(random):
    """Chunks of a text: windows of any lengths, cut anywhere."""
    def chunks(text):
        ends = sorted({random.randrange(len(text) + 1) for _ in range(random.choice([0, 1, 4]))} | {len(text)} | set(range(MADE, len(text), MADE)))
        windows = [one_window(random, text[begin:end]) for begin, end in zip([0, *ends], ends) if begin < end or random.random() < 0.1]
        data = b'SVN\0' + b''.join(windows)
        while data:
            cut = random.choice([1, 2, 5, 17, 1000, 1 << 20])
            yield data[:cut]
            data = data[cut:]
            if random.random() < 0.02:
                yield b''
    return chunks


class Loose:
    """Spells commands of an edit in other ways: other tokens, a slash or none, no sum or one in capitals, something more
    behind the parameters, a close-edit at the end."""

    def __init__(self, random):
        self.random, self.tokens = random, {}

    def token(self, plain):
        if plain not in self.tokens:
            self.tokens[plain] = self.random.choice([b'', b'x', b'(', b'\0']) + b'%d' % len(self.tokens) + b'-' * self.random.choice([0, 0, 40])
        return self.tokens[plain]

    def item(self, item):
        random, name, params = self.random, item[0], item[1]
        at = {b'open-root': 1, b'delete-entry': 2, b'change-dir-prop': 0, b'change-file-prop': 0, b'apply-textdelta': 0, b'textdelta-chunk': 0,
              b'textdelta-end': 0, b'close-file': 0, b'close-dir': 0}.get(bytes(name))
        if at is not None:
            params[at] = self.token(params[at])
        if bytes(name) in (b'add-dir', b'add-file', b'open-dir', b'open-file'):
            params[1:3] = [self.token(params[1]), self.token(params[2])]
            if name.startswith(b'add') and params[3] and random.random() < 0.5:
                params[3][0] = params[3][0][1:]
        if name == b'close-file' and params[1]:
            params[1] = random.choice([[], [params[1][0].upper()], params[1], params[1]])
        if random.random() < 0.02:
            params.append(b'more')
        return item

    def edit(self, said):
        """All commands of an edit, in one spelling."""
        random = self.random
        items = [self.item(Input(it).item()) for it in said]
        if random.random() < 0.3:
            items.insert(len(items) - 1, [Word(b'close-edit'), []])
        return b''.join(sent(random, it) for it in items)


def loose_edit(random, trees, changes):
    return Loose(random).edit(Edit(trees, changes, loose_chunks(random)).said)


def harmed(random, data):
    """Told with something wrong: a byte lost, more, or another, or all behind it lost."""
    at = random.randrange(len(data))
    byte = bytes([random.choice(b'0123456789() \nax:-\x00\x80\xff')])
    return random.choice([data[:at], data[:at] + byte + data[at + 1:], data[:at] + byte + data[at:], data[:at] + data[at + 1:],
                          data[:at] + data[at:at + random.choice([5, 60])] + data[at:]])


class Teller:
    """Tells each client that comes, one behind another, what a server has. What it tells of one thing may be harmed.

    The server names itself by a port of its own, so that what is told hangs on the seed alone."""

    def __init__(self, server, random=None, turn=None):
        self.server, self.random, self.turn, self.told, self.is_over = server, random, turn, 0, False
        self.listener = socket.create_server(('127.0.0.1', 0))
        self.url = 'svn://127.0.0.1:%d/' % self.listener.getsockname()[1]
        self.thread = threading.Thread(target=self.run, daemon=True)
        self.thread.start()

    def run(self):
        while True:
            line, _ = self.listener.accept()
            with line:
                if self.is_over:
                    return
                try:
                    self.talk(line)
                except OSError:
                    pass

    def hello(self, item):
        """A client asks for the URL that it was given."""
        if item[2] != self.url.encode():
            raise Refused(48)
        return self.server.hello(item)

    def tell(self, line, data):
        """Whether the session goes on."""
        self.told += 1
        if self.told - 1 != self.turn:
            line.sendall(data)
            return True
        line.sendall(harmed(self.random, data))
        line.shutdown(socket.SHUT_WR)
        return False

    def talk(self, line):
        line.setsockopt(socket.IPPROTO_TCP, socket.TCP_NODELAY, 1)
        come, answers = b'', [self.hello, self.server.login]
        goes_on = self.tell(line, GREETING)
        while piece := line.recv(1 << 16):
            come += piece
            while goes_on:
                taken = Input(come)
                try:
                    item = taken.item()
                except Ends:
                    break
                come = come[taken.at:]
                answer = answers.pop(0) if answers else self.server.answer
                try:
                    goes_on = self.tell(line, answer(item))
                except Refused as refused:
                    goes_on = self.tell(line, self.server.failure(refused.number))

    def __enter__(self):
        return self

    def __exit__(self, *_):
        # (it is woken and waited for: a thread that is about to accept would else do so at the next one's socket)
        self.is_over = True
        socket.create_connection(self.listener.getsockname()).close()
        self.thread.join()
        self.listener.close()
