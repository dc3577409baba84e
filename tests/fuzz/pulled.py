"""A mirror that is told edits made from a seed, one behind another, each beside what editing.py receives of it."""
import socket
import tempfile

from dumps import Refused
from editing import DeltaEdit, Edit, Items
from sessions import AUTHORISED, DONE as SUCCESS, GREETING, Ends, Input, Server, Word, command, success
from dumps import History, node
from trials import DONE, TEXTS, UUID, Differs, reached

MIRROR = '6a1f0c3e-0000-4000-8000-0000000000c1'
NEWEST = 65535


def judged(edit, data):
    """The tree that an edit's bytes come to, with the answer behind it, or the number that they are refused for."""
    items = Items(data)
    try:
        tree = edit.received(items)
        item = items.next()
        if not (type(item) is list and len(item) > 1 and type(item[0]) is Word and item[0] == b'success' and type(item[1]) is list):
            raise Refused(60)
        return tree, None
    except Refused as refused:
        return None, refused.number


def line_of(number):
    return b'svnfleet: 60 master: %s\n' % (b'refused' if number == 60 else TEXTS[number].encode())


class Mirror:
    """A mirror in a folder, and the peer that tells it. Its revisions are those that were well told."""

    def __init__(self, program, room, random, is_by_deltas):
        self.program, self.folder, self.random, self.is_by_deltas = program, f'{room}/mirror', random, is_by_deltas
        self.trees, self.props, self.is_committed = [{(): node(b'dir', {}, None, 0)}], [{}], False
        self.listener = socket.create_server(('127.0.0.1', 0))
        self.listener.settimeout(60)
        self.url = 'svn://127.0.0.1:%d/' % self.listener.getsockname()[1]
        self.server = Server(self.trees, self.props, [], UUID, self.url.encode(), TEXTS)
        self.line, self.come, self.lines = None, Input(b''), []
        # whether all answers of a session are told before anything is asked: what is to be told then, and asked behind it
        self.is_ahead, self.ahead, self.due = False, [], []
        # how often something is said in pieces: seldom, where the program's reads are cut in some runs, which is cheaper
        self.pieces = 0.001 if program.waits else 0.02
        program.ran(['create', self.folder, '--uuid', MIRROR], b'', (DONE, b''))

    # ---- a session

    def item(self):
        """The client's next item, or None where it has gone."""
        while True:
            at = self.come.at
            if at < len(self.come.data):
                try:
                    return self.come.item()
                except Ends:
                    # (more of it is to come)
                    pass
            try:
                piece = self.line.recv(1 << 16)
            except ConnectionResetError:
                # (it has gone with something unread, by which what it asked may be lost)
                piece, self.is_reset = b'', True
            if not piece:
                return None
            self.come = Input(self.come.data[at:] + piece)

    def say(self, data):
        if self.is_ahead:
            self.ahead.append(data)
        else:
            self.tell(data)

    def tell(self, data):
        size = self.random.choice([1, 7]) if self.random.random() < self.pieces else max(len(data), 1)
        try:
            for at in range(0, len(data), size):
                self.line.sendall(data[at:at + size])
        except (BrokenPipeError, ConnectionResetError):
            # (the client has gone: it says why)
            pass

    def end(self):
        try:
            self.line.shutdown(socket.SHUT_WR)
        except OSError:
            pass

    def asked(self, name, *params):
        self.hears([Word(name), [*params]])

    def hears(self, wanted):
        """The client's next item is this one, or one that a call answers with these bytes."""
        if self.is_ahead:
            self.due.append(wanted)
        else:
            self.judge(wanted, self.item())

    def judge(self, wanted, item):
        if item is None and self.is_reset:
            return
        if type(wanted) is tuple and item is not None:
            call, answer = wanted
            is_well = call(item) == answer
        else:
            is_well = item == wanted
        if not is_well:
            raise Differs(f'it asks {item}, and not {wanted}')

    def flush(self, is_last):
        """Tells what is to be told ahead, and nothing more where that is so, and hears what is asked."""
        self.is_ahead = False
        if self.ahead:
            self.tell(b''.join(self.ahead))
        if is_last:
            self.end()
        for it in self.due:
            self.judge(it, self.item())
        self.ahead, self.due = [], []

    def opening(self):
        self.say(GREETING)
        answer = success([Word(b'ANONYMOUS')], UUID)
        self.hears((self.server.hello, answer))
        self.say(answer)
        answer = SUCCESS + success(UUID, self.url.encode(), [])
        self.hears((self.server.login, answer))
        self.say(answer)

    def copy(self):
        """The head's properties are asked for."""
        head = len(self.trees) - 1
        self.asked(b'rev-proplist', head)
        self.say(AUTHORISED + success([[name, it] for name, it in sorted(self.props[head].items())]))
        self.lines.append(b'Copied properties for revision %d.\n' % head)

    def session(self, inputs):
        """A synchronisation's session: the number that it is refused for in the end."""
        self.opening()
        if self.is_committed:
            self.copy()
            self.is_committed = False
        self.asked(b'get-latest-rev')
        self.say(AUTHORISED + success(NEWEST))
        while True:
            number = len(self.trees)
            self.asked(b'replay-range', number, number, 0, Word(b'true'))
            props = {b'svn:log': b'%d' % number}
            given = next(inputs, None)
            if given is None:
                self.say(AUTHORISED + command(b'failure', [21, b'x', b'', 0]))
                return 60
            data, may_wait = given
            tree, fault = judged((DeltaEdit if self.is_by_deltas else Edit)(self.trees), data)
            reached(fault)
            self.say(AUTHORISED + command(b'revprops', *([name, it] for name, it in sorted(props.items()))) + data)
            if may_wait:
                self.flush(True)
            if fault is not None:
                return fault
            self.trees.append(tree)
            self.props.append(props)
            self.lines.append(b'Committed revision %d.\n' % number)
            if may_wait:
                # (the next answer doesn't come)
                self.is_committed = True
                return 60
            self.copy()

    # ---- runs

    def held(self, words, session):
        """Runs a command beside a session, and holds it to its lines and to what that is refused for."""
        self.lines, self.come, self.is_reset = [], Input(b''), False
        run = self.program.began(words, pieces=self.random.choice([1, 7]) if self.random.random() < 0.02 else 0)
        try:
            self.line, _ = self.listener.accept()
            with self.line:
                self.line.setsockopt(socket.IPPROTO_TCP, socket.TCP_NODELAY, 1)
                self.line.settimeout(60)
                self.is_ahead = self.random.random() < 0.75
                fault = session()
                self.flush(False)
                while self.item() is not None:
                    pass
        finally:
            found = self.program.ended(run)
        wanted = ((1, line_of(fault)) if fault else DONE), b''.join(self.lines)
        if found != wanted:
            raise Differs(f'{words[0]}: {found} and not {wanted}')

    def begin(self):
        def session():
            self.opening()
            self.copy()
        self.held(['initialize', self.folder, self.url], session)

    def synchronise(self, inputs):
        self.held(['synchronize', *['--deltas'] * self.is_by_deltas, self.folder, self.url], lambda: self.session(inputs))

    def seen(self):
        """The mirror's dump has the revisions that were well told."""
        found, head = dumped(self.program, self.folder)
        if head != len(self.trees) - 1:
            raise Differs(f'the mirror has {head} revisions and not {len(self.trees) - 1}')
        for number, tree in enumerate(self.trees):
            if found.trees[number] != tree or (number and found.props[number] != self.props[number]):
                differ = [it for it in sorted({*tree, *found.trees[number]}) if tree.get(it) != found.trees[number].get(it)]
                raise Differs(f'revision {number} differs at {differ}')

    def close(self):
        self.listener.close()


def dumped(program, folder):
    done, output = program.ended(program.began(['dump', folder]))
    history = History(output)
    if done != DONE or history.fault:
        raise Differs(f'dump: {done}, {history.fault}')
    return history, len(history.trees) - 1


def pulled(program, random, inputs, count, is_by_deltas=False):
    """Tells a mirror all inputs, of which each synchronisation takes those up to one that is refused."""
    with tempfile.TemporaryDirectory(prefix='svnfleet-fuzz-') as room:
        mirror = Mirror(program, room, random, is_by_deltas)
        try:
            mirror.begin()
            told = [0]
            given = counted(inputs(mirror), count, told)
            while told[0] < count:
                mirror.synchronise(given)
            mirror.seen()
        finally:
            mirror.close()


def counted(inputs, count, told):
    for _ in range(count):
        told[0] += 1
        yield next(inputs)
