"""Sessions of the ra_svn protocol, answered once more in plain Python, as docs/FORMATS.md says it, and made from a seed.

What came of a client is read as items, and each answered out of the dictionaries that dumps.py makes of a history. It
shares nothing with the program. An edit is spelled by one walk over a revision's changes.
"""
import collections
import hashlib
import re

from dumps import Refused, applied, is_text, path_of

GREETING = b'( success ( 2 2 ( ) ( edit-pipeline atomic-revprops ) ) ) '
AUTHORISED = b'( success ( ( ) 0: ) ) '
DONE = b'( success ( ) ) '
PIECE, VALUE = 65536, 65536


class Word(bytes):
    """A word, beside strings (bytes), numbers (int) and lists."""


class Ends(Exception):
    """The input ends in an item, or has a fault there."""


# ---- items

# An item, or the front of one that goes on, with what has to stand behind it.
TOKEN = re.compile(rb'[ \n]*(?:(?P<length>[0-9]+):|(?:(?P<number>[0-9]+)|(?P<word>[A-Za-z][A-Za-z0-9-]{0,63})|(?P<list>\()|(?P<end>\)))[ \n])')


class Input:
    """What came of a client, and a place in it."""

    def __init__(self, data):
        self.data, self.at = data, 0

    def item(self, depth=0):
        """The next item, and one white space behind it; None at the end of the list around it."""
        found = TOKEN.match(self.data, self.at)
        if not found:
            raise Ends()
        kind, self.at = found.lastgroup, found.end()
        if kind == 'list':
            return self.list(depth + 1)
        if kind == 'length':
            return self.string(int(found[kind]))
        if kind == 'word':
            return Word(found[kind])
        if kind == 'end' and depth:
            return None
        if kind == 'end' or int(found[kind]) >= 2 ** 64:
            raise Ends()
        return int(found[kind])

    def string(self, length):
        end = self.at + length
        if length > 1048576 or self.data[end:end + 1] not in (b' ', b'\n'):
            raise Ends()
        found, self.at = self.data[self.at:end], end + 1
        return found

    def list(self, depth):
        if depth > 16:
            raise Ends()
        found = []
        while (item := self.item(depth)) is not None:
            found.append(item)
        return found


def items(data):
    """The whole items before the input ends or has a fault."""
    come = Input(data)
    while True:
        try:
            yield come.item()
        except Ends:
            return


def spelled(item):
    """An item in the one spelling that is written."""
    kind = type(item)
    if kind is list:
        return b'( %b) ' % b''.join([spelled(it) for it in item])
    if kind is bytes:
        return b'%d:%b ' % (len(item), item)
    if kind is Word:
        return item + b' '
    if kind is bool:
        return b'true ' if item else b'false '
    return b'%d ' % item


def success(*content):
    return spelled([Word(b'success'), [*content]])


def command(name, *params):
    return spelled([Word(name), [*params]])


# ---- parameters

def is_a(item, kind):
    return type(item) is kind


def wanted(is_well):
    """Refuses (48) what has another form."""
    if not is_well:
        raise Refused(48)


class Params:
    """A command's parameters, taken from the front."""

    def __init__(self, found):
        self.found, self.at = found, 0

    def is_more(self):
        return self.at < len(self.found)

    def next(self, kind):
        wanted(self.is_more() and is_a(self.found[self.at], kind))
        self.at += 1
        return self.found[self.at - 1]

    def bool(self):
        word = self.next(Word)
        wanted(word in (b'true', b'false'))
        return word == b'true'

    def path(self):
        try:
            return path_of(self.next(bytes))
        except Refused:
            raise Refused(48) from None

    def name(self):
        name = self.next(bytes)
        wanted(len(name) <= 255 and is_text(name))
        return name

    def maybe(self, kind):
        """What stands in a list of at most one."""
        found = Params(self.next(list))
        return found.next(kind) if found.is_more() else None


# ---- edits

def parts(change, old, token, chunks, known):
    """What a change gives a node that had these properties, but for those that are known; its text in these chunks."""
    kind = change.kind
    if change.props is not None:
        name = b'change-file-prop' if kind == b'file' else b'change-dir-prop'
        for it in sorted(old):
            if it not in change.props:
                yield command(name, token, it, [])
        for it in sorted(change.props):
            if known.get(it) != change.props[it]:
                yield command(name, token, it, [change.props[it]])
    if change.text is not None:
        yield command(b'apply-textdelta', token, [])
        for chunk in chunks(change.text):
            yield command(b'textdelta-chunk', token, chunk)
        yield command(b'textdelta-end', token)


def groups(number):
    """A number of a window, in groups of seven bits."""
    found = [number & 127]
    while number := number >> 7:
        found.append(number & 127 | 128)
    return bytes(reversed(found))


def window(text):
    length = groups(len(text))
    instruction = bytes([128 | len(text)]) if len(text) < 64 else b'\x80' + length
    return b'\0\0' + length + groups(len(instruction)) + length + instruction + text


def plain_chunks(text):
    """A text as a server sends it: the version, then a window of at most 65,536 bytes in each chunk."""
    yield b'SVN\0'
    for at in range(0, len(text), PIECE):
        yield window(text[at:at + PIECE])


class Edit:
    """The commands that show a revision's changes over the trees before it."""

    LAST = b'finish-replay'

    def __init__(self, trees, changes, chunks=plain_chunks, number=None, base=None):
        self.trees, self.given, self.chunks = trees, 0, chunks
        self.base = [base] if base is not None else [len(trees) - 1] if trees else []
        self.open, self.said = [], [command(b'target-rev', len(trees) if number is None else number)]
        self.enter((), b'open-root', self.base)
        for at, change in enumerate(changes):
            self.show(change, changes[:at])
        self.leave_to(None)
        self.said.append(command(self.LAST))

    def beside(self, _path, _token, _name):
        """What is told of what is opened or added, beside what changes."""
        return []

    def known(self, _old):
        """Which properties aren't given, of those that a node had."""
        return {}

    def props_at(self, path, done):
        """The properties of what is opened, behind the changes that are done."""
        return applied(self.trees, done)[path]['props']

    def token(self):
        self.given += 1
        return b't%d' % (self.given - 1)

    def enter(self, path, name, *params):
        """Opens a directory, whose token stands behind its path and its directory's token, or behind the root's base."""
        token = self.token()
        front = [b'/'.join(path), self.open[-1][1], token, *params] if path else [*params, token]
        self.said.append(command(name, *front))
        self.said += self.beside(path, token, b'change-dir-prop')
        self.open.append((path, token))

    def leave_to(self, path):
        """Closes what isn't above a path, or it."""
        while self.open and (path is None or path[:len(self.open[-1][0])] != self.open[-1][0]):
            self.said.append(command(b'close-dir', self.open.pop()[1]))

    def show(self, change, done):
        path = change.path
        self.leave_to(path)
        while path and len(self.open[-1][0]) < len(path) - 1:
            self.enter(path[:len(self.open[-1][0]) + 1], b'open-dir', self.base)
        if change.action in (b'delete', b'replace'):
            self.said.append(command(b'delete-entry', b'/'.join(path), self.base, self.open[-1][1]))
        if change.action != b'delete':
            self.give(change, path, done)

    def give(self, change, path, done):
        is_made, kind = change.action in (b'add', b'replace'), change.kind
        params = [self.base]
        if is_made:
            params = [[b'/' + b'/'.join(change.source[0]), change.source[1]] if change.source else []]
        old = {}
        if change.source:
            old = self.trees[change.source[1]][change.source[0]]['props']
        elif not is_made:
            old = self.props_at(path, done)
        name = (b'add-' if is_made else b'open-') + kind
        if kind == b'dir':
            if path:
                self.enter(path, name, *params)
            self.said += parts(change, old, self.open[-1][1], self.chunks, self.known(old))
            return
        token = self.token()
        self.said.append(command(name, b'/'.join(path), self.open[-1][1], token, *params))
        self.said += self.beside(path, token, b'change-file-prop')
        self.said += parts(change, old, token, self.chunks, self.known(old))
        sum = [hashlib.md5(change.text).hexdigest().encode()] if change.text is not None else []
        self.said.append(command(b'close-file', token, sum))


# ---- the server

class Server:
    """A repository as its clients see it: each revision's tree, properties and changes."""

    def __init__(self, trees, props, edits, identity, url, texts):
        self.trees, self.props, self.edits = trees, [dict(it) for it in props], edits
        self.identity, self.url, self.texts = identity, url, texts
        self.is_mirror = b'svn:sync-from-url' in self.props[0]
        # how often each refusal was answered
        self.refused = collections.Counter()

    def failure(self, number):
        self.refused[number] += 1
        return spelled([Word(b'failure'), [[number, self.texts[number].encode(), b'', 0]]])

    def session(self, data):
        """All that a client gets that sends these bytes."""
        come, told = items(data), [GREETING]
        try:
            told.append(self.hello(next(come)))
            told.append(self.login(next(come)))
            for item in come:
                told.append(self.answer(item))
        except StopIteration:
            pass
        except Refused as refused:
            told.append(self.failure(refused.number))
        except Ends as end:
            told.append(end.args[0])
        return b''.join(told)

    def hello(self, item):
        wanted(is_a(item, list))
        params = Params(item)
        wanted(params.next(int) == 2)
        wanted(all(is_a(it, Word) for it in params.next(list)))
        params.next(bytes)
        return success([Word(b'ANONYMOUS')], self.identity)

    def login(self, item):
        wanted(is_a(item, list))
        params = Params(item)
        mechanism = params.next(Word)
        params.maybe(bytes)
        if mechanism != b'ANONYMOUS':
            raise Ends(b'( failure ( 14:only ANONYMOUS ) ) ')
        return DONE + success(self.identity, self.url, [])

    def answer(self, item):
        try:
            wanted(is_a(item, list) and len(item) > 1 and is_a(item[0], Word) and is_a(item[1], list))
            name = 'at_' + item[0].decode().replace('-', '_')
            if not hasattr(self, name):
                return self.failure(47)
            # (a command's form is judged before anything is looked at)
            answered = getattr(self, name)(Params(item[1]))
        except Refused as refused:
            return self.failure(refused.number)
        try:
            return AUTHORISED + answered()
        except Refused as refused:
            return AUTHORISED + self.failure(refused.number)

    def number(self, number):
        number = len(self.trees) - 1 if number is None else number
        if number >= len(self.trees):
            raise Refused(21)
        return number

    def node(self, path, number):
        found = self.trees[self.number(number)].get(path)
        if found is None:
            raise Refused(11)
        return found

    def listed(self, props):
        return [[name, props[name]] for name in sorted(props)]

    def at_get_latest_rev(self, _params):
        return lambda: success(len(self.trees) - 1)

    def at_check_path(self, params):
        path, number = params.path(), params.maybe(int)

        def answered():
            found = self.trees[self.number(number)].get(path)
            return success(Word(found['kind'] if found else b'none'))
        return answered

    def at_get_file(self, params):
        path, number, has_props, has_text = params.path(), params.maybe(int), params.bool(), params.bool()

        def answered():
            found = self.node(path, number)
            if found['kind'] == b'dir':
                raise Refused(17)
            text = found['text']
            sum, props = hashlib.md5(text).hexdigest().encode(), self.listed(found['props']) if has_props else []
            pieces = [text[at:at + PIECE] for at in range(0, len(text), PIECE)] + [b'']
            return success([sum], self.number(number), props) + (b''.join(map(spelled, pieces)) + DONE if has_text else b'')
        return answered

    def at_get_dir(self, params):
        path, number, has_props, has_entries = params.path(), params.maybe(int), params.bool(), params.bool()
        if params.is_more():
            # (the fields that are asked for: all are given)
            params.next(list)

        def answered():
            found, tree = self.node(path, number), self.trees[self.number(number)]
            if found['kind'] == b'file':
                raise Refused(13)
            inside = [it for it in sorted(tree) if len(it) == len(path) + 1 and it[:-1] == path] if has_entries else []
            entries = [[it[-1], Word(tree[it]['kind']), len(tree[it]['text'] or b''), bool(tree[it]['props']),
                        tree[it]['changed'], [], []] for it in inside]
            return success(self.number(number), self.listed(found['props']) if has_props else [], entries)
        return answered

    def at_rev_proplist(self, params):
        number = params.next(int)
        return lambda: success(self.listed(self.props[self.number(number)]))

    def at_rev_prop(self, params):
        number, name = params.next(int), params.name()

        def answered():
            props = self.props[self.number(number)]
            return success([props[name]] if name in props else [])
        return answered

    def at_change_rev_prop(self, params):
        number, name = params.next(int), params.name()
        value = params.next(bytes) if params.is_more() else None
        return lambda: self.change(number, name, value, lambda found: True)

    def at_change_rev_prop2(self, params):
        number, name, value, condition = params.next(int), params.name(), params.maybe(bytes), Params(params.next(list))
        is_free = condition.bool()
        previous = condition.next(bytes) if condition.is_more() else None
        wanted(not is_free or previous is None)
        return lambda: self.change(number, name, value, lambda found: is_free or found == previous)

    def change(self, number, name, value, holds):
        if self.is_mirror:
            raise Refused(24)
        props = self.props[self.number(number)]
        if not holds(props.get(name)):
            raise Refused(22)
        if value is not None and len(value) > VALUE:
            raise Refused(8)
        if value is None:
            props.pop(name, None)
        else:
            props[name] = value
        return DONE

    def replayed(self, params, count):
        numbers, low, deltas = [params.next(int) for _ in range(count)], params.next(int), params.bool()

        def checked():
            if low != 0 or not deltas:
                raise Refused(43)
            return [self.number(it) for it in numbers]
        return checked

    def at_replay(self, params):
        checked = self.replayed(params, 1)
        return lambda: self.edits[checked()[0]] + DONE

    def at_replay_range(self, params):
        checked = self.replayed(params, 2)

        def answered():
            first, last = checked()
            told = b''.join(command(b'revprops', *self.listed(self.props[it])) + self.edits[it] for it in range(first, last + 1))
            return told + DONE
        return answered
