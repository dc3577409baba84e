"""Edits and windows as a client receives them, read once more in plain Python, as docs/FORMATS.md and docs/MODEL.md say
it, and made from a seed.

It shares nothing with the program: an edit's bytes are at hand, and the tree that it makes is a dictionary as in dumps.py,
changed call by call. A refusal is raised with its number; 60 is the peer's own failure.
"""
import hashlib
import re

import deltas
from asked import sent
from dumps import Refused, below, is_text, node, path_of
from made import PROPS, name_of, props_of, some
from sessions import Word
from told import loose_chunks

MADE, TEXT, VALUE = 102400, 1048576, 65536
BLANKS, NUMBER, WORD = (re.compile(it) for it in (rb'[ \n]*', rb'[0-9]*', rb'[A-Za-z][A-Za-z0-9-]*'))
# an item, or the front of one, that is well whatever its value
TOKEN = re.compile(rb'[ \n]*(?:(?P<length>[0-9]{1,6}):|(?:(?P<number>[0-9]{1,19})|(?P<word>[A-Za-z][A-Za-z0-9-]{0,63})|(?P<list>\()|(?P<end>\)))[ \n])')


# ---- items, with the number of what is wrong

class Items:
    """Bytes that came, and a place in them."""

    def __init__(self, data):
        self.data, self.at = data, 0

    def peek(self):
        if self.at == len(self.data):
            raise Refused(7)
        return self.data[self.at]

    def skip(self):
        self.at = BLANKS.match(self.data, self.at).end()

    def white(self):
        if self.peek() not in b' \n':
            raise Refused(41)
        self.at += 1

    def next(self):
        """The next item, or None where the bytes end between two."""
        self.skip()
        return None if self.at == len(self.data) else self.item(0)

    def item(self, depth):
        """An item and the white space behind it, or None at the end of the list around it."""
        found = TOKEN.match(self.data, self.at)
        kind = found.lastgroup if found else None
        if kind is None or kind == 'end' and not depth:
            return self.other(depth)
        self.at = found.end()
        if kind == 'length':
            return self.string(int(found[kind]))
        if kind == 'list':
            return self.list(depth)
        if kind == 'word':
            return Word(found[kind])
        return int(found[kind]) if kind == 'number' else None

    def list(self, depth):
        if depth == 16:
            raise Refused(42)
        found = []
        while (item := self.item(depth + 1)) is not None:
            found.append(item)
        return found

    def string(self, length):
        if length > TEXT:
            raise Refused(8)
        found = self.data[self.at:self.at + length]
        if len(found) < length:
            raise Refused(7)
        self.at += length
        self.white()
        return found

    def other(self, depth):
        """What the pattern doesn't take: a number of many digits, or an item with something wrong."""
        self.skip()
        first = self.peek()
        if 48 <= first <= 57:
            return self.number_or_string()
        if first == 40 and depth == 16:
            raise Refused(42)
        if first == 40 or first == 41 and depth:
            self.at += 1
        else:
            self.word()
        # (here it isn't white, as the pattern has it)
        return self.white()

    def word(self):
        found = WORD.match(self.data, self.at)
        if not found:
            raise Refused(41)
        if found.end() - self.at > 64:
            raise Refused(8)
        self.at = found.end()

    def number_or_string(self):
        found = NUMBER.match(self.data, self.at)
        number, self.at = int(found[0]), found.end()
        if number >= 2 ** 64:
            raise Refused(41)
        if self.peek() == 58:
            self.at += 1
            return self.string(number)
        self.white()
        return number


# ---- windows

class Windows:
    """A text, as the bytes of its windows come."""

    def __init__(self):
        # how many bytes are left of the instructions, and how many of the text then
        self.text, self.is_between, self.rest, self.new = bytearray(), False, 0, 0
        self.run = self.read()
        next(self.run)

    def feed(self, piece):
        at = 0
        while at < len(piece):
            if self.new:
                part = piece[at:at + self.new]
                self.text += part
                self.new -= len(part)
                at += len(part)
            else:
                self.run.send(piece[at])
                at += 1

    def finish(self):
        if not self.is_between or self.new:
            raise Refused(44)

    def number(self, byte):
        """A number whose first byte this is."""
        found, count = 0, 1
        while True:
            found = found << 7 | byte & 127
            if found >= 2 ** 64 or (byte > 127 and count == 10):
                raise Refused(44)
            if byte < 128:
                return found
            byte, count = (yield), count + 1

    def code(self):
        """A byte of the instructions, of which one more is due."""
        if self.rest == 0:
            raise Refused(44)
        self.rest -= 1
        return (yield)

    def instruction(self):
        """An instruction's length."""
        byte = yield from self.code()
        if byte < 128:
            raise Refused(45)
        if byte > 191:
            raise Refused(44)
        found, count = byte & 63, 0
        if not found:
            while True:
                if self.rest == 0:
                    raise Refused(44)
                byte, count = (yield from self.code()), count + 1
                found = found << 7 | byte & 127
                if found >= 2 ** 64 or (byte > 127 and count == 10):
                    raise Refused(44)
                if byte < 128:
                    break
        if found == 0:
            raise Refused(44)
        return found

    def window(self, first):
        """A window but for its new data."""
        numbers = [(yield from self.number(first))]
        while len(numbers) < 5:
            numbers.append((yield from self.number((yield))))
        _, source, made, self.rest, new = numbers
        if made > MADE or new > MADE or len(self.text) + made > TEXT:
            raise Refused(8)
        if source:
            raise Refused(45)
        lengths = 0
        while self.rest:
            lengths += yield from self.instruction()
        if (lengths, lengths) != (made, new):
            raise Refused(44)
        self.new = new

    def read(self):
        for wanted in b'SVN\0':
            if (yield) != wanted:
                raise Refused(44)
        while True:
            self.is_between = True
            first = yield
            self.is_between = False
            yield from self.window(first)


class Differences(Windows):
    """The same of windows that make the text of a base."""

    def __init__(self, base):
        self.base, self.data, self.text, self.is_between = base, b'', b'', False

    def feed(self, piece):
        self.data += piece
        try:
            self.text, self.is_between = deltas.front(self.data, self.base)
        except deltas.Refused as refused:
            raise Refused(refused.number) from None

    def finish(self):
        if not self.is_between:
            raise Refused(44)


# ---- what the calls of an edit make

class Build:
    """The tree that the calls shown so far make."""

    def __init__(self, trees):
        self.trees, self.number, self.tree = trees, len(trees), dict(trees[-1])
        self.begun, self.deleted = set(), set()

    def mark(self, path):
        for it in [path] if path in self.tree else []:
            self.tree[it] = {**self.tree[it], 'changed': self.number}
        for count in range(len(path)):
            self.tree[path[:count]] = {**self.tree[path[:count]], 'changed': self.number}

    def above(self, path):
        for count in range(len(path)):
            if path[:count] not in self.tree:
                raise Refused(11)
            if self.tree[path[:count]]['kind'] == b'file':
                raise Refused(13)

    def begin(self, path):
        if path in self.begun:
            raise Refused(15)

    def opened(self, path, kind):
        self.begin(path)
        self.above(path)
        if path not in self.tree:
            raise Refused(11)
        if self.tree[path]['kind'] != kind:
            raise Refused(17)
        self.begun.add(path)
        self.mark(path)

    def added(self, path, kind, source):
        if not path:
            raise Refused(10)
        self.begin(path)
        self.above(path)
        if path in self.tree:
            raise Refused(12)
        made = {path: node(kind, {}, b'' if kind == b'file' else None, self.number)}
        if source:
            front, revision = source
            if revision >= self.number or front not in self.trees[revision]:
                raise Refused(14)
            if self.trees[revision][front]['kind'] != kind:
                raise Refused(17)
            made = {path + it[len(front):]: self.trees[revision][it] for it in below(self.trees[revision], front)}
            if any(len(b'/'.join(it)) > 1024 or len(it) > 64 for it in made):
                raise Refused(8)
        self.tree |= made
        self.begun.add(path)
        self.mark(path)

    def removed(self, path):
        if not path:
            raise Refused(10)
        if path in self.begun or any(len(it) > len(path) for it in below([*self.begun, *self.deleted], path)):
            raise Refused(15)
        self.above(path)
        if path not in self.tree:
            raise Refused(11)
        for it in below(self.tree, path):
            del self.tree[it]
        self.deleted.add(path)
        self.mark(path)

    def prop(self, path, name, value):
        if value is not None and len(value) > VALUE:
            raise Refused(8)
        props = dict(self.tree[path]['props'])
        props.pop(name, None)
        if value is not None:
            props[name] = value
        self.tree[path] = {**self.tree[path], 'props': props}

    def text(self, path, text):
        self.tree[path] = {**self.tree[path], 'text': text}


# ---- what the commands of an edit are

def wanted(is_well, number=48):
    if not is_well:
        raise Refused(number)


class Given:
    """A command's parameters, taken from the front."""

    def __init__(self, found):
        self.found, self.at = found, 0

    def next(self, kind):
        wanted(self.at < len(self.found) and type(self.found[self.at]) is kind)
        self.at += 1
        return self.found[self.at - 1]

    def path(self, may_have_slash=False):
        spelled = self.next(bytes)
        wanted(may_have_slash or not spelled.startswith(b'/'))
        try:
            return path_of(spelled)
        except Refused:
            raise Refused(48) from None

    def revision(self):
        number = self.next(int)
        wanted(number <= 65535)
        return number

    def name(self):
        name = self.next(bytes)
        wanted(len(name) <= 255 and is_text(name))
        return name

    def sum(self):
        """A sum in hexadecimal digits, where one is given."""
        sum = self.maybe(lambda it: it.next(bytes))
        wanted(sum is None or len(sum) == 32 and all(it in b'0123456789abcdefABCDEF' for it in sum))
        return sum

    def maybe(self, take):
        """What a list has that is empty or holds something."""
        found = self.next(list)
        return take(Given(found)) if found else None


class Edit:
    """An edit as it is received, over the trees before it."""

    def __init__(self, trees):
        self.build, self.has_target, self.has_root, self.is_ended = Build(trees), False, False, False
        # what is open, the innermost last: its token, kind and path
        self.open = []
        # the open file's text: None before it, a reader in it, and the text behind it
        self.text = None

    def received(self, items):
        """The tree of the edit that these items have in front."""
        while True:
            item = items.next()
            wanted(item is not None)
            if self.takes(item):
                self.build.mark(())
                return self.build.tree

    def takes(self, item):
        """Takes a command. Whether it was the last one."""
        wanted(type(item) is list and len(item) > 1 and type(item[0]) is Word and type(item[1]) is list)
        name, params = item[0], Given(item[1])
        # (behind close-edit nothing but the end comes)
        wanted(not self.is_ended or name == b'finish-replay')
        if name == b'failure':
            raise Refused(60)
        wanted(name in COMMANDS)
        return COMMANDS[name](self, params)

    def innermost(self, token, kind):
        wanted(bool(self.open) and self.open[-1][:2] == (token, kind), 46)
        return self.open[-1][2]

    def enter(self, token, kind, path):
        self.open.append((token, kind, path))

    def is_new(self, token):
        wanted(all(it[0] != token for it in self.open), 46)

    def at_target_rev(self, params):
        number = params.revision()
        wanted(not self.has_target and not self.has_root)
        wanted(number == self.build.number, 16)
        self.has_target = True

    def at_open_root(self, params):
        params.maybe(Given.revision)
        token = params.next(bytes)
        wanted(not self.has_root)
        self.has_root = True
        self.build.begun.add(())
        self.enter(token, b'dir', ())

    def at_delete_entry(self, params):
        path, _, token = params.path(), params.maybe(Given.revision), params.next(bytes)
        self.innermost(token, b'dir')
        self.build.removed(path)

    def added(self, params, kind):
        path, up, token = params.path(), params.next(bytes), params.next(bytes)
        source = params.maybe(lambda it: (it.path(True), it.revision()))
        self.innermost(up, b'dir')
        self.is_new(token)
        self.build.added(path, kind, source)
        self.enter(token, kind, path)
        self.text = None

    def opened(self, params, kind):
        path, up, token, _ = params.path(), params.next(bytes), params.next(bytes), params.maybe(Given.revision)
        self.innermost(up, b'dir')
        self.is_new(token)
        self.build.opened(path, kind)
        self.enter(token, kind, path)
        self.text = None

    def at_add_dir(self, params):
        self.added(params, b'dir')

    def at_add_file(self, params):
        self.added(params, b'file')

    def at_open_dir(self, params):
        self.opened(params, b'dir')

    def at_open_file(self, params):
        self.opened(params, b'file')

    def at_change_dir_prop(self, params):
        token, name, value = params.next(bytes), params.name(), params.maybe(lambda it: it.next(bytes))
        path = next((it[2] for it in self.open if it[:2] == (token, b'dir')), None)
        wanted(path is not None, 46)
        self.build.prop(path, name, value)

    def at_change_file_prop(self, params):
        token, name, value = params.next(bytes), params.name(), params.maybe(lambda it: it.next(bytes))
        self.build.prop(self.innermost(token, b'file'), name, value)

    def base_sum(self, params):
        # (whatever is in the list: the sum isn't looked at)
        params.next(list)

    def windows(self, _path, _sum):
        return Windows()

    def at_apply_textdelta(self, params):
        token, sum = params.next(bytes), self.base_sum(params)
        path = self.innermost(token, b'file')
        wanted(self.text is None)
        self.text = self.windows(path, sum)
        self.build.text(path, b'')

    def at_textdelta_chunk(self, params):
        token, piece = params.next(bytes), params.next(bytes)
        self.innermost(token, b'file')
        wanted(isinstance(self.text, Windows))
        self.text.feed(piece)

    def at_textdelta_end(self, params):
        token = params.next(bytes)
        path = self.innermost(token, b'file')
        wanted(isinstance(self.text, Windows))
        self.text.finish()
        self.text = bytes(self.text.text)
        self.build.text(path, self.text)

    def at_close_file(self, params):
        token, sum = params.next(bytes), params.sum()
        self.innermost(token, b'file')
        wanted(not isinstance(self.text, Windows))
        if sum is not None and self.text is not None:
            wanted(hashlib.md5(self.text).hexdigest().encode() == sum.lower(), 6)
        self.open.pop()

    def at_close_dir(self, params):
        self.innermost(params.next(bytes), b'dir')
        self.open.pop()

    def at_close_edit(self, _params):
        wanted(not self.open, 46)
        self.is_ended = True

    def at_abort_edit(self, _params):
        raise Refused(60)

    def at_finish_replay(self, _params):
        wanted(not self.open, 46)
        return True


# The methods by the commands that they take.
COMMANDS = {name[3:].replace('_', '-').encode(): method for name, method in vars(Edit).items() if name.startswith('at_')}


class DeltaEdit(Edit):
    """The same where texts come as differences from what the files have so far, whose sums are looked at."""

    def base_sum(self, params):
        return params.sum()

    def windows(self, path, sum):
        base = self.build.tree[path]['text']
        wanted(sum is None or hashlib.md5(base).hexdigest().encode() == sum.lower(), 6)
        return Differences(base)


# ---- edits made from a seed

class Maker:
    """The commands of an edit that mostly holds together, as it grows."""

    def __init__(self, random, trees):
        self.random, self.trees, self.build, self.items, self.given = random, trees, Build(trees), [], 0
        self.style = random.choice([b't%d', b'%d', b'x%d-', b'(%d', b'%d\0'])
        self.open = []

    def say(self, name, *params):
        item = [Word(name), [*params]]
        if self.random.random() < 0.01:
            self.random.choice([item, item[1]]).append(b'more')
        self.items.append(item)

    def token(self):
        self.given += 1
        return self.style % (self.given - 1)

    def base(self):
        return [self.build.number - 1] if self.random.random() < 0.7 else []

    def tries(self, call, *words):
        """Whether a call may be shown, or is in spite of its fault."""
        try:
            call(*words)
            return True
        except Refused:
            return self.random.random() < 0.05

    def path(self, kind=None):
        """A path that is there, mostly in the innermost directory."""
        front = self.open[-1][1]
        there = [it for it in self.build.tree if it and (kind is None or self.build.tree[it]['kind'] == kind)]
        near = [it for it in there if it[:len(front)] == front and len(it) == len(front) + 1]
        if near and self.random.random() < 0.9:
            return self.random.choice(near)
        return self.random.choice(there) if there and self.random.random() < 0.9 else self.new_path()

    def new_path(self):
        front = self.open[-1][1] if self.random.random() < 0.95 else ()
        return front + (name_of(self.random),)

    def source(self, kind):
        if self.random.random() > 0.35:
            return None
        revision = self.random.randrange(len(self.trees))
        there = [it for it in self.trees[revision] if it and (self.trees[revision][it]['kind'] == kind or self.random.random() < 0.02)]
        if not there or self.random.random() < 0.02:
            return (name_of(self.random),), self.random.choice([revision, 65535])
        return self.random.choice(there), revision

    def props(self, name, token, path):
        """Some properties of what is open."""
        props = props_of(self.random) if self.random.random() < 0.4 else {}
        for it in self.random.sample(PROPS, len(PROPS)):
            if it in props:
                self.say(name, token, it, [props[it]])
                # (what was opened in spite of a fault may be gone)
                if path in self.build.tree:
                    self.build.prop(path, it, props[it])
            elif self.random.random() < 0.05:
                self.say(name, token, it, [])

    def file(self, token, path):
        random = self.random
        self.props(b'change-file-prop', token, path)
        given = None
        if random.random() < 0.6:
            given = some(random, random.choice([2, 40, 300]))
            self.say(b'apply-textdelta', token, random.choice([[], [], [b'base']]))
            for chunk in loose_chunks(random)(given):
                self.say(b'textdelta-chunk', token, chunk)
            self.say(b'textdelta-end', token)
        sum = hashlib.md5(given if given is not None else some(random, 3)).hexdigest().encode()
        self.say(b'close-file', token, random.choice([[], [sum], [sum], [sum.upper()]]))

    def enters(self, kind, is_added):
        """Adds or opens something."""
        path = self.new_path() if is_added else self.path(kind)
        source = self.source(kind) if is_added else None
        call = (self.build.added, path, kind, source) if is_added else (self.build.opened, path, kind)
        if not self.tries(*call):
            return
        token, up = self.token(), self.open[-1][0]
        place = self.base()
        if is_added:
            place = [self.random.choice([b'', b'/']) + b'/'.join(source[0]), source[1]] if source else []
        self.say((b'add-' if is_added else b'open-') + kind, b'/'.join(path), up, token, place)
        if path not in self.build.tree:
            # (what is faulty is shown all the same)
            self.say(b'close-' + kind, token, *([[]] if kind == b'file' else []))
        elif kind == b'file':
            self.file(token, path)
        else:
            self.open.append((token, path))
            self.props(b'change-dir-prop', token, path)

    def step(self):
        random = self.random
        way = random.randrange(10)
        if way < 2 and len(self.open) > 1:
            self.say(b'close-dir', self.open.pop()[0])
        elif way < 3:
            path = self.path()
            if self.tries(self.build.removed, path):
                self.say(b'delete-entry', b'/'.join(path), self.base(), self.open[-1][0])
        elif way < 4:
            token, path = random.choice(self.open)
            self.props(b'change-dir-prop', token, path)
        else:
            self.enters(random.choice([b'file', b'dir']), random.random() < 0.65)

    def made(self):
        """The items of an edit."""
        random = self.random
        if random.random() < 0.95:
            self.say(b'target-rev', self.build.number)
        if random.random() < 0.97:
            self.build.begun.add(())
            self.open.append((self.token(), ()))
            self.say(b'open-root', self.base(), self.open[0][0])
            self.props(b'change-dir-prop', *self.open[0])
            for _ in range(random.choice([0, 1, 2, 4, 8])):
                self.step()
            while self.open:
                self.say(b'close-dir', self.open.pop()[0])
        if random.random() < 0.2:
            self.say(b'close-edit')
        self.say(b'finish-replay')
        return self.items


ODD = [[Word(b'close-edit'), []], [Word(b'abort-edit'), []], [Word(b'finish-replay'), []], [Word(b'open-root'), [[], b'r']], [Word(b'frob'), []],
       [Word(b'failure'), [[21, b'x', b'', 0]]], [Word(b'target-rev'), [1]], [Word(b'target-rev'), [65536]], Word(b'x'), 7, [], b'y',
       [Word(b'close-dir'), [b't0']], [Word(b'close-file'), [b't1', []]], [Word(b'textdelta-end'), [b't1']], [Word(b'apply-textdelta'), [b't1', []]],
       [Word(b'textdelta-chunk'), [b't1', b'SVN\0']]]


def bent(random, items):
    """The items with one of them lost, twice there, elsewhere or another, or something of one changed."""
    if not items:
        return [random.choice(ODD)]
    items, at = [*items], random.randrange(len(items))
    way = random.randrange(7)
    if way == 0:
        del items[at]
    elif way == 1:
        items.insert(random.randrange(len(items) + 1), items[at])
    elif way == 2:
        items.insert(random.randrange(len(items)), items.pop(at))
    elif way == 3:
        items.insert(random.randrange(len(items) + 1), random.choice(ODD))
    else:
        items[at] = changed(random, items[at])
    return items


def changed(random, item):
    """An item with something of it changed."""
    if type(item) is not list or not item:
        return random.choice(ODD)
    at = random.randrange(len(item))
    it = item[at]
    if type(it) is list and it and random.random() < 0.9:
        it = changed(random, it)
    elif type(it) is bytes and it and random.random() < 0.7:
        place = random.randrange(len(it))
        it = random.choice([it[:place], it[:place] + bytes([random.randrange(256)]) + it[place + 1:], it + b'/x', b'/' + it, it[1:], b''])
    elif random.random() < 0.3:
        return item[:at] + item[at + 1:]
    else:
        it = random.choice([b'', b'a', b't0', b't1', 0, 1, 65535, 65536, [], [1], [b'a'], Word(b'x'), b'x' * 256, b'a/../b'])
    return [*item[:at], it, *item[at + 1:]]


def harmed(random, data):
    """Bytes with one lost, more or another, or all behind it lost."""
    at = random.randrange(len(data))
    byte = bytes([random.choice(b'0123456789() \nax:-\x00\x80\xff')])
    return random.choice([data[:at], data[:at] + byte + data[at + 1:], data[:at] + byte + data[at:], data[:at] + data[at + 1:]])


def edit(random, trees):
    """The bytes of an edit, and whether they may leave its receiver waiting."""
    items, way = Maker(random, trees).made(), random.random()
    if way < 0.35:
        items = bent(random, items)
        if way < 0.05:
            items = bent(random, items)
    data = b''.join(sent(random, it) for it in items)
    return (harmed(random, data), True) if way > 0.88 else (data, way < 0.35)
