"""Sessions made from a seed: what a client of a server might ask, in any spelling that a reader takes, and some with
something wrong."""
import itertools

from made import NAMES, ODD_NAMES, PROPS, some
from sessions import Word

ANONYMOUS = [Word(b'ANONYMOUS'), [b'']]
COMMANDS = [b'get-latest-rev', b'check-path', b'get-file', b'get-dir', b'rev-proplist', b'rev-prop', b'change-rev-prop',
            b'change-rev-prop2', b'replay', b'replay-range']


# What stands behind an item: white space of one byte mostly, else of one to four, each of these.
BEHIND = [bytes(it) for count in (1, 2, 3, 4) for it in itertools.product(b' \n', repeat=count)]
BEHIND += [b' ', b'\n'] * (9 * len(BEHIND) // 2)
# What stands in front of a number: mostly nothing.
ZEROS = [b''] * 30 + [b'0', b'0' * 30]


def sent(random, item):
    """An item in one of its spellings."""
    # (a choice by `random` takes a third of the time that `choice` does)
    kind, draw = type(item), random.random
    behind = BEHIND[int(draw() * len(BEHIND))]
    if kind is list:
        return b'(%b%b)%b' % (BEHIND[int(draw() * len(BEHIND))], b''.join([sent(random, it) for it in item]), behind)
    if kind is Word:
        return item + behind
    if kind is bool:
        return (b'true' if item else b'false') + behind
    zeros = ZEROS[int(draw() * len(ZEROS))]
    return b'%b%d:%b%b' % (zeros, len(item), item, behind) if kind is bytes else b'%b%d%b' % (zeros, item, behind)


class Asker:
    """A client that knows what is there, mostly."""

    def __init__(self, random, server):
        self.random, self.server = random, server

    def flag(self):
        return self.random.random() < 0.6

    def number(self):
        if self.random.random() < 0.05:
            return self.random.choice([len(self.server.trees), 65535, 65536, 2 ** 64 - 1])
        return self.random.randrange(len(self.server.trees))

    def maybe(self, item):
        return [item] if self.random.random() < 0.5 else []

    def path(self):
        random = self.random
        there = [*random.choice(self.server.trees)]
        path = random.choice(there)
        if random.random() < 0.15:
            path += (random.choice(ODD_NAMES if random.random() < 0.3 else NAMES),)
        return random.choice([b'', b'', b'/', b'//' if random.random() < 0.1 else b'']) + b'/'.join(path)

    def name(self):
        random = self.random
        props = [*random.choice(self.server.props)]
        if props and random.random() < 0.6:
            return random.choice(props)
        return random.choice(ODD_NAMES if random.random() < 0.05 else PROPS)

    def value(self):
        return b'v' * self.random.choice([65536, 65537]) if self.random.random() < 0.004 else some(self.random, 12)

    def params(self, name):
        random = self.random
        if name == b'check-path':
            return [self.path(), self.maybe(self.number())]
        if name in (b'get-file', b'get-dir'):
            fields = [[Word(b'kind'), Word(b'size')]] if random.random() < 0.5 else []
            return [self.path(), self.maybe(self.number()), self.flag(), self.flag(), *fields]
        if name == b'rev-proplist':
            return [self.number()]
        if name == b'rev-prop':
            return [self.number(), self.name()]
        if name == b'change-rev-prop':
            return [self.number(), self.name(), *self.maybe(self.value())]
        if name == b'change-rev-prop2':
            return self.changed()
        count = {b'replay': 1, b'replay-range': 2}.get(name, 0)
        numbers = sorted(self.number() for _ in range(count))
        if random.random() < 0.1:
            numbers.reverse()
        return [*numbers, int(random.random() < 0.05), random.random() < 0.95] if count else []

    def changed(self):
        """A change of a property, behind a condition that mostly holds."""
        number, name = self.number(), self.name()
        found = self.server.props[number].get(name) if number < len(self.server.props) else None
        condition = [self.flag()]
        if not condition[0] and found is not None and self.flag() or self.random.random() < 0.05:
            condition.append(found if found is not None and self.flag() else self.value())
        return [number, name, self.maybe(self.value()), condition]

    def bent(self, item):
        """A command that mostly isn't one any more."""
        random = self.random
        lists = [item, *(it for it in item if isinstance(it, list))]
        at = random.choice(lists)
        odd = random.choice([Word(b'true'), b'x', 7, [], [[]], [b'x', b'y']])
        way = random.randrange(3)
        if way == 0 and at:
            del at[random.randrange(len(at))]
        elif way == 1 and at:
            at[random.randrange(len(at))] = odd
        else:
            at.insert(random.randrange(len(at) + 1), odd)
        return item

    def command(self):
        random = self.random
        name = random.choice(COMMANDS)
        item = [Word(name), self.params(name)]
        if random.random() < 0.04:
            return self.bent(item)
        if random.random() < 0.03:
            random.choice([item, item[1]]).append(b'more')
        if random.random() < 0.02:
            item[0] = Word(random.choice([b'stat', b'log', b'update', b'reparent', b'get-latest-revs', b'x']))
        return item

    def session(self):
        random = self.random
        caps = [Word(it) for it in random.sample([b'edit-pipeline', b'svndiff1', b'absent-entries', b'depth'], random.randrange(4))]
        hello = [2, caps, self.server.url, *random.choice([[], [], [b'agent', []]])]
        login = random.choice([ANONYMOUS, ANONYMOUS, ANONYMOUS, [Word(b'ANONYMOUS'), []]])
        opening = [hello, login]
        if random.random() < 0.08:
            opening[random.randrange(2)] = random.choice([[1, caps, b'u'], [Word(b'CRAM-MD5'), []], 7, [], [2, [b'x'], b'u'], [2, caps]])
        return opening + [self.command() for _ in range(random.choice([0, 3, 6, 12]))]

    def spelled(self):
        """The bytes of a session."""
        front = self.random.choice(BEHIND) if self.random.random() < 0.08 else b''
        data = front + b''.join([sent(self.random, it) for it in self.session()])
        return self.harmed(data) if self.random.random() < 0.15 else data

    def harmed(self, data):
        random, at = self.random, self.random.randrange(len(data))
        byte = bytes([random.choice(b'0123456789() \nax:-\x00\xff')])
        return random.choice([data[:at], data[:at] + byte + data[at + 1:], data[:at] + byte + data[at:], data[:at] + data[at + 1:]])
