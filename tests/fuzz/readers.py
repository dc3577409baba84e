"""Sessions of reading clients made from a seed: what a client might ask at the place of its URL, in any spelling that a
server takes, and some with something wrong."""
from urllib.parse import quote_from_bytes

from asked import ANONYMOUS, Asker, sent
from made import NAMES, ODD_NAMES, PROPS
from reads import NOWHEN
from sessions import Word

ROOTS = [b'svn://127.0.0.1:3690', b'svn://h', b'svn://H.example:1', b'svn://u@h', b'svn://[::1]:2', b'svn://h?x']
BAD_URLS = [b'', b'svn:', b'svn://', b'svn:///', b'svn:///a', b'SVN://h/a', b'svn+ssh://h/a', b'http://h/a', b'file:///a', b'/a', b'a', b'svn://h//', b'svn://h/.']
# Each as often as it is asked for; those behind them seldom.
COMMANDS = [b'get-latest-rev', b'rev-proplist', b'rev-prop', b'get-lock', b'get-locks']
COMMANDS += 2 * [b'check-path'] + 4 * [b'stat', b'get-file', b'get-dir', b'get-locations', b'log'] + 3 * [b'get-file-revs'] + 2 * [b'reparent', b'get-dated-rev']
ORDERS = [b'update', b'switch', b'status', b'diff']
DENIED = [b'get-location-segments', b'change-rev-prop', b'change-rev-prop2', b'replay', b'replay-range']
UNKNOWN = [b'commit', b'list', b'get-mergeinfo', b'get-iprops', b'lock', b'unlock', b'lock-many', b'get-deleted-rev', b'set-path', b'x']
DEPTHS = [Word(it) for it in (b'empty', b'files', b'immediates', b'infinity', b'unknown', b'exclude')]
FINISH = [Word(b'finish-report'), []]
WHOLE = [Word(b'infinity'), Word(b'unknown')]
FIELDS = [Word(it) for it in (b'kind', b'size', b'has-props', b'created-rev', b'time', b'last-author', b'word')]
HOSTILE = [b'18446744073709551616 ', b'-1 ', b'( ) ', b'( ' * 16 + b') ' * 16, b'( ' * 17 + b') ' * 17, b'1048577:', b'99999999999999999999:a ', b'w' * 65 + b' ',
           b'4:abc', b'3:abcd ', b'()', b'\xff ', b'( stat ( 0: ( ', b'( stat ( 1048577:', b') ', b'( stat ( 2:\xff\xfe ( ) ) ) ', b'( stat ( 2:.. ( ) ) ) ',
           b'( stat ( 3:a//b ( ) ) ) ', b'( stat ( 2:a/ ( ) ) ) ', b'( get-dir ( 1:. ( ) true true ) ) ', b'( stat ( 0: ( 18446744073709551615 ) ) ) ',
           b'( get-dir ( 0: ( ) true true ' + b'( ' * 13 + b') ' * 13 + b') ) ', b'( get-dir ( 0: ( ) true true ' + b'( ' * 14 + b') ' * 14 + b') ) ']


class Reader(Asker):
    """A reading client that knows what is there, mostly, and where its session stands."""

    # How often something is said to be at another URL.
    LINKED = 0.05

    def __init__(self, random, server):
        super().__init__(random, server)
        self.root, self.place = random.choice(ROOTS), ()

    def there(self, number, kind=None):
        """The paths of a revision below the session's place, as they are from there; of one kind, where there are some."""
        tree, front = self.server.trees[number], len(self.place)
        found = [it for it in tree if it[:front] == self.place]
        return [it[front:] for it in found if tree[it]['kind'] == kind] or [it[front:] for it in found] or [()]

    def name_near(self):
        return self.random.choice(ODD_NAMES if self.random.random() < 0.3 else NAMES)

    def absolute(self):
        """A path of some revision, or one near it."""
        random = self.random
        path = random.choice([*random.choice(self.server.trees)])
        return path + (self.name_near(),) if random.random() < 0.1 else path

    def placed(self, kind=None):
        """A path and a revision, where something stands mostly: of this kind where there is one and it is wanted."""
        random, trees = self.random, self.server.trees
        number = len(trees) - 1 if random.random() < 0.4 else random.randrange(len(trees))
        path = random.choice(self.there(number, kind if random.random() < 0.9 else None))
        if random.random() < 0.1:
            path += (self.name_near(),)
        at = [] if number == len(trees) - 1 and random.random() < 0.5 else [number]
        return [self.slashed(path), self.maybe(self.number()) if random.random() < 0.1 else at]

    def slashed(self, path):
        slashes = b'//' if self.random.random() < 0.1 else b'/'
        return self.random.choice([b'', b'', slashes]) + b'/'.join(path) + (b'/' if self.random.random() < 0.01 else b'')

    def path(self):
        return self.placed()[0]

    def folder(self):
        """A path of a folder of the newest revision."""
        tree = self.server.trees[-1]
        return self.random.choice([it for it in tree if tree[it]['kind'] == b'dir'])

    def spelled_url(self, path):
        """A path below the root, some of whose bytes are spelled by their numbers that needn't be."""
        random = self.random
        safe = random.choice(['/', '/ ', ''.join(map(chr, range(33, 127))), 'bcd'])
        text = quote_from_bytes(b'/'.join(path), safe=safe).encode().replace(b'%25', b'%' if random.random() < 0.02 else b'%25')
        if 'b' == safe[:1]:
            text = text.lower()
        end = random.choice([b'', b'', b'', b'/', b'//' if random.random() < 0.05 else b'/'])
        return self.root + (b'/' + text if text or random.random() < 0.3 else b'') + end

    def moved(self):
        """A URL to which the session goes, mostly."""
        random = self.random
        if random.random() < 0.1:
            return random.choice(BAD_URLS)
        if random.random() < 0.1:
            return random.choice(ROOTS) + b'/' + b'/'.join(self.absolute())
        path = random.choice([self.folder] * 4 + [self.absolute] + [tuple] * 3)()
        if random.random() < 0.1:
            path += (random.choice([b'%', b'%4', b'%zz', b'%00', b'?', b'#', b'%2e%2e', b'%2F', b'%ff']),)
            return self.root + b'/' + b'/'.join(path)
        return self.spelled_url(path)

    def depth(self):
        return self.random.choice(DEPTHS)

    def date(self):
        """A date at or beside that of some revision, mostly."""
        random = self.random
        found = random.choice([it[b'svn:date'] for it in self.server.props if b'svn:date' in it] or [NOWHEN])
        if random.random() < 0.5:
            at = random.randrange(len(found) + 1)
            found = found[:at] + random.choice([b'', b'0', b'9', b'-', b'Z']) + found[at + random.randrange(3):]
        return found

    def cut(self, params, count):
        """Parameters as an older client sends them, which knows so many of the last ones not."""
        return params[:len(params) - self.random.randrange(count + 1)]

    def ranged(self, count=2):
        return [self.maybe(self.number()) for _ in range(count)]

    def params(self, name):
        random = self.random
        if name in (b'stat', b'check-path'):
            return self.placed()
        if name == b'reparent':
            return [self.moved()]
        if name == b'get-dated-rev':
            return [self.date()]
        if name == b'get-lock':
            return [self.path()]
        if name == b'get-locks':
            return self.cut([self.path(), self.maybe(self.depth())], 1)
        if name == b'get-dir':
            fields = [random.sample(FIELDS, random.randrange(len(FIELDS)))] if random.random() < 0.5 else []
            return [*self.placed(b'dir'), self.flag(), self.flag(), *fields]
        if name == b'get-file':
            return [*self.placed(b'file'), self.flag(), self.flag(), *self.maybe(self.flag())]
        return self.more_params(name)

    def more_params(self, name):
        random = self.random
        if name == b'log':
            named = random.choice([[Word(b'all-revprops')], [Word(b'revprops'), [self.name() for _ in range(random.randrange(4))]]])
            paths = [self.path() for _ in range(random.choice([0, 1, 1, 1, 2, 3]))]
            return self.cut([paths, *self.ranged(), self.flag(), self.flag(), random.choice([0, 0, 1, 3]), random.random() < 0.1, *named], 2 + len(named))
        if name == b'get-locations':
            path, peg = self.placed()
            return [path, peg[0] if peg else self.number(), [self.number() for _ in range(random.randrange(6))]]
        if name == b'get-location-segments':
            return [self.path(), *self.ranged(3)]
        if name == b'get-file-revs':
            path, end = self.placed(b'file')
            number = end[0] if end else len(self.server.trees) - 1
            start = self.maybe(self.number() if self.random.random() < 0.2 else self.random.randrange(number + 1))
            return self.cut([path, start, end, self.flag()], 1)
        return super().params(name)

    # ---- reports

    def folders(self):
        """The revisions in which a folder is where the session stands."""
        return [number for number, tree in enumerate(self.server.trees) if tree.get(self.place, {}).get('kind') == b'dir']

    def near(self):
        """The names of what stands right below the session's place in some revision."""
        return [it[0] for it in self.there(self.random.randrange(len(self.server.trees))) if it] or [b'a']

    def any_of(self, numbers):
        """One of these, mostly."""
        return self.random.choice(numbers) if numbers and self.random.random() < 0.95 else self.number()

    def order(self):
        """A command that a report follows, mostly one that is answered."""
        random, name = self.random, self.random.choice(ORDERS)
        number, recurse = self.maybe(self.any_of(self.folders())), random.random() < 0.9
        target = self.path() if random.random() < 0.04 else random.choice(self.near()) if random.random() < 0.3 else b''
        depth = self.depth() if random.random() < 0.3 else random.choice(WHOLE)
        count = 3 if random.random() < 0.1 else 0
        if name == b'update':
            params = self.cut([number, target, recurse, depth, self.flag(), self.flag()], count)
        elif name == b'switch':
            params = self.cut([number, target, recurse, self.moved(), depth, self.flag(), self.flag()], count)
        elif name == b'status':
            params = self.cut([target, recurse, number, depth], min(count, 2))
        else:
            params = self.cut([number, target, recurse, self.flag(), self.moved(), self.flag(), depth], min(count, 2))
        return [Word(name), params]

    def state(self, number, is_empty):
        """A revision of which something is reported, and how."""
        token = [b'opaquelocktoken:x'] if self.random.random() < 0.05 else []
        depth = self.depth() if self.random.random() < 0.2 else WHOLE[0]
        return self.cut([number, is_empty, token, depth], 2 if self.random.random() < 0.05 else 0)

    def reported_path(self, path, numbers, front):
        """Something that is said of a path of these revisions, behind that of a target."""
        random, way, slashed = self.random, self.random.random(), self.slashed(path)
        if way < 0.15:
            return [Word(b'delete-path'), [slashed]]
        number, place, url = self.any_of(numbers), self.place + front + path, []
        if way < 0.15 + self.LINKED:
            place = self.absolute()
            url = [self.spelled_url(place) if random.random() < 0.9 else self.moved()]
        is_empty = random.random() < 0.2 and self.may_be_empty(place, number)
        return [Word(b'link-path' if url else b'set-path'), [slashed, *url, *self.state(number, is_empty)]]

    def may_be_empty(self, _place, _number):
        return True

    def reported_paths(self, number, front):
        """What is said of some paths of a folder of a revision, or of a target in it, which is known already."""
        there = [it[len(front):] for it in self.there(number) if it[:len(front)] == front and it != front] or [(b'a',)]
        for path in [self.random.choice(there) for _ in range(self.random.choice([0, 0, 1, 2, 4]))]:
            if self.random.random() < 0.05:
                path += (self.name_near(),)
            numbers = [at for at, tree in enumerate(self.server.trees) if self.place + front + path in tree]
            yield self.reported_path(path, numbers, front)

    def target_of(self, order):
        """The path of a command's target."""
        return tuple(it for it in order[1][0 if order[0] == b'status' else 1].split(b'/') if it)

    def begun(self, number, is_empty, front):
        """What is said first, and of a target at times that nothing is there."""
        if front and self.random.random() < 0.15:
            return [[Word(b'set-path'), [b'', *self.state(0, False)]], [Word(b'delete-path'), [b'']]]
        return [[Word(b'set-path'), [b'', *self.state(number, is_empty)]]]

    def report(self):
        """A command, the report that follows, and what the client says of the edit that it is sent."""
        random, said = self.random, [self.order()]
        number, front = self.any_of(self.folders()), self.target_of(said[0])
        if random.random() < 0.97:
            said += self.begun(number, random.random() < 0.3, front)
        said += self.reported_paths(min(number, len(self.server.trees) - 1), front)
        if random.random() < 0.1:
            said.insert(random.randrange(len(said) + 1), self.bent(random.choice([*said, [Word(b'stat'), [b'', []]]])[:]))
        said.append([Word(b'finish-report' if random.random() < 0.95 else b'abort-report'), []])
        if self.server.edit_behind(said, self.root, self.place) or random.random() < 0.02:
            said.append(self.verdict())
        return said

    def verdict(self):
        random = self.random
        if random.random() < 0.85:
            return [Word(b'success'), []]
        first = [random.choice([155011, 0, 2 ** 64 - 1]), random.choice([b'out of date', b'', b'\xff', b'x' * 300]), b'file.c', 7]
        item = [Word(b'failure'), [first, *([[1, b'y', b'', 0]] if self.flag() else [])]]
        return self.bent(item) if self.flag() else item

    # ---- all of it

    def commands(self):
        """A command, or one with its report."""
        return self.report() if self.random.random() < 0.2 else [self.command()]

    def command(self):
        random = self.random
        if random.random() < 0.02:
            return [Word(random.choice(UNKNOWN)), [self.path()]]
        name = random.choice(DENIED if random.random() < 0.08 else COMMANDS)
        item = [Word(name), self.params(name)]
        if random.random() < 0.05:
            return self.bent(item)
        if random.random() < 0.03:
            random.choice([item, item[1]]).append(b'more')
        if name == b'reparent':
            self.place = self.server.place_behind(item, self.root, self.place)
        return item

    def session(self):
        random = self.random
        caps = [Word(it) for it in random.sample([b'edit-pipeline', b'svndiff1', b'absent-entries', b'depth', b'mergeinfo', b'log-revprops'], random.randrange(6))]
        url = self.moved() if random.random() < 0.05 else self.spelled_url(random.choice([self.folder] * 3 + [self.absolute] + [tuple] * 3)())
        hello = [2, caps, url, *random.choice([[], [], [b'agent', []]])]
        self.place = self.server.place_behind([Word(b'reparent'), [url]], self.root, ())
        login = random.choice([ANONYMOUS, ANONYMOUS, ANONYMOUS, [Word(b'ANONYMOUS'), []]])
        opening = [hello, login]
        if random.random() < 0.05:
            opening[random.randrange(2)] = random.choice([[1, caps, url], [Word(b'CRAM-MD5'), []], 7, [], [2, [b'x'], url], [2, caps]])
        return opening + [it for _ in range(random.choice([0, 3, 6, 12, 24])) for it in self.commands()]

    def spelled(self):
        """The bytes of a session; in some stands what no client would send."""
        if self.random.random() < 0.1:
            parts = [sent(self.random, it) for it in self.session()]
            parts.insert(self.random.randrange(len(parts) + 1), self.random.choice(HOSTILE))
            return b''.join(parts)
        return super().spelled()


class WellBehaved(Reader):
    """A reading client that asks as Subversion's own do, and nothing that svnserve answers by other rules than reads.py."""

    LOCATED, LINKED = [b'get-locations', b'get-location-segments'], 0.15

    def __init__(self, random, server):
        super().__init__(random, server)
        self.root = b'svn://h'

    def number(self):
        head = len(self.server.trees) - 1
        return self.random.choice([*range(head + 1)] * 4 + [head + 1, 65535])

    def moved(self):
        return self.spelled_url(self.random.choice([self.folder, self.absolute])())

    def name_near(self):
        return self.random.choice(NAMES)

    def name(self):
        return self.random.choice(PROPS)

    def slashed(self, path):
        return b'/'.join(path)

    def depth(self):
        return self.random.choice(DEPTHS[:4])

    def params(self, name):
        random = self.random
        if name == b'log':
            named = random.choice([[Word(b'all-revprops'), []], [Word(b'revprops'), [b'svn:log', b'svn:date', b'p']]])
            paths = [self.path() for _ in range(random.choice([0, 1, 1, 1, 2, 3]))]
            return [paths, *self.ranged(), self.flag(), self.flag(), random.choice([0, 0, 1, 3]), False, *named]
        # (svnserve tells a file's properties as a folder's where no entries are wanted, and of nothing that it is there)
        params, count = super().params(name), {b'get-dir': 3, b'get-file': 4}.get(name)
        return params[:count] + ([True] if name == b'get-dir' else [])

    def located(self, name):
        """A question for places of what stands somewhere, if anything does: svnserve denies others, but not all of them."""
        random, trees = self.random, self.server.trees
        peg = random.randrange(len(trees))
        if self.place not in trees[peg]:
            return [Word(b'get-latest-rev'), []]
        path = random.choice(self.there(peg))
        numbers = [it for it in range(len(trees)) if it <= peg or self.place + path in trees[it]]
        if name == b'get-locations':
            return [Word(name), [self.slashed(path), peg, [random.choice(numbers) for _ in range(random.randrange(1, 6))]]]
        ends = sorted([random.randrange(peg + 2), random.randrange(peg + 1)], reverse=random.random() < 0.9)
        return [Word(name), [self.slashed(path), [peg], *([it] for it in ends)]]

    # ---- reports

    def order(self):
        """A command that a report follows of a folder, or of something in one."""
        random, name = self.random, self.random.choice(ORDERS)
        head, folders = len(self.server.trees) - 1, self.folders()
        number, target = random.choice(folders), b''
        if random.random() < 0.3:
            number = random.randrange(head + 1)
            target = random.choice(self.near())
        at = [] if number == head and self.flag() else [number]
        depth, goal = random.choice(WHOLE), random.choice(self.goals(number, not target))
        # (copies that don't have all)
        self.depths = DEPTHS[:4] if random.random() < 0.4 else WHOLE[:1]
        url = self.spelled_url(goal)
        return [Word(name), {b'update': [at, target, True, depth, False, self.flag()], b'switch': [at, target, True, url, depth, False, self.flag()],
                             b'status': [target, True, at, depth], b'diff': [at, target, True, self.flag(), url, self.flag(), depth]}[name]]

    def goals(self, number, is_folder):
        """The paths of a revision, of folders alone where they are wanted."""
        tree = self.server.trees[number]
        return [it for it in tree if not is_folder or tree[it]['kind'] == b'dir']

    def state(self, number, is_empty):
        return [number, is_empty, [], self.random.choice(self.depths)]

    def may_be_empty(self, place, number):
        """(svnserve takes an empty folder alone)"""
        return number < len(self.server.trees) and self.server.trees[number].get(place, {}).get('kind') == b'dir'

    def spelled_url(self, path):
        return self.root + (b'/' + quote_from_bytes(b'/'.join(path)).encode() if path else b'')

    def report(self):
        """A report of what may be: folders before what is in them, each of a revision in which it is there."""
        random, order = self.random, self.order()
        front, number = self.target_of(order), random.choice(self.folders())
        said = [order, *self.begun(number, not front and random.random() < 0.2, front)]
        paths, top = [], self.place + front
        for path in sorted({it for tree in self.server.trees for it in tree if it[:len(top)] == top}):
            paths.append((path, [at for at, tree in enumerate(self.server.trees) if path in tree]))
        paths = sorted(random.sample(paths, min(len(paths), random.choice([0, 0, 1, 2, 4]))))
        return self.that_hold(said, paths, front) + [[Word(b'success'), []]]

    def that_hold(self, said, paths, front):
        """Of what might be reported of these paths what is no fault behind the rest, and the end."""
        length = len(self.place + front)
        for path, numbers in paths:
            more = [*said, self.reported_path(path[length:], numbers, front)]
            before, behind = (self.server.edit_behind([*it, FINISH], self.root, self.place) for it in (said, more))
            if path[length:] and behind and self.is_taken(path[len(self.place):], more[-1][0], before, behind):
                said = more
        return [*said, FINISH]

    def is_taken(self, path, name, before, behind):
        """(svnserve takes a deletion of what is there alone, and nothing in what becomes a file)"""
        is_file = any(behind.goal.get(path[:n], {}).get('kind') == b'file' for n in range(len(path)))
        return not is_file and (name != b'delete-path' or len(behind.trees[0]) < len(before.trees[0]))

    # ---- all of it

    def commands(self):
        return self.report() if self.folders() and self.random.random() < 0.3 else [self.command()]

    def command(self):
        # (svnserve tells versions of files as other differences, and finds dates by halves)
        name = self.random.choice([it for it in COMMANDS if it not in (b'get-file-revs', b'get-dated-rev')] + 3 * [b'log', *self.LOCATED])
        if name in self.LOCATED:
            return self.located(name)
        item = [Word(name), self.params(name)]
        if name == b'reparent':
            self.place = self.server.place_behind(item, self.root, self.place)
        return item

    def session(self):
        url = self.moved()
        self.place = self.server.place_behind([Word(b'reparent'), [url]], self.root, ())
        return [[2, [Word(b'edit-pipeline'), Word(b'log-revprops')], url], ANONYMOUS, *(it for _ in range(12) for it in self.commands())]
