"""Sessions of reading clients, answered once more in plain Python: docs/FORMATS.md has the commands, the protocol what is
answered.

What the protocol leaves open is as svnserve has it (`tests/fuzz/browse` of svnserve compares this server with that one), but
for these things. The program's own rules stand for them:
  - properties stand in the order of their names, those of the entry behind a node's own, and not in the order of a hash;
  - `get-dir` gives all fields, where svnserve leaves out what wasn't asked for, and it is denied of a file and where nothing
    is, where svnserve looks only if the entries are wanted;
  - a denial has one line and a text of its own, where svnserve tells a chain with the paths;
  - what lies below a file isn't there (160013), as for `stat`, where svnserve tells `get-file` and `get-dir` that the file
    is no directory;
  - a command of another form is denied (210004), and the session goes on, where svnserve ends it;
  - a URL is taken as it is spelled: its scheme and host keep their case, and a second slash or a `.` is no path;
  - a revision of 2^64 - 1 is above the head, where svnserve takes it for none;
  - a change that gives no properties where none were is told as one that gives properties, where svnserve's has none;
  - `get-locations` tells each number as often as it is asked for, and a later one where the node stood on at its path, where
    svnserve tells a number once, and takes a node that was brought back from before the peg for the same;
  - a date names the newest revision that has one which isn't later, where svnserve looks for it by halves, and fails where a
    revision without a date is met;
  - `get-file-revs` tells texts in windows of new data, where svnserve's are differences from the version before.
"""
import collections
import hashlib
import re
from urllib.parse import unquote_to_bytes

from dumps import Refused, path_of
from sessions import AUTHORISED, DONE, PIECE, Ends, Input, Params, Server, Word, is_a, plain_chunks, spelled, success, wanted
from trials import TEXTS as REFUSALS

GREETING = b'( success ( 2 2 ( ) ( edit-pipeline depth ) ) ) '
# The numbers of Subversion by which a client decides, and what the program says with each.
TEXTS = {160006: 'no such revision', 160013: 'path not found', 160016: 'not a directory', 160017: 'not a file',
         125003: 'not a date', 165004: 'bad revision report', 200007: 'not supported', 210001: 'this server only answers readers', 210004: 'bad command shape'}
NO_URL, OTHER = (170000, 'not a URL of a session'), (170000, 'not the same repository')
NOWHEN = b'1970-01-01T00:00:00.000000Z'
IS_DATE = re.compile(rb'[0-9]{4}-[0-9]{2}-[0-9]{2}T[0-9]{2}:[0-9]{2}:[0-9]{2}\.[0-9]{6}Z')
DEPTHS = [b'empty', b'files', b'immediates', b'infinity', b'unknown']

# Whether the program answers logs, and reports of working copies.
HAS_LOGS, HAS_REPORTS = True, True
LATER = {'log': HAS_LOGS} | dict.fromkeys(['update', 'switch', 'status', 'diff'], HAS_REPORTS)
# The commands that are answered, and those that are denied where they have their form, with the number. (A client that hears
# that a command is unknown asks for the same by `log`.)
ANSWERED = {'get-latest-rev', 'check-path', 'get-file', 'get-dir', 'rev-proplist', 'rev-prop', 'stat', 'reparent', 'get-lock', 'get-locks',
            'get-locations', 'get-file-revs', 'get-dated-rev'} | {name for name, is_answered in LATER.items() if is_answered}
DENIED = dict.fromkeys(['change-rev-prop', 'change-rev-prop2', 'replay', 'replay-range', *LATER], 200007)
DENIED |= {'get-location-segments': 210001 if HAS_LOGS else 200007}
# Those of the latter that are answered here as svnserve does.
READY = {'get-location-segments'}
# Whether places of nodes are told as svnserve tells them.
AS_SVNSERVE = False


class Denied(Exception):
    """A denial: what stands behind the word `failure`."""

    def __init__(self, number, text=None):
        super().__init__(number)
        self.number, self.text = number, text or TEXTS[number]


def failure(number, text):
    return spelled([Word(b'failure'), [[number, text.encode(), b'', 0]]])


# ---- places

URL = re.compile(rb'(svn://[^/]+)(/.*)?', re.S)


def place_of(url):
    """The root that a URL names, and the path below it."""
    found = URL.fullmatch(url)
    if not found:
        raise Refused(10)
    behind = (found[2] or b'').removesuffix(b'/')
    text = unquote_to_bytes(behind[1:])
    if behind == b'/' or text.startswith(b'/'):
        raise Refused(10)
    return found[1], path_of(text)


# ---- parameters

class Asked(Params):
    """Parameters, some of which older clients leave out."""

    def list_of(self, read):
        """A list of such things and nothing else."""
        params, found = Asked(self.next(list)), []
        while params.is_more():
            found.append(read(params))
        return found

    def perhaps(self, read, default):
        """What is there, or this where nothing is left."""
        return read() if self.is_more() else default

    def depth(self):
        word = self.next(Word)
        wanted(word in DEPTHS or word == b'exclude')
        return word

    def maybe_depth(self):
        found = Asked(self.next(list))
        return found.depth() if found.is_more() else b'infinity'

    def revprops(self):
        """Which properties of revisions are wanted: None is all."""
        word = self.next(Word)
        wanted(word in (b'all-revprops', b'revprops'))
        return None if word == b'all-revprops' else self.list_of(lambda it: it.next(bytes))


USUAL = [b'svn:author', b'svn:date', b'svn:log']


class Reads(Server):
    """A repository as readers see it: the trees, the properties of revisions, and what each revision changed."""

    def __init__(self, trees, props, changes, identity):
        super().__init__(trees, props, None, identity, None, REFUSALS)
        self.changes, self.root, self.place, self.denied = changes, None, None, collections.Counter()

    # ---- a session

    def steps(self, data):
        """What a client gets that sends these bytes: in front of its first item, and behind each with where that ends."""
        come = Input(data)
        yield 0, GREETING
        for answer in self.answers():
            try:
                item = come.item()
            except Ends:
                return
            try:
                yield come.at, answer(item)
            except Refused as refused:
                yield come.at, self.failure(refused.number)
                return
            except Ends as end:
                yield come.at, end.args[0]
                return

    def session(self, data):
        return b''.join([answer for _, answer in self.steps(data)])

    def answers(self):
        """What answers an item, one behind another."""
        yield self.hello
        yield self.login
        while True:
            yield self.answer

    def failure(self, number):
        self.denied[number] += 1
        return failure(number, self.texts[number])

    def hello(self, item):
        wanted(is_a(item, list))
        params = Params(item)
        wanted(params.next(int) == 2)
        wanted(all(is_a(it, Word) for it in params.next(list)))
        self.root, self.place = place_of(params.next(bytes))
        return success([Word(b'ANONYMOUS')], self.identity)

    def login(self, item):
        self.url = self.root
        return super().login(item)

    def denial(self, denied):
        self.denied[denied.number] += 1
        return failure(denied.number, denied.text)

    def answer(self, item):
        try:
            # (a command's form is judged before anything is looked at)
            answered = self.asked(item)
        except Denied as denied:
            return self.denial(denied)
        try:
            return AUTHORISED + answered()
        except Denied as denied:
            return AUTHORISED + self.denial(denied)

    def asked(self, item):
        """What answers a command that is answered."""
        if not (is_a(item, list) and len(item) > 1 and is_a(item[0], Word) and is_a(item[1], list)):
            raise Denied(210004)
        name = item[0].decode()
        if name not in ANSWERED and name not in DENIED:
            raise Denied(210001)
        try:
            found = getattr(self, 'at_' + name.replace('-', '_'))(Asked(item[1]))
        except Refused:
            raise Denied(210004) from None
        if name not in ANSWERED:
            raise Denied(DENIED[name])
        return found

    def place_behind(self, item, root, place):
        """Where a session of this root stands behind a command."""
        self.root, self.place = root, place
        try:
            self.asked(item)()
        except Denied:
            pass
        return self.place

    # ---- looking

    def number(self, number):
        number = len(self.trees) - 1 if number is None else number
        if number >= len(self.trees):
            raise Denied(160006)
        return number

    def looked(self, path, number):
        """What stands at a path below the session's place, or None."""
        return self.trees[self.number(number)].get(self.place + path)

    def node(self, path, number):
        found = self.looked(path, number)
        if found is None:
            raise Denied(160013)
        return found

    def made(self, node):
        """When the revision that last changed a node was made, and by whom, as far as it says so."""
        props = self.props[node['changed']]
        return [[props[it]] if it in props else [] for it in (b'svn:date', b'svn:author')]

    def told_made(self, node):
        """The same as clients take it, who need a date."""
        date, author = self.made(node)
        return [date or [NOWHEN], author]

    def listed_of(self, node, is_wanted):
        """A node's properties, and behind them what its entry is."""
        if not is_wanted:
            return []
        date, author = self.made(node)
        entry = [(b'committed-rev', [b'%d' % node['changed']]), (b'committed-date', date), (b'last-author', author), (b'uuid', [self.identity])]
        return self.listed(node['props']) + [[b'svn:entry:' + name, *value] for name, value in entry if value]

    def at_check_path(self, params):
        path, number = params.path(), params.maybe(int)

        def answered():
            found = self.looked(path, number)
            return success(Word(found['kind'] if found else b'none'))
        return answered

    def at_stat(self, params):
        path, number = params.path(), params.maybe(int)

        def answered():
            found = self.looked(path, number)
            if found is None:
                return success([])
            size = len(found['text']) if found['kind'] == b'file' else 2 ** 64 - 1
            return success([[Word(found['kind']), size, bool(found['props']), found['changed'], *self.told_made(found)]])
        return answered

    def at_get_file(self, params):
        path, number, has_props, has_text = params.path(), params.maybe(int), params.bool(), params.bool()

        def answered():
            found = self.node(path, number)
            if found['kind'] == b'dir':
                raise Denied(160017)
            text = found['text']
            sum, pieces = hashlib.md5(text).hexdigest().encode(), [text[at:at + PIECE] for at in range(0, len(text), PIECE)] + [b'']
            behind = b''.join(map(spelled, pieces)) + DONE if has_text else b''
            return success([sum], self.number(number), self.listed_of(found, has_props)) + behind
        return answered

    def at_get_dir(self, params):
        path, number, has_props, has_entries = params.path(), params.maybe(int), params.bool(), params.bool()
        if params.is_more():
            # (the fields that are asked for: all are given)
            params.next(list)

        def answered():
            found = self.node(path, number)
            if found['kind'] == b'file':
                raise Denied(160016)
            place, tree = self.place + path, self.trees[self.number(number)]
            inside = [it for it in sorted(tree) if len(it) == len(place) + 1 and it[:-1] == place] if has_entries else []
            entries = [[it[-1], Word(tree[it]['kind']), len(tree[it]['text'] or b''), bool(tree[it]['props']), tree[it]['changed'],
                        *self.told_made(tree[it])] for it in inside]
            return success(self.number(number), self.listed_of(found, has_props), entries)
        return answered

    def at_reparent(self, params):
        url = params.next(bytes)

        def answered():
            try:
                root, place = place_of(url)
            except Refused:
                raise Denied(*NO_URL) from None
            if root != self.root:
                raise Denied(*OTHER)
            self.place = place
            return DONE
        return answered

    def at_get_lock(self, params):
        params.path()
        return lambda: success([])

    def at_get_locks(self, params):
        params.path()
        if params.perhaps(params.maybe_depth, b'infinity') == b'exclude':
            raise Denied(200007)
        return lambda: success([])

    # ---- histories

    def moments(self, path, number, is_strict=False):
        """Where what stands at a path in a revision was before, newest first: each path and revision in which it, or
        something below it, was changed, or to which a copy brought it; with the path and the revision that it was then
        copied from."""
        while number >= 0:
            brought = [it for it in self.changes[number] if it.action in (b'add', b'replace') and path[:len(it.path)] == it.path]
            source = brought[-1].source if brought else None
            if source:
                source = source[0] + path[len(brought[-1].path):], source[1]
            if brought or not path or any(it.path[:len(path)] == path for it in self.changes[number]):
                yield path, number, source
            if brought and (is_strict or not source):
                return
            path, number = source or (path, number - 1)

    def at_log(self, params):
        paths, start, end = params.list_of(lambda it: it.path()), params.maybe(int), params.maybe(int)
        has_changes, is_strict = params.bool(), params.bool()
        limit, is_merged = params.perhaps(lambda: params.next(int), 0), params.perhaps(params.bool, False)
        names = params.perhaps(params.revprops, USUAL)

        def answered():
            found = self.logged(paths, self.number(start), self.number(end), is_strict)
            return b''.join([self.entry(it, has_changes, names) for it in found[:limit or None]])
        return self.listed_first(answered)

    def listed_first(self, answered):
        """An answer whose success or denial stands behind what is listed, and the word `done`."""
        def whole():
            try:
                return answered() + b'done ' + DONE
            except Denied as denied:
                return b'done ' + self.denial(denied)
        return whole

    def logged(self, paths, start, end, is_strict):
        """The revisions of a range in which one of the paths changed, as it stands in the range's newest revision."""
        top, found = max(start, end), set()
        for it in paths:
            self.node(it, top)
        # (where no path is named, the root)
        for it in [self.place + it for it in paths] or [()]:
            found |= {number for _, number, _ in self.moments(it, top, is_strict) if number >= min(start, end)}
        return sorted(found, reverse=start > end)

    def entry(self, number, has_changes, names):
        """What a log says of a revision."""
        props = self.props[number]
        usual = [[props[it]] if it in props and (names is None or it in names) else [] for it in USUAL]
        more = [[it, props[it]] for it in sorted(props) if it not in USUAL and (names is None or it in names)]
        changes = [self.changed_path(number, it) for it in self.changes[number]] if has_changes else []
        return spelled([changes, number, *usual, False, False, len(more), more, False])

    def changed_path(self, number, change):
        letter = {b'add': b'A', b'change': b'M', b'delete': b'D', b'replace': b'R'}[change.action]
        source = [b'/' + b'/'.join(change.source[0]), change.source[1]] if change.source else []
        kind = change.kind
        if change.action == b'delete':
            kind = self.gone(number, change.path)['kind']
        return [b'/' + b'/'.join(change.path), Word(letter), source, [kind, change.text is not None, self.has_set_props(number, change)]]

    def gone(self, number, path):
        """What a revision takes away at a path: of the revision before, or of what it copies there itself."""
        over = [it for it in self.changes[number] if it.source and path[:len(it.path)] == it.path and it.path != path]
        if not over:
            return self.trees[number - 1][path]
        return self.trees[over[-1].source[1]][over[-1].source[0] + path[len(over[-1].path):]]

    def has_set_props(self, number, change):
        """Whether a change gives properties; by svnserve one that leaves none where none were gives none."""
        if change.props is None or change.action == b'delete':
            return False
        if not AS_SVNSERVE:
            return bool(change.props) or not change.is_plain()
        old = {}
        if change.source:
            old = self.trees[change.source[1]][change.source[0]]['props']
        elif change.action == b'change':
            old = self.gone(number, change.path)['props']
        return bool(old or change.props)

    def at_get_file_revs(self, params):
        path, start, end, _ = params.path(), params.maybe(int), params.maybe(int), params.perhaps(params.bool, False)

        def answered():
            first, last = self.number(start), self.number(end)
            if last < first:
                raise Denied(200007)
            if self.node(path, last)['kind'] == b'dir':
                raise Denied(160017)
            found, told, old = [], b'', {'props': {}, 'text': None}
            for at, number, _ in self.moments(self.place + path, last):
                found.insert(0, (at, number))
                if number <= first:
                    break
            for at, number in found:
                new = self.trees[number][at]
                told += self.version(at, number, old, new)
                old = new
            return told
        return self.listed_first(answered)

    def version(self, path, number, old, new):
        """A file in a revision, as what differs from what it was before."""
        gone = [[it, []] for it in sorted(old['props']) if it not in new['props']]
        given = [[it, [value]] for it, value in sorted(new['props'].items()) if old['props'].get(it) != value]
        head = [b'/' + b'/'.join(path), number, self.listed(self.props[number]), gone + given, False]
        chunks = [] if old['text'] == new['text'] else plain_chunks(new['text'])
        return b''.join(map(spelled, [head, *chunks, b'']))

    def at_get_dated_rev(self, params):
        date = params.next(bytes)

        def answered():
            if not IS_DATE.fullmatch(date):
                raise Denied(125003)
            dates = [it.get(b'svn:date', b'') for it in self.props]
            return success(max((n for n, it in enumerate(dates) if n and IS_DATE.fullmatch(it) and it <= date), default=0))
        return answered

    def at_get_locations(self, params):
        path, peg, numbers = params.path(), params.next(int), params.list_of(lambda it: it.next(int))

        def answered():
            self.node(path, peg)
            found = (self.locations_together if AS_SVNSERVE else self.locations)(self.place + path, peg, numbers)
            return b''.join([spelled([number, b'/' + b'/'.join(it)]) for number, it in found if it is not None])
        return self.listed_first(answered)

    def locations(self, path, peg, numbers):
        """Where what stands at a path in a revision stood in each of others. A later one has it at the same path, if at all."""
        for it in numbers:
            self.number(it)
        return [(it, self.location(path, peg, it) if it <= peg else self.stayed(path, it, peg)) for it in numbers]

    def stayed(self, path, number, peg):
        return path if path in self.trees[number] and self.location(path, number, peg) == path else None

    def locations_together(self, path, peg, numbers):
        """The same by svnserve: all are told from the newest later one that has it."""
        later = [it for it in numbers if it > peg and path in self.trees[self.number(it)]]
        newest = max([it for it in later if self.is_older(path, it, peg)], default=peg)
        return {it: self.location(path, newest, it) for it in numbers if it <= newest}.items()

    def is_older(self, path, number, peg):
        """Whether what stands at a path in a revision stood there too when it was last changed by a peg's revision. (So what
        was brought back since from a revision before the peg is taken for the same, as by svnserve.)"""
        return next((was for was, at, _ in self.moments(path, number) if at <= peg), None) == path

    def location(self, path, newest, wanted):
        for was, number, source in self.moments(path, newest):
            if wanted >= number:
                return was
            if source and wanted > source[1]:
                return None
        return None

    def at_get_location_segments(self, params):
        path, peg, start, end = params.path(), params.maybe(int), params.maybe(int), params.maybe(int)

        def answered():
            newest = self.number(peg)
            self.node(path, newest)
            first, last = newest if start is None else start, end or 0
            if not last <= first <= newest:
                raise Denied(160006)
            found = [(max(begin, last), min(over, first), it) for begin, over, it in self.segments(self.place + path, newest)]
            return b''.join([spelled([begin, over, [b'/'.join(it)] if it is not None else []]) for begin, over, it in found if begin <= over])
        return self.listed_first(answered)

    def segments(self, path, peg):
        """The ranges of revisions in which what stands at a path in one stood at one path, newest first, and those between
        them in which it stood nowhere."""
        over = peg
        for was, number, source in self.moments(path, peg):
            begin = number
            if source:
                yield number, over, was
                if source[1] < number - 1:
                    yield source[1] + 1, number - 1, None
                over = source[1]
                begin = None
        if begin is not None:
            yield begin, over, was
