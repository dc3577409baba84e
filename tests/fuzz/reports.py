"""Reports of working copies, and the edits that answer them, in plain Python.

A client says what it has, path by path, and is told the edit that makes of that what it wants. What is reported and what is
wanted are trees here, as dumps.py has them, with the path of the folder in front left out. The edit is the walk over what
differs, in path order, by sessions.py.

What svnserve tells is another edit with the same effect: it sends texts as deltas of what was reported, and opens what was
changed and changed back. effects.py tells what an edit does.
"""
import collections
import copy

from dumps import Refused
from reads import ANSWERED, NO_URL, OTHER, Asked, Denied, Reads, place_of
from sessions import AUTHORISED, DONE, Edit, Word, command, is_a, items, spelled, wanted

# The most commands of a report.
MOST = 65536
Change = collections.namedtuple('Change', 'path action kind source props text')
# The most paths that may be switched.
LINKS = 1024
# A folder with nothing in it.
ROOT = {(): {'kind': b'dir', 'props': {}, 'text': None, 'changed': 0}}


# ---- trees

def below(tree, place):
    """What stands at a place and below it, as it is from there."""
    return {it[len(place):]: node for it, node in tree.items() if it[:len(place)] == place}


def emptied(tree):
    """What stands at the root alone; of a folder the properties aren't known either."""
    return {path: {**node, 'props': {}} if node['kind'] == b'dir' else node for path, node in tree.items() if not path}


def within(tree, depth):
    """A tree looked at so deep."""
    if depth in (b'infinity', b'unknown'):
        return tree
    taken = {b'empty': (), b'files': (b'file',), b'immediates': (b'file', b'dir')}[depth]
    return {path: node for path, node in tree.items() if not path or len(path) == 1 and node['kind'] in taken}


def placed(tree, path, part):
    """A tree with this one at a path."""
    rest = {it: node for it, node in tree.items() if it[:len(path)] != path}
    return rest | {path + it: node for it, node in part.items()}


def is_blocked(tree, path):
    """Whether something above a path is no folder."""
    return any(path[:n] not in tree or tree[path[:n]]['kind'] == b'file' for n in range(len(path)))


def limited(tree, whole, path, depth):
    """A tree with so much of what the whole has at a path. A bare folder stands for what is left out, as long as anything is there."""
    if is_blocked(tree, path):
        return tree
    part = below(whole, path)
    return placed(tree, path, (ROOT if part else {}) if depth == b'exclude' else within(part, depth))


def change_at(old, new, path):
    """What makes of what stands at a path what shall stand there, if anything does."""
    before, after = old.get(path), new.get(path)
    if after is None:
        # (what lies below what goes, goes with it)
        return None if is_blocked(new, path) else Change(path, b'delete', None, None, None, None)
    if before is None or before['kind'] != after['kind']:
        action = b'add' if before is None else b'replace'
        return Change(path, action, after['kind'], None, after['props'], after['text'])
    props = after['props'] if after['props'] != before['props'] else None
    text = after['text'] if after['text'] != before['text'] else None
    return Change(path, b'change', after['kind'], None, props, text) if props is not None or text is not None else None


def changes_between(old, new, opens):
    """The changes, in path order; where it is so, each folder that stays has one too, which may give nothing."""
    found = [change_at(old, new, it) or opened(old, new, it, opens) for it in sorted({*old, *new})]
    return [it for it in found if it]


def opened(old, new, path, opens):
    stays = opens and path in old and path in new and new[path]['kind'] == b'dir'
    return Change(path, b'change', b'dir', None, None, None) if stays else None


# ---- the edit

class Update(Edit):
    """The edit that makes one tree of another, with what a client wants to know of each node that is opened or added."""

    LAST = b'close-edit'

    def __init__(self, report, reported, goal, number):
        self.server, self.goal, self.has_texts = report.server, goal, report.has_texts
        # (a target stands alone in its folder, of which nothing is told)
        self.tells_root = not report.target
        self.is_sparse = any(depth != b'infinity' for _, depth in report.limits)
        super().__init__([reported], changes_between(reported, goal, report.opens()), number=number, base=report.base)

    def known(self, old):
        return old

    def props_at(self, path, _done):
        return self.trees[0][path]['props']

    def beside(self, path, token, name):
        if path not in self.goal or not path and not self.tells_root:
            return []
        return [command(name, token, b'svn:entry:' + it, value) for it, value in self.server.entry_of(self.goal[path])]


# ---- reports

class Report:
    """What a command wants, and what its client has said so far that it has."""

    def __init__(self, server, number, target, wanted, depth, has_url=False, has_texts=True):
        # (the root of what is wanted stands at this path of that revision)
        self.server, self.number, self.target, self.wanted, self.depth = server, number, target, wanted, depth
        self.has_url, self.has_texts = has_url, has_texts
        self.said, self.spoilt = [], None
        # where what is switched stands, with its path, and how deep each path is reported
        self.links, self.limits = [], []
        self.tree, self.base = None, None

    def answer(self, item):
        """What an item is told in the report."""
        try:
            name, params = self.read(item)
        except Denied as denied:
            self.spoilt = self.spoilt or denied
            return b''
        if name == 'abort-report':
            self.server.awaits = None
            return DONE
        if name == 'finish-report':
            self.server.awaits = None
            return self.finished()
        if self.spoilt is None and len(self.said) == MOST:
            self.spoilt = Denied(200007)
        self.said.append((name, params))
        return b''

    def read(self, item):
        if not (is_a(item, list) and len(item) > 1 and is_a(item[0], Word) and is_a(item[1], list)):
            raise Denied(210004)
        name = item[0].decode()
        read = {'set-path': self.set_path, 'link-path': self.link_path, 'delete-path': lambda it: [it.path()]}.get(name)
        if name in ('finish-report', 'abort-report'):
            return name, []
        if read is None:
            raise Denied(210001)
        try:
            found = read(Asked(item[1]))
        except Refused:
            raise Denied(210004) from None
        return name, found

    def set_path(self, params):
        return [params.path(), None, *self.state(params)]

    def link_path(self, params):
        return [params.path(), params.next(bytes), *self.state(params)]

    def state(self, params):
        """A revision, whether it begins empty, and how deep it is."""
        found = [params.next(int), params.bool()]
        params.perhaps(lambda: params.maybe(bytes), None)
        depth = params.perhaps(params.depth, b'infinity')
        wanted(depth != b'unknown')
        return [*found, depth]

    def finished(self):
        try:
            if self.spoilt:
                raise self.spoilt
            edit = self.edit()
        except Denied as denied:
            return self.server.denial(denied)
        self.server.awaits = Judged(self.server)
        self.server.edits.append(edit)
        return AUTHORISED + b''.join(edit.said)

    # ---- what is wanted, and what is reported

    def edit(self):
        """The edit of what is reported to what is wanted: a target stands alone in its folder."""
        number, front = self.server.number(self.number), self.target
        wanted = self.server.part(self.wanted, number, not front)
        if front and not all(fits(front + it) for it in wanted):
            raise Denied(200007)
        if not all(fits(front + params[0]) for _, params in self.said):
            raise Denied(160013)
        for it in self.said:
            self.take(*it)
        if self.tree is None:
            raise Denied(165004)
        whole = self.followed(wanted, number)
        both = (within(it, self.depth) for it in (self.tree, self.thinned(whole)))
        return Update(self, *(self.dropped(placed(ROOT, front, it), whole) for it in both), number)

    def dropped(self, tree, whole):
        """The tree without what is left out of what is wanted: nothing is told of it."""
        gone = [self.target + path for path, depth in self.limits if depth == b'exclude' and path in whole and self.target + path]
        return {it: node for it, node in tree.items() if not any(it[:len(path)] == path for path in gone)}

    def followed(self, wanted, number):
        """What is wanted where a folder stays switched: what stands there at its own place."""
        for path, place in [] if self.has_url else self.links:
            if not is_blocked(wanted, path):
                part = below(self.server.trees[number], place)
                if not all(fits(self.target + path + it) for it in part):
                    raise Denied(200007)
                wanted = placed(wanted, path, part)
        return wanted

    def thinned(self, whole):
        """So much of what is wanted as there is by the report: where a depth is wanted, all but what is left out."""
        is_sparse = any(depth != b'infinity' for _, depth in self.limits)
        tree = whole
        for path, depth in self.limits:
            if depth == b'exclude' if self.depth != b'unknown' else is_sparse:
                tree = limited(tree, whole, path, depth)
        return tree

    def opens(self):
        """Whether folders are opened in which nothing differs: some path is there in part."""
        return any(depth in (b'empty', b'files', b'immediates') for _, depth in self.limits)

    def take(self, name, params):
        if self.tree is None:
            return self.begin(name, params)
        path = params[0]
        if name == 'delete-path':
            self.has_place(path)
            self.tree = placed(self.tree, path, {})
            return None
        # (below a target that isn't there nothing is)
        if path and () not in self.tree:
            self.link(*params[:2])
        else:
            self.tree = placed(self.tree, path, self.source(*params))
        self.limits.append((path, params[-1]))
        return None

    def begin(self, name, params):
        path, _, number, is_empty, depth = params if name == 'set-path' else [b'none', None, 0, False, b'']
        if path:
            raise Denied(165004)
        place = self.server.place + self.target
        if not fits(place):
            raise Denied(160013)
        is_bare = is_empty or depth == b'exclude'
        found = self.server.part(place, self.server.number(number), not self.target and not is_bare)
        self.base = number
        self.limits.append(((), depth))
        # (a folder begins empty wherever it stands)
        if self.target and found or not is_bare:
            self.tree = self.shown(found, is_empty, depth)
        else:
            self.tree = found if self.target else ROOT

    def shown(self, found, is_empty, depth):
        """What there is of it. A bare folder stands for what is left out."""
        return ROOT if depth == b'exclude' else emptied(found) if is_empty else within(found, depth)

    def source(self, path, url, number, is_empty, depth):
        """What stands where a path is said to come from, in a revision."""
        if url is not None and len(self.links) == LINKS:
            raise Denied(200007)
        place = self.place_of(path) if url is None else self.server.linked(url)
        if not fits(place):
            raise Denied(160013)
        tree = self.server.trees[self.server.number(number)]
        self.has_place(path)
        if is_blocked(self.tree, path):
            raise Denied(165004)
        found = below(tree, place)
        if depth != b'exclude':
            if not found:
                raise Denied(160013)
            if not is_empty and not all(fits(self.target + path + it) for it in found):
                raise Denied(200007)
        if url is not None:
            self.links.append((path, place))
        return self.shown(found, is_empty, depth)

    def link(self, path, url):
        """A link says where what is wanted stands."""
        if url is not None:
            if len(self.links) == LINKS:
                raise Denied(200007)
            self.links.append((path, self.server.linked(url)))

    def has_place(self, path):
        """A path is below the folder, but for a target: nothing may be there, or something else."""
        if not path and not self.target:
            raise Denied(165004)

    def place_of(self, path):
        """Where a path lies: below the session's place, or below that of what is switched."""
        found = self.server.place + self.target + path
        for front, place in self.links:
            if path[:len(front)] == front:
                found = place + path[len(front):]
        return found


def fits(path):
    return len(b'/'.join(path)) <= 1024 and len(path) <= 64


class Judged:
    """What a client says of an edit that it was sent."""

    def __init__(self, server):
        self.server = server

    def answer(self, item):
        self.server.awaits = None
        try:
            said = self.read(item)
        except Refused:
            said = 210004, b'bad command shape'
        if said is None:
            return DONE
        return command(b'abort-edit') + spelled([Word(b'failure'), [[*said, b'', 0]]])

    def read(self, item):
        """None where all is well, or the number and the text of the first thing that isn't."""
        wanted(is_a(item, list) and len(item) > 1 and is_a(item[0], Word) and is_a(item[1], list))
        if item[0] == b'success':
            return None
        wanted(item[0] == b'failure')
        told = [self.refused(it) for it in item[1]]
        wanted(bool(told))
        return told[0]

    def refused(self, item):
        wanted(is_a(item, list))
        params = Asked(item)
        return [params.next(it) for it in (int, bytes, bytes, int)][:2]


# ---- the server

class Reporting(Reads):
    """A repository as readers see it who have working copies of it."""

    def __init__(self, *words):
        super().__init__(*words)
        # what is awaited in the place of a command, and the edits that were told
        self.awaits, self.edits = None, []

    def answers(self):
        self.awaits, self.edits = None, []
        return super().answers()

    def answer(self, item):
        return self.awaits.answer(item) if self.awaits else super().answer(item)

    def edit_behind(self, said, root, place):
        """The edit that a session of this root that stands at this place sends behind these items, if it does."""
        other = copy.copy(self)
        other.denied, other.awaits, other.edits, other.root, other.place = collections.Counter(), None, [], root, place
        for it in items(b''.join([spelled(it) for it in said])):
            other.answer(it)
        return other.edits[-1] if isinstance(other.awaits, Judged) else None

    def part(self, path, number, is_dir):
        """What stands at a path of a revision and below it; a folder, where one is wanted."""
        tree = self.trees[self.number(number)]
        if is_dir and path not in tree:
            raise Denied(160013)
        if is_dir and tree[path]['kind'] == b'file':
            raise Denied(160016)
        return below(tree, path)

    def entry_of(self, node):
        """What is told of a node beside its properties."""
        date, author = self.made(node)
        return [(b'committed-rev', [b'%d' % node['changed']]), (b'committed-date', date), (b'last-author', author), (b'uuid', [self.identity])]

    def linked(self, url):
        """The path below this server's root that a URL has."""
        try:
            root, place = place_of(url)
        except Refused:
            raise Denied(*NO_URL) from None
        if root != self.root:
            raise Denied(*OTHER)
        return place

    def ordered(self, target, depth, url=None):
        """Where what is wanted stands; what isn't offered is denied before its report."""
        if 'update' not in ANSWERED or depth == b'exclude' or len(target) > 1:
            raise Denied(200007)
        place = self.place + target if url is None else self.linked(url)
        if not fits(place):
            raise Denied(160013)
        return place

    def report(self, *words):
        def answered():
            self.awaits = Report(self, *words)
            return b''
        return answered

    def flags(self, params):
        return [params.perhaps(params.bool, False) for _ in range(2)]

    def at_update(self, params):
        number, target, recurse = params.maybe(int), params.path(), params.bool()
        depth = params.perhaps(params.depth, b'infinity' if recurse else b'files')
        self.flags(params)
        return self.report(number, target, self.ordered(target, depth), depth)

    def at_switch(self, params):
        number, target, recurse, url = params.maybe(int), params.path(), params.bool(), params.next(bytes)
        depth = params.perhaps(params.depth, b'infinity' if recurse else b'files')
        self.flags(params)
        return self.report(number, target, self.ordered(target, depth, url), depth, True)

    def at_status(self, params):
        target, recurse = params.path(), params.bool()
        number = params.perhaps(lambda: params.maybe(int), None)
        depth = params.perhaps(params.depth, b'infinity' if recurse else b'empty')
        return self.report(number, target, self.ordered(target, depth), depth, False, False)

    def at_diff(self, params):
        number, target, recurse, _, url = params.maybe(int), params.path(), params.bool(), params.bool(), params.next(bytes)
        has_texts = params.perhaps(params.bool, True)
        depth = params.perhaps(params.depth, b'infinity' if recurse else b'files')
        return self.report(number, target, self.ordered(target, depth, url), depth, True, has_texts)
