"""Dumps of formats 2 and 3, read and applied once more in plain Python, as docs/FORMATS.md and docs/MODEL.md say it.

It is short on purpose, and shares nothing with the program: the whole input is at hand, a tree is a dictionary from paths
(tuples of names) to nodes, and each revision's tree is a copy of the one before. Headers and blocks that were read well
are kept, since most inputs are another one with little changed. Where texts may be given as deltas, that is said of the
dump.
"""
import functools
import hashlib
import re

import deltas

VERSION = b'SVN-fs-dump-format-version: 2'
LATER = b'SVN-fs-dump-format-version: 3'
LINE, BLOCK, TEXT, DELTA = 4096, 33554432, 1048576, 2097152
NAME, COUNT, DIGITS, EMPTY = (re.compile(it) for it in (rb'[^\x00-\x1f\x7f]+', rb'([0-9]+)\n', rb'[0-9]*', rb'\n*'))
NODE_ONLY = {b'Node-path', b'Node-kind', b'Node-action', b'Node-copyfrom-rev', b'Node-copyfrom-path', b'Text-content-md5',
             b'Text-content-length'}
WITH_IDENTITY = {b'UUID', b'Text-delta', b'Text-delta-base-md5', b'Prop-delta'}
# How many records of a revision have their deltas made whole; more make no set.
RECORDS = 8192
CONTENT = {b'Prop-content-length', b'Text-content-length'}


class Refused(Exception):
    """A refusal by its number."""

    def __init__(self, number):
        super().__init__(number)
        self.number = number


def is_text(name):
    """The rule of names but for what paths say besides: UTF-8 without control characters, and not empty."""
    try:
        name.decode('utf-8')
    except UnicodeDecodeError:
        return False
    return NAME.fullmatch(name) is not None


def path_of(spelled):
    if spelled.startswith(b'/'):
        spelled = spelled[1:]
    if not spelled:
        return ()
    names = tuple(spelled.split(b'/'))
    if len(spelled) > 1024 or len(names) > 64 or any(len(name) > 255 for name in names):
        raise Refused(8)
    if any(not is_text(name) or name in (b'.', b'..') for name in names):
        raise Refused(10)
    return names


def number_of(digits, most):
    if not digits.isdigit() or int(digits) > most:
        raise Refused(3)
    return int(digits)


def revision(digits):
    return number_of(digits, 65535)


def length(digits):
    return number_of(digits, 2 ** 64 - 1)


def like(pattern):
    """A header's value as it stands, where it has this form."""
    form = re.compile(pattern)

    def read(value):
        if not form.fullmatch(value):
            raise Refused(2)
        return value
    return read


def text_delta(value):
    if value == b'true':
        raise Refused(9)
    return value


# The headers that are known, and what reads the value of each.
HEADERS = {
    b'UUID': like(rb'[0-9a-fA-F]{8}(-[0-9a-fA-F]{4}){3}-[0-9a-fA-F]{12}'), b'Revision-number': revision, b'Node-path': path_of,
    b'Node-kind': like(rb'file|dir'), b'Node-action': like(rb'change|add|delete|replace'), b'Node-copyfrom-rev': revision,
    b'Node-copyfrom-path': path_of, b'Text-content-md5': like(rb'[0-9a-fA-F]{32}'), b'Text-content-length': length,
    b'Prop-content-length': length, b'Content-length': length, b'Text-delta': text_delta, b'Prop-delta': bytes,
}
# The same where texts may be given as deltas.
WITH_DELTAS = {**HEADERS, b'Text-delta': bytes, b'Text-delta-base-md5': HEADERS[b'Text-content-md5']}


class Bytes:
    """An input and a place in it."""

    def __init__(self, data):
        self.data, self.at = data, 0

    def line(self):
        end = self.data.find(b'\n', self.at, self.at + LINE + 1)
        if end < 0:
            raise Refused(8 if len(self.data) - self.at > LINE else 7)
        found, self.at = self.data[self.at:end], end + 1
        return found

    def take(self, count):
        """So many bytes, or 7."""
        found = self.data[self.at:self.at + count]
        if len(found) < count:
            raise Refused(7)
        self.at += count
        return found


def is_sync(name):
    return name.startswith(b'svn:sync-')


def is_full(names, name):
    """Whether one more name of this sort is too many."""
    return sum(is_sync(it) == is_sync(name) for it in names) >= (16 if is_sync(name) else 256)


class Block:
    """A property block of an announced length: a whole list, or a delta, which may remove names.

    What comes to the announced end before it may is refused (5), and what comes to the input's end before that (7)."""

    def __init__(self, data, length, is_delta):
        # (the bytes of it that came)
        self.data, self.at, self.end, self.is_delta = data, 0, length, is_delta

    def ends(self, at):
        """Refuses that nothing is left from this place on."""
        raise Refused(7 if at == len(self.data) < self.end else 5)

    def expect(self, wanted):
        """These bytes, none of which is the last announced one."""
        found = self.data[self.at:min(self.at + len(wanted), self.end - 1)]
        if not wanted.startswith(found):
            raise Refused(5)
        self.at += len(found)
        if found != wanted:
            self.ends(self.at)

    def count(self, most):
        found = COUNT.match(self.data, self.at, self.end)
        if not found:
            self.ends(DIGITS.match(self.data, self.at, self.end).end())
        count, self.at = int(found[1]), found.end()
        # (a count's own fault is told at its LF before the announced end is)
        if count > most:
            raise Refused(8)
        if count >= self.end - self.at:
            raise Refused(5)
        return count

    def counted(self, count):
        found = self.data[self.at:self.at + count]
        if len(found) < count:
            raise Refused(7)
        self.at += count
        return found

    def name(self, known):
        """A counted name, which is none of these."""
        self.expect(b' ')
        count = self.count(255)
        if count == 0:
            raise Refused(5)
        name = self.counted(count)
        if not is_text(name) or name in known:
            raise Refused(5)
        return name

    def read(self):
        """The properties, and the names that are removed."""
        props, removed = {}, []
        while True:
            first = self.data[self.at:self.at + 1]
            self.expect(first or b'P')
            if first == b'P':
                self.expect(b'ROPS-END')
                self.last()
                return props, removed
            if first != b'K' and not (first == b'D' and self.is_delta):
                raise Refused(5)
            name = self.name([*props, *removed])
            if is_full(removed if first == b'D' else props, name):
                raise Refused(8)
            if first == b'D':
                removed.append(name)
            else:
                self.expect(b'\nV ')
                props[name] = self.counted(self.count(65536))
            self.expect(b'\n')

    def last(self):
        """The LF that is the last announced byte."""
        if self.at == len(self.data):
            raise Refused(7)
        if self.data[self.at] != 10 or self.at + 1 != self.end:
            raise Refused(5)


@functools.lru_cache(1024)
def block_in(data, length, is_delta):
    """What is in a block of this length, of which these bytes came."""
    return Block(data, length, is_delta).read()


def headers(data, known):
    """A record's headers that are known, up to the empty line behind them."""
    values = {}
    while (line := data.line()) != b'':
        name, colon, value = line.partition(b': ')
        if not colon or name in values:
            raise Refused(2)
        if name in known:
            values[name] = known[name](value)
    return values


@functools.lru_cache(1024)
def headers_in(text, takes_deltas):
    return headers(Bytes(text), WITH_DELTAS if takes_deltas else HEADERS)


class Record:
    """The headers of a record, and its content."""

    def __init__(self, values):
        # of a delta the names that are set stand in props, and those that are removed in removed; a text's stands in delta
        self.values, self.props, self.removed, self.text, self.delta = values, None, None, None, None

    def get(self, name):
        return self.values.get(name)

    def has(self, name):
        return name in self.values

    def form(self, version, is_first, is_below):
        """Refuses (2) what is no record's form."""
        if self.has(b'UUID'):
            is_well = is_first and self.values.keys() <= WITH_IDENTITY
        elif self.has(b'Revision-number'):
            is_well = self.values.keys().isdisjoint(NODE_ONLY)
        else:
            action = self.get(b'Node-action')
            is_well = is_below and self.has(b'Node-path') and action is not None
            is_well &= self.has(b'Node-copyfrom-rev') == self.has(b'Node-copyfrom-path')
            is_well &= not self.has(b'Node-copyfrom-rev') or action in (b'add', b'replace')
            is_well &= action != b'delete' or self.values.keys().isdisjoint(CONTENT)
        may_be_delta = version == 3 and not self.has(b'UUID') and not self.has(b'Revision-number')
        if not is_well or ((self.is_delta() or self.gives_delta()) and not may_be_delta):
            raise Refused(2)

    def is_delta(self):
        return self.get(b'Prop-delta') == b'true'

    def gives_delta(self):
        return self.get(b'Text-delta') == b'true'

    def content(self, data):
        block, text = self.get(b'Prop-content-length'), self.get(b'Text-content-length')
        if self.has(b'Content-length') and self.get(b'Content-length') != (block or 0) + (text or 0):
            raise Refused(4)
        if (block or 0) > BLOCK or (text or 0) > (DELTA if self.gives_delta() else TEXT):
            raise Refused(8)
        if block is not None:
            if block == 0:
                raise Refused(5)
            self.props, removed = block_in(data.data[data.at:data.at + block], block, self.is_delta())
            data.at += block
            self.removed = removed if self.is_delta() else None
        if text is not None and self.gives_delta():
            self.delta = data.take(text)
        elif text is not None:
            self.text = data.take(text)
            wanted = self.get(b'Text-content-md5')
            if wanted and hashlib.md5(self.text).hexdigest() != wanted.lower().decode():
                raise Refused(6)


def records(dump, takes_deltas=False):
    """The records of a dump, each as it is whole; a refusal is raised behind those before it."""
    data = Bytes(dump)
    first = data.line()
    if first not in (VERSION, LATER):
        raise Refused(1)
    version = 2 if first == VERSION else 3
    if data.line() != b'':
        raise Refused(2)
    is_first, is_below = True, False
    while (at := EMPTY.match(dump, data.at).end()) < len(dump):
        data.at, end = at, dump.find(b'\n\n', at) + 2
        known = WITH_DELTAS if takes_deltas else HEADERS
        record = Record(headers_in(dump[at:end], takes_deltas) if end > at else headers(data, known))
        data.at = end
        record.form(version, is_first, is_below)
        record.content(data)
        is_first, is_below = False, is_below or record.has(b'Revision-number')
        yield record


class Change:
    """What a revision's records say of one path."""

    def __init__(self, record):
        self.path, self.action = record.get(b'Node-path'), record.get(b'Node-action')
        self.kind, self.text = record.get(b'Node-kind'), record.text
        self.props, self.removed = record.props, record.removed
        # a delta with the sums of its base and of the text that it makes
        self.delta = record.delta, record.get(b'Text-delta-base-md5'), record.get(b'Text-content-md5')
        self.source = None
        if record.has(b'Node-copyfrom-rev'):
            self.source = record.get(b'Node-copyfrom-path'), record.get(b'Node-copyfrom-rev')

    def is_plain(self):
        return self.action in (b'add', b'replace') and self.source is None


def text_in(tree, path, absent):
    if path not in tree:
        raise Refused(absent)
    if tree[path]['kind'] == b'dir':
        raise Refused(17)
    return tree[path]['text']


def base_of(trees, nodes, change):
    """The text that a change's delta is over."""
    path, (source, revision) = change.path, change.source or (None, 0)
    if change.action == b'add' or change.action == b'replace':
        if change.source is None:
            return b''
        return text_in(trees[revision] if revision < len(trees) else {}, source, 14)
    above = [it for it in nodes if it.action != b'change' and len(it.path) < len(path) and it.path == path[:len(it.path)]]
    if not above:
        return text_in(trees[-1], path, 11)
    # (of the longest the last)
    nearest = max(reversed(above), key=lambda it: len(it.path))
    source, revision = nearest.source or (None, len(trees))
    return text_in(trees[revision] if revision < len(trees) else {}, (source or ()) + path[len(nearest.path):], 11)


def has_sum(text, wanted):
    return wanted is None or hashlib.md5(text).hexdigest() == wanted.lower().decode()


def make_whole(trees, nodes):
    """Puts in place of each delta the text that it makes."""
    for change in nodes:
        delta, base_sum, sum = change.delta
        if delta is None:
            continue
        base = base_of(trees, nodes, change)
        if not has_sum(base, base_sum):
            raise Refused(6)
        try:
            change.text = deltas.read(delta, base)
        except deltas.Refused as refused:
            raise Refused(refused.number) from None
        if not has_sum(change.text, sum):
            raise Refused(6)


def combined(nodes):
    """The changes of a revision's records, one for each path, in path order."""
    said = {}
    for node in nodes:
        said.setdefault(node.path, []).append(node)
    if len(said) > 4096:
        raise Refused(8)
    changes = {}
    for path, stated in said.items():
        if len(stated) == 2 and stated[0].action == b'delete' and stated[1].action == b'add':
            stated[1].action = b'replace'
        elif len(stated) > 1:
            raise Refused(15)
        changes[path] = stated[-1]
    for path in changes:
        if any(path[:n] in changes and changes[path[:n]].action == b'delete' for n in range(len(path))):
            raise Refused(15)
    if any(it.is_plain() and it.kind is None for it in changes.values()):
        raise Refused(2)
    return [changes[path] for path in sorted(changes)]


def node(kind, props, text, changed):
    return {'kind': kind, 'props': props, 'text': text, 'changed': changed}


def below(tree, path):
    return [it for it in tree if it[:len(path)] == path]


def judge(trees, tree, change):
    """Refuses what is faulty in a change of the tree, and fills in its kind."""
    path, number = change.path, len(trees)
    if not path and change.action != b'change':
        raise Refused(10)
    for n in range(len(path)):
        if path[:n] not in tree:
            raise Refused(11)
        if tree[path[:n]]['kind'] == b'file':
            raise Refused(13)
    if change.action == b'add' and path in tree:
        raise Refused(12)
    if change.action != b'add' and path not in tree:
        raise Refused(11)
    kind = change.kind
    if change.source:
        source, revision = change.source
        if revision >= number or source not in trees[revision]:
            raise Refused(14)
        kind = trees[revision][source]['kind']
    elif not change.is_plain():
        kind = tree[path]['kind']
    if change.kind not in (None, kind) or (change.text is not None and kind == b'dir'):
        raise Refused(17)
    change.kind = kind
    if change.source:
        for it in below(trees[revision], source):
            made = path + it[len(source):]
            if len(b'/'.join(made)) > 1024 or len(made) > 64:
                raise Refused(8)


def found(trees, tree, change):
    """The properties that a change begins with, or None where there is nothing."""
    if change.is_plain():
        return {}
    if change.source:
        source, revision = change.source
        tree, path = trees[revision] if revision < len(trees) else {}, source
    else:
        path = change.path
    return tree[path]['props'] if path in tree else None


def settle(trees, tree, change, fault):
    """Puts in place of a delta the list that it makes; else refuses it for the first fault so far, its own or 8."""
    if change.removed is None:
        return
    old = found(trees, tree, change)
    if old is None:
        if fault is None:
            judge(trees, tree, change)
        raise fault
    props = {name: value for name, value in old.items() if name not in change.removed} | change.props
    if sum(map(is_sync, props)) > 16 or len(props) - sum(map(is_sync, props)) > 256:
        raise Refused(8)
    change.props, change.removed = props, None


def apply(trees, tree, change):
    """Makes a change of the tree."""
    number, path = len(trees), change.path

    def mark(path):
        tree[path] = {**tree[path], 'changed': number}

    if change.action in (b'delete', b'replace'):
        for it in below(tree, path):
            del tree[it]
    if change.source:
        source, revision = change.source
        for it in below(trees[revision], source):
            tree[path + it[len(source):]] = trees[revision][it]
    elif change.is_plain():
        change.props = change.props or {}
        change.text = (change.text or b'') if change.kind == b'file' else None
        tree[path] = node(change.kind, {}, b'' if change.kind == b'file' else None, number)
    if change.action != b'delete':
        tree[path] = dict(tree[path])
        if change.props is not None:
            tree[path]['props'] = change.props
        if change.text is not None:
            tree[path]['text'] = change.text
        mark(path)
    for n in range(len(path)):
        mark(path[:n])


def applied(trees, changes):
    """The tree that the changes make over those of the revisions before, which share their nodes with it.

    A delta that can't be applied is refused before the faults of changes that stand before it; what is faulty is left
    out of what a delta finds.
    """
    tree, fault = dict(trees[-1]), None
    for change in changes:
        settle(trees, tree, change, fault)
        try:
            judge(trees, tree, change)
        except Refused as refused:
            fault = fault or refused
            continue
        apply(trees, tree, change)
    if fault:
        raise fault
    tree[()] = {**tree[()], 'changed': len(trees)}
    return tree


def block_of(props):
    spelled = b''.join(b'K %d\n%s\nV %d\n%s\n' % (len(name), name, len(value), value) for name, value in sorted(props.items()))
    return spelled + b'PROPS-END\n'


def head_of(identity):
    spelled = VERSION + b'\n\n'
    return spelled + (b'UUID: %s\n\n' % identity.lower() if identity else b'')


def properties_of(number, props):
    """What stands in front of a revision's changes."""
    block = block_of(props)
    return b'Revision-number: %d\nProp-content-length: %d\nContent-length: %d\n\n%s\n' % (number, len(block), len(block), block)


def changes_of(changes):
    """The changes of a revision in their canonical spelling."""
    spelled = b''
    for change in changes:
        lines = [b'Node-path: ' + b'/'.join(change.path)]
        if change.action != b'delete':
            lines += [b'Node-kind: ' + change.kind]
        lines += [b'Node-action: ' + change.action]
        if change.source:
            lines += [b'Node-copyfrom-rev: %d' % change.source[1], b'Node-copyfrom-path: ' + b'/'.join(change.source[0])]
        content = b''
        if change.props is not None:
            content += block_of(change.props)
            lines += [b'Prop-content-length: %d' % len(content)]
        if change.text is not None:
            content += change.text
            lines += [b'Text-content-length: %d' % len(change.text),
                      b'Text-content-md5: ' + hashlib.md5(change.text).hexdigest().encode()]
        if content or change.props is not None or change.text is not None:
            lines += [b'Content-length: %d' % len(content)]
        spelled += b'\n'.join(lines) + b'\n\n' + content + b'\n\n'
    return spelled


def revision_of(number, props, changes):
    """A revision in its canonical spelling."""
    return properties_of(number, props) + changes_of(changes)


class History:
    """What a dump's revisions come to: their trees, and why it stopped, if it did."""

    def __init__(self, dump, takes_deltas=False):
        self.identity, self.trees, self.fault = None, [{(): node(b'dir', {}, None, 0)}], None
        # each revision's properties, revision 0's as its last record has them, and its changes
        self.props, self.changes = [{}], [[]]
        # whether revision 0 is settled: what comes next isn't one more of it
        self.is_begun = False
        # the revision whose records come, not judged yet: its number, its properties, its changes
        self.open = None
        try:
            for record in records(dump, takes_deltas):
                self.take(record)
            self.close()
            self.is_begun = True
        except Refused as refused:
            self.fault = refused.number

    def take(self, record):
        if record.has(b'UUID'):
            self.identity = record.get(b'UUID')
        elif record.has(b'Revision-number'):
            self.close()
            self.open = record.get(b'Revision-number'), record.props or {}, []
            self.is_begun |= self.open[0] > 0
        elif self.open[0] == 0:
            raise Refused(16)
        else:
            self.open[2].append(Change(record))

    def close(self):
        if self.open is None:
            return
        number, props, nodes = self.open
        if number == 0 and not self.is_begun:
            self.props[0] = props
        elif number != len(self.trees):
            raise Refused(16)
        else:
            if len(nodes) <= RECORDS:
                make_whole(self.trees, nodes)
            changes = combined(nodes)
            self.trees.append(applied(self.trees, changes))
            self.props.append(props)
            self.changes.append(changes)
        self.open = None

    def written(self):
        """The revisions in their canonical spelling."""
        return [revision_of(number, *it) for number, it in enumerate(zip(self.props, self.changes))]

    def canon(self):
        """What `canon` writes; nothing before revision 0 is settled."""
        return head_of(self.identity) + b''.join(self.written()) if self.is_begun else b''

    def listing(self):
        """What `list` prints; nothing of a dump that is refused."""
        if self.fault:
            return b''
        tree, lines = self.trees[-1], [b'revision %d' % (len(self.trees) - 1)]
        for path in sorted(tree):
            it, name = tree[path], b'/'.join(path) or b'/'
            lines.append(b'D %d %s' % (it['changed'], name) if it['kind'] == b'dir' else
                         b'F %d %d %s' % (it['changed'], len(it['text']), name))
        return b'\n'.join(lines) + b'\n'
