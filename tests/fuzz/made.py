"""Dumps made from a seed: histories that mostly hold together, spelled in any of the ways that a reader takes, and some
with a byte or a line that is wrong."""
import hashlib
import uuid

import deltas
from dumps import LATER, Change, Record, Refused, applied, base_of, combined, head_of, node

NAMES = [b'a', b'b', b'a-b', b'c', b'd', b'trunk', b'x y', b'\xc3\xa9', b'PROPS-END', b'K 1', b'0']
ODD_NAMES = [b'.', b'..', b'\x01', b'\x7f', b'\xff', b'\xed\xa0\x80', b'n' * 255, b'n' * 256, b'']
PROPS = [b'p', b'svn:log', b'svn:executable', b'svn:sync-x', b'a/b', b'..', b'\xc3\xa9']
# those of a master's revisions
PLAIN = [it for it in PROPS if not it.startswith(b'svn:sync-')]


def some(random, most):
    return bytes(random.choices(b'ab\n\x00\xff PK1', k=random.randrange(most)))


def props_of(random, names=PROPS):
    return {random.choice(names): some(random, 12) for _ in range(random.choice([0, 0, 1, 1, 2, 4]))}


def name_of(random):
    return random.choice(ODD_NAMES) if random.random() < 0.01 else random.choice(NAMES)


class Maker:
    """A history as it grows, kept in trees so that what follows mostly fits."""

    def __init__(self, random, version, gives_deltas):
        self.random, self.version, self.trees = random, version, [{(): node(b'dir', {}, None, 0)}]
        self.gives_deltas = gives_deltas

    def path(self, tree, kind=None):
        there = [it for it in tree if it and (kind is None or tree[it]['kind'] == kind)]
        if not there or self.random.random() < 0.06:
            return tuple(name_of(self.random) for _ in range(self.random.randrange(4)))
        return self.random.choice(there)

    def new_path(self, tree):
        folders = [it for it in tree if tree[it]['kind'] == b'dir']
        return self.random.choice(folders) + (name_of(self.random),)

    def parts(self, record, kind):
        if self.random.random() < 0.4:
            record.props = props_of(self.random)
            if self.version == 3 and self.random.random() < 0.6:
                record.values[b'Prop-delta'] = b'true'
                record.removed = [it for it in PROPS if it not in record.props and self.random.random() < 0.3]
        elif self.version == 3 and self.random.random() < 0.1:
            record.values[b'Prop-delta'] = b'true'
        if kind == b'file' and self.random.random() < (0.9 if self.gives_deltas else 0.5) or self.random.random() < 0.01:
            record.text = some(self.random, 40)

    def record(self, tree):
        random, record = self.random, Record({})
        action = random.choice([b'add'] * 5 + [b'change'] * 2 + [b'delete', b'replace'])
        path = self.new_path(tree) if action == b'add' else self.path(tree)
        record.values.update({b'Node-path': path, b'Node-action': action})
        kind = random.choice([b'file', b'dir'])
        if action in (b'add', b'replace') and random.random() < 0.35:
            revision = random.randrange(len(self.trees) + (random.random() < 0.03))
            source = self.path(self.trees[min(revision, len(self.trees) - 1)])
            record.values |= {b'Node-copyfrom-rev': revision, b'Node-copyfrom-path': source}
            kind = self.trees[min(revision, len(self.trees) - 1)].get(source, {'kind': kind})['kind']
        elif action in (b'change', b'delete'):
            kind = tree.get(path, {'kind': kind})['kind']
        if action in (b'add', b'replace') or random.random() < 0.4:
            record.values[b'Node-kind'] = kind if random.random() < 0.97 else random.choice([b'file', b'dir'])
            if random.random() < 0.02:
                del record.values[b'Node-kind']
        if action != b'delete':
            self.parts(record, kind)
        if self.gives_deltas and record.text is not None and random.random() < 0.8:
            self.give_delta(tree, record)
        return record

    def give_delta(self, tree, record):
        """Gives a record's text as a delta, mostly of what will be its base."""
        random = self.random
        try:
            base = base_of(self.trees, [], Change(record))
        except Refused:
            base = tree.get(record.get(b'Node-path'), {}).get('text') or b''
        if random.random() < 0.04:
            base += b'x'
        record.values[b'Text-delta'] = b'true'
        record.delta = deltas.right_delta_of(random, base)
        record.text = deltas.read(record.delta, base)
        if random.random() < 0.7:
            base += b'y' if random.random() < 0.02 else b''
            record.values[b'Text-delta-base-md5'] = hashlib.md5(base).hexdigest().encode()
        if random.random() < 0.03:
            record.delta = deltas.harmed(random, record.delta)

    def split(self, record):
        """A replacement as a deletion and an addition, at times."""
        if record.get(b'Node-action') != b'replace' or self.random.random() < 0.5:
            return [record]
        gone = Record({b'Node-path': record.get(b'Node-path'), b'Node-action': b'delete'})
        record.values[b'Node-action'] = b'add'
        return [gone, record]

    def revision(self):
        """The records of one more revision, which holds together nearly always."""
        for _ in range(20):
            tree, said = dict(self.trees[-1]), []
            for _ in range(self.random.choice([0, 1, 1, 2, 3, 5])):
                record = self.record(tree)
                try:
                    tree = applied([*self.trees[:-1], tree], combined([Change(record)])) if self.random.random() < 0.9 else tree
                except Refused:
                    if self.random.random() < 0.95:
                        continue
                said.append(self.split(record))
            self.random.shuffle(said)
            records = [it for records in said for it in records]
            try:
                self.trees.append(applied(self.trees, combined([Change(it) for it in records])))
                return records
            except Refused:
                if self.random.random() < 0.02:
                    return records
        return []


def digits(random, number):
    return b'0' * (random.choice([1, 30]) if random.random() < 0.18 else 0) + b'%d' % number


def spelled(random, record):
    """A record in one of its spellings."""
    lines, content = [], b''
    for name, value in record.values.items():
        if isinstance(value, tuple):
            value = random.choice([b'', b'', b'/']) + b'/'.join(value)
        elif isinstance(value, int):
            value = digits(random, value)
        lines.append(name + b': ' + value)
    if record.props is not None:
        entries = [b'K %s\n%s\nV %s\n%s\n' % (digits(random, len(name)), name, digits(random, len(value)), value)
                   for name, value in record.props.items()]
        entries += [b'D %s\n%s\n' % (digits(random, len(name)), name) for name in record.removed or []]
        content = b''.join(random.sample(entries, len(entries))) + b'PROPS-END\n'
        lines.append(b'Prop-content-length: ' + digits(random, len(content)))
    if record.text is not None:
        given = record.text if record.delta is None else record.delta
        lines.append(b'Text-content-length: ' + digits(random, len(given)))
        content += given
        if random.random() < 0.7:
            sum = hashlib.md5(record.text).hexdigest()
            lines.append(b'Text-content-md5: ' + random.choice([sum, sum.upper()]).encode())
    if content and random.random() < 0.7:
        lines.append(b'Content-length: ' + digits(random, len(content)))
    if random.random() < 0.1:
        lines.append(random.choice([b'Text-content-sha1: x', b'Other: ', b'Prop-delta: false', b'Text-delta: no']))
    random.shuffle(lines)
    return b'\n'.join(lines) + b'\n\n' + content + b'\n' * random.choice([0, 1, 2, 2, 5])


def revision_record(random, number, props):
    record = Record({b'Revision-number': number})
    record.props = props
    return spelled(random, record)


def made(random, names=PROPS, gives_deltas=False):
    """A dump whose revisions have properties of these names, and perhaps texts that are given as deltas."""
    version = 3 if gives_deltas else random.choice([2, 2, 3])
    maker = Maker(random, version, gives_deltas)
    identity = str(uuid.UUID(int=random.getrandbits(128))).encode() if random.random() < 0.7 else None
    if identity and random.random() < 0.5:
        identity = identity.upper()
    dump = (LATER + b'\n\n' if version == 3 else head_of(None)) + (b'UUID: %s\n\n' % identity if identity else b'') + b'\n' * random.choice([0, 0, 1])
    for _ in range(random.choice([0, 1, 1, 1, 2])):
        dump += revision_record(random, 0, props_of(random, names))
    for number in range(1, random.choice([1, 2, 4, 8, 12])):
        records = maker.revision()
        number += random.random() < 0.003
        dump += revision_record(random, number, props_of(random, names) if random.random() < 0.8 else None)
        dump += b''.join(spelled(random, it) for it in records)
    return dump


def harmed(random, dump):
    """The dump with something wrong in it, or not wrong after all."""
    at = random.randrange(len(dump) + 1)
    way = random.randrange(7)
    if way == 0:
        return dump[:at]
    if way == 1:
        return dump[:at] + bytes([random.randrange(256)]) + dump[at + 1:]
    if way == 2:
        return dump[:at] + dump[at + random.choice([1, 1, 2, 9]):]
    if way == 3:
        return dump[:at] + bytes([random.choice(b'0123456789\n KV:x\x00')]) + dump[at:]
    lines = dump.split(b'\n')
    first, second = random.randrange(len(lines)), random.randrange(len(lines))
    if way == 4:
        lines[first] = lines[second]
    elif way == 5:
        lines.insert(first, lines[second])
    else:
        lines[first], lines[second] = lines[second], lines[first]
    return b'\n'.join(lines)
