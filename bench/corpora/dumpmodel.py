#!/usr/bin/env python3
"""A plain reader of dump format 2 and a plain model of its trees. It reads what `svnadmin dump` writes, with few
refusals, and is no definition. `make` asks it what exists.

  dumpmodel.py list  < DUMP      the newest tree in the form of `svnfleet list`
  dumpmodel.py canon < DUMP      the dump in the spelling of `svnfleet canon`
  dumpmodel.py changed < DUMP    a listing of each revision
  dumpmodel.py stats < DUMP      counts of forms of records and of orders of headers
"""
import sys, hashlib
from collections import Counter

FILE, DIR = 'file', 'dir'
KNOWN = {b'Revision-number', b'Node-path', b'Node-kind', b'Node-action', b'Node-copyfrom-rev',
         b'Node-copyfrom-path', b'Text-content-md5', b'Text-content-length',
         b'Prop-content-length', b'Content-length', b'UUID', b'Text-delta', b'Prop-delta'}


class Fault(Exception):
    def __init__(self, no, text=''):
        Exception.__init__(self, '%d %s' % (no, text)); self.no = no


def split(path):
    if path.startswith(b'/'):
        path = path[1:]
    return tuple(path.split(b'/')) if path else ()


class Record:
    __slots__ = ('headers', 'order', 'props', 'text', 'rev')


class Reader:
    """iterates over Records of a binary file object; .uuid after the first record"""
    def __init__(self, f):
        self.f = f; self.uuid = None
        if f.readline() != b'SVN-fs-dump-format-version: 2\n':
            raise Fault(1)
        if f.readline() != b'\n':
            raise Fault(2)

    def __iter__(self):
        f = self.f
        while True:
            line = f.readline()
            if line == b'\n':
                continue
            if not line:
                return
            h = {}; order = []
            while line != b'\n':
                if not line.endswith(b'\n'):
                    raise Fault(7)
                k, sep, v = line[:-1].partition(b': ')
                if not sep:
                    raise Fault(2, repr(line))
                if k in KNOWN and k in h:
                    raise Fault(2)
                h[k] = v; order.append(k)
                line = f.readline()
                if not line:
                    raise Fault(7)
            if b'UUID' in h and len(h) == 1:
                self.uuid = h[b'UUID']; continue
            if h.get(b'Text-delta') == b'true':
                raise Fault(9)
            if h.get(b'Prop-delta') == b'true':
                raise Fault(2)
            r = Record(); r.headers = h; r.order = order; r.rev = None
            pl = int(h[b'Prop-content-length']) if b'Prop-content-length' in h else None
            tl = int(h[b'Text-content-length']) if b'Text-content-length' in h else None
            if b'Content-length' in h and int(h[b'Content-length']) != (pl or 0) + (tl or 0):
                raise Fault(4)
            r.props = None if pl is None else parse_props(self.take(pl))
            r.text = None if tl is None else self.take(tl)
            if r.text is not None and b'Text-content-md5' in h:
                if hashlib.md5(r.text).hexdigest().encode() != h[b'Text-content-md5'].lower():
                    raise Fault(6)
            yield r

    def take(self, n):
        b = self.f.read(n)
        if len(b) != n:
            raise Fault(7)
        return b


def parse_props(b):
    out = {}; at = 0
    while True:
        e = b.index(b'\n', at); line = b[at:e]; at = e + 1
        if line == b'PROPS-END':
            if at != len(b):
                raise Fault(5)
            return out
        if not line.startswith(b'K '):
            raise Fault(5)
        n = int(line[2:]); k = b[at:at + n]; at += n + 1
        e = b.index(b'\n', at); line = b[at:e]; at = e + 1
        n = int(line[2:]); v = b[at:at + n]; at += n + 1
        if k in out:
            raise Fault(5)
        out[k] = v


def write_props(p):
    return b''.join(b'K %d\n%s\nV %d\n%s\n' % (len(k), k, len(v), v)
                    for k, v in sorted(p.items())) + b'PROPS-END\n'


class Node:
    __slots__ = ('kind', 'props', 'text', 'changed', 'kids')

    def __init__(self, kind, props, text, changed, kids):
        self.kind = kind; self.props = props; self.text = text
        self.changed = changed; self.kids = kids

    def copy(self):
        return Node(self.kind, self.props, self.text, self.changed,
                    None if self.kids is None else dict(self.kids))


class Change:
    __slots__ = ('path', 'action', 'kind', 'source', 'props', 'text')

    def __init__(self, path, action, kind=None, source=None, props=None, text=None):
        self.path = path; self.action = action; self.kind = kind
        self.source = source; self.props = props; self.text = text


def get(tree, path):
    for name in path:
        if tree.kids is None:
            return None
        tree = tree.kids.get(name)
        if tree is None:
            return None
    return tree


def change_of(r):
    h = r.headers
    src = None
    if b'Node-copyfrom-rev' in h:
        src = (split(h[b'Node-copyfrom-path']), int(h[b'Node-copyfrom-rev']))
    kind = h[b'Node-kind'].decode() if b'Node-kind' in h else None
    return Change(split(h[b'Node-path']), h[b'Node-action'].decode(), kind, src, r.props, r.text)


def combine(changes):
    """The changes of a revision's records; kinds that are left out stay so."""
    by = {}
    for c in changes:
        if c.path in by:
            old = by[c.path]
            if old.action == 'delete' and c.action == 'add':
                c.action = 'replace'
            else:
                raise Fault(15, repr(c.path))
        by[c.path] = c
    gone = [p for p, c in by.items() if c.action == 'delete']
    gs = set(gone)
    for p in by:
        for i in range(len(p)):
            if p[:i] in gs:
                raise Fault(15, repr(p))
    return [by[p] for p in sorted(by)]


def apply(trees, changes):
    """The tree that a revision's changes make; trees is the list of trees 0 .. n-1."""
    n = len(trees)
    root = trees[n - 1].copy() if n else Node(DIR, {}, None, 0, {})
    root.changed = n
    fresh = {id(root): root}

    def own(path):
        node = root
        for name in path:
            if node.kids is None:
                raise Fault(13, repr(path))
            kid = node.kids.get(name)
            if kid is None:
                raise Fault(11, repr(path))
            if id(kid) not in fresh:
                kid = kid.copy(); fresh[id(kid)] = kid; node.kids[name] = kid
            kid.changed = n
            node = kid
        return node

    for c in changes:
        if not c.path:
            if c.action != 'change':
                raise Fault(10)
            node = root
        else:
            up = own(c.path[:-1])
            if up.kids is None:
                raise Fault(13)
            there = up.kids.get(c.path[-1])
            if c.action == 'add':
                if there is not None:
                    raise Fault(12, repr(c.path))
            elif there is None:
                raise Fault(11, repr(c.path))
            if c.action == 'delete':
                if c.kind and c.kind != there.kind:
                    raise Fault(17)
                del up.kids[c.path[-1]]
                continue
            if c.action == 'change':
                if c.kind and c.kind != there.kind:
                    raise Fault(17)
                node = own(c.path)
            else:
                if c.source:
                    p, r = c.source
                    if r >= n:
                        raise Fault(14)
                    s = get(trees[r], p)
                    if s is None:
                        raise Fault(14, repr(c.source))
                    if c.kind and c.kind != s.kind:
                        raise Fault(17)
                    node = s.copy()
                else:
                    if c.kind is None:
                        raise Fault(2)
                    node = Node(c.kind, {}, b'' if c.kind == FILE else None, n,
                                None if c.kind == FILE else {})
                node.changed = n
                fresh[id(node)] = node
                up.kids[c.path[-1]] = node
        if c.props is not None:
            node.props = c.props
        if c.text is not None:
            if node.kind != FILE:
                raise Fault(17)
            node.text = c.text
    return root


class Repo:
    def __init__(self, f=None, uuid=b'00000000-0000-4000-8000-000000000000'):
        self.uuid = uuid; self.trees = []; self.props = []; self.sets = []; self.had_uuid = False
        if f is not None:
            self.load(f)

    def load(self, f, each=None):
        rd = Reader(f)
        pend = None
        def flush():
            if pend is None:
                return
            no, props, chs = pend
            if no == 0 and not self.trees:
                if chs:
                    raise Fault(16)
                self.sets.append([]); self.trees.append(apply([], [])); self.props.append(props)
            elif no == 0 and len(self.trees) == 1:
                self.props[0] = props
            else:
                if not self.trees:
                    self.sets.append([]); self.trees.append(apply([], [])); self.props.append({})
                if no != len(self.trees):
                    raise Fault(16, 'revision %d at head %d' % (no, len(self.trees) - 1))
                s = combine(chs)
                self.trees.append(apply(self.trees, s)); self.sets.append(s); self.props.append(props)
            if each:
                each(self)
        for r in rd:
            if b'Revision-number' in r.headers:
                flush()
                pend = (int(r.headers[b'Revision-number']), r.props or {}, [])
            else:
                pend[2].append(change_of(r))
        flush()
        if rd.uuid:
            self.uuid = rd.uuid; self.had_uuid = True

    @property
    def head(self):
        return len(self.trees) - 1

    def commit(self, changes, props):
        s = combine(changes)
        t = apply(self.trees, s)
        self.sets.append(s); self.trees.append(t); self.props.append(props)
        return t


def listing(no, tree):
    out = [b'revision %d' % no]
    def walk(node, path):
        shown = b'/'.join(path) if path else b'/'
        if node.kind == DIR:
            out.append(b'D %d %s' % (node.changed, shown))
            for name in sorted(node.kids):
                walk(node.kids[name], path + (name,))
        else:
            out.append(b'F %d %d %s' % (node.changed, len(node.text), shown))
    walk(tree, ())
    return b'\n'.join(out) + b'\n'


def canon_rev(no, props):
    b = write_props(props)
    return b'Revision-number: %d\nProp-content-length: %d\nContent-length: %d\n\n%s\n' % (no, len(b), len(b), b)


def canon_change(c, kind):
    o = [b'Node-path: ' + b'/'.join(c.path)]
    if c.action != 'delete':
        o.append(b'Node-kind: ' + kind.encode())
    o.append(b'Node-action: ' + c.action.encode())
    if c.source:
        o.append(b'Node-copyfrom-rev: %d' % c.source[1])
        o.append(b'Node-copyfrom-path: ' + b'/'.join(c.source[0]))
    body = b''
    props = c.props
    if c.action in ('add', 'replace') and not c.source and props is None:
        props = {}
    text = c.text
    if c.action in ('add', 'replace') and not c.source and text is None and kind == FILE:
        text = b''
    if c.action != 'delete' and (props is not None or text is not None):
        n = 0
        if props is not None:
            b = write_props(props); body += b; n += len(b)
            o.append(b'Prop-content-length: %d' % len(b))
        if text is not None:
            body += text; n += len(text)
            o.append(b'Text-content-length: %d' % len(text))
            o.append(b'Text-content-md5: ' + hashlib.md5(text).hexdigest().encode())
        o.append(b'Content-length: %d' % n)
    return b'\n'.join(o) + b'\n\n' + body + b'\n\n'


def canon(repo, out, uuid=True):
    out.write(b'SVN-fs-dump-format-version: 2\n\n')
    if uuid:
        out.write(b'UUID: ' + repo.uuid + b'\n\n')
    for n in range(len(repo.trees)):
        out.write(canon_rev(n, repo.props[n]))
        for c in repo.sets[n]:
            kind = c.kind
            if c.action != 'delete' and kind is None:
                kind = get(repo.trees[n], c.path).kind
            out.write(canon_change(c, kind))


def stats(f):
    rd = Reader(f); forms = Counter(); orders = Counter(); top = 0; cnt = 0; biggest = 0; nrev = 0
    for r in rd:
        h = r.headers
        orders[b' '.join(r.order)] += 1
        if b'Revision-number' in h:
            nrev += 1; top = max(top, cnt); cnt = 0
            forms['revision'] += 1
        else:
            cnt += 1
            forms['%s %s%s%s%s' % (h[b'Node-action'].decode(), h.get(b'Node-kind', b'(no kind)').decode(),
                  ' copied' if b'Node-copyfrom-rev' in h else '',
                  ' +props' if r.props is not None else '', ' +text' if r.text is not None else '')] += 1
            if r.text is not None:
                biggest = max(biggest, len(r.text))
    top = max(top, cnt)
    print('records of revisions', nrev, 'most nodes in one', top, 'longest text', biggest)
    for k, v in sorted(forms.items()):
        print('%8d  %s' % (v, k))
    print('header orders:')
    for k, v in orders.most_common():
        print('%8d  %s' % (v, k.decode()))


if __name__ == '__main__':
    what = sys.argv[1]
    inp, out = sys.stdin.buffer, sys.stdout.buffer
    if what == 'list':
        r = Repo(inp); out.write(listing(r.head, r.trees[-1]))
    elif what == 'canon':
        r = Repo(inp); canon(r, out, r.had_uuid)
    elif what == 'changed':
        Repo().load(inp, lambda r: out.write(listing(r.head, r.trees[-1])))
    elif what == 'stats':
        stats(inp)
