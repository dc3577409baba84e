"""Subversion repositories for the comparisons, the same each time.

small   one commit at a time by svnmucc: adds, edits, properties, copies with changes inside, moves, replacements
edge    texts, names, paths, values and property lists at svnfleet's limits
props   directories alone, whose properties change: dumped as deltas it has no text
plain   200 revisions of adds, changes and deletions, by svnadmin load of a generated dump
medium  1,000 revisions of edits, branches, tags, moves and merges, by svnadmin load of a generated dump
"""
import hashlib
import os
import random
import subprocess
import tempfile
import time

ENV = dict(os.environ, LC_ALL='C.UTF-8', TZ='UTC')


def run(*words, given=None):
    done = subprocess.run(words, input=given, stdout=subprocess.PIPE, stderr=subprocess.PIPE, env=ENV)
    if done.returncode:
        raise RuntimeError('%s: %s' % (' '.join(words[:2]), done.stderr.decode(errors='replace')[:300]))
    return done.stdout


def date(n):
    return time.strftime('%Y-%m-%dT%H:%M:%S', time.gmtime(1577836800 + 1000 * n)) + '.%06dZ' % (n * 7919 % 1000000)


# ---- repositories by svnmucc

class Hand:
    """A repository that grows by one svnmucc at a time."""

    def __init__(self, repo, work):
        self.repo, self.work, self.number = repo, work, 0
        run('svnadmin', 'create', repo)
        self.revprop(0, 'svn:date', date(0))

    def file(self, content):
        content = content if isinstance(content, bytes) else content.encode()
        handle, name = tempfile.mkstemp(dir=self.work)
        os.write(handle, content)
        os.close(handle)
        return name

    def revprop(self, revision, name, value):
        run('svnadmin', 'setrevprop', self.repo, '-r', str(revision), name, self.file(value))

    def commit(self, message, *actions):
        words = []
        for action in actions:
            action = list(action)
            if action[0] == 'put':
                action[1] = self.file(action[1])
            elif action[0] == 'propsetf':
                action[2] = self.file(action[2])
            words += action
        run('svnmucc', '--non-interactive', '-u', 'alice', '-m', message, '-U', 'file://' + self.repo, *words)
        self.number += 1
        self.revprop(self.number, 'svn:date', date(self.number))

    def load(self, records):
        """One revision by svnadmin load, for what svnmucc can't do."""
        self.number += 1
        block = props_block({b'svn:date': date(self.number).encode(), b'svn:log': b'by load'})
        run('svnadmin', 'load', '-q', '--ignore-uuid', self.repo,
            given=b'SVN-fs-dump-format-version: 2\n\n' + revision_record(self.number, block) + records)


def small(repo, work):
    hand = Hand(repo, work)
    every_byte = bytes(range(256))
    hand.commit('first import\nof two lines',
                ('mkdir', 'trunk'), ('mkdir', 'branches'), ('mkdir', 'trunk/a'), ('mkdir', 'trunk/lib'),
                ('put', 'hello\n', 'trunk/readme'), ('put', '', 'trunk/empty'), ('put', every_byte, 'trunk/bytes'),
                ('put', 'no end of line', 'trunk/no-eol'), ('put', 'x\n', 'trunk/a/x'), ('put', 'y\n', 'trunk/a-b'),
                ('put', 'int a;\n', 'trunk/lib/a.c'), ('put', 'int b;\n', 'trunk/lib/b.c'),
                ('put', 'PROPS-END\nK 1\n\nNode-path: nothing\n\n', 'trunk/looks-like-a-dump'),
                ('put', 'u\n', 'trunk/caf\u00e9'), ('put', 's\n', 'trunk/two  blanks'))
    hand.commit('properties and edits',
                ('put', 'hello again\n', 'trunk/readme'), ('propset', 'svn:ignore', '*.o\n*.a\n', 'trunk/lib'),
                ('propset', 'empty', '', 'trunk/lib/a.c'), ('propsetf', 'bytes', every_byte, 'trunk/lib/a.c'),
                ('propset', 'root', 'on the root', '.'))
    hand.commit('a branch with changes inside',
                ('cp', '2', 'trunk', 'branches/b'), ('put', 'int a = 1;\n', 'branches/b/lib/a.c'),
                ('rm', 'branches/b/lib/b.c'), ('rm', 'branches/b/a'), ('mkdir', 'branches/b/new'),
                ('cp', '1', 'trunk/lib', 'branches/b/old-lib'))
    hand.commit('moves', ('mv', 'trunk/readme', 'trunk/README'), ('mv', 'trunk/a', 'branches/a'))
    hand.commit('replacements', ('rm', 'trunk/no-eol'), ('put', 'another\n', 'trunk/no-eol'),
                ('rm', 'trunk/a-b'), ('mkdir', 'trunk/a-b'), ('put', 'z\n', 'trunk/a-b/z'))
    hand.commit('replacements by copies', ('rm', 'branches/b'), ('cp', '5', 'trunk', 'branches/b'),
                ('rm', 'branches/b/lib'), ('cp', '1', 'trunk/lib', 'branches/b/lib'), ('put', 'c\n', 'branches/b/lib/c.c'))
    hand.load(b'')
    hand.commit('properties go', ('propdel', 'root', '.'), ('propset', 'mergeinfo-like', '/branches/b:3-7', 'trunk'))
    hand.commit('back from the past', ('rm', 'trunk/empty'), ('cp', '1', 'trunk/readme', 'trunk/readme'),
                ('cp', '3', 'branches/b', 'branches/b-as-it-was'))
    hand.revprop(3, 'svn:log', 'the log, edited later\n')
    hand.revprop(3, 'bytes', b'\x00\x01\xff')
    hand.revprop(0, 'zero', 'on revision 0')


def edge(repo, work):
    hand = Hand(repo, work)
    rnd = random.Random(7)
    blob = lambda n: bytes(rnd.getrandbits(8) for _ in range(n))
    sizes = (1, 63, 64, 65, 4095, 4096, 4097, 65535, 65536, 65537, 131072, 1048575, 1048576)
    hand.commit('sizes', ('mkdir', 't'), *[('put', blob(n), 't/%07d' % n) for n in sizes])
    # 64 names, the last a file
    path, deep = 'd', [('mkdir', 'd')]
    for _ in range(61):
        path += '/d'
        deep.append(('mkdir', path))
    hand.commit('names and paths', ('put', '255\n', 'n' * 255), ('put', '254\n', '\u00e9' * 127), *deep,
                ('put', 'bottom\n', path + '/f'), ('mkdir', 'p'),
                *[('propset', 'x:%03d' % i, 'v%d' % i, 'p') for i in range(256)],
                ('put', 'big\n', 'big'), ('propsetf', 'big', blob(65536), 'big'))
    hand.commit('into itself', ('cp', '2', '.', 'self'), ('cp', '2', 'd', 'p/d'))
    hand.load(b'Node-path: big\nNode-kind: file\nNode-action: change\n\n\n')
    hand.commit('copy of a copy', ('cp', '4', 'self', 'self2'), ('rm', 'self2/p'), ('mkdir', 'self2/p'),
                ('put', 'q\n', 'self2/p/q'), ('rm', 'self2/t/0000001'), ('put', 'one\n', 'self2/t/0000001'))
    hand.commit('copies with properties', ('cp', '5', 'big', 'big2'), ('propdel', 'big', 'big2'),
                ('propset', 'y', 'z', 'big2'), ('cp', '5', 'p', 'p2'), ('propdel', 'x:005', 'p2'))
    hand.commit('all goes', *[('rm', name) for name in ('t', 'd', 'p', 'big', 'n' * 255, '\u00e9' * 127, 'self')])


def props(repo, work):
    hand = Hand(repo, work)
    hand.commit('directories', ('mkdir', 't'), ('mkdir', 't/a'), ('mkdir', 't/b'), ('propset', 'p', '1', 't/a'),
                ('propset', 'q', '2', 't/a'), ('propset', 'root', 'on the root', '.'))
    hand.commit('set, changed and removed', ('propset', 'p', '3', 't/a'), ('propdel', 'q', 't/a'),
                ('propset', 'r', '', 't/a'), ('propset', 's', 'PROPS-END\nD 1\np\n', 't/b'), ('propdel', 'root', '.'))
    hand.commit('copies with changes', ('cp', '1', 't', 'u'), ('propset', 'p', '4', 'u/a'), ('propdel', 'q', 'u/a'),
                ('cp', '2', 't/a', 'v'), ('propdel', 'r', 'v'))
    hand.commit('replacements', ('rm', 't/b'), ('mkdir', 't/b'), ('propset', 'n', 'new', 't/b'),
                ('rm', 'u/a'), ('cp', '1', 't/a', 'u/a'), ('propset', 'p', '5', 'u/a'))
    hand.commit('all properties go', ('propdel', 'p', 'u/a'), ('propdel', 'q', 'u/a'), ('propdel', 'n', 't/b'))


# ---- repositories by svnadmin load of a generated dump

def props_block(props):
    out = b''
    for name in sorted(props):
        out += b'K %d\n%s\nV %d\n%s\n' % (len(name), name, len(props[name]), props[name])
    return out + b'PROPS-END\n'


def revision_record(number, block):
    return b'Revision-number: %d\nProp-content-length: %d\nContent-length: %d\n\n%s\n' % (number, len(block), len(block), block)


def node_record(path, kind, action, source=None, props=None, text=None):
    out = b'Node-path: %s\n' % path
    if action != b'delete':
        out += b'Node-kind: %s\n' % kind
    out += b'Node-action: %s\n' % action
    if source:
        out += b'Node-copyfrom-rev: %d\nNode-copyfrom-path: %s\n' % (source[1], source[0])
    block = b'' if props is None else props_block(props)
    if props is not None:
        out += b'Prop-content-length: %d\n' % len(block)
    if text is not None:
        out += b'Text-content-length: %d\nText-content-md5: %s\n' % (len(text), hashlib.md5(text).hexdigest().encode())
    if props is not None or text is not None:
        out += b'Content-length: %d\n' % (len(block) + len(text or b''))
    return out + b'\n' + block + (text or b'') + b'\n\n'


class Generator:
    """Writes a dump, and keeps the kinds and texts of the newest tree, so that each change fits."""

    def __init__(self, seed, uuid):
        self.rnd = random.Random(seed)
        self.out = [b'SVN-fs-dump-format-version: 2\n\nUUID: %s\n\n' % uuid]
        self.tree = {}
        self.number = -1
        self.commit([])

    def commit(self, records):
        self.number += 1
        props = {b'svn:date': date(self.number).encode()}
        if self.number:
            props.update({b'svn:log': b'revision %d' % self.number, b'svn:author': self.rnd.choice([b'alice', b'bob'])})
        self.out.append(revision_record(self.number, props_block(props)))
        self.out += records

    def text(self, lines):
        return b''.join(b'%d %d\n' % (self.rnd.getrandbits(30), i) for i in range(lines))

    def paths(self, is_dir, top=b''):
        return sorted(p for p, t in self.tree.items() if (t is None) == is_dir and (not top or p == top or p.startswith(top + b'/')))

    def below(self, path):
        return [p for p in self.tree if p == path or p.startswith(path + b'/')]

    def add_dir(self, path):
        self.tree[path] = None
        return node_record(path, b'dir', b'add', props={})

    def add_file(self, path, props=None):
        self.tree[path] = self.text(self.rnd.randrange(1, 12))
        return node_record(path, b'file', b'add', props=props or {}, text=self.tree[path])

    def edit(self, path):
        self.tree[path] = self.tree[path] + self.text(1)
        return node_record(path, b'file', b'change', text=self.tree[path])

    def delete(self, path):
        for p in self.below(path):
            del self.tree[p]
        return node_record(path, b'file', b'delete')

    def copy(self, source, path):
        kind = b'dir' if self.tree[source] is None else b'file'
        for p in self.below(source):
            self.tree[path + p[len(source):]] = self.tree[p]
        return node_record(path, kind, b'add', source=(source, self.number))


def plain(repo, work):
    gen = Generator(11, b'6a1f0c3e-0000-4000-8000-0000000000b1')
    names = [b'a', b'a-b', b'a.b', b'b', b'name with blanks', 'caf\u00e9'.encode(), b'K 1', b'PROPS-END', b'n' * 255]
    fresh = 0
    while gen.number < 200:
        records, seen = [], set()
        for _ in range(gen.rnd.choice([0, 1, 1, 2, 3, 5])):
            ups = [b''] + [p for p in gen.paths(True) if p.count(b'/') < 6 and len(p) < 500]
            files = [p for p in gen.paths(False) if p not in seen]
            what = gen.rnd.randrange(10)
            if what < 5 or not files:
                up = gen.rnd.choice(ups)
                fresh += 1
                name = gen.rnd.choice(names) if gen.rnd.random() < .4 else b'f%d' % fresh
                path = up + b'/' + name if up else name
                if path in gen.tree or path in seen:
                    continue
                if gen.rnd.random() < .3:
                    records.append(gen.add_dir(path))
                else:
                    records.append(gen.add_file(path, {b'p': bytes(range(256))} if gen.rnd.random() < .2 else {}))
            else:
                path = gen.rnd.choice(files)
                records.append(gen.edit(path) if what < 9 else gen.delete(path))
            seen.add(path)
        gen.commit(records)
    load(repo, b''.join(gen.out))


def medium(repo, work):
    gen = Generator(12, b'6a1f0c3e-0000-4000-8000-0000000000b2')
    gen.commit([gen.add_dir(b'trunk'), gen.add_dir(b'branches'), gen.add_dir(b'tags')])
    dirs = [gen.add_dir(b'trunk/d%02d' % i) for i in range(20)]
    gen.commit(dirs + [gen.add_file(b'trunk/d%02d/f%03d' % (i % 20, i)) for i in range(200)])
    fresh = 200
    branches = []
    while gen.number < 1000:
        top = gen.rnd.choice([b'trunk', b'trunk'] + branches)
        what = gen.rnd.randrange(100)
        fresh += 1
        files = gen.paths(False, top)
        path = gen.rnd.choice(files)
        if gen.number % 100 == 99:
            records = [gen.copy(b'trunk', b'tags/v%d' % gen.number)]
        elif what < 75:
            records = [gen.edit(p) for p in gen.rnd.sample(files, 3)]
        elif what < 85:
            records = [gen.add_file(gen.rnd.choice(gen.paths(True, top)) + b'/n%d' % fresh)]
        elif what < 90 and len(files) > 100:
            records = [gen.delete(path)]
        elif what < 94:
            moved = gen.copy(path, path + b'-moved%d' % fresh)
            records = [moved, gen.delete(path)]
        elif what < 97 and len(branches) < 4:
            branches.append(b'branches/b%d' % fresh)
            records = [gen.copy(b'trunk', branches[-1]), gen.edit(gen.rnd.choice(gen.paths(False, branches[-1])))]
        else:
            gen.delete(path)
            gen.tree[path] = gen.text(4)
            records = [node_record(path, b'file', b'replace', props={}, text=gen.tree[path])]
        gen.commit(records)
    load(repo, b''.join(gen.out))


def load(repo, dump):
    run('svnadmin', 'create', repo)
    run('svnadmin', 'load', '-q', '--force-uuid', repo, given=dump)


ALL = {'small': small, 'edge': edge, 'props': props, 'plain': plain, 'medium': medium}


def make(name, repo, work):
    ALL[name](repo, work)
