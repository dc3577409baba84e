"""What an edit does to the tree that was reported: whatever its order is, and however its texts are sent."""
import hashlib

import deltas
from reports import placed
from sessions import items

ENTRY = b'svn:entry:'


def names(path):
    return tuple(path.split(b'/')) if path else ()


class Effect:
    """What the commands of an edit do, from its target to its end. Where they can't be done, or tell what isn't so, it
    raises a KeyError or a ValueError."""

    def __init__(self, edit):
        # (a text that isn't sent is taken for the one that is wanted)
        self.edit, self.tree = edit, {path: dict(node) for path, node in edit.trees[0].items()}
        self.numbers, self.entered, self.told, self.open, self.sent = [], [], {}, {}, {}

    def of(self, commands):
        """What is compared of an edit: its revisions and the tree that it makes. What it tells of each node that it opens or
        adds is looked at here."""
        for name, params in commands:
            getattr(self, name.decode().replace('-', '_'))(*params)
        for path in self.entered if self.edit.tells_root else self.entered[1:]:
            self.is_told(path)
        if self.told:
            raise ValueError(f'more is told: {self.told}')
        tree = {path: (node['kind'], node['text'], sorted(node['props'].items())) for path, node in self.tree.items()}
        return 'edit', self.numbers, sorted(tree.items())

    def is_told(self, path):
        """Takes out what is told of a node, which is what a client wants to know of it."""
        due = {ENTRY + name: value[0] for name, value in self.edit.server.entry_of(self.edit.goal[path]) if value}
        if self.told.pop(path, {}) != due:
            raise ValueError(f'another thing is told of {path}')

    def enter(self, path, token):
        self.open[token] = path
        self.entered.append(path)

    def target_rev(self, number):
        self.numbers.append(number)

    def open_root(self, base, token):
        self.numbers += base
        self.enter((), token)

    def delete_entry(self, path, _base, _up):
        # (svnserve deletes too what a copy hasn't, since it is deeper than was reported)
        if names(path) not in self.tree and not self.edit.is_sparse:
            raise ValueError(f'nothing to delete at {path}')
        self.tree = placed(self.tree, names(path), {})

    def add(self, path, token, kind, text):
        if names(path) in self.tree:
            raise ValueError(f'something is at {path}')
        self.tree[names(path)] = {'kind': kind, 'props': {}, 'text': text}
        self.enter(names(path), token)

    def add_dir(self, path, _up, token, _source):
        self.add(path, token, b'dir', None)

    def add_file(self, path, _up, token, _source):
        self.add(path, token, b'file', b'')

    def opened(self, path, token, kind):
        if self.tree[names(path)]['kind'] != kind:
            raise ValueError(f'another kind at {path}')
        self.enter(names(path), token)

    def open_dir(self, path, _up, token, _base):
        self.opened(path, token, b'dir')

    def open_file(self, path, _up, token, _base):
        self.opened(path, token, b'file')

    def change_dir_prop(self, token, name, value):
        path = self.open[token]
        if name.startswith(ENTRY):
            self.told.setdefault(path, {}).update({name: it for it in value})
            return
        node = self.tree[path]
        node['props'] = {it: node['props'][it] for it in node['props'] if it != name} | {name: it for it in value}

    change_file_prop = change_dir_prop

    def apply_textdelta(self, token, sum):
        base = self.tree[self.open[token]]['text']
        if sum and self.edit.has_texts and hashlib.md5(base).hexdigest().encode() != sum[0]:
            raise ValueError('a delta of another text')
        self.sent[token] = b''

    def textdelta_chunk(self, token, piece):
        self.sent[token] += piece

    def textdelta_end(self, token):
        path, data = self.open[token], self.sent.pop(token)
        node = self.tree[path]
        node['text'] = deltas.read(data, node['text']) if self.edit.has_texts else self.edit.goal[path]['text']

    def close_file(self, token, sum):
        text = self.tree[self.open.pop(token)]['text']
        if sum and hashlib.md5(text).hexdigest().encode() != sum[0]:
            raise ValueError('another sum')

    def close_dir(self, token):
        self.open.pop(token)

    def close_edit(self):
        if self.open:
            raise ValueError('something is left open')


def is_in(item, name):
    return isinstance(item, list) and item[:1] == [name]


def with_effects(data, edits):
    """The items of what a client is told, with the effect of each edit in the place of its commands."""
    found, inside = [], None
    left = list(edits)
    for item in items(data):
        if is_in(item, b'target-rev'):
            inside = []
        if inside is None:
            found.append(item)
            continue
        inside.append(item)
        if is_in(item, b'close-edit'):
            found.append(Effect(left.pop(0)).of(inside))
            inside = None
    return found + (inside or [])

