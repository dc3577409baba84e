"""Two working copies of one repository, each by a URL of its own, which `svn` is given the same words for, and what is asked
of them (tests/subversion/browse).

What a copy has is the same in both: its files, byte for byte, their properties, and what `svn status` and `svn info -R` tell.
"""
import os
import re
import shutil
import subprocess
import xml.etree.ElementTree as xml

# (no file is changed here in the same moment by anything but `svn`, which needn't wait for another one then)
NO_WAIT = 'SVN_I_LOVE_CORRUPTED_WORKING_COPIES_SO_DISABLE_SLEEP_FOR_TIMESTAMPS'
DEPTHS = ['empty', 'files', 'immediates', 'infinity']
# What `svn info` tells of a copy that is not of the repository.
OWN = ['wcroot-abspath', 'text-updated']


def in_order(document):
    """A document with the attributes, and what stands in its root, in order: `svn` gives both in any."""
    root = xml.fromstring(xml.canonicalize(document))
    root[:] = sorted(root, key=xml.tostring)
    return xml.tostring(root)


def parts(text, front):
    """A text cut before each line that begins so, in order."""
    return sorted(re.split(rb'(?m)^(?=%s)' % front, text))


class Copies:
    """The copies, of a room each, and whether all was the same so far."""

    def __init__(self, urls, work, env, limit):
        self.urls, self.env, self.limit, self.fine = urls, {**env, NO_WAIT: 'yes'}, limit, True
        self.rooms = [os.path.join(work, it) for it in ('due', 'got')]
        for it in self.rooms:
            os.makedirs(it)

    def clear(self):
        for it in self.rooms:
            shutil.rmtree(it)
            os.makedirs(it)

    def begin(self, at, words):
        return subprocess.Popen(['svn', *(it.replace('ROOT', self.urls[at]) for it in words), '--non-interactive'], cwd=self.rooms[at],
                                stdin=subprocess.DEVNULL, stdout=subprocess.PIPE, stderr=subprocess.PIPE, env=self.env)

    def end(self, at, child):
        """The status of `svn` in a room, what it prints and the numbers of its errors, with ROOT for the URL."""
        said, errors = child.communicate(timeout=self.limit)
        return child.returncode, said.replace(self.urls[at].encode(), b'ROOT'), re.findall(rb'\b[EW](\d{6}):', errors)

    def run(self, at, words):
        return self.end(at, self.begin(at, words))

    def both(self, words):
        """The same in both rooms, side by side."""
        children = [self.begin(at, words) for at in (0, 1)]
        return [self.end(at, it) for at, it in enumerate(children)]

    def same(self, what, due, got):
        if due != got:
            print('  %s:\n    due: %r\n    got: %r' % (what, *at_difference(due, got)))
            self.fine = False
        return due

    def tells(self, *words, form=lambda it: it):
        """Words that print the same with both URLs, in this form."""
        due, got = ((status, form(said) if status == 0 else said, numbers) for status, said, numbers in self.both(words))
        return self.same('svn ' + ' '.join(words), due, got)

    def sections(self, front, *words):
        """The same but for the order of what begins with lines like this."""
        return self.tells(*words, form=lambda it: parts(it, front))

    def marks(self, *words):
        """`svn status` marks the same, but for folders that are there: the repository marks those too in which a file was replaced."""
        def is_folder(line):
            return any(os.path.isdir(os.path.join(it.encode(), line[21:].rstrip(b'\n'))) for it in self.rooms)
        return self.tells(*words, form=lambda it: [line for line in parts(it, b'') if not is_folder(line)])

    def does(self, *words):
        """Words that do the same to both, whatever they print of it."""
        self.tells(*words, form=lambda it: re.findall(rb'revision (\d+)\.\n', it)[-1:])

    def have_files(self, what):
        self.same(what + ': files', *(files_in(os.path.join(it, 'wc')) for it in self.rooms))

    def alike(self, what, is_fresh=False):
        """Both copies are the same, and nothing is changed in them. Which revision changed a node last is the same where it
        came by one checkout; an update tells it of what differs alone."""
        self.have_files(what)
        left = [it for it in self.sections(b'', 'status', 'wc')[1] if it[:1].strip()]
        self.same(what + ': svn status', [], left)
        self.tells('proplist', '-v', '-R', '--xml', 'wc', form=in_order)
        self.tells('info', '-R', '--xml', 'wc', form=lambda it: facts(it, is_fresh))


def at_difference(due, got):
    """Where two values differ, told short."""
    due, got = (it if isinstance(it, (bytes, str)) else repr(it) for it in (due, got))
    at = len(os.path.commonprefix([due, got]))
    return due[max(0, at - 60):at + 200], got[max(0, at - 60):at + 200]


def files_in(top):
    """What is in a folder and below it: the bytes of files, None for folders, and where links lead."""
    found = {}
    for folder, below, files in os.walk(os.fsencode(top)):
        below[:] = [it for it in below if it != b'.svn']
        for it in below + files:
            path = os.path.join(folder, it)
            name = os.path.relpath(path, os.fsencode(top))
            if os.path.islink(path):
                found[name] = 'to', os.readlink(path)
            elif os.path.isdir(path):
                found[name] = None
            else:
                with open(path, 'rb') as file:
                    found[name] = os.access(path, os.X_OK), file.read()
    return sorted(found.items())


def facts(document, is_fresh):
    """What `svn info` tells of each node in a copy, as far as it is the repository's."""
    root = xml.fromstring(xml.canonicalize(document))
    for entry in root:
        for above in (entry, entry.find('wc-info')):
            for name in OWN + ([] if is_fresh else ['commit']):
                for it in above.findall(name) if above is not None else []:
                    above.remove(it)
    root[:] = sorted(root, key=lambda it: it.get('path'))
    return xml.tostring(root)


# ---- what is asked of working copies of a repository

def main_of(reader):
    """A folder that is in most revisions, and another one of the newest: of the branches the one in which most is."""
    folders = reader.nodes(reader.head)[0]
    others = [it for it in folders if re.fullmatch('branches/[^/]*|p2', it)]
    return ('trunk' if 'trunk' in folders else ''), max(others, key=lambda it: sum(other.startswith(it + '/') for other in folders))


def older_of(reader, folder):
    """Revisions in which a folder is there, the newest among them, in an order that goes back and forth."""
    head = reader.head
    numbers = [it for it in (head // 2, 1, head - 1, head // 3, head) if not folder or folder in reader.nodes(it)[0]]
    return numbers


def taken(reader):
    copies, (main, other) = reader.copies(), main_of(reader)
    for path, number in (('', reader.head), (main, older_of(reader, main)[0]), (other, reader.head)):
        copies.does('checkout', reader.at(path, number), 'wc')
        copies.alike('checkout of %s@%d' % (path, number), True)
        copies.clear()
        copies.does('export', reader.at(path, number), 'wc')
        copies.have_files('export of %s@%d' % (path, number))
        copies.clear()
    for words in (['no/such'], [reader.nodes(reader.head)[1][0]]):
        copies.tells('checkout', reader.at(*words), 'wc')
    copies.tells('checkout', reader.at('', reader.head + 1), 'wc')
    return copies.fine


def updated(reader):
    copies, (main, _) = reader.copies(), main_of(reader)
    numbers = older_of(reader, main)
    copies.does('checkout', reader.at(main), 'wc')
    for number in numbers:
        copies.does('update', '-r', str(number), 'wc')
        copies.alike('update to %d' % number)
    front = main and main + '/'
    folders, files = ([it[len(front):] for it in paths if it.startswith(front)] for paths in reader.nodes(reader.head))
    for number in numbers[:2]:
        # a copy of several revisions
        copies.does('update', '-r', str(number), *('wc/' + it for it in folders[:2] + files[-2:]))
        copies.does('update', '-r', str(numbers[2]), 'wc')
        copies.alike('update of several to %d' % numbers[2])
        copies.does('update', 'wc')
        copies.alike('update of several')
    for path in folders[:2] + files[-2:]:
        copies.does('update', '-r', str(numbers[0]), 'wc/' + path)
        copies.alike('update of %s to %d' % (path, numbers[0]))
    copies.does('update', 'wc')
    copies.alike('update of all')
    copies.does('update', '-r', str(numbers[0]), 'wc')
    copies.does('update', *('wc/' + it for it in files[-4:]))
    copies.alike('update of what may not be there')
    return copies.fine


def sparse(reader):
    copies, (main, _) = reader.copies(), main_of(reader)
    front, (folders, files) = main and main + '/', reader.nodes(reader.head)
    # (of a file that becomes a folder the repository leaves the file in a copy of files alone, and fails by it later)
    numbers = [it for it in older_of(reader, main) if not {*reader.nodes(it)[0]} & {*files} | {*reader.nodes(it)[1]} & {*folders}]
    numbers = numbers if len(numbers) > 1 else [reader.head - 1, reader.head]
    inside = [it[len(front):] for it in folders if it.startswith(front) and '/' not in it[len(front):]][:2]
    for depth in DEPTHS[:-1]:
        for path in (main, ''):
            copies.does('export', '--depth', depth, reader.at(path, numbers[0]), 'wc')
            copies.have_files('export of %s with depth %s' % (path, depth))
            copies.clear()
        copies.does('checkout', '--depth', depth, reader.at(main, numbers[0]), 'wc')
        copies.alike('checkout with depth %s' % depth, True)
        for number in numbers:
            copies.does('update', '-r', str(number), 'wc')
            copies.alike('update with depth %s to %d' % (depth, number))
        # what stands deeper than the rest
        for path in inside:
            copies.does('update', '--set-depth', 'files', 'wc/' + path)
            copies.does('update', '-r', str(numbers[0]), 'wc')
            copies.alike('update of %s below depth %s' % (path, depth))
        for deeper in DEPTHS[DEPTHS.index(depth) + 1:]:
            copies.does('update', '--set-depth', deeper, 'wc')
            copies.alike('update from depth %s to %s' % (depth, deeper))
            copies.does('update', '-r', str(numbers[0]), 'wc')
            copies.alike('update of that to %d' % numbers[0])
            copies.does('update', 'wc')
        for shallower in DEPTHS[2::-1]:
            copies.does('update', '--set-depth', shallower, 'wc')
            copies.alike('update back to depth %s' % shallower)
        copies.clear()
    # what is left out, and what is wanted again
    copies.does('checkout', reader.at(main), 'wc')
    for path in inside:
        copies.does('update', '--set-depth', 'exclude', 'wc/' + path)
        for number in [*numbers, reader.head]:
            copies.does('update', '-r', str(number), 'wc')
            copies.alike('update to %d without %s' % (number, path))
        copies.sections(b'', 'status', '-u', 'wc')
        copies.does('update', '--set-depth', 'immediates', 'wc/' + path)
        copies.alike('some of %s again' % path)
        copies.does('update', '-r', str(numbers[0]), 'wc')
        copies.does('update', '--set-depth', 'infinity', 'wc')
        copies.alike('all of %s again' % path)
        copies.does('update', 'wc')
    # commands that look less deep beside what is left out
    for path in inside:
        copies.does('update', '--set-depth', 'exclude', 'wc/' + path)
        for depth in DEPTHS[:-1]:
            copies.does('update', '-r', str(numbers[0]), 'wc')
            copies.does('update', '--depth', depth, 'wc')
            copies.alike('update --depth %s without %s' % (depth, path))
            for number in (numbers[0], reader.head):
                copies.does('update', '-r', str(number), 'wc')
                copies.alike('update from that to %d without %s' % (number, path))
        copies.does('update', '--set-depth', 'infinity', 'wc')
        copies.alike('all beside %s too' % path)
    # commands that look so deep
    for depth in DEPTHS:
        copies.does('update', '-r', str(numbers[0]), 'wc')
        copies.marks('status', '-u', '--depth', depth, 'wc')
        copies.does('update', '--depth', depth, 'wc')
        copies.alike('update --depth %s' % depth)
        for words in (['-r', '%d:%d' % (numbers[1], reader.head), reader.at(main)], ['-r', str(numbers[1]), 'wc']):
            copies.sections(b'Index: ', 'diff', '--depth', depth, *words)
        copies.sections(b'', 'diff', '--summarize', '--depth', depth, '-r', '%d:%d' % (reader.head, numbers[1]), reader.at(main))
    return copies.fine


def switched(reader):
    copies, (main, other) = reader.copies(), main_of(reader)
    copies.does('checkout', reader.at(main), 'wc')
    for path in (other, main):
        if 'log' in reader.answered:
            copies.does('switch', reader.at(path), 'wc')
        copies.does('switch', '--ignore-ancestry', reader.at(path), 'wc')
        copies.alike('switch to %s' % path)
    # a folder alone, with a short path, so that what comes there is within the limits of paths
    front = main and main + '/'
    folders = [it[len(front):] for it in reader.nodes(reader.head)[0] if it.startswith(front) and it not in (main, other)]
    inside = min(folders, key=lambda it: (it.count('/'), len(it)))
    copies.does('switch', '--ignore-ancestry', reader.at(other), 'wc/' + inside)
    copies.alike('switch of a folder')
    for number in (older_of(reader, other)[0], reader.head):
        copies.does('update', '-r', str(number), 'wc')
        copies.alike('update of a switched folder to %d' % number)
        copies.marks('status', '-u', 'wc')
        copies.sections(b'Index: ', 'diff', '-r', str(number), 'wc')
    copies.does('switch', '--ignore-ancestry', reader.at(front + inside), 'wc/' + inside)
    copies.alike('switch of a folder back')
    return copies.fine


def compared(reader):
    copies, (main, other) = reader.copies(), main_of(reader)
    numbers, before = older_of(reader, main), max(1, reader.head - 20)
    for one, two in ((before, reader.head), (reader.head, before), (1, before // 2)):
        # (of a folder below the root it is a part of another that is asked for)
        for path in (main, ''):
            copies.sections(b'Index: ', 'diff', '-r', '%d:%d' % (one, two), reader.at(path))
            copies.sections(b'', 'diff', '--summarize', '-r', '%d:%d' % (one, two), reader.at(path))
    copies.does('checkout', reader.at(main), 'wc')
    copies.sections(b'Index: ', 'diff', '-r', str(numbers[0]), 'wc')
    copies.sections(b'Index: ', 'diff', '-r', '%d:%d' % (numbers[0], reader.head), 'wc')
    copies.sections(b'Index: ', 'diff', reader.at(other), reader.at(main))
    files = [it for it in reader.nodes(reader.head)[1] if it.startswith(main)]
    copies.sections(b'Index: ', 'diff', reader.at(files[0]), reader.at(files[-1]))
    if 'log' in reader.answered:
        path = 'wc/' + [it[len(main and main + '/'):] for it in reader.nodes(reader.head)[1] if it.startswith(main and main + '/')][-1]
        for words in (['log', 'wc'], ['log', '-v', '-r', 'BASE:1', path], ['blame', path], ['info', '-r', 'HEAD', path]):
            copies.tells(*words)
    copies.sections(b'', 'status', '-u', 'wc')
    copies.does('update', '-r', str(reader.head - 1), 'wc')
    copies.sections(b'', 'status', '-u', '-v', 'wc')
    return copies.fine
