"""What stands behind each call of an append: a load and a job at a mirror whose folder fails for good, and then stops; and
a server whose folder fails once.

An append is two writes, a sync of either file, the write that opens the gate, and a sync. What is wanted stands here.
"""
import hashlib
import os
import re
import subprocess
import sys

HERE = os.path.dirname(os.path.realpath(__file__))
sys.path.insert(0, f'{HERE}/../fuzz')
sys.dont_write_bytecode = True

from disk import FILES, changed, content, entries, put, without_sums  # noqa: E402
from served import free_port, got  # noqa: E402

HEAD = b'SVN-fs-dump-format-version: 2\n\n'
BEGUN = (HEAD + b'UUID: 6a1f0c3e-0000-4000-8000-000000000001\n\n'
         b'Revision-number: 0\nProp-content-length: 10\nContent-length: 10\n\nPROPS-END\n\n')
ONE_FILE = (b'Revision-number: 1\nProp-content-length: 29\nContent-length: 29\n\nK 7\nsvn:log\nV 2\nhi\nPROPS-END\n\n'
            b'Node-path: a\nNode-kind: file\nNode-action: add\nProp-content-length: 10\nText-content-length: 6\n'
            b'Text-content-md5: b1946ac92492d2347c6235b4d2611184\nContent-length: 16\n\nPROPS-END\nhello\n\n\n')
NO_FILE = (b'Revision-number: 2\nProp-content-length: 10\nContent-length: 10\n\nPROPS-END\n\n'
           b'Node-path: a\nNode-action: delete\n\n\n\n')
ANOTHER = ONE_FILE.replace(b'Revision-number: 1', b'Revision-number: 3')
APPEND = ['write', 'write', 'sync', 'sync', 'write', 'sync']
# What is left of what wasn't synced: nothing, all, or bytes of this value in its place.
OLD, NEW, ONES, OTHERS = 'old', 'new', 1, 0x37
# Behind how many of an append's calls its entry stands, by what is left: the write that opens the gate decides.
STANDING = [{}] * 5 + [{NEW, ONES}, {OLD, NEW, ONES, OTHERS}]
CLIENT = (b'( 2 ( edit-pipeline ) 21:svn://127.0.0.1:3690/ ) ( ANONYMOUS ( 0: ) ) '
          + 2 * b'( change-rev-prop ( 1 7:svn:log 2:ho ) ) ' + b'( rev-prop ( 1 7:svn:log ) ) ')
AUTHORISED = b'( success ( ( ) 0: ) ) '
# A change that meets a failed call, one behind it, and what is still there.
TOLD = (AUTHORISED + b'( failure ( ( 31 13:device failed 0: 0 ) ) ) ' + AUTHORISED
        + b'( failure ( ( 32 13:failed before 0: 0 ) ) ) ' + AUTHORISED + b'( success ( ( 2:hi ) ) ) ')


def left(start, calls, pick):
    """The folder behind these calls, with this left of what wasn't synced."""
    image = {}
    for name in FILES:
        read = kept = start[name] or b''
        for call in calls:
            if call[1] != name:
                continue
            if call[0] == 'sync':
                kept = read
                continue
            read = changed(read, call)
            if pick == NEW:
                kept = changed(kept, call)
            elif pick != OLD and call[0] == 'write':
                kept = changed(kept, call, 0, pick)
        image[name] = kept
    return image


class Standing:
    """The trials over a folder with one revision: commands are made by the site, and each result is told to `check`."""

    def __init__(self, site, check):
        self.site, self.check = site, check
        put('here', {name: None for name in FILES})
        site.run('create', 'here', '--uuid', '6a1f0c3e-0000-4000-8000-000000000001')
        site.run('load', 'here', given=HEAD + ONE_FILE)
        self.start = content('here')
        self.opening = len(site.command('dump', 'here').ran(FAIL_AT=0)[3])

    def is_dumped(self, *revisions):
        return self.site.dump_here() == BEGUN + b''.join(revisions)

    def loads(self):
        """A load of one more revision fails for good behind each call, and the machine stops."""
        load = self.site.command('load', 'here', given=HEAD + NO_FILE)
        put('here', self.start)
        calls = load.ran(FAIL_AT=0)[3]
        self.check('a second revision: the calls of an append', [it[0] for it in calls[self.opening:]] == APPEND, calls)
        for number, stands in enumerate(STANDING):
            put('here', self.start)
            status, lines, errors, _ = load.ran(FAIL_AT=self.opening + number + 1, FAIL_LASTS=1)
            ended = (0, ['Loaded revision 2.'], '') if number == len(APPEND) else (1, [], 'svnfleet: 31 device failed\n')
            self.check(f'a second revision: {number} calls pass', (status, lines, errors) == ended, status, lines, errors)
            for pick in (OLD, NEW, ONES, OTHERS):
                put('here', left(self.start, calls[:self.opening + number], pick))
                self.opens(f'a second revision: {number} calls and {pick}', load, pick in stands)

    def opens(self, name, load, is_second):
        """The folder has both revisions, or one, and the other can be loaded."""
        self.check(f'{name}: the dump', self.is_dumped(ONE_FILE, *[NO_FILE] * is_second))
        if not is_second:
            self.check(f'{name}: the next load', load.ran()[:3] == (0, ['Loaded revision 2.'], ''))

    def loads_two(self):
        """The first write of a third revision fails."""
        put('here', self.start)
        load = self.site.command('load', 'here', given=HEAD + NO_FILE + ANOTHER)
        status, lines, errors, calls = load.ran(FAIL_AT=self.opening + len(APPEND) + 1, FAIL_LASTS=1)
        ended = (1, ['Loaded revision 2.'], 'svnfleet: 31 device failed\n')
        self.check('a third revision fails: what is told', (status, lines, errors) == ended, status, lines, errors)
        put('here', left(self.start, calls, OLD))
        self.check('a third revision fails: what stands', self.is_dumped(ONE_FILE, NO_FILE))

    def serves(self):
        """Each call of a change fails once, while the folder is served."""
        for number in range(1, len(APPEND) + 1):
            put('here', self.start)
            told = self.served(self.opening + number)
            self.check(f'served: call {number} of a change fails', told.endswith(b' ( ) ) ) ' + TOLD), told)

    def served(self, fail_at):
        """What a client is told where that call of the folder fails."""
        port = free_port()
        env = {'LD_PRELOAD': self.site.library, 'CALLS_OF': os.path.realpath('here'), 'CALLS': 'calls', 'FAIL_AT': str(fail_at)}
        words = [self.site.program, 'serve', 'here', '--port', str(port), '--connections', '1']
        with subprocess.Popen(words, stdin=subprocess.DEVNULL, stdout=subprocess.PIPE, env={**os.environ, **env}) as run:
            try:
                run.stdout.readline()
                return got(port, CLIENT, len(CLIENT))[0]
            finally:
                run.kill()


COMMITTED, COPIED = 'Committed revision 1.', 'Copied properties for revision 1.'
COPIED_0 = 'Copied properties for revision 0.'
# How a mirror stands behind so many entries of a job whose source has one revision: its head; of revision 0 what is merged,
# what is being copied, and the lock's token; and revision 1's log. And what the job has told by then.
SYNCHRONISING = [
    ((0, b'0', None, None, None), []),
    ((0, b'0', None, b'job', None), []),
    ((0, b'0', b'1', b'job', None), []),
    ((1, b'0', b'1', b'job', b'hi'), [COMMITTED]),
    ((1, b'0', b'1', b'job', b'hi'), [COMMITTED, COPIED]),
    ((1, b'1', b'1', b'job', b'hi'), [COMMITTED, COPIED]),
    ((1, b'1', None, b'job', b'hi'), [COMMITTED, COPIED]),
    ((1, b'1', None, None, b'hi'), [COMMITTED, COPIED]),
]
BEGINNING = [((0, None, None, None, None), []), ((0, b'0', None, None, None), [COPIED_0])]
# Properties of both revisions are copied again, and revision 1's log was edited.
COPYING = [
    ((1, b'1', None, None, b'hi'), []),
    ((1, b'1', None, b'job', b'hi'), []),
    ((1, b'1', None, b'job', b'hi'), [COPIED_0]),
    ((1, b'1', None, b'job', b'ho'), [COPIED_0, COPIED]),
    ((1, b'1', None, None, b'ho'), [COPIED_0, COPIED]),
]
# What a later synchronisation tells, by the entries of the stopped one that stand.
LATER = [[COMMITTED, COPIED]] * 3 + [[COPIED]] * 2 + [[]] * 3
HELD = (1, [], 'svnfleet: 54 the sync lock is held by job\n')
EDITED = b'Revision-number: 1\nProp-content-length: 29\nContent-length: 29\n\nK 7\nsvn:log\nV 2\nho\nPROPS-END\n\n'


def folder_of(*parts):
    """The folder with these entries."""
    journal = slots = b''
    for it in parts:
        journal += it
        slots += b'\1' + len(journal).to_bytes(8, 'big') + hashlib.md5(it).digest()
    return {'journal': journal, 'gate': b'', 'slots': slots + b'\0'}


def value(dump, name):
    """The value of a property in a dump, None where it has none of that name."""
    found = re.search(rb'\nK \d+\n%b\nV \d+\n(.*)\n' % re.escape(name), dump)
    return found[1] if found else None


class Jobs:
    """The trials of a job at the mirror `here`, whose source is the folder `one`."""

    def __init__(self, site, check, words, rows):
        self.site, self.check, self.words, self.rows = site, check, words, rows

    def run(self, *words):
        return self.site.run(*words)

    def dumped(self, folder):
        return subprocess.run([self.site.program, 'dump', folder], capture_output=True, check=False).stdout

    def stands(self):
        """How the mirror stands."""
        zero, _, one = self.dumped('here').partition(b'Revision-number: 1\n')
        names = b'svn:sync-last-merged-rev', b'svn:sync-currently-copying', b'svn:sync-lock'
        return (int(bool(one)), *(value(zero, it) for it in names), value(one, b'svn:log'))

    def rests(self, name):
        """The mirror is at rest, with its source's one revision."""
        zero, _, one = self.dumped('here').partition(b'Revision-number: 1\n')
        of = value(zero, b'svn:sync-from-url'), value(zero, b'svn:sync-from-uuid')
        self.check(f'{name}: its source', of == (b'one', b'6a1f0c3e-0000-4000-8000-000000000001'), of)
        self.check(f'{name}: at rest', self.stands()[:4] == (1, b'1', None, None), self.stands())
        self.check(f'{name}: its revision', one == self.dumped('one').partition(b'Revision-number: 1\n')[2])

    def tried(self, name, start):
        """The folder fails for good behind each call of the job, and the machine stops."""
        put('here', start)
        opening = len(self.site.command('dump', 'here').ran(FAIL_AT=0)[3])
        put('here', start)
        job = self.site.command(*self.words)
        calls = job.ran(FAIL_AT=0)[3]
        most = len(APPEND) * (len(self.rows) - 1)
        self.check(f'{name}: its calls', len(calls) == opening + most, calls)
        for number in range(most + 1):
            put('here', start)
            told = self.rows[number // len(APPEND)][1]
            ended = job.ran(FAIL_AT=opening + number + 1, FAIL_LASTS=1)[:3]
            due = (0, told, '') if number == most else (1, told, 'svnfleet: 31 device failed\n')
            self.check(f'{name}: {number} calls pass', ended == due, ended, due)
            for pick in (OLD, NEW, 0, ONES, 255):
                opened = number % len(APPEND) == len(APPEND) - 1 and pick in (NEW, ONES)
                image = left(start, calls[:opening + number], pick)
                self.goes_on(f'{name}: {number} calls and {pick}', start, image, number // len(APPEND) + opened)

    def goes_on(self, name, start, image, count):
        """So many entries stand, and later jobs tell what is missing."""
        put('here', image)
        self.check(f'{name}: how it stands', self.stands() == self.rows[count][0], self.stands())
        self.check(f'{name}: {count} entries', entries(content('here')) == entries(start) + count)
        for words, due in self.later(count):
            if words is None:
                self.rests(name)
                put('here', image)
                continue
            found = self.run(*words)
            self.check(f'{name}: {words[0]}', found == due, found, due)
        if due != HELD:
            self.rests(name)

    def later(self, count):
        """The later jobs, and how each ends; none of words where the stopped mirror is put back."""
        synchronise, steal = ['synchronize', 'here', 'one'], ['synchronize', '--steal-lock', 'here', 'one']
        if self.rows is BEGINNING:
            begun = (1, [], 'svnfleet: 52 already initialized\n') if count else (0, [COPIED_0], '')
            return [(self.words, begun), (synchronise, (0, LATER[0], ''))]
        if self.rows is SYNCHRONISING:
            done = (0, LATER[count], '')
            return [(steal, done), (None, None), (synchronise, HELD if 1 <= count <= 6 else done)]
        both = (0, [COPIED_0, COPIED], '')
        return [(self.words, HELD if 1 <= count <= 3 else both), (steal, (0, [], '')), (self.words, both)]


def jobs(site, check):
    """The three jobs, in folders of both versions."""
    put('one', folder_of(BEGUN, ONE_FILE))
    put('here', {name: None for name in FILES})
    site.run('create', 'here', '--uuid', '6a1f0c3e-0000-4000-8000-000000000002')
    starts = [content('here')]
    for words in ('initialize', 'synchronize'):
        site.run(words, 'here', 'one')
        starts.append(content('here'))
    orders = [(['initialize', 'here', 'one'], BEGINNING), (['synchronize', 'here', 'one'], SYNCHRONISING),
              (['copy-revprops', 'here', 'one', '-r', '0:1'], COPYING)]
    for start, (words, rows) in zip(starts, orders):
        if rows is COPYING:
            put('one', folder_of(BEGUN, ONE_FILE, EDITED))
        for version, first in ((2, start), (1, without_sums(start) | {'slots': b''})):
            Jobs(site, check, words, rows).tried(f'{words[0]} in version {version}, an entry at a time', first)


def trials(site, check):
    standing = Standing(site, check)
    standing.loads()
    standing.loads_two()
    standing.serves()
    jobs(site, check)
