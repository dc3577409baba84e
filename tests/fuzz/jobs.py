"""The jobs of a mirror once more in plain Python, as docs/MODEL.md's tables have them: what each writes, entry by entry, what
it says behind which, and the refusal that it ends with."""

OWN = b'svn:sync-'
URL, UUID, MERGED, COPYING, LOCK = (OWN + it for it in (b'from-url', b'from-uuid', b'last-merged-rev', b'currently-copying', b'lock'))


def copied(props):
    """What a mirror copies of a revision's properties."""
    return {name: value for name, value in props.items() if not name.startswith(OWN)}


class Folder:
    """A repository: its identity, and its revisions' properties. Their trees are the first ones of one history."""

    def __init__(self, identity):
        self.identity, self.props = identity, [{}]

    def head(self):
        return len(self.props) - 1


class Ended(Exception):
    """A job's refusal, by its number and what its line has behind that."""


class Run:
    """A run over a folder: the properties of its revisions before any entry and behind each, and its lines, each beside
    the number of entries behind which it comes."""

    def __init__(self, folder):
        self.states, self.lines, self.refusal = [list(folder.props)], [], None

    def now(self):
        return self.states[-1]

    def write(self, number, props):
        """One entry, which gives these properties to a revision, the next one or one that is there."""
        self.states.append([*self.now()[:number], props, *self.now()[number + 1:]])

    def note(self, name, value):
        """One entry, which sets a property of revision 0, or takes it away."""
        others = {it: had for it, had in self.now()[0].items() if it != name}
        self.write(0, others if value is None else {**others, name: value})

    def say(self, line):
        self.lines.append((len(self.states) - 1, line))

    def entries(self):
        return len(self.states) - 1

    def said(self, entries):
        """The lines that come behind so many entries or fewer."""
        return [line for behind, line in self.lines if behind <= entries]

    def put(self, number, source):
        """The copied properties of a revision, beside those of the mirror's own."""
        own = {name: value for name, value in self.now()[number].items() if name.startswith(OWN)}
        self.write(number, {**copied(source.props[number]), **own})
        self.say(f'Copied properties for revision {number}.')


def loaded(folder, props):
    """A load of revisions with these properties, one entry each."""
    run = Run(folder)
    for it in props:
        run.write(len(run.now()), it)
        run.say(f'Loaded revision {len(run.now()) - 1}.')
    return run


def initialised(mirror, source, url):
    run = Run(mirror)
    if URL in mirror.props[0]:
        run.refusal = 52, 'already initialized'
    elif mirror.head() > 0:
        run.refusal = 53, 'the mirror has revisions'
    else:
        run.write(0, {**copied(source.props[0]), URL: url, UUID: source.identity, MERGED: b'0'})
        run.say('Copied properties for revision 0.')
    return run


def under_lock(mirror, source, token, steals, deeds):
    """What a job does between its lock and the release, where it gets the lock and the source is the mirror's."""
    run, zero = Run(mirror), mirror.props[0]
    if URL not in zero:
        run.refusal = 51, 'not initialized'
        return run
    if LOCK in zero and not steals:
        run.refusal = 54, f'the sync lock is held by {zero[LOCK].decode()}'
        return run
    run.note(LOCK, token)
    try:
        if zero[UUID] != source.identity:
            raise Ended(56, 'the source is another repository')
        deeds(run)
    except Ended as end:
        run.refusal = end.args
    run.note(LOCK, None)
    return run


def number_in(run, name):
    return int(run.now()[0][name])


def synchronised(mirror, source, token, steals):
    def deeds(run):
        while True:
            head, merged = len(run.now()) - 1, number_in(run, MERGED)
            if COPYING not in run.now()[0]:
                if source.head() <= merged:
                    return
                run.note(COPYING, b'%d' % (merged + 1))
                continue
            copying = number_in(run, COPYING)
            if copying > head:
                run.write(copying, copied(source.props[copying]))
                run.say(f'Committed revision {copying}.')
            elif copying > merged:
                run.put(copying, source)
                run.note(MERGED, b'%d' % copying)
            else:
                run.note(COPYING, None)
    return under_lock(mirror, source, token, steals, deeds)


def copied_again(mirror, source, token, low, high):
    def deeds(run):
        if high > number_in(run, MERGED):
            raise Ended(58, f'revision {high} is not copied yet')
        for number in range(low, high + 1):
            run.put(number, source)
    return under_lock(mirror, source, token, False, deeds)


def told(mirror):
    """The lines of `info`, and its refusal."""
    zero = mirror.props[0]
    if URL not in zero:
        return [], (51, 'not initialized')
    return [f'Source URL: {zero[URL].decode()}', f'Source Repository UUID: {zero[UUID].decode()}',
            f'Last Merged Revision: {zero[MERGED].decode()}'], None
