"""Runs of the program: many in one process that stands in front of the program's `main` (forks.c) where there is a C
compiler, and else each in a process of its own."""
import fcntl
import mmap
import os
import select
import signal
import socket
import struct
import subprocess

SECONDS = 60


class Differs(Exception):
    """What the program does isn't what was computed."""


def library_of(source, room):
    """The library of a source in C, built in a folder, or None where there is no C compiler."""
    library = f'{room}/{os.path.basename(source)[:-2]}.so'
    try:
        subprocess.run(['cc', '-O1', '-shared', '-fPIC', '-o', library, source, '-ldl'], check=True)
    except (OSError, subprocess.CalledProcessError):
        return None
    return library


def high(file):
    """The same file, with a number behind those that a program's streams have."""
    try:
        return fcntl.fcntl(file, fcntl.F_DUPFD_CLOEXEC, 16)
    finally:
        os.close(file)


def spawned(path, words, environment, files):
    """A process with these files as its first ones."""
    put = [(os.POSIX_SPAWN_DUP2, file, number) for number, file in enumerate(files)]
    return os.posix_spawn(path, words, environment, file_actions=put, setpgroup=0)


def is_ready(*files):
    """Whether one of these has something to read, in time."""
    poll = select.poll()
    for it in files:
        poll.register(it, select.POLLIN)
    return bool(poll.poll(SECONDS * 1000))


def part(file, begin, end):
    return os.pread(file, end - begin, begin) if begin < end else b''


class Streams:
    """What a run is given and where it writes: files in memory, or for its output a pipe."""

    def __init__(self, is_piped):
        self.given, self.output, self.errors = (high(os.memfd_create(it)) for it in ('given', 'output', 'errors'))
        self.pipe = None
        if is_piped:
            os.close(self.output)
            self.pipe, self.output = map(high, os.pipe())
            os.set_blocking(self.pipe, False)

    def files(self):
        return [self.given, self.output, self.errors]

    def give(self, given):
        os.ftruncate(self.given, len(given))
        os.pwrite(self.given, given, 0)
        for it in [self.errors] if self.pipe is not None else [self.errors, self.output]:
            os.lseek(it, 0, os.SEEK_SET)

    def told(self, status, output, output_end, errors, errors_end):
        """The status, what is on standard error, and the output of a run that has written these parts of the files."""
        found = self.piped() if self.pipe is not None else part(self.output, output, output_end)
        return (os.waitstatus_to_exitcode(status), part(self.errors, errors, errors_end)), found

    def piped(self):
        """What is in the pipe."""
        try:
            return os.read(self.pipe, 1 << 16)
        except BlockingIOError:
            return b''

    def close(self):
        for file in [*self.files(), *([] if self.pipe is None else [self.pipe])]:
            os.close(file)


class Waiting:
    """A process that stands in front of the program's `main`, for one run at a time, or some one behind another."""

    def __init__(self, path, libraries, is_piped):
        self.streams = Streams(is_piped)
        self.line, theirs = socket.socketpair(socket.AF_UNIX, socket.SOCK_SEQPACKET)
        self.line.settimeout(SECONDS)
        line, pieces = high(theirs.detach()), high(os.memfd_create('pieces'))
        os.ftruncate(pieces, 4)
        self.pieces = mmap.mmap(pieces, 4)
        self.child = spawned(path, [path], {'LD_PRELOAD': ' '.join(libraries)}, [*self.streams.files(), line, pieces])
        os.close(line)
        os.close(pieces)

    def begin(self, runs):
        """Begins runs, each with its words, its input, the most bytes of a read, and settings."""
        folder, at, asked = os.getcwd(), 0, []
        for words, given, pieces, settings in runs:
            asked += [folder, str(at), str(at + len(given)), str(pieces), str(len(words)), *words, str(len(settings)), *settings]
            at += len(given)
        self.streams.give(b''.join([it[1] for it in runs]))
        self.line.send('\0'.join([*asked, '']).encode())

    def cut(self, pieces):
        """Lets no read of the input or of a socket have more bytes from now on, or as many as come."""
        self.pieces[:] = struct.pack('I', pieces)

    def end(self):
        """What has come of each run, or of one that died."""
        try:
            told = self.line.recv(1 << 16)
        except TimeoutError:
            told = b''
        if not told:
            self.kill()
            raise Differs('it did not end')
        return [self.streams.told(*it) for it in struct.iter_unpack('5q', told)]

    def anew(self):
        """The next run is in a new process."""
        self.line.send(b'\0')

    def kill(self):
        os.killpg(self.child, signal.SIGKILL)
        self.close()

    def close(self):
        self.line.close()
        os.waitpid(self.child, 0)
        self.streams.close()


class Started:
    """A process of one run."""

    def __init__(self, path, libraries, is_piped):
        self.path, self.libraries, self.streams = path, libraries, Streams(is_piped)
        self.child = self.line = None

    def begin(self, runs):
        (words, given, _, settings), = runs
        self.streams.give(given)
        environment = {**os.environ, 'LD_PRELOAD': ' '.join(self.libraries), **dict(it.split('=', 1) for it in settings)}
        self.child = spawned(self.path, words, environment, self.streams.files())
        self.line = os.pidfd_open(self.child)

    def cut(self, _pieces):
        """(reads have as many bytes as come)"""

    def end(self):
        if not is_ready(self.line):
            self.kill()
            raise Differs('it did not end')
        status, files = os.waitpid(self.child, 0)[1], self.streams
        found = files.told(status, 0, os.fstat(files.output).st_size, 0, os.fstat(files.errors).st_size)
        self.close()
        return [found]

    def kill(self):
        os.killpg(self.child, signal.SIGKILL)
        os.waitpid(self.child, 0)
        self.close()

    def close(self):
        os.close(self.line)
        self.streams.close()


def ran_in_pieces(path, words, given, pieces):
    """The status, what is on standard error, and the output of a run that is given its input in pieces."""
    started = subprocess.Popen([path, *words], stdin=subprocess.PIPE, stdout=subprocess.PIPE, stderr=subprocess.PIPE)
    try:
        for at in range(0, len(given), pieces):
            os.write(started.stdin.fileno(), given[at:at + pieces])
    except BrokenPipeError:
        pass
    output, errors = started.communicate(b'', timeout=SECONDS)
    return (started.returncode, errors), output


def difference(words, found, wanted):
    """How what came of a run is not what is wanted, if so."""
    if found == wanted:
        return ''
    return f'{" ".join(words)}: {found[0]} and not {wanted[0]}, {len(found[1])} bytes and not {len(wanted[1])}'


class Program:
    """The program with some libraries loaded, and the processes of it that wait for a run, where these have forks.c."""

    def __init__(self, path, forks, libraries):
        self.path, self.libraries, self.waiting = path, [*([forks] if forks else []), *libraries], {False: [], True: []}
        # whether processes wait, and cut reads into pieces
        self.waits = forks is not None

    def began(self, words, given=b'', pieces=0, settings=(), is_piped=False):
        """A run that goes on, beside which other things may be done before it is waited for."""
        return self.all_began([(words, given, pieces, settings)], is_piped)

    def all_began(self, runs, is_piped=False):
        free = self.waiting[is_piped]
        run = free.pop() if free else (Waiting if self.waits else Started)(self.path, self.libraries, is_piped)
        run.begin([([self.path, *words], *more) for words, *more in runs])
        return run

    def says(self, run):
        """What a run has written to its pipe, once it has written anything there, or has ended."""
        is_ready(run.line, run.streams.pipe)
        return run.streams.piped()

    def ended(self, run):
        """The status, what is on standard error, and the output of a run, which is waited for."""
        found, = self.all_ended(run)
        return found

    def all_ended(self, run):
        found = run.end()
        if self.waits:
            self.waiting[run.streams.pipe is not None].append(run)
        return found

    def ran(self, words, given, wanted):
        """Runs the program on an input, and holds it to a status, an error line and an output."""
        if text := difference(words, self.ended(self.began(words, given)), wanted):
            raise Differs(text)

    def differences(self, runs):
        """What differs of each of some runs one behind another: each has its words, its input, what is wanted, and in
        which pieces its input is read, or written where reads can't be cut, if it is in pieces."""
        runs = [(*it, 0)[:4] for it in runs]
        found = self.all_of([(words, given, pieces) for words, given, _, pieces in runs])
        return [difference(words, it, wanted) for (words, _, wanted, _), it in zip(runs, found)]

    def all_of(self, runs):
        """The status, what is on standard error, and the output of each of some runs, of words, an input and pieces."""
        if not self.waits:
            return [ran_in_pieces(self.path, words, given, pieces) if pieces else self.ended(self.began(words, given))
                    for words, given, pieces in runs]
        found = self.all_ended(self.all_began([(*it, ()) for it in runs]))
        if len(found) < len(runs):
            raise Differs(f'one run of {len(runs)} ended the process: {found}')
        return found

    def anew(self):
        """The next runs are in new processes."""
        for free in self.waiting.values():
            for it in free:
                it.anew()

    def close(self):
        for free in self.waiting.values():
            while free:
                free.pop().close()
