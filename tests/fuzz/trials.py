"""What the tests over seeds share: the loop over the seeds, and what a refusal is told as."""
import collections
import concurrent.futures
import functools
import multiprocessing.util
import os
import re
import sys
import tempfile

from runs import Differs, Program, library_of  # noqa: F401 (Differs is for those that use this)

HERE = os.path.dirname(os.path.realpath(__file__))
UUID = b'6a1f0c3e-0000-4000-8000-000000000001'


def texts():
    """The text of each refusal, by its number."""
    with open(f'{HERE}/../../docs/REFUSALS.md', encoding='utf-8') as page:
        return {int(number): text for number, text in re.findall(r'(?m)^\| (\d+) \| \w+ \| `([^`]*)` \|', page.read())}


TEXTS = texts()
DONE = 0, b''
# How often each refusal was due in what a process tried, by its number; by 0 how often none was.
REACHED = collections.Counter()


def reached(fault):
    """Counts a refusal, None where there was none, or so many of each."""
    REACHED.update(fault if isinstance(fault, dict) else [fault or 0])


def told(fault):
    """The status and what is on standard error, where a run is refused so, or not at all."""
    return (1, b'svnfleet: %d %s\n' % (fault, TEXTS[fault].encode())) if fault else DONE


# Of so many seeds the first one's runs have each a process of their own.
ALONE = 64


def begin(path, forks, libraries):
    """A process that tries seeds: the program as those have it whose runs share a process, and as the others do."""
    global SHARED, PLAIN
    SHARED, PLAIN = Program(path, forks, libraries), Program(path, None, libraries)
    multiprocessing.util.Finalize(None, SHARED.close, exitpriority=1)


def one(tried, seed):
    """What comes of a seed, and what it reached. Where its runs share a process, that begins with it."""
    REACHED.clear()
    program = PLAIN if seed % ALONE == 0 else SHARED
    program.anew()
    try:
        return *tried(program, seed), dict(REACHED)
    except Exception as error:  # pylint: disable=broad-except
        # (a fault of what makes or computes: the other seeds are tried all the same)
        return 0, [f'seed {seed}: {error!r}'], dict(REACHED)


def over_seeds(tried, words, *sources):
    """Tries PROGRAM SEEDS [FIRST] side by side, as many at once as there are processors or FUZZ_JOBS says, prints what
    differs, how often each refusal was due, and the closing line; the status. The program has these sources in C loaded
    with it, beside forks.c; where there are some and no C compiler, nothing is tried."""
    if len(words) not in (3, 4) or not all(it.isdigit() for it in words[2:]):
        sys.exit(f'{os.path.basename(words[0])} PROGRAM SEEDS [FIRST]')
    path, (seeds, first) = os.path.realpath(words[1]), map(int, [*words[2:], '0'][:2])
    with tempfile.TemporaryDirectory(prefix='svnfleet-forks-') as room:
        forks, *libraries = (library_of(it, room) for it in (f'{HERE}/forks.c', *sources))
        if None in libraries:
            print('there is no C compiler: stops and failures are skipped')
            print('0 passed, 0 failed, 1 skipped')
            return 0
        return closed(tried, range(first, first + seeds), path, forks, libraries)


def closed(tried, seeds, *program):
    """Tries these seeds, and prints what comes of them; the status."""
    passed, failed, due = 0, 0, collections.Counter()
    jobs = int(os.environ.get('FUZZ_JOBS') or len(os.sched_getaffinity(0)))
    with concurrent.futures.ProcessPoolExecutor(jobs, initializer=begin, initargs=program) as pool:
        for well, wrong, count in pool.map(functools.partial(one, tried), seeds, chunksize=8):
            passed += well
            failed += len(wrong)
            due.update(count)
            for it in wrong:
                print(it, flush=True)
    if failed:
        print(f'(one seed alone: {sys.argv[0]} {program[0]} 1 SEED)')
    print('due:', ', '.join(f'{number} {count} times' for number, count in sorted(due.items())))
    print(f'{passed} passed, {failed} failed')
    return 1 if failed else 0
