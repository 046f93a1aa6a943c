"""Runs the program many times, in one process on each processor, and counts which runs pass."""

import collections
import functools
import multiprocessing
import os
import signal
import sys

# The exit status, or minus the number of the signal that killed the program; its standard output and standard error.
Answer = collections.namedtuple('Answer', 'status out err')

SECONDS = 60        # a run that takes longer is killed, and has failed
FIRST_TEXT = 50     # the descriptor by which the program reads the first text
SHOWN = 5           # how many failures of each kind are printed

program = None      # its absolute path


def read_file(name):
    with open(name, 'rb') as file:
        return file.read()


def clip(content, place=0):
    """Returns the bytes of a text around a place, for a message."""
    begin = content.rfind(b'\n', 0, max(place, 1) - 1) + 1
    return '..' * (begin > 0) + repr(content[begin:begin + 200]) + '..' * (begin + 200 < len(content))


@functools.lru_cache(maxsize=None)
def memory_file(name):
    """Returns the file in memory with this name; there is one for each name."""
    return os.memfd_create(name)


def fill(name, pieces=()):
    """Writes these pieces to the file in memory with this name, and returns the file."""
    file = memory_file(name)
    os.lseek(file, 0, os.SEEK_SET)
    os.truncate(file, 0)
    for piece in pieces:
        while piece:
            piece = piece[os.write(file, piece):]
    return file


def start(word, *texts, stdin=None, environment=None, seconds=SECONDS):
    """Starts the program with a subcommand and files. A file is given by its content, by pieces of it, or by its name.
    The outputs go to the files in memory `out` and `err`. The program is killed after `seconds`."""
    words, actions = [word], [(os.POSIX_SPAWN_OPEN, 0, '/dev/null', os.O_RDONLY, 0)]
    if stdin is not None:
        actions = [(os.POSIX_SPAWN_DUP2, stdin, 0)]
    actions += [(os.POSIX_SPAWN_DUP2, fill('out'), 1), (os.POSIX_SPAWN_DUP2, fill('err'), 2)]
    for number, text in enumerate(texts):
        if isinstance(text, str):
            words.append(text)
            continue
        file = fill(f'text {number}', [text] if isinstance(text, bytes) else text)
        actions.append((os.POSIX_SPAWN_DUP2, file, FIRST_TEXT + number))
        words.append(f'/dev/fd/{FIRST_TEXT + number}')
    child = os.posix_spawn(program, [program, *words], environment or {}, file_actions=actions)
    signal.signal(signal.SIGALRM, lambda *_: os.kill(child, signal.SIGKILL))
    signal.alarm(seconds)
    return child


def finish(child):
    """Waits for a program that was started. Returns its answer, its processor time in seconds, and its peak memory."""
    _, status, used = os.wait4(child, 0)
    signal.alarm(0)
    outputs = [read_file(f'/dev/fd/{memory_file(name)}') for name in ('out', 'err')]
    return Answer(os.waitstatus_to_exitcode(status), *outputs), used.ru_utime + used.ru_stime, used.ru_maxrss * 1024


def answer(word, *texts, environment=None):
    """Runs the program with a subcommand and files of these contents, and returns its answer."""
    return finish(start(word, *texts, environment=environment))[0]


def difference(name, wanted, got):
    """Returns None if the answers are equal, and otherwise a message on what differs."""
    if wanted == got:
        return None
    place = len(os.path.commonprefix([wanted.out, got.out]))
    return (f'{name}\n  wanted status {wanted.status}, {clip(wanted.out, place)}, {clip(wanted.err)}'
            f'\n  got    status {got.status}, {clip(got.out, place)}, {clip(got.err)}')


def begin_worker():
    """Prepares a worker process. It ignores SIGINT, and lets SIGTERM kill it: the first process handles both, and kills
    the workers."""
    signal.signal(signal.SIGINT, signal.SIG_IGN)
    signal.signal(signal.SIGTERM, signal.SIG_DFL)
    memory_file.cache_clear()


class Checks:
    """Counts checks, and prints those that fail."""

    def __init__(self):
        self.passed = 0
        self.failed = 0
        self.not_tried = 0

    def judge_each(self, kind, judge, items):
        """Calls judge for each item, in one process on each processor. It returns None, or a message on what failed."""
        with multiprocessing.Pool(os.cpu_count(), begin_worker) as pool:
            self.count(kind, pool.imap(judge, items, 32))

    def count(self, kind, failures):
        """Counts what a judge returned for each item, and prints the first failures."""
        passed = failed = 0
        for failure in failures:
            if failure is None:
                passed += 1
                continue
            failed += 1
            if failed <= SHOWN:
                print(f'failed: {kind}: {failure}')
        print(f'{kind}: {passed} passed, {failed} failed')
        sys.stdout.flush()
        self.passed += passed
        self.failed += failed
