"""Time and memory grow with the input: ten times the input takes at most twelve times as much of both.

The inputs have 10 and 100 MB, and 100 MB and 1 GB. Time is processor time, and may be a hundredth of a second more.
Memory is the peak; below about 20 MB, it cannot be distinguished from the peak of these tests. The program reads the
input through a pipe, so the input takes no other memory. If there is too little memory, a line says so.

An audit of births may take thirty times as long for ten times the input. It executes ten times as many machine
instructions; but it looks up what it keeps of each process ID in random order, and only that of 10 MB fits into a
processor's cache.
"""

import contextlib
import fcntl
import itertools
import os
import resource

from hostile_parts import runs

TIMES = 10
AT_MOST = 12
AT_MOST_OF_BIRTHS = 30
TRIES = 4
SECONDS = 300                   # a run that takes longer is killed, and has failed
PIPE_BYTES = 1 << 20
KEY_BYTES = 8                   # how many bytes a key may take beside its text
SPARE = 500 * 10**6             # how much memory is left to other programs
LEAST = 10**8                   # how much memory is assumed to be available at least
F_SETPIPE_SZ = 1031

HEADER = b'pidmax 40\nconsoles 1\n'
WORLD = HEADER + b'program init\nsys exit\nend\n'
COMMENT = b'# ' + b'x' * 90 + b'\n'
TURN = b'step 1\ntick 1\n'
KEYS = b'key 1 ' + b' '.join(b'%02x' % (97 + key % 2) for key in range(64)) + b'\n'


def repeated(line, megabytes):
    """Returns pieces of a text that repeats a line."""
    block = line * (100000 // len(line))
    return itertools.repeat(block, megabytes * 1000000 // len(block))


def births(megabytes):
    """Yields pieces of a trace in which each process forks the next, with about 28 bytes a line."""
    for first in range(1, megabytes * 1000000 // 28, 1000):
        yield b''.join(b'%d call %d fork = %d\n' % (event, event, event + 1) for event in range(first, first + 1000))


def labels(programs):
    """Yields pieces of a world of programs, each with 1,000 jumps and 1,000 labels."""
    yield HEADER
    for program in range(programs):
        yield b'program p%d\n' % program
        yield b''.join(b'jmp l%d\nl%d:\n' % (999 - label, label) for label in range(1000))
        yield b'end\n'


def labels_of_one(thousands):
    """Yields pieces of a world of one program with this many thousand labels. Their number has no limit."""
    yield HEADER + b'program init\nsys exit\n'
    yield b''.join(b'l%d:\n' % label for label in range(1000 * thousands))
    yield b'end\n'


# The name of an input; a function that returns its pieces for a size; the subcommand and the other file; and the exit
# status. The size is in megabytes, except in BOUNDED, where the smaller of both sizes comes before the function.
EVENTS, A_WORLD, A_TRACE = ('run', WORLD, '/dev/stdin'), ('run', '/dev/stdin', b''), ('audit', '/dev/stdin')
BOUNDED = (
    ('a world of 30 programs with 1,000 labels each', 3, labels, A_WORLD, 0),
    ('a world of a program with 50,000 labels', 5, labels_of_one, A_WORLD, 0))
UNBOUNDED = (
    ('a world with comments', lambda size: [WORLD, *repeated(COMMENT, size)], A_WORLD, 0),
    ('steps and ticks', lambda size: repeated(TURN, size), EVENTS, 0),
    ('keys', lambda size: repeated(KEYS, size), EVENTS, 0),
    ('comments', lambda size: repeated(COMMENT, size), EVENTS, 0),
    ('empty lines', lambda size: repeated(b'\n', size), EVENTS, 0),
    ('one line of events', lambda size: repeated(b'x', size), EVENTS, 1),
    ('one line of a world', lambda size: repeated(b'x', size), A_WORLD, 1),
    ('one line of a trace', lambda size: repeated(b'x', size), A_TRACE, 1),
    ('births of a trace', births, A_TRACE, 0))


def group_memory():
    """Yields the bytes that each control group of this process leaves it, if the group has a limit."""
    for line in runs.read_file('/proc/self/cgroup').decode().splitlines():
        _, names, path = line.split(':', 2)
        folder, limit, used = '/memory', 'memory.limit_in_bytes', 'memory.usage_in_bytes'
        if not names:
            folder, limit, used = '', 'memory.max', 'memory.current'
        for at in (path, '/'):
            with contextlib.suppress(OSError, ValueError):      # there is no such file, or it says `max`
                yield int(runs.read_file(f'/sys/fs/cgroup{folder}{at}/{limit}')) - int(
                    runs.read_file(f'/sys/fs/cgroup{folder}{at}/{used}'))


def available():
    """Returns how many bytes of memory a program may take, so that enough is left to other programs."""
    lines = dict(line.split(':') for line in runs.read_file('/proc/meminfo').decode().splitlines())
    limit, _ = resource.getrlimit(resource.RLIMIT_AS)
    own = [] if limit == resource.RLIM_INFINITY else [limit]
    return max(min([int(lines['MemAvailable'].split()[0]) * 1024, *group_memory(), *own]) - SPARE, LEAST)


def measure(pieces, texts, status):
    """Returns the processor time and the peak memory of a run, which may take all available memory. Raises ValueError
    if its status differs."""
    read_end, write_end = os.pipe()
    fcntl.fcntl(write_end, F_SETPIPE_SZ, PIPE_BYTES)
    child = runs.start(*texts, stdin=read_end, seconds=SECONDS)
    resource.prlimit(child, resource.RLIMIT_AS, (available(), resource.getrlimit(resource.RLIMIT_AS)[1]))
    os.close(read_end)
    with contextlib.suppress(BrokenPipeError), open(write_end, 'wb', buffering=0) as pipe:
        for piece in pieces:
            while piece:
                piece = piece[pipe.write(piece):]
    got, seconds, peak = runs.finish(child)
    if got.status != status:
        raise ValueError(f'status {got.status}, wanted {status}: {got.err}')
    return seconds, peak


def growth(name, lesser, pieces, texts, status):
    """Returns a message if time or memory grow too much with the input, or None; and the bytes by which the peak grew.
    These are None if there is too little memory: the program doubles its buffers, so it may need twice as much. Other
    work of the machine costs time, too, so the growth must be too large in each of TRIES tries."""
    at_most = AT_MOST_OF_BIRTHS if pieces is births else AT_MOST
    for _ in range(TRIES):
        try:
            seconds, peak = measure(pieces(lesser), texts, status)
            if 2 * TIMES * peak > available():
                print('  %s: not tried, because it may need %.1f GB of memory, and %.1f GB are available' % (
                    name, 2 * TIMES * peak / 1e9, available() / 1e9), flush=True)
                return None, None
            more_seconds, more_peak = measure(pieces(TIMES * lesser), texts, status)
        except ValueError as wrong:
            return f'{name}: {wrong}', 0
        told = '%.3f and %.3f seconds, %.0f and %.0f MB' % (seconds, more_seconds, peak / 1e6, more_peak / 1e6)
        if more_seconds <= at_most * seconds + 0.01 and more_peak <= AT_MOST * peak:
            print(f'  {name}: {told}', flush=True)
            return None, more_peak - peak
    return f'{name}: {told}', 0


def cost_of_a_key(lesser, grown):
    """Returns a message if a key takes too many bytes beside its text, or None."""
    text = (TIMES - 1) * sum(map(len, repeated(KEYS, lesser)))
    each = (grown - text) / (64 * text / len(KEYS))
    return f'a key takes {each:.1f} bytes beside its text, above {KEY_BYTES}' if each > KEY_BYTES + 0.1 else None


def check_from(checks, megabytes, bounded=()):
    """Checks the growth from inputs of this many megabytes to inputs of ten times as many."""
    told = '%s: %d MB and %s' % ('%s', megabytes, '1 GB' if megabytes == 100 else f'{TIMES * megabytes} MB')
    grown = {row[0]: growth(*row) for row in bounded}
    grown.update((name, growth(told % name, megabytes, *row)) for name, *row in UNBOUNDED)
    tried = {name: how for name, how in grown.items() if how[1] is not None}
    checks.not_tried += len(grown) - len(tried)
    checks.count('growth with the text', [failure for failure, _ in tried.values()])
    if 'keys' in tried:
        failure, bytes_more = tried['keys']
        checks.count('memory of keys', [failure or cost_of_a_key(megabytes, bytes_more)])


def check(checks):
    check_from(checks, 10, BOUNDED)


def check_huge(checks):
    check_from(checks, 100)
