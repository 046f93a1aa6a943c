"""Hostile worlds and events: their beginnings, also in pieces, each error by name, and each byte at each position.
plain_reader.py says which error an input has, and plain_world.py what its trace is if it has none."""

import array
import contextlib
import fcntl
import glob
import itertools
import os
import select
import shlex
import subprocess
import tempfile
import termios

from hostile_parts import plain_reader, plain_world, runs

CASES = ('shell_ends_with_a_stopped_job', 'exec_with_setuid')
PIECES = (1, 2, 3, 7)

HEADER = b'pidmax 40\nconsoles 1\n'
PLAIN = HEADER + b'program init\nsys exit\nend\n'

# A world, events, and the message of the program.
FAULTS = (
    (b'', b'step 3\n', b'jobk: world: line 1: end missing\n'),
    (b'pidmax 40\n', b'step 3\n', b'jobk: world: line 2: end missing\n'),
    (HEADER, b'step 3\n', b'jobk: world: line 3: no program\n'),
    (b'pidmax 1\nconsoles 1\n', b'step 3\n', b'jobk: world: line 1: out of range\n'),
    (HEADER + b'program init\nsys exit\n', b'step 3\n', b'jobk: world: line 5: end missing\n'),
    (HEADER + b'program init\njmp away\n', b'step 3\n', b'jobk: world: line 4: name unknown\n'),
    (PLAIN, b'step 1\nstep 0\n', b'jobk: events: line 2: out of range\n'),
    (PLAIN, b'step 1 2\n', b'jobk: events: line 1: unknown word\n'),
    (PLAIN, b'key 1 4\n', b'jobk: events: line 1: bad number\n'),
    (PLAIN, b'key 2 41\n', b'jobk: events: line 1: out of range\n'),
    (PLAIN, b'hangup\n', b'jobk: events: line 1: unknown word\n'),
    (PLAIN, b'step 1\nhangup 0\n', b'jobk: events: line 2: out of range\n'),
    (PLAIN, b'hangup 2\n', b'jobk: events: line 1: out of range\n'),
    (PLAIN, b'hangup 1 2\n', b'jobk: events: line 1: unknown word\n'),
    (PLAIN, b'hangup x\n', b'jobk: events: line 1: bad number\n'),
    (PLAIN, b'#' * 201 + b'\n', b'jobk: events: line 1: line too long\n'))

# Inputs of which each byte is changed.
WORLD = (b'pidmax 40\nconsoles 1\nprogram a setuid 7\nb:\nc:\nset r1, @b # c\nnote r1\njz r0, d\njmp b\nd:\n'
         b'sys exit\nend\n')
EVENTS = b'step 9\nkey 1 0A 7f\nhangup 1\ntick 2 # t\n'


def case(name):
    """Returns the world, the events and the trace of a case."""
    folder = os.path.join('tests/cases', name)
    return [runs.read_file(os.path.join(folder, file)) for file in ('world', 'events', 'stdout')]


def lines_to(trace, count):
    """Returns the lines of the first `count` events."""
    return b''.join(line for line in trace.splitlines(keepends=True) if int(line.split()[0]) <= count)


def beginnings():
    """Yields each beginning of the world and of the events of the cases, with the expected answer. A beginning of the
    events makes a beginning of the trace. A beginning of a world is an error, except if only the last line feed is
    missing."""
    for name in CASES:
        world, events, trace = case(name)
        for length in range(len(world) + 1):
            yield answer_wanted(f'{length} bytes of the world of {name}', world[:length], events, trace)
        for length in range(len(events) + 1):
            yield answer_wanted(f'{length} bytes of the events of {name}', world, events[:length], trace)


def answer_wanted(name, world, events, trace):
    message, count = plain_reader.message(world, events)
    if message:
        return name, world, events, runs.Answer(1, b'', message)
    return name, world, events, runs.Answer(0, lines_to(trace, count), b'')


def judge(item):
    name, world, events, wanted = item
    return runs.difference(name, wanted, runs.answer('run', world, events))


def judge_in_pieces(item):
    """Judges an item in the same way, but each read of the program returns only a few bytes."""
    library, piece, (name, world, events, wanted) = item
    environment = {'LD_PRELOAD': library, 'PIECE': str(piece)}
    got = runs.answer('run', world, events, environment=environment)
    return runs.difference(f'{name}, {piece} bytes a read', wanted, got)


def judge_through_a_pipe(item):
    """Judges an item in the same way, but the events come through a pipe, piece by piece. Each piece is written after
    the program has read the one before."""
    piece, (name, world, events, wanted) = item
    read_end, write_end = os.pipe()
    child = runs.start('run', world, '/dev/stdin', stdin=read_end)
    os.close(read_end)
    with contextlib.suppress(BrokenPipeError), open(write_end, 'wb', buffering=0) as pipe:
        for place in range(0, len(events), piece):
            pipe.write(events[place:place + piece])
            while has_reader(pipe) and is_filled(pipe):
                os.sched_yield()
    return runs.difference(f'{name}, {piece} bytes through a pipe', wanted, runs.finish(child)[0])


def has_reader(pipe):
    """Returns true if the other end of a pipe is open."""
    poll = select.poll()
    poll.register(pipe, 0)
    return not poll.poll(0)


def is_filled(pipe):
    """Returns true if a pipe holds bytes that were not read yet."""
    count = array.array('i', [0])
    fcntl.ioctl(pipe, termios.FIONREAD, count)
    return count[0] > 0


def compile_library(folder):
    """Returns the library with which reads return only a few bytes, or None if it cannot be compiled."""
    library = os.path.join(folder, 'pieces.so')
    source = os.path.join(os.path.dirname(__file__), 'pieces.c')
    words = [*shlex.split(os.environ.get('CC', 'cc')), '-shared', '-fPIC', '-O1', '-o', library, source]
    try:
        return library if subprocess.run(words, check=False).returncode == 0 else None
    except OSError:
        return None


def library_is_used(library):
    """Returns None if the library replaces the reads of the program, and otherwise a message."""
    if library is None:
        return 'cannot compile pieces.c; set CC'
    got = runs.answer('run', PLAIN, b'step 1\n', environment={'LD_PRELOAD': library, 'PIECE': '0'})
    wanted = runs.Answer(3, b'', b'jobk: cannot read /dev/fd/%d\n' % runs.FIRST_TEXT)
    return runs.difference('reads that fail', wanted, got)


def changes(text):
    """Yields the text without each of its bytes; and with each byte value before each byte, and in place of it."""
    for place in range(len(text) + 1):
        yield f'without byte {place}', text[:place] + text[place + 1:]
        for value in range(256):
            byte = bytes([value])
            yield f'with {value} before byte {place}', text[:place] + byte + text[place:]
            if place < len(text):
                yield f'with {value} as byte {place}', text[:place] + byte + text[place + 1:]


def changed_texts():
    for name, world in changes(WORLD):
        yield f'a world {name}', world, EVENTS
    for name, events in changes(EVENTS):
        yield f'events {name}', WORLD, events


def judge_change(item):
    name, world, events = item
    message, _ = plain_reader.message(world, events)
    wanted = runs.Answer(1, b'', message) if message else runs.Answer(0, plain_world.trace(world, events), b'')
    return runs.difference(name, wanted, runs.answer('run', world, events))


def reader_fails(folder):
    """Returns a message if the plain reader and a case differ, or None. The answers of the cases do not come from the
    plain reader."""
    world, events = (runs.read_file(folder + file) for file in ('world', 'events'))
    wanted = runs.read_file(folder + 'stderr') if os.path.exists(folder + 'stderr') else b''
    got = plain_reader.message(world, events)[0] or b''
    return None if got == wanted else f'{folder}: {got}, wanted {wanted}'


def check(checks):
    folders = [folder for folder in sorted(glob.glob('tests/cases/*/'))
               if os.path.exists(folder + 'events') and not os.path.exists(folder + 'words')]
    checks.count('the plain reader by the cases', map(reader_fails, folders))
    wanted = list(beginnings())
    checks.judge_each('beginnings of texts', judge, wanted)
    with tempfile.TemporaryDirectory() as folder:
        library = compile_library(folder)
        checks.count('reads by the library', [library_is_used(library)])
        checks.judge_each('beginnings in pieces', judge_in_pieces,
                          [(library, piece, item) for piece in PIECES for item in wanted if library])
    whole = [answer_wanted(f'the events of {name}', *case(name)) for name in CASES]
    checks.judge_each('events through a pipe', judge_through_a_pipe, itertools.product(PIECES, whole))
    checks.judge_each('errors by name', judge,
                      [(f'{world} and {events}', world, events, runs.Answer(1, b'', message))
                       for world, events, message in FAULTS])
    checks.judge_each('texts with a changed byte', judge_change, changed_texts())
