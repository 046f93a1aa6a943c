"""The programs of by_gcc note, write and exit in a world as on Linux, where gcc compiles them. Each file there also has
what its programs do, which gcc's programs must still do."""
import concurrent.futures
import glob
import os
import re
import subprocess
import tempfile

import schedules
from compiler import world
from refusal import Refused
from source import parse_source

HERE = os.path.dirname(os.path.abspath(__file__))
HEADER = os.path.join(HERE, '..', '..', 'tools', 'c')
EVENTS, WORKERS, LONGEST = ['step 100000'], 4, 20


def cases():
    """Yields the name of each program, its text, what it does, and the message if it is refused, otherwise None."""
    for path in sorted(glob.glob(os.path.join(HERE, 'by_gcc', '*.txt'))):
        with open(path, encoding='latin-1') as file:
            yield from map(case, re.split(r'^-- ', file.read(), flags=re.M)[1:])


def case(part):
    name, _, rest = part.partition('\n')
    text, _, lines = rest.partition('\n== ')
    does, _, refused = lines.split('\n\n')[0].strip().partition('\n!! ')
    return name, text + '\n', does, refused or None


def on_linux(text, folder):
    """Returns what gcc's program notes, its exit status, and what it writes."""
    path = os.path.join(folder, 'program')
    with open(path + '.c', 'w', encoding='latin-1') as file:
        file.write(text)
    include = [] if '"jobk.h"' in text else ['-include', 'jobk.h']
    subprocess.run(['gcc', '-w', '-I', HEADER, *include, path + '.c', '-o', path], check=True)
    done = subprocess.run([path], capture_output=True, timeout=LONGEST)
    notes = re.findall(r'^note \d+ (-?\d+)$', done.stderr.decode('ascii'), re.M)
    return shown(notes, done.returncode, done.stdout.hex().upper())


def in_world(program, text, folder):
    """Returns the same of the world, or the message if the program is refused."""
    try:
        made = world([parse_source('p.c', text)])
    except Refused as it:
        return f'{it.line}:{it.column} {it.what}'
    trace = schedules.run(program, folder, made, EVENTS)
    end = re.search(r'^\d+ end 1 (\d+)$', trace, re.M)
    status = int(end[1]) if end else None
    return shown(re.findall(r'^\d+ note \d+ (-?\d+)$', trace, re.M), status and (status >> 8 or -status),
                 ''.join(re.findall(r' bytes ([0-9A-F]+)$', trace, re.M)))


def shown(notes, status, written):
    return (f'{" ".join(notes)} | {status}' + (f' | {written}' if written else '')).strip()


def difference(program, name, text, does, refused):
    with tempfile.TemporaryDirectory() as folder:
        there = on_linux(text, folder)
        if there != does:
            return f'{name}: {there} by gcc, not {does}'
        here = in_world(program, text, folder)
        return None if here == (refused or does) else f'{name}: {here}, not {refused or does}'


def compare(program):
    with concurrent.futures.ThreadPoolExecutor(WORKERS) as pool:
        found = [pool.submit(difference, program, *case) for case in cases()]
        results = [it.result() for it in found]
    return len(results), [it for it in results if it]
