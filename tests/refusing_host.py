"""What tests/refusals and tests/failing_writes share: a host that refuses memory and writes, cases, and a count."""

import collections
import concurrent.futures
import os
import pathlib
import shlex
import signal
import subprocess
import sys
import tempfile
import threading

TESTS = pathlib.Path(__file__).resolve().parent
TOP = TESTS.parent
NO_MEMORY = (3, b'', b'jobk: out of memory\n')
# What a run printed: its status, standard output and standard error; the size of each refused allocation; and for each
# write to the watched descriptor, how many bytes it took, or -1 if it failed.
Answer = collections.namedtuple('Answer', 'said refused writes')


class Host:
    """Runs the program, and refuses what the numbers say. tests/refusing_host.c lists the numbers."""

    def __init__(self, program, scratch):
        self.program = program
        self.scratch = pathlib.Path(scratch)
        self.library = self.scratch / 'refusing_host.so'
        compiler = shlex.split(os.environ.get('CC', 'cc'))
        source = TESTS / 'refusing_host.c'
        try:
            subprocess.run([*compiler, '-shared', '-fPIC', '-O1', '-o', self.library, source], check=True)
        except (OSError, subprocess.CalledProcessError) as why:
            sys.exit(f'cannot compile {source}: {why}; CC names a C compiler')

    def run(self, words, folder, stdout=subprocess.PIPE, **numbers):
        with tempfile.TemporaryFile(dir=self.scratch) as log:
            numbers['log'] = log.fileno()
            environment = {**os.environ, 'LD_PRELOAD': str(self.library)}
            environment.update(('HOST_' + name.upper(), str(value)) for name, value in numbers.items())
            try:
                done = subprocess.run([self.program, *words], cwd=folder, env=environment, stdin=subprocess.DEVNULL,
                                      stdout=stdout, stderr=subprocess.PIPE, pass_fds=[log.fileno()], timeout=60)
            except subprocess.TimeoutExpired:
                return Answer(('still running after a minute', b'', b''), [], [])
            log.seek(0)
            told = [line.split() for line in log]
        refused = [int(line[1]) for line in told if line[0] == b'refused']
        writes = [int(line[2]) for line in told if line[0] == b'write']
        return Answer((done.returncode, done.stdout or b'', done.stderr), refused, writes)


class Case:
    """A folder of tests/refused, tests/cases or examples, and the answer that its files expect, as in tests/run. A
    folder of tests/refused without a world or words takes all files from the case of the same name in tests/cases."""

    def __init__(self, name):
        homes = [TESTS / 'refused' / name, TESTS / 'cases' / name, TOP / 'examples' / name]
        self.name = name
        self.own = homes[0]
        self.folder = next(home for home in homes if any((home / file).exists() for file in ('world', 'words')))
        self.words = self.read('words', b'run\nworld\nevents').decode().split('\n')
        self.words = [word for word in self.words if word]
        out = self.read('stdout', self.read('trace', b'') if self.words[0] == 'run' else b'')
        self.said = int(self.read('status', b'0')), out, self.read('stderr', b'')

    def read(self, file, missing):
        path = self.folder / file
        return path.read_bytes() if path.exists() else missing


class Made:
    """A case that is no folder of the repository: the arguments, the answer, and the folder where the program runs."""

    def __init__(self, name, folder, words, said):
        self.name, self.folder, self.words, self.said = name, folder, words, said


def made_world(name, scratch, world, events, trace):
    """Writes a world to the folder `scratch`, and returns its case with the expected trace."""
    folder = pathlib.Path(scratch) / name
    folder.mkdir()
    (folder / 'world').write_text(world)
    (folder / 'events').write_text(events)
    return Made(name, folder, ['run', 'world', 'events'], (0, trace.encode(), b''))


class Tally:
    """Counts checks, and prints those that fail; for the first ten, also what the program printed."""

    def __init__(self):
        self.passed = self.failed = 0
        self.lock = threading.Lock()

    def check(self, is_right, what, answer=None):
        with self.lock:
            if is_right:
                self.passed += 1
                return
            self.failed += 1
            print('failed:', what, flush=True)
            if answer is not None and self.failed <= 10:
                status, out, err = answer.said
                print(f'    status {status}, refused {answer.refused[:8]}, the last writes took {answer.writes[-8:]}')
                for line in (out + err).splitlines()[:50]:
                    print('   ', line.decode(errors='replace'))


def find_program(name):
    """Returns the program that the command line names, as a path from the top of the repository, or the built one."""
    if len(sys.argv) > 2:
        sys.exit(f'usage: tests/{name} [PROGRAM]')
    program = TOP / (sys.argv[1] if len(sys.argv) == 2 else 'crates/jobk/out/jobk')
    if not os.access(program, os.X_OK):
        sys.exit(f'tests/{name}: there is no program {program}: rt ci builds it')
    return program


def main(name, jobs_of):
    """Runs the jobs that `jobs_of` returns for a host and a tally, in parallel, and exits."""
    signal.signal(signal.SIGTERM, lambda *_: sys.exit(1))
    program = find_program(name)
    tally = Tally()
    with tempfile.TemporaryDirectory() as scratch:
        jobs = jobs_of(Host(program, scratch), tally)
        pool = concurrent.futures.ThreadPoolExecutor(os.cpu_count())
        try:
            for done in [pool.submit(job, *arguments) for job, *arguments in jobs]:
                for line in done.result() or []:
                    print(line)
        finally:
            pool.shutdown(cancel_futures=True)
    print(f'{name}: {tally.passed} passed, {tally.failed} failed')
    sys.exit(0 if tally.passed > 0 and tally.failed == 0 else 1)
