"""The tests of tools/cworld without random programs. Each returns how many checks it makes, and what failed."""
import concurrent.futures
import glob
import os
import random
import re
import subprocess
import sys
import tempfile

import c_program
import schedules
from compiler import world
from random_programs import shown
from refusal import Refused
from source import parse_source, read_sources

HERE = os.path.dirname(os.path.abspath(__file__))
TOP = os.path.dirname(os.path.dirname(HERE))
EXAMPLES = os.path.join(TOP, 'examples', 'c')
# Programs that other programs run by execl.
PROGRAMS = {'cat', 'less', 'reader', 'tool'}
RUNS, WORKERS = 20, 8
SEED, MOMENTS, ENDS = 1, 200, ['key 1 04', 'step 5000']
MOMENTARY = ['tick 1', 'key 1 1A', 'key 1 03', 'hangup 1']


def read(*path):
    with open(os.path.join(*path), encoding='utf-8') as file:
        return file.read()


def name_of(path):
    return os.path.basename(path)[:-2]


def c_files():
    """Returns the C files of the examples, and the files that make all calls."""
    return sorted(glob.glob(f'{EXAMPLES}/*.c')) + [f'{HERE}/handler_frames.c'] + sorted(glob.glob(f'{HERE}/calls/*.c'))


def first_files():
    """Returns the C files that process 1 runs."""
    return [path for path in c_files() if name_of(path) not in PROGRAMS]


def world_of(path):
    return world(read_sources([path]))


def events_beside(path, otherwise='step 3000'):
    return c_program.read_events(path[:-1] + 'events') or [otherwise]


def refused():
    """Compares what the compiler refuses, and why, with refused.txt."""
    failures, count = [], 0
    for part in re.split(r'^-- ', read(HERE, 'refused.txt'), flags=re.M)[1:]:
        name, _, rest = part.partition('\n')
        code, _, wanted = rest.partition('!! ')
        wanted = wanted.split('\n')[0]
        count += 1
        try:
            world([parse_source('refused.c', code)])
            said = 'it is accepted'
        except Refused as it:
            said = f'{it.line}:{it.column} {it.what}'
        if said != wanted:
            failures.append(f'{name}: wanted {wanted}, got {said}')
    return count, failures


# Names of the system that are not constants in C, and names that C has in enums.
NO_CONSTANTS, OF_ENUMS = {'SIGRTMIN', 'SIGRTMAX', 'SIG_DFL', 'SIG_IGN'}, {'P_ALL', 'P_PID', 'P_PGID'}


def names_of_the_system():
    """Compares the numbers of tools/c/include, and those that jobk has names for, with the system's headers."""
    header = read(TOP, 'tools', 'c', 'include', 'jobk.h')
    numbers = dict(re.findall(r'^#define (\w+) (0x[0-9a-f]+|\d+)$', header, re.M))
    numbers |= dict(re.findall(r'(CLD_\w+) = (\d+)', header))
    rows = dict(re.findall(r'\(Kind::\w+, "(\w+)", (\w+)\)', read(TOP, 'crates', 'wording', 'src', 'table.rt')))
    failures = [f'{name} is not in tools/c/include/jobk.h' for name in rows if not re.search(rf'\b{name}\b', header)]
    failures += [f'{name} is a macro in tools/c/include/jobk.h, but not in C' for name in OF_ENUMS if name in numbers]
    checks = {**rows, **numbers}
    with tempfile.TemporaryDirectory() as folder:
        path = os.path.join(folder, 'names.c')
        with open(path, 'w', encoding='ascii') as file:
            file.write('#include "jobk.h"\n')
            for name in sorted(checks.keys() - NO_CONSTANTS):
                is_macro = 'not a macro' if name in OF_ENUMS else 'a macro'
                file.write(f'#if{"" if name in OF_ENUMS else "n"}def {name}\n#error {name} is {is_macro}\n#endif\n'
                           f'_Static_assert((long)({name}) == {checks[name].replace("_", "")}, "{name}");\n')
        said = c_program.compile_file(path, folder, ['-c'])
    return len(checks), failures + said.splitlines()


def in_turn(program, planted=None):
    """Runs files that must note the numbers 1, 2 and so on."""
    failures = []
    for name, last in (('left_to_right.c', 36), ('handler_frames.c', 17)):
        with tempfile.TemporaryDirectory() as folder:
            text = world([parse_source(name, read(HERE, name))], planted=planted)
            values = [value for _, value in shown(schedules.run(program, folder, text, ['step 100000']))]
        if values != list(range(1, last + 1)):
            failures.append(f'{name} notes {values}')
    return 2, failures


def without_numbers(trace):
    """Returns the lines of a trace without event numbers and without notes."""
    lines = (line.partition(' ')[2] for line in trace.split('\n'))
    return [line for line in lines if not line.startswith('note ')]


def by_hand(program):
    """Compares the examples with the worlds that were written by hand for them."""
    failures, count = [], 0
    places = sorted(glob.glob(f'{HERE}/by_hand/*') + glob.glob(f'{TOP}/races/*'))
    with tempfile.TemporaryDirectory() as folder:
        for place in [*places, f'{TOP}/examples/job_control_shell']:
            path = os.path.join(EXAMPLES, os.path.basename(place) + '.c')
            count += 1
            events = c_program.read_events(os.path.join(place, 'events'))
            wanted = schedules.run(program, folder, read(place, 'world'), events)
            got = schedules.run(program, folder, world_of(path), events_beside(path))
            if without_numbers(wanted) != without_numbers(got):
                failures.append(f'{name_of(path)}.c does something else than {os.path.relpath(place, TOP)}')
    return count, failures


# What tools print: the command line, the exit status, and a text on standard output or standard error.
FORMS = [
    (['tools/cworld', 'examples/c/exec.c'], 0, 'program tool\n'),
    (['tools/cworld', '--pidmax', '7', '--consoles', '2', 'examples/c/fork.c'], 0, 'pidmax 7\nconsoles 2\n'),
    (['tools/cworld', 'nothing.c'], 3, 'tools/cworld: cannot read nothing.c: No such file or directory\n'),
    (['tools/cworld', 'examples/c/fork.c'], 0, '# fork.c:7, in main: pid_t child = fork();\n    sys fork\n'),
    (['tools/jobk', 'examples/c/fork.c'], 0, 'call 1 fork = 2\n'),
    (['tools/jobk', '-x', 'examples/c/exec.c', 'examples/c/tool.c'], 0, 'end 2 1280   exit 5'),
    (['tools/jobk', 'explore', 'examples/c/lost_wakeup.c', '--upto', '80', '--ticks', '1'], 0,
     '    step 42\n    # preempts process 1 at lost_wakeup.c:21, in main\n    tick 1\n    step 158\n'
     '  first difference from outcome 1\n    50 handle 1 17 768 2\n'
     '  where outcome 1 has\n    53 call 1 pause = -4   at lost_wakeup.c:22, in main\n'
     '  last lines\n    49 end 3 768   at lost_wakeup.c:20, in main\n'),
    (['tools/jobk', 'show', 'examples/c/lost_wakeup.c', '--at', '82'], 0, 'runs, at lost_wakeup.c:21, in main'),
    (['tools/jobk', 'nothing.c'], 3, 'tools/cworld: cannot read nothing.c'),
    ([sys.executable, '-S', 'tools/cworld', 'examples/c/fork.c'], 3, 'tools/cworld: expected pycparser, found none'),
    (['env', 'PATH=', sys.executable, 'tools/cworld', 'examples/c/fork.c'], 3, 'tools/cworld: expected gcc, which'),
]


def tools(program):
    failures = []
    for words, status, text in FORMS:
        done = subprocess.run(words, cwd=TOP, capture_output=True, text=True, env={**os.environ, 'JOBK': program})
        if done.returncode != status or text not in done.stdout + done.stderr:
            failures.append(f'{" ".join(words)}: status {done.returncode}, {(done.stderr or done.stdout)[:200]}')
    return len(FORMS), failures


def shell_at_any_moment(program):
    """Runs the shell with ticks, ^Z, ^C and hangups at any moment. It must exit after enough ends of file."""
    path, failures = os.path.join(EXAMPLES, 'shell.c'), []
    text, events = world_of(path), events_beside(path) + ENDS * 8
    chance = random.Random(SEED)
    with tempfile.TemporaryDirectory() as folder:
        trace = schedules.run(program, folder, text, events)
        places = [int(event) for event in re.findall(r'^\d+', trace, re.M)]
        for _ in range(MOMENTS):
            put_in = sorted((max(1, chance.choice(places) - chance.randrange(8)), chance.choice(MOMENTARY))
                            for _ in range(chance.randrange(1, 5)))
            if not schedules.run(program, folder, text, schedules.with_events(events, put_in)).endswith(' halt\n'):
                failures.append(f'shell.c does not end with {put_in}')
    return MOMENTS, failures


def replayed(program):
    """Replays the worlds of all files on real processes with tests/linux, except the shell's, which is too long."""
    paths = [path for path in first_files() if name_of(path) != 'shell']
    with tempfile.TemporaryDirectory() as folder:
        for path in paths:
            os.mkdir(os.path.join(folder, name_of(path)))
            schedules.write(os.path.join(folder, name_of(path)), world_of(path), events_beside(path, 'step 700'))
        done = subprocess.run(['tests/linux', program, folder], cwd=TOP, capture_output=True, text=True)
    return len(paths), [] if done.returncode == 0 else [f'tests/linux: {done.stdout}{done.stderr}']


# An example of examples/c, whether explore must find a race in it, and the options with which it looks.
TTIN, NO_GROUP, TOO_LATE = 'stop 3 21', 'kill = -3', 'setpgid = -3'
EXPLORED = [
    ('lost_wakeup', True, ['--must-halt', '--upto', '80']),
    ('wakeup_by_sigsuspend', False, ['--must-halt', '--upto', '120']),
    ('alarm_before_the_pause', True, ['--must-halt', '--upto', '60']),
    ('alarm_by_sigsuspend', False, ['--must-halt', '--upto', '60']),
    ('group_of_an_ended_child', True, ['--find', TOO_LATE, '--upto', '60']),
    ('group_with_chld_blocked', False, ['--find', TOO_LATE, '--find', NO_GROUP, '--upto', '80']),
    ('shell_alone', True, ['--find', TTIN, '--upto', '80']),
    ('shell_gives_the_terminal', True, ['--find', TTIN, '--upto', '80']),
    ('job_alone', True, ['--find', NO_GROUP, '--upto', '80']),
    ('both', False, ['--find', TTIN, '--find', NO_GROUP, '--upto', '80']),
    ('double_fork', True, ['--find', 'note 3 2', '--upto', '50']),
    ('double_fork_looks_again', False, ['--find', 'note 3 2', '--upto', '50']),
    ('kill_at_once', True, ['--find', 'end 2 9', '--upto', '60']),
    ('kill_when_ready', False, ['--find', 'end 2 9', '--find', 'end 2 15', '--upto', '110']),
    ('init', False, ['--must-halt', '--ticks', '1']),
    ('shell', False, ['--must-halt', '--ticks', '1', '--upto', '400']),
]


def explored(program):
    """Checks that explore finds the races of the examples, and none in the fixed ones."""
    failures = []
    with tempfile.TemporaryDirectory() as folder:
        for name, is_found, words in EXPLORED:
            path = os.path.join(EXAMPLES, f'{name}.c')
            paths = schedules.write(folder, world_of(path), events_beside(path, 'step 200'))
            done = subprocess.run([program, 'explore', *paths, *words], capture_output=True, text=True)
            if done.returncode != (4 if is_found else 0):
                failures.append(f'explore of {name}.c {" ".join(words)}: status {done.returncode} {done.stderr}')
    return len(EXPLORED), failures


def compile_all(folder):
    """Compiles each file with gcc, and returns its messages."""
    with concurrent.futures.ThreadPoolExecutor(2) as pool:
        return [said for said in pool.map(lambda path: c_program.compile_file(path, folder), c_files()) if said]


# Outcomes only on Linux. The shell makes the job's group too late: the job has called exec. So the shell gives the
# terminal to a group without processes, and the job's read fails with EIO (CONFORMANCE, "tcsetpgrp of a process ID").
ON_LINUX_ALONE = {'shell_alone': {(((2, (0,)), (3, (-1,))), 0)}}


def compare_runs(path, runs, program):
    """Returns what is wrong with the runs of a program: outcomes that no schedule has."""
    shown = set(runs) - ON_LINUX_ALONE.get(name_of(path), set())
    with tempfile.TemporaryDirectory() as folder:
        possible = schedules.outcomes(program, folder, world_of(path), events_beside(path), shown)
    others = sorted(shown - possible, key=str)
    return [f'{name_of(path)}.c on Linux: {outcome}, of {possible}' for outcome in others]


def on_linux(program, report):
    with tempfile.TemporaryDirectory() as folder:
        said = compile_all(folder)
        report.part('compiled by gcc -Wall -Wextra -Werror', len(c_files()), said)
        try:
            c_program.check()
        except c_program.NotHere as why:
            report.part('on Linux', 1, [f'no program runs on Linux here: {why}; --without-linux leaves this out'])
            return
        with concurrent.futures.ThreadPoolExecutor(WORKERS) as pool:
            runs = {path: [pool.submit(c_program.run, os.path.join(folder, name_of(path)), events_beside(path))
                           for _ in range(RUNS)] for path in first_files()}
            checks = [pool.submit(compare_runs, path, [it.result() for it in runs[path]], program) for path in runs]
            failures = [failure for check in checks for failure in check.result()]
        report.part(f'on Linux, {RUNS} times each', len(runs), failures)
