"""Random programs, compiled to worlds and by a C compiler, have to show the same."""
import concurrent.futures
import os
import re
import resource
import signal
import subprocess
import tempfile
import tty
from collections import Counter, defaultdict
from dataclasses import dataclass, field

from compiler import world
from features import GROUPS, indented
from generator import FIRST_MARK, generate
from refusal import Refused
from source import parse_source

SEED, IN_ONE_FILE, STEPS, LONGEST = 1000, 50, 'step 1000000\n', 20
LINE = re.compile(r'note (\d+) (-?\d+)$|call \d+ write = \d+ bytes (\w+)|end 1 (\d+)', re.M)
TOO_MUCH = re.compile(' more than the ')
NAME = re.compile(r'\b\w+_\d+\w*|\d+')


@dataclass
class Shown:
    """What a program does: its notes, with the processes numbered in the order of their first notes; what it writes;
    its exit status; and what went wrong."""
    notes: list
    written: str
    status: int = None
    fault: str = ''


@dataclass
class Result:
    """The result for some programs: how many there are, which differ from gcc's, and which are refused."""
    count: int = 0
    made: Counter = field(default_factory=Counter)              # by group, how many have a part of it
    accepted: Counter = field(default_factory=Counter)
    different: list = field(default_factory=list)               # the number, in which part, and what
    refused: list = field(default_factory=list)                 # the number, and why

    def add(self, other):
        self.count += other.count
        self.made += other.made
        self.accepted += other.accepted
        self.different += other.different
        self.refused += other.refused


def numbered(pairs):
    numbers = {}
    return [(numbers.setdefault(process, len(numbers) + 1), int(value)) for process, value in pairs]


def shown(text):
    """Returns the notes of a trace."""
    return numbered(re.findall(r'note (\d+) (-?\d+)$', text, re.M))


def with_main(program):
    return program.text.replace(f'int main_{program.number}(void)', 'int main(void)')


def tool_text(lines):
    head = ['#include "jobk.h"', 'int main(int argc, char **argv)', '{', '    (void)argc;']
    return '\n'.join([*head, *indented(lines), '}', ''])


def sources_of(program):
    texts = {f'random_{program.number}.c': '#include "jobk.h"\n' + with_main(program)}
    texts |= {f'{name}.c': tool_text(lines) for name, *lines in program.tools}
    return [parse_source(name, text) for name, text in texts.items()]


def make_program(number, planted=None):
    """Returns a program that fits into a world, and its world or why there is none."""
    for seed in range(SEED, SEED + 20):
        program = generate(seed, number)
        try:
            return program, world(sources_of(program), planted=planted), None
        except Refused as refused:
            if not TOO_MUCH.search(refused.what):
                return program, None, refused
        except Exception as error:                                          # a fault of the compiler
            return program, None, error
    raise AssertionError(f'random program {number} is too big')


def compile_together(folder, first, programs, include, compiler='gcc'):
    """Compiles all programs into one executable, which runs the program by whose name it is called."""
    path = os.path.join(folder, f'from_{first}')
    parts, cases = ['#include "jobk.h"\n'], ''
    for program in programs:
        os.symlink(path, os.path.join(folder, f'random_{program.number}'))
        parts.append(program.text)
        cases += f'    if (strcmp(name, "random_{program.number}") == 0)\n        return main_{program.number}();\n'
        for name, *lines in program.tools:
            os.symlink(path, os.path.join(folder, name))
            parts.append(f'static int main_{name}(char **argv)\n{{\n' + '\n'.join(lines) + '\n}\n')
            cases += f'    if (strcmp(name, "{name}") == 0)\n        return main_{name}(argv);\n'
    with open(path + '.c', 'w', encoding='ascii') as file:
        file.write('\n'.join(parts) + '\nint main(int argc, char **argv)\n{\n    char *last = strrchr(argv[0], 47);\n'
                   f'    char *name = last ? last + 1 : argv[0];\n    (void)argc;\n{cases}    return 99;\n}}\n')
    subprocess.run([compiler, '-w', '-O0', '-I', include, path + '.c', '-o', path], check=True)


def run_here(program, folder, number, text):
    path = os.path.join(folder, f'world_{number}')
    with open(path, 'w', encoding='ascii') as file:
        file.write(text)
    with open(os.path.join(folder, 'events'), 'w', encoding='ascii') as file:
        file.write(STEPS)
    done = subprocess.run([program, 'run', path, os.path.join(folder, 'events')], capture_output=True, text=True)
    found = LINE.findall(done.stdout)
    ends = [int(end) for *_, end in found if end]
    status = None if not ends else ends[0] >> 8 if ends[0] & 127 == 0 else -(ends[0] & 127)
    return Shown(numbered((process, value) for process, value, *_ in found if process),
                 ''.join(data for *_, data, _ in found), status,
                 done.stderr or ('' if done.stdout.endswith(' halt\n') else 'it does not halt: '))


def run_there(folder, number):
    """Runs the program on Linux, in its own session and with its own terminal."""
    master, slave = os.openpty()
    tty.setraw(slave)
    process = subprocess.Popen([os.path.join(folder, f'random_{number}')], cwd=folder, stdin=slave, stdout=slave,
                               stderr=subprocess.PIPE, text=True, start_new_session=True)
    os.close(slave)
    fault = ''
    try:
        text = process.communicate(timeout=LONGEST)[1]
    except subprocess.TimeoutExpired:
        os.killpg(process.pid, signal.SIGKILL)          # also the children that it left in its process group
        text, fault = process.communicate()[1], 'it does not end on Linux: '
    written = b''
    try:
        while part := os.read(master, 4096):
            written += part
    except OSError:                                                         # the other side is closed
        pass
    os.close(master)
    return Shown(shown(text), written.hex(), process.returncode, fault)


def compare_some(program, include, first, count, planted):
    resource.setrlimit(resource.RLIMIT_CORE, (0, 0))
    result = Result(count)
    with tempfile.TemporaryDirectory() as folder:
        made = [make_program(number, planted) for number in range(first, first + count)]
        compile_together(folder, first, [it for it, text, _ in made if text], include)
        for it, text, error in made:
            result.made.update(set(it.groups))
            if isinstance(error, Refused):
                result.refused.append((it.number, error.what))
            elif error is not None:
                result.different.append((it.number, 'the compiler', f'it fails: {type(error).__name__}: {error}'))
            else:
                result.accepted.update(set(it.groups))
                here, there = run_here(program, folder, it.number, text), run_there(folder, it.number)
                if here != there:
                    result.different.append((it.number, *first_difference(it, here, there)))
    return result


def part_of(program, notes):
    """Returns the name of the part that has the last of some notes."""
    marks = [value - FIRST_MARK for _, value in notes if 0 <= value - FIRST_MARK <= len(program.parts)]
    return program.parts[marks[-1]].name if marks and marks[-1] < len(program.parts) else 'statements'


def first_difference(program, here, there):
    """Returns the part that has the first difference, and the difference."""
    fault = here.fault + there.fault
    for place, (one, other) in enumerate(zip(here.notes, there.notes)):
        if one != other:
            return part_of(program, here.notes[:place]), f'{fault}note {place + 1} is {one} here, and {other} by gcc'
    if len(here.notes) != len(there.notes):
        both = min(len(here.notes), len(there.notes))
        return part_of(program, here.notes[:both]), f'{fault}{len(here.notes)} notes here, {len(there.notes)} by gcc'
    if here.written != there.written:
        return 'strings, writes', f'{fault}{here.written} is written here, and {there.written} by gcc'
    return 'statements', f'{fault}status {here.status} here, and {there.status} by gcc'


def compare(program, include, count, planted=None, first=0):
    total = Result()
    parts = [(begin, min(IN_ONE_FILE, first + count - begin)) for begin in range(first, first + count, IN_ONE_FILE)]
    with concurrent.futures.ProcessPoolExecutor(os.cpu_count()) as pool:
        for future in [pool.submit(compare_some, program, include, begin, many, planted) for begin, many in parts]:
            total.add(future.result())
    return total


def too_few(result):
    """Returns a failure for each group if fewer than a third of its programs are accepted: too few to compare."""
    return [f'random programs: only {result.accepted[name]} of {result.made[name]} with {name} are accepted'
            for name in GROUPS if result.accepted[name] * 3 < result.made[name]]


def table(result):
    """Returns how many programs have a part of each group, how many of these are accepted, and why others aren't."""
    lines = [f'{result.made[name]} with {name}, {result.accepted[name]} accepted' for name in GROUPS]
    reasons = defaultdict(list)
    for number, reason in result.refused:
        reasons[NAME.sub('N', reason)].append(number)
    return lines + [f'{len(numbers)} refused, as program {numbers[0]}: {reason}'
                    for reason, numbers in sorted(reasons.items(), key=lambda it: -len(it[1]))]


def keep(result, folder):
    """Writes the programs that differ to a folder. The first line of each says what differs."""
    os.makedirs(folder, exist_ok=True)
    for number, part, what in result.different:
        program = make_program(number)[0]
        with open(os.path.join(folder, f'random_{number}.c'), 'w', encoding='ascii') as file:
            file.write(f'// in {part}: {what}\n#include "jobk.h"\n' + with_main(program))
        for name, *lines in program.tools:
            with open(os.path.join(folder, f'{name}.c'), 'w', encoding='ascii') as file:
                file.write(tool_text(lines))
