"""Each call with extreme numbers in r1 to r4. plain_calls.py says what the call returns, and what it changes."""

import collections
import itertools

from hostile_parts import plain_calls, runs

VALUES = (-2**63, -1, 0, 1, 2**63 - 1)
STEPS = 100

# How many registers, from r1 on, a call reads. A call that is not named reads none.
READ = {'getpgid': 1, 'getsid': 1, 'setuid': 1, 'seteuid': 1, 'setgid': 1, 'setegid': 1, 'exit': 1, 'sigsuspend': 1,
        'alarm': 1, 'setctty': 1, 'tcsetpgrp': 1, 'settostop': 1, 'subreaper': 1, 'waitpid': 2, 'kill': 2,
        'sigprocmask': 2, 'setpgid': 2, 'read': 2, 'write': 2, 'exec': 3, 'waitid': 3, 'sigqueue': 3, 'sigaction': 4}

# More values, by the call and the register. With VALUES alone, each waitid would fail because of its options.
MORE_VALUES = {('waitid', 1): (2, 3), ('waitid', 2): (2,), ('waitid', 3): (2, 5, 9, 16, 2**24 + 1, 2**24 + 5)}

# The caller of a call: the lines of the world before and after those of the caller, the events before the caller's, the
# trace of these events, the number of the caller's first event, and a function that returns the caller's state.
Scene = collections.namedtuple('Scene', 'name before after events shown first caller')
ALONE = Scene('process 1 alone', '', '', '', '', 1, lambda: plain_calls.Process(1, 0))


def with_terminal():
    caller = plain_calls.Process(1, 0, line=b'A\n')
    caller.has_terminal, caller.foreground = True, 1
    caller.registers[1] = 1
    return caller


OTHERS = (
    Scene('process 1 with a terminal and a line', 'set r1, 1\nsys setctty\n', '', 'step 2\nkey 1 41 0A\n',
          '2 call 1 setctty = 0\n', 5, with_terminal),
    Scene('process 1 with a child', 'sys fork\njz r0, kid\nsys sched_yield\n', 'kid:\nsys pause\n', 'step 5\n',
          '1 call 1 fork = 2\n3 call 1 sched_yield = 0\n', 6, lambda: plain_calls.Process(1, 0, child=2)),
    Scene('a child of process 1', 'sys fork\njz r0, kid\nsys pause\nkid:\n', '', 'step 4\n',
          '1 call 1 fork = 2\n', 5, lambda: plain_calls.Process(2, 1)))

# Shows the state after the call: the registers, the words at 0 and 1, the user and group IDs, the process group, the
# session, the parent, the action of signal 1, the mask, the pending signals, the alarm, the terminal, and whether the
# effective user ID can be 0 again.
AFTERWARDS = '''note r0, note r1, note r2, note r3, note r4, ld r6 r7, note r6, set r7 1, ld r6 r7, note r6,
sys getuid, sys geteuid, sys getgid, sys getegid, set r1 0, sys getpgid, sys getsid, sys getppid,
set r1 1, set r2 -1, sys sigaction, note r2, note r3, note r4, set r1 0, set r2 0, sys sigprocmask, note r2,
sys sigpending, note r1, set r1 0, sys alarm, sys tcgetpgrp, set r1 0, sys seteuid, stay'''
OTHER_PROGRAM = 'note r0, note r1, note r2, note r3, note r4, note r5, stay'


def code(text):
    """Returns the instructions that a text lists."""
    return [instruction.split() for instruction in text.split(',')]


def caller_code(name, values):
    """Returns the instructions of the caller. The notes at their beginning show the arguments of an exec of this
    program."""
    sets = ''.join(f'set r{register} {value}, ' for register, value in enumerate(values, 1))
    return code(f'note r1, note r2, set r6 321, st r6 r7, {sets} sys {name}, {AFTERWARDS}')


def lines(instructions):
    """Returns these instructions as lines of a world; `stay` loops for ever."""
    return ''.join('stay:\njmp stay\n' if word == 'stay' else f'{word} {", ".join(operands)}\n'
                   for word, *operands in instructions)


def trace(p, programs, first, steps):
    """Returns the trace of `steps` steps of a process that runs the first program, from event `first` on."""
    shown, instructions, place = [], programs[0], 0
    for event in range(first, first + steps):
        word, *operands = instructions[place]
        place += word != 'stay'
        if p.pending:
            p.status = 1
        elif word == 'sys':
            arguments = p.registers[1:5]
            result = plain_calls.RULES[operands[0]](p, *arguments)
            if result == plain_calls.BLOCKS:
                break
            if result != plain_calls.ENDS:
                shown.append(f'{event} call {p.number} {operands[0]} = {finish(p, result)}\n')
            if operands[0] == 'exec' and result == 0:
                instructions, place = programs[arguments[0]], 0
        else:
            run_plainly(p, f'{event} note {p.number} ', word, operands, shown)
        if p.status is not None:
            shown.append(f'{event} end {p.number} {p.status}\n' + f'{event} halt\n' * (p.number == 1))
            break
    return ''.join(shown)


def finish(p, result):
    """Sets the call's result in r0, and returns how the trace shows it."""
    if isinstance(result, bytes):
        p.registers[0] = len(result)
        return f'{len(result)} bytes {result.hex()}'
    if isinstance(result, str):
        p.registers[0] = 0
        return f'0 {result}'
    p.registers[0] = result
    return result


def run_plainly(p, note, word, operands, shown):
    """Runs an instruction that is no call."""
    if word == 'stay':
        return
    register = int(operands[0][1])
    if word == 'note':
        shown.append(f'{note}{p.registers[register]}\n')
    elif word == 'set':
        p.registers[register] = int(operands[1])
    elif word == 'ld':
        p.registers[register] = p.memory[p.registers[int(operands[1][1])]]
    elif word == 'st':
        p.memory[p.registers[int(operands[1][1])]] = p.registers[register]


def item(scene, name, values):
    """Returns a name, a world, events and the expected output."""
    programs = [caller_code(name, values), code(OTHER_PROGRAM)]
    world = (f'pidmax 40\nconsoles 1\nprogram init\n{scene.before}{lines(programs[0])}{scene.after}end\n'
             f'program other\n{lines(programs[1])}end\n')
    steps = STEPS
    if scene.before and name == 'exec' and values[0] == 0:
        steps = programs[0].index(['sys', name]) + 1        # (the program would begin again before the caller's lines)
    wanted = scene.shown + trace(scene.caller(), programs, scene.first, steps)
    what = f'{name} of {", ".join(map(str, values))} by {scene.name}'
    return what, world.encode(), f'{scene.events}step {steps}\n'.encode(), runs.Answer(0, wanted.encode(), b'')


def combinations(name, count):
    """Returns all combinations of the values of a call in its first `count` registers."""
    return itertools.product(*(VALUES + MORE_VALUES.get((name, register), ()) for register in range(1, count + 1)))


def items():
    """Yields the cases. If process 1 is alone, all four registers take all values. Otherwise only the registers that
    the call reads take all values; each of the others takes one value in turn."""
    for name in plain_calls.RULES:
        for values in combinations(name, 4):
            yield item(ALONE, name, values)
        for scene in OTHERS:
            for turn, values in enumerate(combinations(name, READ.get(name, 0))):
                rest = [VALUES[(turn + register) % 5] for register in range(4 - len(values))]
                yield item(scene, name, [*values, *rest])


def judge(item):
    name, world, events, wanted = item
    return runs.difference(name, wanted, runs.answer('run', world, events))


def by_name():
    """Yields a kill and a wait whose target is the lowest number. No process group has it, so both calls fail."""
    world = (b'pidmax 40\nconsoles 1\nprogram init\n'
             b'set r1, -9223372036854775808\nset r2, 9\nsys kill\nsys waitpid\nend\n')
    shown = b'3 call 1 kill = -3\n4 call 1 waitpid = -10\n'
    yield 'the lowest number as a target', world, b'step 4\n', runs.Answer(0, shown, b'')


def check(checks):
    checks.judge_each('calls by name', judge, by_name())
    checks.judge_each('calls with extreme numbers', judge, items())
