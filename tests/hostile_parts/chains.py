"""Chains of 1,000 processes, each the child of the one before it. The last one kills the others in turn."""

from hostile_parts import runs

LAST = 1003             # process 1, process 2, and 1,000 below them, before the last one
SECONDS = 10            # of processor time
# The r1 of `subreaper`, and whether only process 2 calls it.
MARKS = {'no process': (0, True), 'process 2': (1, True), 'each': (1, False)}

WORLD = '''pidmax {last}
consoles 0
program init
set r5, {births}
set r6, 1
more:
sys fork
jz r0, below
sys pause
below:
jnz r4, next
set r1, {mark}
sys subreaper
set r4, {once}
next:
sub r5, r6
jnz r5, more
set r1, {first}
set r6, {step}
set r2, 9
again:
sys kill
sys sched_yield
sys getppid
add r1, r6
jmp again
end
'''


def heir(who, killed, step):
    """Returns the parent of the last process after another has been killed. With step 1, the processes are killed from
    process 3 down to the last but one; with step -1, from there up to process 2."""
    if step > 0:
        return LAST - 1 if killed < LAST - 1 else 1 if who == 'no process' else 2
    return {'no process': 1, 'process 2': 2 if killed > 2 else 1, 'each': killed - 1}[who]


def trace(who, numbers, step):
    """Returns the number of events, and the lines of the trace."""
    mark, once = MARKS[who]
    shown = ['3 call 1 fork = 2']
    event = 5
    for number in range(2, LAST + 1):
        event += 2
        if number == 2 or not once:
            shown.append(f'{event + 2} call {number} subreaper = 0 mark {mark}')
            event += 3
        event += 2
        if number < LAST:
            shown.append(f'{event + 1} call {number} fork = {number + 1}')
            event += 3
    event += 3
    for number in numbers:
        shown += [f'{event + 1} call {LAST} kill = 0', f'{event + 2} call {LAST} sched_yield = 0',
                  f'{event + 3} end {number} 9', f'{event + 4} call {LAST} getppid = {heir(who, number, step)}']
        event += 6
    return event - 2, shown


def parent(who, number, step):
    """Returns the parent of a killed process after all have been killed."""
    return 2 if step > 0 and (number == 3 or who != 'no process') else 1


def items():
    for who in MARKS:
        for step, numbers in ((1, range(3, LAST)), (-1, range(LAST - 1, 1, -1))):
            mark, once = MARKS[who]
            event, shown = trace(who, numbers, step)
            world = WORLD.format(last=LAST, births=LAST - 1, mark=mark, once=int(once), first=numbers[0], step=step)
            name = f'a chain in which {who} is marked, killed from {"above" if step > 0 else "below"}'
            yield name, 'run', (world, f'step {event}\n'), 0, list(shown)
            shown += [f'{event} call {parent(who, number, step)} waitpid = {number} status 9' for number in numbers]
            yield f'{name}, with a report of each', 'audit', ('\n'.join([*shown, '']),), 0, ['ok']
            shown[-1] = f'{event} call {LAST} waitpid = {numbers[-1]} status 9'
            said = [f'line {len(shown)}: fault 5']
            yield f'{name}, with a report to the wrong process', 'audit', ('\n'.join([*shown, '']),), 1, said


def judge(item):
    name, word, texts, status, shown = item
    wanted = runs.Answer(status, '\n'.join([*shown, '']).encode(), b'')
    got, seconds, _ = runs.finish(runs.start(word, *(text.encode() for text in texts)))
    if wanted == got and seconds > SECONDS:
        return f'{name}: {seconds:.1f} seconds of a processor, above {SECONDS}'
    return runs.difference(name, wanted, got)


def check(checks):
    checks.judge_each('chains', judge, items())
