"""Fork bombs: a small one; a large one in which all processes fork in turn; and a large one in which only process 1
forks. Both large ones fork until every process ID is in use."""

import collections

from hostile_parts import runs

BOMB = b'pidmax %d\nconsoles 1\nprogram init\nagain:\nsys fork\njmp again\nend\n'
GREATEST = 32768
SECONDS = 10            # of processor time, for each bomb


def small():
    events = b'step 15\ntick 1\nstep 2\n'
    shown = b''.join(b'%d call 1 fork = %d\n' % (2 * child - 3, child) for child in range(2, 9))
    shown += b'15 call 1 fork = -11\n18 call 2 fork = -11\n'
    yield 'a fork bomb of 8 processes', BOMB % 8, events, runs.Answer(0, shown, b'')


def in_turn(pidmax, rounds):
    """Returns the trace of a fork bomb with a tick after every two steps, and the number of processes. A child begins
    after the call, at the end of the run queue. No process exits, so process IDs increase one by one."""
    shown, order, event, births = [], collections.deque([(1, True)]), 0, 1
    for _ in range(rounds):
        process, at_call = order.popleft()
        for event in (event + 1, event + 2):
            if at_call and births < pidmax:
                births += 1
                shown.append(b'%d call %d fork = %d\n' % (event, process, births))
                order.append((births, False))
            elif at_call:
                shown.append(b'%d call %d fork = -11\n' % (event, process))
            at_call = not at_call
        event += 1
        order.append((process, at_call))
    return b''.join(shown), births


def large():
    """Yields two bombs of about 100,000 events, in which as many processes are forked as possible. In the second, only
    process 1 forks."""
    rounds = GREATEST + 1000
    shown, births = in_turn(GREATEST, rounds)
    assert births == GREATEST
    yield 'a fork bomb in turn', BOMB % GREATEST, b'step 2\ntick 1\n' * rounds, runs.Answer(0, shown, b'')
    steps = 100000
    shown = b''.join(b'%d call 1 fork = %d\n' % (event, event // 2 + 2 if event // 2 + 2 <= GREATEST else -11)
                     for event in range(1, steps + 1, 2))
    yield 'a fork bomb of process 1', BOMB % GREATEST, b'step %d\n' % steps, runs.Answer(0, shown, b'')


def judge(item):
    name, world, events, wanted = item
    got, seconds, _ = runs.finish(runs.start('run', world, events))
    if wanted == got and seconds > SECONDS:
        return f'{name}: {seconds:.1f} seconds of a processor, above {SECONDS}'
    return runs.difference(name, wanted, got)


def check(checks):
    checks.judge_each('fork bombs', judge, [*small(), *large()])
