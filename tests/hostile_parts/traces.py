"""Audits each trace of the cases and the examples with one line removed, doubled or exchanged with its neighbour, and
random traces, which break no law before their last lines. The plain check itself is tested with the cases, and with the
traces of tests/mistakes, each of which must break its law."""

import glob
import os
import random
import re

from hostile_parts import plain_audit, runs


RANDOM = 1000
WORDS = 0, 256, 9, 4991, 5247, 65535, 139
ONE_IN = {plain_audit.TWICE: 1, plain_audit.OTHER: 10, plain_audit.NOT_YET: 15, plain_audit.NOT_PARENT: 60}
# Traces that no case can show, because the cases never run out of memory.
REFUSED_FORK = b'1 call 1 fork = -11 memory\n2 call 1 fork = 2\n'
REFUSED_SEND = (b'3 call 1 sigaction = 0\n6 call 1 sigprocmask = 0\n10 call 1 sigqueue = -11 memory\n'
                b'11 call 1 sigpending = 0\n12 note 1 0\n14 call 1 sigqueue = 0\n15 call 1 sigpending = 0\n'
                b'16 note 1 17179869184\n')


def traces():
    """Returns the traces of runs with status 0, and those that the cases audit, each once and with a name."""
    found = {REFUSED_FORK: 'a fork without memory', REFUSED_SEND: 'a send without memory'}
    for folder in sorted(glob.glob('tests/cases/*/') + glob.glob('examples/*/')):
        audited = first_word(folder) == b'audit'
        if first_word(folder) not in (b'run', b'audit') or not audited and os.path.exists(folder + 'status'):
            continue
        for name in ('trace', 'stdout'):
            if os.path.exists(folder + name):
                found.setdefault(runs.read_file(folder + name), os.path.basename(folder[:-1]))
                break
    return found


def first_word(folder):
    """Returns the first argument of the program in a case."""
    words = folder + 'words'
    return runs.read_file(words).split(b'\n')[0] if os.path.exists(words) else b'run'


def plain_check_fails(folder):
    """Returns a message if the plain check and the expected output of a case differ, or None."""
    wanted = runs.read_file(folder + 'stdout')
    got = plain_audit.audit(runs.read_file(folder + 'trace'))
    return None if got == wanted else f'{folder}: {got}, wanted {wanted}'


def broken_laws():
    """Yields the rows of "Broken laws" in tests/mistakes: the clause that the last line of a trace breaks, and the
    lines of the trace."""
    text = runs.read_file('tests/mistakes').decode().partition('## Broken laws')[2]
    for lines, clause in re.findall(r'^\| `([^`]+)` \| .* \| broken_\w+ \| (\w+) \|$', text, flags=re.M):
        yield clause, lines.split('; ')


def plain_law_fails(row):
    """Returns None if the last line of a row is the first that breaks a law, and breaks the law of the row; otherwise a
    message."""
    clause, lines = row
    number, broken = plain_audit.first_break(lines) or (0, {})
    if number == len(lines) and plain_audit.SAME_LAW.get(clause, clause) in broken:
        return None
    return f'{clause}: line {number} breaks {sorted(broken)}'


def damaged(lines):
    """Yields each damage of a trace: what it is, the number of the line, and the damaged lines. A damage always changes
    the trace."""
    for place in range(len(lines)):
        yield 'without', place, lines[:place] + lines[place + 1:]
        yield 'with twice', place, lines[:place + 1] + lines[place:]
        if place + 1 < len(lines) and lines[place] != lines[place + 1]:
            yield 'with the next before', place, (lines[:place] + [lines[place + 1], lines[place]] + lines[place + 2:])


def judge(item):
    """Audits a trace. The status must be 0 for `ok`, and 1 otherwise."""
    name, trace = item
    wanted = plain_audit.audit(trace)
    got = runs.answer('audit', trace)
    return runs.difference(name, runs.Answer(0 if wanted == b'ok\n' else 1, wanted, b''), got)


def items():
    for trace, name in traces().items():
        lines = trace.splitlines(keepends=True)
        yield f'{name} as it is', trace
        for what, place, changed in damaged(lines):
            yield f'{name} {what} line {place + 1}', b''.join(changed)


def random_line(chance, event):
    """Returns a line of one of four processes. The laws say something about most of these lines."""
    def who():
        return chance.choice((1, 1, 2, 2, 3, 3, 4))
    forms = (f'call {who()} fork = {who()}', f'call {who()} fork = {who()}',
             f'end {who()} {chance.choice((0, 256, 9))}',
             f'stop {who()} {chance.choice((19, 20))}', f'call {who()} subreaper = 0 mark {chance.choice((1, 1, 0))}',
             f'call {who()} waitpid = {who()} status {chance.choice(WORDS)}',
             f'call {who()} waitid = 0 {chance.choice(("take", "look"))} {who()} status {chance.choice(WORDS)}',
             f'call {who()} waitid = 0 {chance.choice(("take", "look"))} {who()} status {chance.choice(WORDS)}')
    return f'{event} {chance.choice(forms if chance.randrange(60) else ("halt", f"note {who()} 7", "note 1 07"))}'


def random_trace(seed):
    """Returns a trace. Most lines that break a law are left out, but fewer of those that break it in a rare way.
    Process 1 seldom exits. Three lines follow the first that breaks a law."""
    chance = random.Random(seed)
    kept, lines, left = plain_audit.Trace(), [], None
    while left != 0 and len(lines) < 80:
        text = random_line(chance, len(lines) + 1 - (chance.randrange(200) == 0))
        line = plain_audit.read_line(text)
        ways = {way for law in plain_audit.LAWS for way in law(kept, line)} if line else {None}
        one_in = max([ONE_IN.get(way, 300) for way in ways] + [300 * line.ends_first if line else 1, 1])
        if left is None and chance.randrange(one_in):
            continue
        lines.append(text)
        if left is None and not ways:
            kept.add(line)
        else:
            left = 3 if left is None else left - 1
    return '\n'.join([*lines, '']).encode()


def judge_random(seed):
    return judge((f'random trace {seed}', random_trace(seed)))


def check(checks):
    audits = [folder for folder in sorted(glob.glob('tests/cases/audit_*/'))
              if os.path.exists(folder + 'trace') and os.path.exists(folder + 'stdout')]
    checks.count('the plain check of traces by the cases', map(plain_check_fails, audits))
    checks.count('the plain check by traces that break a law', map(plain_law_fails, broken_laws()))
    checks.judge_each('audits of damaged traces', judge, items())
    checks.judge_each('audits of random traces', judge_random, range(RANDOM))
