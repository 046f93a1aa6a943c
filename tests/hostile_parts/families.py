"""Random worlds of deep families of processes, compared with the plain machine of tools/linux/machine.py. They have
child subreapers, process groups, sessions and stops; some have a terminal that hangs up. Then damaged traces of such
worlds, compared with plain_audit.py."""

import os
import random
import sys

from hostile_parts import plain_audit, runs

sys.path.insert(0, os.path.join(os.path.dirname(os.path.abspath(__file__)), '../../tools/linux'))
import machine                                                      # noqa: E402
import texts                                                        # noqa: E402

WORLDS = TRACES = 500
BLOCKS = 8
SIGNALS = 1, 9, 9, 9, 15, 17, 18, 18, 19, 19, 20, 0
HANDLED = 1, 17, 17, 17, 18


class Maker:
    """Makes a world. Process 1 has some children, and waits for them. A child begins at a later block than the parent
    that forks it."""

    def __init__(self, seed):
        self.random = random.Random(seed)
        self.pidmax = self.random.choice((8, 12, 16, 24))

    def one(self, *values):
        return self.random.choice(values)

    def process(self):
        return self.random.randint(1, min(self.pidmax, 14))

    def call(self, name, *values):
        return [f'set r{register}, {value}' for register, value in enumerate(values, 1)] + [f'sys {name}']

    def fork(self, block):
        return ['sys fork', f'jz r0, b{min(block + self.one(1, 1, 2), BLOCKS)}']

    def wait(self):
        if self.random.randrange(3):
            choice = self.one(-1, -1, -1, -1, 0, self.process(), -self.process())
            return self.call('waitpid', choice, self.one(0, 0, 1, 2, 11))
        options = self.one(4, 5, 7, 14, 2**24 + 5, 2**24 + 14)
        return self.call('waitid', self.one(0, 0, 0, 1, 2), self.process(), options)

    def kill(self):
        target = self.one(self.process(), self.process(), self.process(), -self.process(), 0)
        return self.call('kill', target, self.one(*SIGNALS))

    def action(self):
        flags = self.one(0, 0, 1, 2, 4, 4 + 2**28)
        return self.call('sigaction', self.one(*HANDLED), self.one(0, 1, '@h', '@h'), 0, flags)

    def group(self):
        return self.call('setpgid', self.one(0, 0, self.process()), self.one(0, 0, self.process()))

    def rare(self):
        return self.one(self.call('sigprocmask', self.one(0, 1, 2), self.one(0, 1 << 16, 1 << 17, 1 << 19)),
                        self.call('setctty', 1), self.call('tcsetpgrp', self.process()), self.call('read', 0, 4),
                        self.call('alarm', 2), self.call('exec', self.one('$init', '$other'), 1, 2), ['sys setsid'],
                        ['sys setsid'])

    def leave(self):
        return self.one(*[self.call('exit', self.random.randrange(9))] * 9, ['sys pause'], self.call('sigsuspend', 0))

    def lines_of(self, block):
        """Returns the lines of one step of a block."""
        kind = self.random.randrange(30)
        if kind < 6:
            return self.fork(block)
        if kind < 8:
            return self.call('subreaper', self.one(1, 1, 1, 0))
        if kind < 10:
            return self.kill()
        return self.one(*[['sys sched_yield']] * 7, ['sys getppid'], self.wait(), self.action(), self.group(),
                        self.group(), self.rare(), self.leave(), self.leave())

    def program(self, name, first):
        lines = [f'program {name}', *first]
        for block in range(BLOCKS + 1):
            lines += [f'b{block}:', *self.one([], [], self.call('subreaper', 1)), *self.one([], self.fork(block))]
            for _ in range(self.random.randint(3, 8)):
                lines += self.lines_of(block)
        return [*lines, *self.leave(), 'jmp b3', 'h:', 'note r1', 'note r3', 'sys sigreturn', 'end']

    def world(self):
        first = self.one([], self.call('subreaper', 1), self.action())
        first = [*first, *self.fork(-1), *self.one([], self.fork(-1)), 'w:', *self.wait(),
                 *self.one([], ['sys sched_yield'], self.kill()), 'jlt r0, more', 'jmp w',
                 'more:', *self.fork(-1), *self.fork(-1), 'jmp w']
        lines = [f'pidmax {self.pidmax}', 'consoles 1', *self.program('init', first), *self.program('other', [])]
        return '\n'.join([*lines, ''])

    def events(self):
        lines = []
        for _ in range(self.random.randint(30, 80)):
            lines.append(self.one(f'step {self.random.randint(1, 40)}', 'tick 1') if self.random.randrange(5) else
                         self.one('step 50', 'step 90', 'key 1 03', 'key 1 1A', 'key 1 61 0A'))
        return '\n'.join([*lines, ''])


class Jobs(Maker):
    """Makes a world with more groups, stops and reads, and with hangups."""

    def lines_of(self, block):
        return self.one(super().lines_of(block), super().lines_of(block), self.call('read', 0, self.one(4, 4, 0)),
                        self.group(), self.call('setpgid', 0, self.one(1, self.process())),
                        self.call('tcsetpgrp', self.process()), self.call('kill', self.process(), self.one(18, 19)),
                        ['sys sched_yield'], ['sys setsid', *self.call('setctty', 1)],
                        self.one(self.call('write', 0, self.one(2, 0)), self.call('settostop', self.one(1, 1, 0))),
                        self.call('waitpid', self.one(-1, 0, -self.process(), self.process()), self.one(8, 10)))

    def world(self):
        first = 'program init\n'
        return super().world().replace(first, first + self.one('', 'set r1, 1\nsys setctty\n'))

    def events(self):
        more = [''] * 6 + ['\nkey 1 61 0A'] * 2 + ['\nhangup 1']
        return ''.join(line + self.one(*more) + '\n' for line in super().events().splitlines())


def trace(world, events):
    """Returns the trace of the plain machine."""
    plain, lines = machine.Machine(texts.World(world)), []
    for event in texts.read_events(events):
        lines += plain.event(event)
    return '\n'.join([*lines, '']) if lines else ''


def judge_run(item):
    what, kind, seed = item
    maker = kind(seed)
    world, events = maker.world(), maker.events()
    wanted = runs.Answer(0, trace(world, events).encode(), b'')
    return runs.difference(f'{what} {seed}', wanted, runs.answer('run', world.encode(), events.encode()))


def damaged(seed):
    """Returns the trace of a world with up to three changes: another process makes a report, a mark is flipped or
    inserted, or a mark or an end moves. The event numbers stay in their places."""
    maker = Maker(seed)
    lines = [line.split(' ', 1) for line in trace(maker.world(), maker.events()).splitlines()] or [['1', 'halt']]
    chance = random.Random(-seed)

    def some(form):
        places = [place for place, (_, line) in enumerate(lines) if form in line]
        return chance.choice(places) if places else chance.randrange(len(lines))

    def who(place):
        """Returns the process of this line or of one of the 20 lines before it."""
        words = [line.split() for _, line in lines[max(0, place - 20):place + 1]]
        return chance.choice([word[1] for word in words if len(word) > 1] or ['1'])

    for _ in range(chance.randint(1, 3)):
        damage = chance.choice(('reporter', 'reporter', 'flip', 'insert', 'move', 'move'))
        form = {'reporter': ' status ', 'flip': ' mark ', 'move': chance.choice((' mark ', 'end '))}.get(damage, '')
        place = some(form)
        event, line = lines[place]
        if damage == 'reporter':
            words = line.split()
            lines[place][1] = ' '.join([*words[:1], who(place), *words[2:]])
        elif damage == 'flip' and ' mark ' in line:
            lines[place][1] = line[:-1] + str(1 - int(line[-1]))
        elif damage == 'insert':
            lines.insert(place, [event, f'call {who(place)} subreaper = 0 mark {chance.randint(0, 1)}'])
        elif damage == 'move':
            to = max(0, min(len(lines) - 1, place + chance.randint(-12, 12)))
            told = [line for _, line in lines]
            told.insert(to, told.pop(place))
            lines = [[event, line] for (event, _), line in zip(lines, told)]
    return '\n'.join([*map(' '.join, lines), ''])


def judge_audit(seed):
    told = damaged(seed).encode()
    wanted = plain_audit.audit(told)
    answer = runs.Answer(0 if wanted == b'ok\n' else 1, wanted, b'')
    return runs.difference(f'the trace of family {seed}, damaged', answer, runs.answer('audit', told))


def check(checks):
    for what, kind in ('family', Maker), ('terminal', Jobs):
        checks.judge_each(f'random worlds of a {what}', judge_run, [(what, kind, seed) for seed in range(WORLDS)])
    checks.judge_each('damaged traces of families', judge_audit, range(WORLDS, WORLDS + TRACES))
