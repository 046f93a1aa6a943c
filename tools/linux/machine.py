#!/usr/bin/env python3
"""A plain machine: a second implementation of docs/RULES.md and docs/FORMATS.md, in Python, written for clarity, not
speed. tools/linux/replay takes from it what no trace shows: the process that acts, and the state after each event. Its
trace must be the trace of jobk.

    tools/linux/machine.py run -- WORLD EVENTS      prints its trace, so it can replace jobk

jobk must accept the world and the events. No call fails for lack of memory.
"""

import copy
import sys

import texts

HUP, INT, QUIT, FPE, KILL, SEGV, ALRM, CHLD, CONT = 1, 2, 3, 8, 9, 11, 14, 17, 18
STOP, TSTP, TTIN, TTOU = STOPS = 19, 20, 21, 22
SIGNALS = [*range(1, 32), *range(34, 65)]
IGNORED_BY_DEFAULT = (CHLD, CONT, 23, 28)
EPERM, ENOENT, ESRCH, EINTR, EIO, ECHILD, EAGAIN, EACCES, EFAULT, EINVAL, ENOTTY = 1, 2, 3, 4, 5, 10, 11, 13, 14, 22, 25
NOCLDSTOP, NOCLDWAIT, SIGINFO, RESTART, NODEFER, RESETHAND = 1, 2, 4, 1 << 28, 1 << 30, 1 << 31
FLAGS = NOCLDSTOP | NOCLDWAIT | SIGINFO | RESTART | NODEFER | RESETHAND
# Options of waitpid and waitid: STOPPED is WUNTRACED of waitpid and WSTOPPED of waitid.
NOHANG, STOPPED, EXITED, CONTINUED, NOWAIT = 1, 2, 4, 8, 1 << 24
SORTS = STOPPED | EXITED | CONTINUED
ANY_CHILD, A_CHILD, A_GROUP = 0, 1, 2                       # the kinds of waitid
DEFAULT, IGNORE = 0, 1
KEYS = {0x03: INT, 0x1c: QUIT, 0x1a: TSTP}
JUMPS = {'jz': lambda x: x == 0, 'jnz': lambda x: x != 0, 'jlt': lambda x: x < 0}
GREATEST = 2**31 - 1
CONTINUED_WORD = 65535
# The outcomes of a call without a result: it blocks; it begins again; it has already shown its lines.
BLOCK, AGAIN, SHOWN = 'block', 'again', 'shown'


def signed(number):
    return (number + 2**63) % 2**64 - 2**63


def bit(number):
    return 1 << number - 1


def maskable(mask):
    return mask % 2**64 & ~(bit(KILL) | bit(STOP) | bit(32) | bit(33))


def stopped_word(number):
    return number * 256 + 127


class Process:
    def __init__(self):
        self.number, self.parent, self.group, self.session = 1, 0, 1, 1
        self.users, self.groups = [0, 0, 0], [0, 0, 0]      # real, effective and saved
        self.life, self.word, self.news = 'running', None, None
        self.mask, self.earlier, self.frames = 0, None, []  # earlier: the mask before sigsuspend
        self.standard, self.queue = {}, []                  # (value, sender) by signal; (signal, value, sender)
        self.actions = {}                                   # (handler, mask, flags) by signal
        self.ran_exec, self.is_subreaper, self.alarm, self.call = False, False, None, None
        self.program, self.pc, self.r, self.memory = 0, 16, [0] * 8, [0] * 256

    def action(self, number):
        return self.actions.get(number, (DEFAULT, 0, 0))

    def has_handler(self, number):
        return self.action(number)[0] not in (DEFAULT, IGNORE)

    def does_nothing(self, number):
        handler = self.action(number)[0]
        return handler == IGNORE or handler == DEFAULT and number in IGNORED_BY_DEFAULT

    def gets_none(self, number):
        return self.life == 'zombie' or self.number == 1 and not self.has_handler(number)

    def keeps(self, number):
        return bool(self.mask & bit(number)) or not self.does_nothing(number)

    def blocks_or_ignores(self, number):
        return bool(self.mask & bit(number)) or self.action(number)[0] == IGNORE

    def pending(self):
        return sum(bit(number) for number in {*self.standard, *(signal[0] for signal in self.queue)})

    def discard(self, number):
        self.standard.pop(number, None)
        self.queue = [signal for signal in self.queue if signal[0] != number]

    def chosen(self):
        if KILL in self.standard:
            return KILL
        ready = self.pending() & ~self.mask
        return next((n for n in SIGNALS if ready & bit(n)), None) if self.life == 'running' else None

    def drops_children(self):
        handler, _, flags = self.action(CHLD)
        return handler == IGNORE or bool(flags & NOCLDWAIT)

    def may_signal(self, other, number):
        real, effective, _ = self.users
        return (effective == 0 or bool({real, effective} & {other.users[0], other.users[2]})
                or number == CONT and self.session == other.session)


class Console:
    def __init__(self):
        self.session, self.foreground, self.lines, self.edited, self.tostop = 0, 0, [], b'', False
        self.is_hung_up = False                             # until a session takes it as its controlling terminal
        self.has_dropped = False                            # a byte or a line did not fit

    def finish(self, line):
        if len(self.lines) < 64 and sum(map(len, self.lines)) + len(line) <= 1024:
            self.lines.append(line)
        else:
            self.has_dropped = True
        self.edited = b''

    def key(self, byte):
        if byte in KEYS:
            self.lines, self.edited = [], b''
        elif byte == 0x7f:
            self.edited = self.edited[:-1]
        elif byte == 0x15:
            self.edited = b''
        elif byte == 0x0a:
            self.finish(self.edited + b'\n')
        elif byte == 0x04:
            self.finish(self.edited)
        elif len(self.edited) < 255:
            self.edited += bytes([byte])
        else:
            self.has_dropped = True


class Machine:
    def __init__(self, world):
        self.world, self.processes = world, {1: Process()}
        self.consoles = [Console() for _ in range(world.consoles)]
        self.order, self.last, self.ticks, self.halted, self.count = [1], 1, 0, False, 0
        self.lines = []

    # ---- the processes

    def rising(self):
        return [self.processes[number] for number in sorted(self.processes)]

    def members(self, group):
        return [p for p in self.rising() if p.group == group]

    def children(self, p):
        return [q for q in self.rising() if q.parent == p.number]

    def heir(self, p):
        """Returns the new parent of p's children when p terminates: the nearest live ancestor that is a subreaper, or
        process 1."""
        forebear = self.processes.get(p.parent)
        while forebear and (forebear.life == 'zombie' or not forebear.is_subreaper):
            forebear = self.processes.get(forebear.parent)
        return forebear.number if forebear else 1

    def is_group_of(self, session, group):
        return any(p.session == session and p.group == group for p in self.processes.values())

    def console_of(self, p):
        return next((c for c in self.consoles if c.session == p.session), None)

    def is_orphaned(self, group):
        for p in self.members(group):
            parent = self.processes.get(p.parent)
            if p.life != 'zombie' and parent and parent.session == p.session and parent.group != group:
                return False
        return True

    def current(self):
        return self.processes[self.order[0]] if self.order and not self.halted else None

    # ---- an event

    def event(self, event):
        """Runs an event, and returns the lines that it shows."""
        self.count += 1
        self.lines = []
        if not self.halted:
            if event[0] == 'step' and self.order:
                self.step(self.current())
            elif event[0] == 'tick':
                self.tick()
            elif event[0] == 'key':
                self.key(*event[1:])
            elif event[0] == 'hangup':
                self.hangup(*event[1:])
            if not self.halted:
                self.settle()
        return self.lines

    def show(self, *words):
        self.lines.append(' '.join(map(str, (self.count, *words))))

    def settle(self):
        for console in self.consoles:
            if not self.is_group_of(console.session, console.foreground):
                console.foreground = 0
        self.order += [p.number for p in self.rising() if p.number not in self.order and self.can_act(p)]

    def can_act(self, p):
        if p.life == 'zombie':
            return False
        if KILL in p.standard:
            return True
        return p.life == 'running' and (p.call is None or p.chosen() is not None or self.outcome(p)[0] != BLOCK)

    def outcome(self, p):
        """Returns the present outcome of the call in which p is blocked."""
        return {'waitpid': self.waitpid_outcome, 'waitid': self.waitid_outcome,
                'read': self.read_outcome}.get(p.call, lambda _: (BLOCK,))(p)

    def lose_place(self, p):
        if p.number in self.order:
            self.order.remove(p.number)

    def tick(self):
        self.ticks += 1
        for p in self.rising():
            if p.alarm == self.ticks:
                p.alarm = None
                self.generate(p, ALRM, 0, 0)
        self.order = self.order[1:] + self.order[:1]

    def key(self, number, byte):
        console = self.consoles[number - 1]
        if console.is_hung_up:
            return
        console.key(byte)
        if byte in KEYS and console.foreground:
            self.generate_all(self.members(console.foreground), KEYS[byte])

    def hangup(self, number):
        console = self.consoles[number - 1]
        if console.is_hung_up:
            return
        console.lines, console.edited = [], b''
        if console.session:
            console.is_hung_up = True
            self.generate(self.processes[console.session], HUP, 0, 0)

    # ---- a step

    def plan(self, p):
        """Returns the kind of p's next step: 'kill' (SIGKILL terminates it); a 'call', or 'again' if it was blocked in
        the call; a 'signal' that is delivered; 'idle' (it remains blocked); a 'fault'; or another instruction,
        'plain'."""
        if KILL in p.standard:
            return 'kill', KILL
        if p.call:
            if self.outcome(p)[0] != BLOCK:
                return 'again', p.call
            return ('signal', p.chosen()) if p.chosen() else ('idle', p.call)
        if p.chosen():
            return 'signal', p.chosen()
        words = self.instruction(p)
        if words and words[0] == 'sys':
            return ('fault', SEGV) if words[1] == 'sigreturn' and not p.frames else ('call', words[1])
        return ('fault', self.fault_of(p, words)) if self.fault_of(p, words) else ('plain', None)

    def step(self, p):
        kind, what = self.plan(p)
        if kind == 'kill':
            self.end(p, KILL)
        elif kind == 'signal':
            self.deliver(p, what)
        elif kind == 'idle':
            self.lose_place(p)
        elif kind == 'fault':
            self.fault(p, what)
        elif kind == 'plain':
            self.run_plain(p, self.instruction(p))
        else:
            self.finish(p, what, getattr(self, what)(p))

    def finish(self, p, name, result):
        """Completes a call, or blocks p in it."""
        if result == BLOCK:
            if p.call is None and name == 'sigsuspend':
                p.earlier, p.mask = p.mask, maskable(p.r[1])
            p.call = name
            self.lose_place(p)
            return
        p.call = None
        if result in (AGAIN, SHOWN):
            return
        if isinstance(result, tuple):
            registers, words = result
            p.r[:len(registers)] = registers
            self.show('call', p.number, name, '=', *words)
        elif isinstance(result, bytes) and result:
            p.r[0] = len(result)
            self.show('call', p.number, name, '=', len(result), 'bytes', result.hex())
        else:
            p.r[0] = result or 0
            self.show('call', p.number, name, '=', p.r[0])
        p.pc = signed(p.pc + 1)

    def instruction(self, p):
        code = self.world.programs[p.program].code
        return code[p.pc - 16] if 0 <= p.pc - 16 < len(code) else None

    def fault_of(self, p, words):
        if not words:
            return SEGV
        if words[0] in ('div', 'rem') and p.r[int(words[2][1])] == 0:
            return FPE
        return SEGV if words[0] in ('ld', 'st') and not 0 <= p.r[int(words[2][1])] < 256 else None

    def run_plain(self, p, words):
        """Runs an instruction that is not a call and has no fault."""
        word, *operands = words
        program = self.world.programs[p.program]
        a = int(operands[0][1]) if word != 'jmp' else None
        if word == 'jmp' or word in JUMPS and JUMPS[word](p.r[a]):
            p.pc = program.labels[operands[-1]]
            return
        p.pc = signed(p.pc + 1)
        if word == 'note':
            self.show('note', p.number, p.r[a])
        elif word == 'set':
            p.r[a] = self.world.value(program, operands[1])
        elif word not in JUMPS:
            b = int(operands[1][1])
            if word == 'st':
                p.memory[p.r[b]] = p.r[a]
            else:
                p.r[a] = p.memory[p.r[b]] if word == 'ld' else signed(computed(word, p.r[a], p.r[b]))

    # ---- signals

    def generate(self, p, number, value, sender):
        if p.gets_none(number):
            return
        for other in STOPS if number == CONT else (CONT,) if number in STOPS else ():
            p.discard(other)
        if p.keeps(number):
            if number > 33:
                p.queue.append((number, value, sender))
            else:
                p.standard.setdefault(number, (value, sender))
        if number == CONT and p.life == 'stopped':
            p.life, p.news = 'running', CONTINUED_WORD
            self.tell_of_change(p, CONTINUED_WORD)

    def generate_all(self, processes, number, value=0, sender=0):
        for p in processes:
            self.generate(p, number, value, sender)

    def tell_of_change(self, p, word):
        parent = self.processes.get(p.parent)
        if parent and parent.action(CHLD)[0] != IGNORE and not parent.action(CHLD)[2] & NOCLDSTOP:
            self.generate(parent, CHLD, word, p.number)

    def deliver(self, p, number):
        if number > 33:
            place = [signal[0] for signal in p.queue].index(number)
            _, value, sender = p.queue.pop(place)
        else:
            value, sender = p.standard.pop(number)
        if p.has_handler(number):
            self.enter(p, number, value, sender)
        elif p.number == 1 or p.does_nothing(number) or number in STOPS[1:] and self.is_orphaned(p.group):
            self.show('discard', p.number, number)
        elif number in STOPS:
            self.show('stop', p.number, number)
            p.life, p.news = 'stopped', stopped_word(number)
            self.lose_place(p)
            self.tell_of_change(p, p.news)
        else:
            self.end(p, number)

    def enter(self, p, number, value, sender):
        handler, mask, flags = p.action(number)
        saved = p.mask
        if p.call:
            if p.call not in ('waitpid', 'waitid', 'read') or not flags & RESTART:
                self.show('call', p.number, p.call, '=', -EINTR)
                p.r[0] = -EINTR
                p.pc = signed(p.pc + 1)
            if p.call == 'sigsuspend':
                saved = p.earlier
            p.call = None
        if len(p.frames) == 16:
            self.end(p, SEGV)
            return
        self.show('handle', p.number, number, value, sender)
        p.frames.append((p.pc, list(p.r), saved))
        p.mask = maskable(p.mask | mask | (0 if flags & NODEFER else bit(number)))
        if flags & RESETHAND:
            p.actions[number] = (DEFAULT, mask, flags)
        p.r[1] = number
        if flags & SIGINFO:
            p.r[2], p.r[3] = value, sender
        p.pc = handler

    def fault(self, p, number):
        if p.has_handler(number) and not p.mask & bit(number):
            self.enter(p, number, 0, 0)
        else:
            self.end(p, number)

    # ---- terminations

    def end(self, p, word):
        self.show('end', p.number, word)
        self.lose_place(p)
        if p.number == 1:
            self.show('halt')
            p.life, p.word, self.halted = 'zombie', word, True
            return
        console = self.console_of(p)
        if console and p.session == p.number:
            if console.foreground:
                self.generate_all(self.members(console.foreground), HUP)
            console.session = console.foreground = 0
        were_orphaned = {group: self.is_orphaned(group) for group in {q.group for q in self.processes.values()}}
        p.life, p.word, p.news, p.alarm, p.call = 'zombie', word, None, None, None
        p.standard, p.queue, p.frames = {}, [], []
        orphans, heir = self.children(p), self.heir(p)
        for child in orphans:
            child.parent = heir
        for child in orphans:
            if child.life == 'zombie':
                self.tell_of_end(child)
        groups = [g for g in sorted({q.group for q in self.processes.values()}) if not were_orphaned[g]
                  and self.is_orphaned(g) and any(q.life == 'stopped' for q in self.members(g))]
        for group in groups:
            self.generate_all(self.members(group), HUP)
            self.generate_all(self.members(group), CONT)
        self.tell_of_end(p)

    def tell_of_end(self, p):
        parent = self.processes[p.parent]
        if parent.action(CHLD)[0] != IGNORE:
            self.generate(parent, CHLD, p.word, p.number)
        if parent.drops_children():
            del self.processes[p.number]

    # ---- calls on processes

    def getpid(self, p):
        return p.number

    def getppid(self, p):
        return p.parent

    def sched_yield(self, p):
        self.order = self.order[1:] + self.order[:1]
        return 0

    def next_number(self):
        borne = {number for q in self.processes.values() for number in (q.number, q.group, q.session)}
        numbers = [*range(self.last + 1, self.world.pidmax + 1), *range(2, self.world.pidmax + 1)]
        return next((n for n in numbers if n not in borne), None)

    def fork(self, p):
        number = self.next_number()
        if number is None:
            return -EAGAIN
        child = copy.deepcopy(p)
        child.number, child.parent = number, p.number
        child.standard, child.queue, child.news, child.alarm = {}, [], None, None
        child.ran_exec = child.is_subreaper = False
        child.r[0] = 0
        child.pc = signed(child.pc + 1)
        self.processes[number] = child
        self.last = number
        return number

    def subreaper(self, p):
        p.is_subreaper = p.r[1] != 0
        return (0,), (0, 'mark', int(p.is_subreaper))

    def exit(self, p):
        self.end(p, p.r[1] % 256 * 256)
        return SHOWN

    def is_named(self, p, choice, child):
        if choice > 0:
            return child.number == choice
        return choice == -1 or child.group == (-choice if choice else p.group) and choice >= -GREATEST

    def is_of_kind(self, p, kind, number, child):
        if kind == A_CHILD:
            return child.number == number
        return kind == ANY_CHILD or child.group == (number or p.group)

    def waitpid_outcome(self, p):
        choice, options = p.r[1:3]
        if options & ~(NOHANG | STOPPED | CONTINUED):
            return 'refused', -EINVAL
        named = [child for child in self.children(p) if self.is_named(p, choice, child)]
        return self.wait_outcome(named, options | EXITED, 0)

    def waitid_outcome(self, p):
        kind, number, options = p.r[1:4]
        if kind not in (ANY_CHILD, A_CHILD, A_GROUP) or options & ~(NOHANG | SORTS | NOWAIT):
            return 'refused', -EINVAL
        if not options & SORTS or kind == A_CHILD and number < 1 or kind == A_GROUP and number < 0:
            return 'refused', -EINVAL
        named = [child for child in self.children(p) if self.is_of_kind(p, kind, number, child)]
        return self.wait_outcome(named, options, ((0, 0, 0), (0,)))

    def wait_outcome(self, named, options, nothing):
        """Returns the outcome of a wait; `nothing` is its result with WNOHANG if there is nothing to report."""
        if not named:
            return 'refused', -ECHILD
        for child in named:
            has, word = self.report(child)
            if options & has:
                return 'report', child, word
        return ('refused', nothing) if options & NOHANG else (BLOCK,)

    def report(self, child):
        """Returns the unreported status change of a child, as the option that selects it, or 0; and the wait status."""
        if child.life == 'zombie':
            return EXITED, child.word
        return (CONTINUED if child.news == CONTINUED_WORD else STOPPED if child.news else 0), child.news

    def collect(self, child):
        child.news = None
        if child.life == 'zombie':
            del self.processes[child.number]

    def waitpid(self, p):
        kind, *what = self.waitpid_outcome(p)
        if kind != 'report':
            return what[0] if what else BLOCK
        child, word = what
        self.collect(child)
        return (child.number, word), (child.number, 'status', word)

    def waitid(self, p):
        kind, *what = self.waitid_outcome(p)
        if kind != 'report':
            return what[0] if what else BLOCK
        child, word = what
        if not p.r[3] & NOWAIT:
            self.collect(child)
        return (0, child.number, word), (0, 'look' if p.r[3] & NOWAIT else 'take', child.number, 'status', word)

    def exec(self, p):
        if not 0 <= p.r[1] < len(self.world.programs):
            return -ENOENT
        program = self.world.programs[p.r[1]]
        for ids, own in (p.users, program.setuid), (p.groups, program.setgid):
            ids[1] = ids[2] = ids[1] if own is None else own
        p.actions = {number: (IGNORE, 0, 0) for number, action in p.actions.items() if action[0] == IGNORE}
        p.frames, p.ran_exec, p.program, p.pc = [], True, p.r[1], 16
        p.r, p.memory = [0, p.r[2], p.r[3], 0, 0, 0, 0, 0], [0] * 256
        self.show('call', p.number, 'exec', '=', 0)
        return SHOWN

    # ---- calls on ids

    def set_ids(self, p, ids, all_of_them):
        number = p.r[1]
        if not 0 <= number <= GREATEST:
            return -EINVAL
        if p.users[1] != 0 and number not in (ids[0], ids[2]):
            return -EPERM
        ids[:] = [number] * 3 if all_of_them and p.users[1] == 0 else [ids[0], number, ids[2]]
        return 0

    def setuid(self, p):
        return self.set_ids(p, p.users, True)

    def setgid(self, p):
        return self.set_ids(p, p.groups, True)

    def seteuid(self, p):
        return self.set_ids(p, p.users, False)

    def setegid(self, p):
        return self.set_ids(p, p.groups, False)

    def getuid(self, p):
        return p.users[0]

    def geteuid(self, p):
        return p.users[1]

    def getgid(self, p):
        return p.groups[0]

    def getegid(self, p):
        return p.groups[1]

    # ---- calls on groups and sessions

    def named(self, p):
        return p if p.r[1] == 0 else self.processes.get(p.r[1])

    def getpgid(self, p):
        return self.named(p).group if self.named(p) else -ESRCH

    def getsid(self, p):
        return self.named(p).session if self.named(p) else -ESRCH

    def setpgid(self, p):
        target, group = self.named(p), p.r[2]
        if group < 0:
            return -EINVAL
        if target is None or target is not p and target.parent != p.number:
            return -ESRCH
        group = group or target.number
        if target.session != p.session:
            return -EPERM
        if target is not p and target.ran_exec:
            return -EACCES
        if target.session == target.number or group != target.number and not self.is_group_of(p.session, group):
            return -EPERM
        target.group = group
        return 0

    def setsid(self, p):
        if self.members(p.number):
            return -EPERM
        p.session = p.group = p.number
        return p.number

    # ---- calls on signals

    def kill(self, p):
        target = p.r[1]
        if target > 0:
            return self.send(p, [q for q in self.rising() if q.number == target], 0)
        if target == -1:
            return self.send(p, [q for q in self.rising() if q is not p and q.number != 1], 0)
        return self.send(p, self.members(-target if target else p.group) if target >= -GREATEST else [], 0)

    def sigqueue(self, p):
        return self.send(p, [q for q in self.rising() if q.number == p.r[1]], p.r[3])

    def send(self, p, found, value):
        number = p.r[2]
        if number != 0 and number not in SIGNALS:
            return -EINVAL
        permitted = [q for q in found if p.may_signal(q, number)]
        if not permitted:
            return -EPERM if found else -ESRCH
        if number > 33 and any(len(q.queue) >= 32 for q in permitted if not q.gets_none(number) and q.keeps(number)):
            return -EAGAIN
        if number:
            self.generate_all(permitted, number, value, p.number)
        return 0

    def sigaction(self, p):
        number, handler, mask, flags = p.r[1:5]
        if number not in SIGNALS:
            return -EINVAL
        old = p.action(number)
        if handler != -1:
            if flags & ~FLAGS or number in (KILL, STOP):
                return -EINVAL
            p.actions[number] = (handler, maskable(mask), flags)
            if p.does_nothing(number):
                p.discard(number)
        p.r[2:5] = old[0], signed(old[1]), old[2]
        return 0

    def sigprocmask(self, p):
        how, old = p.r[1], p.mask
        if how not in (0, 1, 2):
            return -EINVAL
        mask = p.r[2] % 2**64
        p.mask = maskable((p.mask | mask, p.mask & ~mask, mask)[how])
        p.r[2] = signed(old)
        return 0

    def sigpending(self, p):
        p.r[1] = signed(p.pending())
        return 0

    def pause(self, p):
        return BLOCK

    def sigsuspend(self, p):
        return BLOCK

    def sigreturn(self, p):
        p.pc, p.r, p.mask = p.frames.pop()
        self.show('return', p.number)
        return SHOWN

    def alarm(self, p):
        if not 0 <= p.r[1] <= 10**9:
            return -EINVAL
        left = p.alarm - self.ticks if p.alarm else 0
        p.alarm = self.ticks + p.r[1] if p.r[1] else None
        return left

    # ---- calls on the terminal

    def setctty(self, p):
        if not 1 <= p.r[1] <= len(self.consoles):
            return -ENOENT
        console = self.consoles[p.r[1] - 1]
        if p.session != p.number or self.console_of(p) or console.session:
            return -EPERM
        console.session, console.foreground = p.session, p.group
        console.is_hung_up = False
        return 0

    def tcgetpgrp(self, p):
        console = self.console_of(p)
        return (console.foreground or self.world.pidmax + 1) if console else -ENOTTY

    def refusal(self, p, console):
        """Returns the effect of SIGTTOU on a call: AGAIN or an error, or None if the call may proceed."""
        if p.group == console.foreground or p.blocks_or_ignores(TTOU):
            return None
        if self.is_orphaned(p.group):
            return -EIO
        self.generate_all(self.members(p.group), TTOU)
        return AGAIN

    def tcsetpgrp(self, p):
        console = self.console_of(p)
        if not console:
            return -ENOTTY
        refusal = self.refusal(p, console)
        if refusal:
            return refusal
        if p.r[1] < 0:
            return -EINVAL
        if not self.is_group_of(p.session, p.r[1]):
            return -EPERM
        console.foreground = p.r[1]
        return 0

    def settostop(self, p):
        console = self.console_of(p)
        if not console:
            return -ENOTTY
        refusal = self.refusal(p, console)
        if refusal is None:
            console.tostop = p.r[1] != 0
        return refusal or 0

    def span_fault(self, p):
        if not 0 <= p.r[2] <= 16:
            return -EINVAL
        return 0 if p.r[1] >= 0 and p.r[1] + p.r[2] <= 256 else -EFAULT

    def read_outcome(self, p):
        console = self.console_of(p)
        if not console:
            return 'refused', -ENOTTY
        if self.span_fault(p):
            return 'refused', self.span_fault(p)
        if console.is_hung_up:
            return 'refused', 0
        if p.group != console.foreground:
            return ('refused', -EIO) if p.blocks_or_ignores(TTIN) or self.is_orphaned(p.group) else (AGAIN,)
        if p.r[2] == 0:
            return 'refused', 0
        return ('bytes', console.lines[0][:p.r[2]]) if console.lines else (BLOCK,)

    def read(self, p):
        kind, *what = self.read_outcome(p)
        if kind == AGAIN:
            self.generate_all(self.members(p.group), TTIN)
        if kind != 'bytes':
            return what[0] if what else kind
        console = self.console_of(p)
        line = console.lines.pop(0)
        if len(line) > p.r[2]:
            console.lines.insert(0, line[p.r[2]:])
        p.memory[p.r[1]:p.r[1] + len(what[0])] = what[0]
        return what[0]

    def write(self, p):
        console = self.console_of(p)
        if not console:
            return -ENOTTY
        refusal = self.span_fault(p) or -EIO * console.is_hung_up or console.tostop and self.refusal(p, console)
        return refusal or bytes(word % 256 for word in p.memory[p.r[1]:p.r[1] + p.r[2]])


def computed(word, x, y):
    if word in ('div', 'rem'):
        quotient = abs(x) // abs(y) * (1 if (x < 0) == (y < 0) else -1)
        return quotient if word == 'div' else x - y * quotient
    return {'mov': y, 'add': x + y, 'sub': x - y, 'mul': x * y, 'and': x & y, 'or': x | y, 'xor': x ^ y}[word]


def main(words):
    world, events = (open(path, encoding='utf-8', errors='replace').read() for path in words[-2:])
    machine = Machine(texts.World(world))
    for event in texts.read_events(events):
        print(*machine.event(event), sep='\n', end='\n' * bool(machine.lines))


if __name__ == '__main__':
    main(sys.argv[1:])
