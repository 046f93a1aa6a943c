"""The results of calls by plain rules from docs/FORMATS.md, independent of tools/linux/machine.py. One process makes
calls while the others do nothing.

A rule takes the process and its registers r1 to r4, and changes the process as the call does. It returns r0; or the
bytes that were moved; or, if r0 is 0, what the trace shows after the 0; or ENDS or BLOCKS if the call does not return.
The only arguments are -2**63, -1, 0, 1 and 2**63 - 1, and a few more for waitid. So the only signal is 1, and only
process 1 has one of these process IDs.
"""

PERM, NOENT, SRCH, CHILD, FAULT, INVAL, NOTTY = -1, -2, -3, -10, -14, -22, -25
ENDS, BLOCKS = 'ends', 'blocks'
GREATEST_ID = 2**31 - 1
UNBLOCKABLE = 1 << 8 | 1 << 18 | 1 << 31 | 1 << 32      # KILL, STOP, and 32 and 33, which are no signals
FLAGS = 1 | 2 | 4 | 2**28 | 2**30 | 2**31


def signed(bits):
    """Returns a number of 64 bits as a signed number."""
    return (bits + 2**63) % 2**64 - 2**63


def set_without_unblockable(word):
    return signed(word % 2**64 & ~UNBLOCKABLE)


class Process:
    """The process that makes the calls. At first all processes are in group 1 and session 1, which process 1 leads."""

    def __init__(self, number, parent, child=0, line=b''):
        self.number, self.parent = number, parent
        self.child = child              # the process ID of its only child, or 0
        self.group = self.session = 1
        self.ids = {'user': [0, 0, 0], 'group': [0, 0, 0]}      # real, effective and saved
        self.mask = 0
        self.action = (0, 0, 0)         # of signal 1: handler, mask, flags
        self.alarm = 0
        self.has_terminal = False
        self.foreground = 0
        self.line = line                # the input that was typed and not yet read
        self.memory = [0] * 256
        self.registers = [0] * 8
        self.status = None              # its wait status, after it has terminated
        self.pending = False            # true if signal 1 is pending, which will kill it

    def groups(self):
        """Returns the process groups of its session. In session 1, process 1 stays in group 1."""
        return {self.group, 1} if self.session == 1 else {self.group}

    def generate(self, signal):
        """Sends itself a signal. No signal is generated for process 1, because it has no handler."""
        if signal and self.number != 1:
            self.pending = True


def set_ids(p, which, number, all_three):
    real, _, saved = p.ids[which]
    if not 0 <= number <= GREATEST_ID:
        return INVAL
    if p.ids['user'][1] == 0 and all_three:         # privileged: effective user ID 0, for group IDs, too
        p.ids[which] = [number] * 3
    elif p.ids['user'][1] == 0 or number in (real, saved):
        p.ids[which][1] = number
    else:
        return PERM
    return 0


def group_or_session(p, number, told):
    return told if number in (0, p.number, p.child or p.number, p.parent or p.number) else SRCH


def fork(p, *_):
    return max(p.number, p.child) + 1               # the next process ID; the child never runs


def exec_program(p, number, *_):
    if number not in (0, 1):                        # the world has two programs
        return NOENT
    p.registers = [0, p.registers[2], p.registers[3]] + [0] * 5
    p.memory = [0] * 256
    handler, _, _ = p.action
    p.action = (1 if handler == 1 else 0, 0, 0)
    for ids in p.ids.values():
        ids[2] = ids[1]
    return 0


def end(p, status):
    p.status = status
    return ENDS


def waitpid(p, choice, options, *_):
    if options % 2**64 & ~(1 | 2 | 8):
        return INVAL
    if not p.child or choice not in (p.child, -1, 0):       # the child is in the group of its parent
        return CHILD
    return 0 if options & 1 else BLOCKS             # the child has nothing to report


def waitid(p, kind, number, options, *_):
    bits = options % 2**64
    if kind not in (0, 1, 2) or bits & ~(1 | 2 | 4 | 8 | 2**24) or not bits & (2 | 4 | 8):
        return INVAL
    if kind == 1 and number < 1 or kind == 2 and number < 0:
        return INVAL
    named = kind == 0 or number == (p.child if kind == 1 else 1) or kind == 2 and number == 0
    if not p.child or not named:                    # the child is in group 1, like its parent
        return CHILD
    if not bits & 1:
        return BLOCKS                               # the child has nothing to report
    p.registers[1] = p.registers[2] = 0
    return 0


def kill(p, target, signal, *_):
    if signal not in (0, 1):                        # no other of these values is 0 or a signal
        return INVAL
    if target == 0 or target == p.number:           # its group, or itself
        p.generate(signal)
        return 0
    if target == -1:                                # all but itself and process 1
        return 0 if p.child else SRCH
    return 0 if target == p.parent else SRCH        # no other of these values names a process or a group


def sigqueue(p, target, signal, *_):
    if signal not in (0, 1):
        return INVAL
    return kill(p, target, signal) if target > 0 else SRCH


def sigaction(p, signal, handler, mask, flags):
    if signal != 1:                                 # no other of these values is a signal
        return INVAL
    if handler != -1 and flags % 2**64 & ~FLAGS:
        return INVAL
    p.registers[2:5] = p.action
    if handler != -1:
        p.action = (handler, set_without_unblockable(mask), flags)
    return 0


def sigprocmask(p, how, bits, *_):
    if how not in (0, 1, 2):
        return INVAL
    p.registers[2] = p.mask
    p.mask = set_without_unblockable([p.mask | bits, p.mask & ~bits, bits][how])
    return 0


def sigpending(p, *_):
    p.registers[1] = 0
    return 0


def alarm(p, ticks, *_):
    if not 0 <= ticks <= 10**9:
        return INVAL
    left, p.alarm = p.alarm, ticks                  # no tick occurs
    return left


def setpgid(p, number, group, *_):
    if group < 0:
        return INVAL
    if number not in (0, p.number):                 # none of these values names a child
        return SRCH
    if p.number == p.session:
        return PERM
    if group not in {0, p.number} | p.groups():
        return PERM
    p.group = group or p.number
    return 0


def setsid(p, *_):
    if p.group == p.number:
        return PERM
    p.group = p.session = p.number
    p.has_terminal = False
    return p.number


def setctty(p, console, *_):
    if console != 1:
        return NOENT
    if p.number != p.session or p.has_terminal:
        return PERM
    p.has_terminal, p.foreground = True, p.group
    return 0


def tcgetpgrp(p, *_):
    return p.foreground if p.has_terminal else NOTTY


def tcsetpgrp(p, group, *_):
    if not p.has_terminal:
        return NOTTY
    if group < 0:
        return INVAL
    if group not in p.groups():
        return PERM
    p.foreground = group
    return 0


def settostop(p, *_):
    return 0 if p.has_terminal else NOTTY           # the process is in the foreground


def refusal_of_words(p, address, count):
    """Returns the error with which read or write fails, or None."""
    if not p.has_terminal:
        return NOTTY
    if not 0 <= count <= 16:
        return INVAL
    return None if 0 <= address <= 256 - count else FAULT


def read(p, address, count, *_):
    if refusal_of_words(p, address, count):
        return refusal_of_words(p, address, count)
    if count == 0:
        return 0
    if not p.line:
        return BLOCKS
    taken, p.line = p.line[:count], p.line[count:]
    p.memory[address:address + len(taken)] = taken
    return taken


def write(p, address, count, *_):
    if refusal_of_words(p, address, count):
        return refusal_of_words(p, address, count)
    return bytes(word % 256 for word in p.memory[address:address + count]) or 0


RULES = {
    'getpid': lambda p, *_: p.number,
    'getppid': lambda p, *_: p.parent,
    'getuid': lambda p, *_: p.ids['user'][0],
    'geteuid': lambda p, *_: p.ids['user'][1],
    'getgid': lambda p, *_: p.ids['group'][0],
    'getegid': lambda p, *_: p.ids['group'][1],
    'getpgid': lambda p, number, *_: group_or_session(p, number, p.group if number in (0, p.number) else 1),
    'getsid': lambda p, number, *_: group_or_session(p, number, p.session if number in (0, p.number) else 1),
    'setuid': lambda p, number, *_: set_ids(p, 'user', number, True),
    'seteuid': lambda p, number, *_: set_ids(p, 'user', number, False),
    'setgid': lambda p, number, *_: set_ids(p, 'group', number, True),
    'setegid': lambda p, number, *_: set_ids(p, 'group', number, False),
    'fork': fork,
    'exec': exec_program,
    'exit': lambda p, code, *_: end(p, code % 256 * 256),
    'waitpid': waitpid,
    'waitid': waitid,
    'kill': kill,
    'sigqueue': sigqueue,
    'sigaction': sigaction,
    'sigprocmask': sigprocmask,
    'sigpending': sigpending,
    'sigsuspend': lambda p, *_: BLOCKS,
    'pause': lambda p, *_: BLOCKS,
    'sigreturn': lambda p, *_: end(p, 11),          # there is no handler to return from
    'alarm': alarm,
    'setpgid': setpgid,
    'setsid': setsid,
    'setctty': setctty,
    'tcgetpgrp': tcgetpgrp,
    'tcsetpgrp': tcsetpgrp,
    'settostop': settostop,
    'read': read,
    'write': write,
    'subreaper': lambda p, mark, *_: f'mark {int(mark != 0)}',
    'sched_yield': lambda p, *_: 0,
}
