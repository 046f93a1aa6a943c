"""A plain reader of worlds and of events, from docs/FORMATS.md. It says which error an input has, if any.

An error is a pair of a line and a reason. A reader returns the first error, or None, and a number: how many consoles a
world has, or how many events there are.
"""

import re

NAME = re.compile(rb'[a-z][a-z0-9_]{0,15}')
NUMBER = re.compile(rb'-?[0-9]+')
BYTE = re.compile(rb'[0-9A-Fa-f]{2}')
REGISTER = re.compile(rb'r[0-7]')
CALLS = (b'getpid getppid fork exit waitpid waitid sched_yield getuid geteuid getgid getegid setuid setgid seteuid '
         b'setegid kill sigqueue sigaction sigprocmask sigpending pause sigsuspend sigreturn alarm getpgid getsid '
         b'setpgid setsid exec setctty tcgetpgrp tcsetpgrp settostop read write subreaper').split()
GREATEST = 2**63 - 1

# The operands of each instruction: r a register, v a value, l a label, c a call.
OPERANDS = {b'set': 'rv', b'jmp': 'l', b'note': 'r', b'sys': 'c', b'jz': 'rl', b'jnz': 'rl', b'jlt': 'rl'}
OPERANDS.update({word: 'rr' for word in b'mov add sub mul div rem and or xor ld st'.split()})


class Refused(Exception):
    """The reason for which a line is rejected."""


class Words:
    """The words of a line, from left to right."""

    def __init__(self, line):
        if len(line) > 200:
            raise Refused('line too long')
        self.words = [word for word in re.split(rb'[ \t\r,]+', line.split(b'#')[0]) if word]

    def next(self):
        if not self.words:
            raise Refused('unknown word')
        return self.words.pop(0)

    def end(self):
        if self.words:
            raise Refused('unknown word')

    def number(self, least, greatest):
        return number_in(self.next(), least, greatest)

    def name(self):
        return name_in(self.next())


def number_in(word, least, greatest):
    if not NUMBER.fullmatch(word):
        raise Refused('bad number')
    if not least <= int(word) <= greatest:
        raise Refused('out of range')
    return int(word)


def name_in(word):
    if not NAME.fullmatch(word):
        raise Refused('unknown word')
    return word


def lines_of(text):
    """Returns the lines of an input. A final line feed begins no other line."""
    lines = text.split(b'\n')
    return lines if lines[-1] else lines[:-1]


class World:
    """What the lines so far define."""

    def __init__(self):
        self.header = 0             # how many lines of the header have been read
        self.consoles = 0
        self.programs = set()
        self.labels = None          # the labels of the current program
        self.instructions = 0       # how many instructions the current program has
        self.uses = []              # for each use of a name: its line, the name, and the set that must define it

    def take(self, number, words):
        if not words.words:
            return
        first = words.next()
        if self.header < 2:
            self.take_header(first, words)
        elif self.labels is None:
            self.take_program(first, words)
        elif first == b'end':
            words.end()
            self.labels = None
        elif first.endswith(b':'):
            self.take_label(first[:-1], words)
        else:
            self.take_instruction(number, first, words)

    def take_header(self, first, words):
        wanted, least, greatest = [(b'pidmax', 2, 4194304), (b'consoles', 0, 64)][self.header]
        if first != wanted:
            raise Refused('unknown word')
        self.consoles = words.number(least, greatest)
        words.end()
        self.header += 1

    def take_program(self, first, words):
        if first != b'program':
            raise Refused('unknown word')
        if len(self.programs) == 32:
            raise Refused('out of range')
        name = words.name()
        if name in self.programs:
            raise Refused('name twice')
        for word in (b'setuid', b'setgid'):
            if words.words[:1] == [word]:
                words.next()
                words.number(0, 2147483647)
        words.end()
        self.programs.add(name)
        self.labels = set()
        self.instructions = 0

    def take_label(self, word, words):
        name = name_in(word)
        if name in self.labels:
            raise Refused('name twice')
        words.end()
        self.labels.add(name)

    def take_instruction(self, number, first, words):
        if first not in OPERANDS:
            raise Refused('unknown word')
        if self.instructions == 1000:
            raise Refused('out of range')
        uses = []
        for operand in OPERANDS[first]:
            word = words.next()
            if operand == 'r' and not REGISTER.fullmatch(word) or operand == 'c' and word not in CALLS:
                raise Refused('unknown word')
            if operand == 'l':
                uses.append((number, name_in(word), self.labels))
            elif operand == 'v' and word[:1] == b'@':
                uses.append((number, name_in(word[1:]), self.labels))
            elif operand == 'v' and word[:1] == b'$':
                uses.append((number, name_in(word[1:]), self.programs))
            elif operand == 'v':
                number_in(word, -GREATEST - 1, GREATEST)
        words.end()
        self.uses += uses
        self.instructions += 1

    def reason_at_end(self):
        if self.header < 2 or self.labels is not None:
            return 'end missing'
        return None if self.programs else 'no program'


def read_world(text):
    world, fault, number = World(), None, 0
    for number, line in enumerate(lines_of(text), 1):
        try:
            world.take(number, Words(line))
        except Refused as refused:
            fault = number, str(refused)
            break
    else:
        if world.reason_at_end():
            fault = number + 1, world.reason_at_end()
    unknown = [line for line, name, defined in world.uses if name not in defined]
    if unknown:
        fault = min(unknown), 'name unknown'
    return fault, world.consoles


def read_events(text, consoles):
    count = 0
    for number, line in enumerate(lines_of(text), 1):
        try:
            words = Words(line)
            if words.words:
                count = take_events(words, consoles, count)
        except Refused as refused:
            return (number, str(refused)), count
    return None, count


def take_events(words, consoles, count):
    """Returns the number of events after a line."""
    first = words.next()
    if first in (b'step', b'tick'):
        count = number_in(b'%d' % (count + words.number(1, 1000000)), 1, 10**12)
        words.end()
    elif first == b'key':
        words.number(1, consoles)
        while True:
            if not BYTE.fullmatch(words.next()):
                raise Refused('bad number')
            count = number_in(b'%d' % (count + 1), 1, 10**12)
            if not words.words:
                break
    elif first == b'hangup':
        words.number(1, consoles)
        count = number_in(b'%d' % (count + 1), 1, 10**12)
        words.end()
    else:
        raise Refused('unknown word')
    return count


def message(world, events):
    """Returns the message that the program must print for a world and events, or None; and the number of events."""
    fault, consoles = read_world(world)
    name, count = 'world', 0
    if fault is None:
        fault, count = read_events(events, consoles)
        name = 'events'
    return fault and b'jobk: %s: line %d: %s\n' % (name.encode(), fault[0], fault[1].encode()), count
