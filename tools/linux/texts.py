"""Parses a world and events that jobk accepts."""


class Program:
    def __init__(self, words):
        self.name = words[1]
        ids = dict(zip(words[2::2], map(int, words[3::2])))
        self.setuid, self.setgid = ids.get('setuid'), ids.get('setgid')
        self.code, self.lines, self.labels = [], [], {}     # lines: the line of each instruction

    def label(self, address):
        """Returns the last label up to an address, and the distance from it; an empty string if there is none."""
        found = [(name, at) for name, at in self.labels.items() if at <= address]
        if not found:
            return ''
        name, at = found[-1]
        return name + ('+%d' % (address - at) if address != at else '')

    def place(self, pc):
        """Describes a pc: the line of the world, and the label before it."""
        if pc < 16:
            return 'at address %d' % pc
        label = self.label(pc)
        line = 'at line %d' % self.lines[pc - 16] if pc - 16 < len(self.code) else 'outside its program'
        return line + (' (%s)' % label) * bool(label)


class World:
    """A parsed world."""

    def __init__(self, text):
        lines = ((number, line.split('#')[0].replace(',', ' ').split()) for number, line in enumerate(text.split('\n'), 1))
        lines = ((number, words) for number, words in lines if words)
        self.pidmax, self.consoles = int(next(lines)[1][1]), int(next(lines)[1][1])
        self.programs = []
        is_open = False
        for number, words in lines:
            if not is_open:
                self.programs.append(Program(words))
                is_open = True
            elif words == ['end']:
                is_open = False
            elif words[0].endswith(':'):
                self.programs[-1].labels[words[0][:-1]] = 16 + len(self.programs[-1].code)
            else:
                self.programs[-1].code.append(words)
                self.programs[-1].lines.append(number)

    def value(self, program, word):
        if word[0] == '@':
            return program.labels[word[1:]]
        if word[0] == '$':
            return [other.name for other in self.programs].index(word[1:])
        return int(word)


def read_events(text):
    """Yields the events of a text: ('step',), ('tick',), ('key', console, byte) and ('hangup', console)."""
    for line in text.split('\n'):
        words = line.split('#')[0].replace(',', ' ').split()
        if words[:1] == ['key']:
            yield from (('key', int(words[1]), int(byte, 16)) for byte in words[2:])
        elif words[:1] == ['hangup']:
            yield 'hangup', int(words[1])
        elif words:
            for _ in range(int(words[1])):
                yield words[0],
