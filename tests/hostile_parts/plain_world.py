"""The trace of a small world by plain rules. plain_reader.py must accept the world, which has one program of `set`,
`note`, jumps and `sys exit`. Its only process has no terminal, so ticks, keys and hangups add no line to the trace.
"""

from hostile_parts.plain_reader import Words, lines_of

FIRST_ADDRESS = 16
JUMPS = {b'jmp': lambda _: True, b'jz': lambda value: value == 0, b'jnz': lambda value: value != 0,
         b'jlt': lambda value: value < 0}


def instructions(world):
    """Returns the instructions of the program, and the position of each label."""
    code, labels = [], {}
    lines = [words for words in (Words(line).words for line in lines_of(world)) if words]
    for words in lines[3:-1]:
        if words[0].endswith(b':'):
            labels[words[0][:-1]] = len(code)
        else:
            code.append(words)
    return code, labels


def kinds(events):
    """Yields the kind of each event. A `step` or a `tick` has a count, and a `key` is an event for each of its bytes; a
    `hangup` is one event."""
    for words in (Words(line).words for line in lines_of(events)):
        if words:
            count = {b'key': len(words) - 2, b'hangup': 1}.get(words[0])
            yield from words[:1] * (int(words[1]) if count is None else count)


def value_of(word, labels):
    if word[:1] == b'@':
        return FIRST_ADDRESS + labels[word[1:]]
    return 0 if word[:1] == b'$' else int(word)         # there is one program


def trace(world, events):
    code, labels = instructions(world)
    shown, registers, place = [], {b'r%d' % number: 0 for number in range(8)}, 0
    for event, kind in enumerate(kinds(events), 1):
        if kind != b'step':
            continue
        word, *operands = code[place] if place < len(code) else [b'fault']
        place += 1
        if word == b'set':
            registers[operands[0]] = value_of(operands[1], labels)
        elif word == b'note':
            shown.append(b'%d note 1 %d\n' % (event, registers[operands[0]]))
        elif word in JUMPS:
            if JUMPS[word](registers.get(operands[0])):
                place = labels[operands[-1]]
        else:
            status = 11 if word == b'fault' else registers[b'r1'] % 256 * 256
            return b''.join(shown) + b'%d end 1 %d\n%d halt\n' % (event, status, event)
    return b''.join(shown)
