"""Bugs that both tests/cases_planted and tests/linux_planted plant. A bug is a list of pairs: a text of
tools/linux/machine.py, and the text that replaces it.
"""
import sys

LEADER = 'self.generate(self.processes[console.session], HUP, 0, 0)'
READS_0 = '''        if console.is_hung_up:
            return 'refused', 0
'''
REACHES_THE_FOREGROUND = LEADER, 'self.generate_all(self.members(console.foreground), HUP)'
LEAVES_A_READER = READS_0, ''
WRITES_FROM_THE_BACKGROUND = ('-EIO * console.is_hung_up or console.tostop and self.refusal(p, console)',
                              'console.tostop and self.refusal(p, console) or -EIO * console.is_hung_up')


def plant(path, texts):
    """Replaces texts of a file. Each must be in the file exactly once."""
    with open(path, encoding='utf-8') as file:
        text = file.read()
    for old, new in zip(texts[::2], texts[1::2]):
        if text.count(old) != 1:
            sys.exit(f'tests/planted.py: expected one text in {path}, found {text.count(old)}: {old}')
        text = text.replace(old, new)
    with open(path, 'w', encoding='utf-8') as file:
        file.write(text)
