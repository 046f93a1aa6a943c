"""The lines of a program in a world: instructions, labels and comments; and the words of memory that they name."""
import re
from dataclasses import dataclass

MEMORY, MOST_INSTRUCTIONS, LONGEST_NAME, LONGEST_LINE = 256, 1000, 16, 160
OTHER_WAY = {'jz': 'jnz', 'jnz': 'jz'}


@dataclass(eq=False)
class Frame:
    """Consecutive words of memory. Their base is set when all sizes are known."""
    size: int = 0
    base: int = 0

    def take(self, count=1):
        """Adds words to the frame. Returns the first of them."""
        word = Word(self, self.size)
        self.size += count
        return word

    @property
    def end(self):
        return self.base + self.size


@dataclass(frozen=True)
class Word:
    """A word of a frame."""
    frame: Frame
    offset: int

    def __add__(self, count):
        return Word(self.frame, self.offset + count)

    def __str__(self):
        return str(self.frame.base + self.offset)


@dataclass
class Label:
    name: str
    is_kept: bool = False

    def __str__(self):
        return self.name


@dataclass
class Comment:
    text: str


@dataclass
class Instruction:
    operation: str
    operands: tuple

    @property
    def target(self):
        """Returns the label that the instruction may jump to, or None."""
        return self.operands[-1] if self.operation in ('jmp', 'jz', 'jnz', 'jlt') else None

    @property
    def ends(self):
        """Returns true if the next instruction never runs after this one."""
        return self.operation == 'jmp' or self.operation == 'sys' and self.operands[0] in ('exit', 'sigreturn')

    def __str__(self):
        return f'    {self.operation} ' + ', '.join(map(str, self.operands))


class Assembly:
    """A program that is being written."""

    def __init__(self, name):
        self.name = name
        self.lines = []
        self.names = {}

    def emit(self, operation, *operands):
        self.lines.append(Instruction(operation, operands))

    def comment(self, text):
        self.lines.append(Comment(text))

    def place(self, label):
        self.lines.append(label)

    def label(self, text, is_kept=False):
        """Returns a new label with a unique name, which is made from a text."""
        stem = re.sub('[^a-z0-9_]', '_', text.lower()).lstrip('_0123456789') or 'label'
        name, count = stem[:LONGEST_NAME], 1
        while name in self.names:
            count += 1
            ending = f'_{count}'
            name = stem[:LONGEST_NAME - len(ending)] + ending
        self.names[name] = True
        return Label(name, is_kept)

    def last_label(self):
        """Returns the label at the end of the lines so far, or None."""
        labels = [line for line in self.lines[-1:] if isinstance(line, Label)]
        return labels[0] if labels else None

    def finish(self):
        """Removes unreachable instructions, jumps to the next instruction, and comments without instructions. Removes
        labels that no instruction names, except kept ones."""
        while True:
            before = len(self.lines)
            self.lines = list(without_idle_jumps(list(with_turned_jumps(list(reached(self.lines))))))
            if len(self.lines) == before:
                break
        named = {operand.name for line in self.lines if isinstance(line, Instruction)
                 for operand in line.operands if isinstance(operand, (Label, Address))}
        self.lines = [line for line in self.lines
                      if not isinstance(line, Label) or line.is_kept or line.name in named]
        self.lines = list(without_idle_comments(self.lines))

    @property
    def size(self):
        return sum(isinstance(line, Instruction) for line in self.lines)

    def text(self):
        lines = [f'program {self.name}']
        for line in self.lines:
            if isinstance(line, Comment):
                lines.append(cut(f'# {line.text}'))
            elif isinstance(line, Label):
                lines.append(f'{line}:')
            else:
                lines.append(str(line))
        return '\n'.join(lines + ['end']) + '\n'


@dataclass(frozen=True)
class Address:
    """The code address of a label."""
    name: str

    def __str__(self):
        return f'@{self.name}'


def cut(line):
    """Returns a line cut to a length that a world allows."""
    return line.encode('utf-8')[:LONGEST_LINE].decode('utf-8', 'ignore').rstrip()


def reached(lines):
    """Yields the lines without unreachable instructions: those after a jump or an exit, before a label in use."""
    named = {line.target.name for line in lines if isinstance(line, Instruction) and line.target is not None}
    named |= {operand.name for line in lines if isinstance(line, Instruction)
              for operand in line.operands if isinstance(operand, Address)}
    is_reached = True
    for line in lines:
        if isinstance(line, Label) and line.name in named:
            is_reached = True
        if is_reached or not isinstance(line, Instruction):
            yield line
        if isinstance(line, Instruction) and line.ends:
            is_reached = False


def without_idle_jumps(lines):
    """Yields the lines without jumps to the next instruction."""
    for place, line in enumerate(lines):
        if not (isinstance(line, Instruction) and line.operation == 'jmp' and leads_to(lines, place + 1, line.target)):
            yield line


def with_turned_jumps(lines):
    """Yields the lines. A jump with the opposite condition replaces a conditional jump over another jump."""
    skipped = None
    for place, line in enumerate(lines):
        if place == skipped:
            continue
        over = behind_comments(lines, place) if isinstance(line, Instruction) and line.operation in OTHER_WAY else None
        if over is not None and lines[over].operation == 'jmp' and leads_to(lines, over + 1, line.target):
            skipped = over
            line = Instruction(OTHER_WAY[line.operation], (line.operands[0], lines[over].target))
        yield line


def behind_comments(lines, place):
    """Returns the place of the next instruction, or None if a label or the end comes first."""
    place += 1
    while place < len(lines) and isinstance(lines[place], Comment):
        place += 1
    return place if place < len(lines) and isinstance(lines[place], Instruction) else None


def leads_to(lines, place, label):
    """Returns true if a label is at a place, before the next instruction."""
    while place < len(lines) and not isinstance(lines[place], Instruction):
        if lines[place] is label:
            return True
        place += 1
    return False


def without_idle_comments(lines):
    """Yields the lines without comments that come last or before another comment."""
    for place, line in enumerate(lines):
        behind = lines[place + 1] if place + 1 < len(lines) else None
        if not isinstance(line, Comment) or not (behind is None or isinstance(behind, Comment)):
            yield line
