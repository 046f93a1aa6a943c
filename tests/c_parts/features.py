"""Parts of random programs beside their statements. Each part shows one rule of C."""
import random
from dataclasses import dataclass, field

# How likely a program may have each construct that is rare in C: not at all for half of the programs.
BREADTHS = (0, 0, 0, 0.25, 0.25, 0.6)
# How often a program may have a construct that the compiler may refuse: a refused program is not compared.
SELDOM = 0.03
GROUPS = {}                             # by name, a class whose method `any` makes a part


@dataclass
class Part:
    """Lines for the file and lines for a function. What is shown after its mark is its output."""
    name: str
    before: list
    main: list
    has_terminal: bool = False
    tool: list = field(default_factory=list)            # a program that it runs by execl: its name and lines


def group(name):
    def keep(cls):
        GROUPS[name] = cls
        return cls
    return keep


def indented(lines):
    """Indents lines, except directives and lines that continue the one before."""
    return [line if line.startswith('#') or before.endswith('\\') else '    ' + line
            for before, line in zip(['', *lines], lines)]


class Chance(random.Random):
    """A source of random numbers, which also draws the rare constructs that a program may have."""

    def begin(self):
        self.breadth, self.drawn = self.choice(BREADTHS), {}
        return self

    def may(self, construct):
        return self.drawn.setdefault(construct, self.random() < self.breadth)

    def seldom(self, construct):
        return self.drawn.setdefault(construct, self.random() < SELDOM)

    def one_of(self, always, **rare):
        """Returns one of these choices, or of the rare ones that the program may have."""
        return self.choice([*always, *(it for construct, some in rare.items() if self.may(construct) for it in some)])


class Maker:
    """Makes the parts of a group."""

    def __init__(self, chance, new):
        self.random, self.new = chance, new

    def pick(self, *some):
        return self.random.choice(some)

    def pick_of(self, some):
        return self.random.choice(some)
