"""Random programs of the subset of C that tools/cworld compiles, of which C says what they show.

A program has global variables and arrays, functions that call those before them, and handlers that call them, too. C
leaves the order of most operands open, so two operands never share what one of them changes; sums, products and
shifts stay within 31 bits, indexes within arrays, and divisors are odd.
"""
from dataclasses import dataclass, field

import of_signals                                                           # noqa: F401
import results                                                              # noqa: F401
import tokens                                                               # noqa: F401
from features import GROUPS, Chance, indented

MOST = 2 ** 30
SMALL = 9973                        # what is kept in variables stays below
FIRST_MARK = 900000                 # the first of the notes that mark the parts
HAS_STATEMENTS = 0.4                # how often a program has statements beside its parts
HAS_GROUP = {True: 0.22, False: 0.65}    # how often a program has a part of a group, with statements or without
ARITHMETIC = ('+', '-', '*', '/', '%', '&', '|', '^')
COMPARISONS = ('==', '!=', '<', '<=', '>', '>=')


CHILD = """    {{
        int status = 0;
        sigset_t both, old;
        sigemptyset(&both);
        sigaddset(&both, SIGUSR1);
        sigaddset(&both, SIGUSR1 + {other});
        sigprocmask(SIG_BLOCK, &both, &old);
        kill(getpid(), SIGUSR2);
        kill(getpid(), SIGUSR1);
        if (fork() == 0) {{
{body}
            {end}
            _exit(1);
        }}
        note(waitpid(-1, &status, 0) > 0);
        note(WIFEXITED(status));
        note(WEXITSTATUS(status));
        note(WIFSIGNALED(status));
        note(WTERMSIG(status));
        note(waitpid(-1, &status, 0));
        note(errno == ECHILD);
        note(sigismember(&both, SIGUSR2));
        sigprocmask(SIG_SETMASK, &old, NULL);
    }}"""


@dataclass(frozen=True)
class Expression:
    """A text, its largest possible value, and the names that it reads and changes. `*` is all that a call can
    change."""
    text: str
    most: int
    reads: frozenset = frozenset()
    changes: frozenset = frozenset()

    def conflicts(self, other):
        return meets(self.changes, other.reads | other.changes) or meets(other.changes, self.reads)


def meets(some, others):
    """Returns true if two sets share a name. A call shares each global name."""
    return bool(some & others) or reaches(some, others) or reaches(others, some)


def reaches(some, others):
    return '*' in some and any(is_global(name) for name in others)


def is_global(name):
    return name == '*' or name.startswith('g')


@dataclass
class Scope:
    """The names in scope at a place."""
    numbers: list = field(default_factory=list)
    letters: list = field(default_factory=list)
    arrays: list = field(default_factory=list)
    functions: dict = field(default_factory=dict)      # a name, and how many parameters
    counters: tuple = ()                                # variables of loops, which are only read

    def inner(self):
        return Scope(list(self.numbers), list(self.letters), list(self.arrays), dict(self.functions), self.counters)


@dataclass
class Program:
    """A program without its #include. Its main is named main_ and its number."""
    number: int
    text: str
    parts: list

    @property
    def tools(self):
        """Returns the programs that it runs: the name of each, and the lines of its main."""
        return [part.tool for part in self.parts if part.tool]

    @property
    def groups(self):
        return [part.name.partition(',')[0] for part in self.parts]


class Generator:
    """Makes one program. Names end with its number, so that one file can have many programs."""

    def __init__(self, seed, number):
        self.random = Chance(seed * 100003 + number).begin()
        self.number = number
        self.ending = f'_{number}'
        self.names = 0
        self.loops = 0

    def new(self, stem):
        self.names += 1
        return f'{stem}{self.names}{self.ending}'

    # expressions

    def expression(self, scope, depth=None):
        if depth is None:
            depth = self.random.choice([1, 2, 2, 3])
        if depth == 0 or self.random.random() < 0.15:
            return self.leaf(scope)
        kinds = [self.comparison, self.logic, self.logic, self.unary, self.choice, self.comma, self.shift,
                 self.assignment, self.call, self.call, self.element]
        return self.random.choice(kinds + [self.arithmetic] * 6)(scope, depth)

    def leaf(self, scope):
        names = scope.numbers + list(scope.counters)
        if self.random.random() < 0.4 or not names:
            value = self.random.choice([0, 1, 2, 3, 5, 7, 10, 100, self.random.randrange(SMALL)])
            return Expression(str(value), value)
        if scope.letters and self.random.random() < 0.2:
            name = self.random.choice(scope.letters)
            return Expression(name, 128, frozenset([name]))
        name = self.random.choice(names)
        return Expression(name, SMALL, frozenset([name]))

    def joined(self, left, right, text, most):
        return Expression(text, most, left.reads | right.reads, left.changes | right.changes)

    def two(self, scope, depth):
        """Returns two operands whose order does not matter."""
        left, right = self.expression(scope, depth - 1), self.expression(scope, depth - 1)
        if left.conflicts(right):
            right = Expression(str(self.random.randrange(1, 50)), 50)
        return left, right

    def arithmetic(self, scope, depth):
        left, right = self.two(scope, depth)
        operator = self.random.choice(ARITHMETIC)
        if operator in '/%':
            return self.joined(left, right, f'({left.text} {operator} ({right.text} | 1))', left.most)
        most = left.most * right.most if operator == '*' else 2 * (left.most + right.most) + 2
        if most > MOST:
            return self.joined(left, right, f'({left.text} % 1009 {operator} ({right.text} % 997))', 1009 * 997)
        return self.joined(left, right, f'({left.text} {operator} {right.text})', most)

    def comparison(self, scope, depth):
        left, right = self.two(scope, depth)
        return self.joined(left, right, f'({left.text} {self.random.choice(COMPARISONS)} {right.text})', 1)

    def logic(self, scope, depth):
        left, right = self.expression(scope, depth - 1), self.expression(scope, depth - 1)
        return self.joined(left, right, f'({left.text} {self.random.choice(["&&", "||"])} {right.text})', 1)

    def comma(self, scope, depth):
        left, right = self.expression(scope, depth - 1), self.expression(scope, depth - 1)
        return self.joined(left, right, f'({left.text}, {right.text})', right.most)

    def choice(self, scope, depth):
        condition, left, right = (self.expression(scope, depth - 1) for _ in range(3))
        both = self.joined(left, right, '', max(left.most, right.most))
        return self.joined(condition, both, f'({condition.text} ? {left.text} : {right.text})', both.most)

    def unary(self, scope, depth):
        inner = self.expression(scope, depth - 1)
        return self.joined(inner, inner, f'({self.random.choice("-~!")}{inner.text})', inner.most + 1)

    def shift(self, scope, depth):
        inner = self.expression(scope, depth - 1)
        count = str(self.random.randrange(8)) if self.random.random() < 0.6 or not scope.counters \
            else f'({self.random.choice(scope.counters)} & 7)'
        if self.random.random() < 0.5:
            return self.joined(inner, inner, f'(({inner.text} & 1023) << {count})', 1023 * 128)
        return self.joined(inner, inner, f'({inner.text} >> {count})', inner.most)

    def assignment(self, scope, depth):
        """Returns an assignment within an expression, or an increment or decrement."""
        inner = self.expression(scope, depth - 1)
        if not scope.numbers:
            return inner
        name = self.random.choice(scope.numbers)
        if self.random.random() < 0.4 or Expression('', 0, changes=frozenset([name])).conflicts(inner):
            sign = self.random.choice(['++', '--'])
            text = self.random.choice([f'{sign}{name}', f'{name}{sign}'])
            # The statement around an increment or decrement reduces the variable to small numbers.
            return Expression(f'({text})', 2 * SMALL, frozenset([name]), frozenset([name]))
        return Expression(f'({name} = {inner.text} % {SMALL})', SMALL, inner.reads, inner.changes | {name})

    def call(self, scope, depth):
        if not scope.functions:
            return self.leaf(scope)
        name = self.random.choice(list(scope.functions))
        arguments = []
        for _ in range(scope.functions[name]):
            argument = self.expression(scope, depth - 1)
            if any(argument.conflicts(other) for other in arguments):
                argument = Expression('4', 4)
            arguments.append(argument)
        reads = frozenset().union(*(it.reads for it in arguments), ['*'])
        changes = frozenset().union(*(it.changes for it in arguments), ['*'])
        return Expression(f'{name}({", ".join(f"({it.text}) % {SMALL}" for it in arguments)})', SMALL, reads, changes)

    def element(self, scope, depth):
        if not scope.arrays:
            return self.leaf(scope)
        name = self.random.choice(scope.arrays)
        index = self.expression(scope, depth - 1)
        if Expression('', 0, reads=frozenset([name])).conflicts(index):
            index = Expression('3', 3)
        return Expression(f'{name}[{index.text} & 7]', SMALL, index.reads | {name}, index.changes)

    # statements

    def block(self, scope, depth, count, pad):
        scope = scope.inner()
        lines = []
        for _ in range(count):
            lines += self.statement(scope, depth, pad)
        return lines

    def statement(self, scope, depth, pad):
        kinds = [self.set_number] * 4 + [self.set_element, self.set_letter, self.show, self.show, self.declare]
        if depth > 0:
            kinds += [self.condition, self.condition, self.loop, self.loop, self.switch]
        return [pad + line for line in self.random.choice(kinds)(scope, depth)]

    def small(self, names):
        return [f'{name} %= {SMALL};' for name in sorted(names) if name != '*' and '[' not in name]

    def kept_small(self, expression):
        return self.small(name for name in expression.changes if name[0] in 'gl')

    def set_number(self, scope, depth):
        if not scope.numbers:
            return self.show(scope, depth)
        name, value = self.random.choice(scope.numbers), self.expression(scope)
        if name in value.changes or is_global(name) and '*' in value.changes:
            return [f'note({value.text});', *self.kept_small(value)]
        operator = self.random.choice(['=', '=', '=', '+=', '-=', '^=', '&=', '|='])
        return [f'{name} {operator} {value.text} % {SMALL};', f'{name} %= {SMALL};', *self.kept_small(value)]

    def set_element(self, scope, depth):
        if not scope.arrays:
            return self.show(scope, depth)
        name, value = self.random.choice(scope.arrays), self.expression(scope, 2)
        index = self.expression(scope, 2)
        if index.conflicts(value) or '*' in value.changes | index.changes:
            index = Expression('5', 5)
            if '*' in value.changes:
                value = Expression('77', 77)
        operator = self.random.choice(['=', '=', '+=', '^='])
        return [f'{name}[{index.text} & 7] {operator} {value.text} % {SMALL};',
                f'{name}[{self.random.randrange(8)}]++;', f'for (int i = 0; i < 8; i++) {name}[i] %= {SMALL};',
                *self.kept_small(value), *self.kept_small(index)]

    def set_letter(self, scope, depth):
        if not scope.letters:
            return self.show(scope, depth)
        name, value = self.random.choice(scope.letters), self.expression(scope, 2)
        if '*' in value.changes:
            value = Expression('200', 200)
        operator = self.random.choice(['=', '+=', '^='])
        return [f'{name} {operator} {value.text} % 300;', f'{name}++;', *self.kept_small(value)]

    def show(self, scope, depth):
        value = self.expression(scope)
        return [f'note({value.text});', *self.kept_small(value)]

    def declare(self, scope, depth):
        value = self.expression(scope, 2)
        name = self.new('l')
        lines = [f'int {name} = {value.text} % {SMALL};', f'(void){name};', *self.kept_small(value)]
        scope.numbers.append(name)
        return lines

    def condition(self, scope, depth):
        value = self.expression(scope)
        lines = [f'if ({value.text}) {{', *self.block(scope, depth - 1, 2, '    ')]
        if self.random.random() < 0.5:
            lines += ['} else {', *self.block(scope, depth - 1, 2, '    ')]
        return [*lines, '}', *self.kept_small(value)]

    def loop(self, scope, depth):
        if self.loops >= 2:
            return self.show(scope, depth)
        self.loops += 1
        counter, rounds = self.new('c'), self.random.randrange(1, 5)
        inner = scope.inner()
        inner.counters = (*scope.counters, counter)
        body = self.block(inner, depth - 1, 2, '    ')
        if self.random.random() < 0.4:
            jump = self.random.choice(['break', 'continue'])
            has_blocks = any(letter in line for line in body for letter in '{}')
            place = 0 if has_blocks else self.random.randrange(len(body) + 1)
            body.insert(place, f'    if ({counter} == {self.random.randrange(4)}) {jump};')
        self.loops -= 1
        kind = self.random.choice(['for', 'while', 'do'])
        if kind == 'for':
            return [f'for (int {counter} = 0; {counter} < {rounds}; {counter}++) {{', *body, '}']
        before = [f'int {counter} = -1;']
        if kind == 'while':
            return ['{', *before, f'while (++{counter} < {rounds}) {{', *body, '}', '}']
        return ['{', *before, 'do {', f'    {counter}++;', *body, f'}} while ({counter} < {rounds});', '}']

    def switch(self, scope, depth):
        value = self.expression(scope)
        lines = [f'switch ({value.text} & 3) {{']
        for number in self.random.sample(range(4), self.random.randrange(1, 4)):
            lines += [f'case {number}: {{', *self.block(scope, depth - 1, 1, '    '), '}']
            if self.random.random() < 0.6:
                lines.append('    break;')
        if self.random.random() < 0.6:
            lines += ['default: {', *self.block(scope, depth - 1, 1, '    '), '}']
        return [*lines, '}', *self.kept_small(value)]

    # programs

    def program(self):
        """Returns a program with some parts. Its main is named main_ and its number."""
        scope = Scope([self.new('g') for _ in range(3)], [self.new('gc')], [self.new('ga')])
        lines = [f'static int {name} = {self.random.randrange(100)};' for name in scope.numbers]
        lines += [f'static char {name};' for name in scope.letters]
        lines += [f'static int {name}[8] = {{1, 2, 3}};' for name in scope.arrays]
        raises = self.new('graises')
        lines += [f'static int {raises} = 3;', f'static int show{self.ending}(int a) {{ note(a); return a; }}']
        scope.functions[f'show{self.ending}'] = 1
        has_statements = self.random.random() < HAS_STATEMENTS
        if has_statements:
            for number in range(3):
                lines += self.function(scope, raises, number)
            for name in ('on_usr1', 'on_usr2'):
                lines += self.handler(scope, name + self.ending)
        parts = self.parts(HAS_GROUP[has_statements])
        for place, part in enumerate(parts):
            lines += [*part.before, f'static void part{place}{self.ending}(void)', '{', *indented(part.main), '}']
        lines += self.main(scope, parts, has_statements)
        return Program(self.number, '\n'.join(lines) + '\n', parts)

    def parts(self, chance):
        """Returns parts of some groups, in any order."""
        made = []
        for name, of in GROUPS.items():
            if self.random.random() < chance:
                made.append(of(self.random, self.new).any())
        self.random.shuffle(made)
        return made

    def function(self, scope, raises, number):
        name, count = self.new('f'), self.random.randrange(number == 2, 4)
        inner = scope.inner()
        parameters = [self.new('l') for _ in range(count)]
        inner.numbers += parameters
        lines = [f'static int {name}({", ".join("int " + it for it in parameters) or "void"})', '{']
        local, array = self.new('l'), self.new('la')
        lines += [f'    int {local} = {self.random.randrange(50)};']
        if number == 2:
            lines += [f'    int {array}[8] = {{{parameters[0]}, {local}, 9}};']
            inner.arrays.append(array)
        inner.numbers.append(local)
        lines += self.block(inner, 1, 1, '    ')
        if number == self.random.randrange(3) or number == 2:
            signal = self.random.choice(['SIGUSR1', 'SIGUSR2'])
            lines += [f'    if ({raises} > 0) {{', f'        {raises}--;', f'        kill(getpid(), {signal});',
                      '    }']
        value = self.expression(inner, 2)
        more = f' + {array}[0] + {array}[1]' if number == 2 and value.most < MOST - 2 * SMALL else ''
        lines += [f'    return ({value.text}{more}) % {SMALL};', '}']
        scope.functions[name] = count
        return lines

    def declared(self, scope):
        """Returns a local variable and a local array, with values."""
        number, array = self.new('l'), self.new('la')
        scope.numbers.append(number)
        scope.arrays.append(array)
        return [f'    int {number} = {self.random.randrange(50)};', f'    int {array}[8] = {{4, {number}, 9}};']

    def handler(self, scope, name):
        inner = scope.inner()
        number = self.new('l')
        inner.numbers.append(number)
        called = [list(scope.functions.items())[-1], self.random.choice(list(scope.functions.items()))]
        arguments = [', '.join(str(self.random.randrange(20)) for _ in range(count)) for _, count in called]
        calls = [f'    note({function}({text}));' for (function, _), text in zip(called, arguments)]
        return [f'static void {name}(int signal_number)', '{', f'    int {number} = {self.random.randrange(50)};',
                '    note(signal_number);', *self.block(inner, 0, 1, '    '), *calls, '}']

    def main(self, scope, parts, has_statements):
        """Returns a main that calls the parts, some before the statements and some after them."""
        calls = [[f'    note({FIRST_MARK + place});', f'    part{place}{self.ending}();']
                 for place in range(len(parts))]
        early = self.random.randrange(len(parts) + 1)
        lines = [f'int main{self.ending}(void)', '{']
        if any(part.has_terminal for part in parts):
            lines.append('    setctty(1);')
        lines += [line for call in calls[:early] for line in call]
        if has_statements:
            lines += [f'    note({FIRST_MARK + len(parts)});', *self.statements(scope)]
        lines += [line for call in calls[early:] for line in call]
        return [*lines, f'    return {self.random.choice([0, 3, 255, 256, 300, -1])};', '}']

    def statements(self, scope):
        inner = scope.inner()
        lines = ['    struct sigaction action = { .sa_handler = 0 };']
        for name, signal in (('on_usr1', 'SIGUSR1'), ('on_usr2', 'SIGUSR2')):
            lines += [f'    action.sa_handler = {name}{self.ending};', f'    sigaction({signal}, &action, NULL);']
        lines += self.declared(inner)
        for _ in range(self.random.randrange(1, 3)):
            lines += self.block(inner, 2, 1, '    ')
        if self.random.random() < 0.5:
            lines += self.child(inner) + self.block(inner, 1, 1, '    ')
        lines += [f'    note({name});' for name in scope.numbers + scope.letters]
        return lines + [f'    for (int i = 0; i < 8; i++) note({name}[i]);' for name in scope.arrays]

    def child(self, scope):
        """Returns code that blocks two signals for a while, forks a child, and notes its wait status."""
        value = self.expression(scope, 2)
        end = self.random.choice([f'_exit(({value.text}) & 255);', 'kill(getpid(), SIGKILL);'])
        body = '\n'.join(self.block(scope, 0, 1, ' ' * 12))
        return CHILD.format(other=self.random.choice([0, 2]), body=body, end=end).split('\n')


def generate(seed, number):
    return Generator(seed, number).program()
