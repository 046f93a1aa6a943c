"""Expressions and statements of C's types of numbers.

Each expression has a type and bounds of its value, so no signed number overflows and no divisor is 0. It has no side
effects: the calls in it change nothing. The names of types are drawn once for each part, so many programs have few
types, and some have all.
"""
from dataclasses import dataclass

COMPARISONS = ('==', '!=', '<', '<=', '>', '>=')
SMALL, LARGE = 9973, 1000003        # variables of int and of long stay below these


@dataclass(frozen=True)
class Type:
    """A type of numbers of C on x86-64."""
    bits: int
    is_signed: bool

    @property
    def low(self):
        return -(1 << (self.bits - 1)) if self.is_signed else 0

    @property
    def high(self):
        return (1 << (self.bits - self.is_signed)) - 1

    def has(self, low, high):
        return self.low <= low and high <= self.high


INT, UNSIGNED, LONG, UNSIGNED_LONG = Type(32, True), Type(32, False), Type(64, True), Type(64, False)
CHAR, BYTE, SHORT, UNSIGNED_SHORT = Type(8, True), Type(8, False), Type(16, True), Type(16, False)
# Names of types, in groups: a part has the names of some groups.
VOCABULARY = {
    'plain': {'int': INT, 'char': CHAR},
    'kin': {'pid_t': INT, 'uid_t': UNSIGNED, 'gid_t': UNSIGNED, 'ssize_t': LONG, 'sig_atomic_t': INT},
    'unsigned': {'unsigned': UNSIGNED, 'unsigned int': UNSIGNED},
    'long': {'long': LONG, 'long int': LONG, 'unsigned long': UNSIGNED_LONG, 'size_t': UNSIGNED_LONG},
    'short': {'short': SHORT, 'unsigned short': UNSIGNED_SHORT, 'unsigned char': BYTE, 'signed char': CHAR},
}
# How often a part has the names of a group, if its program may have them.
CHANCES = {'plain': 1, 'kin': 0.6, 'unsigned': 0.8, 'long': 0.8, 'short': 0}
# Calls, with the types and bounds of their results.
CALLS = (('alarm(0)', UNSIGNED, 0, 0), ('(getuid() - getuid())', UNSIGNED, 0, 0), ('(getpid() - getpid())', INT, 0, 0),
         ('(getgid() - getegid())', UNSIGNED, 0, 0), ('getpgid(9999999)', INT, -1, -1),
         ('kill(getpid(), 0)', INT, 0, 0),
         ('kill(getpid(), 99)', INT, -1, -1), ('setpgid(-1, 0)', INT, -1, -1), ('(getpid() == getpgrp())', INT, 0, 1))


def promoted(of):
    return INT if of.bits < 32 else of


def common(one, other):
    """Returns the type to which two operands are converted."""
    one, other = promoted(one), promoted(other)
    if one.bits != other.bits:
        return one if one.bits > other.bits else other
    return one if not one.is_signed else other


@dataclass(frozen=True)
class Value:
    text: str
    type: Type
    low: int
    high: int

    def converted(self, to):
        """Returns the bounds of the value in another type."""
        return (self.low, self.high) if to.has(self.low, self.high) else (to.low, to.high)


@dataclass(frozen=True)
class Variable:
    name: str
    type: Type
    length: int = 0


class Typed:
    """Writes the statements of one part."""

    def __init__(self, chance, new):
        self.random = chance
        self.new = new
        self.names = {}
        for word, names in VOCABULARY.items():
            if chance.random() < CHANCES[word] and (word in ('plain', 'kin') or chance.may(word)) or \
                    word == 'short' and chance.seldom(word):
                self.names |= names
        self.has_suffixes = chance.may('suffixes')
        self.variables = []
        self.functions = []             # a name, its type, its parameters
        self.constants = []             # names of enum, with values
        self.sized = ['char', 'int']
        if chance.may('sizes'):
            self.sized += ['"abc"', 'unsigned', 'long', 'size_t', 'pid_t']
        if chance.seldom('sizes of expressions'):
            self.sized += ['1', "'a'", '1ul', "'a' + 1"]

    # expressions

    def expression(self, depth=2):
        if depth == 0 or self.random.random() < 0.15:
            return self.leaf()
        return self.random.choice([self.arithmetic] * 5 + [self.comparison] * 4 + [self.bits] * 2 + [self.unary] * 2 + [
            self.shift, self.choice, self.logic, self.cast, self.call])(depth)

    def leaf(self):
        roll = self.random.random()
        if roll < 0.45 and self.variables:
            return self.read(self.random.choice(self.variables))
        if roll < 0.6:
            return self.size()
        if roll < 0.7:
            return Value(*self.random.choice(CALLS))
        if roll < 0.75 and self.constants:
            name, value = self.random.choice(self.constants)
            return Value(name, INT, value, value)
        return self.number()

    def bounds(self, of):
        """Returns the bounds of the variables of a type."""
        if of.bits < 32 or not of.is_signed:
            return of.low, of.high
        most = SMALL if of == INT else LARGE
        return -most, most

    def read(self, variable):
        index = f'[{self.index(variable)}]' if variable.length else ''
        return Value(variable.name + index, variable.type, *self.bounds(variable.type))

    def index(self, variable):
        """Returns an index: a number, or an expression of a variable."""
        plain = [it.name for it in self.variables if not it.length]
        if plain and self.random.random() < 0.3:
            return f'{self.random.choice(plain)} & 1'
        return self.random.randrange(variable.length)

    def number(self):
        value = self.random.choice([0, 1, 2, 3, 7, 10, 20, 100, 127, 128, 255, 256, self.random.randrange(SMALL)])
        form = self.random.random()
        if form < 0.03:
            return Value('2147483647', INT, INT.high, INT.high)
        if form < 0.25:
            return Value(f'-{value}', INT, -value, -value)
        if form < 0.35:
            return Value(hex(value), INT, value, value)
        if form < 0.4:
            return Value(f'0{value:o}', INT, value, value)
        if form < 0.55 and self.has_suffixes:
            suffix, of = self.random.choice([('u', UNSIGNED), ('L', LONG), ('UL', UNSIGNED_LONG), ('U', UNSIGNED)])
            return Value(f'{value}{suffix}', of, value, value)
        if form < 0.6 and self.has_suffixes:
            return self.random.choice([Value('4294967295', LONG, 2**32 - 1, 2**32 - 1),
                                       Value('(-2147483648)', LONG, -2**31, -2**31),
                                       Value('0x80000000', UNSIGNED, 2**31, 2**31),
                                       Value('(1u << 31)', UNSIGNED, 2**31, 2**31),
                                       Value('0xFFFFFFFF', UNSIGNED, 2**32 - 1, 2**32 - 1),
                                       Value('2147483648', LONG, 2**31, 2**31)])
        return Value(str(value), INT, value, value)

    def size(self):
        arrays = [it for it in self.variables if it.length]
        if arrays and self.random.random() < 0.6:
            array = self.random.choice(arrays)
            size = array.length * array.type.bits // 8
            if self.random.random() < 0.5:
                return Value(f'(sizeof {array.name} / sizeof {array.name}[0])', UNSIGNED_LONG, *[array.length] * 2)
            return Value(self.random.choice([f'sizeof {array.name}', f'sizeof({array.name})']), UNSIGNED_LONG, size,
                         size)
        if self.variables and self.random.random() < 0.5:
            variable = self.random.choice(self.variables)
            size = variable.type.bits // 8 * max(variable.length, 1)
            return Value(f'sizeof {variable.name}', UNSIGNED_LONG, size, size)
        text = self.random.choice(self.sized)
        return Value(f'sizeof({text})', UNSIGNED_LONG, 1, 8)

    def two(self, depth):
        return self.expression(depth - 1), self.expression(depth - 1)

    def arithmetic(self, depth):
        left, right = self.two(depth)
        of = common(left.type, right.type)
        operator = self.random.choice('+-*/%+-')
        (low, high), (least, most) = left.converted(of), right.converted(of)
        if operator in '/%':
            if of.is_signed and low == of.low or of == UNSIGNED_LONG and not self.random.seldom('division of sizes'):
                return self.comparison(depth)
            text = f'({left.text} {operator} ({right.text} | 1))'
            bound = max(abs(low), abs(high))
            return Value(text, of, -bound if low < 0 or least < 0 and of.is_signed else 0, bound)
        ends = {'+': (low + least, high + most), '-': (low - most, high - least),
                '*': (min(it * other for it in (low, high) for other in (least, most)),
                      max(it * other for it in (low, high) for other in (least, most)))}[operator]
        if of.has(*ends):
            return Value(f'({left.text} {operator} {right.text})', of, *ends)
        if not of.is_signed:
            return Value(f'({left.text} {operator} {right.text})', of, of.low, of.high)
        return Value(f'({left.text} % 1009 {operator} ({right.text} % 997))', of, -1009 * 997, 1009 * 997)

    def comparison(self, depth):
        left, right = self.two(depth)
        roll = self.random.random()
        if roll < 0.25:
            right = Value('-1', INT, -1, -1)
        elif roll < 0.4:
            right = Value('0', INT, 0, 0)
        if self.random.random() < 0.2:
            left, right = right, left
        return Value(f'({left.text} {self.random.choice(COMPARISONS)} {right.text})', INT, 0, 1)

    def logic(self, depth):
        left, right = self.two(depth)
        return Value(f'({left.text} {self.random.choice(["&&", "||"])} {right.text})', INT, 0, 1)

    def bits(self, depth):
        left, right = self.two(depth)
        of = common(left.type, right.type)
        ends = [*left.converted(of), *right.converted(of)]
        power = 1 << max(abs(it) for it in ends).bit_length()
        low, high = (-power if min(ends) < 0 else 0), power - 1
        return Value(f'({left.text} {self.random.choice("&|^")} {right.text})', of, max(low, of.low),
                     min(high, of.high))

    def unary(self, depth):
        inner = self.expression(depth - 1)
        of, operator = promoted(inner.type), self.random.choice('--~!')
        low, high = inner.converted(of)
        if operator == '!':
            return Value(f'(!{inner.text})', INT, 0, 1)
        if not of.is_signed:
            return Value(f'({operator}{inner.text})'.replace('--', '- -'), of, of.low, of.high)
        if operator == '~':
            return Value(f'(~{inner.text})', of, -high - 1, -low - 1)
        if low == of.low:
            return inner
        return Value(f'(-{inner.text})'.replace('--', '- -'), of, -high, -low)

    def shift(self, depth):
        inner, count = self.expression(depth - 1), self.random.randrange(10)
        of = promoted(inner.type)
        if of == UNSIGNED_LONG and not self.random.seldom('division of sizes'):
            return inner
        if self.random.random() < 0.5:
            return Value(f'({inner.text} >> {count})', of, *self.wide(inner, of))
        if of.is_signed:
            return Value(f'(({inner.text} & 1023) << {count})', of, 0, 1023 << 9)
        return Value(f'({inner.text} << {count})', of, of.low, of.high)

    @staticmethod
    def wide(inner, of):
        low, high = inner.converted(of)
        return min(low, 0), max(high, 0)

    def choice(self, depth):
        condition, (left, right) = self.expression(depth - 1), self.two(depth)
        of = common(left.type, right.type)
        (low, high), (least, most) = left.converted(of), right.converted(of)
        return Value(f'({condition.text} ? {left.text} : {right.text})', of, min(low, least), max(high, most))

    def cast(self, depth):
        inner = self.expression(depth - 1)
        name = self.random.choice([it for it in self.names if it != 'char' or self.random.may('casts to char')])
        text = inner.text if inner.text[0] == '(' or inner.text.isalnum() else f'({inner.text})'
        return Value(f'({name}){text}', self.names[name], *inner.converted(self.names[name]))

    def call(self, depth):
        if not self.functions:
            return self.leaf()
        name, of, parameters = self.random.choice(self.functions)
        arguments = [self.kept(self.expression(depth - 1), it) for it in parameters]
        return Value(f'{name}({", ".join(arguments)})', of, *self.bounds(of))

    def kept(self, value, of):
        """Returns the text of a value, reduced to the bounds of a type's variables."""
        low, high = self.bounds(of)
        if low <= value.low and value.high <= high or of.bits < 32 or not of.is_signed:
            return value.text
        cast = '(int)' if value.type == UNSIGNED_LONG and not self.random.seldom('division of sizes') else ''
        return f'{cast}({value.text}) % {SMALL if of == INT else LARGE}'

    # statements

    def statement(self, depth=1):
        kinds = [self.show] * 4 + [self.assign] * 3 + [self.step, self.chain]
        if depth > 0:
            kinds += [self.condition, self.condition, self.loop, self.switch]
        return self.random.choice(kinds)(depth)

    def show(self, depth):
        return [f'note({self.expression(self.random.choice([1, 2, 2, 3])).text});']

    def target(self):
        variable = self.random.choice(self.variables)
        return self.read(variable), variable.type

    def assign(self, depth):
        if not self.variables:
            return self.show(depth)
        (target, of), value = self.target(), self.expression()
        joined = common(of, value.type)
        operator = self.random.choice(['', '', '', '+', '-', '^', '&', '|', '*', '/', '%', '<<', '>>'])
        if not operator:
            return [f'{target.text} = {self.kept(value, of)};']
        if operator == '<<' and of.is_signed:
            operator = '>>'
        if operator in ('/', '%', '>>') and UNSIGNED_LONG in (of,
                                                              joined) and not self.random.seldom('division of sizes'):
            operator = '^'
        text = value.text
        if operator in ('<<', '>>'):
            text = self.random.randrange(8)
        elif operator in ('/', '%'):
            text = f'{text} | 1'
        elif operator in ('+', '-', '*') and joined.is_signed:
            text = f'({text}) % 97'
        return [f'{target.text} {operator}= {text};', *self.small(target, of)]

    def small(self, target, of):
        """Reduces a variable to the bounds of its type."""
        if of.bits < 32 or not of.is_signed:
            return []
        return [f'{target.text} %= {SMALL if of == INT else LARGE};']

    def chain(self, depth):
        """Uses the value of an assignment, which has the type of its left side."""
        if not self.variables:
            return self.show(depth)
        (one, of), (other, less), value = self.target(), self.target(), self.expression()
        if one.text.partition('[')[0] in other.text or other.text.partition('[')[0] in one.text:
            return self.assign(depth)
        change, compared = f'{other.text} = {self.kept(value, less)}', f'{self.random.choice(COMPARISONS)} 0'
        kinds = [[f'{one.text} = {change};', *self.small(one, of)], [f'note(({change}) {compared});'],
                 [f'if (({change}))', '    note(1);'], [f'note(({change}) - 1);'], [f'note(-({change}) {compared});'],
                 [f'note(({other.text} {self.random.choice("&|^")}= {value.text}) {compared});']]
        return [*self.random.choice(kinds), *self.small(other, less)]

    def step(self, depth):
        if not self.variables:
            return self.show(depth)
        target, of = self.target()
        sign = self.random.choice(['++', '--'])
        text = self.random.choice([f'{sign}{target.text}', f'{target.text}{sign}'])
        show = self.random.choice([f'note({text});', f'{text};',
                                   f'note(({text}) {self.random.choice(COMPARISONS)} 0);'])
        return [show, *self.small(target, of)]

    def condition(self, depth):
        lines = [f'if ({self.expression().text}) {{', *self.indented(self.statement(depth - 1))]
        if self.random.random() < 0.5:
            lines += ['} else {', *self.indented(self.statement(depth - 1))]
        return [*lines, '}']

    def loop(self, depth):
        """Counts down to 0 or up to a size, in a type that may be unsigned."""
        name, counter = self.random.choice(list(self.names)), self.new('c')
        arrays = [it for it in self.variables if it.length]
        if arrays and self.random.random() < 0.5:
            array = self.random.choice(arrays)
            size = f'sizeof {array.name} / sizeof {array.name}[0]'
            head = f'for ({name} {counter} = 0; {counter} < {size}; {counter}++) {{'
            body = [f'note({array.name}[{counter}]);']
        else:
            end = self.random.choice([f'{counter}-- > 0', f'{counter}--', f'{counter}-- != 0'])
            head, body = f'for ({name} {counter} = {self.random.randrange(1, 4)}; {end};) {{', self.statement(0)
        return [head, *self.indented(body), '}']

    def switch(self, depth):
        value = self.expression()
        lines = [f'switch ({value.text}) {{']
        for number in self.random.sample([-2, -1, 0, 1, 2, 3], 3):
            lines += [f'case {number}:', *self.indented(self.statement(0)), '    break;']
        return [*lines, 'default:', *self.indented(self.statement(0)), '}']

    @staticmethod
    def indented(lines):
        return ['    ' + line for line in lines]

    # declarations

    def declare(self, is_global=False):
        name, of = self.random.choice(list(self.names.items()))
        variable = Variable(self.new('g' if is_global else 'l'), of,
                            self.random.randrange(2, 6) if self.random.random() < 0.35 else 0)
        begin = self.random.choice(['0', '1', '5', '-1', '-3', '100'])
        value = f'{{ {begin}, 2 }}' if variable.length else begin
        dimension = f'[{variable.length}]' if variable.length else ''
        self.variables.append(variable)
        if variable.length and name not in ('int', 'char') and self.random.random() < 0.7:
            self.variables[-1] = variable = Variable(variable.name, INT, variable.length)
            name = 'int'
        return f'{"static " if is_global else ""}{name} {variable.name}{dimension} = {value};'

    def function(self):
        """Writes a function with parameters and a result of some types. Its body uses only its parameters."""
        (result, of), kept = self.random.choice(list(self.names.items())), self.variables
        if of.bits != 32 and not self.random.seldom('types of results') or self.random.random() < 0.4:
            result, of = 'int', INT
        parameters = [self.random.choice(list(self.names.items())) for _ in range(self.random.randrange(1, 3))]
        self.variables = [Variable(self.new('l'), it) for _, it in parameters]
        name = self.new('f')
        head = ', '.join(f'{word} {it.name}' for (word, _), it in zip(parameters, self.variables))
        value = self.expression()
        lines = [f'static {result} {name}({head})', '{', f'    return {self.kept(value, of)};', '}']
        self.variables = kept
        self.functions.append((name, of, [it for _, it in parameters]))
        return lines
