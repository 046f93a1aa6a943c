"""Code for expressions.

The depth of an expression in a larger one selects the register of its value, r0 to r4. Values to its left that are
needed later are in the registers before it. r5 is for addresses and constants, and r6 and r7 hold variables. A call
changes registers, so values that are needed after it are saved in words of the frame.

A register holds a number in its C type: a number of 32 bits is sign-extended if the type is signed, and otherwise
zero-extended. C leaves the order of most operands open: here the left operand is evaluated first, and arguments are
evaluated from left to right.
"""
from contextlib import contextmanager

from pycparser import c_ast

from assembly import Address, Word
from constants import COMPARISONS, constant, is_flags, is_null, kind_of, kind_of_typename
from facts import NEVER_NEGATIVE, OWN_RESULTS
from kinds import BITS, MEMBERS, NUMBERS, Function, Kind, Variable, common, promoted, wrapped
from refusal import refuse

SCRATCH, DEEPEST = 5, 2
BELOW_32, SIGN_OF_32, SIGN = 0xffffffff, 0x80000000, -2 ** 63
SA_RESTORER = 0x04000000            # Linux sets it in the flags that it stores
INSTRUCTIONS = {'+': 'add', '-': 'sub', '*': 'mul', '/': 'div', '%': 'rem', '&': 'and', '|': 'or', '^': 'xor'}
USED = {Kind.SET: 'write sigismember(&set, SIGCHLD)', Kind.ARGUMENTS: 'write atoi(argv[1])',
        Kind.CONTEXT: 'leave it out'}
NO_VALUES = {
    'Constant': 'expected a number, found a string; use it in write, in execl or for an array of char',
    'CompoundLiteral': 'expected a number, found a struct literal; use it only as the value of sigqueue',
    'InitList': 'expected a number, found braces; use them only for an array or a struct',
    'StructRef': 'expected a member of struct sigaction, siginfo_t or union sigval',
    'Cast': 'expected a cast to a number or to void; write the value without a cast',
}
NO_OPERATORS = {'*': 'expected C without pointers, found `*`; write an array and an index',
                '&': 'expected a number, found an address; use it only in a system call, as &status'}


def r(number):
    return f'r{number}'


class Expressions:
    """Writes code for expressions in one function; a part of Writer."""

    # small instructions

    def set(self, register, value):
        self.emit('set', r(register), wrapped(value, Kind.LONG) if isinstance(value, int) else value)

    def move(self, to, register):
        if to != register:
            self.emit('mov', r(to), r(register))

    def load(self, register, place):
        """Loads the value at a place, which is a register or a word."""
        if isinstance(place, Word):
            self.set(register, place)
            self.emit('ld', r(register), r(register))
        else:
            self.move(register, place)

    def store(self, register, place):
        if isinstance(place, Word):
            self.set(SCRATCH, place)
            self.emit('st', r(register), r(SCRATCH))
        else:
            self.move(place, register)

    def with_number(self, operation, register, number):
        """Applies an operation to a register and a number."""
        self.set(SCRATCH, number)
        self.emit(operation, r(register), r(SCRATCH))

    # values that are needed later

    @contextmanager
    def waiting(self, *registers):
        self.waits += registers
        yield
        del self.waits[len(self.waits) - len(registers):]

    @contextmanager
    def put_away(self, depth):
        """Saves the values that are needed later, so that the code of the block may use all registers. Then moves the
        result in r0 to the register of a depth, and restores the saved values."""
        waits, self.waits = self.waits, []
        slots = [self.slot() for _ in waits]
        for register, slot in zip(waits, slots):
            self.store(register, slot)
        yield
        self.move(depth, 0)
        for register, slot in zip(waits, slots):
            self.load(register, slot)
        self.waits = waits
        self.free_slots += slots

    def slot(self):
        return self.free_slots.pop() if self.free_slots else self.instance.frame.take()

    # types

    def constant(self, node):
        return constant(node, self.unit.meaning)

    def meaning(self, node):
        return self.unit.meaning.get(id(node))

    def kind_of(self, node):
        return kind_of(node, self.unit.meaning)

    def number_kind(self, node):
        """Returns the type of an operand. Refuses an operand that is not a number."""
        kind = self.kind_of(node)
        if kind in NUMBERS:
            return promoted(kind)
        if isinstance(node, (c_ast.BinaryOp, c_ast.TernaryOp, c_ast.ExprList)):
            for name, child in node.children():
                if name != 'cond':
                    self.number_kind(child)
        if isinstance(node, c_ast.UnaryOp):
            return refuse(node, NO_OPERATORS[node.op]) if node.op in NO_OPERATORS else self.number_kind(node.expr)
        if isinstance(node, c_ast.ID) and isinstance(self.meaning(node), Variable):
            self.require_number(node, self.meaning(node))
        if isinstance(node, c_ast.ArrayRef):
            self.element(node)
        if kind is Kind.VOID and isinstance(node, c_ast.FuncCall):
            declare = '; declare it as int' if isinstance(self.meaning(node.name), Function) else ''
            refuse(node, f'expected a value, found `{node.name.name}`, which returns void{declare}')
        if kind is Kind.HANDLER:
            refuse(node, 'expected a number, found a handler; compare it by == or !=')
        name = type(node).__name__
        return refuse(node, NO_VALUES.get(name, f'expected an expression of the subset, found `{name}`'))

    @staticmethod
    def require_number(node, variable):
        if variable.length is not None:
            refuse(node, f'expected a number, found the array `{variable.name}`; write {variable.name}[0]')
        if variable.kind not in NUMBERS:
            instead = USED.get(variable.kind, 'name a member')
            refuse(node, f'expected a number, found `{variable.name}` of type {variable.kind.value}; {instead}')

    @staticmethod
    def refuse_found(node, expected, found):
        refuse(node, f'expected {expected}, found `{found}`')

    def common_kind(self, left, right):
        return common(self.number_kind(left), self.number_kind(right))

    def is_kept(self, node, kind):
        """Returns true if a value needs no conversion to another type: that has 64 bits, or the value fits in it."""
        own = promoted(self.kind_of(node))
        if own is kind or BITS[kind] == 64:
            return True
        if isinstance(node, c_ast.FuncCall) and not isinstance(self.meaning(node.name), Function):
            return node.name.name in NEVER_NEGATIVE or kind is Kind.INT
        if isinstance(node, c_ast.BinaryOp) and node.op == '&':
            masks = [self.constant(node.left), self.constant(node.right)]
            return any(mask is not None and 0 <= mask < SIGN_OF_32 for mask in masks)
        return False

    def convert(self, register, kind):
        """Converts a value of another type to a type of 32 bits."""
        self.with_number('and', register, BELOW_32)
        if kind is Kind.INT:
            self.with_number('xor', register, SIGN_OF_32)
            self.emit('sub', r(register), r(SCRATCH))

    def keep_bits(self, register, kind):
        """Cuts a result to the bits of an unsigned type. What does not fit in a signed type is undefined in C."""
        if kind is Kind.UNSIGNED:
            self.with_number('and', register, BELOW_32)

    # values

    def value(self, node, depth):
        """Puts the value of an expression, in its own type, into a register."""
        number = self.constant(node)
        if number is not None:
            self.set(depth, number)
            return
        method = getattr(self, f'value_{type(node).__name__.lower()}', None)
        if method is None:
            self.number_kind(node)
        if depth > DEEPEST and not isinstance(node, c_ast.ID):
            with self.put_away(depth):
                method(node, 0)
        else:
            method(node, depth)

    def value_as(self, node, depth, kind):
        """Puts the value of an expression, in a type, into a register. For char it stays an int: see keep_char."""
        if kind is Kind.HANDLER:
            self.value_of_handler(node, depth)
            return
        own, number = self.number_kind(node), self.constant(node)
        if number is not None:
            self.set(depth, wrapped(number, kind) if kind is not Kind.CHAR else number)
            return
        self.value(node, depth)
        if kind is not Kind.CHAR and own is not kind and not self.is_kept(node, kind):
            self.convert(depth, kind)

    def value_of_handler(self, node, depth):
        if is_null(node, self.unit.meaning):
            self.set(depth, 0)
        elif self.kind_of(node) is Kind.HANDLER:
            self.value(node, depth)
        else:
            refuse(node, 'expected a handler: SIG_DFL, SIG_IGN or the name of a function')

    def operand(self, node, depth):
        """Returns the register with the value of an expression. A variable in a register is not copied."""
        variable = self.meaning(node)
        if isinstance(node, c_ast.ID) and isinstance(variable, Variable):
            place = self.place(variable)
            if not isinstance(place, Word):
                return place
        self.value(node, depth)
        return depth

    def operand_as(self, node, depth, kind):
        if kind in BITS and kind is not Kind.CHAR and self.constant(node) is None and self.number_kind(node) is kind:
            return self.operand(node, depth)
        self.value_as(node, depth, kind)
        return depth

    def value_id(self, node, depth):
        meaning = self.meaning(node)
        if isinstance(meaning, Function):
            self.set(depth, Address(self.label_of_handler(meaning).name))
            return
        self.require_number(node, meaning)
        self.load(depth, self.place(meaning))
        if meaning.kind is Kind.CHAR:
            self.sign(depth)

    def sign(self, register):
        """Converts a byte, 0 to 255, to a char, which is signed."""
        self.with_number('xor', register, 128)
        self.emit('sub', r(register), r(SCRATCH))

    def value_arrayref(self, node, depth):
        self.raw_element(node, depth)
        if self.element(node).kind is Kind.CHAR:
            self.sign(depth)

    def raw_element(self, node, depth):
        place = self.fixed_place(node)
        if place is not None:
            self.load(depth, place)
            return
        self.address(node, depth)
        self.emit('ld', r(depth), r(depth))

    def value_structref(self, node, depth):
        place = self.fixed_place(node)
        if is_flags(node):
            refuse(node, 'expected one flag of sa_flags, because the system adds a flag; write sa_flags & SA_RESTART')
        if self.kind_of(node) not in (*NUMBERS, Kind.HANDLER):
            refuse(node, f'expected a number, found `{node.field.name}` of type {self.kind_of(node).value}')
        self.load(depth, place)

    def value_cast(self, node, depth):
        kind = kind_of_typename(node.to_type)
        if kind is Kind.HANDLER and self.constant(node.expr) is not None:
            self.set(depth, self.constant(node.expr))
        elif kind in NUMBERS:
            self.value_as(node.expr, depth, kind)
            if kind is Kind.CHAR:
                self.with_number('and', depth, 255)
                self.sign(depth)
        else:
            refuse(node, NO_VALUES['Cast'])

    def value_exprlist(self, node, depth):
        for part in node.exprs[:-1]:
            self.effect(part, depth)
        self.value(node.exprs[-1], depth)

    def value_ternaryop(self, node, depth):
        otherwise, end = self.new_label('else'), self.new_label('end')
        kind = self.kind_of(node) if self.kind_of(node) is Kind.HANDLER else self.number_kind(node)
        self.branch(node.cond, otherwise, False, depth)
        self.value_as(node.iftrue, depth, kind)
        self.emit('jmp', end)
        self.put(otherwise)
        self.value_as(node.iffalse, depth, kind)
        self.put(end)

    def value_unaryop(self, node, depth):
        if node.op in ('p++', 'p--', '++', '--'):
            self.step(node, depth, 'old' if node.op.startswith('p') else 'new')
        elif node.op == '!':
            self.truth(node, depth)
        elif node.op in ('~', '-', '+'):
            kind = self.number_kind(node.expr)
            if node.op == '-':
                self.negate(node, depth)
            else:
                self.value(node.expr, depth)
            if node.op == '~':
                self.with_number('xor', depth, -1)
            if node.op != '+':
                self.keep_bits(depth, kind)
        else:
            refuse(node, NO_OPERATORS.get(node.op, f'expected an operator of the subset, found `{node.op}`'))

    def negate(self, node, depth):
        register = self.operand(node.expr, depth + 1) if depth <= DEEPEST else None
        self.set(depth, 0)
        self.emit('sub', r(depth), r(register))

    def value_binaryop(self, node, depth):
        if node.op in COMPARISONS or node.op in ('&&', '||'):
            self.truth(node, depth)
        elif node.op in ('<<', '>>'):
            self.shift(node, depth)
        elif node.op == '&' and self.flags_in(node):
            flags, mask = self.flags_in(node)
            self.load(depth, self.fixed_place(flags))
            self.with_number('and', depth, mask)
        else:
            kind = self.common_kind(node.left, node.right)
            self.both(node.left, node.right, depth, kind,
                      lambda right: self.operate(node, node.op, kind, depth, right))

    def flags_in(self, node):
        """Returns sa_flags and the mask of an & that reads no bit of sa_flags that differs in Linux; otherwise None."""
        for flags, mask in ((node.left, node.right), (node.right, node.left)):
            bits = self.constant(mask)
            if is_flags(flags) and bits is not None:
                return (flags, bits) if bits >= 0 and not bits & SA_RESTORER else None
        return None

    def operate(self, node, operation, kind, register, right):
        """Does an operation on two registers in a type."""
        if kind is Kind.UNSIGNED_LONG and operation in '/%':
            refuse(node, f'expected `{operation}` of another type than unsigned long; cast both sides to int')
        self.emit(INSTRUCTIONS[operation], r(register), r(right))
        if operation in '+-*':
            self.keep_bits(register, kind)

    def both(self, left, right, depth, kind, operate):
        """Evaluates the left side, then the right side, both in a type, and passes the right register to `operate`."""
        if self.planted == 'order':
            self.value_as(right, depth, kind)
            slot = self.slot()
            self.store(depth, slot)
            self.value_as(left, depth, kind)
            self.load(depth + 1, slot)
            operate(depth + 1)
            return
        self.value_as(left, depth, kind)
        with self.waiting(depth):
            register = self.operand_as(right, depth + 1, kind)
        operate(register)

    # shifts

    def shift(self, node, depth):
        kind = self.number_kind(node.left)
        self.number_kind(node.right)
        count = self.shift_count(node, node.right, kind)
        self.value(node.left, depth)
        if count is None:
            with self.waiting(depth):
                self.value(node.right, depth + 1)
        self.shift_by(node, node.op, kind, depth, count)

    def shift_count(self, node, right, kind):
        count = self.constant(right)
        if count is not None and not 0 <= count < BITS[kind]:
            refuse(node, f'expected a shift by 0 to {BITS[kind] - 1}, found `{count}`')
        return count

    def shift_by(self, node, operation, kind, depth, count):
        """Shifts by a constant, or by the number in the next register."""
        if operation == '<<':
            self.double(depth, count)
            if BITS[kind] == 32:
                self.convert(depth, kind)
        elif kind is Kind.UNSIGNED_LONG:
            refuse(node, 'expected `>>` of another type than unsigned long; cast the left side to int')
        elif kind is Kind.UNSIGNED:
            self.halve_positive(depth, count)
        else:
            self.halve(depth, count)

    def double(self, depth, count):
        if count is not None:
            self.with_number('mul', depth, 1 << count)
            return
        again, end = self.new_label('shift'), self.new_label('shifted')
        self.put(again)
        self.emit('jz', r(depth + 1), end)
        self.emit('add', r(depth), r(depth))
        self.with_number('sub', depth + 1, 1)
        self.emit('jmp', again)
        self.put(end)

    def halve(self, depth, count):
        """Shifts right, rounding down. A negative number is complemented before and after the division."""
        negative, end = self.new_label('negative'), self.new_label('shifted')
        self.emit('jlt', r(depth), negative)
        self.halve_positive(depth, count)
        self.emit('jmp', end)
        self.put(negative)
        self.with_number('xor', depth, -1)
        self.halve_positive(depth, count)
        self.with_number('xor', depth, -1)
        self.put(end)

    def halve_positive(self, depth, count):
        if count is not None:
            self.with_number('div', depth, 1 << count)
            return
        again, end = self.new_label('shift'), self.new_label('shifted')
        self.put(again)
        self.emit('jz', r(depth + 1), end)
        self.with_number('div', depth, 2)
        self.with_number('sub', depth + 1, 1)
        self.emit('jmp', again)
        self.put(end)

    # places

    def place(self, variable):
        place = self.instance.places.get(variable)
        if place is None:
            place = self.globals.get(variable)
        if place is None:
            place = self.instance.places[variable] = self.instance.frame.take(variable.words)
        return place

    def element(self, node):
        variable = self.meaning(node.name)
        if not isinstance(variable, Variable) or variable.length is None:
            refuse(node, 'expected the name of an array before an index')
        return variable

    def member(self, node):
        variable = self.meaning(node.name)
        member = node.field.name
        if isinstance(node.name, c_ast.StructRef) and (node.name.field.name, member) == ('si_value', 'sival_int'):
            return self.member(node.name)
        if isinstance(variable, Variable) and (node.type == '->') != variable.is_pointer:
            refuse(node, f'expected {"->" if variable.is_pointer else "."} after {variable.name}, found '
                   f'`{node.type}`; write {variable.name}{"->" if variable.is_pointer else "."}{member}')
        if not isinstance(variable, Variable) or member not in MEMBERS.get(variable.kind, ()):
            known = MEMBERS.get(variable.kind, ()) if isinstance(variable, Variable) else ()
            refuse(node, f'expected one of {", ".join(known)}, found `{member}`' if known else NO_VALUES['StructRef'])
        return variable, member

    def fixed_place(self, node):
        """Returns the register or word that a node names, or None if an index must be evaluated."""
        if isinstance(node, c_ast.ID):
            variable = self.meaning(node)
            if not isinstance(variable, Variable):
                refuse(node, f'expected a variable, found `{node.name}`')
            return self.place(variable)
        if isinstance(node, c_ast.StructRef):
            variable, member = self.member(node)
            return self.place(variable) + MEMBERS[variable.kind][member]
        if isinstance(node, c_ast.ArrayRef):
            index = self.constant(node.subscript)
            variable = self.element(node)
            if index is None:
                return None
            if not 0 <= index < variable.length:
                refuse(node, f'expected an index from 0 to {variable.length - 1} of {variable.name}, found `{index}`')
            return self.place(variable) + index
        return refuse(node, 'expected a variable, an element or a member')

    def address(self, node, depth):
        """Puts the address of an element into a register."""
        variable = self.element(node)
        self.number_kind(node.subscript)
        index = self.operand(node.subscript, depth)
        if index == depth:
            self.with_number('add', depth, self.place(variable))
        else:
            self.set(depth, self.place(variable))
            self.emit('add', r(depth), r(index))

    def is_char(self, node):
        return self.kind_of(node) is Kind.CHAR

    def is_error_negative(self, node):
        """Returns true if the only negative result of a system call is -1."""
        return node.name.name not in OWN_RESULTS
