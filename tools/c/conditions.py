"""Code for conditions: expressions that are tested, not used as values."""
from pycparser import c_ast

from constants import COMPARISONS
from expressions import DEEPEST, SCRATCH, SIGN, r
from kinds import UNSIGNED, Function, Kind, wrapped

# By comparison: the one that holds if it does not, and the one that holds if its sides are exchanged.
OPPOSITE = {'==': '!=', '!=': '==', '<': '>=', '>=': '<', '>': '<=', '<=': '>'}
MIRRORED = {'==': '==', '!=': '!=', '<': '>', '>=': '<=', '>': '<', '<=': '>='}


class Conditions:
    """Writes code for conditions in one function; a part of Writer."""

    def branch(self, node, label, when, depth=0):
        """Jumps to a label if the truth of a condition is `when`; otherwise goes on."""
        number = self.constant(node)
        if number is not None:
            if bool(number) == when:
                self.emit('jmp', label)
        elif isinstance(node, c_ast.UnaryOp) and node.op == '!':
            self.branch(node.expr, label, not when, depth)
        elif isinstance(node, c_ast.BinaryOp) and node.op in ('&&', '||'):
            self.branch_of_two(node, label, when, depth)
        elif isinstance(node, c_ast.BinaryOp) and node.op in COMPARISONS:
            self.compare(node, label, when, depth)
        else:
            if self.kind_of(node) is not Kind.HANDLER:
                self.number_kind(node)
            self.emit('jnz' if when else 'jz', r(self.sign_of(node, depth)), label)

    def branch_of_two(self, node, label, when, depth):
        if self.planted == 'both':
            operation = 'and' if node.op == '&&' else 'or'
            self.both(node.left, node.right, depth, Kind.LONG,
                      lambda right: self.emit(operation, r(depth), r(right)))
            self.emit('jnz' if when else 'jz', r(depth), label)
        elif when == (node.op == '||'):
            self.branch(node.left, label, when, depth)
            self.branch(node.right, label, when, depth)
        else:
            behind = self.new_label('and' if node.op == '&&' else 'or')
            self.branch(node.left, behind, not when, depth)
            self.branch(node.right, label, when, depth)
            self.put(behind)

    def truth(self, node, depth):
        """Puts 1 into a register if a condition holds, otherwise 0."""
        otherwise, end = self.new_label('not'), self.new_label('end')
        self.branch(node, otherwise, False, depth)
        self.set(depth, 1)
        self.emit('jmp', end)
        self.put(otherwise)
        self.set(depth, 0)
        self.put(end)

    # comparisons

    def compare(self, node, label, when, depth):
        if depth > DEEPEST:
            self.compare_deep(node, label, when, depth)
            return
        left, right, operation = node.left, node.right, node.op if when else OPPOSITE[node.op]
        if Kind.HANDLER in (self.kind_of(left), self.kind_of(right)):
            self.compare_handlers(node, operation, label, depth)
            return
        kind = self.common_kind(left, right)
        if self.constant(right) is None and self.constant(left) is not None:
            left, right, operation = right, left, MIRRORED[operation]
        self.compare_as(kind, left, right, operation, label, depth)

    def compare_as(self, kind, left, right, operation, label, depth):
        """Compares in a type. A difference of numbers of 32 bits fits in a register: its sign says which is smaller."""
        number, is_equality = self.constant(right), operation in ('==', '!=')
        number = None if number is None else wrapped(number, kind)
        if number == -1 and self.fails_with_minus_1(left) and is_equality:
            operation, number = ('<' if operation == '==' else '>='), 0
        if number == 0 and (operation in ('==', '!=') or kind not in UNSIGNED):
            self.compare_with_0(self.sign_of(left, depth), operation, label)
        elif is_equality:
            self.compare_equal(kind, left, right, operation, label, depth)
        elif kind in (Kind.LONG, Kind.UNSIGNED_LONG):
            self.compare_wide(kind, left, right, operation, label, depth)
        elif number is not None:
            self.compare_with_number(kind, left, number, operation, label, depth)
        elif operation in ('<', '>='):
            self.both(left, right, depth, kind, lambda register: self.emit('sub', r(depth), r(register)))
            self.compare_with_0(depth, operation, label)
        else:
            self.compare_greater(kind, left, right, operation, label, depth)

    def compare_deep(self, node, label, when, depth):
        with self.put_away(depth):
            self.truth(node, 0)
        self.emit('jnz' if when else 'jz', r(depth), label)

    def compare_handlers(self, node, operation, label, depth):
        if operation not in ('==', '!='):
            self.refuse_found(node, 'a comparison of handlers by == or !=', node.op)
        self.both(node.left, node.right, depth, Kind.HANDLER, lambda right: self.emit('sub', r(depth), r(right)))
        self.emit('jz' if operation == '==' else 'jnz', r(depth), label)

    def compare_equal(self, kind, left, right, operation, label, depth):
        number = self.constant(right)
        if number is not None and 0 < number < 128 and isinstance(left, c_ast.ArrayRef):
            self.raw_element(left, depth)
            self.with_number('sub', depth, number)
        else:
            self.both(left, right, depth, kind, lambda register: self.emit('sub', r(depth), r(register)))
        self.emit('jz' if operation == '==' else 'jnz', r(depth), label)

    def compare_with_number(self, kind, left, number, operation, label, depth):
        """Tests whether left - number or number - left is below 0."""
        if operation in ('<', '<='):
            self.value_as(left, depth, kind)
            self.with_number('sub', depth, number + (operation == '<='))
            self.emit('jlt', r(depth), label)
        else:
            register = self.operand_as(left, depth, kind)
            self.set(depth + 1, number - (operation == '>='))
            self.emit('sub', r(depth + 1), r(register))
            self.emit('jlt', r(depth + 1), label)

    def compare_greater(self, kind, left, right, operation, label, depth):
        """Left is greater if right - left is below 0."""
        register = self.operand_as(left, depth, kind)
        with self.waiting(*([register] if register == depth else [])):
            self.value_as(right, depth + 1, kind)
        self.emit('sub', r(depth + 1), r(register))
        self.compare_with_0(depth + 1, '<' if operation == '>' else '>=', label)

    def compare_wide(self, kind, left, right, operation, label, depth):
        """If two numbers have different signs, the sign of the first says which is smaller; otherwise the sign of the
        difference does. Unsigned numbers are first mapped to signed ones in the same order: the top bit is flipped."""
        self.value_as(left, depth, kind)
        with self.waiting(depth):
            self.value_as(right, depth + 1, kind)
        first, second = (depth, depth + 1) if operation in ('<', '>=') else (depth + 1, depth)
        if kind in UNSIGNED:
            self.with_number('xor', first, SIGN)
            self.emit('xor', r(second), r(SCRATCH))
        test = self.new_label('compared')
        self.move(depth + 2, first)
        self.emit('xor', r(depth + 2), r(second))
        self.emit('jlt', r(depth + 2), test)
        self.emit('sub', r(first), r(second))
        self.put(test)
        self.compare_with_0(first, '<' if operation in ('<', '>') else '>=', label)

    def compare_with_0(self, register, operation, label):
        if operation in ('==', '!='):
            self.emit('jz' if operation == '==' else 'jnz', r(register), label)
        elif operation in ('<', '<='):
            self.emit('jlt', r(register), label)
            if operation == '<=':
                self.emit('jz', r(register), label)
        else:
            behind = self.new_label('not')
            self.emit('jlt', r(register), behind)
            if operation == '>':
                self.emit('jz', r(register), behind)
            self.emit('jmp', label)
            self.put(behind)

    def fails_with_minus_1(self, node):
        """Returns true if an expression is a system call, and -1 for a failure is its only negative result."""
        return isinstance(node, c_ast.FuncCall) and not isinstance(self.meaning(node.name), Function) \
            and self.is_error_negative(node)

    def sign_of(self, node, depth):
        """Returns the register of a value; the caller uses only its sign and whether it is 0."""
        if isinstance(node, c_ast.FuncCall):
            return self.call(node, depth, wanted='sign')
        if isinstance(node, c_ast.ArrayRef) and self.element(node).kind is Kind.CHAR and depth <= DEEPEST:
            self.value(node, depth)
            return depth
        return self.operand(node, depth)
