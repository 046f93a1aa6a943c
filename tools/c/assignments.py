"""Code for assignments, ++ and --, initial values, and expressions whose value is not used."""
from pycparser import c_ast

from assembly import Word
from constants import bytes_of, is_flags, is_null, is_string, is_void
from expressions import INSTRUCTIONS, SCRATCH, r
from kinds import MEMBER_KINDS, MEMBERS, NUMBERS, WORDS, Kind, Variable, common, promoted, wrapped
from refusal import refuse

MEMBER_ORDER = {Kind.ACTION: ('sa_handler', 'sa_mask', 'sa_flags'), Kind.VALUE: ('sival_int',)}


class Assignments:
    """Writes code for assignments in one function; a part of Writer."""

    def effect(self, node, depth=0):
        """Writes code for the side effects of an expression whose value is not used."""
        if isinstance(node, c_ast.Assignment):
            self.assign(node, depth, is_wanted=False)
        elif isinstance(node, c_ast.UnaryOp) and node.op in ('p++', 'p--', '++', '--'):
            self.step(node, depth, None)
        elif isinstance(node, c_ast.ExprList):
            for part in node.exprs:
                self.effect(part, depth)
        elif isinstance(node, c_ast.Cast) and is_void(node.to_type):
            if not isinstance(node.expr, c_ast.ID):
                self.effect(node.expr, depth)
        elif isinstance(node, c_ast.FuncCall):
            self.call(node, depth, wanted=None)
        elif isinstance(node, c_ast.BinaryOp) and node.op in ('&&', '||'):
            self.effect_of_two(node, depth)
        elif isinstance(node, c_ast.TernaryOp):
            self.effect_of_choice(node, depth)
        elif self.constant(node) is None:
            if self.kind_of(node) is not Kind.HANDLER:
                self.number_kind(node)
            self.value(node, depth)

    def effect_of_two(self, node, depth):
        end = self.new_label('end')
        self.branch(node.left, end, node.op == '||', depth)
        self.effect(node.right, depth)
        self.put(end)

    def effect_of_choice(self, node, depth):
        otherwise, end = self.new_label('else'), self.new_label('end')
        self.branch(node.cond, otherwise, False, depth)
        self.effect(node.iftrue, depth)
        self.emit('jmp', end)
        self.put(otherwise)
        self.effect(node.iffalse, depth)
        self.put(end)

    def value_assignment(self, node, depth):
        if self.stored_kind(node.lvalue) not in (*NUMBERS, Kind.HANDLER) or is_flags(node.lvalue):
            refuse(node, 'expected an assignment whose value is not used; write it as a statement of its own')
        self.assign(node, depth, is_wanted=True)

    def assign(self, node, depth, is_wanted):
        target = node.lvalue
        if not isinstance(target, (c_ast.ID, c_ast.ArrayRef, c_ast.StructRef)):
            refuse(target, 'expected a variable, an element or a member on the left side; there are no pointers')
        if node.op != '=' and node.op[:-1] not in INSTRUCTIONS and node.op not in ('<<=', '>>='):
            refuse(node, f'expected an operator of the subset, found `{node.op}`')
        self.refuse_constant(target)
        if self.assign_whole(node):
            return
        if node.op != '=' and self.stored_kind(target) is Kind.HANDLER:
            self.refuse_found(node, '= after a handler', node.op)
        place = self.fixed_place(target)
        if place is None:
            self.assign_element(node, depth, is_wanted)
        else:
            self.assign_fixed(node, place, depth, is_wanted)

    def refuse_constant(self, target):
        variable = self.meaning(target if isinstance(target, c_ast.ID) else target.name)
        if isinstance(variable, Variable) and 'const' in getattr(variable.node, 'quals', ()):
            refuse(target, f'expected a variable without const, found `{variable.name}`; leave out const or the '
                   'assignment')

    def assign_whole(self, node):
        """Copies a variable that is neither a number nor a handler, such as a signal set. Returns true if the target is
        such a variable."""
        kind = self.stored_kind(node.lvalue)
        if kind in NUMBERS or kind is Kind.HANDLER:
            return False
        source = node.rvalue
        if node.op != '=' or not isinstance(source, (c_ast.ID, c_ast.StructRef)) \
                or self.stored_kind(source) is not kind:
            refuse(node, f'expected another {kind.value} on the right side; write a = b')
        place, other = self.fixed_place(node.lvalue), self.fixed_place(source)
        for number in range(WORDS.get(kind, 1)):
            self.load(0, other + number)
            self.store(0, place + number)
        return True

    def stored_kind(self, node):
        """Returns the kind in which the left side of an assignment is stored."""
        if isinstance(node, c_ast.StructRef):
            return MEMBER_KINDS.get(self.member(node)[1], Kind.INT) if node.field.name != 'sival_int' else Kind.INT
        variable = self.element(node) if isinstance(node, c_ast.ArrayRef) else self.meaning(node)
        if not isinstance(variable, Variable):
            refuse(node, 'expected a variable, an element or a member')
        if isinstance(node, c_ast.ID) and variable.length is not None:
            refuse(node, f'expected a number, found the array `{variable.name}`; write {variable.name}[0]')
        return variable.kind

    def assign_fixed(self, node, place, depth, is_wanted):
        """Assigns to a variable in a register, or to a word at a known address."""
        kind, register = self.stored_kind(node.lvalue), depth
        if node.op == '=':
            register = self.assign_new(node, place, kind, depth)
        elif not isinstance(place, Word) and self.is_in_place(node, kind):
            self.emit(INSTRUCTIONS[node.op[:-1]], r(place), r(self.operand(node.rvalue, depth)))
            register = place
        else:
            self.load(depth, place)
            if kind is Kind.CHAR:
                self.sign(depth)
            self.change_by(node, kind, depth)
            self.keep_char(kind, depth)
            self.store(depth, place)
        if is_wanted:
            self.move(depth, register)
            if kind is Kind.CHAR:
                self.sign(depth)

    def is_in_place(self, node, kind):
        """Returns true if one instruction on the register of a variable does the whole operation."""
        other = self.number_kind(node.rvalue)
        return (node.op[:-1] in INSTRUCTIONS and kind in (Kind.INT, Kind.LONG) and common(kind, other) is kind)

    def assign_new(self, node, place, kind, depth):
        """Assigns the right side of =. Returns the register that then holds the value."""
        if kind is Kind.CHAR:
            self.value_as(node.rvalue, depth, kind)
            self.keep_char(kind, depth, self.constant(node.rvalue))
            register = depth
        elif isinstance(place, Word):
            register = self.operand_as(node.rvalue, depth, kind)
        else:
            self.value_into(node.rvalue, place, kind, depth)
            return place
        self.store(register, place)
        return register

    def value_into(self, node, register, kind, depth):
        """Puts the value of an expression into the register of a variable."""
        own, number = self.number_kind(node), self.constant(node)
        if number is not None:
            self.set(register, wrapped(number, kind))
        elif own is kind or self.is_kept(node, kind):
            self.move(register, self.operand(node, depth))
        else:
            self.value_as(node, depth, kind)
            self.move(register, depth)

    def keep_char(self, kind, register, number=None):
        """Cuts the value of a char to its low byte."""
        if kind is Kind.CHAR and not (number is not None and 0 <= number < 128):
            self.with_number('and', register, 255)

    def change_by(self, node, kind, depth):
        """Applies the operation of += or another such assignment to a value. The result has the type of that value."""
        operation, other = node.op[:-1], self.number_kind(node.rvalue)
        if operation in ('<<', '>>'):
            count = self.shift_count(node, node.rvalue, promoted(kind))
            if count is None:
                with self.waiting(depth):
                    self.value(node.rvalue, depth + 1)
            self.shift_by(node, operation, promoted(kind), depth, count)
            return
        both = common(kind, other)
        if both is Kind.UNSIGNED and promoted(kind) is Kind.INT:
            self.convert(depth, both)
        with self.waiting(depth):
            right = self.operand_as(node.rvalue, depth + 1, both)
        self.operate(node, operation, both, depth, right)
        if kind is not Kind.CHAR and both is not kind and both is not Kind.INT and kind in (Kind.INT, Kind.UNSIGNED):
            self.convert(depth, kind)

    def assign_element(self, node, depth, is_wanted):
        """Assigns to an element. The address is evaluated before the value, which goes into the next register."""
        if depth > 1:
            with self.put_away(depth):
                self.assign_element(node, 0, is_wanted)
            return
        kind = self.stored_kind(node.lvalue)
        self.address(node.lvalue, depth)
        with self.waiting(depth):
            if node.op == '=':
                self.value_as(node.rvalue, depth + 1, kind)
            else:
                self.emit('ld', r(depth + 1), r(depth))
                if kind is Kind.CHAR:
                    self.sign(depth + 1)
                self.change_by(node, kind, depth + 1)
        self.keep_char(kind, depth + 1, self.constant(node.rvalue) if node.op == '=' else None)
        self.emit('st', r(depth + 1), r(depth))
        if is_wanted:
            self.move(depth, depth + 1)
            if kind is Kind.CHAR:
                self.sign(depth)

    # steps by one

    def step(self, node, depth, wanted):
        """Writes ++ or --. `wanted` is the value that is used: 'old', 'new' or None."""
        operation = 'add' if '+' in node.op else 'sub'
        if not isinstance(node.expr, (c_ast.ID, c_ast.ArrayRef, c_ast.StructRef)):
            refuse(node, f'expected {node.op.strip("p")} of a variable, an element or a member')
        kind = self.stored_kind(node.expr)
        if kind not in NUMBERS or is_flags(node.expr):
            refuse(node, f'expected {node.op.strip("p")} of a number; write an int')
        self.refuse_constant(node.expr)
        place = self.fixed_place(node.expr)
        if place is None:
            self.step_element(node, kind, depth, operation, wanted)
        elif isinstance(place, Word):
            self.step_word(node, place, kind, depth, operation, wanted)
        else:
            if wanted == 'old':
                self.move(depth, place)
            self.with_number(operation, place, 1)
            self.keep_bits(place, kind)
            if wanted == 'new':
                self.move(depth, place)

    def step_word(self, node, place, kind, depth, operation, wanted):
        if kind is not Kind.CHAR:
            self.step_int(place, kind, depth, operation, wanted)
            return
        self.value(node.expr, depth)
        if wanted == 'old':
            self.move(depth + 1, depth)
        changed = depth + 1 if wanted == 'old' else depth
        self.with_number(operation, changed, 1)
        self.keep_char(kind, changed)
        self.store(changed, place)
        if wanted == 'new':
            self.sign(depth)

    def step_int(self, place, kind, depth, operation, wanted):
        changed = depth + 1 if wanted == 'old' else depth
        self.set(SCRATCH, place)
        self.emit('ld', r(depth), r(SCRATCH))
        self.move(changed, depth)
        self.set(changed + 1, 1)
        self.emit(operation, r(changed), r(changed + 1))
        if kind is Kind.UNSIGNED:
            self.keep_bits(changed, kind)
            self.set(SCRATCH, place)
        self.emit('st', r(changed), r(SCRATCH))

    def step_element(self, node, kind, depth, operation, wanted):
        self.address(node.expr, depth + 1)
        self.emit('ld', r(depth), r(depth + 1))
        if kind is Kind.CHAR:
            self.sign(depth)
        changed = depth + 2 if wanted == 'old' else depth
        self.move(changed, depth)
        self.with_number(operation, changed, 1)
        self.keep_bits(changed, kind)
        self.keep_char(kind, changed)
        self.emit('st', r(changed), r(depth + 1))
        if wanted == 'new' and kind is Kind.CHAR:
            self.sign(depth)

    # initial values

    def begin_variable(self, variable, init):
        """Writes the initial value of a variable."""
        place = self.place(variable)
        if variable.length is not None:
            self.begin_array(variable, init, place)
        elif variable.kind in NUMBERS:
            if isinstance(init, c_ast.InitList):
                refuse(init, 'expected a number without braces')
            self.begin_number(variable, init, place)
        elif isinstance(init, c_ast.InitList) and variable.kind in (Kind.ACTION, Kind.VALUE):
            self.begin_members(variable, init, place)
        elif isinstance(init, c_ast.InitList) and len(init.exprs) == 1 and self.constant(init.exprs[0]) == 0:
            self.fill(place, [None] * variable.words)
        elif isinstance(init, c_ast.ID) and self.stored_kind(init) is variable.kind:
            for number in range(variable.words):
                self.load(0, self.fixed_place(init) + number)
                self.store(0, place + number)
        else:
            refuse(init, f'expected {{ 0 }} or another {variable.kind.value}; write {variable.name} = other')

    def begin_number(self, variable, init, place):
        if not isinstance(place, Word):
            self.value_into(init, place, variable.kind, 0)
            return
        self.value_as(init, 0, variable.kind)
        self.keep_char(variable.kind, 0, self.constant(init))
        self.store(0, place)

    def begin_array(self, variable, init, place):
        if is_string(init) and variable.kind is Kind.CHAR:
            values = [c_ast.Constant('int', str(value), init.coord) for value in bytes_of(init)]
        elif isinstance(init, c_ast.InitList):
            values = list(init.exprs)
        else:
            refuse(init, 'expected the values of an array in braces; write { 1, 2 }')
        if any(isinstance(value, (c_ast.NamedInitializer, c_ast.InitList)) for value in values):
            refuse(init, 'expected the values of an array in order, found an index or inner braces; write { 1, 2 }')
        if len(values) > variable.length:
            refuse(init, f'expected at most {variable.length} values, found `{len(values)}`')
        self.fill(place, values + [None] * (variable.length - len(values)), [variable.kind] * variable.length)

    def fill(self, place, values, kinds=()):
        """Stores values in consecutive words, each in its kind, and 0 for each missing value."""
        for number, value in enumerate(values):
            if value is None:
                self.set(0, 0)
            else:
                self.value_as(value, 0, kinds[number])
                if kinds[number] is Kind.CHAR:
                    self.with_number('and', 0, 255)
            self.store(0, place + number)

    def begin_members(self, variable, init, place):
        order = MEMBER_ORDER[variable.kind]
        values = dict.fromkeys(range(len(order)))
        for number, value in enumerate(init.exprs):
            if isinstance(value, c_ast.NamedInitializer):
                name = value.name[0].name if isinstance(value.name[0], c_ast.ID) else ''
                if len(value.name) != 1 or name not in MEMBERS[variable.kind]:
                    refuse(value, f'expected a member: {", ".join(MEMBERS[variable.kind])}')
                values[MEMBERS[variable.kind][name]] = value.expr
            elif number == 0 and is_null(value, self.unit.meaning):
                values[0] = value
            else:
                refuse(value, f'expected the name of a member; write .{order[0]} = ..')
        kinds = [MEMBER_KINDS.get(name, Kind.INT) for name in order]
        if Kind.SET in kinds and values[1] is not None:
            refuse(init, 'expected braces without sa_mask; write sigemptyset(&action.sa_mask)')
        self.fill(place, list(values.values()), kinds)
