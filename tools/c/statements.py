"""Code for statements and functions."""
from pycparser import c_ast

from expressions import r
from kinds import Kind, wrapped
from refusal import refuse

INSTEAD = {
    'Goto': 'expected C of the subset, found `goto`; write a loop and break',
    'Label': 'expected C of the subset, found a label; write a loop and break',
    'Case': 'expected a statement, found `case`; write it directly in the braces of a switch',
    'Default': 'expected a statement, found `default`; write it directly in the braces of a switch',
    'StaticAssert': 'expected C of the subset, found `_Static_assert`; leave it out',
    'FuncDef': 'expected a statement, found a function; define it outside other functions',
    'Pragma': 'expected C of the subset, found `#pragma`; leave it out',
}


class Statements:
    """Writes code for statements in one function; a part of Writer."""

    def statement(self, node):
        method = getattr(self, f'statement_{type(node).__name__.lower()}', None)
        if type(node).__name__ in INSTEAD:
            refuse(node, INSTEAD[type(node).__name__])
        if not isinstance(node, (c_ast.Compound, c_ast.DoWhile)):
            self.at(node)
        if method is not None:
            method(node)
        else:
            self.effect(node)

    def statement_compound(self, node):
        for item in node.block_items or []:
            self.statement(item)

    def statement_emptystatement(self, node):
        pass

    def statement_decl(self, node):
        variable = self.meaning(node)
        if node.init is not None and not variable.is_static:
            if variable in self.instance.places or self.has_effect(node.init):
                self.begin_variable(variable, node.init)

    @staticmethod
    def has_effect(node):
        """Returns true if an initial value must be evaluated even if its variable is never used."""
        return not isinstance(node, (c_ast.Constant, c_ast.ID))

    def statement_decllist(self, node):
        for declaration in node.decls:
            self.statement_decl(declaration)

    def statement_if(self, node):
        otherwise = self.new_label(f'else_{node.coord.line}')
        self.branch(node.cond, otherwise, False)
        self.statement(node.iftrue)
        if node.iffalse is None:
            self.put(otherwise)
            return
        end = self.new_label(f'end_{node.coord.line}')
        self.emit('jmp', end)
        self.put(otherwise)
        self.statement(node.iffalse)
        self.put(end)

    def begin_loop(self, node, word):
        """Places the label of a loop, unless a kept label is there, such as the function's. Returns that label, and the
        targets of `continue` and `break`."""
        line = node.coord.line
        again = self.assembly.last_label()
        if again is None or not again.is_kept:
            again = self.assembly.label(f'{word}_{line}', is_kept=True)
            self.put(again)
        return again, self.new_label(f'next_{line}'), self.new_label(f'done_{line}')

    def body(self, node, next_round, done):
        self.jumps.append((next_round, done))
        self.statement(node)
        self.jumps.pop()

    def statement_while(self, node):
        again, _, done = self.begin_loop(node, 'while')
        self.branch(node.cond, done, False)
        self.body(node.stmt, again, done)
        self.at(node)
        self.emit('jmp', again)
        self.put(done)

    def statement_dowhile(self, node):
        again, condition, done = self.begin_loop(node, 'do')
        self.body(node.stmt, condition, done)
        self.put(condition)
        self.at(node.cond)
        self.branch(node.cond, again, True)
        self.put(done)

    def statement_for(self, node):
        if node.init is not None:
            self.statement(node.init)
        again, step, done = self.begin_loop(node, 'for')
        if node.cond is not None:
            self.branch(node.cond, done, False)
        self.body(node.stmt, step, done)
        self.put(step)
        self.at(node)
        if node.next is not None:
            self.effect(node.next)
        self.emit('jmp', again)
        self.put(done)

    def statement_break(self, node):
        if not self.jumps:
            refuse(node, 'expected a loop or a switch around `break`; leave it out')
        self.emit('jmp', self.jumps[-1][1])

    def statement_continue(self, node):
        target = next((step for step, _ in reversed(self.jumps) if step is not None), None)
        if target is None:
            refuse(node, 'expected a loop around `continue`; leave it out')
        self.emit('jmp', target)

    def statement_switch(self, node):
        if not isinstance(node.stmt, c_ast.Compound):
            refuse(node, 'expected braces after switch (..)')
        done = self.new_label(f'done_{node.coord.line}')
        kind = self.number_kind(node.cond)
        register = self.operand_as(node.cond, 0, kind)
        labels, default, numbers = [], done, set()
        for item in node.stmt.block_items or []:
            if isinstance(item, c_ast.Case):
                labels.append(self.test_case(item, register, numbers, kind))
            elif isinstance(item, c_ast.Default):
                default = self.new_label(f'default_{item.coord.line}')
                labels.append(default)
            elif not labels:
                refuse(item, 'expected case or default before the first statement of a switch')
        self.emit('jmp', default)
        self.jumps.append((None, done))
        for item in node.stmt.block_items or []:
            self.part_of_switch(item, labels)
        self.jumps.pop()
        self.put(done)

    def test_case(self, item, register, numbers, kind):
        number = self.constant(item.expr)
        if number is None:
            refuse(item.expr, 'expected a constant after case; write a number, or a name of #define or enum')
        number = wrapped(number, kind)
        if number in numbers:
            refuse(item.expr, f'expected another number, found `{number}` in a second case; join the two')
        numbers.add(number)
        label = self.new_label(f'case_{item.coord.line}')
        if number == 0:
            self.emit('jz', r(register), label)
            return label
        self.set(1, number)
        self.emit('sub', r(1), r(register))
        self.emit('jz', r(1), label)
        return label

    def part_of_switch(self, item, labels):
        if not isinstance(item, (c_ast.Case, c_ast.Default)):
            self.statement(item)
            return
        self.put(labels.pop(0))
        for statement in item.stmts or []:
            if isinstance(statement, (c_ast.Case, c_ast.Default)):
                refuse(statement, INSTEAD['Case'])
            self.statement(statement)

    def statement_return(self, node):
        gives = self.instance.function.gives
        if node.expr is None and gives is not Kind.VOID:
            refuse(node, f'expected a value, because {self.instance.function.name} returns {gives.value}; write '
                   'return 0')
        if node.expr is not None and gives is Kind.VOID:
            refuse(node, f'expected no value, because {self.instance.function.name} returns void; write return;')
        if self.instance.function.name == 'main':
            self.value_as(node.expr, 1, Kind.INT)
            self.emit('sys', 'exit')
        else:
            if node.expr is not None:
                self.value_as(node.expr, 0, gives)
            self.emit('jmp', self.end)
