"""The signals that each handler handles, and two checks that need them.

A handler has one copy of its variables in memory, so it must not be entered again while it runs. And a member of its
siginfo_t must have a value that the machine knows.
"""
from dataclasses import dataclass

from pycparser import c_ast

from constants import constant, is_flags
from kinds import Function, Kind, Variable
from refusal import refuse

CHLD, SIG_BLOCK, SA_NODEFER, FLAGS, BELOW_32 = 17, 0, 0x40000000, 0xd0000007, 0xffffffff
BRANCHES = (c_ast.If, c_ast.TernaryOp)
LOOPS = (c_ast.While, c_ast.DoWhile, c_ast.For, c_ast.Switch)


@dataclass(frozen=True)
class Installed:
    """A handler that the file sets or may set. The signal is None if it is not a constant."""
    function: Function
    signal: int
    node: c_ast.Node


@dataclass(frozen=True)
class Old:
    """The earlier handlers of a signal: what sigaction stores at &old."""
    signal: int


def installed(unit):
    """Returns all handlers that a file may set."""
    flow = Flow(unit)
    for function in unit.functions.values():
        flow.state = {}
        flow.walk(function.node.body)
    found, before = set(flow.installed), None
    while found != before:                      # an old handler may be set again
        before = set(found)
        for it in before:
            if isinstance(it.function, Old):
                found |= {Installed(other.function, it.signal, it.node) for other in before
                          if None in (other.signal, it.function.signal) or other.signal == it.function.signal}
    return [it for it in found if isinstance(it.function, Function)]


class Flow:
    """Walks a function, statement by statement, and keeps the handlers that each local variable may hold. A global or
    static variable may hold every handler that the file ever assigns to it."""

    def __init__(self, unit):
        self.meaning = unit.meaning
        self.state = {}                         # by local variable, the handlers that it may hold
        self.at_cases = {}                      # the state from which a switch jumps to its cases
        self.given = {}                         # by variable, all that is ever assigned to it, also variables
        self.installed = []
        for node in unit.source.tree.ext:
            for variable, value in self.assignments(node):
                self.given.setdefault(variable, set()).update(self.named(value))

    def action_of(self, node):
        """Returns the struct sigaction of a node, which is its name, its address or its handler; None for others."""
        if isinstance(node, c_ast.UnaryOp) and node.op == '&':
            node = node.expr
        if isinstance(node, c_ast.StructRef) and node.field.name in ('sa_handler', 'sa_sigaction'):
            node = node.name
        variable = self.meaning.get(id(node))
        return variable if isinstance(variable, Variable) and variable.kind is Kind.ACTION else None

    def assignment(self, node):
        """Returns the struct sigaction whose handler a node changes, and the node of the new value; otherwise None."""
        if isinstance(node, c_ast.Assignment) and self.action_of(node.lvalue):
            return self.action_of(node.lvalue), node.rvalue
        if isinstance(node, c_ast.Decl) and node.init is not None and self.action_of(node):
            return self.action_of(node), node.init
        if is_call(node, 'sigaction') and self.action_of(node.args.exprs[-1]):
            return self.action_of(node.args.exprs[-1]), node
        return None

    def assignments(self, node):
        found = self.assignment(node)
        return ([found] if found else []) + [it for _, child in node.children() for it in self.assignments(child)]

    def named(self, value):
        """Returns the functions and variables that a value names."""
        if is_call(value, 'sigaction'):
            return {Old(constant(value.args.exprs[0], self.meaning))}
        action = self.action_of(value)
        if action:
            return {action}
        known = self.meaning.get(id(value)) if isinstance(value, c_ast.ID) else None
        return ({known} if isinstance(known, Function) else set()).union(
            *(self.named(child) for _, child in value.children()))

    def values(self, names):
        """Returns the functions among some names, and the handlers that the variables among them may hold here."""
        found = set()
        for it in names:
            is_local = isinstance(it, Variable) and not (it.is_global or it.is_static)
            found |= self.state.get(it, set()) if is_local else self.ever(it)
        return found

    def ever(self, name, seen=()):
        """Returns every handler that is ever assigned to a variable, directly or by other variables."""
        if not isinstance(name, Variable):
            return {name}
        return set().union(*(self.ever(it, (*seen, name)) for it in self.given.get(name, ()) if it not in seen))

    def walk(self, node):
        if isinstance(node, LOOPS):
            self.walk_loop(node)
        elif isinstance(node, BRANCHES):
            self.walk(node.cond)
            self.join(node.iftrue, node.iffalse)
        elif isinstance(node, c_ast.BinaryOp) and node.op in ('&&', '||'):
            self.walk(node.left)
            self.join(node.right, None)
        else:
            if isinstance(node, (c_ast.Case, c_ast.Default)):
                self.add(self.at_cases)
            for _, child in node.children():
                self.walk(child)
            self.take(node)

    def take(self, node):
        if is_call(node, 'sigaction') or is_call(node, 'signal'):
            signal, action = node.args.exprs[:2]
            self.installed += [Installed(it, constant(signal, self.meaning), node)
                               for it in self.values(self.named(action))]
        found = self.assignment(node)
        if found:
            self.state[found[0]] = self.values(self.named(found[1]))

    def add(self, state):
        self.state = {variable: self.state.get(variable, set()) | state.get(variable, set())
                      for variable in {*self.state, *state}}

    def join(self, *branches):
        """Walks two branches, of which one may be None, and keeps what may hold after either."""
        before, after = self.state, []
        for branch in branches:
            self.state = dict(before)
            if branch is not None:
                self.walk(branch)
            after.append(self.state)
        self.add(after[0])

    def walk_loop(self, node):
        """Walks a loop or a switch. A variable that is assigned there may hold all that is ever assigned to it."""
        self.add({variable: self.ever(variable) for variable, _ in self.assignments(node)})
        around, before = self.at_cases, self.state
        self.at_cases = before
        for _, child in node.children():
            self.walk(child)
        self.at_cases = around
        self.add(before)


def is_call(node, name):
    return (isinstance(node, c_ast.FuncCall) and node.name.name == name and node.args is not None
            and len(node.args.exprs) >= 2)


# handlers that are entered again while they run

def refuse_entered_again(unit, contexts):
    """Refuses a handler that can be entered again while it runs, if it or a function that it calls has variables in
    memory: there is one copy of them."""
    changer = next((context.root for context in contexts if changes_mask(unit, context)), None)
    is_at_once = may_be_entered_at_once(unit)
    for context in contexts:
        if any(instance.frame.size for instance in context.instances.values()):
            refuse_again(unit, context.root, changer, is_at_once)


def refuse_again(unit, handler, changer, is_at_once):
    its = [it for it in unit.installed if it.function is handler]
    signals, again = {it.signal for it in its}, None
    if len(signals) > 1 or None in signals:
        again = 'handles several signals'
    elif is_at_once:
        again = 'may be set with SA_NODEFER'
    elif changer is handler:
        again = 'changes the mask'
    elif changer is not None:
        again = f'can be interrupted by {changer.name}, which changes the mask'
    if again:
        last = max(its, key=lambda it: (it.node.coord.line, it.node.coord.column), default=None)
        refuse(last.node if last else handler.node, 'expected a handler that is not entered again while it runs, found '
               f'`{handler.name}`, which {again}; write a handler for each signal, or use at most two variables in it')


def changes_mask(unit, context):
    """Returns true if a handler can unblock a signal."""
    for call in (call for function in context.instances for call in function.system_calls):
        if call.name.name == 'sigsuspend':
            return True
        if call.name.name == 'sigprocmask' and constant(call.args.exprs[0], unit.meaning) != SIG_BLOCK:
            return True
    return False


def may_be_entered_at_once(unit):
    """Returns true if the file sets SA_NODEFER anywhere."""
    return any(bits & SA_NODEFER for node in unit.source.tree.ext for bits in flags_set(node, unit))


def flags_set(node, unit):
    """Yields the values that the file assigns to sa_flags. Refuses values that are not constant, and flags that the
    machine does not have: with these its sigaction fails with EINVAL, but Linux ignores them."""
    if isinstance(node, c_ast.Assignment) and is_flags(node.lvalue) and node.op != '&=':
        if node.op not in ('=', '|=', '^='):
            refuse(node, f'expected =, |=, ^= or &= after sa_flags, found `{node.op}`')
        yield from known_flags(node.rvalue, unit)
    elif isinstance(node, c_ast.NamedInitializer) and getattr(node.name[0], 'name', None) == 'sa_flags':
        yield from known_flags(node.expr, unit)
    for _, child in node.children():
        yield from flags_set(child, unit)


def known_flags(node, unit):
    values = values_of(node, unit)
    if any(bits is None or bits & ~FLAGS & BELOW_32 for bits in values):
        refuse(node, 'expected constant flags: SA_NOCLDSTOP, SA_NOCLDWAIT, SA_SIGINFO, SA_RESTART, SA_NODEFER or '
               'SA_RESETHAND')
    return values


def values_of(node, unit):
    if isinstance(node, c_ast.TernaryOp):
        return [*values_of(node.iftrue, unit), *values_of(node.iffalse, unit)]
    if isinstance(node, c_ast.BinaryOp) and node.op == '|':
        return [*values_of(node.left, unit), *values_of(node.right, unit)]
    return [constant(node, unit.meaning)]


# the siginfo_t of a handler

def tells_of_children(unit, handler):
    """Returns true if a handler handles only SIGCHLD: then its siginfo_t describes a child."""
    return {it.signal for it in unit.installed if it.function is handler} == {CHLD}


def refuse_unknown_members(unit, units):
    """Refuses a member of a handler's siginfo_t that the machine does not know. If a status change caused SIGCHLD, the
    machine knows the child's wait status; of other signals it knows the value; of a SIGCHLD that is sent, neither."""
    for node in unit.members:
        variable, member = unit.meaning.get(id(node.name)), node.field.name
        if not isinstance(variable, Variable) or not variable.is_pointer or member == 'si_pid':
            continue
        handler = next(it for it in unit.functions.values() if variable in it.parameters)
        signals = {it.signal for it in unit.installed if it.function is handler}
        if not signals:
            continue
        if signals == {CHLD}:
            if any(sends_chld(other) for other in units):
                refuse(node, f'expected the {member} of a child, but a program sends SIGCHLD, or a signal that is not '
                       'constant; send another signal')
        elif member in ('si_code', 'si_status'):
            refuse(node, f'expected a handler of only SIGCHLD, because it reads {member}; write one only for SIGCHLD')
        elif CHLD in signals or None in signals:
            refuse(node, f'expected a handler without SIGCHLD, because it reads {member}; write a handler for each '
                   'signal')


def sends_chld(unit):
    return any(call.name.name in ('kill', 'killpg', 'sigqueue') and len(call.args.exprs) > 1
               and constant(call.args.exprs[1], unit.meaning) in (None, CHLD)
               for function in unit.functions.values() for call in function.system_calls if call.args)
