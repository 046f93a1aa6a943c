"""Finds what each name in a C file means: a variable, a function or a constant; and what each function uses."""
import difflib
import os
import re
from dataclasses import dataclass, field

from pycparser import c_ast

from assembly import MEMORY
from constants import bytes_of, constant, is_null, is_string, is_void, kind_of
from facts import INSTEAD, PROVIDED
from kinds import NUMBERS, RANKS, Function, Kind, Variable, holds, kind_of_words
from refusal import refuse
from source import HEADERS


@dataclass
class Unit:
    """A C file whose names are known."""
    source: object
    meaning: dict = field(default_factory=dict)         # by the id of a node
    variables: list = field(default_factory=list)       # the global and static variables
    functions: dict = field(default_factory=dict)
    handlers: list = field(default_factory=list)        # functions that are named outside calls
    installed: list = field(default_factory=list)       # the handlers that the file sets, with their signals
    errno: Variable = None
    saved_errno: dict = field(default_factory=dict)     # by variable: how often it saves errno, or restores it
    members: list = field(default_factory=list)         # nodes that name a member

    @property
    def keeps_errno(self):
        """Returns true if the file does more with errno than to save and restore it."""
        saved = self.saved_errno
        # Saves and restores each use errno once. Restores also use the variable once; declarations that save do not.
        return self.errno is not None and (self.errno.uses != sum(saved.values())
                                           or any(variable.uses != count - 1 for variable, count in saved.items()))

    def uses_member(self, *names):
        return any(node.field.name in names for node in self.members)


class Resolver:
    """Walks a tree, and records in a unit what each name means."""

    def __init__(self, source):
        self.unit = Unit(source)
        self.scopes = [{}]
        self.tags = [{}]                # by tag, the kinds of enums
        self.function = None
        self.loops = 0

    def run(self):
        own = [node for node in self.unit.source.tree.ext if node.coord.file == self.unit.source.shown]
        for node in own:
            if isinstance(node, c_ast.FuncDef):
                self.begin_function(node)
        for node in self.unit.source.tree.ext:
            if isinstance(node, c_ast.FuncDef):
                self.walk_function(self.declare_function(node.decl))
            elif isinstance(node, c_ast.Decl):
                self.declare(node)
            elif node in own:
                refuse(node, 'expected a function, a variable or an enum; write the type in place of a typedef')
        return self.unit

    # functions

    def begin_function(self, node):
        name = node.decl.name
        if name in self.unit.functions:
            refuse(node, f'expected a new name, found `{name}`, which is defined above; rename one')
        if name in PROVIDED:
            refuse(node, f'expected a name that the system does not use, found `{name}`; rename the function')
        self.unit.functions[name] = Function(name, node, None)

    def declare_function(self, node):
        """Declares a function of the file, which can be called from here on."""
        function = self.unit.functions[node.name]
        result = node.type.type
        function.gives = self.kind(result, result) if isinstance(result, c_ast.TypeDecl) else None
        if function.gives not in (*RANKS, Kind.VOID):
            refuse(node, f'expected a function that returns int, long, an unsigned type or void; write int {node.name}'
                   '(..)')
        self.scopes[-1][node.name] = function
        return function

    def walk_function(self, function):
        if function.node.param_decls:
            refuse(function.node, 'expected the types of parameters in the parentheses; write int f(int a)')
        self.function = function
        self.begin_scope()
        parameters = function.node.decl.type.args
        for parameter in parameters.params if parameters else []:
            self.declare_parameter(function, parameter)
        self.walk_children(function.node.body)
        self.end_scope()
        self.function = None

    def declare_parameter(self, function, node):
        if isinstance(node, c_ast.EllipsisParam):
            refuse(function.node, 'expected a fixed number of parameters, found `...`')
        if isinstance(node, c_ast.ID):
            refuse(node, f'expected a parameter with a type, found `{node.name}`; write int {node.name}')
        if isinstance(node, c_ast.Typename):
            if self.kind(node.type, node) is Kind.VOID:
                return
            refuse(node, 'expected a parameter with a name; write int a')
        variable = self.variable(node, is_parameter=True)
        function.parameters.append(variable)
        function.variables.append(variable)
        self.scopes[-1][node.name] = variable

    # declarations

    def kind(self, node, place):
        """Returns the kind of a type that is not an array."""
        inner = node.type if isinstance(node, c_ast.TypeDecl) else node
        if isinstance(inner, c_ast.IdentifierType):
            kind = kind_of_words(inner.names)
            return kind or refuse(place, f'expected a type of the subset, found `{" ".join(inner.names)}`; write int')
        if isinstance(inner, c_ast.Enum):
            return self.kind_of_enum(inner)
        if isinstance(inner, c_ast.Struct) and inner.name == 'sigaction' and not inner.decls:
            return Kind.ACTION
        if isinstance(inner, c_ast.Union) and inner.name == 'sigval' and not inner.decls:
            return Kind.VALUE
        if isinstance(inner, (c_ast.Struct, c_ast.Union)):
            refuse(place, 'expected no struct or union but struct sigaction and union sigval; write an array for each '
                   'member')
        if isinstance(inner, c_ast.PtrDecl):
            refuse(place, 'expected C without pointers; write an array and an index')
        return refuse(place, 'expected a type of the subset; write int')

    def kind_of_enum(self, node):
        """An enum is signed if one of its constants is below 0, as in gcc."""
        if node.values is None:
            found = next((tags[node.name] for tags in reversed(self.tags) if node.name in tags), None)
            return found or refuse(node, f'expected an enum that is defined above, found `{node.name}`')
        values = self.declare_constants(node)
        kind = Kind.INT if any(value < 0 for value in values) else Kind.UNSIGNED
        self.tags[-1][node.name] = kind
        return kind

    def declare_constants(self, node):
        value, values = -1, []
        for item in node.values.enumerators:
            if item.value is not None:
                self.walk(item.value)
            value = value + 1 if item.value is None else self.needed_constant(item.value)
            if not holds(Kind.INT, value):
                refuse(item, f'expected a value that fits in int, found `{value}`')
            self.scopes[-1][item.name] = value
            values.append(value)
        return values

    def declare(self, node):
        """Declares a variable, constants or a function."""
        if isinstance(node.type, c_ast.FuncDecl):
            if node.name in self.unit.functions:
                self.declare_function(node)
            return
        if node.name is None:
            self.kind(node.type, node)
            return
        variable = self.variable(node)
        variable.is_global = self.function is None
        variable.is_static = 'static' in node.storage and self.function is not None
        if node.name in self.scopes[-1]:
            refuse(node, f'expected a new name, found `{node.name}`, which is defined above; rename one')
        self.scopes[-1][node.name] = variable
        self.unit.meaning[id(node)] = variable
        if variable.is_global or variable.is_static:
            self.unit.variables.append(variable)
        else:
            self.function.variables.append(variable)
        if node.init is not None:
            self.walk(node.init)
            if variable.is_global or variable.is_static:
                self.require_fixed(node.init)
            if is_errno(node.init):
                self.save_errno(variable)

    def require_fixed(self, node):
        """Refuses a value of a static or global variable that is not known before the program runs."""
        if isinstance(node, (c_ast.InitList, c_ast.NamedInitializer)):
            for part in node.exprs if isinstance(node, c_ast.InitList) else [node.expr]:
                self.require_fixed(part)
        elif not (is_string(node) or is_null(node, self.unit.meaning) or constant(node, self.unit.meaning) is not None
                  or isinstance(node, (c_ast.ID, c_ast.Cast)) and kind_of(node, self.unit.meaning) is Kind.HANDLER):
            refuse(node, 'expected a constant as the first value of a static or global variable; assign it in a '
                   'function')

    def variable(self, node, is_parameter=False):
        refused = {'extern', 'register', 'auto', '_Thread_local'} & set(node.storage or ())
        if refused:
            refuse(node, f'expected C of the subset, found `{refused.pop()}`; leave it out')
        if node.name in PROVIDED or node.name == 'errno':
            refuse(node, f'expected a name that the system does not use, found `{node.name}`; rename the variable')
        if isinstance(node.type, c_ast.PtrDecl):
            if not is_parameter:
                refuse(node, 'expected C without pointers; write an array and an index')
            return Variable(node.name, self.pointer(node), node, is_pointer=True)
        if isinstance(node.type, c_ast.ArrayDecl):
            if is_parameter and isinstance(node.type.type, c_ast.PtrDecl):
                return Variable(node.name, self.pointer(node), node, is_pointer=True)
            if is_parameter:
                refuse(node, 'expected a number as a parameter, found an array; make it global, and pass an index')
            return self.array(node)
        kind = self.kind(node.type, node)
        if kind is Kind.VOID:
            refuse(node, 'expected the type of a variable, found `void`; write int')
        if kind is Kind.HANDLER:
            refuse(node, 'expected C without pointers; write a struct sigaction')
        if is_parameter and kind not in NUMBERS:
            refuse(node, f'expected a number as a parameter, found a {kind.value}; make it global')
        return Variable(node.name, kind, node)

    def pointer(self, node):
        """Returns the kind of a pointer. Only parameters of main and of handlers can be pointers."""
        inner = node.type.type
        if isinstance(inner, c_ast.PtrDecl):                # char **argv, char *argv[]
            inner = inner.type
            if isinstance(inner, c_ast.TypeDecl) and self.kind(inner, node) is Kind.CHAR:
                return Kind.ARGUMENTS
        elif isinstance(inner, c_ast.TypeDecl):
            kind = self.kind(inner, node)
            if kind in (Kind.INFO, Kind.VOID):
                return kind if kind is Kind.INFO else Kind.CONTEXT
        return refuse(node, 'expected C without pointers; write an array and an index')

    def array(self, node):
        if not isinstance(node.type.type, c_ast.TypeDecl):
            refuse(node, 'expected an array with one index; write a[i * WIDTH + k]')
        kind = self.kind(node.type.type, node)
        if kind not in NUMBERS:
            refuse(node, f'expected an array of numbers, found one of {kind.value}')
        return Variable(node.name, kind, node, self.length(node))

    def length(self, node):
        """Returns the number of elements of an array, by its brackets or by its values."""
        if node.type.dim is not None:
            self.walk(node.type.dim)
            length = self.needed_constant(node.type.dim)
        elif isinstance(node.init, c_ast.InitList):
            length = len(node.init.exprs)
        elif is_string(node.init):
            length = len(bytes_of(node.init)) + 1
        else:
            length = 0
        if length < 1:
            refuse(node, 'expected an array with a constant size above 0; write int a[3]')
        if length > MEMORY:
            more = length - MEMORY
            refuse(node, f'expected at most {MEMORY} elements, found `{length}`, {more} more than the memory of a '
                   'process')
        return length

    # the bodies of functions

    def walk(self, node):
        name = type(node).__name__
        method = getattr(self, f'walk_{name.lower()}', None)
        if method is not None:
            method(node)
        else:
            self.walk_children(node)

    def walk_children(self, node):
        for _, child in node.children():
            self.walk(child)

    def begin_scope(self):
        self.scopes.append({})
        self.tags.append({})

    def end_scope(self):
        self.scopes.pop()
        self.tags.pop()

    def walk_compound(self, node):
        self.begin_scope()
        self.walk_children(node)
        self.end_scope()

    def walk_while(self, node):
        self.walk_loop(node.cond, node.stmt)

    walk_dowhile = walk_while

    def walk_for(self, node):
        self.begin_scope()
        if node.init is not None:
            self.walk(node.init)
        self.walk_loop(*(part for part in (node.cond, node.next, node.stmt) if part is not None))
        self.end_scope()

    def walk_loop(self, *parts):
        self.loops += 1
        for part in parts:
            self.walk(part)
        self.loops -= 1

    def walk_decl(self, node):
        self.declare(node)

    def walk_typename(self, node):
        pass

    def walk_namedinitializer(self, node):
        self.walk(node.expr)

    def walk_structref(self, node):
        self.unit.members.append(node)
        self.walk(node.name)

    def walk_id(self, node):
        meaning = self.look_up(node)
        self.unit.meaning[id(node)] = meaning
        if isinstance(meaning, Variable):
            meaning.uses += 1
            meaning.weight += 8 ** min(self.loops, 4)
        elif isinstance(meaning, Function) and meaning not in self.unit.handlers:
            self.unit.handlers.append(meaning)

    def walk_cast(self, node):
        """Counts no use of a variable that is cast to void."""
        if not (is_void(node.to_type) and isinstance(node.expr, c_ast.ID)):
            self.walk(node.expr)
        else:
            self.unit.meaning[id(node.expr)] = self.look_up(node.expr)

    def walk_funccall(self, node):
        if not isinstance(node.name, c_ast.ID):
            refuse(node, 'expected a call of a function by its name')
        name = node.name.name
        meaning = self.find(name)
        if isinstance(meaning, Function):
            self.function.calls.append((meaning, node))
            self.unit.meaning[id(node.name)] = meaning
        elif meaning is not None:
            refuse(node, f'expected a function, found `{name}`')
        elif name in PROVIDED:
            self.function.system_calls.append(node)
        else:
            self.refuse_unknown(node.name, 'function')
        if node.args is not None:
            self.walk(node.args)

    def walk_assignment(self, node):
        self.walk_children(node)
        target = node.lvalue
        if is_errno(target) and node.op == '=' and isinstance(self.unit.meaning.get(id(node.rvalue)), Variable):
            self.save_errno(self.unit.meaning[id(node.rvalue)])

    def save_errno(self, variable):
        """Counts that errno is saved in a variable, or restored from it."""
        self.unit.saved_errno[variable] = self.unit.saved_errno.get(variable, 0) + 1

    # names

    def find(self, name):
        for scope in reversed(self.scopes):
            if name in scope:
                return scope[name]
        return None

    def look_up(self, node):
        name = node.name
        meaning = self.find(name)
        if meaning is not None:
            return meaning
        if name == 'errno':
            if self.unit.errno is None:
                self.unit.errno = Variable('errno', Kind.INT, node, is_global=True)
                self.unit.variables.append(self.unit.errno)
            return self.unit.errno
        return self.refuse_unknown(node, 'variable or constant')

    def refuse_unknown(self, node, what):
        name = node.name
        if name in INSTEAD:
            refuse(node, f'expected C of the subset, found `{name}`; {INSTEAD[name]}')
        own = [word for scope in self.scopes for word in scope]
        near = difflib.get_close_matches(name, [*own, *PROVIDED, *macros(), *self.unit.functions], 1, 0.75)
        if name in self.unit.functions:                     # it is defined below
            what, hint = 'function', 'declare it above'
        else:
            hint = f'did you mean {near[0]}?' if near else f'{"define" if what == "function" else "declare"} it above'
        return refuse(node, f'expected a declared {what}, found `{name}`; {hint}')

    # constants

    def needed_constant(self, node):
        value = constant(node, self.unit.meaning)
        if value is None:
            refuse(node, 'expected a constant; write a number, or a name of #define or enum')
        return value


def is_errno(node):
    return isinstance(node, c_ast.ID) and node.name == 'errno'


def macros():
    """Returns the names of the system's macros."""
    with open(os.path.join(HEADERS, 'jobk.h'), encoding='ascii') as file:
        return re.findall(r'^#define ([A-Za-z]\w*)', file.read(), re.M)
