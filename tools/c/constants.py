"""The types of expressions, and the values of constant expressions."""
import re

from pycparser import c_ast

from facts import RESULTS
from kinds import BITS, MEMBER_KINDS, NUMBERS, RANKS, UNSIGNED, Function, Kind, Variable, common, holds, \
    kind_of_words, promoted, wrapped
from refusal import refuse

COMPARISONS = {'==', '!=', '<', '<=', '>', '>='}
NUMBER = re.compile(r'(0[xX][0-9a-fA-F]+|0[bB][01]+|\d+)([uU]?[lL]?|[lL][uU])$')


def is_void(typename):
    return kind_of_typename(typename) is Kind.VOID


def is_string(node):
    return isinstance(node, c_ast.Constant) and node.type == 'string'


def is_flags(node):
    return isinstance(node, c_ast.StructRef) and node.field.name == 'sa_flags'


def bytes_of(node):
    """Returns the bytes between the quotes of a string or a character constant. source.py has left no escapes in it but
    those of three octal digits."""
    return [int(octal, 8) if octal else ord(letter)
            for octal, letter in re.findall(r'\\([0-7]{3})|(.)', node.value[1:-1], re.S)]


# numbers

def number_of(node):
    """Returns the value of a number or a character constant."""
    if node.value.startswith("'"):
        values = bytes_of(node)
        if len(values) != 1:
            refuse(node, f'expected one character between quotes, found `{node.value}`')
        return wrapped(values[0], Kind.CHAR)
    return digits_of(node)[0]


def digits_of(node):
    """Returns the value of a number, its base (16 also for octal and binary) and its suffix."""
    found = NUMBER.match(node.value)
    if not found:
        refuse(node, f'expected an int or long constant, found `{node.value}`; write no point, and no suffix '
               'but u, l and ul')
    text = found[1]
    value = int(text, 8) if re.fullmatch('0[0-7]+', text) else int(text, 0)
    if not holds(Kind.UNSIGNED_LONG, value):
        refuse(node, f'expected a number of at most 64 bits, found `{node.value}`')
    return value, 10 if text[0] != '0' else 16, found[2].lower()


def kind_of_number(node):
    """Returns the first type in which a number fits: an unsigned one only with a suffix u, or if it isn't decimal."""
    if node.value.startswith("'"):
        return Kind.INT
    value, base, letters = digits_of(node)
    for kind in RANKS:
        if holds(kind, value) and not ('l' in letters and BITS[kind] < 64) \
                and (kind in UNSIGNED if 'u' in letters else kind not in UNSIGNED or base != 10):
            return kind
    return refuse(node, f'expected a number that fits in long, found `{node.value}`; append u')


# types

def kind_of_typename(node):
    """Returns the kind of a type in parentheses, or None."""
    inner = node.type
    if isinstance(inner, c_ast.TypeDecl) and isinstance(inner.type, c_ast.IdentifierType):
        return kind_of_words(inner.type.names)
    return None


def kind_of(node, meaning):
    """Returns the type of an expression, or None if it is not known here."""
    method = KINDS_OF.get(type(node))
    return method(node, meaning) if method else None


def kind_of_name(node, meaning):
    known = meaning.get(id(node))
    if isinstance(known, Variable):
        return known.kind if known.length is None else None
    return Kind.HANDLER if isinstance(known, Function) else Kind.INT


def kind_of_element(node, meaning):
    variable = meaning.get(id(node.name))
    return variable.kind if isinstance(variable, Variable) and variable.length is not None else None


def kind_of_unary(node, meaning):
    if node.op == 'sizeof':
        return Kind.UNSIGNED_LONG
    inner = kind_of(node.expr, meaning)
    others = inner if node.op[-2:] in ('++', '--') else promoted(inner)
    return {'!': Kind.INT, '&': None, '*': None}.get(node.op, others)


def kind_of_binary(node, meaning):
    if node.op in COMPARISONS or node.op in ('&&', '||'):
        return Kind.INT
    left, right = kind_of(node.left, meaning), kind_of(node.right, meaning)
    if left not in NUMBERS or right not in NUMBERS:
        return None
    return promoted(left) if node.op in ('<<', '>>') else common(left, right)


def kind_of_choice(node, meaning):
    left, right = kind_of(node.iftrue, meaning), kind_of(node.iffalse, meaning)
    if left in NUMBERS and right in NUMBERS:
        return common(left, right)
    return Kind.HANDLER if Kind.HANDLER in (left, right) else left if left is right else None


def kind_of_call(node, meaning):
    function = meaning.get(id(node.name))
    return function.gives if isinstance(function, Function) else RESULTS.get(node.name.name, Kind.INT)


KINDS_OF = {
    c_ast.Constant: lambda node, meaning: None if node.type == 'string' else kind_of_number(node),
    c_ast.ID: kind_of_name,
    c_ast.ArrayRef: kind_of_element,
    c_ast.StructRef: lambda node, meaning: Kind.INT if is_flags(node) else MEMBER_KINDS.get(node.field.name, Kind.INT),
    c_ast.UnaryOp: kind_of_unary,
    c_ast.BinaryOp: kind_of_binary,
    c_ast.TernaryOp: kind_of_choice,
    c_ast.Assignment: lambda node, meaning: kind_of(node.lvalue, meaning),
    c_ast.ExprList: lambda node, meaning: kind_of(node.exprs[-1], meaning),
    c_ast.Cast: lambda node, meaning: kind_of_typename(node.to_type),
    c_ast.FuncCall: kind_of_call,
}


# constants

def divide(left, right):
    """Returns the quotient, rounded towards 0 as in C."""
    quotient = abs(left) // abs(right)
    return quotient if (left < 0) == (right < 0) else -quotient


OPERATIONS = {
    '+': lambda a, b: a + b, '-': lambda a, b: a - b, '*': lambda a, b: a * b, '/': divide,
    '%': lambda a, b: a - b * divide(a, b), '&': lambda a, b: a & b, '|': lambda a, b: a | b, '^': lambda a, b: a ^ b,
    '<<': lambda a, b: a << b, '>>': lambda a, b: a >> b, '==': lambda a, b: int(a == b),
    '!=': lambda a, b: int(a != b), '<': lambda a, b: int(a < b), '<=': lambda a, b: int(a <= b),
    '>': lambda a, b: int(a > b), '>=': lambda a, b: int(a >= b),
    '&&': lambda a, b: int(bool(a and b)), '||': lambda a, b: int(bool(a or b)),
}
UNARY = {'-': lambda a: -a, '+': lambda a: a, '~': lambda a: ~a, '!': lambda a: int(not a)}


def constant(node, meaning):
    """Returns the value of a constant expression in its type, or None if it is not constant."""
    if isinstance(node, c_ast.Constant):
        return None if node.type == 'string' else number_of(node)
    if isinstance(node, c_ast.ID):
        value = meaning.get(id(node))
        return value if isinstance(value, int) else None
    if isinstance(node, c_ast.UnaryOp):
        return unary_constant(node, meaning)
    if isinstance(node, c_ast.TernaryOp):
        parts = [constant(part, meaning) for part in (node.cond, node.iftrue, node.iffalse)]
        return None if None in parts else wrapped(parts[1] if parts[0] else parts[2], kind_of(node, meaning))
    if isinstance(node, c_ast.Cast):
        value, kind = constant(node.expr, meaning), kind_of_typename(node.to_type)
        return None if value is None or kind not in NUMBERS else wrapped(value, kind)
    return binary_constant(node, meaning) if isinstance(node, c_ast.BinaryOp) else None


def unary_constant(node, meaning):
    if node.op == 'sizeof':
        return size_of(node.expr, meaning)
    value = constant(node.expr, meaning) if node.op in UNARY else None
    return None if value is None else fitted(node, UNARY[node.op](value), kind_of(node, meaning))


def binary_constant(node, meaning):
    left, right = constant(node.left, meaning), constant(node.right, meaning)
    if left is None or right is None or node.op in '/%' and right == 0:
        return None
    kind = kind_of(node, meaning)
    if node.op in ('<<', '>>'):
        if not 0 <= right < BITS[kind]:
            refuse(node, f'expected a shift by 0 to {BITS[kind] - 1}, found `{right}`')
        return wrapped(OPERATIONS[node.op](left, right), kind)
    if node.op not in ('&&', '||'):
        both = common(kind_of(node.left, meaning), kind_of(node.right, meaning))
        left, right = wrapped(left, both), wrapped(right, both)
    return fitted(node, OPERATIONS[node.op](left, right), kind)


def fitted(node, value, kind):
    """Returns a result in its type: an unsigned type wraps, and C leaves what a signed type can't hold undefined."""
    if kind not in UNSIGNED and not holds(kind, value):
        refuse(node, f'expected a value that fits in {kind.value}, found `{value}`')
    return wrapped(value, kind)


def is_null(node, meaning):
    """Returns true if a node is NULL or 0."""
    while isinstance(node, c_ast.Cast) and isinstance(node.to_type.type, c_ast.PtrDecl):
        node = node.expr
    return constant(node, meaning) == 0 and kind_of(node, meaning) in NUMBERS


def size_of(node, meaning):
    """Returns the size in bytes of a value, an array, a string or a type."""
    if is_string(node):
        return len(bytes_of(node)) + 1
    known = meaning.get(id(node)) if isinstance(node, c_ast.ID) else None
    if isinstance(known, Variable):
        kind, count = known.kind, known.length or 1
    else:
        kind, count = kind_of_typename(node) if isinstance(node, c_ast.Typename) else kind_of(node, meaning), 1
    if kind not in NUMBERS:
        refuse(node, 'expected a number, an array or a string after sizeof')
    return count * BITS[kind] // 8
