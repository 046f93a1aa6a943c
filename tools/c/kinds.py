"""The types of the subset: their sizes, their members, and the conversions between numbers."""
import enum
from dataclasses import dataclass, field

from pycparser import c_ast


class Kind(enum.Enum):
    """The type of a variable, of an element of an array, or of a value."""
    INT = 'int'
    UNSIGNED = 'unsigned'
    LONG = 'long'
    UNSIGNED_LONG = 'unsigned long'
    CHAR = 'char'
    SET = 'sigset_t'
    ACTION = 'struct sigaction'
    INFO = 'siginfo_t'
    VALUE = 'union sigval'
    HANDLER = 'void (*)(int)'
    ARGUMENTS = 'char **'
    CONTEXT = 'void *'
    VOID = 'void'


# The size of each type of numbers in bits. The sum of two numbers has the type that comes later in `RANKS`.
BITS = {Kind.CHAR: 8, Kind.INT: 32, Kind.UNSIGNED: 32, Kind.LONG: 64, Kind.UNSIGNED_LONG: 64}
RANKS = [Kind.INT, Kind.UNSIGNED, Kind.LONG, Kind.UNSIGNED_LONG]
UNSIGNED = {Kind.UNSIGNED, Kind.UNSIGNED_LONG}
NUMBERS = set(BITS)

# In siginfo_t, si_status, si_value and si_int share one word, as in Linux.
WORDS = {Kind.ACTION: 3, Kind.INFO: 3, Kind.ARGUMENTS: 2}
MEMBERS = {
    Kind.ACTION: {'sa_handler': 0, 'sa_sigaction': 0, 'sa_mask': 1, 'sa_flags': 2},
    Kind.INFO: {'si_pid': 0, 'si_code': 1, 'si_status': 2, 'si_value': 2, 'si_int': 2},
    Kind.VALUE: {'sival_int': 0},
}
# sa_flags holds the bits that the machine accepts, as an unsigned number.
MEMBER_KINDS = {'sa_handler': Kind.HANDLER, 'sa_sigaction': Kind.HANDLER, 'sa_mask': Kind.SET,
                'sa_flags': Kind.UNSIGNED, 'si_value': Kind.VALUE}
# By the sorted words of a type, without `int` and `signed`.
NAMES = {
    '': Kind.INT, 'unsigned': Kind.UNSIGNED, 'long': Kind.LONG, 'long unsigned': Kind.UNSIGNED_LONG, 'char': Kind.CHAR,
    'pid_t': Kind.INT, 'sig_atomic_t': Kind.INT, 'uid_t': Kind.UNSIGNED, 'gid_t': Kind.UNSIGNED, 'ssize_t': Kind.LONG,
    'size_t': Kind.UNSIGNED_LONG, 'sigset_t': Kind.SET, 'siginfo_t': Kind.INFO, '__sighandler_t': Kind.HANDLER,
    'void': Kind.VOID,
}


@dataclass(eq=False)
class Variable:
    name: str
    kind: Kind
    node: c_ast.Node
    length: int = None              # of an array
    is_global: bool = False
    is_static: bool = False         # a static local variable
    is_pointer: bool = False        # a parameter of main or of a handler
    uses: int = 0                   # how often it is named
    weight: int = 0                 # the uses, each times 8 for every loop around it, up to 4

    @property
    def words(self):
        return WORDS.get(self.kind, 1) * (1 if self.length is None else self.length)

    @property
    def fits_register(self):
        return self.kind in RANKS and self.length is None and not (self.is_global or self.is_static)


@dataclass(eq=False)
class Function:
    name: str
    node: c_ast.FuncDef
    gives: Kind
    parameters: list = field(default_factory=list)
    variables: list = field(default_factory=list)       # its parameters and its local variables
    calls: list = field(default_factory=list)           # pairs of a function and the node that calls it
    system_calls: list = field(default_factory=list)    # nodes


def kind_of_words(words):
    """Returns the kind that words such as `unsigned int` name, or None. `signed char` and `unsigned char` have none."""
    if 'char' in words and len(words) > 1:
        return None
    return NAMES.get(' '.join(sorted(word for word in words if word not in ('int', 'signed'))))


def promoted(kind):
    return Kind.INT if kind is Kind.CHAR else kind


def common(left, right):
    """Returns the type in which two values are added or compared."""
    return max(promoted(left), promoted(right), key=RANKS.index)


def holds(kind, value):
    return wrapped(value, kind) == value


def wrapped(value, kind):
    """Returns a number reduced to the bits of a type. C defines this for unsigned types, and gcc for signed ones."""
    value %= 1 << BITS[kind]
    return value - (1 << BITS[kind]) if kind not in UNSIGNED and value >> (BITS[kind] - 1) else value
