"""Places the variables of a program: a frame of memory for each function, registers for the variables used most.

A function has one instance in the main program, and one in each handler that can call it. Each instance has its own
frame, because a handler can run between any two instructions, and its stores to memory stay. When a handler returns,
all registers are restored, so a handler may use each of them. Two functions share words and registers if neither calls
the other, directly or through others.
"""
from dataclasses import dataclass, field

from assembly import MEMORY, Frame
from kinds import Function
from refusal import Refused, place_of, refuse

REGISTERS = (7, 6)


@dataclass(eq=False)
class Instance:
    """The instance of a function in the main program or in a handler."""
    function: Function
    context: 'Context'
    label: object = None
    sites: int = 0                                      # the number of calls
    frame: Frame = field(default_factory=Frame)
    places: dict = field(default_factory=dict)          # a register or a word for each variable
    returns: list = field(default_factory=list)         # the labels after its calls
    return_word: object = None                          # the word with the number of the label that it returns to


@dataclass(eq=False)
class Context:
    """The main program, or a handler."""
    root: Function
    instances: dict = field(default_factory=dict)       # by function, callers first


def refuse_recursion(unit):
    done = set()

    def visit(function, path):
        for callee, node in function.calls:
            if callee in path or callee is function:
                around = path[path.index(callee):] if callee in path else []
                names = ', '.join(it.name for it in [*around, function, callee])
                refuse(node, f'expected no recursion, found `{callee.name}`, which calls itself ({names}); write a '
                       'loop, because a function has one frame')
            if callee not in done:
                visit(callee, [*path, function])
        done.add(function)
    for function in unit.functions.values():
        visit(function, [])


def callers_first(root):
    """Returns a function and those that it calls, directly or through others, each after its callers."""
    order = []

    def visit(function):
        for callee, _ in function.calls:
            if callee not in order:
                visit(callee)
        if function not in order:
            order.append(function)
    visit(root)
    return order[::-1]


def make_context(root):
    context = Context(root)
    for function in callers_first(root):
        context.instances[function] = Instance(function, context)
    for function in context.instances:
        for callee, _ in function.calls:
            context.instances[callee].sites += 1
    give_registers(context)
    return context


def reachable(function):
    return set(callers_first(function))


def give_registers(context):
    """Gives registers to the variables used most. Two variables share a register only if neither of their functions
    calls the other. Each other variable that is used, and each of several words, gets words of its frame."""
    below = {function: reachable(function) for function in context.instances}
    given = []
    candidates = [(variable, function) for function in context.instances for variable in function.variables
                  if variable.fits_register and variable.weight > 0]
    for variable, function in sorted(candidates, key=lambda it: -it[0].weight):
        taken = {register for register, other in given if other in below[function] or function in below[other]}
        free = [register for register in REGISTERS if register not in taken]
        if free:
            given.append((free[0], function))
            context.instances[function].places[variable] = free[0]
    for instance in context.instances.values():
        for variable in instance.function.variables:
            if variable not in instance.places and (variable.weight > 0 or variable.words > 1):
                instance.places[variable] = instance.frame.take(variable.words)


def lay_out(globals_frame, contexts):
    """Sets the base of each frame. Returns the number of words that the program needs."""
    end = globals_frame.size
    for context in contexts:
        end = lay_out_context(context, end)
    return end


def lay_out_context(context, base):
    ends = [base]
    for function, instance in context.instances.items():
        callers = [other for other in context.instances if any(callee is function for callee, _ in other.calls)]
        instance.frame.base = max([base, *(context.instances[caller].frame.end for caller in callers)])
        ends.append(instance.frame.end)
    return max(ends)


def refuse_too_much_memory(unit, words):
    if words > MEMORY:
        place = place_of(unit.functions['main'].node)
        raise Refused(place.file, 1, 1, f'expected at most {MEMORY} words of memory, found `{words}`, '
                      f'{words - MEMORY} more than the limit; make arrays smaller, or move variables into functions '
                      'that do not call each other')
