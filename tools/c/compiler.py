"""Compiles C files to a world."""
from assembly import LONGEST_NAME, MOST_INSTRUCTIONS, Assembly, Frame
from assignments import Assignments
from calls import Calls
from conditions import Conditions
from expressions import SCRATCH, Expressions, r
from handlers import installed, refuse_entered_again, refuse_unknown_members, tells_of_children
from kinds import MEMBERS, Kind
from plan import lay_out, make_context, refuse_recursion, refuse_too_much_memory
from refusal import Refused, refuse
from signals import Signals
from statements import Statements
from symbols import Resolver


class Writer(Statements, Assignments, Calls, Signals, Conditions, Expressions):
    """Writes the code of one instance of a function."""

    def __init__(self, program, instance):
        self.program = program
        self.unit = program.unit
        self.assembly = program.assembly
        self.globals = program.globals
        self.programs = program.programs
        self.planted = program.planted
        self.instance = instance
        self.waits = []                 # registers whose values are needed later
        self.free_slots = []
        self.jumps = []                 # for each loop and switch, the targets of continue and break
        self.texts = {}
        self.end = None

    def emit(self, operation, *operands):
        self.program.comment_once(self.instance)
        self.assembly.emit(operation, *operands)

    def put(self, label):
        self.assembly.place(label)

    def new_label(self, text):
        return self.assembly.label(text)

    def at(self, node):
        if node.coord is not None:
            self.program.line = node.coord.line

    def write_later(self, write):
        line = self.program.line
        self.program.later.append((self, line, write))

    def label_of_handler(self, function):
        return self.program.handlers[function].instances[function].label

    def enter(self, instance):
        """Writes a call of a function whose parameters are set: its code if this is its only call, otherwise a jump to
        it. The result is in r0."""
        line = self.program.line
        if instance.sites == 1:
            Writer(self.program, instance).write_inline()
        else:
            back = self.new_label('back')
            if not instance.returns:
                instance.return_word = instance.frame.take()
            self.set(0, len(instance.returns))
            self.store(0, instance.return_word)
            instance.returns.append(back)
            self.emit('jmp', instance.label)
            self.put(back)
        self.program.line = line

    def write_inline(self):
        """Writes the function at the place of its only call."""
        self.end = self.new_label(f'end_{self.instance.function.name}')
        self.put(self.instance.label)
        self.statement(self.instance.function.node.body)
        self.put(self.end)

    def write_apart(self):
        """Writes the function on its own. At its end, it jumps back to the place of the call."""
        function = self.instance.function
        self.end = self.new_label(f'end_{function.name}')
        self.put(self.instance.label)
        if self.instance.context.root is function:
            self.begin_root(function)
        self.statement(function.node.body)
        if self.instance.context.root is function:
            self.end_root(function)
        else:
            self.put(self.end)
            self.write_returns()

    def begin_root(self, function):
        """Stores the arguments of a handler: the signal is in r1, its value in r2, its sender in r3."""
        self.at(function.node)
        if function.name == 'main':
            return
        for register, variable in zip((1, 3, 0), function.parameters):
            if variable.weight:
                place = self.instance.places[variable]
                self.store(register, place)
                if variable.kind is Kind.INFO and tells_of_children(self.unit, function):
                    self.store_change(2, 3, 0, place)
                elif variable.kind is Kind.INFO:
                    self.store(2, place + MEMBERS[Kind.INFO]['si_value'])

    def end_root(self, function):
        if function.name == 'main':
            self.emit('set', r(1), 0)
            self.emit('sys', 'exit')
        else:
            self.put(self.end)
            self.emit('sys', 'sigreturn')

    def write_returns(self):
        if len(self.instance.returns) > 1:
            self.load(1, self.instance.return_word)
            self.set(SCRATCH, 1)
        for number, label in enumerate(self.instance.returns):
            if number == len(self.instance.returns) - 1:
                self.emit('jmp', label)
            else:
                self.emit('jz', r(1), label)
                if number < len(self.instance.returns) - 2:
                    self.emit('sub', r(1), r(SCRATCH))


class Program:
    """A C file that becomes a program of the world."""

    def __init__(self, source, programs, planted=None):
        self.unit = Resolver(source).run()
        self.unit.installed = installed(self.unit)
        self.programs = programs
        self.planted = planted
        self.assembly = Assembly(program_name(source.name))
        self.globals = {}
        self.frame = Frame()
        self.later = []
        self.line = 0
        self.commented = None
        if 'main' not in self.unit.functions:
            raise Refused(f'{source.name}.c', 1, 1, 'expected a function main; write int main(void)')
        refuse_recursion(self.unit)
        for variable in self.unit.variables:
            self.globals[variable] = self.frame.take(variable.words)
        self.main = make_context(self.unit.functions['main'])
        self.handlers = {}

    def text(self):
        self.check_main()
        for function in self.unit.handlers:
            self.handlers[function] = self.make_handler(function)
        self.name_functions()
        self.write_context(self.main)
        for context in self.handlers.values():
            self.write_context(context)
        refuse_entered_again(self.unit, list(self.handlers.values()))
        self.check_unused()
        refuse_too_much_memory(self.unit, lay_out(self.frame, [self.main, *self.handlers.values()]))
        self.assembly.finish()
        self.check_size()
        return self.assembly.text()

    def check_main(self):
        main = self.unit.functions['main']
        kinds = [variable.kind for variable in main.parameters]
        if main.gives is not Kind.INT or kinds not in ([], [Kind.INT, Kind.ARGUMENTS]):
            refuse(main.node, 'expected int main(void) or int main(int argc, char **argv)')
        if kinds and main.parameters[0].weight:
            refuse(main.node, 'expected no use of argc, because the number of arguments is not known; write (void)argc')
        for function in self.unit.functions.values():
            for callee, node in function.calls:
                if callee is main:
                    refuse(node, 'expected another function, found `main`; move the code into a function')

    def make_handler(self, function):
        kinds = [variable.kind for variable in function.parameters]
        if function.gives is not Kind.VOID or kinds not in ([Kind.INT], [Kind.INT, Kind.INFO, Kind.CONTEXT]):
            refuse(function.node, f'expected a handler void {function.name}(int signal_number), or with SA_SIGINFO '
                   f'void {function.name}(int signal_number, siginfo_t *info, void *context)')
        context = make_context(function)
        if self.planted == 'frame':
            for shared in context.instances.keys() & self.main.instances.keys():
                context.instances[shared].frame = self.main.instances[shared].frame
                context.instances[shared].places = self.main.instances[shared].places
        return context

    def name_functions(self):
        for context in [self.main, *self.handlers.values()]:
            for function, instance in context.instances.items():
                instance.label = self.assembly.label(function.name, is_kept=True)

    def check_unused(self):
        """Compiles functions that are never called, so that their errors are reported. Leaves out their code."""
        used = {function for context in [self.main, *self.handlers.values()] for function in context.instances}
        lines, self.assembly.lines = self.assembly.lines, []
        for function in self.unit.functions.values():
            if function not in used:
                context = make_context(function)
                for instance in context.instances.values():
                    instance.label = self.assembly.label('unused')
                self.write_context(context)
        self.assembly.lines = lines

    def write_context(self, context):
        for function, instance in context.instances.items():
            if function is context.root or instance.sites > 1:
                writer = Writer(self, instance)
                if function is self.main.root and context is self.main:
                    self.begin_globals(writer)
                writer.write_apart()
                self.write_failures()

    def begin_globals(self, writer):
        """Stores the arguments of main, and the initial values of global and static variables. Other memory is 0."""
        main = self.unit.functions['main']
        if main.parameters and main.parameters[1].weight:
            self.line = main.node.coord.line
            for number in range(2):
                writer.store(1 + number, self.main.instances[main].places[main.parameters[1]] + number)
        for variable in self.unit.variables:
            if variable.node is not None and getattr(variable.node, 'init', None) is not None:
                writer.at(variable.node)
                writer.begin_variable(variable, variable.node.init)

    def write_failures(self):
        while self.later:
            writer, line, write = self.later.pop(0)
            self.line = line
            write()

    def comment_once(self, instance):
        """Writes a line of C as a comment before its first instruction."""
        now = self.line, instance.function.name
        if now != self.commented:
            self.commented = now
            text = self.unit.source.lines[self.line - 1].strip() if self.line else ''
            self.assembly.comment(f'{self.unit.source.name}.c:{self.line}, in {instance.function.name}: {text}')

    def check_size(self):
        if self.assembly.size > MOST_INSTRUCTIONS:
            name, size = self.unit.source.name, self.assembly.size
            raise Refused(f'{name}.c', 1, 1, f'expected at most {MOST_INSTRUCTIONS} instructions, found `{size}`, '
                          f'{size - MOST_INSTRUCTIONS} more than the limit; move a part into a program of its own, for '
                          'execl')


def program_name(name):
    """Returns the name of a program: the name of its file, changed and cut to a name that a world allows."""
    return ''.join(letter if letter.isalnum() and letter.isascii() else '_' for letter in name.lower())[:LONGEST_NAME]


def world(sources, pidmax=40, consoles=1, planted=None):
    """Returns the text of a world. Process 1 runs the first file."""
    names = set()
    for source in sources:
        name = program_name(source.name)
        if name != source.name and source is not sources[0] or not name[:1].isalpha():
            raise Refused(f'{source.name}.c', 1, 1, 'expected a file name of a letter and at most '
                          f'{LONGEST_NAME - 1} of a to z, 0 to 9 and _, found `{source.name}`; rename the file')
        if name in names:
            raise Refused(f'{source.name}.c', 1, 1, f'expected different names of programs, found `{name}` twice; '
                          'rename a file')
        names.add(name)
    programs = [Program(source, names, planted) for source in sources]
    texts = [program.text() for program in programs]
    for program in programs:
        refuse_unknown_members(program.unit, [other.unit for other in programs])
    return f'pidmax {pidmax}\nconsoles {consoles}\n' + ''.join(texts)
