"""Code for calls of the functions of a file, and for system calls with C's names and arguments."""
import re

from pycparser import c_ast

from constants import bytes_of, is_null, is_string
from expressions import SCRATCH, r
from facts import ARGUMENTS, NEVER_FAIL, PLAIN, SET_CALLS, UNSIGNED_ARGUMENTS
from kinds import WORDS, Function, Kind, Variable, wrapped
from refusal import refuse

WNOHANG, SA_RESTART, SUBREAPER, EINVAL, MOST_BYTES, MOST_PARAMETERS = 1, 0x10000000, 36, 22, 16, 5
LONGEST_ALARM = 1000000000


class Calls:
    """Writes code for calls in one function; a part of Writer."""

    def value_funccall(self, node, depth):
        register = self.call(node, depth, wanted='value')
        self.move(depth, register)

    def call(self, node, depth, wanted):
        """Writes a call. Returns the register of the result. `wanted` is the part of the result that is used: 'value',
        'sign' or None."""
        if self.waits:
            with self.put_away(depth):
                self.call_now(node, 'value' if wanted else None)
            return depth
        self.call_now(node, wanted)
        return 0

    def call_now(self, node, wanted):
        """Writes a call when no register holds a value that is needed later. The result is in r0."""
        self.at(node)
        function = self.meaning(node.name)
        if isinstance(function, Function):
            self.call_function(node, function, wanted)
            return
        name, arguments = node.name.name, node.args.exprs if node.args else []
        count = ARGUMENTS[name]
        if count is not None and len(arguments) != count:
            refuse(node, f'expected {count or "no"} argument{"s" * (count != 1)} of {name}, found `{len(arguments)}`')
        if wanted and name in ('note', 'exit', '_exit', 'signal'):
            refuse(node, f'expected a value, found `{name}`, whose result cannot be used'
                   + ('; write sigaction' if name == 'signal' else ''))
        if name in PLAIN:
            self.numbers(arguments, kind=Kind.UNSIGNED if name in UNSIGNED_ARGUMENTS else Kind.INT)
            self.finish(name, wanted)
            if name == 'alarm':
                self.check_alarm(arguments[0])
        elif name in SET_CALLS:
            self.call_set(name, arguments, wanted)
        else:
            getattr(self, f'call_{name.lstrip("_")}')(node, arguments, wanted)

    # functions of the file

    def call_function(self, node, function, wanted):
        arguments = node.args.exprs if node.args else []
        if len(arguments) != len(function.parameters):
            count = len(function.parameters)
            refuse(node, f'expected {count or "no"} argument{"s" * (count != 1)} of {function.name}, found '
                   f'`{len(arguments)}`')
        if len(arguments) > MOST_PARAMETERS:
            refuse(node, f'expected at most {MOST_PARAMETERS} parameters, found `{len(arguments)}`; make one a global '
                   'variable')
        if wanted and function.gives is Kind.VOID:
            refuse(node, f'expected a value, found `{function.name}`, which returns void; declare it as int')
        instance = self.instance.context.instances[function]
        if any(self.calls_functions(argument) for argument in arguments):
            self.numbers(arguments, 0, [variable.kind for variable in function.parameters])
            for register, variable in enumerate(function.parameters):
                self.store_argument(register, variable, instance)
        else:
            for argument, variable in zip(arguments, function.parameters):
                self.pass_argument(argument, variable, instance)
        self.enter(instance)

    def calls_functions(self, node):
        """Returns true if an argument calls a function of the file: it may be the function that gets the argument."""
        if isinstance(node, c_ast.FuncCall) and isinstance(self.meaning(node.name), Function):
            return True
        return any(self.calls_functions(child) for _, child in node.children())

    def pass_argument(self, argument, variable, instance):
        place = instance.places.get(variable)
        if isinstance(place, int):
            self.value_into(argument, place, variable.kind, 0)
        else:
            self.store_argument(self.operand_as(argument, 0, variable.kind), variable, instance)

    def store_argument(self, register, variable, instance):
        if variable.weight:
            if variable.kind is Kind.CHAR:
                self.move(0, register)
                self.with_number('and', 0, 255)
                register = 0
            self.store(register, instance.places[variable])

    # arguments

    def numbers(self, arguments, first=1, kind=Kind.INT):
        """Puts arguments into consecutive registers, all in one kind or each in its own. Constants come last; the
        others are evaluated from left to right."""
        kinds = kind if isinstance(kind, list) else [kind] * len(arguments)
        waiting = []
        for register, (argument, kind) in enumerate(zip(arguments, kinds), first):
            if self.constant(argument) is None:
                with self.waiting(*waiting):
                    self.value_of_argument(argument, register, kind)
                waiting.append(register)
        for register, (argument, kind) in enumerate(zip(arguments, kinds), first):
            if self.constant(argument) is not None:
                self.value_as(argument, register, kind)

    def value_of_argument(self, argument, register, kind):
        """Puts an argument into a register. If too few registers follow, the value is evaluated in r0 and moved."""
        if register > 2 and not isinstance(argument, c_ast.ID):
            with self.put_away(register):
                self.value_as(argument, 0, kind)
        else:
            self.value_as(argument, register, kind)

    def descriptor(self, node):
        if self.constant(node) not in (0, 1, 2):
            refuse(node, 'expected the file descriptor of the terminal; write 0')

    def variable_at(self, node, kind, what):
        """Returns the place of the variable whose address is an argument, or None for NULL."""
        if is_null(node, self.unit.meaning):
            return None
        inner = node.expr if isinstance(node, c_ast.UnaryOp) and node.op == '&' else None
        places = (c_ast.ID, c_ast.ArrayRef, c_ast.StructRef) if kind is Kind.SET else (c_ast.ID, c_ast.ArrayRef)
        if not isinstance(inner, places) or self.stored_kind(inner) is not kind:
            refuse(node, f'expected the address of a variable of type {kind.value}; write {what}')
        place = self.fixed_place(inner)
        return refuse(node, f'expected a constant index, or a variable; write {what}') if place is None else place

    # results of calls

    def finish(self, name, wanted, store=None, is_nothing=False):
        """Writes the system call. If the call fails, errno is set and the result is -1. `store` writes code that stores
        other results if the call succeeds; with `is_nothing`, only if its result is not 0."""
        self.emit('sys', name)
        if name in NEVER_FAIL:
            if store:
                store()
        elif store is None:
            self.check(wanted)
        else:
            failed, back, is_told = self.new_label('failed'), self.new_label('back'), self.is_told(wanted)
            self.emit('jlt', r(0), failed if is_told else back)
            if is_nothing:
                self.emit('jz', r(0), back)
            store()
            self.put(back)
            if is_told:
                self.write_later(lambda: self.fail(failed, back, wanted))

    def is_told(self, wanted):
        """Returns true if the program uses the error of a call."""
        return self.unit.keeps_errno or wanted == 'value'

    def check(self, wanted):
        if self.is_told(wanted):
            failed, back = self.new_label('failed'), self.new_label('back')
            self.emit('jlt', r(0), failed)
            self.put(back)
            self.write_later(lambda: self.fail(failed, back, wanted))

    def fail(self, failed, back, wanted):
        self.put(failed)
        if self.unit.keeps_errno:
            self.set(1, 0)
            self.emit('sub', r(1), r(0))
            self.store(1, self.globals[self.unit.errno])
        if wanted:
            self.set(0, -1)
        self.emit('jmp', back)

    def invalid(self, back, wanted):
        """Returns a label where the call is not made, but fails with EINVAL."""
        label = self.new_label('invalid')

        def write():
            self.put(label)
            self.set(0, -EINVAL)
            self.fail(self.new_label('failed'), back, wanted)
        self.write_later(write)
        return label

    def check_alarm(self, node):
        """Refuses a constant that is longer than the machine's longest alarm. If another value is longer, the program
        accesses memory outside of its own, and SIGSEGV kills it."""
        seconds = self.constant(node)
        if seconds is not None:
            if wrapped(seconds, Kind.UNSIGNED) > LONGEST_ALARM:
                refuse(node, f'expected an alarm of at most {LONGEST_ALARM} seconds, found `{seconds}`')
            return
        fault, back = self.new_label('too_long'), self.new_label('back')

        def write():
            self.put(fault)
            self.emit('ld', r(0), r(0))
            self.emit('jmp', back)
        self.emit('jlt', r(0), fault)
        self.put(back)
        self.write_later(write)

    def call_waitpid(self, node, arguments, wanted):
        status = self.variable_at(arguments[1], Kind.INT, '&status')
        self.numbers([arguments[0], arguments[2]])
        options = self.constant(arguments[2])
        self.finish('waitpid', wanted, None if status is None else lambda: self.store(1, status),
                    options is None or bool(options & WNOHANG))

    def call_wait(self, node, arguments, wanted):
        status = self.variable_at(arguments[0], Kind.INT, '&status')
        self.set(1, -1)
        self.set(2, 0)
        self.finish('waitpid', wanted, None if status is None else lambda: self.store(1, status))

    def call_getpgrp(self, node, arguments, wanted):
        self.set(1, 0)
        self.finish('getpgid', wanted)

    def call_killpg(self, node, arguments, wanted):
        """Calls kill with the negated number. A negative process group fails with EINVAL."""
        self.numbers(arguments)
        done = self.new_label('done')
        self.emit('jlt', r(1), self.invalid(done, wanted))
        self.set(SCRATCH, 0)
        self.emit('sub', r(SCRATCH), r(1))
        self.move(1, SCRATCH)
        self.finish('kill', wanted)
        self.put(done)

    def call_waitid(self, node, arguments, wanted):
        """Stores an empty siginfo_t if the call fails, as Linux does."""
        info = self.variable_at(arguments[2], Kind.INFO, '&info')
        self.numbers([arguments[0], arguments[1], arguments[3]])
        if info is None:
            self.finish('waitid', wanted)
            return
        none, told = self.new_label('none'), self.new_label('told')
        self.emit('sys', 'waitid')
        self.emit('jlt', r(0), none)
        self.put(told)
        self.store(1, info)
        self.store_change(2, 1, 3, info)
        self.check(wanted)

        def write():
            self.put(none)
            self.set(1, 0)
            self.set(2, 0)
            self.emit('jmp', told)
        self.write_later(write)

    # signals

    def call_sigaction(self, node, arguments, wanted):
        action = self.variable_at(arguments[1], Kind.ACTION, '&action')
        old = self.variable_at(arguments[2], Kind.ACTION, '&old')
        self.numbers(arguments[:1])
        if action is None:
            self.set(2, -1)
        for number in range(3):
            if action is not None:
                self.load(2 + number, action + number)
            elif number:
                self.set(2 + number, 0)

        def store():
            for number in range(3):
                self.store(2 + number, old + number)
        self.finish('sigaction', wanted, None if old is None else store)

    def call_signal(self, node, arguments, wanted):
        """Sets a handler whose mask has the signal itself, as the C library does."""
        self.numbers(arguments, kind=[Kind.INT, Kind.HANDLER])
        signal, done = self.constant(arguments[0]), self.new_label('done')
        if signal is not None:
            self.set(3, self.bit(arguments[0], signal))
        else:
            self.move(4, 1)
            self.bit_of(4, 3, self.invalid(done, wanted))
        self.set(4, SA_RESTART)
        self.finish('sigaction', wanted)
        self.put(done)

    def call_sigprocmask(self, node, arguments, wanted):
        signals = self.variable_at(arguments[1], Kind.SET, '&set')
        old = self.variable_at(arguments[2], Kind.SET, '&old')
        if signals is None:
            self.effect(arguments[0])
            self.set(1, 0)
            self.set(2, 0)
        else:
            self.numbers(arguments[:1])
            self.load(2, signals)
        self.finish('sigprocmask', wanted, None if old is None else lambda: self.store(2, old))

    def call_sigpending(self, node, arguments, wanted):
        signals = self.variable_at(arguments[0], Kind.SET, '&set')
        if signals is None:
            refuse(node, 'expected the address of a sigset_t; write &set')
        self.finish('sigpending', wanted, lambda: self.store(1, signals))

    def call_sigsuspend(self, node, arguments, wanted):
        signals = self.variable_at(arguments[0], Kind.SET, '&set')
        if signals is None:
            refuse(node, 'expected the address of a sigset_t; write &set')
        self.load(1, signals)
        self.finish('sigsuspend', wanted)

    def call_sigqueue(self, node, arguments, wanted):
        value = arguments[2]
        if isinstance(value, c_ast.CompoundLiteral):
            items = value.init.exprs
            if len(items) != 1 or not isinstance(items[0], c_ast.NamedInitializer) \
                    or items[0].name[0].name != 'sival_int':
                refuse(value, 'expected a union sigval; write (union sigval){ .sival_int = 5 }')
            self.numbers([*arguments[:2], items[0].expr])
        elif isinstance(value, c_ast.ID) and self.stored_kind(value) is Kind.VALUE:
            self.numbers(arguments[:2])
            self.load(3, self.fixed_place(value))
        else:
            refuse(value, 'expected a union sigval; write (union sigval){ .sival_int = 5 }')
        self.finish('sigqueue', wanted)

    def call_tcgetpgrp(self, node, arguments, wanted):
        self.descriptor(arguments[0])
        self.finish('tcgetpgrp', wanted)

    def call_tcsetpgrp(self, node, arguments, wanted):
        self.descriptor(arguments[0])
        self.numbers(arguments[1:])
        self.finish('tcsetpgrp', wanted)

    def call_read(self, node, arguments, wanted):
        self.transfer('read', arguments, wanted)

    def call_write(self, node, arguments, wanted):
        self.transfer('write', arguments, wanted)

    def transfer(self, name, arguments, wanted):
        self.descriptor(arguments[0])
        count = self.constant(arguments[2])
        if count is not None and not 0 <= count <= MOST_BYTES:
            refuse(arguments[2], f'expected 0 to {MOST_BYTES} bytes, found `{count}`')
        if name == 'write' and is_string(arguments[1]):
            place, size = self.text(arguments[1], count)
        else:
            place, size = self.buffer(arguments[1])
        if count is not None and count > size:
            refuse(arguments[2], f'expected at most {size} bytes, the size of the array or string, found `{count}`')
        self.numbers(arguments[2:], 2, Kind.UNSIGNED_LONG)
        self.set(1, place)
        self.finish(name, wanted)

    def buffer(self, node):
        """Returns the place of an array of char, or of an element, and how many bytes the array has from there on."""
        is_address = isinstance(node, c_ast.UnaryOp) and node.op == '&'
        inner, offset = node.expr if is_address else node, 0
        if is_address and isinstance(inner, c_ast.ArrayRef):
            offset, inner = self.constant(inner.subscript), self.element(inner) and inner.name
        variable = self.meaning(inner)
        if not isinstance(variable, Variable) or variable.kind is not Kind.CHAR or offset is None \
                or variable.length is None and not is_address:
            refuse(node, 'expected an array of char, or the address of a char; write line, &letter or &line[4]')
        if not 0 <= offset <= (variable.length or 0):
            refuse(node, f'expected an element 0 to {variable.length - 1} of {variable.name}, found `{offset}`')
        return self.place(variable) + offset, (variable.length or 1) - offset

    def text(self, node, count):
        """Puts what is written of a string into words of the frame. Returns their place and the size of the string."""
        values = [*bytes_of(node), 0]
        size = len(values)
        values = values[:size if count is None else count]
        if len(values) > MOST_BYTES + 1:
            refuse(node, f'expected a string of at most {MOST_BYTES} characters, found `{len(values) - 1}`')
        place = self.texts.get((node.value, count))
        if place is None:
            place = self.texts[node.value, count] = self.instance.frame.take(len(values))
        for number, value in enumerate(values):
            self.set(0, value)
            self.store(0, place + number)
        return place, size

    def call_execl(self, node, arguments, wanted):
        if len(arguments) < 3 or not is_string(arguments[0]) or not is_string(arguments[1]) \
                or not is_null(arguments[-1], self.unit.meaning):
            refuse(node, 'expected two strings first and NULL last; write execl("tool", "tool", (char *)NULL)')
        name = arguments[0].value[1:-1].rpartition('/')[2]
        if name not in self.programs:
            refuse(arguments[0], f'expected a program, found `{name}`; name its file, too: tools/cworld .. {name}.c')
        words = arguments[2:-1]
        if len(words) > 2 or not all(is_string(word) and re.fullmatch('"-?[0-9]{1,9}"', word.value) for word in words):
            refuse(node, 'expected at most two numbers as arguments; write execl("tool", "tool", "5", (char *)NULL)')
        self.set(1, f'${name}')
        for number in range(2):
            self.set(2 + number, int(words[number].value[1:-1]) if number < len(words) else 0)
        self.finish('exec', wanted)

    def call_exit(self, node, arguments, wanted):
        self.numbers(arguments)
        self.emit('sys', 'exit')

    def call_note(self, node, arguments, wanted):
        self.emit('note', r(self.operand_as(arguments[0], 0, Kind.INT)))

    def call_atoi(self, node, arguments, wanted):
        argument = arguments[0]
        variable = self.meaning(argument.name) if isinstance(argument, c_ast.ArrayRef) else None
        if not isinstance(variable, Variable) or variable.kind is not Kind.ARGUMENTS \
                or self.constant(argument.subscript) not in (1, 2):
            refuse(node, 'expected an argument of the program; write atoi(argv[1]) or atoi(argv[2])')
        self.load(0, self.place(variable) + (self.constant(argument.subscript) - 1))

    def call_prctl(self, node, arguments, wanted):
        if self.constant(arguments[0]) != SUBREAPER:
            refuse(node, 'expected PR_SET_CHILD_SUBREAPER, the only option of prctl')
        self.numbers(arguments[1:])
        self.finish('subreaper', wanted)

    def call_memset(self, node, arguments, wanted):
        action = self.variable_at(arguments[0], Kind.ACTION, '&action')
        if action is None or wanted or self.constant(arguments[1]) != 0 or not self.is_size_of_action(arguments[2]):
            refuse(node, 'expected a struct sigaction to clear; write memset(&action, 0, sizeof action)')
        self.fill(action, [None] * WORDS[Kind.ACTION])

    def is_size_of_action(self, node):
        inner = node.expr if isinstance(node, c_ast.UnaryOp) and node.op == 'sizeof' else None
        if isinstance(inner, c_ast.Typename):
            inner = getattr(inner.type, 'type', None)
            return isinstance(inner, c_ast.Struct) and inner.name == 'sigaction'
        return isinstance(inner, c_ast.ID) and self.stored_kind(inner) is Kind.ACTION
