"""Code for signal sets, and for the members of siginfo_t that describe a child."""
from expressions import SCRATCH, r
from kinds import MEMBERS, Kind
from refusal import refuse

INTERNAL = (32, 33)                 # signals that the C library reserves
ALL = ~(1 << 31 | 1 << 32)          # the set of all other signals
SIGCONT, CONTINUED = 18, 65535


class Signals:
    """Writes code for signals in one function; a part of Writer."""

    # sets of signals

    def call_set(self, name, arguments, wanted):
        place = self.variable_at(arguments[0], Kind.SET, '&set')
        if place is None:
            refuse(arguments[0], 'expected the address of a sigset_t; write &set')
        done = self.new_label('done')
        if name in ('sigemptyset', 'sigfillset'):
            self.set(0, 0 if name == 'sigemptyset' else ALL)
            self.store(0, place)
        else:
            self.signal_in(name, arguments[1], done, wanted)
            self.set(SCRATCH, place)
            self.emit('ld', r(1), r(SCRATCH))
            self.change_set(name)
        if wanted and name != 'sigismember':
            self.set(0, 0)
        self.put(done)

    def signal_in(self, name, node, done, wanted):
        """Puts the set of one signal into r0."""
        signal = self.constant(node)
        if signal is not None:
            if name != 'sigismember' and signal in INTERNAL:
                refuse(node, f'expected a signal other than 32 and 33, found `{signal}`; the C library reserves these')
            self.set(0, self.bit(node, signal))
            return
        self.value_as(node, 1, Kind.INT)
        invalid = self.invalid(done, wanted)
        self.bit_of(1, 0, invalid)
        if name != 'sigismember':
            self.move(1, 0)
            self.with_number('and', 1, ALL)
            self.emit('jz', r(1), invalid)

    @staticmethod
    def bit(node, signal):
        if not 1 <= signal <= 64:
            refuse(node, f'expected a signal from 1 to 64, found `{signal}`')
        return 1 << signal - 1

    def bit_of(self, signal, result, invalid):
        """Puts the set of the signal in a register into the register before it."""
        self.with_number('sub', signal, 1)
        self.emit('jlt', r(signal), invalid)
        self.set(result, 63)
        self.emit('sub', r(result), r(signal))
        self.emit('jlt', r(result), invalid)
        self.set(result, 1)
        self.double(result, None)

    def change_set(self, name):
        """Changes or tests the set in r1, whose address is in r5, by the set of one signal in r0."""
        if name == 'sigaddset':
            self.emit('or', r(1), r(0))
        elif name == 'sigdelset':
            self.emit('or', r(1), r(0))
            self.emit('xor', r(1), r(0))
        else:
            end = self.new_label('member')
            self.emit('and', r(1), r(0))
            self.set(0, 0)
            self.emit('jz', r(1), end)
            self.set(0, 1)
            self.put(end)
            return
        self.emit('st', r(1), r(SCRATCH))

    # siginfo_t

    def store_change(self, word, child, free, info):
        """Stores si_code and si_status, if the file uses them, by the wait status in a register. si_code is 0 if no
        child is reported."""
        if self.unit.uses_member('si_code'):
            none = self.new_label('code')
            self.move(free, child)
            self.emit('jz', r(child), none)
            self.move(free, word)
            self.code_of_word(free)
            self.put(none)
            self.store(free, info + MEMBERS[Kind.INFO]['si_code'])
        if self.unit.uses_member('si_status', 'si_value', 'si_int'):
            self.status_of_word(word)
            self.store(word, info + MEMBERS[Kind.INFO]['si_status'])

    def status_of_word(self, register):
        """Replaces a wait status by its si_status: the exit code or the signal."""
        self.choose_by_word(register, lambda: self.set(register, SIGCONT),
                            lambda: self.with_number('div', register, 256), lambda: None)

    def code_of_word(self, register):
        exit_or_stop = self.new_label('stopped'), self.new_label('code')

        def of_low_byte():
            self.with_number('and', register, 127)
            self.emit('jnz', r(register), exit_or_stop[0])
            self.set(register, 1)
            self.emit('jmp', exit_or_stop[1])
            self.put(exit_or_stop[0])
            self.set(register, 5)
            self.put(exit_or_stop[1])
        self.choose_by_word(register, lambda: self.set(register, 6), of_low_byte, lambda: self.set(register, 2))

    def choose_by_word(self, register, continued, exited_or_stopped, killed):
        other, by_signal, end = (self.new_label(name) for name in ('not_continued', 'killed', 'word_known'))
        self.move(4, register)
        self.with_number('sub', 4, CONTINUED)
        self.emit('jnz', r(4), other)
        continued()
        self.emit('jmp', end)
        self.put(other)
        self.move(4, register)
        self.with_number('and', 4, 127)
        self.with_number('add', 4, 1)
        self.with_number('rem', 4, 128)
        self.with_number('div', 4, 2)
        self.emit('jnz', r(4), by_signal)
        exited_or_stopped()
        self.emit('jmp', end)
        self.put(by_signal)
        killed()
        self.put(end)
