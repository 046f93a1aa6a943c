"""Comparisons of results of calls, and types of numbers."""
from features import Maker, Part, group, indented
from typed import COMPARISONS, Typed


@group('results')
class Results(Maker):
    """Functions with negative results, and uses of these results."""

    def function(self):
        name, argument = self.new('f'), self.new('l')
        low = self.random.randrange(1, 5)
        kinds = [[f'return {argument} - {low};'], [f'return -{low};'],
                 [f'if ({argument} > 2)', f'    return -{low};', f'return {argument};'],
                 [f'return {argument} == 1 ? -1 : -2;'],
                 [f'int found = -1;', 'for (int i = 0; i < 3; i++)', f'    if (i == {argument})',
                  '        found = found == -1 ? i : -2;', 'return found - 1;']]
        return name, [f'static int {name}(int {argument})', '{', *indented(self.pick_of(kinds)), '}']

    def compared(self, name, none):
        call, value = f'{name}({self.random.randrange(5)})', self.pick('-1', '-1', '-1', '-2', '0', '-3', '1', none)
        operator = self.pick_of(COMPARISONS + ('==', '==', '!='))
        return f'{value} {operator} {call}' if self.random.random() < 0.2 else f'{call} {operator} {value}'

    def tested(self):
        name, before = self.function()
        none, main, counter = self.new('A').upper(), [], self.new('c')
        before = [self.pick(f'#define {none} (-1)', f'enum {{ {none} = -1 }};', f'#define {none} (-2)'), *before]
        for _ in range(self.random.randrange(1, 4)):
            test = self.compared(name, none)
            main += self.pick(
                [f'note({test});'], [f'if ({test})', '    note(1);', 'else', '    note(2);'],
                [f'note(({test}) {self.pick("&&", "||")} {self.compared(name, none)});'],
                [f'note({test} ? 5 : 6);'], [f'note(!({test}));'])
        main += self.pick(
            [f'int {counter} = 0;', f'while ({counter} < 4 && {name}({counter}) != -1)', f'    {counter}++;',
             f'note({counter});'],
            [f'switch ({name}(2)) {{', 'case -1:', '    note(1);', '    break;', 'case -2:', '    note(2);',
             '    break;',
             'default:', '    note(3);', '}'],
            [f'int {counter} = {name}(1);', f'note({counter} == -1);', f'note({counter} < -1);'],
            [f'note({name}(0) + 1 == 0);'], [])
        return Part('results, compared', before, main)

    def of_system(self):
        """System calls that fail or succeed."""
        call = self.pick('kill(getpid(), 0)', 'kill(getpid(), 99)', 'waitpid(-1, NULL, WNOHANG)', 'getpgid(9999999)',
                         'setpgid(getpid(), -1)', 'alarm(0)', 'getpgid(0) - getpid()', 'setpgid(9999999, 0)')
        test = f'{call} {self.pick_of(COMPARISONS)} {self.pick("-1", "-1", "0", "-2", "1")}'
        main = ['errno = 0;', f'if ({test})', '    note(errno);', 'else', '    note(-errno);', f'note({call});',
                f'note({test});']
        return Part('results, of the system', [], main)

    def of_program(self):
        """A program that reads its arguments."""
        tool, argument = self.new('t'), self.pick('-5', '-1', '-2', '0', '7', '-1', '-100')
        second = self.pick('-1', '3')
        value = self.pick('atoi(argv[1])', 'atoi(argv[1])', 'atoi(argv[2])')
        lines = [f'if ({value} {self.pick("==", "==", "!=", "<", ">=")} -1)', '    note(1);', 'else', '    note(0);',
                 'note(atoi(argv[1]) - atoi(argv[2]));', f'return {self.random.randrange(5)};']
        child = self.new('l')
        main = ['signal(SIGCHLD, SIG_DFL);', f'pid_t {child} = fork();', f'if ({child} == 0) {{',
                f'    execl("{tool}", "{tool}", "{argument}", "{second}", (char *)NULL);', '    _exit(9);', '}',
                f'int {child}s = 0;', f'waitpid({child}, &{child}s, 0);', f'note(WEXITSTATUS({child}s));']
        return Part('results, of arguments', [], main, tool=[tool, *lines])

    def any(self):
        return self.pick_of([self.tested] * 4 + [self.of_system] * 2 + [self.of_program] * 2)()


@group('types')
class Types(Maker):
    def numbers(self):
        typed = Typed(self.random, self.new)
        before = [typed.declare(is_global=True) for _ in range(2)]
        if self.random.random() < 0.6:
            before += typed.function()
        main = [typed.declare() for _ in range(2)]
        main += [f'(void){variable.name};' for variable in typed.variables if not variable.name.startswith('g')]
        for _ in range(self.random.randrange(2, 5)):
            main += typed.statement()
        return Part('types, statements', before, main)

    def few(self):
        """Expressions in which an unsigned type meets a negative number."""
        name = self.new('l')
        of = self.random.one_of(['uid_t', 'gid_t', 'int', 'ssize_t', 'pid_t', 'char'], unsigned=['unsigned'],
                                long=['size_t', 'long'])
        less = self.pick('- 1', '- 2', '+ -1', '* -1')
        main = [f'{of} {name} = {self.pick("0", "1", "-1")};',
                f'note({name} {less} {self.pick_of(COMPARISONS)} 0);', f'note({name} {self.pick_of(COMPARISONS)} -1);',
                f'note(sizeof {name});']
        if of == 'uid_t' and self.random.random() < 0.5:
            main[1:2] = [f'{name} = getuid() - getuid();', f'note({name} - 1 > 0);']
        return Part(f'types, {of}', [], main)

    def sizes(self):
        array, counter, length = self.new('g'), self.new('l'), self.random.randrange(2, 7)
        of = self.pick('int', 'int', 'char')
        bytes_of = length * (4 if of == 'int' else 1)
        size = self.pick(f'sizeof {array}', f'sizeof {array} / sizeof {array}[0]', 'sizeof(int)', f'sizeof {array}[1]')
        test = self.pick(f'note(-1 < {size});', f'note({counter} < {size});', f'note({size} - {bytes_of + 3} > 0);',
                         f'if ({counter} {self.pick_of(COMPARISONS)} {size})\n        note(10);',
                         f'note({size} * -1 < 0);', f'note({counter} + {size} > 100);')
        before = [f'static {of} {array}[{length}];']
        if self.random.may('constants'):
            more = self.new('g')
            before += [self.pick(f'static char {more}[sizeof {array} + 1];',
                                 f'enum {{ {more}n = sizeof {array} }};\nstatic '
                                 f'char {more}[{more}n];',
                                 f'static int {more}[sizeof {array} / sizeof {array}[0] * 2];')]
            size = f'sizeof {more}'
        return Part('types, sizes', before, [
            f'int {counter} = {self.pick(-1, -2, 0, 3)};', f'(void){counter};', *test.split('\n'),
            f'note({size});'])

    def enums(self):
        color, red, green, variable = self.new('e'), self.new('A').upper(), self.new('B').upper(), self.new('l')
        first = self.pick('', '', ' = 1', ' = -1')
        main = [f'enum {color} {variable} = {self.pick(red, green)};', f'note({variable} - 1 < 0);',
                f'note({variable} {self.pick_of(COMPARISONS)} -1);', f'note({red} - 2 < 0);', f'note(-{variable} > 0);',
                f'note({variable} == {red});']
        self.random.shuffle(main[1:])
        return Part('types, enums', [f'enum {color} {{ {red}{first}, {green} }};'], main[:self.random.randrange(2, 6)])

    def calls(self):
        """Results of system calls, in unsigned types."""
        call = self.pick('alarm(0)', 'alarm(0)', '(getuid() - getuid())', '(getegid() - getgid())')
        main = [f'note({call} - 1 {self.pick_of(COMPARISONS)} 0);', f'note({call} > -1);', f'note({call} == -1);']
        if call == 'alarm(0)':
            main = ['alarm(100);', 'note(alarm(50) > 3);', 'note(alarm(0) >= 1);', *main]
        return Part('types, of calls', [], main)

    def any(self):
        return self.pick_of([self.numbers] * 5 + [self.few, self.sizes, self.enums] * 2 + [self.calls])()
