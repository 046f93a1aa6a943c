"""Macros, strings and names: how the preprocessor changes a text, which bytes a string has, and which of several
variables a name means."""
from features import Maker, Part, group, indented

LETTERS = 'abcXYZ012789 .,;#%&'
ESCAPES = ['\\n', '\\t', '\\r', '\\0', '\\\\', "\\'", '\\"', '\\a', '\\b', '\\1', '\\12', '\\101', '\\x1', '\\x41',
           '\\x7f',
           '\\xff', '\\377', '\\200', '\\07']
RARE_ESCAPES = ['\\f', '\\v', '\\?', '\\e', '\\x0', '\\x00a']
LOOK_ALIKE = ['/*', '*/', '//', '//x', '/* x */', '#', '\\\\n', '??', "'"]


@group('macros')
class Macros(Maker):
    """Macros and other directives, continued lines and comments."""

    def value(self):
        return self.pick(0, 1, 2, 3, 5, 9, 40, 1000)

    def number(self):
        """Returns the text of a value for a #define."""
        value = self.value()
        return self.pick(str(value), str(value), f'({value})', f'(-{value})', f'({value} + 1)', hex(value))

    def plain(self):
        one, other = self.new('A').upper(), self.new('B').upper()
        before = [f'#define {one} {self.number()}', f'#define {other} ({one} * 2 + 1)']
        return Part('macros, plain', before, [f'note({one});', f'note({other} - {one});', f'note(-{one} == {other});'])

    def no_parentheses(self):
        one, other = self.new('A').upper(), self.new('B').upper()
        sum_of = self.pick(f'{self.value()} + {self.value()}', f'-{self.value()}', f'{self.value()} - 1')
        before = [f'#define {one} {sum_of}', f'#define {other} {one} * 2']
        return Part('macros, without parentheses', before, [f'note({one} * 2);', f'note({other});',
                                                            f'note(10 - {one});',
                                                            f'note(3 * {other} + {one});'])

    def redefined(self):
        """A macro whose value changes at some line, and with it the value of a macro that names it."""
        one, other, name = self.new('A').upper(), self.new('B').upper(), self.new('f')
        undefined = [f'#undef {one}'] if self.random.may('directives') else []
        before = [f'#define {one} {self.number()}', f'#define {other} ({one} + 1)', f'static int {name}(void)', '{',
                  f'    return {self.pick(one, other)};', '}']
        main = [f'note({one});', f'note({other});', *undefined, f'#define {one} {self.number()}', f'note({one});',
                f'note({other});', f'note({name}());']
        if self.random.random() < 0.5:
            before, main = before + [*undefined, f'#define {one} {self.number()}'], [f'note({one});',
                                                                                     f'note({name}());',
                                                                                     f'note({other});']
        return Part('macros, redefined', before, main)

    def scope(self):
        """A macro that names something which means something else in other places."""
        inner, macro = self.new('b'), self.new('A').upper()
        outer = self.random.one_of([f'enum {{ {inner} = {self.value()} }};'],
                                   variables=[f'static int {inner} = {self.value()};'])
        before = [outer, f'#define {macro} ({inner} + {self.value()})']
        within = self.pick([f'enum {{ {inner} = {self.value() + 7} }};', f'note({macro});'],
                           [f'int {inner} = {self.value() + 7};', f'note({macro});'],
                           [f'for (int {inner} = 7; {inner} < 9; {inner}++)', f'    note({macro});'])
        kind = 'constants' if 'enum' in within[0] else 'variables'
        main = [f'note({macro});', '{', *indented(within), '}', f'note({macro});']
        if self.random.random() < 0.4:
            name = self.new('f')
            before += [f'static int {name}_(void)', '{', f'    return {macro};', '}',
                       f'static int {name}(int {inner})', '{', f'    return {macro} - {name}_();', '}']
            kind = 'parameters'
            main = [f'note({name}({self.value() + 11}));', f'note({macro});']
        elif self.random.random() < 0.3:
            kind = 'variables'
            main = [f'int {inner} = {self.value() + 3};', f'note({macro});', f'{inner}++;', f'note({macro});']
        return Part(f'macros, scope of {kind}', before, main)

    def later(self):
        """A name that means a constant first, and a macro from a line on."""
        name, function = self.new('b'), self.new('f')
        before = [f'enum {{ {name} = {self.value()} }};', f'static int {function}(void)', '{', f'    return {name};',
                  '}',
                  f'#define {name} {self.value() + 20}']
        return Part('macros, scope of lines', before, [f'note({name});', f'note({function}());'])

    def splice(self):
        """Lines that are continued: in a comment, a name, a number, a definition or a string."""
        name, macro = self.new('l'), self.new('A').upper()
        kinds = [
            ([], ['// this goes on \\', f'note({self.value()});', 'note(2);']),
            ([], ['// this goes on too \\', '   and on \\', f'note({self.value()});']),
            ([], [f'int {name[:1]}\\', f'{name[1:]} = 3;', f'note({name});']),
            ([], ['note(1\\', f'{self.value()});']),
            ([], [f'int {name} = 4; /\\', '/ a comment', f'note({name} +\\', '1);']),
            ([f'#define {macro} (1 + \\', f'    {self.value()})'], [f'note({macro});']),
            ([f'#define {macro} {self.value()} // a comment \\', f'    + 3'], [f'note({macro});']),
            ([f'#define {macro} {self.value()} /* a', f'   comment */'], [f'note({macro});']),
            ([], [f'char {name}[] = "ab\\', 'cd";', f'note(sizeof {name});', f'note({name}[2]);']),
        ]
        return Part('macros, splices', *self.random.one_of(kinds[:1], splices=kinds[1:]))

    def comment(self):
        """Text that looks like a comment but is none, and comments that look like text."""
        return Part('macros, comments', [], self.pick(
            [f'note(6 //* a comment */ {self.value()}', '    + 1);'], ["note('\"'); // \"", 'note(2); /* " */'],
            ['note(8 /* // */ / 2);'], ['/* // */ note(1);', '// /*', 'note(2); // */'],
            ['note(1);/*', '*/note(2);/**/']))

    def function_like(self):
        macro, other, name = self.new('A').upper(), self.new('B').upper(), self.new('l')
        kinds = [
            ([f'#define {macro}(a, b) ((a) > (b) ? (a) : (b))'], [f'note({macro}({self.value()}, {name} - 1));',
                                                                  f'note({macro}(-1, {macro}({name}, 2)));']),
            ([f'#define {macro}(x) x + x'], [f'note({macro}({name}) * 2);', f'note(3 * {macro}(1));']),
            ([f'#define {macro}(x) do {{ note(x); note(-(x)); }} while (0)'],
             [f'if ({name} > 0)', f'    {macro}({name} + 1);', 'else', f'    {macro}(7);']),
            ([f'#define {macro}(a, b) a ## b'], [f'note({macro}(1, 2));', f'note({macro}({name[:1]}, {name[1:]}));']),
            ([f'#define {macro}(x) sizeof #x'], [f'note({macro}(a + b));', f'note({macro}("a"));']),
            ([f'#define {macro}() {self.value()}', f'#define {other}(f) (f() + 1)'], [f'note({other}({macro}));']),
            ([f'#define {macro}(x, ...) ((x) + (__VA_ARGS__))'], [f'note({macro}({name}, 2));']),
            ([f'#define {other}(x) ({name} + (x))', f'#define {macro}(x) {other}({other}(x))'], [f'note({macro}(1));',
                                                                                                 f'int {macro} = 3;',
                                                                                                 f'note({macro});']),
        ]
        before, main = self.pick_of(kinds)
        return Part('macros, with arguments', before, [f'int {name} = {self.value()};', *main])

    def condition(self):
        one, other = self.new('A').upper(), self.new('B').upper()
        test = self.pick(f'#if {one} > 2', f'#ifdef {other}', f'#ifndef {other}', f'#if defined({one}) && {one} != 5',
                         f'#if {other}', '#if -1 > 0u', f"#if '\\377' < 0", '#if 0', f'#if {one} == 1 || {one} % 2')
        main = [test, f'note({self.value()});', self.pick(f'#elif {one} < 9', '#else'), 'note(77);', '#endif',
                f'note({one});']
        return Part('macros, conditions', [f'#define {one} {self.value()}'], main)

    def any(self):
        return self.random.one_of([self.plain, self.redefined, self.redefined, self.scope, self.scope, self.later,
                                   self.splice],
                                  parentheses=[self.no_parentheses], arguments=[self.function_like, self.function_like],
                                  directives=[self.condition])()


@group('strings')
class Strings(Maker):
    def piece(self, most=4):
        """Returns some text between two quotes."""
        parts = []
        for _ in range(self.random.randrange(most)):
            roll = self.random.random()
            parts.append(self.pick_of(LETTERS) if roll < 0.45 else self.pick_of(ESCAPES) if roll < 0.85 else
                         '\t' if roll < 0.92 else self.random.one_of(LOOK_ALIKE, escapes=RARE_ESCAPES))
        return ''.join(parts)

    def text(self):
        """Returns one string or several, where the text of one could continue an escape of the one before."""
        if self.random.random() < 0.35:
            one = self.pick('\\x1', '\\x4', '\\0', '\\1', '\\12', 'b\\0', 'a\\x', '\\00')
            one += self.pick_of('0123456789abcdef') if one.endswith('x') else ''
            parts = [self.piece(2) + one, self.pick_of('0123489aAfg') + self.piece(2)]
        else:
            parts = [self.piece() for _ in range(self.pick(1, 1, 2, 3))]
        joint = self.pick(' ', ' ', '', ' /* x */ ')
        return joint.join(f'"{part}"' for part in parts)

    def array(self):
        """A string as the first value of an array."""
        name = self.new(self.pick_of('gl'))
        text = self.text()
        line = f'char {name}[] = {text};'
        counted = self.random.random() < 0.2
        if counted:
            line = f'char {name}[24] = {text};'
        main = [f'note(sizeof {name});', f'for (int i = 0; i < (int)sizeof {name}; i++)', f'    note({name}[i]);']
        if self.random.random() < 0.3:
            main = [f'note(sizeof {name});', *(f'note({name}[{place}]);' for place in range(24 if counted else 1))]
        kind = 'strings, ' + ('tabs' if '\t' in text else 'joined' if '" ' in text or '""' in text else 'arrays')
        if name.startswith('g'):
            return Part(kind, ['static ' + line], main)
        return Part(kind, [], [line, *main])

    def letter(self):
        inner = self.random.one_of(ESCAPES + list(LETTERS) + ['"', '\t', '/', '*'], escapes=RARE_ESCAPES)
        name = self.new('l')
        main = [f"note('{inner}');", f"char {name} = '{inner}';", f"note({name} == '{inner}');", f'note({name} + 1);',
                f"note('{inner}' < 0);"]
        return Part('strings, letters', [], main)

    def size(self):
        letter = ["note(sizeof 'a');"] if self.random.seldom('sizes of expressions') else []
        return Part('strings, sizes', [], [f'note(sizeof {self.text()});', *letter])

    def write(self):
        """Strings that are written, some with the 0 at the end."""
        main = []
        for _ in range(self.random.randrange(1, 4)):
            word = ''.join(self.pick('a', 'b', 'cd', '\\n', '\\101', '\\t', '\\0') for _ in
                           range(self.random.randrange(1, 4)))
            size = len(word.replace('\\101', 'x').replace('\\0', 'x').replace('\\n', 'x').replace('\\t', 'x'))
            count = self.pick(size, size + 1, size + 1, self.random.randrange(1, size + 1))
            file = self.pick(1, 1, 0)
            form = self.random.random()
            if form < 0.4:
                main.append(f'note(write({file}, "{word}", {count}));')
            elif form < 0.7:
                main.append(f'write({file}, "{word}", {count});')
            else:
                name = self.new('l')
                main += [f'char {name}[] = "{word}";',
                         f'note(write({file}, {name}, sizeof {name} - 1) == sizeof {name} - 1);',
                         f'write({file}, &{name}[{self.random.randrange(size)}], 1);']
        return Part('strings, writes', [], main, has_terminal=True)

    def braces(self):
        """Letters in braces, and a string without the 0 at its end."""
        name = self.new('l')
        line = self.pick(f"char {name}[] = {{ 'a', 200, {self.pick('65', '-1', '0')} }};",
                         f'char {name}[3] = "abc";', f'char {name}[] = {{ "ab" }};', f'char {name}[5] = {{ 0 }};')
        return Part('strings, arrays', [], [line, f'note(sizeof {name});',
                                            f'note({name}[0] + {name}[1] * 2 + {name}[2] * 3);'])

    def any(self):
        return self.random.one_of([self.array, self.array, self.array, self.letter, self.write, self.write],
                                  sizes=[self.size], braces=[self.braces])()


@group('names')
class Names(Maker):
    """Variables that hide others of the same name, and static variables."""

    def value(self):
        return self.pick(0, 1, 2, 3, 5, 9, 40, 1000)

    def within(self):
        name, function = self.new('l'), self.new('f')
        before = [f'static int {name} = {self.value()};', f'static int {function}(void)', '{', f'    {name} += 2;',
                  f'    return {name};', '}']
        inner = self.pick(
            ['{', f'    int {name} = {self.value()};', f'    {name}++;', f'    note({name});',
             f'    note({function}());', '}'],
            [f'for (int {name} = 0; {name} < 2; {name}++)', f'    note({name} + {function}());'],
            [f'for (int {name} = 0; {name} < 2; {name}++) {{', f'    int {name} = 7;', f'    note({name}--);', '}'],
            ['{', f'    char {name} = {self.value()};', '    {', f'        int {name} = 300;', f'        note({name});',
             '    }',
             f'    note({name} + sizeof {name});', '}'],
            [f'if ({name} > 2) {{', f'    int {name} = 1;', f'    note({name});', '} else {', f'    int {name} = 2;',
             f'    note({name});', '}'],
        )
        main = [f'note({name});', *inner, f'note({name});']
        if self.random.random() < 0.5:
            main = [f'int {name} = {self.value() + 3};', *main, f'note({function}());']
        return Part('names, within others', before, main)

    def static(self):
        name, function, counter = self.new('l'), self.new('f'), self.new('c')
        of = self.random.one_of(['int', 'char', 'int', 'pid_t'], unsigned=['unsigned'], long=['long'])
        before = [f'static int {function}(int by)', '{', f'    static {of} {name} = {self.value() % 100};',
                  f'    {name} += by;',
                  f'    return {name};', '}']
        main = [f'note({function}({self.pick(1, -3, 100)}));', f'note({function}(1));',
                f'for (int {counter} = 0; {counter} < 2; {counter}++) {{', f'    static int {name};',
                f'    {name} += 5;',
                f'    int {name}n = {name} * 2;', f'    note({name}n++);', '}']
        if self.random.random() < 0.4:
            main += ['if (fork() == 0) {', f'    note({function}(7));', '    _exit(0);', '}', 'while (wait(NULL) < 0)',
                     '    ;',
                     f'note({function}(2));']
        return Part('names, static', before, main)

    def effects(self):
        """Side effects of operands that are evaluated, and of operands that are not."""
        name, other = self.new('l'), self.new('l')
        kinds = [[f'note({name}++ && {other}++);'], [f'note({name}-- || {other}++);'],
                 [f'note(({name}++, {other} + {name}));'],
                 [f'note({name} ? {other}++ : {name}++);'], [f'note(!({name} = {other} - 1));'],
                 [f'{name} += {other} *= 2;', f'note({name});'], [f'note(-{name}++);'], [f'{name} = {other} = 7;']]
        if self.random.seldom('sizes of expressions'):
            kinds += [[f'note(sizeof({name}++));'], [f'note(sizeof({name} = {other}));']]
        main = [f'int {name} = {self.pick(-1, 0, 1)}, {other} = {self.value()};']
        for lines in self.random.sample(kinds, 3):
            main += lines
        return Part('names, effects', [], [*main, f'note({name});', f'note({other});'])

    def any(self):
        return self.pick(self.within, self.static, self.effects)()
