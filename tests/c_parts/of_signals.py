"""Signal sets, members of siginfo_t, handlers that are entered again while they run, and wait statuses."""
from features import Maker, Part, group, indented

SIGNALS = ['SIGUSR1', 'SIGUSR2', 'SIGCHLD', 'SIGTERM', 'SIGHUP', 'SIGALRM', 'SIGRTMIN', 'SIGKILL', 'SIGSTOP']
CAUGHT = ['SIGUSR1', 'SIGUSR2', 'SIGTERM', 'SIGHUP', 'SIGURG', 'SIGWINCH']
NUMBERS = [-1, 0, 1, 2, 10, 31, 32, 33, 34, 63, 64, 65, 66, 100, 150, 1000]


@group('sets')
class Sets(Maker):
    def signal(self, name):
        """Returns a signal's name, or an expression of a variable, whose value may be no signal."""
        return self.pick(self.pick_of(SIGNALS), name, name, f'{name} + 1')

    def begin(self, a):
        return f'{self.pick("sigemptyset", "sigemptyset", "sigfillset")}(&{a});'

    def change(self, a, number):
        call = self.pick('sigaddset', 'sigaddset', 'sigdelset', 'sigismember')
        text = f'{call}(&{a}, {self.signal(number)})'
        roll = self.random.random()
        if roll < 0.25:
            return [f'if ({text} < 0)', '    note(errno);']
        if roll < 0.5:
            return [f'note({text});', 'note(errno);']
        if roll < 0.75:
            return [f'note({text});']
        return [f'note({text} == -1);'] if call == 'sigismember' else [f'{text};']

    def members(self, a):
        name = self.new('l')
        if self.random.random() < 0.5:
            low = self.pick(-1, 0, 1, 9, 30)
            return [f'for (int {name} = {low}; {name} < {low + self.pick(3, 6, 40)}; {name}++)',
                    f'    note(sigismember(&{a}, {name}));']
        return [f'note(sigismember(&{a}, {self.pick_of(SIGNALS)}));' for _ in range(2)]

    def ranges(self):
        """Variables whose values are no signals, or signals that the C library reserves."""
        a, b, number = self.new('l'), self.new('l'), self.new('l')
        main = [f'sigset_t {a}, {b};', f'int {number} = {self.pick_of(NUMBERS)};', 'errno = 0;', self.begin(a)]
        for _ in range(self.random.randrange(2, 5)):
            main += self.change(a, number)
        if self.random.random() < 0.4:
            main += [f'{b} = {a};', *self.change(b, number), *self.members(b)]
        else:
            main += [f'(void){b};']
        return Part('sets, ranges', [], [*main, *self.members(a)])

    def in_range(self):
        a, number = self.new('l'), self.new('l')
        main = [f'sigset_t {a};', self.begin(a)]
        for _ in range(self.random.randrange(2, 5)):
            signal = self.pick_of(SIGNALS + ['SIGRTMIN + 2', '64', '1'])
            main.append(self.pick(f'sigaddset(&{a}, {signal});', f'note(sigaddset(&{a}, {signal}));',
                                  f'note(sigdelset(&{a}, {signal}) == -1);', f'sigdelset(&{a}, {signal});',
                                  f'note(sigismember(&{a}, {signal}) == 1);'))
        main += [f'for (int {number} = 1; {number} < 65; {number} += {self.pick(3, 7, 9)})',
                 f'    note(sigismember(&{a}, {number}));']
        return Part('sets, in range', [], main)

    def masks(self):
        """Blocked and pending signals. No ignored signal is sent: Linux keeps a blocked one pending, jobk doesn't."""
        name, a, old, some = self.new('on'), self.new('l'), self.new('l'), self.random.sample(CAUGHT, 2)
        how = self.pick('SIG_BLOCK', 'SIG_SETMASK', 'SIG_BLOCK', '99', '-1')
        before = [f'static void {name}(int number)', '{', '    note(number);', '}']
        handled = [f'signal({it}, {name});' for it in some[1:]]
        main = [f'sigset_t {a}, {old};', self.begin(a), f'sigemptyset(&{old});', f'sigaddset(&{a}, {some[0]});',
                f'note(sigprocmask({how}, &{a}, &{old}));', 'note(errno == EINVAL);',
                f'note(sigismember(&{old}, {some[0]}));',
                f'sigprocmask(SIG_BLOCK, NULL, &{a});', f'note(sigismember(&{a}, {some[0]}));',
                f'note(sigismember(&{a}, SIGKILL));', f'note(sigismember(&{a}, {self.pick("32", "33", "64", "40")}));',
                f'kill(getpid(), {some[1]});', f'sigpending(&{a});', f'note(sigismember(&{a}, {some[1]}));',
                f'sigemptyset(&{a});', f'note(sigprocmask(SIG_SETMASK, &{a}, NULL));']
        return Part('sets, masks', before, ['errno = 0;', *handled, *main])

    def any(self):
        return self.pick(self.ranges, self.ranges, self.in_range, self.masks)()


@group('siginfo')
class Siginfo(Maker):
    """The siginfo_t of handlers and of waitid."""
    FIELDS = ['{0}si_code', '{0}si_code', '{0}si_pid == getpid()', '{0}si_status', '{0}si_value.sival_int', '{0}si_int',
              '{0}si_code == CLD_EXITED', '{0}si_code == CLD_KILLED', '{0}si_pid > 0', '{0}si_code < 0']
    RARE_FIELDS = ['{0}si_signo', '{0}si_errno', '{0}si_uid == getuid()', '{0}si_code == SI_USER',
                   '{0}si_code == SI_QUEUE']

    def __init__(self, chance, new):
        super().__init__(chance, new)
        self.fields = self.FIELDS + [it for it in self.RARE_FIELDS if chance.seldom(it)]

    def shown(self, before, fields=None):
        return [f'note({field.format(before)});' for field in self.random.sample(fields or self.fields,
                                                                                 self.random.randrange(1, 4))]

    def handler(self, name, fields=None):
        return [f'static void {name}(int number, siginfo_t *info, void *context)', '{', '    (void)context;',
                '    note(number);', *indented(self.shown('info->', fields)), '}']

    def installed(self, name, signal):
        action = self.new('l')
        flags = self.pick('SA_SIGINFO', 'SA_SIGINFO', 'SA_SIGINFO | SA_RESTART')
        return [f'struct sigaction {action} = {{ .sa_sigaction = {name}, .sa_flags = {flags} }};',
                f'sigaction({signal}, &{action}, NULL);']

    def sent(self):
        """Signals that kill or sigqueue sends."""
        name, signal = self.new('on'), self.pick_of(CAUGHT + ['SIGRTMIN', 'SIGRTMIN + 1', 'SIGRTMAX'])
        if self.random.random() < 0.04:
            signal = 'SIGCHLD'
        value = self.pick(0, 1, 5, 7, -1, 256, 65535, 100000)
        send = self.pick(f'kill(getpid(), {signal});', f'kill(getpid(), {signal});', f'kill(0, {signal});',
                         f'sigqueue(getpid(), {signal}, (union sigval){{ .sival_int = {value} }});')
        fields = self.fields
        if self.random.random() < 0.85:             # si_code and si_status are refused if the signal is not SIGCHLD
            fields = [it for it in self.fields if 'code' not in it and 'status' not in it]
        return Part(f'siginfo, of {send[:8].partition("(")[0]}', self.handler(name, fields),
                    [*self.installed(name, signal), send])

    def child(self):
        """SIGCHLD of a child that exits, is killed or is stopped."""
        name, child = self.new('on'), self.new('l')
        end = self.pick('_exit({});'.format(self.pick(0, 1, 7, 255, 256, -1)), 'kill(getpid(), SIGKILL);',
                        'kill(getpid(), SIGTERM);', 'kill(getpid(), SIGSTOP);')
        restored = ['signal(SIGTERM, SIG_DFL);'] if 'TERM' in end else []
        stopped = [f'while (waitpid({child}, NULL, WUNTRACED) < 0)', '    ;', f'kill({child}, SIGKILL);']
        main = [*self.installed(name, 'SIGCHLD'), f'pid_t {child} = fork();', f'if ({child} == 0) {{',
                *indented(restored),
                f'    {end}', '    _exit(3);', '}', *(stopped if 'STOP' in end else []),
                f'while (waitpid({child}, NULL, 0) < 0)',
                '    ;']
        return Part('siginfo, of a child', self.handler(name), main)

    def waited(self):
        info, child = self.new('l'), self.new('l')
        end = self.pick('_exit({});'.format(self.pick(0, 1, 7, 255, 256, -1)), 'kill(getpid(), SIGKILL);')
        begin = self.pick(f'siginfo_t {info} = {{ 0 }};', f'siginfo_t {info};')
        main = ['signal(SIGCHLD, SIG_DFL);', begin, f'pid_t {child} = fork();', f'if ({child} == 0) {{', f'    {end}',
                '    _exit(3);', '}', f'note(waitid({self.pick("P_ALL, 0", "P_PID, " + child)}, &{info}, WEXITED));',
                f'note({info}.si_pid == {child});', *self.shown(f'{info}.')]
        return Part('siginfo, of waitid', [], main)

    def no_news(self):
        """A child without a status change that is to be reported."""
        info, child, status = self.new('l'), self.new('l'), self.new('l')
        main = ['signal(SIGCHLD, SIG_DFL);', f'siginfo_t {info} = {{ 0 }};', f'int {status} = 77;',
                f'pid_t {child} = fork();',
                f'if ({child} == 0)', '    while (1)', '        pause();', f'{info}.si_pid = 5;',
                f'note(waitid(P_ALL, 0, &{info}, WEXITED | WNOHANG));', f'note({info}.si_pid);',
                f'note(waitpid({child}, &{status}, WNOHANG));', f'note({status});', f'kill({child}, SIGKILL);',
                f'note(waitid(P_PID, {child}, &{info}, WEXITED | WNOWAIT));', *self.shown(f'{info}.'),
                f'note(waitpid({child}, &{status}, 0) == {child});', f'note({status});',
                f'note(waitid(P_PID, {child}, &{info}, {self.pick("WEXITED", "0", "WEXITED | WNOHANG")}));',
                f'note({info}.si_pid);', 'note(errno);', *self.shown(f'{info}.')]
        return Part('siginfo, no news', [], main)

    def kept(self):
        """Members that the program sets itself."""
        info = self.new('l')
        main = [f'siginfo_t {info} = {{ 0 }};']
        for _ in range(self.random.randrange(1, 4)):
            field = self.pick('si_status', 'si_code', 'si_pid', 'si_value.sival_int', 'si_status')
            main += [f'{info}.{field} = {self.pick(0, 1, 2, 5, 9, 127, 255, 256, 65535, 1000)};',
                     f'note({info}.{field});']
        if self.random.random() < 0.3:
            main += self.shown(f'{info}.', [it for it in self.fields if '==' not in it and '<' not in it])
        return Part('siginfo, members', [], main)

    def any(self):
        return self.pick(self.sent, self.sent, self.child, self.waited, self.waited, self.no_news, self.kept)()


@group('handlers')
class Handlers(Maker):
    """Handlers that are entered again while they run, and some that are not. Each checks that its variables last."""

    def variables(self, depth):
        count = self.pick(1, 2, 3, 3, 3, 4, 4, 5)
        names = [self.new('l') for _ in range(count)]
        begin = [f'int {name} = {depth} + {10 * place + 10};' for place, name in enumerate(names)]
        end = [f'note({name});' for name in names]
        if self.random.random() < 0.3:
            begin += [f'int {names[0]}a[2] = {{ {depth}, {names[0]} }};']
            end += [f'note({names[0]}a[0] + {names[0]}a[1]);']
        return begin, end

    def handler(self, name, depth, send):
        begin, end = self.variables(depth)
        return [f'static void {name}(int number)', '{', '    (void)number;', *indented(begin), f'    {depth}++;',
                f'    if ({depth} < 2)', f'        {send}', *indented(end), '}']

    def two_actions(self, copy):
        """Sets one handler for two signals, by a copy of its address."""
        depth, name, (one, other) = self.new('g'), self.new('on'), self.random.sample(CAUGHT, 2)
        first, second = self.new('l'), self.new('l')
        before = [f'static volatile sig_atomic_t {depth};', *self.handler(name, depth, f'kill(getpid(), {other});')]
        main = [f'struct sigaction {first} = {{ .sa_handler = {name} }}, {second} = {{ .sa_handler = SIG_DFL }};',
                f'sigaction({one}, &{first}, NULL);', *copy(first, second, one),
                f'sigaction({other}, &{second}, NULL);', f'kill(getpid(), {one});']
        return before, main

    def by_member(self):
        return Part('handlers, entered again by a copied member', *self.two_actions(
            lambda first, second, one: [f'{second}.sa_handler = {first}.sa_handler;']))

    def by_old(self):
        return Part('handlers, entered again by an old action', *self.two_actions(
            lambda first, second, one: [f'sigaction({one}, NULL, &{second});']))

    def by_copy(self):
        """Copies the whole action."""
        return Part('handlers, entered again by a copied action', *self.two_actions(
            lambda first, second, one: [f'{second} = {first};']))

    def by_inner(self):
        """A handler that calls a function that sets it for another signal, or unblocks its signal."""
        depth, name, other, mask, action = self.new('g'), self.new('on'), self.new('f'), self.new('g'), self.new('g')
        one, second = self.random.sample(CAUGHT, 2)
        body = self.pick(
            [f'sigprocmask(SIG_UNBLOCK, &{mask}, NULL);', f'kill(getpid(), {one});'],
            [f'kill(getpid(), {one});', f'sigprocmask(SIG_SETMASK, &{mask}, NULL);'],
            [f'sigaction({second}, &{action}, NULL);', f'kill(getpid(), {second});'],
            [f'kill(getpid(), {one});', f'sigsuspend(&{mask});'])
        fill = [f'sigemptyset(&{mask});', *([f'sigaddset(&{mask}, {one});'] if 'UNBLOCK' in body[0] else [])]
        before = [f'static volatile sig_atomic_t {depth};', f'static sigset_t {mask};',
                  f'static struct sigaction {action};',
                  f'static void {other}(void)', '{', *indented(body), '}', *self.handler(name, depth, f'{other}();')]
        return Part('handlers, entered again by what they call', before, [
            *fill, f'{action}.sa_handler = {name};', f'sigaction({one}, &{action}, NULL);', f'kill(getpid(), {one});'])

    def by_name(self):
        name = self.new('on')
        depth, one, other = self.new('g'), *self.random.sample(CAUGHT, 2)
        before = [f'static volatile sig_atomic_t {depth};', *self.handler(name, depth, f'kill(getpid(), {other});')]
        return Part('handlers, of two signals', before, [f'signal({one}, {name});', f'signal({other}, {name});',
                                                         f'kill(getpid(), {one});'])

    def by_flag(self):
        """SA_NODEFER as a number, or by its name."""
        depth, name, action, signal = self.new('g'), self.new('on'), self.new('l'), self.pick_of(CAUGHT)
        before = [f'static volatile sig_atomic_t {depth};', *self.handler(name, depth, f'kill(getpid(), {signal});')]
        flags = self.pick('0x40000000', '1073741824', '0x50000000', '010000000000', 'SA_RESTART | 0x40000000',
                          'SA_RESTART * 4', '1 << 30', *(['SA_NODEFER'] if self.random.may('names') else []))
        main = [f'struct sigaction {action} = {{ .sa_handler = {name}, .sa_flags = {flags} }};',
                f'sigaction({signal}, &{action}, NULL);', f'kill(getpid(), {signal});']
        if self.random.random() < 0.3:
            variable = self.new('l')
            main[0:1] = [f'int {variable} = 0x40000000;', f'struct sigaction {action} = {{ .sa_handler = {name} }};',
                         f'{action}.sa_flags = {variable};']
        return Part('handlers, entered again by a flag', before, main)

    def by_mask(self):
        """A handler that is interrupted by another one, which unblocks its signal."""
        depth, name, other, mask = self.new('g'), self.new('on'), self.new('on'), self.new('g')
        one, second = self.random.sample(CAUGHT, 2)
        first_action, second_action = self.new('l'), self.new('l')
        unblock = self.pick(f'sigprocmask(SIG_UNBLOCK, &{mask}, NULL);', f'sigsuspend(&{mask});')
        fill = f'sigaddset(&{mask}, {one});' if 'UNBLOCK' in unblock else ''
        before = [f'static volatile sig_atomic_t {depth};', f'static sigset_t {mask};',
                  *self.handler(name, depth, f'kill(getpid(), {second});'), f'static void {other}(int number)', '{',
                  '    (void)number;', f'    kill(getpid(), {one});', f'    {unblock}', '}']
        main = [f'sigemptyset(&{mask});', fill, f'struct sigaction {first_action} = {{ .sa_handler = {name} }};',
                f'struct sigaction {second_action} = {{ .sa_handler = {other} }};',
                f'sigaction({one}, &{first_action}, NULL);', f'sigaction({second}, &{second_action}, NULL);',
                f'kill(getpid(), {one});']
        return Part('handlers, entered again by a mask', before, [line for line in main if line])

    def blocked(self):
        """A handler that sends its own signal or one of its mask, which is delivered only after it returns."""
        depth, name, other, action = self.new('g'), self.new('on'), self.new('on'), self.new('l')
        one, second = self.random.sample(CAUGHT, 2)
        sent = self.pick(one, second)
        before = [f'static volatile sig_atomic_t {depth};', *self.handler(name, depth, f'kill(getpid(), {sent});'),
                  f'static void {other}(int number)', '{', '    note(number);', f'    note({depth});', '}']
        main = [f'struct sigaction {action} = {{ .sa_handler = {name} }};', f'sigaddset(&{action}.sa_mask, {second});',
                f'sigaction({one}, &{action}, NULL);', f'signal({second}, {other});', f'kill(getpid(), {one});']
        return Part('handlers, one after another', before, main)

    def one_for_each(self):
        """Two handlers, each for one signal, and a function that both call. One handler interrupts the other."""
        depth, shared, names, signals = self.new('g'), self.new('f'), [self.new('on') for _ in range(2)], \
            self.random.sample(CAUGHT, 2)
        begin, end = self.variables(depth)
        before = [f'static volatile sig_atomic_t {depth};', f'static int {shared}(int by)', '{', *indented(begin),
                  '    by += 100;', *indented(end), '    return by;', '}', f'static void {names[1]}(int number)', '{',
                  f'    note({shared}(number));', '}', *self.handler(names[0], depth, f'kill(getpid(), {signals[1]});')]
        before[-1:] = [f'    note({shared}(1));', '}']
        return Part('handlers, each for a signal', before, [
            f'signal({signals[0]}, {names[0]});', f'signal({signals[1]}, {names[1]});',
            f'kill(getpid(), {signals[0]});',
            f'note({shared}(2));'])

    def in_turn(self):
        """Several actions of one signal, one after another."""
        name, other, signal = self.new('on'), self.new('on'), self.pick_of(CAUGHT)
        first, second, old, depth = (self.new(stem) for stem in ('l', 'l', 'l', 'g'))
        before = [f'static volatile sig_atomic_t {depth};', *self.handler(name, depth, f'kill(getpid(), {signal});'),
                  f'static void {other}(int number)', '{', f'    {depth} = 0;', '    note(number * 10);', '}']
        again = self.pick(f'sigaction({signal}, &{old}, NULL);', f'sigaction({signal}, &{first}, &{second});',
                          f'{second} = {first};', f'{first}.sa_handler = {second}.sa_handler;')
        return Part('handlers, in turn', before, [
            f'struct sigaction {first} = {{ .sa_handler = {name} }}, {second} = {{ .sa_handler = {other} }}, {old};',
            f'sigaction({signal}, &{first}, NULL);', f'kill(getpid(), {signal});',
            f'sigaction({signal}, &{second}, &{old});',
            f'kill(getpid(), {signal});', again, f'note({old}.sa_handler == {name});', f'kill(getpid(), {signal});'])

    def any(self):
        if self.random.random() < 0.18:
            return self.random.one_of([self.by_member, self.by_old, self.by_flag, self.by_mask],
                                      names=[self.by_copy, self.by_name, self.by_inner])()
        return self.pick(self.blocked, self.one_for_each, self.in_turn)()


@group('statuses')
class Statuses(Maker):
    """Wait statuses, the actions of signals, and results of calls."""
    TESTS = ['WIFEXITED', 'WEXITSTATUS', 'WIFSIGNALED', 'WTERMSIG', 'WIFSTOPPED', 'WSTOPSIG', 'WIFCONTINUED']

    def words(self):
        """The macros of wait.h, with statuses that no call returns."""
        word = self.new('l')
        value = self.pick(0, 1, 127, 128, 255, 256, 383, 4991, 65535, 65280, 32512, 137, -1, -256, 70000, 9)
        return Part('statuses, of numbers', [], [f'int {word} = {value};', *(
            f'note({test}({word}));' for test in self.random.sample(self.TESTS, 3))])

    def children(self):
        child, status = self.new('l'), self.new('l')
        end = self.pick('_exit(0);', '_exit(200);', '_exit(-1);', 'exit(259);', 'kill(getpid(), SIGKILL);',
                        'kill(getpid(), SIGTERM);')
        main = ['signal(SIGCHLD, SIG_DFL);', f'int {status} = -1;', f'pid_t {child} = fork();', f'if ({child} == 0) {{',
                '    signal(SIGTERM, SIG_DFL);', f'    {end}', '    _exit(3);', '}',
                f'note(waitpid({child}, &{status}, 0) == {child});',
                *(f'note({test}({status}) {self.pick("", "== 0", "> 1")});' for test in
                  self.random.sample(self.TESTS, 3))]
        if self.random.random() < 0.5:
            main += [f'note({self.pick("wait(NULL)", "waitpid(-1, NULL, WNOHANG)")});', 'note(errno == ECHILD);']
        return Part('statuses, of children', [], main)

    def stopped(self):
        child, status = self.new('l'), self.new('l')
        main = ['signal(SIGCHLD, SIG_DFL);', f'int {status} = 0;', f'pid_t {child} = fork();', f'if ({child} == 0) {{',
                '    kill(getpid(), SIGSTOP);', '    _exit(3);', '}', f'waitpid({child}, &{status}, WUNTRACED);',
                *(f'note({test}({status}));' for test in self.random.sample(self.TESTS, 3)),
                self.pick(f'kill({child}, SIGCONT);', f'kill({child}, SIGKILL);'),
                f'waitpid({child}, &{status}, 0);', f'note({status});']
        return Part('statuses, of a stop', [], main)

    def groups(self):
        """Signals to process groups, and to numbers that are no group."""
        signal = self.pick('SIGTERM', 'SIGHUP', 'SIGUSR1', '0')
        group_number = self.pick('-getpid()', '0', '-getpid()', '9999999', '-9999999')
        ignored = [] if signal == '0' else [f'signal({signal}, SIG_IGN);']
        main = [*ignored, 'errno = 0;', f'note(killpg({group_number}, {signal}));', 'note(errno);',
                'note(getpgrp() == getpid());']
        return Part('statuses, of groups', [], main)

    def actions(self):
        """The action that sigaction stores."""
        old, name, signal = self.new('l'), self.new('on'), self.pick_of(CAUGHT)
        before = [f'static void {name}(int number)', '{', '    note(number);', '}']
        set_now = self.pick(f'signal({signal}, {name});', f'signal({signal}, SIG_IGN);', f'signal({signal}, SIG_DFL);')
        main = [f'struct sigaction {old};', set_now, f'note(sigaction({signal}, NULL, &{old}));',
                f'note({old}.sa_handler == {name});', f'note({old}.sa_handler == SIG_IGN);',
                f'note({old}.sa_handler == SIG_DFL);', f'note(({old}.sa_flags & SA_RESTART) != 0);',
                f'note(sigaction({self.pick("SIGKILL", "0", "65", "-1", "32", "SIGSTOP")}, &{old}, NULL));',
                'note(errno);']
        if self.random.seldom('results of signal'):
            result = self.pick('SIG_ERR', 'SIG_DFL', name)
            main.append(f'note(signal({self.pick(signal, "SIGKILL", "0")}, SIG_IGN) == {result});')
        return Part('statuses, of actions', before, main)

    def any(self):
        return self.pick(self.words, self.children, self.stopped, self.groups, self.groups, self.actions)()
