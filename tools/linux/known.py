"""The known differences of docs/CONFORMANCE.md. Each heading has a cause, and explains a difference only if its cause
has occurred. To know the causes, `Known` follows the states of the plain machine from event to event.
"""

import machine as rules
from machine import CONT, CONTINUED, CONTINUED_WORD, EXITED, HUP, KILL, STOPPED, STOPS, bit

IDS = {'setuid': 105, 'setgid': 106, 'seteuid': 117, 'setegid': 119}
SENDS = 'kill', 'sigqueue'
WAITS = 'waitpid', 'waitid'
TERMINAL = ('tcgetpgrp', 'tcsetpgrp', 'settostop', 'read', 'write')
REFUSED_AFTER_A_HANGUP = {'tcgetpgrp': '-5', 'settostop': '-5', 'tcsetpgrp': '-25'}
FAULTS = 4, 5, 7, 8, 11, 31
WITH_A_CORE = 3, 4, 5, 6, 7, 8, 11, 24, 25, 31
# Headings with a different result of a call, and no other effect.
RESULTS_ALONE = {'einval-or-esrch-from-kill', 'kill-of-all-without-permission', 'setctty-of-the-same-console',
                 'tcsetpgrp-of-an-unused-number', 'tcsetpgrp-in-an-orphaned-group',
                 'tcgetpgrp-without-a-foreground-group', 'setpgid-of-a-negative-process-id', 'waitpid-of-int_min',
                 'waitid-without-wexited', 'seteuid-of-the-current-id', 'terminal-calls-after-a-hangup'}
# Headings after which the states, with all that is hidden in them, can agree again.
PASSING = {'a-recreated-foreground-group', 'tcsetpgrp-of-a-process-id', 'a-blocked-signal-for-process-1',
           'pending-sigcont-in-process-1', 'sigkill-of-a-stopped-process', 'sigchld-for-a-continue',
           'fatal-signals-act-at-once', 'the-temporary-mask-of-sigsuspend', 'which-child-is-reported',
           'which-orphan-is-reported-first'}


def reported(text):
    """Returns the child and the wait status in the result of a wait, or None twice."""
    words = text.split()
    return (int(words[-3]), int(words[-1])) if words[-2:-1] == ['status'] else (None, None)


def sort_of(word):
    """Returns the option of a wait that selects a wait status."""
    return CONTINUED if word == CONTINUED_WORD else STOPPED if word % 256 == 127 else EXITED


def interrupts(p, number):
    """Returns true if p has a handler for a signal, without SA_RESTART."""
    return bool(number) and p.has_handler(number) and not p.action(number)[2] & rules.RESTART


def fatal(p):
    """Returns the pending signals that kill p without a core dump."""
    return {n for n in rules.SIGNALS if p.pending() & bit(n) & ~p.mask and p.action(n)[0] == rules.DEFAULT
            and n not in (*WITH_A_CORE, *STOPS, *rules.IGNORED_BY_DEFAULT)}


class Known:
    """Follows a run, and finds the differences that it explains."""

    def __init__(self, run):
        self.run, self.machine = run, run.machine
        self.lost = [0] * run.world.consoles    # by console: the foreground group that lost its last member
        self.without = set()                    # processes without a terminal in Linux (children-forked-before-setctty)
        self.hung_up = {}                       # by session leader: the foreground group at the hangup
        self.born = [1]                         # all processes; the children of a process in order of arrival
        # By process, the last event in which: it changed its group; a child of it changed its group; it got a new
        # parent.
        self.moved, self.child_moved, self.came = {}, {}, {}
        self.begun = {}                         # by process: the event in which its call began, and its group
        # Processes that were stopped in a call; that were continued, and have not run since; that have run, but the
        # states have not agreed since; by process, the signals that kill it in Linux.
        self.stopped_in_call, self.continued, self.told, self.dying = set(), set(), set(), {}
        self.came_together = {}                 # by process: zombies that became its children at once
        self.here_alone, self.there_alone = set(), set()    # children that only one side has reported
        # The state before the event: the orphaned groups; the zombies of the current process, and their new parent.
        self.before, self.foregrounds, self.orphaned, self.left, self.heir = {}, [], set(), [], 1

    # -- following the run

    def begin(self, p):
        """Notes that a call of p begins, or begins again."""
        self.begun[p.number] = self.run.count, p.group

    def note_turn(self, number):
        """Notes that a process runs; Linux then sends SIGCHLD for its continue."""
        if number in self.continued:
            self.continued.discard(number)
            self.told.add(number)

    def note_hangup(self, console):
        """Notes that the terminal of a session hangs up."""
        self.hung_up[console.session] = console.foreground

    def look_before(self):
        """Notes the state before an event."""
        machine, p = self.machine, self.run.p
        self.before = {q.number: (q.parent, q.group, q.life, q.news) for q in machine.processes.values()}
        self.born = [number for number in self.born if number in self.before or number in self.here_alone]
        self.foregrounds = [(console.session, console.foreground) for console in machine.consoles]
        self.orphaned = {q.group for q in machine.processes.values() if machine.is_orphaned(q.group)}
        self.left = [q for q in machine.children(p) if q.life == 'zombie'] if p else []
        self.heir = machine.heir(p) if p else 1

    def look_behind(self):
        """Notes the changes by an event."""
        machine, run, p = self.machine, self.run, self.run.p
        for q in machine.rising():
            if q.number not in self.before:
                self.note_birth(q)
        for number in [number for number in self.born if number in machine.processes]:
            if number in self.before:
                self.note_changes(machine.processes[number], *self.before[number])
        for place, (console, before) in enumerate(zip(machine.consoles, self.foregrounds)):
            if console.foreground or console.session != before[0]:
                self.lost[place] = 0
            elif before[1] and not machine.is_group_of(*before):
                self.lost[place] = before[1]
        if p and p.life == 'zombie':
            self.came_together.setdefault(self.heir, set()).update(q.number for q in self.left)
        if p and p.call and any(words[0] == 'stop' for words in run.lines):
            self.stopped_in_call.add(p.number)
        if ['call', 'setctty', '=', '0'] in [words[:1] + words[2:] for words in run.lines]:
            self.without |= {q.number for q in machine.processes.values() if q.session == p.session and q is not p}
            self.without.discard(p.number)

    def note_birth(self, q):
        self.born.append(q.number)
        for followed in self.without, self.stopped_in_call, self.continued, self.told:
            followed.discard(q.number)
        for followed in self.moved, self.child_moved, self.came, self.begun, self.dying, self.hung_up:
            followed.pop(q.number, None)
        if q.parent in self.without:
            self.without.add(q.number)

    def note_changes(self, q, parent, group, life, news):
        number, count = q.number, self.run.count
        if group != q.group:
            self.moved[number] = self.child_moved[q.parent] = count
        if parent != q.parent:
            self.came[number] = count
            self.born.remove(number)
            self.born.append(number)
        if life == 'stopped' and q.life == 'running':
            self.continued.add(number)
            if q.call:
                self.begin(q)
        if (q.life, q.news) != (life, news) and (q.news or q.life == 'zombie'):
            self.here_alone.discard(number)
            self.there_alone.discard(number)

    def note_reports(self, here, there):
        """Notes that each side has reported another child."""
        both = self.here_alone, self.there_alone
        for text, alone, others in (here, *both), (there, *both[::-1]):
            number, _ = reported(text)
            if number in others:
                others.discard(number)
            elif ' look ' not in text:
                alone.add(number)

    def note_dying(self, q):
        """Notes that q is dying in Linux. Returns true if a signal that is pending here explains it."""
        return bool(self.dying.setdefault(q.number, fatal(q)))

    # -- a difference

    def explain(self, d):
        """Returns the heading of docs/CONFORMANCE.md that explains a difference, or None."""
        here, there, run = str(d.here), str(d.there), self.run
        anchor = None
        if d.what == run.name and run.p and d.number == run.p.number:
            anchor = self.of_result(d.what, here, there)
        if not anchor and d.what.startswith('foreground'):
            is_made_again = here == '0' and there == str(self.lost[int(d.what.split()[-1]) - 1])
            return 'a-recreated-foreground-group' if is_made_again else None
        return anchor or self.of_state(d.what, d.number, here, there)

    # -- a difference in the result of a call, new or blocked before

    def of_result(self, name, here, there):
        pair, (r1, r2, _, r4) = (here, there), self.run.registers[1:5]
        if name in SENDS:
            return self.of_send(name, pair, r1, r2)
        if name in IDS:
            return self.of_ids(name, pair, r1)
        if name in WAITS:
            return self.of_wait(name, here, there)
        if name in TERMINAL:
            return self.of_terminal(name, here, there)
        if name == 'sigaction' and pair == ('-22', '0'):
            if r1 in (32, 33):
                return 'signals-32-and-33'
            return 'unknown-sigaction-flags' if r4 & ~rules.FLAGS and r1 in rules.SIGNALS else None
        if name == 'setpgid' and pair == ('-3', '-22') and r1 < 0 and r2 == 0:
            return 'setpgid-of-a-negative-process-id'
        return self.of_setctty(pair, r1) if name == 'setctty' else None

    def of_setctty(self, pair, r1):
        p, own = self.run.p, self.machine.console_of(self.run.p)
        if pair != ('-1', '0') or p.session != p.number:
            return None
        console = self.machine.consoles[r1 - 1]
        if console.is_hung_up or own and own.is_hung_up:
            return 'setctty-after-a-hangup'
        return 'setctty-of-the-same-console' if console is own else None

    def of_send(self, name, pair, r1, r2):
        p, others = self.run.p, [q for q in self.machine.rising() if q.number != 1]
        if pair == ('-22', '0') and r2 in (32, 33):
            return 'signals-32-and-33'
        if pair == ('-22', '-3') and r2 not in (0, *rules.SIGNALS):
            return 'einval-or-esrch-from-kill'
        if pair == ('-1', '0') and (name, r1) == ('kill', -1):
            is_any_permitted = any(p.may_signal(q, r2) for q in others if q is not p)
            return None if is_any_permitted else 'kill-of-all-without-permission'
        if pair == ('-11', '0') and r2 > 33:
            return 'a-full-signal-queue' if any(len(q.queue) == 32 for q in self.machine.rising()) else None
        return None

    def of_ids(self, name, pair, r1):
        if pair == ('-22', '0') and not 0 <= r1 <= rules.GREATEST:
            return 'large-ids'
        present = self.run.p.users[1] if name == 'seteuid' else self.run.p.groups[1]
        is_effective = name in ('seteuid', 'setegid')
        return 'seteuid-of-the-current-id' if is_effective and pair == ('-1', '0') and r1 == present else None

    def of_wait(self, name, here, there):
        p, (r1, r2, r3) = self.run.p, self.run.registers[1:4]
        anchor = self.of_blocked_wait(name, here, there) if self.run.kind == 'again' else None
        if anchor:
            return anchor
        if name == 'waitpid' and r1 == -2**31 and (here, there) == ('-10', '-3'):
            return 'waitpid-of-int_min'
        if name == 'waitid' and there == '-10' and self.has_ends_alone(p, r1, r2, r3):
            return 'waitid-without-wexited'
        number, word = reported(here)
        if not number or not self.asks_for(word):
            return None
        child = self.machine.processes.get(number)
        if child and KILL in child.standard and sort_of(word) != EXITED and there[0] != '-':
            return 'sigkill-of-a-stopped-process'
        is_taken_away = number in self.dying and there in ('0', 'asleep')
        if word == CONTINUED_WORD and (is_taken_away or number in self.continued and there == 'asleep'):
            return 'sigchld-for-a-continue'
        return 'which-child-is-reported' if self.came_before(number, there) else None

    def asks_for(self, word):
        """Returns true if the wait selects a wait status."""
        options = self.run.registers[2] | EXITED if self.run.name == 'waitpid' else self.run.registers[3]
        return bool(options & sort_of(word))

    def came_before(self, number, there):
        """Returns true if Linux reports a child that came earlier than this one, not the lowest number."""
        other, word = reported(there)
        if not other or not self.asks_for(word):
            return False
        child = self.machine.processes.get(other)
        is_news = (child and child.parent == self.run.p.number and self.machine.report(child)[1] == word
                   and other not in self.there_alone)
        if other not in self.here_alone and not (is_news and number < other):
            return False
        return number in self.there_alone or self.born.index(other) < self.born.index(number)

    def of_blocked_wait(self, name, here, there):
        p, run, (r1, r2) = self.run.p, self.run, self.run.registers[1:3]
        if p.number in self.stopped_in_call and there == 'asleep' and not run.is_there(p.number):
            return 'a-fatal-signal-for-a-process-stopped-in-a-wait'
        if p.number in self.stopped_in_call and self.is_interrupted(p, there):
            return 'eintr-after-a-stop'
        if there != 'asleep':
            return None
        since, group = self.begun[p.number]
        is_group = r1 == 0 or r1 < -1 if name == 'waitpid' else r1 == rules.A_GROUP
        if self.means_own_group(name, r1, r2) and p.group != group:
            return 'waitpid-for-the-group-of-the-caller'
        number, word = reported(here)
        if number is None:
            is_changed = here == '-10' and is_group and self.child_moved.get(p.number, 0) > since
        else:
            came = self.came.get(number, 0) > since and sort_of(word) != EXITED
            is_changed = self.asks_for(word) and (came or is_group and self.moved.get(number, 0) > since)
        return 'rechecking-a-blocked-wait' if is_changed else None

    def means_own_group(self, name, r1, r2):
        return r1 == 0 if name == 'waitpid' else (r1, r2) == (rules.A_GROUP, 0)

    def has_ends_alone(self, p, kind, number, options):
        """Returns true if a waitid lacks WEXITED, and all children that it selects are zombies: Linux finds none
        then."""
        named = [child for child in self.machine.children(p) if self.machine.is_of_kind(p, kind, number, child)]
        return not options & EXITED and all(child.life == 'zombie' for child in named)

    def of_terminal(self, name, here, there):
        p, machine, r1, pair = self.run.p, self.machine, self.run.registers[1], (here, there)
        console = machine.console_of(p)
        if there == '-6':
            return 'children-forked-before-setctty' if console and p.number in self.without else None
        if console and console.is_hung_up and there == REFUSED_AFTER_A_HANGUP.get(name):
            return 'terminal-calls-after-a-hangup'
        if pair == ('begins again', '-4') and self.run.kind == 'call':
            is_caught = any(number in p.standard and interrupts(p, number) for number in (rules.TTIN, rules.TTOU))
            return 'caught-sigttin-or-sigttou' if is_caught else None
        if name == 'tcgetpgrp' and here == str(self.run.world.pidmax + 1):
            is_lost = there == str(self.lost[machine.consoles.index(console)])
            return 'tcgetpgrp-without-a-foreground-group' if is_lost else None
        if name == 'tcsetpgrp':
            if pair == ('-5', '-25') and machine.is_orphaned(p.group):
                return 'tcsetpgrp-in-an-orphaned-group'
            if pair == ('-1', '-3') and not any(r1 in (q.number, q.group, q.session) for q in machine.rising()):
                return 'tcsetpgrp-of-an-unused-number'
            named = machine.processes.get(r1)
            if pair == ('-1', '0') and named and named.session == p.session and not machine.members(r1):
                return 'tcsetpgrp-of-a-process-id'
        return self.of_read(console, here, there) if name == 'read' else None

    def is_interrupted(self, p, there):
        return there == '-4' and interrupts(p, p.chosen())

    def of_read(self, console, here, there):
        p, run = self.run.p, self.run
        if run.kind == 'again':
            if p.number in self.stopped_in_call and ' bytes ' in here and self.is_interrupted(p, there):
                return 'eintr-after-a-stop'
            is_judged = here in ('begins again', '-5', '-25')
            if is_judged and (there in ('asleep', '0') or ' bytes ' in there or self.is_interrupted(p, there)):
                return 'rechecking-a-blocked-read'
        if console and console.has_dropped and ' bytes ' in there:
            return 'input-line-limits'
        if there != 'asleep' or here[0] == '-':
            return None
        others = [q for q in self.machine.rising() if q is not p and q.session == p.session
                  and run.linux.busy[q.number] == 'read' and self.begun[q.number] < self.begun[p.number]]
        return 'several-readers' if others else None

    # -- a difference in a signal or in the state of a process

    def of_state(self, what, number, here, there):
        run, q = self.run, self.machine.processes.get(number)
        words = [line[0] for line in run.lines]
        if run.frames == 16 and run.kind == 'signal' and ['end', '11'] in [line[::2] for line in run.lines]:
            return 'seventeen-nested-handlers'
        if what == 'record' and there == 'gone' and run.kind == 'kill' and run.was_in in WAITS:
            return 'sigkill-of-a-waiting-parent' if number in [child.number for child in self.left] else None
        if what == 'record' and there == 'there' and run.kind == 'signal' and 'end' in words:
            return 'a-fatal-signal-for-a-process-stopped-in-a-wait' if run.p.number in self.stopped_in_call else None
        if not q:
            return None
        if self.is_told_of_hangup(what, q, here, there):
            return 'signals-of-a-hangup'
        call, registers = (run.was_in, run.registers) if q is run.p else (q.call, q.r)
        if call == 'waitid' and there == '-10' and self.has_ends_alone(q, *registers[1:4]):
            return 'waitid-without-wexited'
        if what in ('life', 'pending') and 'end' in words and self.is_orphaned_twice(what, q, here, there):
            return 'a-group-orphaned-twice'
        if what == 'pending':
            more = {*here.split()} - {*there.split(), 'none'}, {*there.split()} - {*here.split(), 'none'}
            anchor = self.of_pending(q, *({int(word) for word in words} for words in more))
        elif what == 'life':
            anchor = self.of_life(q, there)
        else:
            anchor = self.of_handler(q, here.split(), there.split()) if 'handle' in (what, there[:6]) else None
        if anchor:
            return anchor
        signals, is_of_another = self.dying.get(number), what in ('parent', 'group', 'session', 'mask', 'record')
        if not signals or is_of_another or what == 'status' and int(there) not in signals:
            return None
        return 'fatal-signals-act-at-once'

    def is_told_of_hangup(self, what, q, here, there):
        """Returns true if Linux sends SIGCONT, too: to the leader at a hangup; when the leader terminates, to the group
        that was in the foreground at the hangup, which may be another group here."""
        p, run = self.run.p, self.run
        is_end = p and p.number in self.hung_up and ['end', str(p.number)] in [words[:2] for words in run.lines]
        is_now = is_end and (p.number, q.group) in self.foregrounds
        is_told = q.group == self.hung_up[p.number] if is_end else run.kind == 'hangup' and q.number in self.hung_up
        if what != 'pending':
            return what == 'life' and is_told and here == 'stopped'
        here, there = ({*map(int, text.split())} if text != 'none' else set() for text in (here, there))
        may_lack = {CONT, *([HUP] if is_end and not is_now else [])} if is_told else set()
        may_have = {*STOPS} if is_told else {HUP} if is_now else set()
        return there - here <= may_lack and here - there <= may_have

    def is_orphaned_twice(self, what, q, here, there):
        """Returns true if q's group was orphaned before, and the terminating process had a zombie child in it."""
        p, more = self.run.p, {*there.split()} - {*here.split(), 'none'}
        is_asked = any(child.group == q.group and child.session == p.session for child in self.left)
        is_told = (here, there) == ('stopped', 'running') if what == 'life' else more <= {'1', '18'}
        return is_asked and is_told and q.group in self.orphaned and q.group != p.group

    def of_pending(self, q, more_here, more_there):
        if q.number == 1 and more_there and not more_here:
            is_blocked = all(q.mask & bit(number) and not q.has_handler(number) for number in more_there)
            return 'a-blocked-signal-for-process-1' if is_blocked else None
        if q.number == 1 and more_here and not more_there:
            sent = self.sent()
            discards = more_here == {CONT} and sent in STOPS or more_here <= {*STOPS} and sent == CONT
            if discards and not q.has_handler(sent):
                return 'pending-sigcont-in-process-1'
        if not more_there and self.goes_on(q, more_here):
            return 'the-temporary-mask-of-sigsuspend'
        if more_here | more_there == {rules.CHLD}:
            children = [c for c in self.machine.children(q) if c.number in (self.continued if more_here else self.told)]
            return self.of_continue(children)
        return None

    def sent(self):
        """Returns the signal that the event sends."""
        run = self.run
        if run.name in TERMINAL:
            return rules.TTIN if run.name == 'read' else rules.TTOU
        return run.registers[2] if run.name in SENDS else rules.KEYS.get(run.name, 0)

    def of_continue(self, children):
        """Explains a SIGCHLD that Linux sends when one of these children next runs, or never if the child is dying."""
        if any(KILL in child.standard for child in children):
            return 'sigkill-of-a-stopped-process'
        return 'sigchld-for-a-continue' if children else None

    def of_handler(self, q, here, there):
        """Explains a handler, with its signal, value and sender in `here`, and in `there` after the word `handler`."""
        signal, sender = (int(there[1]), int(there[3])) if there[0] == 'handler' else (0, 0)
        if here[:2] == ['17', str(CONTINUED_WORD)] and (there == ['asleep'] or signal == rules.CHLD):
            child = self.machine.processes.get(int(here[2]))
            if child and (child.number in self.continued or child.number in self.dying):
                return self.of_continue([child])
        if here[0] == '17' and signal == rules.CHLD and int(here[2]) < sender:
            if {int(here[2]), sender} <= self.came_together.get(q.number, set()):
                return 'which-orphan-is-reported-first'
        if signal in FAULTS and signal in q.standard and here[0].isdecimal() and int(here[0]) < signal:
            return 'synchronous-signals-first'
        return 'the-temporary-mask-of-sigsuspend' if signal and self.goes_on(q, {signal}) else None

    def of_life(self, q, there):
        ends = [number for number in q.standard if self.goes_on(q, {number}) and q.action(number)[0] == rules.DEFAULT
                and number not in STOPS and not q.does_nothing(number)]
        return 'the-temporary-mask-of-sigsuspend' if there == 'zombie' and ends else None

    def goes_on(self, q, signals):
        """Returns true if q remains in a sigsuspend, and only its temporary mask blocks these signals."""
        discards = ['discard', str(q.number)] in [line[:2] for line in self.run.lines]
        return ((discards or q.number in self.stopped_in_call) and q.call == 'sigsuspend' and q.life == 'running'
                and all(q.mask & bit(number) & ~q.earlier for number in signals))
