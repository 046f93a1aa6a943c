"""A plain check of the laws of traces: what `jobk audit` must print for a trace.

Each law here has the name of its clause in docs/RULES.md, "What every trace keeps". A law looks back over the lines of
a life, and yields the ways in which one more line breaks it. A life keeps what its lines said, in their order, its
first parent, and the new parent of its children. All laws judge each line independently. If a line has several faults,
FAULTS says which one is reported, as docs/FORMATS.md does in "The auditor".
"""

import re

SIGNALS = [*range(1, 32), *range(34, 65)]
STOPS = range(19, 23)
CALLS = ('getpid getppid fork waitpid waitid sched_yield getuid geteuid getgid getegid setuid setgid seteuid setegid '
         'kill sigqueue sigaction sigprocmask sigpending pause sigsuspend alarm getpgid getsid setpgid setsid exec '
         'setctty tcgetpgrp tcsetpgrp settostop read write').split()
GREATEST_PROCESS = 2**31 - 1
CONTINUED = 65535

# ---- the forms of a line, from the index of docs/RULES.md: a letter is a number, NAME and HEX are words

FORMS = [form.split() for form in (
    'E note P V', 'E call P NAME = R', 'E call P waitpid = C status W', 'E call P waitid = 0 take C status W',
    'E call P waitid = 0 look C status W', 'E call P subreaper = 0 mark B', 'E call P read = N bytes HEX',
    'E call P write = N bytes HEX', 'E call P NAME = -11 memory', 'E handle P S V Q', 'E discard P S', 'E stop P S',
    'E return P', 'E end P W', 'E halt')]
NUMBERS = {'E': (1, 10**12), 'P': (1, GREATEST_PROCESS), 'C': (1, GREATEST_PROCESS), 'Q': (0, GREATEST_PROCESS),
           'V': (-2**63, 2**63 - 1), 'R': (-2**63, 2**63 - 1), 'N': (1, 16), 'W': (0, 65535), 'S': (1, 64), 'B': (0, 1)}


def number_in(word, least, greatest):
    """Returns the number that a word is, or None if it is no number or out of its range."""
    if not re.fullmatch('0|-?[1-9][0-9]{0,18}', word):
        return None
    return int(word) if least <= int(word) <= greatest else None


def part_in(place, word):
    """Returns the value of a word at its place in a form, or None if the word does not fit there."""
    if place in NUMBERS:
        return number_in(word, *NUMBERS[place])
    if place == 'NAME':
        return word if word in CALLS else None
    if place == 'HEX':
        return word if re.fullmatch('([0-9a-f]{2})+', word) else None
    return word if word == place else None


def is_end(word):
    """Returns true if a wait status is that of an exit, or of a termination by a signal."""
    return word % 256 == 0 or word in SIGNALS


def is_stop(word):
    return word % 256 == 127 and word // 256 in STOPS


class Line:
    """A line of one of the forms: the process that it is of, and what it says. A value that it does not have is
    None."""

    def __init__(self, form, parts):
        said = dict(zip(form, parts))
        self.form, self.event, self.process = form[1], said['E'], said.get('P')
        self.is_look = 'look' in said
        self.child, self.word = said.get('C'), said.get('W')
        self.born = said.get('R') if said.get('NAME') == 'fork' and said.get('R', 0) > 0 else None
        self.mark = said.get('B')
        self.stop = said.get('S') if self.form == 'stop' else None
        self.ends_first = self.form == 'end' and self.process == 1


def is_allowed(form, said):
    """Returns true if the parts of a line satisfy the rules of docs/FORMATS.md that are no ranges."""
    if said.get('S') not in (None, *(STOPS if 'stop' in said else SIGNALS)):
        return False
    if 'end' in said:
        return is_end(said['W'])
    if 'HEX' in said:
        return len(said['HEX']) == 2 * said['N']
    if 'memory' in said:
        return said['NAME'] in ('fork', 'kill', 'sigqueue')
    if 'R' in said and said['R'] > 0:
        return said['NAME'] not in ('waitpid', 'read', 'write') and (said['NAME'] != 'fork'
                                                                     or said['R'] <= GREATEST_PROCESS)
    return True


def read_line(text):
    """Returns the line that a text is, or None if it has none of the forms."""
    words = text.split(' ')
    for form in FORMS:
        if len(form) == len(words):
            parts = [part_in(place, word) for place, word in zip(form, words)]
            if None not in parts and is_allowed(form, dict(zip(form, parts))):
                return Line(form, parts)
    return None


# ---- lives

class Life:
    """A life of a process: its first parent, and what its lines say of it, as pairs ('mark', 1 or 0), ('stop', S),
    ('report', W) and ('end', W). A look adds no pair."""

    def __init__(self, began_by):
        self.began_by = began_by    # the life that forked this one; None for process 1
        self.told = []
        self.heir = None            # the new parent of its children, after it has ended; None for process 1

    def all_told(self, what):
        return [value for kind, value in self.told if kind == what]

    def last_told(self, what):
        return (self.all_told(what) or [None])[-1]

    def since_last_stop(self):
        """Returns the statuses that were reported since its last stop, or all if it never stopped."""
        words = []
        for kind, value in reversed(self.told):
            if kind == 'stop':
                break
            words += [value] if kind == 'report' else []
        return words

    def has_ended(self):
        return self.last_told('end') is not None

    def parent(self):
        """Returns its parent: the life that forked it or, if that has ended, the new parent, and so on."""
        parent = self.began_by
        while parent and parent.has_ended():
            parent = parent.heir
        return parent

    def forebears(self):
        """Yields its parent, its parent's parent, and so on up to process 1."""
        forebear = self.parent()
        while forebear:
            yield forebear
            forebear = forebear.parent()


class Trace:
    """The lines so far, which break no law."""

    def __init__(self):
        self.first = Life(None)
        self.newest = {1: self.first}       # the newest life with each process ID
        self.last = None                    # the last line

    def is_living(self, number):
        return number in self.newest and not self.newest[number].has_ended()

    def add(self, line):
        self.last = line
        if line.born:
            self.newest[line.born] = Life(self.newest[line.process])
        elif line.mark is not None:
            self.newest[line.process].told.append(('mark', line.mark))
        elif line.stop:
            self.newest[line.process].told.append(('stop', line.stop))
        elif line.child and not line.is_look:
            self.newest[line.child].told.append(('report', line.word))
        elif line.form == 'end':
            life = self.newest[line.process]
            if life is not self.first:
                life.heir = next((other for other in life.forebears() if other.last_told('mark')), self.first)
            life.told.append(('end', line.word))


# ---- the laws: each yields the ways in which a line breaks it

FALLS, PLACE, DEAD, LIVES = 'its event is before', 'halt is here, or is not', 'it does not live', 'it lives'
NO_CHILD, NOT_PARENT, NOT_YET = 'no such child was born', 'another is the parent', 'this has not been'
TWICE, OTHER, NO_STATUS = 'this was reported', 'that was another status', 'this is no status'

# The fault of each way. If a line breaks laws in several ways, the fault of the first one here is reported.
FAULTS = {FALLS: 1, PLACE: 7, DEAD: 7, LIVES: 2, NO_CHILD: 3, NOT_PARENT: 5, NOT_YET: 3, TWICE: 4, OTHER: 6, NO_STATUS: 6}


def event_numbers_never_fall(trace, line):
    if trace.last and line.event < trace.last.event:
        yield FALLS


def halt_comes_after_the_end_of_process_1(trace, line):
    if line.form == 'halt' and not (trace.last and trace.last.ends_first):
        yield PLACE
    if trace.last and trace.last.form == 'halt':
        yield PLACE


def after_the_end_of_process_1_comes_halt(trace, line):
    if trace.last and trace.last.ends_first and line.form != 'halt':
        yield PLACE


def lines_stand_in_lives(trace, line):
    if line.process and line.process not in trace.newest:
        yield DEAD


def nothing_comes_after_an_end(trace, line):
    if line.process in trace.newest and trace.newest[line.process].has_ended():
        yield DEAD


def nobody_is_born_who_lives(trace, line):
    if line.born and trace.is_living(line.born):
        yield LIVES


def told_to_the_parent(trace, line):
    """Yields a way if the child of a report does not exist, or if the reporting process is not its parent."""
    if line.child not in trace.newest:
        yield NO_CHILD
    elif line.process in trace.newest and trace.newest[line.process] is not trace.newest[line.child].parent():
        yield NOT_PARENT


def told_of_an_end(trace, line):
    yield from told_to_the_parent(trace, line)
    if line.child in trace.newest:
        status = trace.newest[line.child].last_told('end')
        if status is None:
            yield NOT_YET
        elif status != line.word:
            yield OTHER


def ends_are_reported_to_the_parent(trace, line):
    if line.child and not line.is_look and is_end(line.word):
        yield from told_of_an_end(trace, line)


def ends_are_looked_at_by_the_parent(trace, line):
    if line.child and line.is_look and is_end(line.word):
        yield from told_of_an_end(trace, line)


def no_end_is_reported_twice(trace, line):
    if line.child in trace.newest and is_end(line.word):
        if any(map(is_end, trace.newest[line.child].all_told('report'))):
            yield TWICE


def told_of_a_change(trace, line):
    yield from told_to_the_parent(trace, line)
    if line.child in trace.newest:
        child = trace.newest[line.child]
        if child.has_ended() or not child.all_told('stop'):
            yield NOT_YET


def stops_are_told_to_the_parent(trace, line):
    if line.child and is_stop(line.word):
        yield from told_of_a_change(trace, line)
        if line.child in trace.newest and trace.newest[line.child].last_told('stop') != line.word // 256:
            yield OTHER


def no_stop_is_reported_twice(trace, line):
    if line.child in trace.newest and is_stop(line.word):
        if any(is_stop(word) or word == CONTINUED for word in trace.newest[line.child].since_last_stop()):
            yield TWICE


def continues_are_told_to_the_parent(trace, line):
    if line.child and line.word == CONTINUED:
        yield from told_of_a_change(trace, line)


def no_continue_is_reported_twice(trace, line):
    if line.child in trace.newest and line.word == CONTINUED:
        if CONTINUED in trace.newest[line.child].since_last_stop():
            yield TWICE


def what_is_told_is_a_status(trace, line):
    if line.child and not (is_end(line.word) or is_stop(line.word) or line.word == CONTINUED):
        yield from told_to_the_parent(trace, line)
        yield NO_STATUS


# In the order of docs/RULES.md. The clause lives_are_apart is missing: for one line it is nobody_is_born_who_lives.
LAWS = [no_end_is_reported_twice, ends_are_reported_to_the_parent, ends_are_looked_at_by_the_parent,
        no_stop_is_reported_twice, no_continue_is_reported_twice, stops_are_told_to_the_parent,
        continues_are_told_to_the_parent, what_is_told_is_a_status, lines_stand_in_lives, nobody_is_born_who_lives,
        nothing_comes_after_an_end, halt_comes_after_the_end_of_process_1, after_the_end_of_process_1_comes_halt,
        event_numbers_never_fall]
SAME_LAW = {'lives_are_apart': 'nobody_is_born_who_lives'}


def first_break(texts):
    """Returns the number of the first line that breaks a law or has no form, and the names of the laws that it breaks,
    each with the ways; or None."""
    trace = Trace()
    for number, text in enumerate(texts, 1):
        line = read_line(text)
        if line is None:
            return number, {}
        broken = {law.__name__: ways for law in LAWS for ways in [list(law(trace, line))] if ways}
        if broken:
            return number, broken
        trace.add(line)
    return None


def audit(trace):
    """Returns what `jobk audit` must print for the bytes of a trace."""
    *lines, unfinished = trace.decode('latin-1').split('\n')
    found = first_break(lines)
    if found is None:
        return b'line %d: fault 1\n' % (len(lines) + 1) if unfinished else b'ok\n'
    number, broken = found
    ways = {way for ways in broken.values() for way in ways}
    fault = next((FAULTS[way] for way in FAULTS if way in ways), 1)
    return b'line %d: fault %d\n' % (number, fault)
