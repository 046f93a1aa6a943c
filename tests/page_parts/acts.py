"""What a person does on a page, and what must come of it. Each act begins on a page that has just been opened."""
import json
import os
import re
import subprocess
import tempfile

from browser import CTRL, Failed, Page

SHELL = 'job_control_shell'
MOST_CALLS = 5000    # events that are shown one by one


def want(what, wanted, got):
    if wanted != got:
        raise Failed(f'{what}: wanted {str(wanted)[:400]!r}, got {str(got)[:400]!r}')


# Makes the browser say that it has no 64-bit memories.
NO_64 = 'WebAssembly.validate = () => false'

# Limits the growth of the page's memory to 11 pages, 704 kilobytes, in the memory section of the module.
BOUNDED = '''{
    const { compile } = WebAssembly;
    WebAssembly.compile = bytes => {
        let at = 8;
        const number = () => {
            for (let all = 0, shift = 0; ; shift += 7) {
                const byte = bytes[at++];
                all += (byte & 127) << shift;
                if (byte < 128) return all;
            }
        };
        const letters = all => [all & 127 | 128, all >> 7 & 127 | 128, all >> 14];
        while (bytes[at++] !== 5) {
            const size = number();
            at += size;
        }
        const section = at - 1, size = number(), end = at + size;
        at += 2;
        const kind = bytes[at - 1] | 1, least = number();
        const bounded = [5, 8, 1, kind, ...letters(least), ...letters(least + 11)];
        return compile(Uint8Array.from([...bytes.subarray(0, section), ...bounded, ...bytes.subarray(end)]));
    };
}'''


class Person:
    def __init__(self, page, native):
        self.page, self.native = page, native

    def example(self, name):
        self.page.choose('#examples', name)
        self.page.settle()

    def value(self, id):
        return self.page.ask(f'document.getElementById("{id}").value')

    def put(self, id, text):
        """Replaces the content of a field by typing a text."""
        self.page.ask(f'(it => {{ it.focus(); it.select(); }})(document.getElementById("{id}"))')
        self.page.type(text)

    def click(self, selector):
        self.page.click(selector)
        self.page.settle()

    def key(self, key, modifiers=0):
        self.page.key(key, modifiers)
        self.page.settle()

    def place(self):
        return self.page.text('#place')

    def native_run(self, *words):
        """Runs the native program on the world and the events of the page, after tools/names has replaced the names."""
        with tempfile.TemporaryDirectory() as room:
            for name in ('world', 'events'):
                done = subprocess.run(['tools/names'], input=self.value(name), capture_output=True, text=True)
                with open(f'{room}/{name}', 'w') as file:
                    file.write(done.stdout)
            return subprocess.run([self.native, *words], cwd=room, capture_output=True, text=True)

    def native_says(self, *words):
        return self.native_run(*words).stdout

    def native_calls(self):
        """Returns the line of each event as `show --calls` prints it, without the names of programs."""
        lines = self.native_says('show', 'world', 'events', '--calls').splitlines()
        return [re.sub(r'^(\d+) (\d+) \S+ ', r'\1 \2 ', ' '.join(line.split())) for line in lines]

    def trace(self):
        """Returns the trace that the page shows."""
        rows = self.page.ask('[...document.querySelectorAll("#trace li")].map(it => it.querySelector(".event").textContent + " " + it.querySelector(".line").textContent)')
        return ''.join(row + '\n' for row in rows)

    def said(self):
        """Returns the trace with the page's explanation of each line, in the form of tools/explain."""
        rows = self.page.ask('[...document.querySelectorAll("#trace li")].map(it => [".event", ".line", ".said"].map(part => it.querySelector(part).textContent))')
        return ''.join(f'{event} {line}' + (f'   {said}' if said else '') + '\n' for event, line, said in rows)

    def marked_line(self, name, kind):
        """Returns the number of the line that has a mark."""
        return self.page.ask(f'''(() => {{
            const area = document.getElementById({json.dumps(name)}), mark = area.previousElementSibling.querySelector('.{kind}');
            return Math.round((parseFloat(mark.style.top) + area.scrollTop) / parseFloat(getComputedStyle(area).lineHeight)) + 1;
        }})()''')

    def changes(self):
        """Returns the highlighted columns of the state, for each process."""
        return self.page.ask('''[...document.querySelectorAll('#processes tr.process')].map(row =>
            [row.dataset.pid, ...[...row.cells].map((it, i) => it.className === 'new' ? i : 0).filter(Boolean)])''')

    def calls(self):
        return self.page.ask('''[...document.querySelectorAll("#calls li")].map(it =>
            [...it.children].filter(part => !part.matches('.tick')).map(part => part.textContent).join(' ').replace(/ +/g, ' '))''')

    def state(self):
        """Returns the state that the page shows: the columns of each process, the lines below it, and all other
        lines."""
        return self.page.ask('''(() => {
            const rows = [...document.querySelectorAll('#processes tr')].map(row => [...row.cells].map(it => it.textContent.replace(' ◀ next', '')));
            rows.forEach(it => { if (it.length > 1) it[0] = it[0].replace(/^(\\d+) +/, '$1 '); });
            return { rows, others: [...document.querySelectorAll('#others div')].map(it => it.textContent).filter(it => !it.startsWith('gone: ')) };
        })()''')


def state_of(text):
    """Returns the state that `show` prints, in the form of Person.state."""
    first, *lines = text.splitlines()
    rows, others = [], [re.sub(r'^(after event|before the first) [^:]*: ', '', first)]
    for line in lines:
        if line.startswith('    '):
            rows.append([line.strip()])
        elif line[0].isdigit():
            program, does, *named = re.split(' {2,}', line)
            columns = dict(it.split(' ', 1) for it in named)
            rows.append([program, does] + [columns.get(it, '') for it in ('mask', 'pending', 'parent', 'group', 'session')])
        else:
            others.append(line)
    return {'rows': rows, 'others': others}


def explained(trace):
    return subprocess.run(['tools/explain'], input=trace, capture_output=True, text=True).stdout


def changes_of(before, now):
    """Returns the columns of each process that have changed; all columns of a new process."""
    former = {row[0].split()[0]: row for row in before['rows'] if len(row) > 1}
    now = [row for row in now['rows'] if len(row) > 1]
    return [[row[0].split()[0], *(i for i in range(1, 7) if former.get(row[0].split()[0], [None] * 7)[i] != row[i])] for row in now]


def examples_have_their_traces(person):
    """each example, race and C file in the list has the native trace, and each event has its call"""
    names = person.page.ask('[...document.querySelectorAll("#examples option")].map(it => it.value).filter(Boolean)')
    if len(names) < 40:
        raise Failed(f'{len(names)} examples')
    for name in names:
        if name.startswith('audit_'):
            continue
        person.example(name)
        want(f'trace of {name}', person.native_says('run', 'world', 'events'), person.trace())
        want(f'words of {name}', explained(person.trace()), person.said())
        if int(person.page.ask('document.getElementById("at").max')) <= MOST_CALLS:
            want(f'calls of {name}', person.native_calls(), person.calls())


def slider_has_states(person):
    """the slider shows the state of show --at, and highlights what the event changed"""
    for name in (SHELL, 'lost_wakeup', 'small_init', 'orphaned_job', 'full_queue', 'service_manager'):
        person.example(name)
        count = int(person.page.ask('document.getElementById("at").max'))
        for at in {0, 1, count // 3, count // 2, count - 1, count}:
            person.page.choose('#at', str(at))
            person.page.settle()
            want(f'place in {name}', f'event {at} of {count}', person.place())
            now = state_of(person.native_says('show', 'world', 'events', '--at', str(at)))
            want(f'state of {name} at {at}', now, person.state())
            before = state_of(person.native_says('show', 'world', 'events', '--at', str(max(at - 1, 0))))
            want(f'highlights of {name} at {at}', changes_of(before, now), person.changes())


def moves_by_keys(person):
    """arrows, Home and End move; a digit chooses a view; space plays and pauses; L is large"""
    person.example(SHELL)
    person.key('Home')
    want('Home', 'event 0 of 120', person.place())
    person.key('ArrowRight')
    want('right', 'event 1 of 120', person.place())
    person.key('ArrowDown')
    want('down', 'event 6 of 120', person.place())
    person.key('ArrowUp')
    want('up', 'event 1 of 120', person.place())
    person.key('ArrowLeft')
    want('left', 'event 0 of 120', person.place())
    person.page.key(' ')
    person.page.wait('document.getElementById("at").value >= 3', 'space plays')
    person.key(' ')
    place = person.place()
    want('space pauses', ('false', place), (person.page.ask('document.getElementById("play").ariaPressed'), person.place()))
    person.key('End')
    want('End', 'event 120 of 120', person.place())
    for digit, view in enumerate(('trace', 'lanes', 'calls', 'schedules', 'audit'), 1):
        person.key(str(digit))
        want(f'view {digit}', [view], person.page.ask('[...document.querySelectorAll(".pane")].filter(it => !it.hidden).map(it => it.id)'))
    person.key('l')
    want('L', True, person.page.ask('document.documentElement.classList.contains("large")'))


def puts_in_and_takes_back(person):
    """ticks, keys, typed lines and hangups are inserted after the current event, and removed again"""
    person.example(SHELL)
    person.page.choose('#at', '10')
    person.page.settle()
    texts = [person.value('events')]
    for selector in ('#put-tick', '[data-key="^Z"]', '[data-key="^C"]', '[data-key="^D"]', '[data-key="^\\\\"]', '#put-hangup'):
        person.click(selector)
        texts.append(person.value('events'))
    want('place', 'event 16 of 126', person.place())
    calls = person.page.ask('[...document.querySelectorAll("#calls li")].slice(10, 16).map(it => it.lastElementChild.previousElementSibling.textContent.split(";")[0])')
    want('events', ['tick', 'key 1 1A (^Z)', 'key 1 03 (^C)', 'key 1 04 (^D)', 'key 1 1C (^\\)', 'hangup 1'], calls)
    person.put('typed', 'say "a"\\')
    person.page.key('Enter')
    person.page.settle()
    want('typed', 'event 25 of 135', person.place())
    person.click('#take-back')
    for text in reversed(texts[1:]):
        want('a key taken back', text, person.value('events'))
        person.page.ask('document.activeElement.blur()')
        person.key('z', CTRL)
    want('all taken back', (texts[0], 'event 10 of 120'), (person.value('events'), person.place()))
    person.key('z', CTRL)
    want('nothing more', True, person.page.ask('document.getElementById("take-back").disabled'))


def changes_no_other_event(person):
    """an inserted line changes no other event, wherever it is"""
    wrong = person.page.ask('''(async () => {
        const { insertBehind, outline } = await import('./events.js');
        const events = 'step 5 # five\\nkey 1 ^Z 41 0A\\ntype 1 "a # \\u00e9b\\\\n" # end\\nhangup 1\\ntick 2';
        const count = outline(events).count, wrong = [];
        for (let at = 0; at <= count; at++) {
            const put = outline(insertBehind(events, at, 'tick 1'));
            if (put.count !== count + 1 || !put.lines.some(it => it.kind === 'tick' && it.first === at + 1)) wrong.push(at);
        }
        return [count, ...wrong];
    })()''')
    want('places', [19], wrong)


def puts_a_tick_before(person):
    """a click on a line of the trace inserts a tick before it"""
    person.example('lost_wakeup')
    person.page.choose('#at', '12')
    person.page.settle()
    person.click('#trace li[data-event="8"] .tick')
    want('place', 'event 8 of 201', person.place())
    want('events', 'step 7\ntick 1\nstep 193\n', person.value('events'))


def takes_names(person):
    """names stand for numbers, in a world and in events, and a wrong name is reported"""
    for name in ('world', 'events'):
        with open(f'tests/tools/names_run/{name}') as file:
            person.put(name, file.read())
        person.page.ask('document.activeElement.blur()')
    person.page.settle()
    want('trace', person.native_says('run', 'world', 'events'), person.trace())
    person.put('world', person.value('world').replace('r1, SIG', 'r1, SGI', 1))
    person.page.wait('!document.getElementById("refused").hidden', 'the name is rejected')
    want('why', True, 'unknown name SGI' in person.page.text('#refused'))


def tells_faults(person):
    """an error is reported at its line, and the report goes when the error is fixed"""
    person.example('small_init')
    world = person.value('world')
    person.put('world', world.replace('sys fork', 'sys fokr', 1))
    person.page.wait('!document.getElementById("refused").hidden', 'the error is reported')
    told = person.native_run('run', 'world', 'events').stderr
    want('fault', re.sub(r'^jobk: world: line (\d+): (.*)\n', r'✗ world, line \1: \2', told), person.page.text('#refused').split('\n')[0])
    refusal = person.native_run('run', '--names', 'world', 'events').stderr
    want('its reason', ''.join(refusal.splitlines(True)[2:-1]).rstrip('\n'), person.page.text('#refused pre'))
    want('its mark', int(re.search(r'line (\d+)', told).group(1)), person.marked_line('world', 'fault'))
    person.put('world', world)
    person.page.wait('document.getElementById("refused").hidden', 'the error is fixed')
    person.put('events', 'step 3\nstep x\n')
    person.page.wait('!document.getElementById("refused").hidden', 'the error in the events is reported')
    want('fault of events', '✗ events, line 2: bad number', person.page.text('#refused').split('\n')[0])


def carries_links(person):
    """a link has the world, the events and the place"""
    person.example('lost_wakeup')
    person.put('events', 'step 11\ntick 1\nstep 189\n')
    person.page.wait('document.getElementById("place").textContent === "event 5 of 201"', 'the events have changed')
    person.page.settle()
    person.page.choose('#at', '33')
    person.page.settle()
    person.page.wait('import("./link.js").then(it => it.textsOf(location.hash)).then(it => it?.at === 33)', 'the address has texts and place')
    texts, address = [person.value(it) for it in ('world', 'events')], person.page.ask('location.href')
    other = Page(person.page.browser, address)
    try:
        other.settle()
        visitor = Person(other, person.native)
        want('texts', texts, [visitor.value(it) for it in ('world', 'events')])
        want('place', 'event 33 of 201', visitor.place())
    finally:
        other.close()
    plain = person.page.ask('''(async () => {
        const { textsOf } = await import('./link.js');
        const text = JSON.stringify({ world: 'w \\u00e9', events: '<b>', at: 3 });
        const letters = btoa(String.fromCharCode(...new TextEncoder().encode(text))).replaceAll('+', '-').replaceAll('/', '_');
        return [await textsOf(`#0${letters}`), await textsOf('#1zzzz'), await textsOf('#x')];
    })()''')
    want('an address that is not compressed', [{'world': 'w é', 'events': '<b>', 'at': 3}, None, None], plain)


def keeps_strangers_out(person):
    """a world and events enter the page only as text, and the page loads nothing from other sites"""
    policy = person.page.ask('document.querySelector("meta[http-equiv]").content')
    want('policy', [True, []], [policy.startswith("default-src 'none';"), re.findall(r"unsafe-inline|'unsafe-eval'|https?:|[*]|blob:", policy)])
    world = '# <img src=x onerror=alert(1)>\npidmax 2\nconsoles 0\nprogram <b>x</b>\nend\n'
    person.put('world', world)
    person.page.wait('!document.getElementById("refused").hidden', 'the world is rejected')
    want('elements', 0, person.page.ask('document.querySelectorAll("main img").length'))
    person.example(SHELL)
    person.put('events', person.value('events').replace('key 1 68 69 0A', 'type 1 "<u>hi\\n"'))
    person.page.wait('/<u>hi/.test(document.querySelector("#trace").textContent)', 'what is typed is read')
    person.page.settle()
    want('elements', 0, person.page.ask('document.querySelectorAll("u").length'))


def finds_schedules(person):
    """all schedules are tried, their counts and outcomes are shown, and a click loads the schedule that hangs"""
    person.example('lost_wakeup')
    person.key('4')
    person.click('#explore')
    person.page.wait('!document.getElementById("explore").disabled', 'all are tried', seconds=60)
    told = person.native_says('explore', 'world', 'events', '--ticks', '2', '--upto', '30')
    counts = person.page.ask('[document.querySelector("#found h3").textContent, ...[...document.querySelectorAll("#found ul li")].map(it => it.textContent)]')
    want('counts', [line.strip() for line in told.split('\n\n')[0].splitlines()], counts)
    heads = person.page.ask('[...document.querySelectorAll("#found section h3")].map(it => it.textContent)')
    want('outcomes', [part.split('\n')[0] for part in told.strip().split('\n\n')[1:]], heads)
    person.click('#found section button')
    want('events', 'step 11\ntick 1\nstep 189\n', person.value('events'))
    want('the state', 'no process is runnable', person.page.text('#others div'))
    want('view', False, person.page.ask('document.getElementById("lanes").hidden'))
    want('the tick is marked', 1, person.page.ask('document.querySelectorAll("#events-editor .gutter .kind.tick").length'))
    person.click('#take-back')
    want('taken back', 'step 200\n', person.value('events').split('#')[0])


def mends_the_lost_wakeup(person):
    """the page alone suffices to find and fix the lost wakeup, and to share the link"""
    person.example('lost_wakeup')
    person.key('4')
    person.click('#explore')
    person.page.wait('!document.getElementById("explore").disabled', 'all are tried', seconds=60)
    want('hang', '74 come to rest: no process is runnable', person.page.text('#found li:nth-child(2)'))
    person.click('#found section button')
    world = person.value('world')
    person.put('world', world.replace('wait:\n', """    set r1, SIG_BLOCK
    set r2, {SIGCHLD}
    sys sigprocmask     # from now on it comes in sigsuspend alone
wait:
""").replace('    sys pause ', '    set r1, 0\n    sys sigsuspend '))
    person.put('events', 'step 200\n')
    person.page.ask('document.activeElement.blur()')
    person.page.settle()
    want('no fault', True, person.page.ask('document.getElementById("refused").hidden'))
    person.key('4')
    person.page.choose('#upto', '60')
    person.click('#explore')
    person.page.wait('!document.getElementById("explore").disabled', 'all are tried again', seconds=60)
    want('hang', '0 come to rest: no process is runnable', person.page.text('#found li:nth-child(2)'))
    person.click('#share')
    person.page.wait('/^the link is/.test(document.getElementById("told").textContent)', 'the link is there')
    other = Page(person.page.browser, person.page.ask('location.href'))
    try:
        other.settle()
        want('the world', person.value('world'), Person(other, None).value('world'))
    finally:
        other.close()


def stops_long_work(person):
    """long work can be stopped, and the page stays usable"""
    person.example('lost_wakeup')
    person.key('4')
    person.page.choose('#ticks', '4')
    person.page.choose('#upto', '200')
    person.page.click('#explore')
    person.page.wait('/at most [34] of 4/.test(document.getElementById("explored").textContent)', 'it shows its progress')
    person.key('Home')
    want('the page moves', 'event 0 of 200', person.place())
    person.click('#stop')
    person.page.wait('/stopped/.test(document.getElementById("explored").textContent)', 'it stops')
    person.page.choose('#ticks', '1')
    person.page.click('#explore')
    person.page.wait('/^1 of|^\\d+\\.\\d s$/.test(document.getElementById("explored").textContent)', 'it can be started again')


def takes_much(person):
    """a world that never rests with 1,000,000 events, and a text of 10 MB, leave the page usable"""
    person.put('world', 'pidmax 2\nconsoles 0\nprogram init\nmore:\nnote r1\njmp more\nend\n')
    person.put('events', 'step 1000000\n')
    person.page.wait('/^1000000 events, 500000 lines/.test(document.getElementById("summary").textContent)', 'a million events', seconds=60)
    person.page.settle()
    want('rows', 5000, person.page.ask('document.querySelectorAll("#trace li").length'))
    person.page.ask('''(it => { it.value = `# ${'much '.repeat(38)}\\n`.repeat(52000); it.dispatchEvent(new Event('input')); })(document.getElementById("world"))''')
    person.page.wait('!document.getElementById("refused").hidden', 'the long world is rejected', seconds=60)
    person.example('note_and_exit')
    want('a small world then', '2 note 1 7\n3 end 1 1792\n3 halt\n', person.trace())


def refuses_memory(person):
    """a fork without memory fails, and the page stays usable"""
    def trace_of_forks(person):
        person.put('world', 'pidmax 1000\nconsoles 0\nprogram init\nmore:\nsys fork\njmp more\nend\n')
        person.put('events', 'step 300\n')
        person.page.wait('/^300 events/.test(document.getElementById("summary").textContent)', 'the forks')
        person.page.settle()
        return person.trace()

    page = Page(person.page.browser, person.page.ask('location.origin + location.pathname'), before=BOUNDED)
    try:
        poor = Person(page, person.native)
        trace = trace_of_forks(poor)
        done, refused, _ = trace.partition(' fork = -11 memory\n')
        want('a failed fork', ' fork = -11 memory\n', refused)
        poor.example('note_and_exit')
        want('a small world then', '2 note 1 7\n3 end 1 1792\n3 halt\n', poor.trace())
    finally:
        page.close()
    forks = trace_of_forks(person)
    want('with memory', person.native_says('run', 'world', 'events'), forks)
    before = done.rpartition('\n')[0]
    want('before the failed fork', forks[:len(before)], before)


def draws_lanes(person):
    """lanes show births, ends, reports and signals, and their heading stays in sight"""
    person.example(SHELL)
    person.key('2')
    person.key('End')
    kinds = person.page.ask('["birth", "report", "sends"].map(it => document.querySelectorAll(`#lanes .arrow.${it}`).length > 0)')
    want('arrows', [True, True, True], kinds)
    rows = person.page.ask('[...document.querySelectorAll("#lanes g.row .event")].map(it => it.textContent)')
    events = [line.split(' ')[0] for line in person.native_says('run', 'world', 'events').splitlines()]
    want('rows', [], [it for it in events if it not in rows])
    top = '(it => it.getBoundingClientRect().top - it.parentElement.getBoundingClientRect().top)(document.querySelector("#lanes .heading"))'
    want('scrolled', True, person.page.ask('document.getElementById("lanes").scrollTop > 50'))
    want('the heading', True, person.page.ask(f'Math.abs({top}) < 2'))
    person.example('orphaned_job')
    want('adoption', True, person.page.ask('document.querySelectorAll("#lanes .arrow.gives").length > 0'))


def audits(person):
    """a trace from the list of examples is audited, and the trace of the run"""
    person.page.choose('#examples', 'audit_of_a_second_report')
    person.page.wait('document.getElementById("verdict").textContent', 'the audit')
    want('a second report', '✗ line 4: fault 4', person.page.text('#verdict'))
    want('its line', True, 'reported before' in person.page.text('#why'))
    person.page.click('#this-trace')
    person.page.wait('document.getElementById("verdict").textContent === "✓ ok"', 'the trace of the run')


def saves_and_opens(person):
    """a world is saved as a file, and opened"""
    folder = tempfile.mkdtemp()
    person.page.browser.send('Browser.setDownloadBehavior', behavior='allow', downloadPath=folder)
    person.example('note_and_exit')
    person.page.click('#world-editor .save')
    path = f'{folder}/world'
    person.page.wait('true')
    for _ in range(100):
        if os.path.exists(path):
            break
        person.page.ask('new Promise(it => setTimeout(it, 30))')
    with open(path) as file:
        want('the file', person.value('world'), file.read())
    with open(path, 'a') as file:
        file.write('# mine\n')
    root = person.page.send('DOM.getDocument')['root']['nodeId']
    node = person.page.send('DOM.querySelector', nodeId=root, selector='#world-editor .open')['nodeId']
    person.page.send('DOM.setFileInputFiles', files=[path], nodeId=node)
    person.page.wait('/# mine/.test(document.getElementById("world").value)', 'the file is opened')


def has_names(person):
    """all controls have names, and every view fits a narrow screen"""
    nameless = person.page.ask('''[...document.querySelectorAll('button, select, input, textarea')].filter(it =>
        !(it.getAttribute('aria-label') || it.textContent.trim() || it.labels?.length)).map(it => it.outerHTML)''')
    want('without a name', [], nameless)
    person.page.size(420, 800)
    person.page.settle()
    want('the width', True, person.page.ask('document.documentElement.scrollWidth <= 420'))
    heights = person.page.ask('["world", "events", "trace", "state"].map(it => document.getElementById(it).clientHeight)')
    want('heights', [], [it for it in heights if it < 80])
    person.page.size(640, 360, 2)
    want('the width at 200 %', True, person.page.ask('document.documentElement.scrollWidth <= 640'))


def opens_as_one_file(browser, address, before=''):
    """the page as a single file opens without a server"""
    page = Page(browser, address, before=before)
    try:
        page.settle()
        person = Person(page, None)
        person.example('note_and_exit')
        want('trace', '2 note 1 7\n3 end 1 1792\n3 halt\n', person.trace())
        person.click('#put-tick')
        want('a tick', True, 'tick 1' in person.value('events'))
        page.wait('location.hash.length > 50', 'the address has the texts')
    finally:
        page.close()


ALL = [examples_have_their_traces, slider_has_states, moves_by_keys, puts_in_and_takes_back, changes_no_other_event,
       puts_a_tick_before, takes_names, tells_faults, carries_links, keeps_strangers_out, finds_schedules, mends_the_lost_wakeup, stops_long_work, takes_much, refuses_memory,
       draws_lanes, audits, saves_and_opens, has_names]
