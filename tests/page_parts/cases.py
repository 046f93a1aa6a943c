"""Runs of the program in a page, each with its expected output: cases of the tests, and what the native program prints
for examples and random worlds."""
import base64
import glob
import os
import subprocess
import sys
import tempfile

sys.path.insert(0, os.path.abspath('tools'))
from scripts import load                                                    # noqa: E402

RANDOM = 100
FILES = 'world', 'events', 'trace'
FOLDERS = 'cases', 'explore_cases', 'show_cases', 'help_cases'


def read(path):
    try:
        with open(path, 'rb') as file:
            return file.read()
    except OSError:
        return b''


class Case:
    def __init__(self, name, words, files, out, err, status):
        self.name, self.words, self.files = name, words, files
        self.wanted = {'out': out, 'err': err, 'status': status}

    def is_of_a_library(self):
        """Returns true if the library can run the case: the words name no file but world, events and trace, which the
        library always has, and the case has those that they name."""
        named = {word.decode('latin-1') for word in self.words}
        return named & set(FILES) <= set(self.files) and not named & (set(self.files) - set(FILES))

    def asked(self):
        letters = {name: base64.b64encode(data).decode() for name, data in self.files.items()}
        return {'words': [base64.b64encode(word).decode() for word in self.words], 'files': letters}

    def differences(self, ran):
        got = {'out': base64.b64decode(ran['out']), 'err': base64.b64decode(ran['err']), 'status': ran['status']}
        return [f'{self.name}: {what}: wanted {self.wanted[what][:200]!r}, got {got[what][:200]!r}' if what != 'status' else
                f'{self.name}: status: wanted {self.wanted[what]}, got {got[what]}'
                for what in got if got[what] != self.wanted[what]]


def words_of(folder):
    """Returns the words of a case, or None if they name a path or a folder, which a page does not have."""
    if not os.path.exists(f'{folder}/words'):
        return [b'run', b'world', b'events']
    text = read(f'{folder}/words')
    words = text.removesuffix(b'\n').split(b'\n') if text else []
    return None if any(b'/' in word or word in (b'-', b'.') for word in words) else words


def kept():
    """Yields the cases of the tests, with the results that tests/run expects, and the examples."""
    for folder in sorted(it for name in FOLDERS for it in glob.glob(f'tests/{name}/*')) + sorted(glob.glob('examples/*')):
        has = {name for name in ('world', 'trace', 'words', 'command', 'filter') if os.path.exists(f'{folder}/{name}')}
        words = words_of(folder)
        if not has & {'world', 'trace', 'words'} or has & {'command', 'filter'} or words is None:
            continue
        files = {name: read(f'{folder}/{name}') for name in os.listdir(folder) if os.path.isfile(f'{folder}/{name}')}
        out = files.get('stdout', files.get('trace', b''))
        yield Case(folder, words, files, out, files.get('stderr', b''), int(files.get('status', b'0')))


def random_worlds():
    """Yields the small random worlds of tests/compare_explore."""
    module = load('compare_explore', os.path.abspath('tests/compare_explore'))
    for number in range(RANDOM):
        small = module.Small(number)
        yield number, small.world().encode(), small.events().encode(), small.words()


def by_native(native, name, words, files):
    with tempfile.TemporaryDirectory() as room:
        for file, data in files.items():
            with open(f'{room}/{file}', 'wb') as to:
                to.write(data)
        done = subprocess.run([native, *words], cwd=room, capture_output=True, stdin=subprocess.DEVNULL)
    return Case(name, [word.encode() for word in words], files, done.stdout, done.stderr, done.returncode)


def beside_native(native):
    """Yields what the native run, show, explore and audit print for races, examples and random worlds."""
    for folder in sorted(glob.glob('races/*') + glob.glob('examples/*')):
        files = {name: read(f'{folder}/{name}') for name in FILES if os.path.exists(f'{folder}/{name}')}
        if 'world' in files:
            yield by_native(native, f'{folder}: show', ['show', 'world', 'events'], files)
            yield by_native(native, f'{folder}: show --calls', ['show', 'world', 'events', '--calls'], files)
    for number, world, events, words in random_worlds():
        files = {'world': world, 'events': events}
        run = by_native(native, f'random world {number}: run', ['run', 'world', 'events'], files)
        yield run
        yield by_native(native, f'random world {number}: show --calls', ['show', 'world', 'events', '--calls'], files)
        yield by_native(native, f'random world {number}: show --at 9', ['show', 'world', 'events', '--at', '9'], files)
        if number < 30:
            yield by_native(native, f'random world {number}: explore', ['explore', 'world', 'events', *words], files)
        yield by_native(native, f'random world {number}: audit', ['audit', 'trace'], {'trace': run.wanted['out']})


LOAD = '''(async () => {
    const { moduleOf, Program } = await import('./program.js');
    const { bytesOfFile } = await import('./resources.js');
    globalThis.taken = [];
    globalThis.tested = new Program(await moduleOf(name => { taken.push(name); return bytesOfFile(name); }));
    return [tested.isLibrary, ...taken];
})()'''

RUN = '''(async cases => {
    const bytesOf = letters => Uint8Array.from(atob(letters), it => it.charCodeAt(0));
    const lettersOf = bytes => btoa(Array.from(bytes, it => String.fromCharCode(it)).join(''));
    const all = [];
    for (const { words, files } of cases) {
        const given = Object.fromEntries(Object.entries(files).map(([name, it]) => [name, bytesOf(it)]));
        const { status, out, err } = await tested.run(words.map(bytesOf), given);
        all.push({ status, out: lettersOf(out), err: lettersOf(err) });
    }
    return all;
})'''
