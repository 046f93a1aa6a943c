"""Runs a C program on Linux as process 1, with a terminal at which keys are typed, and returns its notes.

The program is the first process of a pid namespace and leads a session, like process 1 of a world, so processes have
the same process IDs. Its files 0 and 1 are a pseudoterminal, which it may make its controlling terminal by setctty.
File 2 is a pipe for its notes. The event `step` waits until all processes sleep, are stopped or are zombies. `tick`
waits some seconds, `key` types, and `hangup` closes the other side of the terminal, for good.
"""
import os
import re
import select
import shutil
import signal
import subprocess
import termios
import time

HERE = os.path.dirname(os.path.abspath(__file__))
FLAGS = ['-Wall', '-Wextra', '-Werror', '-I', os.path.join(HERE, '..', 'c')]
NOTE = re.compile(r'note (\d+) (-?\d+)')
# Seconds between two polls, the number of equal polls that count as calm, the seconds in which a key is noticed, and
# the seconds after which a program is killed.
POLL, CALM, NOTICED, LONGEST = 0.004, 6, 0.5, 30.0


class NotHere(Exception):
    """The reason why this machine runs no programs."""


def read_events(path):
    """Returns the lines of a file of events, with numbers for names; no lines if there is no file."""
    if not os.path.exists(path):
        return []
    done = subprocess.run([os.path.join(HERE, '..', 'names'), path], capture_output=True, text=True, check=True)
    lines = (line.split('#')[0].strip() for line in done.stdout.split('\n'))
    return [line for line in lines if line]


def compile_file(path, folder, more=()):
    """Compiles a C file to a program of its name in a folder. Returns the compiler's messages if it fails."""
    name = os.path.splitext(os.path.basename(path))[0]
    done = subprocess.run(['gcc', *FLAGS, *more, path, '-o', os.path.join(folder, name)], capture_output=True, text=True)
    return done.stderr if done.returncode else ''


def check():
    """Raises NotHere if programs can't be process 1 on this machine. From then on they begin with the default actions of
    SIGINT and SIGQUIT, which a shell's background commands ignore, and of SIGHUP, which nohup has its command ignore."""
    for number in (signal.SIGINT, signal.SIGQUIT):
        if signal.getsignal(number) is signal.SIG_IGN:
            signal.signal(number, signal.SIG_DFL)
    if signal.getsignal(signal.SIGHUP) is signal.SIG_IGN:
        # (a handler, unlike an action that ignores, is not inherited)
        signal.signal(signal.SIGHUP, lambda *_: None)
    for name in ('unshare', 'setsid', 'gcc'):
        if shutil.which(name) is None:
            raise NotHere(f'there is no {name}')
    if not os.path.exists(f'/proc/self/task/{os.getpid()}/children'):
        raise NotHere('/proc does not list the children of a process')
    done = subprocess.run(['unshare', '--pid', '--fork', 'setsid', 'true'], capture_output=True, text=True)
    if done.returncode != 0:
        raise NotHere(done.stderr.strip().splitlines()[-1] if done.stderr else 'unshare fails')


def children(process):
    """Returns all descendants of a process."""
    try:
        with open(f'/proc/{process}/task/{process}/children', encoding='ascii') as file:
            direct = file.read().split()
    except OSError:
        return []
    return [it for child in direct for it in (child, *children(child))]


def state(process):
    """Returns the process, its state, and the counts of its context switches."""
    try:
        with open(f'/proc/{process}/stat', encoding='ascii', errors='replace') as file:
            letter = file.read().rpartition(')')[2].split()[0]
        with open(f'/proc/{process}/status', encoding='ascii', errors='replace') as file:
            return process, letter, re.findall(r'ctxt_switches:\s*(\d+)', file.read())
    except OSError:
        return process, 'gone', []


class Run:
    """A running program."""

    def __init__(self, path):
        self.master, slave = os.openpty()
        modes = termios.tcgetattr(slave)
        modes[3] &= ~termios.ECHO
        termios.tcsetattr(slave, termios.TCSANOW, modes)
        self.notes, write_end = os.pipe()
        self.process = subprocess.Popen(
            ['unshare', '--pid', '--fork', '--kill-child', 'setsid', os.path.abspath(path)], cwd=os.path.dirname(path),
            stdin=slave, stdout=slave, stderr=write_end)
        os.close(slave)
        os.close(write_end)
        self.ends = time.monotonic() + LONGEST

    def states(self):
        return [state(process) for process in children(str(self.process.pid))]

    def type_keys(self, keys):
        """Types keys, and waits until a process notices them: the kernel passes them on later."""
        before, until = self.states(), time.monotonic() + NOTICED
        os.write(self.master, keys)
        while self.states() == before and self.process.poll() is None and time.monotonic() < until:
            time.sleep(POLL)

    def hang_up(self):
        os.close(self.master)
        self.master = None

    def wait_for_calm(self, calm=CALM):
        """Waits until no process runs, or the program has terminated."""
        before, same = None, 0
        while same < calm and self.process.poll() is None and time.monotonic() < self.ends:
            now = self.states()
            is_calm = len(now) > 0 and all(letter in 'STtZ' for _, letter, _ in now)
            same = same + 1 if is_calm and now == before else 0
            before = now
            time.sleep(POLL)

    def take(self, event):
        word, *rest = event.split()
        if word == 'tick':
            time.sleep(int(rest[0]) * 1.05)
        self.wait_for_calm()
        if word in ('key', 'hangup') and self.master is not None and self.process.poll() is None:
            self.type_keys(bytes(int(byte, 16) for byte in rest[1:])) if word == 'key' else self.hang_up()
            self.wait_for_calm()

    def finish(self):
        """Returns the notes, and the exit status of process 1, or None if it still runs."""
        self.wait_for_calm(4 * CALM)
        status = self.process.poll()
        if status is None:
            self.process.send_signal(signal.SIGKILL)
            self.process.wait()
        text = b''
        while select.select([self.notes], [], [], 0.2)[0]:
            part = os.read(self.notes, 65536)
            if not part:
                break
            text += part
        os.close(self.notes)
        if self.master is not None:
            self.hang_up()
        return text.decode('ascii', 'replace'), status


def outcome(text, status):
    """Returns the notes of each process, and the exit status of process 1."""
    notes = {}
    for process, value in NOTE.findall(text):
        notes.setdefault(int(process), []).append(int(value))
    return tuple(sorted((process, tuple(values)) for process, values in notes.items())), status


def run(path, events):
    running = Run(path)
    for event in events:
        running.take(event)
    return outcome(*running.finish())
