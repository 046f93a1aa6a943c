"""The consoles of a replay, which are pseudoterminals of Linux, their hangups, and the priorities of processes."""

import array
import ctypes
import fcntl
import os
import signal
import struct
import time

WAITING, KEEPER, DRIVER, ACTING, GUARD = 10, 20, 30, 40, 50         # the priorities
TCGETS, TCSETS, TCFLSH, TIOCSCTTY, TIOCGPGRP, TIOCSPGRP, TIOCSTI, TIOCGSID, TIOCVHANGUP, TOSTOP = (
    0x5401, 0x5402, 0x540b, 0x540e, 0x540f, 0x5410, 0x5412, 0x5429, 0x5437, 0x100)
libc = ctypes.CDLL(None, use_errno=True)


class Skipped(Exception):
    """Why the world isn't replayed."""


class NotHere(Skipped):
    """Why this machine replays no world."""


def set_priority(number, priority):
    os.sched_setscheduler(number, os.SCHED_FIFO, os.sched_param(priority))


def end_with_parent(parent):
    """Has Linux kill this process when its parent terminates. In a new namespace the parent has the process ID 0."""
    libc.prctl(1, signal.SIGKILL)                           # PR_SET_PDEATHSIG
    if os.getppid() not in (parent, 0):
        os._exit(1)


class Terminals:
    """The terminals of a world. `undo` closes them, and `control` is the socket of the guard."""

    def __init__(self):
        # The descriptors of both sides; the names; the places to open again; and, by place, the processes that wait for
        # a hangup to finish.
        self.consoles, self.names, self.lost, self.hanging = [], [], set(), {}

    def open_console(self):
        try:
            master, slave = os.openpty()
        except OSError as why:
            raise NotHere(f'no pseudoterminal: {why}')
        self.undo.callback(os.close, master)
        self.undo.callback(os.close, slave)
        os.set_blocking(master, False)
        self.names.append(os.ttyname(slave))
        os.chmod(self.names[-1], 0o666)
        self.set_modes(slave, False)
        return master, slave

    def set_modes(self, slave, tostop):
        control = bytearray(19)                             # INTR, QUIT, ERASE, KILL, EOF, then TIME, MIN; SUSP
        control[:7], control[10] = b'\x03\x1c\x7f\x15\x04\x00\x01', 0x1a
        fcntl.ioctl(slave, TCSETS, struct.pack('IIIIB19s', 0, 0, 0xbf, 3 | TOSTOP * tostop, 0, bytes(control)))

    def key(self, console, byte):
        try:
            fcntl.ioctl(self.consoles[console - 1][1], TIOCSTI, bytes([byte]))
        except OSError as why:
            raise NotHere(f'TIOCSTI puts no key into a terminal: {why}')

    def hang_up(self, place):
        """Hangs up a terminal. The call signals the leader, and then blocks until all processes have left their reads,
        which may take long. So another process makes the call, and this one waits at most a tenth of a second for
        it."""
        mine = os.getpid()
        self.hanging[place] = os.fork()
        if self.hanging[place] == 0:
            try:
                end_with_parent(mine)
                self.control.close()
                set_priority(0, GUARD)                      # so it continues when the last read has ended
                fcntl.ioctl(self.consoles[place][1], TIOCVHANGUP)
                os._exit(0)
            finally:
                os._exit(1)
        self.lost.add(place)
        limit = time.monotonic() + 0.1
        while self.hangs_up(place) and time.monotonic() < limit:
            os.sched_yield()

    def hangs_up(self, place):
        """Returns true if a hangup still waits for processes that read."""
        ended, word = os.waitpid(self.hanging[place], os.WNOHANG) if place in self.hanging else (0, 0)
        if ended:
            del self.hanging[place]
        if word:
            raise NotHere('no terminal can be hung up')
        return place in self.hanging

    def end_hangups(self):
        for child in self.hanging.values():
            os.waitpid(child, 0)

    def open_again(self, place, tostop):
        """Opens a terminal again after its hangup, with its modes, for later keys."""
        if self.hangs_up(place):
            raise Skipped('a terminal gets a new session before all processes have left their reads of it')
        slave = self.consoles[place][1]
        again = os.open(self.names[place], os.O_RDWR | os.O_NOCTTY)
        os.dup2(again, slave, inheritable=False)
        os.close(again)
        self.set_modes(slave, tostop)

    def owners(self, place):
        """Returns the session and the foreground process group of a console, as IDs outside the namespace, 0 for
        none."""
        session, group = array.array('i', [0]), array.array('i', [0])
        try:
            fcntl.ioctl(self.consoles[place][0], TIOCGSID, session)
        except OSError:
            pass                                            # it has none
        fcntl.ioctl(self.consoles[place][0], TIOCGPGRP, group)
        return session[0], group[0]

    def modes(self, console, tostop):
        modes = bytearray(fcntl.ioctl(self.consoles[console][1], TCGETS, bytes(36)))
        local, = struct.unpack_from('I', modes, 12)
        struct.pack_into('I', modes, 12, local | TOSTOP if tostop else local & ~TOSTOP)
        return bytes(modes)

    def written(self, place):
        try:
            return os.read(self.consoles[place][0], 4096)
        except BlockingIOError:
            return b''

    def flush(self, place):
        """Empties the input of a terminal."""
        fcntl.ioctl(self.consoles[place][1], TCFLSH, 0)
