"""The calls that a program can make, the types of their arguments and results, and what to write in place of others."""
from kinds import Kind

# The calls whose arguments are all numbers, in r1, r2 and so on; and the number of arguments.
PLAIN = {
    'fork': 0, 'getpid': 0, 'getppid': 0, 'getuid': 0, 'geteuid': 0, 'getgid': 0, 'getegid': 0, 'setsid': 0, 'pause': 0,
    'sched_yield': 0, 'setuid': 1, 'seteuid': 1, 'setgid': 1, 'setegid': 1, 'getpgid': 1, 'getsid': 1, 'alarm': 1,
    'setctty': 1, 'settostop': 1, 'kill': 2, 'setpgid': 2,
}
NEVER_FAIL = {'getpid', 'getppid', 'getuid', 'geteuid', 'getgid', 'getegid', 'alarm', 'sched_yield', 'sigpending'}
SET_CALLS = {'sigemptyset': 1, 'sigfillset': 1, 'sigaddset': 2, 'sigdelset': 2, 'sigismember': 2}
OF_TERMINAL = {'tcgetpgrp': 1, 'tcsetpgrp': 2, 'read': 3, 'write': 3}
SPECIAL = {
    'waitpid': 3, 'waitid': 4, 'sigaction': 3, 'signal': 2, 'sigprocmask': 3, 'sigpending': 1, 'sigsuspend': 1,
    'sigqueue': 3, 'execl': None, '_exit': 1, 'exit': 1, 'note': 1, 'atoi': 1, 'prctl': 2, 'memset': 3, 'getpgrp': 0,
    'killpg': 2, 'wait': 1,
}
ARGUMENTS = {**PLAIN, **SET_CALLS, **OF_TERMINAL, **SPECIAL}
# The functions that a file can call without defining them.
PROVIDED = set(ARGUMENTS)

# Calls with unsigned arguments, and the types of results that are not int.
UNSIGNED_ARGUMENTS = {'setuid', 'seteuid', 'setgid', 'setegid', 'alarm'}
NEVER_NEGATIVE = {'getuid', 'geteuid', 'getgid', 'getegid', 'alarm'}
RESULTS = {**dict.fromkeys(NEVER_NEGATIVE, Kind.UNSIGNED), 'read': Kind.LONG, 'write': Kind.LONG,
           'signal': Kind.HANDLER, **dict.fromkeys(('note', 'exit', '_exit'), Kind.VOID)}
# Calls whose results below 0 are not errors.
OWN_RESULTS = NEVER_NEGATIVE | {'atoi', 'note', 'exit', '_exit', 'memset'}

# What to write in place of names of C that are not in the subset.
INSTEAD = {
    'printf': 'write note(x), which shows a number',
    'fprintf': 'write note(x), which shows a number',
    'puts': 'write note(x), which shows a number',
    'perror': 'write note(errno)',
    'sleep': 'write alarm and sigsuspend',
    'usleep': 'write alarm and sigsuspend',
    'nanosleep': 'write alarm and sigsuspend',
    'malloc': 'write an array of constant size',
    'calloc': 'write an array of constant size',
    'free': 'write an array of constant size',
    'system': 'write fork, execl and waitpid',
    'popen': 'there are no pipes',
    'pipe': 'there are no pipes',
    'open': 'there are no files but the terminal',
    'close': 'there are no files but the terminal',
    'dup2': 'there are no files but the terminal',
    'vfork': 'write fork',
    'posix_spawn': 'write fork and execl',
    'execv': 'write execl("tool", "tool", (char *)NULL)',
    'execvp': 'write execl("tool", "tool", (char *)NULL)',
    'execlp': 'write execl("tool", "tool", (char *)NULL)',
    'execve': 'write execl("tool", "tool", (char *)NULL)',
    'sigwaitinfo': 'write sigsuspend',
    'sigtimedwait': 'write alarm and sigsuspend',
    'sigwait': 'write sigsuspend',
    'tcsetattr': 'write settostop(1) for TOSTOP',
    'ioctl': 'write setctty(1) for TIOCSCTTY',
    'abort': 'write _exit(1)',
    'setjmp': 'write a variable that the loop tests',
    'longjmp': 'write a variable that the loop tests',
    'sigsetjmp': 'write a variable that the loop tests',
    'siglongjmp': 'write a variable that the loop tests',
    'getenv': 'write a #define',
    'memcpy': 'write a loop',
    'strcmp': 'compare the characters',
    'strlen': 'count the characters, or use the result of read',
    'assert': 'write if (!..) note(..)',
    'pthread_sigmask': 'write sigprocmask',
    'setpgrp': 'write setpgid(0, 0)',
    'raise': 'write kill(getpid(), signal)',
}
