/* The calls of a program that tools/cworld compiles to a world, on Linux.
 *
 * Include it first. The calls are the real ones. The terminal is the file 0, or 1 where it is written to; what `note`
 * shows goes to the file 2, as a line with the number of the process and the value.
 */
#ifndef JOBK_H
#define JOBK_H

#ifndef _GNU_SOURCE
#define _GNU_SOURCE
#endif
#include <errno.h>
#include <sched.h>
#include <signal.h>
#include <stdlib.h>
#include <string.h>
#include <sys/ioctl.h>
#include <sys/prctl.h>
#include <sys/types.h>
#include <sys/wait.h>
#include <termios.h>
#include <unistd.h>

/* Puts a number in front of what ends at `end`. */
static inline char *jobk_digits(char *end, long value)
{
    unsigned long rest = value < 0 ? -(unsigned long)value : (unsigned long)value;
    do {
        *--end = (char)('0' + rest % 10);
        rest /= 10;
    } while (rest > 0);
    if (value < 0)
        *--end = '-';
    return end;
}

/* Shows a number: in a world as a line of the trace, here as `note PROCESS VALUE`. A handler may call it. */
static inline void note(int value)
{
    int saved = errno;
    char line[64], *end = line + sizeof line, *begin = end;
    *--begin = '\n';
    begin = jobk_digits(begin, value);
    *--begin = ' ';
    begin = jobk_digits(begin, getpid());
    for (const char *word = " eton"; *word; word++)
        *--begin = *word;
    if (write(2, begin, (size_t)(end - begin)) < 0)
        _exit(99);
    errno = saved;
}

/* Takes a terminal for the session: the one that is the file 0. */
static inline int setctty(int console)
{
    (void)console;
    return ioctl(0, TIOCSCTTY, 0);
}

/* Sets or clears TOSTOP, by which a process in the background is stopped where it writes. */
static inline int settostop(int flag)
{
    struct termios modes;
    if (tcgetattr(0, &modes) < 0)
        return -1;
    modes.c_lflag = flag ? modes.c_lflag | TOSTOP : modes.c_lflag & ~(tcflag_t)TOSTOP;
    return tcsetattr(0, TCSADRAIN, &modes);
}

#endif
