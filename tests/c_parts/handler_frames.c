/* A function is interrupted by a handler that calls it, too: each has a frame of its own. Numbers are noted in their
 * turn, and -1 where a value is wrong. */
#include "jobk.h"

static int next = 1;

static void check(int value, int wanted)
{
    note(value == wanted ? next : -1);
    next++;
}

static int digits(int a, int b, int c, int is_raised)
{
    int hundreds = a * 100, tens = b * 10, row[3] = { a, b, c };
    if (is_raised)
        kill(getpid(), SIGUSR1);
    return hundreds + tens + c + 1000 * (row[0] + row[1] + row[2]);
}

static int one(int is_raised)
{
    if (is_raised)
        kill(getpid(), SIGUSR2);
    return 1;
}

static void on_usr1(int signal_number)
{
    check(signal_number, SIGUSR1);
    check(digits(7, 8, 9, 0), 24789);
}

static void on_usr2(int signal_number)
{
    check(signal_number, SIGUSR2);
    check(1000 - (100 - (10 - (2 + one(0)))), 907);
    check(digits(4, 5, 6, 1), 15456);
}

int main(void)
{
    struct sigaction action = { .sa_handler = on_usr1 };
    sigemptyset(&action.sa_mask);
    sigaction(SIGUSR1, &action, NULL);
    action.sa_handler = on_usr2;
    sigaction(SIGUSR2, &action, NULL);
    check(digits(1, 2, 3, 1), 6123);
    check(2000 - (200 - (20 - (2 + one(1)))), 1817);
    check(digits(one(0), one(0) + one(1), 3, 1), 6123);
    return 0;
}
