/* What C leaves open is done from left to right: numbers are noted in their turn, and -1 where a value is wrong. */
#include "jobk.h"

static int values[8];

static int show(int number, int value)
{
    note(number);
    return value;
}

static int three(int a, int b, int c)
{
    return a * 100 + b * 10 + c;
}

static void check(int value, int wanted)
{
    if (value != wanted)
        note(-1);
}

int main(void)
{
    int i = 0;
    check(show(1, 7) - show(2, 3), 4);
    check(show(3, 1) < show(4, 2), 1);
    check(three(show(5, 1), show(6, 2), show(7, 3)), 123);
    values[show(8, 1)] = show(9, 5);
    values[show(10, 1)] += show(11, 2);
    check(values[1], 7);
    check((show(12, 2) + show(13, 3)) * (show(14, 4) - show(15, 1)), 15);
    check(show(16, 0) || show(17, 0) || show(18, 1), 1);
    check(show(19, 1) && show(20, 0) && show(99, 1), 0);
    check((show(21, 1), show(22, 5)), 5);
    check(show(23, 0) ? show(99, 1) : show(24, 2), 2);
    i = show(25, 3) + i++;
    check(i, 3);
    check(show(26, 1) << show(27, 3), 8);
    kill(getpid() + show(28, 0), show(29, 0));
    i = three(three(show(30, 0), show(31, 0), show(32, 1)), three(show(33, 0), show(34, 0), show(35, 2)), show(36, 3));
    check(i, 123);
    return 0;
}
