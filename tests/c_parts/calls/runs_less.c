/* Runs a program that compares its arguments with -1. */
#include "jobk.h"

int main(void)
{
    if (fork() == 0)
        execl("less", "less", "-5", "-1", (char *)NULL);
    wait(NULL);
    return 0;
}
