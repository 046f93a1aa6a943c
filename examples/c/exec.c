/* Runs another program with a number as argument. */
#include "jobk.h"

int main(void)
{
    int status = 0;
    pid_t child = fork();
    if (child == 0) {
        execl("tool", "tool", "5", (char *)NULL);
        _exit(127);
    }
    waitpid(child, &status, 0);
    note(WEXITSTATUS(status));
    return 0;
}
