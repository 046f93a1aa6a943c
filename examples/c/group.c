/* Sends a signal to the process group of a child. */
#include "jobk.h"

int main(void)
{
    int status = 0;
    pid_t child = fork();
    if (child == 0)
        for (;;)
            pause();
    setpgid(child, child);
    kill(-child, SIGTERM);
    waitpid(-child, &status, 0);
    note(WTERMSIG(status));
    return 0;
}
