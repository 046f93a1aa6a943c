/* Reaps all children, even if a signal interrupts a wait. */
#include "jobk.h"

int main(void)
{
    for (int i = 0; i < 2; i++)
        if (fork() == 0)
            _exit(0);
    for (;;) {
        int status = 0;
        pid_t pid = waitpid(-1, &status, 0);
        if (pid < 0 && errno == EINTR)
            continue;
        if (pid < 0)
            break;
        note(status);
    }
    note(errno == ECHILD);
    return 0;
}
