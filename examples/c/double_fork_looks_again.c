/* A double fork makes a daemon. It repeats getppid until its parent is no longer the intermediate process. */
#include "jobk.h"

int main(void)
{
    pid_t middle = fork();
    if (middle == 0) {
        pid_t before = getpid();
        if (fork() != 0)
            _exit(0);
        pid_t parent = getppid();
        while (parent == before) {
            sched_yield();
            parent = getppid();
        }
        note(parent);
        _exit(0);
    }
    while (waitpid(-1, NULL, 0) > 0)
        ;
    return 0;
}
