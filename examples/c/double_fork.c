/* A double fork makes a daemon. It may call getppid before the intermediate process has exited. */
#include "jobk.h"

int main(void)
{
    pid_t middle = fork();
    if (middle == 0) {
        if (fork() != 0)
            _exit(0);
        note(getppid());
        _exit(0);
    }
    while (waitpid(-1, NULL, 0) > 0)
        ;
    return 0;
}
