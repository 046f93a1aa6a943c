/* A daemon made by a double fork. It does not lead its session, so it cannot acquire a controlling terminal. */
#include "jobk.h"

int main(void)
{
    pid_t middle = fork();
    if (middle == 0) {
        setsid();
        if (fork() != 0)
            _exit(0);
        getppid();
        for (;;)
            pause();
    }
    waitpid(middle, NULL, 0);
    for (;;)
        pause();
}
