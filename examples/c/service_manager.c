/* A service manager becomes the parent of the orphans of its services. */
#include "jobk.h"

static void manage(void)
{
    int status = 0;
    prctl(PR_SET_CHILD_SUBREAPER, 1);
    if (fork() == 0) {
        if (fork() != 0)
            _exit(0);
        _exit(7);
    }
    while (waitpid(-1, &status, 0) > 0)
        note(WEXITSTATUS(status));
    _exit(0);
}

int main(void)
{
    if (fork() == 0)
        manage();
    for (;;)
        pause();
}
