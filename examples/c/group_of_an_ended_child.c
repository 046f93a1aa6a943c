/* A shell whose SIGCHLD handler reaps children. A child can exit, and be reaped, before its group is made. */
#include "jobk.h"

static void on_chld(int signal_number)
{
    int saved = errno;
    (void)signal_number;
    waitpid(-1, NULL, WNOHANG);
    errno = saved;
}

int main(void)
{
    struct sigaction action = { .sa_handler = on_chld, .sa_flags = SA_RESTART };
    sigemptyset(&action.sa_mask);
    sigaction(SIGCHLD, &action, NULL);
    pid_t child = fork();
    if (child == 0)
        _exit(0);
    if (setpgid(child, child) < 0)
        note(errno);
    if (kill(-child, SIGTERM) < 0)
        note(errno);
    return 0;
}
