/* A shell whose SIGCHLD handler reaps children. SIGCHLD is blocked from the fork to the last call for the child. */
#include "jobk.h"

static void on_chld(int signal_number)
{
    int saved = errno;
    (void)signal_number;
    waitpid(-1, NULL, WNOHANG);
    errno = saved;
}

int main(void)
{
    sigset_t chld, old;
    struct sigaction action = { .sa_handler = on_chld, .sa_flags = SA_RESTART };
    sigemptyset(&action.sa_mask);
    sigaction(SIGCHLD, &action, NULL);
    sigemptyset(&chld);
    sigaddset(&chld, SIGCHLD);
    sigprocmask(SIG_BLOCK, &chld, &old);
    pid_t child = fork();
    if (child == 0)
        _exit(0);
    if (setpgid(child, child) < 0)
        note(errno);
    if (kill(-child, SIGTERM) < 0)
        note(errno);
    sigprocmask(SIG_SETMASK, &old, NULL);
    return 0;
}
