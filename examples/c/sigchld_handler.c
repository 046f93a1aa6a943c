/* A SIGCHLD handler that reaps children. The signal is blocked except while the program waits in sigsuspend. */
#include "jobk.h"

static volatile sig_atomic_t ended;

static void collect(void)
{
    while (waitpid(-1, NULL, WNOHANG) > 0)
        ended++;
}

static void on_chld(int signal_number)
{
    int saved = errno;
    (void)signal_number;
    collect();
    errno = saved;
}

int main(void)
{
    sigset_t chld, old;
    struct sigaction action = { .sa_handler = on_chld, .sa_flags = SA_RESTART | SA_NOCLDSTOP };
    sigemptyset(&action.sa_mask);
    sigaction(SIGCHLD, &action, NULL);
    sigemptyset(&chld);
    sigaddset(&chld, SIGCHLD);
    sigprocmask(SIG_BLOCK, &chld, &old);
    for (int i = 0; i < 2; i++)
        if (fork() == 0)
            _exit(3);
    while (ended != 2)
        sigsuspend(&old);
    note(ended);
    return 0;
}
