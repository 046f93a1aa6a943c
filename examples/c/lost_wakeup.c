/* A handler counts exited children. The last one can exit after main has checked the count and before it pauses. */
#include "jobk.h"

static volatile sig_atomic_t ended;

static void on_chld(int signal_number)
{
    (void)signal_number;
    while (waitpid(-1, NULL, WNOHANG) > 0)
        ended++;
}

int main(void)
{
    struct sigaction action = { .sa_handler = on_chld, .sa_flags = SA_RESTART };
    sigemptyset(&action.sa_mask);
    sigaction(SIGCHLD, &action, NULL);
    for (int i = 0; i < 2; i++)
        if (fork() == 0)
            _exit(3);
    while (ended != 2)
        pause();
    return 0;
}
