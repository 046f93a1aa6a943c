/* A wait that an alarm should end. SIGALRM is blocked except while the program waits, so it cannot arrive too early. */
#include "jobk.h"

static void on_alrm(int signal_number)
{
    (void)signal_number;
}

int main(void)
{
    sigset_t alrm, old;
    struct sigaction action = { .sa_handler = on_alrm };
    sigemptyset(&action.sa_mask);
    sigaction(SIGALRM, &action, NULL);
    sigemptyset(&alrm);
    sigaddset(&alrm, SIGALRM);
    sigprocmask(SIG_BLOCK, &alrm, &old);
    alarm(1);
    sigsuspend(&old);
    return 0;
}
