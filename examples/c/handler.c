/* A handler that counts signals. */
#include "jobk.h"

static volatile sig_atomic_t count;

static void on_usr1(int signal_number)
{
    (void)signal_number;
    count++;
}

int main(void)
{
    struct sigaction action = { .sa_handler = on_usr1 };
    sigemptyset(&action.sa_mask);
    sigaction(SIGUSR1, &action, NULL);
    kill(getpid(), SIGUSR1);
    note(count);
    return 0;
}
