/* A pause that an alarm should end. If the alarm rings before the pause begins, no signal ends the pause. */
#include "jobk.h"

static void on_alrm(int signal_number)
{
    (void)signal_number;
}

int main(void)
{
    struct sigaction action = { .sa_handler = on_alrm };
    sigemptyset(&action.sa_mask);
    sigaction(SIGALRM, &action, NULL);
    alarm(1);
    pause();
    return 0;
}
