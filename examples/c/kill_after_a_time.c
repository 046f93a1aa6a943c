/* SIGTERM, then time to clean up before SIGKILL: a wait that an alarm limits. */
#include "jobk.h"

static void on_term(int signal_number)
{
    (void)signal_number;
    note(1);
    _exit(0);
}

static void run_child(void)
{
    struct sigaction action = { .sa_handler = on_term };
    sigemptyset(&action.sa_mask);
    sigaction(SIGTERM, &action, NULL);
    for (;;)
        pause();
}

static void on_alrm(int signal_number)
{
    (void)signal_number;
}

int main(void)
{
    struct sigaction action = { .sa_handler = on_alrm };
    pid_t child = fork();
    if (child == 0)
        run_child();
    sched_yield();
    kill(child, SIGTERM);
    sigemptyset(&action.sa_mask);
    sigaction(SIGALRM, &action, NULL);
    alarm(5);
    if (waitpid(-1, NULL, 0) < 0) {
        kill(child, SIGKILL);
        waitpid(-1, NULL, 0);
    }
    return 0;
}
