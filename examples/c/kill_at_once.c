/* SIGTERM, and SIGKILL right after it: whether the child cleans up depends on which process runs between them. */
#include "jobk.h"

static void on_term(int signal_number)
{
    (void)signal_number;
    note(1);
    _exit(0);
}

static void run_child(void)
{
    struct sigaction action = { .sa_handler = on_term };
    sigemptyset(&action.sa_mask);
    sigaction(SIGTERM, &action, NULL);
    for (;;)
        pause();
}

int main(void)
{
    pid_t child = fork();
    if (child == 0)
        run_child();
    sched_yield();
    kill(child, SIGTERM);
    kill(child, SIGKILL);
    waitpid(-1, NULL, 0);
    return 0;
}
