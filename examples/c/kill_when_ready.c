/* SIGTERM, then time to clean up before SIGKILL. The child sends SIGUSR1 when its handler is set. */
#include "jobk.h"

static void on_term(int signal_number)
{
    (void)signal_number;
    note(1);
    _exit(0);
}

static void run_child(void)
{
    struct sigaction action = { .sa_handler = on_term };
    sigemptyset(&action.sa_mask);
    sigaction(SIGTERM, &action, NULL);
    kill(getppid(), SIGUSR1);
    for (;;)
        pause();
}

static void on_usr1(int signal_number)
{
    (void)signal_number;
}

static void on_alrm(int signal_number)
{
    (void)signal_number;
}

int main(void)
{
    sigset_t usr1, old;
    struct sigaction action = { .sa_handler = on_usr1 };
    sigemptyset(&action.sa_mask);
    sigaction(SIGUSR1, &action, NULL);
    sigemptyset(&usr1);
    sigaddset(&usr1, SIGUSR1);
    sigprocmask(SIG_BLOCK, &usr1, &old);
    pid_t child = fork();
    if (child == 0)
        run_child();
    sigsuspend(&old);
    kill(child, SIGTERM);
    action.sa_handler = on_alrm;
    sigaction(SIGALRM, &action, NULL);
    alarm(5);
    if (waitpid(-1, NULL, 0) < 0) {
        kill(child, SIGKILL);
        waitpid(-1, NULL, 0);
    }
    return 0;
}
