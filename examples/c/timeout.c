/* A wait that an alarm ends. Then the child is killed and reaped. */
#include "jobk.h"

static void on_alrm(int signal_number)
{
    (void)signal_number;
}

int main(void)
{
    int status = 0;
    struct sigaction action = { .sa_handler = on_alrm };
    sigemptyset(&action.sa_mask);
    sigaction(SIGALRM, &action, NULL);
    pid_t child = fork();
    if (child == 0)
        for (;;)
            pause();
    alarm(1);
    if (waitpid(child, &status, 0) < 0 && errno == EINTR) {
        kill(child, SIGKILL);
        waitpid(child, &status, 0);
    }
    note(WIFSIGNALED(status) ? WTERMSIG(status) : 0);
    return 0;
}
