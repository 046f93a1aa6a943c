/* A shell that runs one job in the foreground, and continues it there after a stop. */
#include "jobk.h"

static void run_job(void)
{
    setpgid(0, 0);
    tcsetpgrp(0, getpid());
    signal(SIGTTOU, SIG_DFL);
    for (;;)
        pause();
}

int main(void)
{
    int status = 0;
    setctty(1);
    signal(SIGTTOU, SIG_IGN);
    pid_t shell = getpgrp();
    pid_t job = fork();
    if (job == 0)
        run_job();
    setpgid(job, job);
    tcsetpgrp(0, job);
    waitpid(job, &status, WUNTRACED);
    note(status);
    tcsetpgrp(0, shell);
    if (WIFSTOPPED(status)) {
        tcsetpgrp(0, job);
        kill(-job, SIGCONT);
        waitpid(job, &status, WUNTRACED);
        note(status);
        tcsetpgrp(0, shell);
    }
    return 0;
}
