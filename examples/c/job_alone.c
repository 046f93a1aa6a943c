/* Only the job makes its process group and gives it the terminal. The shell checks whether the group exists. */
#include "jobk.h"

static void run_job(void)
{
    setpgid(0, 0);
    tcsetpgrp(0, getpid());
    signal(SIGTTOU, SIG_DFL);
    execl("reader", "reader", (char *)NULL);
    _exit(127);
}

static void shell(void)
{
    int status = 0;
    setsid();
    setctty(1);
    signal(SIGTTOU, SIG_IGN);
    pid_t job = fork();
    if (job == 0)
        run_job();
    if (kill(-job, 0) < 0)
        note(-errno);
    waitpid(job, &status, WUNTRACED);
    note(status);
    _exit(0);
}

int main(void)
{
    if (fork() == 0)
        shell();
    waitpid(-1, NULL, 0);
    return 0;
}
