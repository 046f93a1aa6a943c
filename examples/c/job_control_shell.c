/* The shell of examples/job_control_shell: ^Z stops its foreground job, and bg and fg continue it. */
#include "jobk.h"

static char line[16];

/* Either the shell or the job may run first, so both make the group, and both give it the terminal. */
static void run_job(void)
{
    setpgid(0, 0);
    tcsetpgrp(0, getpid());
    signal(SIGTTOU, SIG_DFL);
    for (;;) {
        int count = read(0, line, sizeof line);
        if (count == 0)
            _exit(0);
        write(1, line, count);
    }
}

/* Waits until the job stops or terminates, and takes the terminal back. */
static void watch(pid_t shell)
{
    int status = 0;
    waitpid(-1, &status, WUNTRACED);
    note(status);
    tcsetpgrp(0, shell);
}

static void run_shell(void)
{
    pid_t shell = setsid();
    setctty(1);
    signal(SIGTTOU, SIG_IGN);
    pid_t job = fork();
    if (job == 0)
        run_job();
    setpgid(job, job);
    tcsetpgrp(0, job);
    watch(shell);
    while (read(0, line, sizeof line) > 0) {
        int foreground = line[0] != 'b';
        if (foreground)
            tcsetpgrp(0, job);
        kill(-job, SIGCONT);
        if (foreground)
            watch(shell);
    }
    _exit(0);
}

int main(void)
{
    if (fork() == 0)
        run_shell();
    waitpid(-1, NULL, 0);
    return 0;
}
