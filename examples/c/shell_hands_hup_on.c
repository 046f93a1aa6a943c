/* A shell whose terminal hangs up sends SIGHUP to its jobs, and exits once they have terminated. */
#include "jobk.h"

static int jobs[2];

static void on_hup(int signal_number)
{
    (void)signal_number;
    for (int i = 0; i < 2; i++) {
        kill(-jobs[i], SIGHUP);
        kill(-jobs[i], SIGCONT);
    }
}

static void run_job(void)
{
    setpgid(0, 0);
    for (;;)
        pause();
}

int main(void)
{
    int status = 0;
    struct sigaction action = { .sa_handler = on_hup };
    setctty(1);
    for (int i = 0; i < 2; i++) {
        jobs[i] = fork();
        if (jobs[i] == 0)
            run_job();
        setpgid(jobs[i], jobs[i]);
    }
    tcsetpgrp(0, jobs[1]);
    sigemptyset(&action.sa_mask);
    sigaction(SIGHUP, &action, NULL);
    for (;;) {
        if (waitpid(-1, &status, 0) > 0)
            note(status);
        else if (errno == ECHILD)
            return 0;
    }
}
