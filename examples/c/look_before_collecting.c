/* Looks at a child that has exited, which stays a zombie, and then reaps it. */
#include "jobk.h"

int main(void)
{
    siginfo_t info = { 0 };
    if (fork() == 0)
        _exit(3);
    waitid(P_ALL, 0, &info, WEXITED | WNOWAIT);
    note(info.si_pid);
    note(info.si_status);
    waitpid(info.si_pid, NULL, 0);
    return 0;
}
