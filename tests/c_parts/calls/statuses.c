/* All that a wait reports: ends by exit and by signal, stops and continues, by waitpid and by waitid. */
#include "jobk.h"

static void show(int status)
{
    note(WIFEXITED(status) ? 100 + WEXITSTATUS(status) : 0);
    note(WIFSIGNALED(status) ? 200 + WTERMSIG(status) : 0);
    note(WIFSTOPPED(status) ? 300 + WSTOPSIG(status) : 0);
    note(WIFCONTINUED(status) ? 400 : 0);
}

static void look(pid_t pid, int options)
{
    siginfo_t info = { 0 };
    note(waitid(P_PID, pid, &info, options));
    note(info.si_pid);
    if (info.si_pid != 0) {
        note(info.si_code);
        note(info.si_status);
    }
}

int main(void)
{
    int status = 0;
    pid_t child = fork();
    if (child == 0)
        for (;;)
            pause();
    note(waitpid(child, &status, WNOHANG));
    look(child, WEXITED | WNOHANG);
    setpgid(child, child);
    kill(child, SIGSTOP);
    look(child, WSTOPPED | WNOWAIT);
    note(waitpid(-child, &status, WUNTRACED) == child);
    show(status);
    kill(child, SIGCONT);
    look(child, WCONTINUED | WNOWAIT);
    waitpid(child, &status, WCONTINUED);
    show(status);
    kill(-child, SIGTERM);
    look(child, WEXITED | WNOWAIT);
    waitpid(child, &status, 0);
    show(status);
    if (fork() == 0)
        _exit(300);
    note(waitpid(0, &status, 0) > 0);
    show(status);
    note(waitpid(-1, &status, 0));
    note(errno == ECHILD);
    note(waitid(P_ALL, 0, NULL, WEXITED));
    note(errno == ECHILD);
    note(waitpid(-1, &status, 64));
    note(errno == EINVAL);
    return 0;
}
