/* Numbers of processes, groups, sessions and users, and what is refused. */
#include "jobk.h"

static void show(int result)
{
    note(result);
    if (result < 0)
        note(errno);
}

static void run_child(void)
{
    note(getpid());
    note(getppid());
    note(getpgrp());
    note(getpgid(1));
    note(getsid(0));
    show(setpgid(0, 0));
    show(setsid());
    show(tcgetpgrp(0));
    show(setpgid(0, 1));
    _exit(0);
}

static void leave_rights(void)
{
    show(setuid(5));
    note(getuid());
    note(geteuid());
    note(getgid());
    show(seteuid(0));
    show(kill(1, 0));
    show(setegid(3));
    _exit(0);
}

int main(void)
{
    note(getpid());
    note(getpgrp());
    note(getsid(0));
    show(setpgid(77, 0));
    show(tcgetpgrp(0));
    show(setctty(1));
    note(tcgetpgrp(0));
    note(alarm(100));
    note(alarm(0) > 0);
    if (fork() == 0)
        run_child();
    waitpid(-1, NULL, 0);
    if (fork() == 0)
        leave_rights();
    waitpid(-1, NULL, 0);
    show(setgid(7));
    note(getegid());
    show(settostop(1));
    show(write(1, "done\n", 5));
    return 0;
}
