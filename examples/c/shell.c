/* A shell with job control, and a table of eight jobs: each a process or a pipeline of three, foreground or background.
 *
 * Only the first letter of a command counts; a command can have the number of a job:
 *
 *     cat         a job in the foreground            fg 2        job 2 continues in the foreground
 *     pipe        a pipeline of three                bg 2        job 2 continues in the background
 *     cat &       a job in the background            jobs        shows the table
 *
 * Without a number, fg and bg take the last job. End of file ends the shell. Before each prompt, the shell notes each
 * job whose state has changed, as 100 * its number + its state.
 *
 * SIGCHLD is blocked while the shell uses its table. The handler can change the table only while the shell waits: for a
 * job in sigsuspend, or for a command in read. So no change is missed, and until the shell has finished with a child
 * that has terminated, it stays a zombie, and its process group exists.
 */
#include "jobk.h"

#define JOBS 8
#define WIDTH 3                         /* at most so many processes in a job */

enum state { NONE, RUNNING, STOPPED, DONE };

static pid_t members[JOBS * WIDTH];     /* the processes of each job, side by side */
static int states[JOBS * WIDTH];        /* and the state of each */
static pid_t groups[JOBS];              /* the process group of each job, or 0 */
static int told[JOBS];                  /* the state that was noted last */
static char line[16];                   /* the command */
static sigset_t open_mask;              /* the signal mask while the shell waits, and in its jobs */
static int last;                        /* the job of fg and bg without a number */

/* Records the new state of a process. Only the handler calls this. */
static void mark(pid_t pid, int status)
{
    int i = 0;
    while (i < JOBS * WIDTH && members[i] != pid)
        i++;
    if (i == JOBS * WIDTH)
        return;
    if (WIFSTOPPED(status))
        states[i] = STOPPED;
    else if (WIFCONTINUED(status))
        states[i] = RUNNING;
    else {
        states[i] = DONE;
        members[i] = 0;
    }
}

static void on_chld(int signal_number)
{
    int saved = errno, status = 0;
    pid_t pid;
    (void)signal_number;
    while ((pid = waitpid(-1, &status, WNOHANG | WUNTRACED | WCONTINUED)) > 0)
        mark(pid, status);
    errno = saved;
}

/* Returns the state of a job: it runs while one of its processes runs, and is done once all are done. */
static int state_of(int job)
{
    int state = DONE;
    for (int i = job * WIDTH; i < (job + 1) * WIDTH; i++) {
        if (states[i] == RUNNING)
            return RUNNING;
        if (states[i] == STOPPED)
            state = STOPPED;
    }
    return state;
}

/* Notes the state of a job if it has changed, and forgets the job once it is done. */
static void tell(int job)
{
    int state = state_of(job);
    if (state == told[job])
        return;
    note((job + 1) * 100 + state);
    told[job] = state;
    if (state == DONE)
        groups[job] = 0;
}

static void tell_all(void)
{
    for (int job = 0; job < JOBS; job++)
        if (groups[job] != 0)
            tell(job);
}

/* Sets the signals that a terminal sends: the shell ignores them, its jobs have the default action. */
static void set_terminal_signals(int ignored)
{
    struct sigaction action = { .sa_handler = SIG_DFL };
    if (ignored)
        action.sa_handler = SIG_IGN;
    sigaction(SIGINT, &action, NULL);
    sigaction(SIGTSTP, &action, NULL);
    sigaction(SIGTTIN, &action, NULL);
    sigaction(SIGTTOU, &action, NULL);
}

/* A process of a job. The shell or the job may run first, so both make the group, and both give it the terminal. */
static void run_member(pid_t group, int background)
{
    setpgid(0, group);
    if (!background)
        tcsetpgrp(0, getpgrp());
    set_terminal_signals(0);
    sigprocmask(SIG_SETMASK, &open_mask, NULL);
    execl("cat", "cat", (char *)NULL);
    _exit(127);
}

/* Waits until a foreground job stops or is done, and takes the terminal back. */
static void wait_for(int job)
{
    while (state_of(job) == RUNNING)
        sigsuspend(&open_mask);
    tcsetpgrp(0, getpgrp());
}

static int free_job(void)
{
    for (int job = 0; job < JOBS; job++)
        if (groups[job] == 0)
            return job;
    return -1;
}

/* Starts a job of COUNT processes. */
static void launch(int count, int background)
{
    int job = free_job();
    if (job < 0) {
        note(-1);
        return;
    }
    for (int i = 0; i < count; i++) {
        pid_t pid = fork();
        if (pid == 0)
            run_member(groups[job], background);
        if (pid < 0)
            break;
        if (i == 0)
            groups[job] = pid;
        setpgid(pid, groups[job]);
        members[job * WIDTH + i] = pid;
        states[job * WIDTH + i] = RUNNING;
    }
    if (groups[job] == 0)
        return;
    last = job;
    told[job] = RUNNING;
    if (background)
        return;
    tcsetpgrp(0, groups[job]);
    wait_for(job);
}

/* Continues a job. In the foreground, it gets the terminal first. */
static void resume(int job, int foreground)
{
    if (job < 0 || job >= JOBS || groups[job] == 0) {
        note(-2);
        return;
    }
    last = job;
    told[job] = RUNNING;
    if (foreground)
        tcsetpgrp(0, groups[job]);
    for (int i = job * WIDTH; i < (job + 1) * WIDTH; i++)
        if (states[i] == STOPPED)
            states[i] = RUNNING;
    kill(-groups[job], SIGCONT);
    if (foreground)
        wait_for(job);
}

/* Returns the job that a command of COUNT bytes names, or the last job. */
static int named_job(int count)
{
    for (int i = 0; i < count; i++)
        if (line[i] >= '1' && line[i] <= '8')
            return line[i] - '1';
    return last;
}

static int is_background(int count)
{
    for (int i = 0; i < count; i++)
        if (line[i] == '&')
            return 1;
    return 0;
}

/* Reads a command. Returns the number of its bytes, or 0 at end of file. */
static int read_command(void)
{
    sigset_t blocked;
    write(1, "$ ", 2);
    sigprocmask(SIG_SETMASK, &open_mask, &blocked);
    int count = read(0, line, sizeof line);
    sigprocmask(SIG_SETMASK, &blocked, NULL);
    return count > 0 ? count : 0;
}

static void obey(int count)
{
    switch (line[0]) {
    case 'c':
        launch(1, is_background(count));
        break;
    case 'p':
        launch(WIDTH, is_background(count));
        break;
    case 'f':
        resume(named_job(count), 1);
        break;
    case 'b':
        resume(named_job(count), 0);
        break;
    case 'j':
        for (int job = 0; job < JOBS; job++)
            if (groups[job] != 0)
                note((job + 1) * 100 + state_of(job));
        break;
    case '\n':
        break;
    default:
        note(-3);
    }
}

/* Terminates the jobs that are left, even stopped ones. */
static void leave(void)
{
    for (int job = 0; job < JOBS; job++)
        if (groups[job] != 0) {
            kill(-groups[job], SIGHUP);
            kill(-groups[job], SIGCONT);
        }
}

static void shell(void)
{
    sigset_t chld;
    struct sigaction action = { .sa_handler = on_chld, .sa_flags = SA_RESTART };
    setsid();
    setctty(1);
    set_terminal_signals(1);
    sigemptyset(&chld);
    sigaddset(&chld, SIGCHLD);
    sigprocmask(SIG_BLOCK, &chld, &open_mask);
    sigemptyset(&action.sa_mask);
    sigaction(SIGCHLD, &action, NULL);
    for (;;) {
        int count;
        tell_all();
        count = read_command();
        if (count == 0)
            break;
        obey(count);
    }
    leave();
    _exit(0);
}

int main(void)
{
    pid_t pid = fork();
    if (pid == 0)
        shell();
    while (waitpid(-1, NULL, 0) > 0)
        ;
    return 0;
}
