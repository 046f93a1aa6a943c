/* A small init: it runs three services, restarts one that exits, and shuts down in order.
 *
 * A service that exits is restarted, for at most three starts. Then init terminates the others: it sends SIGTERM, and
 * after two seconds SIGKILL to those left. The second service ignores SIGTERM, the third cleans up.
 *
 * SIGCHLD and SIGALRM are blocked except while init waits in sigsuspend. SIGTERM is blocked from before the fork until
 * a service has set its action, so no service is killed by an early SIGTERM.
 */
#include "jobk.h"

#define SERVICES 3
#define STARTS 3
#define PATIENCE 2

static pid_t pids[SERVICES];
static int starts[SERVICES];
static sigset_t open_mask;
static volatile sig_atomic_t is_late;

static void on_chld(int signal_number)
{
    (void)signal_number;
}

static void on_alrm(int signal_number)
{
    (void)signal_number;
    is_late = 1;
}

static void on_term(int signal_number)
{
    note(signal_number);
    _exit(0);
}

static void serve(int service)
{
    struct sigaction action = { .sa_handler = SIG_IGN };
    if (service == 0)
        _exit(1);
    if (service == 2)
        action.sa_handler = on_term;
    sigaction(SIGTERM, &action, NULL);
    sigprocmask(SIG_SETMASK, &open_mask, NULL);
    for (;;)
        pause();
}

static void start(int service)
{
    pid_t pid = fork();
    if (pid == 0)
        serve(service);
    pids[service] = pid;
    starts[service]++;
}

static int service_of(pid_t pid)
{
    for (int i = 0; i < SERVICES; i++)
        if (pids[i] == pid)
            return i;
    return -1;
}

/* Reaps one process. Returns its service, or -1 if there is none. */
static int collect(void)
{
    int status = 0, service = -1;
    pid_t pid = waitpid(-1, &status, WNOHANG);
    if (pid > 0) {
        service = service_of(pid);
        pids[service] = 0;
        note(service * 1000 + (WIFSIGNALED(status) ? 500 + WTERMSIG(status) : WEXITSTATUS(status)));
    }
    return service;
}

static int is_any_left(void)
{
    for (int i = 0; i < SERVICES; i++)
        if (pids[i] != 0)
            return 1;
    return 0;
}

static void send_all(int signal_number)
{
    for (int i = 0; i < SERVICES; i++)
        if (pids[i] != 0)
            kill(pids[i], signal_number);
}

/* Restarts services that exit, until one has exited too often. */
static void watch(void)
{
    for (;;) {
        int service = collect();
        if (service < 0)
            sigsuspend(&open_mask);
        else if (starts[service] == STARTS)
            return;
        else
            start(service);
    }
}

static void stop_all(void)
{
    send_all(SIGTERM);
    alarm(PATIENCE);
    while (is_any_left()) {
        if (is_late)
            send_all(SIGKILL);
        is_late = 0;
        if (collect() < 0)
            sigsuspend(&open_mask);
    }
}

int main(void)
{
    sigset_t blocked;
    struct sigaction action = { .sa_handler = on_chld };
    sigemptyset(&action.sa_mask);
    sigaction(SIGCHLD, &action, NULL);
    action.sa_handler = on_alrm;
    sigaction(SIGALRM, &action, NULL);
    sigemptyset(&blocked);
    sigaddset(&blocked, SIGCHLD);
    sigaddset(&blocked, SIGALRM);
    sigaddset(&blocked, SIGTERM);
    sigprocmask(SIG_BLOCK, &blocked, &open_mask);
    for (int i = 0; i < SERVICES; i++)
        start(i);
    watch();
    stop_all();
    return 0;
}
