/* Signals with values, sets, masks, and what is pending. */
#include "jobk.h"

static volatile sig_atomic_t handled;

static void on_value(int signal_number, siginfo_t *info, void *context)
{
    (void)context;
    note(signal_number);
    note(info->si_value.sival_int);
    note(info->si_pid == getpid());
    handled++;
}

static void on_usr1(int signal_number)
{
    note(signal_number);
    handled += 10;
}

static void on_chld(int signal_number, siginfo_t *info, void *context)
{
    (void)signal_number;
    (void)context;
    note(info->si_pid);
    note(info->si_code);
    note(info->si_status);
}

static void catch_signals(void)
{
    struct sigaction action = { .sa_sigaction = on_value, .sa_flags = SA_SIGINFO }, old = { .sa_handler = 0 };
    sigfillset(&action.sa_mask);
    sigaction(SIGRTMIN, &action, NULL);
    sigaction(SIGRTMIN, NULL, &old);
    note((old.sa_flags & (SA_SIGINFO | SA_RESTART)) == SA_SIGINFO);
    note(sigismember(&old.sa_mask, SIGTERM));
    note(sigismember(&old.sa_mask, SIGKILL));
    action.sa_sigaction = on_chld;
    sigaction(SIGCHLD, &action, NULL);
    sigemptyset(&action.sa_mask);
    action.sa_flags = 0;
    action.sa_handler = on_usr1;
    sigaction(SIGUSR1, &action, &old);
    note(old.sa_handler == SIG_DFL);
}

static void wait_with_values(void)
{
    sigset_t blocked, old, pending;
    union sigval value = { .sival_int = -7 };
    sigemptyset(&blocked);
    sigaddset(&blocked, SIGRTMIN);
    sigaddset(&blocked, SIGUSR1);
    note(sigprocmask(SIG_BLOCK, &blocked, &old));
    note(sigismember(&old, SIGUSR1));
    sigqueue(getpid(), SIGRTMIN, value);
    sigqueue(getpid(), SIGRTMIN, (union sigval){ .sival_int = 8 });
    kill(getpid(), SIGUSR1);
    kill(getpid(), SIGUSR1);
    sigpending(&pending);
    note(sigismember(&pending, SIGRTMIN));
    note(sigismember(&pending, SIGUSR2));
    note(handled);
    sigdelset(&blocked, SIGUSR1);
    sigprocmask(SIG_SETMASK, &blocked, NULL);
    note(handled);
    note(sigsuspend(&old));
    note(errno == EINTR);
    note(handled);
    sigprocmask(SIG_SETMASK, NULL, &pending);
    note(sigismember(&pending, SIGRTMIN));
}

int main(void)
{
    catch_signals();
    wait_with_values();
    if (fork() == 0)
        _exit(9);
    note(pause());
    note(wait(NULL));
    note(kill(77, 0));
    note(errno);
    note(kill(1, 99));
    note(errno);
    signal(SIGUSR1, SIG_IGN);
    kill(getpid(), SIGUSR1);
    note(handled);
    return 0;
}
