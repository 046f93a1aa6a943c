/* A real process that makes the system calls that tools/linux/replay orders, and has real signal handlers.
 *
 *     agent MEMORY SOCKET      two open files; replay starts it, and an exec of the world starts it again
 *
 * Replay and all agents share MEMORY. It has a page for each process, indexed by process ID. In its page, an agent
 * waits for an order, carries it out, and appends the outcome to its reports: the result of a call, a call that the
 * kernel would restart, or the entry of a handler. A child begins where its parent was, and takes its own page.
 *
 * The kernel pushes the frames of all signals that it can deliver before the first handler runs. So a handler that
 * begins looks below its own frame, and reports the interrupted call and the handlers that have yet to begin.
 */
#define _GNU_SOURCE
#include <linux/futex.h>
#include <signal.h>
#include <stdint.h>
#include <stdlib.h>
#include <string.h>
#include <sys/mman.h>
#include <sys/prctl.h>
#include <sys/socket.h>
#include <sys/syscall.h>
#include <ucontext.h>
#include <fcntl.h>
#include <unistd.h>

#ifndef __x86_64__
#error "only for x86-64"
#endif

/* Replay knows these numbers, and the layout of a page. */
enum { PAGE = 4096, REPORTS = 40 };
#define BASE ((char *)0x100000000000)
/* The first argument is replaced by a descriptor: of /dev/tty for TERMINAL_CALL, of the file named in `data` for
 * OPENED_CALL. */
enum order { CALL = 1, TERMINAL_CALL, RETURN, FAULT, OPENED_CALL };
enum report { RESULT = 1, RESTART, HANDLER, BEGUN };

struct page {
    uint32_t ordered, taken;        /* counts of the orders given and taken */
    int64_t order, arguments[7];    /* the first argument is the number of the system call, or the signal of a fault */
    int64_t handler, restorer;      /* for sigaction */
    int64_t reports;
    struct { int64_t kind, value[3]; } report[REPORTS];
    char data[1024];                /* the buffers of calls; replay writes and reads them */
};

static struct page *page;
static int births;                  /* the socket on which a new process reports itself */
static ucontext_t *to_begin[64];    /* the frames of handlers that were reported before they began */
static int waiting_to_begin;

/* All calls are made at one place, so a handler can see from the pc whether it interrupted a call, and how. */
long make_call(const int64_t *arguments);
void make_fault(long signal);
void restorer(void);
extern const char call_begins[], call_ends[], segv_begins[], fpe_begins[], fault_ends[];
__asm__(".text\n"
        "make_call:\n"
        "    mov %rdi, %rcx\n"
        "    mov 0(%rcx), %rax\n"
        "    mov 8(%rcx), %rdi\n"
        "    mov 16(%rcx), %rsi\n"
        "    mov 24(%rcx), %rdx\n"
        "    mov 32(%rcx), %r10\n"
        "    mov 40(%rcx), %r8\n"
        "    mov 48(%rcx), %r9\n"
        "call_begins:\n"
        "    syscall\n"
        "call_ends:\n"
        "    ret\n"
        "make_fault:\n"
        "    cmp $8, %rdi\n"
        "    je 1f\n"
        "    xor %ecx, %ecx\n"
        "segv_begins:\n"
        "    mov %eax, (%rcx)\n"
        "fault_ends:\n"
        "    ret\n"
        "1:  xor %ecx, %ecx\n"
        "    xor %edx, %edx\n"
        "fpe_begins:\n"
        "    div %ecx\n"
        "    ret\n"
        "restorer:\n"
        "    mov $15, %eax\n"
        "    syscall\n");

/* What make_call returns if a handler has reported the result. */
enum { TOLD = -100000 };

static void tell(int64_t kind, int64_t a, int64_t b, int64_t c)
{
    int64_t n = page->reports;
    if (n == REPORTS)
        _exit(99);
    page->report[n].kind = kind;
    page->report[n].value[0] = a;
    page->report[n].value[1] = b;
    page->report[n].value[2] = c;
    page->reports = n + 1;
}

/* Takes the page of this process, which may be a new one. */
static void take_page(void)
{
    int number = getpid();
    page = (struct page *)(BASE + (long)PAGE * number);
    page->taken = page->ordered;
    page->reports = 0;
    page->restorer = (int64_t)restorer;
    if (send(births, &number, sizeof number, 0) != sizeof number)
        _exit(98);
}

static void call_on_file(const char *name)
{
    int64_t arguments[7];
    memcpy(arguments, page->arguments, sizeof arguments);
    int file = open(name, O_RDWR | O_NOCTTY);
    if (file < 0) {
        tell(RESULT, -6, 0, 0);
        return;
    }
    arguments[1] = file;
    long result = make_call(arguments);
    if (result != TOLD)
        tell(RESULT, result, 0, 0);
    close(file);
}

/* Carries out orders until a handler must return. */
static void serve(void)
{
    for (;;) {
        while (page->taken == page->ordered)
            syscall(SYS_futex, &page->ordered, FUTEX_WAIT, page->taken, NULL, NULL, 0);
        page->taken = page->ordered;
        if (page->order == RETURN)
            return;
        if (page->order == FAULT) {
            make_fault(page->arguments[0]);
        } else if (page->order == TERMINAL_CALL || page->order == OPENED_CALL) {
            call_on_file(page->order == TERMINAL_CALL ? "/dev/tty" : page->data);
        } else {
            int64_t arguments[7];
            memcpy(arguments, page->arguments, sizeof arguments);
            long result = make_call(arguments);
            if (arguments[0] == SYS_fork && result == 0) {
                int64_t handler = page->handler;
                take_page();
                page->handler = handler;
            } else if (result != TOLD)
                tell(RESULT, result, 0, 0);
        }
    }
}

static int64_t status_word(const siginfo_t *info)
{
    switch (info->si_code) {
    case CLD_EXITED: return info->si_status * 256;
    case CLD_STOPPED: return info->si_status * 256 + 127;
    case CLD_CONTINUED: return 65535;
    default: return info->si_status;
    }
}

static void tell_handler(int signal, const siginfo_t *info)
{
    int64_t value = 0, sender = 0;
    if (signal == SIGCHLD && info->si_code > 0 && info->si_code != SI_KERNEL) {
        value = status_word(info);
        sender = info->si_pid;
    } else if (info->si_code <= 0) {
        value = info->si_code == SI_QUEUE ? (int64_t)info->si_value.sival_ptr : 0;
        sender = info->si_pid;
    }
    tell(HANDLER, signal, value, sender);
}

/* Reports what was interrupted: a call that has returned or would be restarted, which `serve` then doesn't report. Or
 * moves the pc past a fault. */
static void tell_interrupted(ucontext_t *context)
{
    greg_t *r = context->uc_mcontext.gregs;
    if (r[REG_RIP] == (greg_t)call_ends && r[REG_RAX] != TOLD) {
        tell(RESULT, r[REG_RAX], 0, 0);
        r[REG_RAX] = TOLD;
    } else if (r[REG_RIP] == (greg_t)call_begins) {
        tell(RESTART, 0, 0, 0);
        r[REG_RIP] = (greg_t)call_ends;
        r[REG_RAX] = TOLD;
    } else if (r[REG_RIP] == (greg_t)segv_begins || r[REG_RIP] == (greg_t)fpe_begins) {
        r[REG_RIP] = (greg_t)fault_ends;
    }
}

static void handler(int signal, siginfo_t *info, void *own_context);

/* The frames of handlers that have yet to begin are stacked, so the last reported handler begins first. */
static int is_told(const ucontext_t *context)
{
    return waiting_to_begin > 0 && to_begin[waiting_to_begin - 1] == context;
}

/* Reports what is below a frame, unless it is reported already, and then the frame. */
static void tell_frames(int signal, const siginfo_t *info, ucontext_t *context)
{
    greg_t *r = context->uc_mcontext.gregs;
    ucontext_t *below = (ucontext_t *)r[REG_RDX];
    if (r[REG_RIP] != (greg_t)handler) {
        tell_interrupted(context);
    } else if (!is_told(below)) {
        tell_frames((int)r[REG_RDI], (const siginfo_t *)r[REG_RSI], below);
        to_begin[waiting_to_begin++] = below;
    }
    tell_handler(signal, info);
}

static void handler(int signal, siginfo_t *info, void *own_context)
{
    if (is_told(own_context))
        waiting_to_begin--;
    else
        tell_frames(signal, info, own_context);
    serve();
}

int main(int count, char **words)
{
    if (count != 3)
        return 2;
    prctl(PR_SET_DUMPABLE, 0);
    int memory = atoi(words[1]);
    off_t size = lseek(memory, 0, SEEK_END);
    if (size <= 0 || mmap(BASE, size, PROT_READ | PROT_WRITE, MAP_SHARED | MAP_FIXED_NOREPLACE, memory, 0) != BASE)
        return 97;
    births = atoi(words[2]);
    take_page();
    page->handler = (int64_t)handler;
    tell(BEGUN, 0, 0, 0);
    serve();
    return 96;
}
