/* Arguments, files and outputs of the unproved program, by page/host.js. The proved library uses none of them. */
typedef unsigned long u64;
typedef long i64;

#define OF_PAGE(name) __attribute__((import_module("page"), import_name(#name)))
OF_PAGE(argument) i64 page_argument(u64 i, void *to, u64 room);
OF_PAGE(open) int page_open(const char *name);
OF_PAGE(read) i64 page_read(int fd, void *to, u64 room);
OF_PAGE(write) i64 page_write(int fd, const void *from, u64 count);

static int error;
int rattle_errno(void) { return error; }
void rattle_set_errno(int e) { error = e; }
i64 rattle_arg(u64 i, void *to, u64 room) { return page_argument(i, to, room); }
i64 rattle_env(const char *name, void *to, u64 room) { return -1; }
i64 rattle_env_at(u64 i, void *to, u64 room) { return -1; }

int open(const char *name, int flags, ...)
{
    int fd = page_open(name);
    if (fd < 0) error = 2;
    return fd;
}

i64 read(int fd, void *to, u64 room)
{
    i64 n = page_read(fd, to, room);
    if (n < 0) error = 9;
    return n;
}

i64 write(int fd, const void *from, u64 count)
{
    i64 n = page_write(fd, from, count);
    if (n < 0) error = 28;
    return n;
}

/* There is no terminal, no clock and no signal. The hash keys of the audit's tables are always the same. */
int close(int fd) { return 0; }
i64 lseek(int fd, i64 to, int whence) { error = 29; return -1; }
int isatty(int fd) { return 0; }
int clock_gettime(int clock, i64 *to) { to[0] = to[1] = 0; return 0; }
i64 __sysv_signal(int signal, i64 handler) { return 0; }
int getentropy(void *to, u64 count) { __builtin_memset(to, 7, count); return 0; }
